//! Three destinations share chutes: a guess is tried, and undone where it leaves a destination without a chute.
use pirozhkan::{Board, Refusal, Value, Variable, WORDS};

fn main() -> Result<(), Refusal> {
    let mut words = [0; WORDS];
    let mut board = Board::new(&mut words)?;
    let list = [Variable(20), Variable(21), Variable(22)];
    board.add_variable(list[0], Value(1), Value(3))?;
    board.add_variable(list[1], Value(1), Value(2))?;
    board.add_variable(list[2], Value(1), Value(2))?;
    for guess in [Value(1), Value(3)] {
        board.mark()?;
        board.assign_variable(list[0], guess)?;
        if board.propagate_alldiff(&list)?.consistent {
            board.keep()?;
            break;
        }
        board.restore()?;
    }
    for id in list {
        println!("{}: {:?}", id.0, board.get_domain_values(id)?);
    }
    Ok(())
}
