// The crate and the library together: the paper's cases about the board, trials, refusals, damaged states.
use pirozhkan::{Board, Bounds, Closing, Kind, Pair, Refusal, Value, Variable, WORDS};

fn values(from: i32, to: i32) -> Vec<Value> {
    (from..=to).map(Value).collect()
}

fn ids(n: u32) -> Vec<Variable> {
    (1..=n).map(Variable).collect()
}

fn pair(changed: bool, consistent: bool) -> Result<Pair, Refusal> {
    Ok(Pair { changed, consistent })
}

fn board_of<'a>(words: &'a mut [u64], domains: &[(i32, i32)]) -> Board<'a> {
    let mut board = Board::new(words).unwrap();
    for (id, domain) in (1..).zip(domains) {
        board.add_variable(Variable(id), Value(domain.0), Value(domain.1)).unwrap();
    }
    board
}

fn held(board: &Board, id: u32) -> Vec<Value> {
    board.get_domain_values(Variable(id)).unwrap()
}

#[test]
fn cases_7_to_11() {
    let mut words = [0; WORDS];
    let mut board = board_of(&mut words, &[(5, 5), (5, 5)]);
    assert_eq!(board.propagate_alldiff(&ids(2)), pair(true, false));
    assert_eq!(held(&board, 2), []);

    let mut board = board_of(&mut words, &[(1, 2), (1, 2), (1, 4)]);
    assert_eq!(board.propagate_alldiff(&ids(3)), pair(true, true));
    assert_eq!(held(&board, 3), values(3, 4));

    let mut board = board_of(&mut words, &[(1, 2), (1, 2), (1, 2)]);
    assert_eq!(board.propagate_alldiff(&ids(3)), pair(false, false));
    assert_eq!(held(&board, 3), []);

    let mut board = board_of(&mut words, &[(1, 2), (1, 2), (1, 9), (1, 9), (1, 9), (1, 9)]);
    assert_eq!(board.propagate_alldiff(&ids(6)), pair(true, true));
    for id in 3..=6 {
        assert_eq!(held(&board, id), values(3, 9));
    }

    let mut board = board_of(&mut words, &[(1, 2), (1, 2), (1, 9), (1, 9), (1, 9), (1, 9), (1, 9)]);
    assert_eq!(board.propagate_alldiff(&ids(7)), pair(false, true));
    for id in 3..=7 {
        assert_eq!(held(&board, id), values(1, 9));
    }
}

// The second is assigned only as step 1 runs, so the third keeps 2.
#[test]
fn newly_assigned_ids_do_not_join_step_1() {
    let mut words = [0; WORDS];
    let mut board = board_of(&mut words, &[(1, 1), (1, 2), (2, 3), (1, 9), (1, 9), (1, 9), (1, 9)]);
    board.reset_changed_flag().unwrap();
    assert_eq!(board.propagate_alldiff(&ids(7)), pair(true, true));
    assert_eq!((held(&board, 1), held(&board, 2), held(&board, 3)), (values(1, 1), values(2, 2), values(2, 3)));
    for id in 4..=7 {
        assert_eq!(held(&board, id), values(2, 9));
    }
    assert_eq!(board.domains_changed(), Ok(true));
}

#[test]
fn questions() {
    let mut words = [0; WORDS];
    let mut board = Board::new(&mut words).unwrap();
    let id = Variable(u32::MAX);
    assert_eq!(board.domains_changed(), Ok(false));
    board.add_variable_with_values(id, &[Value(9), Value(-3), Value(100)]).unwrap();
    board.add_variable(Variable(0), Value(i32::MIN), Value(i32::MIN)).unwrap();
    assert_eq!(board.domains_changed(), Ok(true));
    board.reset_changed_flag().unwrap();
    assert_eq!(board.domains_changed(), Ok(false));
    assert_eq!(board.variables(), Ok(vec![id, Variable(0)]));
    assert_eq!(board.get_domain_values(id), Ok(vec![Value(-3), Value(9), Value(100)]));
    assert_eq!(board.get_domain_values_into(id, &mut [Value(0); 2]), Err(Refusal::NoRoom));
    assert_eq!(board.get_bounds(id), Ok(Bounds { min: Value(-3), max: Value(100) }));
    assert_eq!(board.get_bounds(Variable(5)), Err(Refusal::Empty));
    assert_eq!(board.assigned_value(Variable(0)), Ok(Value(i32::MIN)));
    assert_eq!(board.assigned_value(id), Err(Refusal::Empty));
    assert_eq!((board.is_assigned(Variable(0)), board.is_assigned(id)), (Ok(true), Ok(false)));
    assert_eq!((board.is_inconsistent(id), board.is_inconsistent(Variable(5))), (Ok(false), Ok(true)));
    assert_eq!((board.remove_value(id, Value(9)), board.remove_value(id, Value(9))), (Ok(true), Ok(false)));
    assert_eq!((board.remove_below(id, Value(0)), board.remove_above(id, Value(100))), (Ok(true), Ok(false)));
    assert_eq!(board.ready(&[id, Variable(0)]), Ok(true));
    assert_eq!(board.ready(&[id, Variable(0), Variable(5)]), Err(Refusal::Unknown(2)));
    assert_eq!(board.propagate_alldiff(&[id, id]), Err(Refusal::Repeated(1)));
    assert_eq!(board.ready(&[id; 65]), Err(Refusal::TooLong));
    assert_eq!((board.assign_variable(id, Value(7)), board.domain_size(id)), (Ok(true), Ok(0)));
}

#[test]
fn batches() {
    let mut words = [0; WORDS];
    let mut board = board_of(&mut words, &[(1, 9), (1, 9)]);
    let closing = |kind, id, value| Closing { kind, id: Variable(id), value: Value(value) };
    let run = [
        closing(Kind::Remove, 1, 5),
        closing(Kind::Remove, 1, 5),
        closing(Kind::Below, 1, 4),
        closing(Kind::Above, 1, 8),
        closing(Kind::Assign, 2, 3),
        closing(Kind::Assign, 3, 3),
    ];
    assert_eq!(board.batch(&run), Ok(4));
    assert_eq!((held(&board, 1), held(&board, 2)), (vec![Value(4), Value(6), Value(7), Value(8)], values(3, 3)));
    assert_eq!(board.batch(&[]), Ok(0));
    assert_eq!(board.batch(&[closing(Kind::Remove, 1, 4); 256]), Ok(1));
    assert_eq!(board.batch(&[closing(Kind::Remove, 1, 6); 257]), Err(Refusal::TooLong));
    assert_eq!(held(&board, 1), values(6, 8));
}

#[test]
fn sheets() {
    let sheet = b"4\n20 1 3\n21 1 3\n22 1 2\n23 7 7\n2\n1 20 3\n2 21 2\n2\n3 20 21 22\n2 20 99\n";
    let text = b"D 20 1 1 1\nD 21 1 2 2\nD 22 0 - -\nD 23 1 7 7\nL 0 1 0\nL 1 R 6 1\n";
    assert_eq!(pirozhkan::wave(sheet), Ok(text.to_vec()));
    assert_eq!(pirozhkan::wave(&sheet[..9]), Ok(b"R 15 9\n".to_vec()));
    assert_eq!(pirozhkan::wave_into(sheet, &mut [0; 5]), Err(Refusal::NoRoom));
}

#[test]
fn nested_trial() {
    let mut words = [0; WORDS];
    let mut board = board_of(&mut words, &[(1, 9)]);
    assert_eq!(board.restore(), Err(Refusal::NoMark));
    board.mark().unwrap();
    assert_eq!(board.add_variable(Variable(2), Value(1), Value(2)), Err(Refusal::TrialOpen));
    assert_eq!(board.remove_above(Variable(1), Value(7)), Ok(true));
    board.mark().unwrap();
    assert_eq!(board.assign_variable(Variable(1), Value(4)), Ok(true));
    board.mark().unwrap();
    assert_eq!(board.remove_value(Variable(1), Value(4)), Ok(true));
    board.restore().unwrap();
    assert_eq!(held(&board, 1), values(4, 4));
    board.keep().unwrap();
    assert_eq!(held(&board, 1), values(4, 4));
    board.restore().unwrap();
    assert_eq!(held(&board, 1), values(1, 9));
    assert_eq!(board.keep(), Err(Refusal::NoMark));
    for _ in 0..8 {
        board.mark().unwrap();
    }
    assert_eq!(board.mark(), Err(Refusal::TooDeep));
}

// 64 destinations, some over fewer values than a mask has room for.
fn full(words: &mut [u64]) {
    let mut board = Board::new(words).unwrap();
    for i in 0..64 {
        let most = if i % 3 == 0 { 127 } else { 90 };
        board.add_variable(Variable(1000 * i as u32), Value(i), Value(i + most)).unwrap();
    }
    assert_eq!(board.add_variable(Variable(1), Value(1), Value(2)), Err(Refusal::Full));
    for _ in 0..3 {
        board.mark().unwrap();
    }
}

#[test]
fn too_few_words_and_words_past_the_board() {
    let mut words = [0x5a5a; WORDS + 8];
    full(&mut words);
    assert!(words[WORDS..].iter().all(|w| *w == 0x5a5a));
    for n in 0..WORDS {
        assert_eq!(Board::open(&mut words[..n]).err(), Some(Refusal::NoRoom));
    }
    assert_eq!(Board::new(&mut words[..WORDS - 1]).err(), Some(Refusal::NoRoom));
    assert_eq!(Board::open(&mut words).unwrap().domain_size(Variable(0)), Ok(128));
}

// Every byte of a good state changed in turn: the words are refused as they came, or they are a board.
#[test]
fn damaged_states() {
    let mut good = [0; WORDS];
    full(&mut good);
    let (mut boards, mut broken) = (0, 0);
    for word in 0..WORDS {
        for byte in 0..8 {
            let mut bad = good;
            bad[word] ^= 0x81 << (8 * byte);
            let mut words = bad;
            let mut board = match Board::open(&mut words) {
                Ok(board) => board,
                Err(why) => {
                    assert_eq!((why, words), (Refusal::Broken, bad));
                    broken += 1;
                    continue;
                }
            };
            board.remove_value(Variable(3000), Value(50)).unwrap();
            board.variables().unwrap();
            assert_ne!(board.restore(), Err(Refusal::Broken));
            boards += 1;
        }
    }
    assert!(boards > 0 && broken > 0, "{boards} boards, {broken} refused");
}
