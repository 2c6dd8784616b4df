//! The Rust side: what the original's board makes of a sheet, and its text.

use super::reader::{self, Sheet};
use selen_oracle::constraints::gac_bitset::BitSetGAC;
use selen_oracle::constraints::gac_hybrid::Variable;
use std::fmt::Write;

fn variable(id: u32) -> Variable {
    Variable(id as usize)
}

/// The leftmost listed id that is unknown or stood earlier: the paper's refusals, which the original doesn't have.
fn refusal(known: &[u32], list: &[u32]) -> Option<(u32, usize)> {
    list.iter().enumerate().find_map(|(place, id)| {
        if !known.contains(id) {
            Some((6, place))
        } else if list[..place].contains(id) {
            Some((7, place))
        } else {
            None
        }
    })
}

fn board(sheet: &Sheet) -> String {
    let mut gac = BitSetGAC::new();
    let mut order: Vec<u32> = Vec::new();
    for &(id, min, max) in &sheet.destinations {
        gac.add_variable(variable(id), min, max);
        if !order.contains(&id) {
            order.push(id);
        }
    }
    for &(kind, id, value) in &sheet.closings {
        let id = variable(id);
        match kind {
            1 => gac.remove_value(id, value),
            2 => gac.assign_variable(id, value),
            3 => gac.remove_below(id, value),
            _ => gac.remove_above(id, value),
        };
    }
    let mut lines = String::new();
    for (index, list) in sheet.lists.iter().enumerate() {
        match refusal(&order, list) {
            Some((number, place)) => writeln!(lines, "L {index} R {number} {place}").unwrap(),
            None => {
                let ids: Vec<Variable> = list.iter().map(|id| variable(*id)).collect();
                let (changed, consistent) = gac.propagate_alldiff(&ids);
                writeln!(lines, "L {index} {} {}", changed as u8, consistent as u8).unwrap();
            }
        }
    }
    let mut text = String::new();
    for id in order {
        let size = gac.domain_size(variable(id));
        match gac.get_bounds(variable(id)) {
            Some((min, max)) => writeln!(text, "D {id} {size} {min} {max}").unwrap(),
            None => writeln!(text, "D {id} {size} - -").unwrap(),
        }
    }
    text + &lines
}

/// What the wave prints of a sheet.
pub fn wave(text: &[u8], fault: bool) -> String {
    match reader::read(text, fault) {
        Ok(sheet) => board(&sheet),
        Err(place) => format!("R 15 {place}\n"),
    }
}
