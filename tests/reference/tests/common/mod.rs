//! 16-bit numbers as bytes, tables written out and without messages, examples A
//! and D, the small tables, and all lists of ceilings.
#![allow(dead_code)]

use reference::gen::all_tables;
use reference::table::State;
use reference::{Message, Table};

/// Numbers as a table has them: 16 bits, low byte first.
pub fn numbers(list: &[u16]) -> Vec<u8> {
    list.iter()
        .flat_map(|number| number.to_le_bytes())
        .collect()
}

/// A table of these counts and messages, each from its send to its receipt.
pub fn table(counts: &[u32], messages: &[(State, State)]) -> Table {
    Table {
        counts: counts.to_vec(),
        messages: messages
            .iter()
            .map(|&(send, receipt)| Message::new(send, receipt))
            .collect(),
    }
}

pub fn example_a() -> Table {
    let messages = [
        ((0, 0), (1, 2)),
        ((1, 0), (0, 1)),
        ((1, 1), (0, 2)),
        ((0, 2), (1, 2)),
        ((1, 2), (0, 0)),
    ];
    table(&[3, 3], &messages)
}

pub fn example_d() -> Table {
    table(&[2, 2], &[((0, 1), (1, 1)), ((1, 0), (0, 1))])
}

/// A table without messages: each process keeps its last state alone.
pub fn of_counts(counts: &[u16]) -> Vec<u8> {
    numbers(&[&[counts.len() as u16, 0], counts].concat())
}

/// The small tables whose every ceiling is tried.
pub fn small_tables() -> impl Iterator<Item = Table> {
    [(2, 2, 4), (2, 3, 3), (2, 4, 2), (3, 2, 2), (3, 3, 1)]
        .into_iter()
        .flat_map(|(n, c, m)| all_tables(n, c, m))
}

/// Every list of numbers at or below the given ones, place by place: as a call
/// takes them, or as a line has them.
pub fn all_at_or_below<Number: Copy + From<u16>>(top: &[u32]) -> Vec<Vec<Number>> {
    let mut lists = vec![Vec::new()];
    for &most in top {
        let longer = |list: &Vec<Number>, at: u16| [&list[..], &[at.into()]].concat();
        lists = lists
            .iter()
            .flat_map(|list| (0..=most as u16).map(move |at| longer(list, at)))
            .collect();
    }
    lists
}
