//! The keep sheet, straight from its definition.

use crate::lines::{hold_lines, Line};
use crate::table::{put, Table};
use crate::Outcome;

/// What is kept: the retained states by process and then state, and the
/// positions of the retained messages, rising.
#[derive(Clone, Debug, PartialEq, Eq)]
pub struct Sheet {
    /// (process, state) pairs, K of them.
    pub states: Vec<(usize, u32)>,
    /// Positions, Q of them.
    pub messages: Vec<usize>,
}

impl Sheet {
    /// "K and Q; then two parallel arrays of K, process and state, by process
    /// and then state; then Q positions, rising."
    pub fn to_bytes(&self) -> Vec<u8> {
        let mut bytes = Vec::new();
        put(&mut bytes, self.states.len());
        put(&mut bytes, self.messages.len());
        for &(process, _) in &self.states {
            put(&mut bytes, process);
        }
        for &(_, state) in &self.states {
            put(&mut bytes, state as usize);
        }
        for &position in &self.messages {
            put(&mut bytes, position);
        }
        bytes
    }
}

/// "State c of process i is kept when some line whose holding set is a single
/// process has c at i and c is below the count of i."
pub fn state_is_kept(table: &Table, lines: &[Line], i: usize, c: u32) -> bool {
    c < table.counts[i] && lines.iter().any(|line| line[i] == c)
}

/// "A message is kept when it is waiting, or when for some such line y < L of
/// its sender and L of its receiver < r." An unsaved message does not wait, and
/// its r is the count of its receiver.
pub fn message_is_kept(table: &Table, lines: &[Line], position: usize) -> bool {
    let message = &table.messages[position];
    message.waiting()
        || lines.iter().any(|line| {
            message.sent < line[message.sender] && line[message.receiver] < message.received
        })
}

/// What is kept, when `lines` are the lines "whose holding set is a single
/// process": every state and every message is put to the definition.
pub fn kept_under(table: &Table, lines: &[Line]) -> Sheet {
    let mut states = Vec::new();
    for i in 0..table.processes() {
        for c in 0..table.counts[i] {
            if state_is_kept(table, lines, i, c) {
                states.push((i, c));
            }
        }
    }
    let messages = (0..table.messages.len())
        .filter(|&position| message_is_kept(table, lines, position))
        .collect();
    Sheet { states, messages }
}

/// The sheet of a table: [`kept_under`] its N hold lines. "State c of process
/// i is kept when some line whose holding set is a single process has c at i".
pub fn kept(table: &Table) -> Sheet {
    kept_under(table, &hold_lines(table))
}

/// The call for the keep sheet. "A refusal writes nothing, except that under
/// 16 for a keep sheet the scratch holds the lines."
///
/// Checks: the table's, 15, 16.
pub fn keep_sheet(bytes: &[u8], scratch_len: usize, answer_len: usize) -> Outcome {
    let table = match Table::read(bytes) {
        Err(number) => return Outcome::refused(number),
        Ok(table) => table,
    };
    // 15. The scratch is shorter than N × N numbers.
    if scratch_len < table.processes() * table.processes() {
        return Outcome::refused(15);
    }
    let lines = hold_lines(&table);
    let mut outcome = Outcome::answered(kept_under(&table, &lines).to_bytes(), answer_len);
    outcome.lines = Some(
        lines
            .iter()
            .flatten()
            .map(|&number| u16::try_from(number).expect("a line entry is at most its count"))
            .collect(),
    );
    outcome
}
