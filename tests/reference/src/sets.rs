//! The lines of many sets in one call. Each set is put to the definition of the
//! line of a set by itself, under its own ceiling: that such a line is the
//! minimum of lines of single holders is nothing that an answer here relies on.

use crate::lines::{ceiling, hold_lines, holds, line_to_bytes, SendIndex};
use crate::table::Table;
use crate::Outcome;

/// "One call takes up to 256 sets".
pub const MOST_SETS: usize = 256;

/// The call for the lines of many sets. "Each line equals what the single call
/// gives. The answer is one line after another, N numbers each. On success the
/// first N × N numbers of the scratch hold the lines of single holders, process
/// 0 first." On success alone: under 16 the scratch is left as it was, other than
/// that of a keep sheet. No sets have an answer of no bytes, which fits any
/// buffer, and fill the scratch too.
///
/// Checks: the table's, 25, 12, 15, 16.
pub fn lines_of_sets(bytes: &[u8], sets: &[u32], scratch_len: usize, answer_len: usize) -> Outcome {
    let table = match Table::read(bytes) {
        Err(number) => return Outcome::refused(number),
        Ok(table) => table,
    };
    let n = table.processes();
    // 25. There are more than 256 sets.
    if sets.len() > MOST_SETS {
        return Outcome::refused(25);
    }
    // 12. A set has a bit at N or above.
    if sets.iter().any(|&set| (n..32).any(|p| holds(set, p))) {
        return Outcome::refused(12);
    }
    // 15. The scratch is shorter than N × N numbers.
    if scratch_len < n * n {
        return Outcome::refused(15);
    }
    let index = SendIndex::new(&table);
    let mut answer = Vec::new();
    for &set in sets {
        answer.extend(line_to_bytes(&index.latest_under(&ceiling(&table, set))));
    }
    let mut outcome = Outcome::answered(answer, answer_len);
    if outcome.number == 0 {
        let lines = hold_lines(&table);
        let entries = lines.iter().flatten();
        outcome.lines = Some(
            entries
                .map(|&number| u16::try_from(number).expect("a line entry is at most its count"))
                .collect(),
        );
    }
    outcome
}
