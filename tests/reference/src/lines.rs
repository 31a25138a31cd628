//! Lines: orphans, consistency, and the latest consistent line under a
//! ceiling, found in two ways. The ceiling is lent, or is that of a set: every
//! line here is the line under some ceiling.

use std::cmp::Reverse;
use std::collections::VecDeque;

use crate::table::{put, Message, Table};
use crate::Outcome;

/// "A line is one number for each process."
pub type Line = Vec<u32>;

/// "A message (j, y) to (i, r) with r not 0 is an orphan of line L when y >= L
/// of j and r <= L of i". With r the count of i this is so of lines that stand
/// at the new state of i alone: "The new state has received it."
pub fn is_orphan(message: &Message, line: &[u32]) -> bool {
    message.received != 0
        && message.sent >= line[message.sender]
        && message.received <= line[message.receiver]
}

/// "A line without orphans is consistent."
pub fn is_consistent(table: &Table, line: &[u32]) -> bool {
    !table
        .messages
        .iter()
        .any(|message| is_orphan(message, line))
}

/// "A set of processes that hold (do not save) is a 32-bit number in which
/// process p is bit p."
pub fn holds(set: u32, p: usize) -> bool {
    p < 32 && (set >> p) & 1 == 1
}

/// The set in which only process p holds: "some line whose holding set is a
/// single process".
pub fn single_holder(p: usize) -> u32 {
    1 << p
}

/// The set of all n processes: "The line of all processes is the recovery line
/// of the run."
pub fn all_hold(n: usize) -> u32 {
    (0..n).map(single_holder).sum()
}

/// The ceiling of a set: "A holding set becomes one kind of ceiling". "a
/// holding process may stand at no later than its last state, count - 1; any
/// other may also stand at its new state, numbered count". What is unsaved is
/// then received before the line: "The line of a set of failed branches thereby
/// counts the unsaved work of the others."
pub fn ceiling(table: &Table, set: u32) -> Line {
    table
        .counts
        .iter()
        .enumerate()
        .map(|(p, &count)| if holds(set, p) { count - 1 } else { count })
        .collect()
}

/// "so a latest one exists under any ceiling." Found for small tables by
/// trying every line at or below the ceiling: the consistent ones are kept and
/// their place-by-place largest is the answer. Panics if that one is not
/// consistent, which would speak against the sentence.
pub fn line_by_enumeration(table: &Table, ceiling: &[u32]) -> Line {
    let n = ceiling.len();
    let mut latest: Option<Line> = None;
    let mut line = vec![0; n];
    loop {
        if is_consistent(table, &line) {
            latest = Some(match latest {
                None => line.clone(),
                Some(best) => larger(&best, &line),
            });
        }
        // The next line, counted up like the digits of a number.
        let mut p = 0;
        while p < n && line[p] == ceiling[p] {
            line[p] = 0;
            p += 1;
        }
        if p == n {
            break;
        }
        line[p] += 1;
    }
    let latest = latest.expect("the line of zeros is consistent");
    assert!(
        is_consistent(table, &latest),
        "the largest of the consistent lines is consistent"
    );
    latest
}

/// "of two consistent lines the place-by-place larger".
pub fn larger(one: &[u32], other: &[u32]) -> Line {
    one.iter().zip(other).map(|(&a, &b)| a.max(b)).collect()
}

/// The received messages of a table, ready for the work list: for each sender
/// its messages from the latest send number to the earliest.
pub struct SendIndex {
    by_sender: Vec<Vec<Message>>,
}

impl SendIndex {
    /// Sorts the messages. "A waiting message is never an orphan", so those
    /// are left out.
    pub fn new(table: &Table) -> SendIndex {
        let mut by_sender = vec![Vec::new(); table.processes()];
        for message in table.messages.iter().filter(|message| !message.waiting()) {
            by_sender[message.sender].push(*message);
        }
        for sends in &mut by_sender {
            sends.sort_by_key(|message| Reverse(message.sent));
        }
        SendIndex { by_sender }
    }

    /// "so a latest one exists under any ceiling." Found with a work list of
    /// the processes whose line entry fell. When the entry of a sender falls,
    /// further messages of its own come to lie at or after it; each of them
    /// keeps its receiver below the receipt from then on, and is never looked
    /// at again.
    pub fn latest_under(&self, ceiling: &[u32]) -> Line {
        let n = ceiling.len();
        let mut line = ceiling.to_vec();
        let mut next = vec![0; n];
        let mut on_list = vec![true; n];
        let mut work: VecDeque<usize> = (0..n).collect();
        while let Some(j) = work.pop_front() {
            on_list[j] = false;
            let undone = self.by_sender[j][next[j]..]
                .iter()
                .take_while(|message| message.sent >= line[j])
                .count();
            for at in next[j]..next[j] + undone {
                let Message {
                    receiver, received, ..
                } = self.by_sender[j][at];
                if received <= line[receiver] {
                    line[receiver] = received - 1;
                    if !on_list[receiver] {
                        on_list[receiver] = true;
                        work.push_back(receiver);
                    }
                }
            }
            next[j] += undone;
        }
        line
    }
}

/// "the latest consistent line at or below all ceilings.", found with the work
/// list of [`SendIndex::latest_under`]. Fit for the largest tables.
pub fn line_by_work_list(table: &Table, ceiling: &[u32]) -> Line {
    SendIndex::new(table).latest_under(ceiling)
}

/// "The line of the set is the latest consistent line under that ceiling."
pub fn line_of_holders(table: &Table, set: u32) -> Line {
    line_by_work_list(table, &ceiling(table, set))
}

/// "The line of all processes is the recovery line of the run."
pub fn line_of_run(table: &Table) -> Line {
    line_of_holders(table, all_hold(table.processes()))
}

/// The N lines "whose holding set is a single process", "the line of holding
/// process 0 first".
pub fn hold_lines(table: &Table) -> Vec<Line> {
    let index = SendIndex::new(table);
    (0..table.processes())
        .map(|p| index.latest_under(&ceiling(table, single_holder(p))))
        .collect()
}

/// "As an answer it is N 16-bit numbers by process, 2N bytes."
pub fn line_to_bytes(line: &[u32]) -> Vec<u8> {
    let mut bytes = Vec::new();
    for &number in line {
        put(&mut bytes, number as usize);
    }
    bytes
}

/// The call for the recovery line: "The line of all processes is the recovery
/// line of the run."
///
/// Checks: the table's, 16.
pub fn recovery_line(bytes: &[u8], answer_len: usize) -> Outcome {
    match Table::read(bytes) {
        Err(number) => Outcome::refused(number),
        Ok(table) => Outcome::answered(line_to_bytes(&line_of_run(&table)), answer_len),
    }
}

/// The call for the line of a set: "The line of the set is the latest
/// consistent line under that ceiling."
///
/// Checks: the table's, 12, 16.
pub fn line_of_set(bytes: &[u8], set: u32, answer_len: usize) -> Outcome {
    let table = match Table::read(bytes) {
        Err(number) => return Outcome::refused(number),
        Ok(table) => table,
    };
    // 12. A set has a bit at N or above.
    if (table.processes()..32).any(|p| holds(set, p)) {
        return Outcome::refused(12);
    }
    Outcome::answered(line_to_bytes(&line_of_holders(&table, set)), answer_len)
}

/// The call for the line under lent ceilings, "one ceiling for each process, a
/// state number up to and including its count, where the count stands for the
/// new state. The answer is the latest consistent line at or below all
/// ceilings."
///
/// Checks: the table's, 17, 18, 16.
pub fn line_under(bytes: &[u8], ceilings: &[u16], answer_len: usize) -> Outcome {
    let table = match Table::read(bytes) {
        Err(number) => return Outcome::refused(number),
        Ok(table) => table,
    };
    // 17. The list of ceilings does not have N numbers.
    if ceilings.len() != table.processes() {
        return Outcome::refused(17);
    }
    // 18. A ceiling is above its process's count.
    let ceiling: Line = ceilings.iter().map(|&number| u32::from(number)).collect();
    if (0..ceiling.len()).any(|p| ceiling[p] > table.counts[p]) {
        return Outcome::refused(18);
    }
    let line = line_by_work_list(&table, &ceiling);
    Outcome::answered(line_to_bytes(&line), answer_len)
}
