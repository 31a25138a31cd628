//! Steps: send, save, receive and fall back, first on values, then as calls on
//! bytes.

use crate::lines::{line_of_run, Line};
use crate::table::{Message, Table, MOST_MESSAGES, MOST_STATES};
use crate::Outcome;

/// "Send from j to i: an entry (j, count of j - 1), (i, 0) is added at the end
/// of both arrays."
pub fn do_send(table: &mut Table, j: usize, i: usize) {
    let latest = table.counts[j] - 1;
    table.messages.push(Message::new((j, latest), (i, 0)));
}

/// "Save by i with a strictly rising list of positions of messages waiting for
/// i: their receipt number becomes the old count of i, and the count grows by
/// one." And "A save saves what was received before it": what is unsaved has
/// the old count as its receipt number already, and that is below the new one.
pub fn do_save(table: &mut Table, i: usize, list: &[usize]) {
    let saved = table.counts[i];
    for &position in list {
        table.messages[position].received = saved;
    }
    table.counts[i] = saved + 1;
}

/// "A step that receives is added: it takes a process and a list as a save does,
/// and gives the listed messages that number", the count of the process. The
/// count stays.
pub fn do_receive(table: &mut Table, i: usize, list: &[usize]) {
    for &position in list {
        table.messages[position].received = table.counts[i];
    }
}

/// What a fall back did, apart from the table it left.
pub struct Rollback {
    /// The line it went to: "with L the recovery line".
    pub line: Line,
    /// For each old position the new one, or `None` for a removed message.
    pub moved_to: Vec<Option<usize>>,
}

/// "Fall back: with L the recovery line, each count becomes L + 1. A message
/// with y >= L of its sender is removed. Of the others, one with r > L of its
/// receiver is waiting again. Order is kept." An unsaved message is among these,
/// since L is below every count: "A fall back makes such a message waiting again
/// if its send remains."
pub fn do_fall_back(table: &mut Table) -> Rollback {
    let line = line_of_run(table);
    let mut moved_to = Vec::new();
    let mut left = Vec::new();
    for message in &table.messages {
        if message.sent >= line[message.sender] {
            moved_to.push(None);
            continue;
        }
        let mut stays = *message;
        if stays.received > line[stays.receiver] {
            stays.received = 0;
        }
        moved_to.push(Some(left.len()));
        left.push(stays);
    }
    table.messages = left;
    table.counts = line.iter().map(|&at| at + 1).collect();
    Rollback { line, moved_to }
}

/// Whether check 13 catches the list of a save or receipt: it "has a position of
/// M or above, or not above the one before it, or of a message not waiting for
/// that process."
pub fn list_is_bad(table: &Table, i: usize, list: &[u16]) -> bool {
    let beyond = list
        .iter()
        .any(|&position| usize::from(position) >= table.messages.len());
    let not_rising = list.windows(2).any(|pair| pair[1] <= pair[0]);
    beyond
        || not_rising
        || list.iter().any(|&position| {
            let message = &table.messages[usize::from(position)];
            message.receiver != i || !message.waiting()
        })
}

/// Whether check 24 catches the list of a save or receipt that 13 does not: it
/// "passes over an older waiting message of its channel". That is a listed
/// position and an earlier one of the same sender and receiver that waits and is
/// not listed.
pub fn passes_over(table: &Table, list: &[usize]) -> bool {
    let mut listed = vec![false; table.messages.len()];
    list.iter().for_each(|&position| listed[position] = true);
    list.iter().any(|&taken| {
        (0..taken).any(|older| {
            let message = &table.messages[older];
            message.same_channel(&table.messages[taken]) && message.waiting() && !listed[older]
        })
    })
}

/// The call for a send: "Send from j to i".
///
/// Checks: the table's, 10, 11, 14, 16.
pub fn send(bytes: &[u8], from: u16, to: u16, answer_len: usize) -> Outcome {
    let mut table = match Table::read(bytes) {
        Err(number) => return Outcome::refused(number),
        Ok(table) => table,
    };
    let (from, to) = (usize::from(from), usize::from(to));
    // 10. A process named in a send, save or receipt is N or above.
    if from >= table.processes() || to >= table.processes() {
        return Outcome::refused(10);
    }
    // 11. A send names one process twice.
    if from == to {
        return Outcome::refused(11);
    }
    // 14. A send meets M = 4,096.
    if table.messages.len() == MOST_MESSAGES {
        return Outcome::refused(14);
    }
    do_send(&mut table, from, to);
    Outcome::answered(table.to_bytes(), answer_len)
}

/// The call for a save: "Save by i with a strictly rising list of positions of
/// messages waiting for i".
///
/// Checks: the table's, 10, 13, 24, 14, 16.
pub fn save(bytes: &[u8], process: u16, list: &[u16], answer_len: usize) -> Outcome {
    let mut table = match Table::read(bytes) {
        Err(number) => return Outcome::refused(number),
        Ok(table) => table,
    };
    let process = usize::from(process);
    // 10. A process named in a send, save or receipt is N or above.
    if process >= table.processes() {
        return Outcome::refused(10);
    }
    // 13. The list.
    if list_is_bad(&table, process, list) {
        return Outcome::refused(13);
    }
    // 24. The list passes over a message.
    let positions: Vec<usize> = list.iter().map(|&position| usize::from(position)).collect();
    if passes_over(&table, &positions) {
        return Outcome::refused(24);
    }
    // 14. A save meets a count of 4,096.
    if table.counts[process] == MOST_STATES {
        return Outcome::refused(14);
    }
    do_save(&mut table, process, &positions);
    Outcome::answered(table.to_bytes(), answer_len)
}

/// The call for a receipt: "A step that receives is added: it takes a process and
/// a list as a save does". "The receiving step uses 10, 13 and 16 as a save does."
/// And "a save or receipt that passes over an older waiting message of its channel
/// gives 24 right after 13."
///
/// Checks: the table's, 10, 13, 24, 16.
pub fn receive(bytes: &[u8], process: u16, list: &[u16], answer_len: usize) -> Outcome {
    let mut table = match Table::read(bytes) {
        Err(number) => return Outcome::refused(number),
        Ok(table) => table,
    };
    let process = usize::from(process);
    // 10. A process named in a send, save or receipt is N or above.
    if process >= table.processes() {
        return Outcome::refused(10);
    }
    // 13. The list.
    if list_is_bad(&table, process, list) {
        return Outcome::refused(13);
    }
    // 24. The list passes over a message.
    let positions: Vec<usize> = list.iter().map(|&position| usize::from(position)).collect();
    if passes_over(&table, &positions) {
        return Outcome::refused(24);
    }
    do_receive(&mut table, process, &positions);
    Outcome::answered(table.to_bytes(), answer_len)
}

/// The call for a fall back: "with L the recovery line, each count becomes
/// L + 1."
///
/// Checks: the table's, 16.
pub fn fall_back(bytes: &[u8], answer_len: usize) -> Outcome {
    let mut table = match Table::read(bytes) {
        Err(number) => return Outcome::refused(number),
        Ok(table) => table,
    };
    do_fall_back(&mut table);
    Outcome::answered(table.to_bytes(), answer_len)
}
