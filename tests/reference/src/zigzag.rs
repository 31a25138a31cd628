//! Zigzag paths, as Definition 1 of source document 003 has them, and the call
//! of document 02, §5: whether named states stand together. A path is a chain
//! of messages, and is looked for in the table alone: nothing here knows orphans,
//! consistency, the lines of [`crate::lines`] or the graph of [`crate::marking`].

use crate::table::{put, Message, State, Table};
use crate::Outcome;

// Each of these is asked of received messages alone: one that waits was received
// by nobody, and takes no part in any path. One that is unsaved was received.

/// Whether a path from this state may begin with the message: its process sent
/// it after the state. A message is sent after the state of its send number, so
/// y is the state's number or above it.
fn begins(message: &Message, (process, number): State) -> bool {
    message.sender == process && message.sent >= number
}

/// Whether the second message may come next to the first in a path: the
/// receiver of the first sent it, in the interval in which it received the first
/// or in a later one. "A receipt number r lies in interval r - 1", and interval
/// c is what lies between state c and state c + 1, so a message with send number
/// y was sent in interval y. Which of the two came first within an interval makes
/// no difference. Of an unsaved message the interval is the last, count - 1.
fn follows(first: &Message, second: &Message) -> bool {
    second.sender == first.receiver && second.sent >= first.received - 1
}

/// Whether a path to this state may end with the message: its process received
/// it before the state, which is the first saved after it or a later one.
fn ends(message: &Message, (process, number): State) -> bool {
    message.receiver == process && message.received <= number
}

/// Whether the messages at these positions, in this order, are a zigzag path
/// from one state to another, or to itself: there is at least one, all were
/// received, the first begins it, each next one follows the one before it, and
/// the last one ends it.
pub fn is_path(table: &Table, from: State, to: State, positions: &[usize]) -> bool {
    let chain: Vec<&Message> = positions.iter().map(|&k| &table.messages[k]).collect();
    let (Some(first), Some(last)) = (chain.first(), chain.last()) else {
        return false;
    };
    !chain.iter().any(|message| message.waiting())
        && begins(first, from)
        && chain.windows(2).all(|pair| follows(pair[0], pair[1]))
        && ends(last, to)
}

/// A message to which a chain from some states leads.
struct Link {
    position: usize,
    /// The link before it in that chain; `None` for the first.
    before: Option<usize>,
}

/// Every received message to which a chain leads that begins at one of the
/// states, each once, with a shortest chain: first those that begin one, then
/// link by link those that follow and were not met before.
fn chains(table: &Table, from: &[State]) -> Vec<Link> {
    let mut links: Vec<Link> = Vec::new();
    let mut left: Vec<usize> = Vec::new();
    for (position, message) in table.messages.iter().enumerate() {
        if message.waiting() {
            continue;
        }
        if from.iter().any(|&state| begins(message, state)) {
            let before = None;
            links.push(Link { position, before });
        } else {
            left.push(position);
        }
    }
    let mut at = 0;
    while at < links.len() {
        let first = &table.messages[links[at].position];
        left.retain(|&position| {
            let next = follows(first, &table.messages[position]);
            if next {
                let before = Some(at);
                links.push(Link { position, before });
            }
            !next
        });
        at += 1;
    }
    links
}

/// The positions of the messages of a zigzag path, as short as any, from one of
/// the first states to one of the others. `None` where there is none.
pub fn path(table: &Table, from: &[State], to: &[State]) -> Option<Vec<usize>> {
    let links = chains(table, from);
    let leads_there = |link: &Link| {
        let message = &table.messages[link.position];
        to.iter().any(|&state| ends(message, state))
    };
    let mut at = Some(links.iter().position(leads_there)?);
    let mut positions = Vec::new();
    while let Some(link) = at.map(|at| &links[at]) {
        positions.push(link.position);
        at = link.before;
    }
    positions.reverse();
    Some(positions)
}

/// Whether the named states stand together: "yes with the latest consistent line
/// that holds them all", or `None` for the no, "exactly when a zigzag path of
/// source document 003, Definition 1, leads from one named state to another or to
/// itself."
///
/// The line is found by paths alone too: a named process stands at its state, and
/// any other as late as it can while it has received nothing to which a chain from
/// a named state leads. "other processes may stand at their new state."
pub fn standing_line(table: &Table, named: &[State]) -> Option<Vec<u32>> {
    let mut line = table.counts.clone();
    for &(process, number) in named {
        line[process] = number;
    }
    for link in chains(table, named) {
        let message = &table.messages[link.position];
        if named.iter().any(|&state| ends(message, state)) {
            return None;
        }
        let at = &mut line[message.receiver];
        *at = (*at).min(message.received - 1);
    }
    Some(line)
}

/// Whether check 21 catches the list of named processes: "a process of N or
/// above or not above the one before".
fn processes_are_bad(table: &Table, processes: &[u16]) -> bool {
    let outside = |&process: &u16| usize::from(process) >= table.processes();
    processes.iter().any(outside) || processes.windows(2).any(|pair| pair[1] <= pair[0])
}

/// The call that tells whether states can stand together: they are named "in two
/// parallel lists, processes and state numbers". "No names at all is a yes with
/// the counts. A no writes nothing and has length 0", so it fits any buffer and
/// never meets 16.
///
/// Checks: the table's, 20, 21, 22, 16.
pub fn stand_together(
    bytes: &[u8],
    processes: &[u16],
    states: &[u16],
    answer_len: usize,
) -> Outcome {
    let table = match Table::read(bytes) {
        Err(number) => return Outcome::refused(number),
        Ok(table) => table,
    };
    // 20. The lists of named processes and of their states are of unequal length.
    if processes.len() != states.len() {
        return Outcome::refused(20);
    }
    // 21. A named process is N or above, or not above the one before it.
    if processes_are_bad(&table, processes) {
        return Outcome::refused(21);
    }
    let named: Vec<State> = processes
        .iter()
        .zip(states)
        .map(|(&process, &number)| (usize::from(process), u32::from(number)))
        .collect();
    // 22. A named state is not below its process's count.
    if named.iter().any(|&(p, number)| number >= table.counts[p]) {
        return Outcome::refused(22);
    }
    let mut answer = Vec::new();
    for number in standing_line(&table, &named).unwrap_or_default() {
        put(&mut answer, number as usize);
    }
    Outcome::answered(answer, answer_len)
}
