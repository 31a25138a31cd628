//! The corpus, tables by chance, lines by their definition, and 16-bit numbers as
//! bytes.
#![allow(dead_code)]

use std::fs;
use std::path::Path;

use keeper::Table;

/// Example A of the format's document.
pub const EXAMPLE_A: [u16; 24] = [
    2, 5, 3, 3, 0, 0, 1, 0, 1, 1, 0, 2, 1, 2, 1, 2, 0, 1, 0, 2, 1, 2, 0, 0,
];

pub fn bytes(numbers: &[u16]) -> Vec<u8> {
    numbers.iter().copied().flat_map(u16::to_le_bytes).collect()
}

/// The 16-bit number at a place that counts numbers, not bytes.
pub fn number_at(bytes: &[u8], place: usize) -> u16 {
    u16::from_le_bytes([bytes[2 * place], bytes[2 * place + 1]])
}

pub fn example_a() -> Table {
    Table::from_bytes(bytes(&EXAMPLE_A)).expect("example A is accepted")
}

pub struct Case {
    pub name: String,
    pub table: Vec<u8>,
    pub listing: String,
}

impl Case {
    /// The rows of the listing that begin with that word, without it.
    pub fn rows<'a>(&'a self, word: &'a str) -> impl Iterator<Item = &'a str> + 'a {
        self.listing
            .lines()
            .filter_map(move |line| line.strip_prefix(word)?.strip_prefix(' '))
    }

    /// The number that the listing refuses the table with.
    pub fn refused(&self) -> Option<u32> {
        self.rows("refused")
            .next()
            .map(|number| number.parse().expect("a number"))
    }
}

/// The tables of the corpus with their listings.
pub fn corpus() -> Vec<Case> {
    let folder = Path::new(env!("CARGO_MANIFEST_DIR")).join("../../tests/corpus");
    let mut cases = Vec::new();
    for entry in fs::read_dir(folder).expect("the corpus is there") {
        let path = entry.expect("readable").path();
        if path.extension().is_some_and(|ending| ending == "table") {
            cases.push(Case {
                name: path.display().to_string(),
                table: fs::read(&path).expect("readable"),
                listing: fs::read_to_string(path.with_extension("listing")).expect("a listing"),
            });
        }
    }
    assert!(cases.len() >= 180, "{} tables", cases.len());
    cases
}

/// The accepted tables of the corpus, by name.
pub fn accepted() -> Vec<(String, Table)> {
    let cases = corpus().into_iter();
    let accepted: Vec<_> = cases
        .filter(|case| case.refused().is_none())
        .map(|case| {
            (
                case.name,
                Table::from_bytes(case.table).expect("it is accepted"),
            )
        })
        .collect();
    assert!(accepted.len() >= 60, "{} accepted tables", accepted.len());
    accepted
}

/// A small generator (xorshift).
pub struct Chance(pub u64);

impl Chance {
    pub fn below(&mut self, bound: usize) -> usize {
        self.0 ^= self.0 << 13;
        self.0 ^= self.0 >> 7;
        self.0 ^= self.0 << 17;
        (self.0 >> 11) as usize % bound
    }
}

/// The counts of all processes.
pub fn counts(table: &Table) -> Vec<u16> {
    table.counts().collect()
}

/// The ceilings of a set: a holder's last checkpoint, any other's count.
pub fn ceilings_of(table: &Table, set: u32) -> Vec<u16> {
    let counts = (0..).zip(table.counts());
    counts
        .map(|(process, count)| count - (set >> process & 1) as u16)
        .collect()
}

/// Whether no message is received before the line and sent after it.
pub fn is_consistent(table: &Table, line: &[u16]) -> bool {
    !table.messages().any(|message| {
        let received = message.received.map(|number| number.get());
        let sent_after = message.sent >= line[usize::from(message.sender)];
        sent_after && received.is_some_and(|number| number <= line[usize::from(message.receiver)])
    })
}

/// Every line at or below the ceilings.
pub fn lines_below(ceilings: &[u16]) -> Vec<Vec<u16>> {
    let mut lines = vec![vec![]];
    for ceiling in ceilings {
        let longer = |line: Vec<u16>| (0..=*ceiling).map(move |last| [&line[..], &[last]].concat());
        lines = lines.into_iter().flat_map(longer).collect();
    }
    lines
}

/// The latest consistent line by the definition: it is among the consistent
/// ones, and no other has a larger number anywhere.
pub fn latest(table: &Table, ceilings: &[u16]) -> Vec<u16> {
    let mut lines = lines_below(ceilings);
    lines.retain(|line| is_consistent(table, line));
    latest_of(lines)
}

/// Of some lines the one that is at or above all others, at every process.
pub fn latest_of(lines: Vec<Vec<u16>>) -> Vec<u16> {
    let is_above = |line: &[u16], other: &[u16]| line.iter().zip(other).all(|(l, o)| l >= o);
    let mut latest = lines
        .iter()
        .filter(|line| lines.iter().all(|other| is_above(line, other)));
    latest.next().expect("one of them is the latest").clone()
}

/// The bytes of counts and messages (sender, number, receiver, number).
pub fn bytes_of(counts: &[u16], messages: &[[u16; 4]]) -> Vec<u8> {
    let sends = messages.iter().flat_map(|message| message[..2].to_vec());
    let receipts = messages.iter().flat_map(|message| message[2..].to_vec());
    let head = [counts.len() as u16, messages.len() as u16];
    let numbers = head.into_iter().chain(counts.iter().copied());
    bytes(&numbers.chain(sends).chain(receipts).collect::<Vec<_>>())
}

/// Counts, and messages of any numbers within their limits, receipts of the count
/// among them, which are not saved yet. Channels may be out of order.
pub fn small_numbers(chance: &mut Chance) -> (Vec<u16>, Vec<[u16; 4]>) {
    let n = 1 + chance.below(3);
    let m = if n == 1 { 0 } else { chance.below(7) };
    let counts: Vec<u16> = (0..n).map(|_| 1 + chance.below(3) as u16).collect();
    let mut below = |bound: u16| chance.below(bound.into()) as u16;
    let messages = (0..m).map(|_| {
        let sender = below(n as u16);
        let receiver = (sender + 1 + below(n as u16 - 1)) % n as u16;
        let sent = below(counts[usize::from(sender)]);
        [
            sender,
            sent,
            receiver,
            below(counts[usize::from(receiver)] + 1),
        ]
    });
    let messages = messages.collect();
    (counts, messages)
}

/// Puts each channel in order: its messages keep their positions and share out
/// their send numbers, rising, and their receipt numbers, rising, with 0, of those
/// that wait, behind all others.
pub fn in_order(messages: &mut [[u16; 4]]) {
    let turn = |received: u16| received.wrapping_sub(1);
    for later in 0..messages.len() {
        for earlier in 0..later {
            let (one, other) = (messages[earlier], messages[later]);
            if (one[0], one[2]) != (other[0], other[2]) {
                continue;
            }
            if other[1] < one[1] {
                (messages[earlier][1], messages[later][1]) = (other[1], one[1]);
            }
            if turn(other[3]) < turn(one[3]) {
                (messages[earlier][3], messages[later][3]) = (other[3], one[3]);
            }
        }
    }
}

/// A small table: any numbers within their limits, each channel in order.
pub fn small(chance: &mut Chance) -> Table {
    let (counts, mut messages) = small_numbers(chance);
    in_order(&mut messages);
    Table::from_bytes(bytes_of(&counts, &messages)).expect("it is accepted")
}

/// The positions of the messages that wait for a process.
pub fn waiting_for(table: &Table, process: u16) -> Vec<u16> {
    let messages = (0..).zip(table.messages());
    messages
        .filter(|(_, message)| message.is_waiting() && message.receiver == process)
        .map(|(position, _)| position)
        .collect()
}

/// Whether an older message of the channel of the one at a position waits that is
/// not listed.
pub fn passes_over(table: &Table, list: &[u16], position: u16) -> bool {
    let listed = table.message(position).expect("a message");
    let mut older = (0..position).zip(table.messages());
    older.any(|(earlier, message)| {
        let same = (message.sender, message.receiver) == (listed.sender, listed.receiver);
        same && message.is_waiting() && !list.contains(&earlier)
    })
}

/// Of rising positions of waiting messages those that, listed so, pass over none.
pub fn in_turn(table: &Table, positions: &[u16]) -> Vec<u16> {
    let mut list = vec![];
    for position in positions {
        if !passes_over(table, &list, *position) {
            list.push(*position);
        }
    }
    list
}
