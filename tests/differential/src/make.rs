//! Tables and arguments by chance, and the calls to make on a table.

use keeper::LISTING_ROOM;
use reference::gen::{self, Fault, Order, Rng};
use reference::marking::mark_bytes;
use reference::passes;
use reference::table::{MOST_MESSAGES, MOST_STATES};
use reference::{Message, Outcome, Table, TABLE_CHECKS};

use crate::compare::{Call, Comparison, Difference};

/// The kinds of tables, each with the number of rounds out of a hundred that
/// it gets.
const KINDS: [(&str, usize); 24] = [
    ("small history", 9),
    ("history", 8),
    ("small arbitrary", 9),
    ("arbitrary", 6),
    ("clustered", 5),
    ("unsaved", 4),
    ("waiting", 8),
    ("domino", 3),
    ("ring", 3),
    ("many passes", 4),
    ("falling sends", 4),
    ("staircase", 2),
    ("many waiting", 2),
    ("many unsaved", 2),
    ("full", 1),
    ("random body", 3),
    ("random bytes", 3),
    ("damaged", 6),
    ("damaged more than once", 6),
    ("damaged after the last check", 2),
    ("a few bytes changed", 3),
    ("out of turn", 4),
    ("out of turn and damaged", 2),
    ("in any order", 1),
];

/// Counts that lie at or near their limit.
fn high_count(rng: &mut Rng) -> u32 {
    MOST_STATES - rng.between(0, 2) as u32
}

/// Makes each message unsaved, or one in `of` of them wait.
fn make_unsaved(rng: &mut Rng, table: &mut Table, of: usize) {
    for message in &mut table.messages {
        message.received = if rng.chance(1, of) {
            0
        } else {
            table.counts[message.receiver]
        };
    }
}

/// An accepted table of moderate size, all its channels in turn.
fn accepted(rng: &mut Rng, kind: &str) -> Table {
    let mut table = with_numbers(rng, kind);
    gen::put_in_turn(&mut table.messages);
    table
}

/// A table of a kind, whose numbers have yet to be put in turn where the kind
/// chooses them anew.
fn with_numbers(rng: &mut Rng, kind: &str) -> Table {
    match kind {
        "small history" => {
            let (n, m) = (rng.between(1, 5), rng.between(0, 12));
            gen::history(rng, n, m)
        }
        "history" => {
            let (n, m) = (rng.between(1, 14), rng.between(0, 90));
            gen::history(rng, n, m)
        }
        "small arbitrary" => {
            let (n, m, most) = (rng.between(1, 4), rng.between(0, 9), rng.between(1, 5));
            gen::arbitrary(rng, n, m, most as u32)
        }
        "arbitrary" => {
            let (n, m) = (rng.between(1, 32), rng.between(0, 150));
            let most = [2, 8, 64, 512, MOST_STATES][rng.between(0, 4)];
            gen::arbitrary(rng, n, m, most)
        }
        "clustered" => {
            let (n, m) = (rng.between(1, 32), rng.between(0, 250));
            gen::clustered(rng, n, m)
        }
        "unsaved" => {
            // No message is received and saved; most are unsaved, few wait.
            let (n, m, most) = (rng.between(2, 6), rng.between(1, 20), rng.between(1, 4));
            let mut table = gen::arbitrary(rng, n, m, most as u32);
            make_unsaved(rng, &mut table, 4);
            table
        }
        "waiting" => {
            // Few channels in which several messages wait, behind others that are
            // received; some counts are at the limit.
            let (n, m) = (rng.between(2, 4), rng.between(2, 14));
            let mut table = gen::arbitrary(rng, n, m, 4);
            let (j, i) = (rng.between(0, n - 1), rng.between(1, n - 1));
            for message in &mut table.messages {
                if rng.chance(1, 3) {
                    *message = Message::new((j, 0), ((j + i) % n, message.received));
                    message.sent = rng.between(0, table.counts[j] as usize - 1) as u32;
                }
                let count = table.counts[message.receiver];
                message.received = match rng.between(0, 7) {
                    0 => count,
                    1 | 2 => rng.between(0, count as usize) as u32,
                    _ => 0,
                };
            }
            for p in 0..n {
                if rng.chance(1, 6) {
                    table.counts[p] = high_count(rng);
                }
            }
            table
        }
        "domino" => {
            let (m, order) = (rng.between(0, 80), Order::ALL[rng.between(0, 5)]);
            gen::domino_chain(rng, m, order)
        }
        "ring" => {
            let (n, m) = (rng.between(2, 32), rng.between(0, 120));
            let order = Order::ALL[rng.between(0, 5)];
            gen::ring_domino(rng, n, m, order)
        }
        "many passes" if rng.chance(1, 3) => boundary(rng),
        "many passes" if rng.chance(1, 3) => apart(rng),
        "many passes" => {
            let many = rng.between(1, 3);
            let mut parts = vec![long(rng)];
            parts.resize_with(many, || part(rng));
            side_by_side(rng, parts)
        }
        "falling sends" => {
            // Behind a long part, before it or among it.
            let mut parts = vec![long(rng), falling(rng)];
            if rng.chance(1, 2) {
                parts.push(part(rng));
            }
            side_by_side(rng, parts)
        }
        "staircase" => {
            let n = rng.between(1, 32);
            let count = n + 1 + rng.between(0, 8);
            gen::staircase(n, count as u32)
        }
        "many waiting" => {
            // Hundreds of messages that wait for few processes: long lists.
            let (n, m) = (rng.between(2, 4), rng.between(300, 900));
            let mut table = gen::arbitrary(rng, n, m, 6);
            for message in &mut table.messages {
                if rng.chance(9, 10) {
                    message.received = 0;
                }
            }
            table
        }
        "many unsaved" => {
            // Hundreds of messages, some of which wait still.
            let (n, m) = (rng.between(2, 4), rng.between(300, 900));
            let mut table = gen::arbitrary(rng, n, m, 6);
            make_unsaved(rng, &mut table, 2);
            table
        }
        "full" => {
            // As many messages as there may be or one fewer, or counts at the
            // limit: what check 14 looks at. Receipts by the last state, and
            // after it.
            let n = rng.between(2, 5);
            let m = if rng.chance(1, 2) {
                MOST_MESSAGES - rng.between(0, 1)
            } else {
                rng.between(0, 20)
            };
            let mut table = gen::arbitrary(rng, n, m, 3);
            for p in 0..n {
                if rng.chance(2, 3) {
                    table.counts[p] = high_count(rng);
                }
            }
            for message in &mut table.messages {
                if rng.chance(1, 4) {
                    message.sent = table.counts[message.sender] - 1;
                }
                match rng.between(0, 7) {
                    0 | 1 => message.received = table.counts[message.receiver] - 1,
                    2 | 3 => message.received = table.counts[message.receiver],
                    _ => {}
                }
            }
            table
        }
        _ => unreachable!("{kind} is no kind of accepted table"),
    }
}

/// A table whose lines take many passes over the messages, or nearly so many, and in
/// which no sender's numbers fall.
fn long(rng: &mut Rng) -> Table {
    match rng.between(0, 3) {
        // From three passes to fourteen.
        0 | 1 => {
            let order = [Order::BySender, Order::RoundsAlong][rng.between(0, 1)];
            let m = rng.between(2, 25);
            gen::domino_chain(rng, m, order)
        }
        2 => {
            let (n, m) = (rng.between(2, 6), rng.between(20, 60));
            let order = Order::ALL[rng.between(0, Order::ALL.len() - 1)];
            gen::ring_unsaved(rng, n, m, order)
        }
        _ => {
            let (n, m) = (rng.between(3, 5), rng.between(16, 60));
            passes::by_sender(passes::chain(n, m))
        }
    }
}

/// A table whose lines take N / 4 + 2 passes and up to two more, from every holder.
fn boundary(rng: &mut Rng) -> Table {
    let n = rng.between(2, 32);
    let m = n * (n / 4 + rng.between(1, 2));
    let ring = gen::ring_unsaved(rng, n, m, Order::BySenderBackward);
    passes::lifted(ring, rng.between(0, 2) as u32)
}

/// A table whose lines take many passes, with up to two eights of messages of another
/// sender between any two of theirs.
fn apart(rng: &mut Rng) -> Table {
    let distances: Vec<usize> = (0..12).map(|_| rng.between(1, 17)).collect();
    passes::apart(passes::lifted(long(rng), 1), &distances)
}

/// A table in which a sender's numbers fall, so that passes alone find its lines: many
/// of them, or few.
fn falling(rng: &mut Rng) -> Table {
    if rng.chance(1, 2) {
        return passes::falling_pair();
    }
    let (n, m) = (rng.between(3, 5), rng.between(6, 50));
    passes::chain(n, m)
}

/// A part of a table: long, or of few messages.
fn part(rng: &mut Rng) -> Table {
    if rng.chance(1, 3) {
        return long(rng);
    }
    let (n, m) = (rng.between(1, 4), rng.between(0, 8));
    gen::history(rng, n, m)
}

/// The parts as one table, in any order, one's messages behind another's or among
/// them. The lines of each stop above 0, or at it.
fn side_by_side(rng: &mut Rng, mut parts: Vec<Table>) -> Table {
    rng.shuffle(&mut parts);
    for part in &mut parts {
        let states = rng.between(0, 3) as u32;
        *part = passes::lifted(part.clone(), states);
    }
    if rng.chance(1, 2) {
        passes::among(rng, &parts)
    } else {
        passes::beside(&parts)
    }
}

/// An accepted table in whose channels several messages wait.
pub fn waiting(rng: &mut Rng) -> Table {
    accepted(rng, "waiting")
}

/// An accepted table of any of the smaller kinds.
pub fn some_accepted(rng: &mut Rng) -> Table {
    let kinds = [
        "small history",
        "small arbitrary",
        "history",
        "arbitrary",
        "clustered",
    ];
    let kind = kinds[rng.between(0, kinds.len() - 1)];
    accepted(rng, kind)
}

/// A table for this round, with the name of its kind.
pub fn table(rng: &mut Rng) -> (&'static str, Vec<u8>) {
    let mut lot = rng.between(0, 99);
    let mut kind = KINDS[0].0;
    for (name, share) in KINDS {
        if lot < share {
            kind = name;
            break;
        }
        lot -= share;
    }
    let bytes = match kind {
        "random body" => {
            let (n, m) = (rng.between(1, 8), rng.between(0, 10));
            gen::random_body(rng, n, m)
        }
        "random bytes" => {
            let mut bytes = gen::random_bytes(rng, 120);
            // A header within the limits, now and then of the right length.
            if bytes.len() >= 4 && rng.chance(2, 3) {
                let n = rng.between(0, 33);
                let m = (bytes.len() - 4).saturating_sub(2 * n) / 8;
                bytes[..4].copy_from_slice(&[n as u8, 0, m as u8, 0]);
                if rng.chance(1, 2) && bytes.len() >= 4 + 2 * n + 8 * m {
                    bytes.truncate(4 + 2 * n + 8 * m);
                }
            }
            bytes
        }
        "damaged" => loop {
            let whole = some_accepted(rng).to_bytes();
            let refusal = TABLE_CHECKS[rng.between(0, TABLE_CHECKS.len() - 1)];
            if let Some(bytes) = gen::damage(rng, &whole, refusal) {
                break bytes;
            }
        },
        "damaged more than once" => loop {
            let whole = some_accepted(rng).to_bytes();
            // A table that is cut for 1 has nothing else to damage.
            let mut refusals = TABLE_CHECKS.to_vec();
            refusals.retain(|&refusal| refusal != 1 && rng.chance(2, 5));
            if let Some(bytes) = gen::damage_many(rng, &whole, &refusals) {
                break bytes;
            }
        },
        "damaged after the last check" => {
            // One message breaks a late check, a later one an earlier check.
            let mut table = some_accepted(rng);
            while table.processes() < 2 || table.messages.len() < 2 {
                table = some_accepted(rng);
            }
            let last = table.messages.len() - 1;
            let at = rng.between(0, last - 1);
            let high = table.counts[table.messages[at].receiver] + 1;
            table.messages[at].received = high + rng.between(0, 2) as u32;
            let latest = &mut table.messages[last];
            match rng.between(0, 2) {
                0 => latest.sent = table.counts[latest.sender],
                1 => latest.receiver = latest.sender,
                _ => latest.receiver = table.counts.len(),
            }
            table.to_bytes()
        }
        "out of turn" => out_of_turn(rng).to_bytes(),
        "out of turn and damaged" => {
            // Two messages out of turn, and then the damage of another check or of
            // two, before them or behind them.
            let broken = out_of_turn(rng).to_bytes();
            let mut refusals = TABLE_CHECKS[4..TABLE_CHECKS.len() - 1].to_vec();
            rng.shuffle(&mut refusals);
            refusals.truncate(rng.between(1, 2));
            gen::damage_many(rng, &broken, &refusals).expect("it has messages")
        }
        "in any order" => {
            // As they come, so that some channels are in turn and some are not.
            let kinds = ["history-unsaved", "arbitrary-unsaved", "clustered-unsaved"];
            let (kind, n) = (kinds[rng.between(0, 2)], rng.between(2, 12));
            let m = rng.between(2, 3 * n);
            let table = gen::in_any_order(rng, kind, n, m).expect("a kind of it");
            table.to_bytes()
        }
        "a few bytes changed" => {
            let mut bytes = some_accepted(rng).to_bytes();
            for _ in 0..rng.between(1, 3) {
                let at = rng.between(0, bytes.len() - 1);
                bytes[at] = match rng.between(0, 3) {
                    0 => bytes[at].wrapping_add(1),
                    1 => bytes[at].wrapping_sub(1),
                    2 => bytes[at] ^ (1 << rng.between(0, 7)),
                    _ => rng.next_bits() as u8,
                };
            }
            bytes
        }
        _ => accepted(rng, kind).to_bytes(),
    };
    (kind, bytes)
}

/// A table with two messages of a channel out of turn, in one of the three ways;
/// others of it and of other channels may stand between them. Their receipts may be
/// saved or not.
pub fn out_of_turn(rng: &mut Rng) -> Table {
    loop {
        let whole = match rng.between(0, 3) {
            0 => accepted(rng, "unsaved"),
            1 => accepted(rng, "waiting"),
            _ => some_accepted(rng),
        };
        let fault = Fault::ALL[rng.between(0, 2)];
        if let Some(broken) = gen::put_out_of_turn(rng, &whole, fault) {
            return broken;
        }
    }
}

/// A process for a send, save or receipt: mostly one of n, else n or above.
pub fn process(rng: &mut Rng, n: usize) -> u16 {
    if n > 0 && rng.chance(9, 10) {
        return rng.between(0, n - 1) as u16;
    }
    let beyond = [n, n + 1, 32, 33, 255, 256, 65_535];
    beyond[rng.between(0, beyond.len() - 1)] as u16
}

/// A process for a save or receipt: in two of three cases one that messages wait
/// for, if there is one.
fn receiver(rng: &mut Rng, table: &Table) -> u16 {
    let waiting: Vec<usize> = table
        .messages
        .iter()
        .filter(|message| message.waiting())
        .map(|message| message.receiver)
        .collect();
    if waiting.is_empty() || rng.chance(1, 3) {
        return process(rng, table.processes());
    }
    waiting[rng.between(0, waiting.len() - 1)] as u16
}

/// A set of processes: empty, all, one, all but one, any, or with bits at n
/// and above.
pub fn set(rng: &mut Rng, n: usize) -> u32 {
    let all = if n >= 32 { u32::MAX } else { (1 << n) - 1 };
    let one = 1u32 << rng.between(0, n.clamp(1, 32) - 1);
    let any = rng.next_bits() as u32;
    match rng.between(0, 9) {
        0 => 0,
        1 => all,
        2 => one,
        3 => all & !one,
        4..=6 => any & all,
        7 => (any & all) | 1u32.checked_shl(n as u32).unwrap_or(0),
        8 => any,
        _ => 1 << rng.between(0, 31),
    }
}

/// A list of sets: mostly a few, none of which has a bit at n or above, by chance,
/// single processes, pairs, or one set and others that stood before; now and then
/// about as many as there may be, or far more. Some lists have a set with a bit at n
/// or above, at the front, at the end or anywhere.
pub fn sets(rng: &mut Rng, n: usize, few: bool) -> Vec<u32> {
    let all = if n >= 32 { u32::MAX } else { (1 << n) - 1 };
    let length = match rng.between(0, 31) {
        0 | 1 => 0,
        2..=5 => 1,
        6 if !few => [255, 256][rng.between(0, 1)],
        7 => [257, 257, 258, 300, 512][rng.between(0, 4)],
        8 if rng.chance(1, 10) => [65_536, 65_537, 65_792][rng.between(0, 2)],
        _ => rng.between(2, 12),
    };
    let kind = rng.between(0, 5);
    let mut sets: Vec<u32> = Vec::new();
    for k in 0..length {
        let one = 1u32 << rng.between(0, n.clamp(1, 32) - 1);
        let two = 1u32 << rng.between(0, n.clamp(1, 32) - 1);
        sets.push(match kind {
            0 => 1 << (k % n.clamp(1, 32)),
            1 => one | two,
            2 if k > 0 => sets[rng.between(0, k - 1)],
            3 => rng.next_bits() as u32,
            4 => rng.next_bits() as u32 & rng.next_bits() as u32,
            _ => match rng.between(0, 4) {
                0 => 0,
                1 => all,
                2 => all & !one,
                _ => rng.next_bits() as u32,
            },
        });
    }
    sets.iter_mut().for_each(|set| *set &= all);
    if length > 0 && rng.chance(1, 5) {
        let at = [0, length - 1, rng.between(0, length - 1)][rng.between(0, 2)];
        let above = if n < 32 { rng.between(n, 31) } else { 31 };
        let above = [n.min(31), above][rng.between(0, 1)];
        sets[at] |= 1 << above;
    }
    sets
}

/// A length of the scratch for n processes: mostly just enough, or one number more or
/// fewer, then none, some, and far more.
pub fn scratch(rng: &mut Rng, n: usize) -> usize {
    let square = n * n;
    match rng.between(0, 15) {
        0..=7 => square,
        8 | 9 => square.saturating_sub(1),
        10 | 11 => square + 1,
        12 => 0,
        13 => rng.between(0, square),
        14 => square + rng.between(1, 300),
        // The low 16 bits are too short.
        _ if rng.chance(1, 12) => 65_536 + rng.between(0, square.saturating_sub(1)),
        _ => square + n,
    }
}

/// Some of the messages that wait for `process`: of each channel the oldest, all of
/// them, or any, which mostly pass over others; or all but one, or one alone.
fn some_waiting(rng: &mut Rng, table: &Table, process: u16) -> Vec<u16> {
    let waiting = table.waiting_for(process.into());
    let mut chosen = waiting.clone();
    let share = rng.between(1, 4);
    if rng.chance(2, 3) {
        chosen.retain(|_| rng.chance(share, 4));
    }
    if !waiting.is_empty() {
        let one = waiting[rng.between(0, waiting.len() - 1)];
        match rng.between(0, 11) {
            0 => chosen = vec![one],
            1 | 2 => chosen = waiting.iter().copied().filter(|&k| k != one).collect(),
            3..=5 => {}
            _ => chosen = gen::oldest_as_many(table, &waiting, &chosen),
        }
    }
    chosen.into_iter().map(|position| position as u16).collect()
}

/// A list for a save or receipt by `process`, good or spoilt in one of many ways.
pub fn list(rng: &mut Rng, table: &Table, process: u16) -> Vec<u16> {
    let m = table.messages.len();
    let waiting: Vec<u16> = table
        .waiting_for(process.into())
        .into_iter()
        .map(|position| position as u16)
        .collect();
    let mut list = some_waiting(rng, table, process);
    match rng.between(0, 15) {
        0 => list.clear(),
        1..=5 => {}
        6 => {
            // One entry twice.
            if !list.is_empty() {
                let at = rng.between(0, list.len() - 1);
                list.insert(at, list[at]);
            }
        }
        7 => {
            // Two entries the other way round.
            if list.len() >= 2 {
                let at = rng.between(0, list.len() - 2);
                list.swap(at, at + 1);
            }
        }
        8 => list.reverse(),
        9 => rng.shuffle(&mut list),
        10 | 11 => {
            // A position of M or above, at the end or anywhere.
            let beyond = [m, m + 1, m + rng.between(0, 70), 4_096, 32_768, 65_535];
            let beyond = beyond[rng.between(0, beyond.len() - 1)] as u16;
            let at = if rng.chance(1, 2) {
                list.len()
            } else {
                rng.between(0, list.len())
            };
            list.insert(at, beyond);
        }
        lot @ (12 | 13) => {
            // A position that does not wait for this process, in its place: any,
            // or one that the process received and did not save yet.
            let mut others: Vec<u16> = (0..m as u16).filter(|k| !waiting.contains(k)).collect();
            if lot == 13 {
                let unsaved = |k: &u16| {
                    let message = &table.messages[usize::from(*k)];
                    message.receiver == usize::from(process) && table.unsaved(message)
                };
                others.retain(unsaved);
            }
            if !others.is_empty() {
                list.push(others[rng.between(0, others.len() - 1)]);
                list.sort_unstable();
            }
        }
        14 => {
            // Any numbers.
            for entry in &mut list {
                if rng.chance(1, 3) {
                    *entry = rng.next_bits() as u16;
                }
            }
        }
        _ => {
            // A long list: all positions, or one position many times.
            let length = rng.between(1, 600);
            list = if rng.chance(1, 2) {
                (0..length as u16).collect()
            } else {
                vec![rng.between(0, m) as u16; length]
            };
        }
    }
    list
}

/// A list of ceilings, mostly one for each process and none above its count:
/// the counts, one less, half of them, zeros, those of a set, or by chance.
pub fn ceilings(rng: &mut Rng, table: &Table) -> Vec<u16> {
    let n = table.processes();
    let of_counts = |ceiling: &dyn Fn(u16) -> u16| -> Vec<u16> {
        table.counts.iter().map(|&c| ceiling(c as u16)).collect()
    };
    let mut ceilings = match rng.between(0, 9) {
        0 => of_counts(&|count| count),
        1 => of_counts(&|count| count - 1),
        2 => of_counts(&|count| count / 2),
        3 => of_counts(&|_| 0),
        4 => {
            let set = rng.next_bits() as u32;
            let line = reference::lines::ceiling(table, set);
            line.iter().map(|&number| number as u16).collect()
        }
        _ => gen::ceilings(rng, table),
    };
    if n > 0 && rng.chance(1, 5) {
        // One or two above the count.
        for _ in 0..rng.between(1, 2) {
            let p = rng.between(0, n - 1);
            let count = table.counts[p] as u16;
            let above = [count + 1, count + 1, count + 256, 4_097, 32_768, 65_535];
            ceilings[p] = above[rng.between(0, above.len() - 1)];
        }
    }
    if rng.chance(1, 6) {
        // Another number of them. What is added would be a ceiling, or not.
        let lengths = [0, n.saturating_sub(1), n + 1, 32, 33, n + 256];
        let length = if rng.chance(1, 24) {
            65_536 + [0, n][rng.between(0, 1)]
        } else {
            lengths[rng.between(0, lengths.len() - 1)]
        };
        ceilings.resize(length, [0, 1, 65_535][rng.between(0, 2)]);
    }
    ceilings
}

/// Names of states, mostly such as no check refuses, else spoilt in one of many
/// ways or in several: a process of N or above, one twice, two in the wrong order;
/// a state at its count or above; lists of unequal length.
pub fn names(rng: &mut Rng, table: &Table) -> gen::Names {
    let n = table.processes();
    let (mut processes, mut states) = gen::names(rng, table);
    if rng.chance(1, 6) {
        // A state of the count or above it.
        if !states.is_empty() {
            let at = rng.between(0, states.len() - 1);
            let count = table.counts[usize::from(processes[at])] as u16;
            let high = [count, count, count + 1, count + 256, 4_096, 65_535];
            states[at] = high[rng.between(0, high.len() - 1)];
        }
    }
    match rng.between(0, 23) {
        0 => {
            // A process of N or above, in the place of one or behind all.
            let beyond = [n, n, n + 1, 32, 33, 256, 65_535];
            let beyond = beyond[rng.between(0, beyond.len() - 1)] as u16;
            if !processes.is_empty() && rng.chance(1, 2) {
                let at = rng.between(0, processes.len() - 1);
                processes[at] = beyond;
            } else {
                processes.push(beyond);
                states.push([0, 1, 65_535][rng.between(0, 2)]);
            }
        }
        1 if !processes.is_empty() => {
            // One twice, with the same state or another.
            let at = rng.between(0, processes.len() - 1);
            processes.insert(at, processes[at]);
            let state = if rng.chance(1, 2) { states[at] } else { 0 };
            states.insert(at, state);
        }
        2 if processes.len() >= 2 => {
            // Two the other way round, with their states.
            let at = rng.between(0, processes.len() - 2);
            processes.swap(at, at + 1);
            states.swap(at, at + 1);
        }
        3 => {
            // Any numbers.
            for entry in &mut processes {
                if rng.chance(1, 2) {
                    *entry = rng.next_bits() as u16;
                }
            }
        }
        4..=6 => {
            // Another length of one list: one more or fewer, none, and so that a
            // length cut to 8 or 16 bits would be right.
            let names = states.len();
            let lengths = [
                0,
                names.saturating_sub(1),
                names + 1,
                names + 1,
                names + 256,
            ];
            let length = if rng.chance(1, 24) {
                names + 65_536
            } else {
                lengths[rng.between(0, lengths.len() - 1)]
            };
            if rng.chance(1, 2) {
                states.resize(length, 0);
            } else {
                let beyond = (names..length).map(|at| (at % 33) as u16);
                processes.truncate(length);
                processes.extend(beyond);
            }
        }
        7 => {
            // Long lists of one length.
            let length = rng.between(33, 600);
            processes = (0..length as u16).collect();
            states = vec![0; length];
        }
        _ => {}
    }
    (processes, states)
}

/// A length of a mark buffer that needs so many bytes: mostly just as many, or
/// one more or fewer, then none, some, and far more than any table needs.
pub fn marks(rng: &mut Rng, needed: usize) -> usize {
    match rng.between(0, 15) {
        0..=5 => needed,
        6..=8 => needed.saturating_sub(1),
        9..=11 => needed + 1,
        12 => 0,
        13 => rng.between(0, needed),
        14 => needed + rng.between(1, 300),
        // The low 16 bits are too short.
        _ if rng.chance(1, 12) => 65_536 + rng.between(0, needed.saturating_sub(1)),
        _ => needed + 256,
    }
}

/// Lengths of an answer buffer for an answer of this length: exact, one byte
/// short, and others; for a refused call (`None`) any.
fn rooms(rng: &mut Rng, answer: Option<usize>, all: bool) -> Vec<usize> {
    let Some(length) = answer else {
        return vec![[0, 1, 64, 300][rng.between(0, 3)]];
    };
    let mut rooms = vec![length];
    if length > 0 && (all || rng.chance(1, 2)) {
        rooms.push(length - 1);
    }
    if all || rng.chance(1, 3) {
        rooms.push(length + rng.between(1, 40));
    }
    if all || rng.chance(1, 6) {
        rooms.push(0);
        rooms.push(rng.between(0, length));
    }
    rooms
}

/// The calls to try on a table, their answer buffers still to be chosen.
fn calls(rng: &mut Rng, bytes: &[u8], few: bool) -> Vec<Call> {
    let room = usize::MAX;
    let values = Table::read(bytes).unwrap_or(Table {
        counts: vec![1; usize::from(reference::processes(bytes)).min(40)],
        messages: Vec::new(),
    });
    let n = values.processes();
    let times = |most: usize| if few { 1 } else { most };
    let mut calls = vec![
        Call::CheckTable,
        Call::RecoveryLine { room },
        Call::FallBack { room },
    ];
    for _ in 0..times(6) {
        let set = set(rng, n);
        calls.push(Call::LineOfSet { set, room });
    }
    for _ in 0..times(6) {
        let sets = sets(rng, n, bytes.len() > 8_000);
        let numbers = scratch(rng, n);
        calls.push(Call::LinesOfSets {
            sets,
            numbers,
            room,
        });
    }
    for _ in 0..times(6) {
        let ceilings = ceilings(rng, &values);
        calls.push(Call::LineUnder { ceilings, room });
    }
    let needed = mark_bytes(&values);
    for _ in 0..times(6) {
        let ceilings = ceilings(rng, &values);
        let marks = marks(rng, needed);
        calls.push(Call::MarkedLine {
            ceilings,
            marks,
            room,
        });
    }
    for _ in 0..times(6) {
        let (processes, states) = names(rng, &values);
        calls.push(Call::StandTogether {
            processes,
            states,
            room,
        });
    }
    for _ in 0..times(4) {
        let (from, to) = (process(rng, n), process(rng, n));
        calls.push(Call::Send { from, to, room });
    }
    for _ in 0..times(8) {
        let process = receiver(rng, &values);
        let list = list(rng, &values, process);
        calls.push(Call::Save {
            process,
            list,
            room,
        });
    }
    for _ in 0..times(8) {
        let process = receiver(rng, &values);
        let list = list(rng, &values, process);
        calls.push(Call::Receive {
            process,
            list,
            room,
        });
    }
    // For an accepted table the scratch has a least length; else any will do.
    let square = n * n;
    let mut scratches = vec![square];
    if !few {
        scratches.push(square.saturating_sub(1));
        scratches.push(square + rng.between(1, 70));
        scratches.push(rng.between(0, square));
    }
    for numbers in scratches {
        calls.push(Call::KeepSheet { numbers, room });
    }
    calls.push(Call::Listing { room });
    calls
}

/// The listing in a buffer of just its length, of one byte less and one more,
/// in none, and in one that is enough for every listing.
pub fn listings(
    comparison: &mut Comparison,
    rng: &mut Rng,
    made_by: &str,
    bytes: &[u8],
) -> Result<(), Box<Difference>> {
    let text = reference::listing(bytes).into_bytes();
    let length = text.len();
    for room in [length, length - 1, length + 1, 0, LISTING_ROOM] {
        let expected = Outcome::answered(text.clone(), room);
        let call = Call::Listing { room };
        comparison.call_expecting(rng, made_by, bytes, &call, expected)?;
    }
    Ok(())
}

/// Makes all the calls on a table, with all sorts of answer buffers, and the
/// lookups.
pub fn battery(
    comparison: &mut Comparison,
    rng: &mut Rng,
    made_by: &str,
    bytes: &[u8],
    few: bool,
) -> Result<(), Box<Difference>> {
    for call in calls(rng, bytes, few) {
        let unbounded = call.expected(bytes);
        let answer = (unbounded.number == 0).then_some(unbounded.answer.len());
        let all = !few && rng.chance(1, 4);
        let mut rooms = rooms(rng, answer, all);
        if let (Call::StandTogether { .. }, Some(0)) = (&call, answer) {
            // A no fits where a line does not, and where it does.
            let line = 2 * usize::from(reference::processes(bytes));
            rooms.push([line - 1, line][rng.between(0, 1)]);
        }
        if let (Call::LinesOfSets { .. }, Some(length)) = (&call, answer) {
            // Room for the first line, and for all but the last.
            let line = 2 * usize::from(reference::processes(bytes));
            if rng.chance(1, 4) {
                rooms.push([line, length.saturating_sub(line)][rng.between(0, 1)]);
            }
        }
        for room in rooms {
            comparison.call(rng, made_by, bytes, &call.with_room(room))?;
            if call == Call::CheckTable {
                break;
            }
        }
    }
    if rng.chance(1, 8) {
        listings(comparison, rng, made_by, bytes)?;
    }
    let n = usize::from(reference::processes(bytes));
    let m = usize::from(reference::messages(bytes));
    let near = [0, 1, n, m, n.wrapping_sub(1), m.wrapping_sub(1), usize::MAX];
    let mut indices = near.to_vec();
    indices.extend([
        rng.between(0, n),
        rng.between(0, m),
        rng.next_bits() as usize,
    ]);
    // Indices whose place in the table would overflow.
    indices.extend([usize::MAX / 4, usize::MAX / 8 + 1, 1 << 62, 1 << 63]);
    comparison.lookups(rng, made_by, bytes, &indices)
}

/// One step of a chain, named by chance: mostly one that no check catches.
pub fn step(rng: &mut Rng, table: &Table) -> Call {
    let room = usize::MAX;
    let n = table.processes();
    match rng.between(0, 99) {
        0..=4 => Call::FallBack { room },
        5..=49 => {
            let (from, to) = (process(rng, n), process(rng, n));
            Call::Send { from, to, room }
        }
        lot => {
            let process = process(rng, n);
            let list = if rng.chance(1, 8) {
                list(rng, table, process)
            } else {
                let waiting = table.waiting_for(process.into());
                let mut chosen = waiting.clone();
                chosen.retain(|_| rng.chance(2, 3));
                if rng.chance(5, 6) {
                    chosen = gen::oldest_as_many(table, &waiting, &chosen);
                }
                chosen.into_iter().map(|k| k as u16).collect()
            };
            if lot < 75 {
                Call::Receive {
                    process,
                    list,
                    room,
                }
            } else {
                Call::Save {
                    process,
                    list,
                    room,
                }
            }
        }
    }
}

/// Every list of positions 0 to m with at most m entries, and of one entry for
/// no messages.
pub fn all_lists(m: usize) -> Vec<Vec<u16>> {
    all_lists_of(m as u16, m.max(1))
}

/// Every list of numbers from 0 to `most` with at most `entries` of them.
pub fn all_lists_of(most: u16, entries: usize) -> Vec<Vec<u16>> {
    let mut all: Vec<Vec<u16>> = vec![Vec::new()];
    let mut longest: Vec<Vec<u16>> = vec![Vec::new()];
    for _ in 0..entries {
        longest = longest
            .iter()
            .flat_map(|front| (0..=most).map(move |k| [&front[..], &[k]].concat()))
            .collect();
        all.extend(longest.iter().cloned());
    }
    all
}

/// The most that can be kept: the stairs, with messages that wait.
pub fn fullest_sheet() -> Table {
    let mut table = gen::staircase(32, MOST_STATES);
    while table.messages.len() < MOST_MESSAGES {
        table.messages.push(Message::new((0, 0), (1, 0)));
    }
    table
}
