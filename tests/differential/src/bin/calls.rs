//! `calls [CALLS] [SEED]` compares at least CALLS calls of the library with
//! the second implementation, on tables that depend on SEED alone, and stops
//! at the first difference.

use std::env;
use std::process::ExitCode;
use std::time::Instant;

use differential::compare::{Call, Comparison, Difference};
use differential::{make, share};
use reference::gen::{self, Fault, Order, Rng};
use reference::lines::{all_hold, single_holder};
use reference::marking::mark_bytes;
use reference::passes;
use reference::{Message, Outcome, Table, TABLE_CHECKS};

const CALLS: u64 = 450_000;
const SEED: u64 = 20_260_101;
const LEAST_TABLES: u64 = 100;

/// What a call would write into an endless buffer, then with room for it and
/// with one byte less. The archive's outcome in the exact buffer.
fn exact_and_short(
    comparison: &mut Comparison,
    rng: &mut Rng,
    made_by: &str,
    table: &[u8],
    call: &Call,
) -> Result<Outcome, Box<Difference>> {
    let expected = call.with_room(usize::MAX).expected(table);
    let length = expected.answer.len();
    if expected.number == 0 && length > 0 {
        let mut short = Outcome::refused(16);
        // A sheet fills its scratch all the same.
        if let Call::KeepSheet { .. } = call {
            short.lines.clone_from(&expected.lines);
        }
        let call = call.with_room(length - 1);
        comparison.call_expecting(rng, made_by, table, &call, short)?;
    }
    comparison.call_expecting(rng, made_by, table, &call.with_room(length), expected)
}

/// Tables at the limits, each with few calls: they are slow.
fn limits(comparison: &mut Comparison, seed: u64) -> Result<(), Box<Difference>> {
    let rng = &mut Rng::new(seed);
    let mut tables = gen::limit_tables(rng);
    tables.push(make::fullest_sheet());
    // Long dominoes in every order in turn, of two processes and of more.
    for order in Order::ALL {
        tables.push(gen::domino_chain(rng, 1_500, order));
        tables.push(gen::ring_domino(rng, 7, 1_000, order));
    }
    // A ring in which every holder puts the others back, and chains through all
    // channels: by sender, with send numbers that fall, and with such behind it.
    tables.push(gen::ring_unsaved(rng, 7, 1_000, Order::Time));
    let chain = passes::by_sender(passes::chain(5, 1_000));
    tables.push(passes::beside(&[chain.clone(), passes::falling_pair()]));
    tables.push(chain);
    tables.push(passes::chain(5, 1_000));
    // Messages of a sender at distances of up to two eights and one.
    let ring = gen::ring_unsaved(rng, 2, 19, Order::BySender);
    tables.push(passes::apart(ring, &[1, 17, 7, 8, 9, 16]));
    for (number, table) in tables.iter().enumerate() {
        let made_by = format!("limits, seed {seed}, table {number}");
        let bytes = table.to_bytes();
        let n = table.processes();
        let room = usize::MAX;
        let needed = mark_bytes(table);
        let waiting: Vec<u16> = table.waiting_for(1).iter().map(|&k| k as u16).collect();
        let mut calls = vec![
            Call::CheckTable,
            Call::RecoveryLine { room },
            Call::LineOfSet { set: 0b101, room },
            Call::LineOfSet {
                set: make::set(rng, n),
                room,
            },
            Call::LinesOfSets {
                sets: make::sets(rng, n, true),
                numbers: n * n,
                room,
            },
            Call::LineUnder {
                ceilings: make::ceilings(rng, table),
                room,
            },
            Call::MarkedLine {
                ceilings: make::ceilings(rng, table),
                marks: make::marks(rng, needed),
                room,
            },
            Call::Send {
                from: 0,
                to: 1,
                room,
            },
            Call::Save {
                process: 1,
                list: waiting.clone(),
                room,
            },
            Call::Receive {
                process: 1,
                list: waiting,
                room,
            },
            Call::Receive {
                process: 0,
                list: make::list(rng, table, 0),
                room,
            },
            Call::FallBack { room },
            Call::KeepSheet {
                numbers: n * n,
                room,
            },
        ];
        // The counts; half of each; the last states; the last of the counts
        // lower and higher by one. Marks that just fit, or just do not.
        let counts: Vec<u16> = table.counts.iter().map(|&count| count as u16).collect();
        let halves = counts.iter().map(|count| count / 2).collect();
        let last = counts.iter().map(|count| count - 1).collect();
        let (mut lower, mut higher) = (counts.clone(), counts.clone());
        lower[n - 1] -= 1;
        higher[n - 1] += 1;
        for ceilings in [counts, halves, last, lower, higher] {
            for marks in [needed, needed - 1] {
                let ceilings = ceilings.clone();
                calls.push(Call::MarkedLine {
                    ceilings,
                    marks,
                    room,
                });
            }
            calls.push(Call::LineUnder { ceilings, room });
        }
        // As many sets as there may be, and one more: single processes first, then
        // any.
        let mut sets: Vec<u32> = (0..n).map(single_holder).collect();
        sets.resize_with(256, || rng.next_bits() as u32 & all_hold(n));
        for more in [false, true] {
            sets.extend(more.then_some(0));
            calls.push(Call::LinesOfSets {
                sets: sets.clone(),
                numbers: n * n + 1,
                room,
            });
        }
        // Names by chance; all first states, and all last ones; the last process
        // at its last state and at its count; one of N.
        let all: Vec<u16> = (0..n as u16).collect();
        let last: Vec<u16> = table.counts.iter().map(|&count| count as u16 - 1).collect();
        let (end, end_state) = (all[n - 1], last[n - 1]);
        let mut names = vec![
            (all.clone(), vec![0; n]),
            (all, last),
            (vec![end], vec![end_state]),
            (vec![end], vec![end_state + 1]),
            (vec![end + 1], vec![0]),
        ];
        names.extend((0..4).map(|_| make::names(rng, table)));
        for (processes, states) in names {
            calls.push(Call::StandTogether {
                processes,
                states,
                room,
            });
        }
        for call in &calls {
            exact_and_short(comparison, rng, &made_by, &bytes, call)?;
        }
        make::listings(comparison, rng, &made_by, &bytes)?;
        // Longer inputs; of the second the low 16 bits of the length are right.
        for more in [1, 65_536] {
            let longer = [&bytes[..], &vec![0; more]].concat();
            comparison.call(rng, &made_by, &longer, &Call::CheckTable)?;
            make::listings(comparison, rng, &made_by, &longer)?;
        }
        let indices = [0, 31, 32, 4_095, 4_096, usize::MAX];
        comparison.lookups(rng, &made_by, &bytes, &indices)?;
        // Every message received and not saved yet; then one of them one above.
        let mut unsaved = table.clone();
        for message in &mut unsaved.messages {
            message.received = table.counts[message.receiver];
        }
        let ceilings = make::ceilings(rng, &unsaved);
        let (processes, states) = make::names(rng, &unsaved);
        for call in [
            Call::CheckTable,
            Call::RecoveryLine { room },
            Call::LineOfSet { set: 1, room },
            Call::LinesOfSets {
                sets: vec![1, 0, all_hold(n), 3],
                numbers: n * n,
                room,
            },
            Call::StandTogether {
                processes,
                states,
                room,
            },
            Call::LineUnder {
                ceilings: ceilings.clone(),
                room,
            },
            Call::MarkedLine {
                ceilings,
                marks: needed,
                room,
            },
            Call::FallBack { room },
            Call::KeepSheet {
                numbers: n * n,
                room,
            },
            Call::Listing { room },
        ] {
            exact_and_short(comparison, rng, &made_by, &unsaved.to_bytes(), &call)?;
        }
        let last = unsaved.messages.len() - 1;
        unsaved.messages[last].received += 1;
        comparison.call(rng, &made_by, &unsaved.to_bytes(), &Call::CheckTable)?;
        // Two messages out of turn, in each of the ways.
        for fault in Fault::ALL {
            let Some(broken) = gen::put_out_of_turn(rng, table, fault) else {
                continue;
            };
            let broken = broken.to_bytes();
            for call in &calls[..13] {
                comparison.call(rng, &made_by, &broken, &call.with_room(64))?;
            }
            comparison.lookups(rng, &made_by, &broken, &indices)?;
        }
        // One count more than there may be, and one message more.
        let mut over = table.clone();
        over.counts[n - 1] = 4_097;
        comparison.call(rng, &made_by, &over.to_bytes(), &Call::CheckTable)?;
        let mut over = table.clone();
        over.messages.resize(4_097, over.messages[0]);
        comparison.call(rng, &made_by, &over.to_bytes(), &Call::CheckTable)?;
    }
    Ok(())
}

/// Every proper front part of some tables, with every call.
fn truncations(comparison: &mut Comparison, seed: u64) -> Result<(), Box<Difference>> {
    let rng = &mut Rng::new(seed);
    for number in 0..12 {
        let (n, m) = (rng.between(1, 5), rng.between(0, 8));
        let whole = gen::arbitrary(rng, n, m, 4).to_bytes();
        for bytes in gen::truncations(&whole) {
            let made_by = format!("truncations, seed {seed}, table {number}");
            make::battery(comparison, rng, &made_by, &bytes, true)?;
        }
    }
    Ok(())
}

/// Each count and each number of a message at the least value that is refused
/// and at the highest that is not, and a count of 0, which damage by chance may
/// miss; and two messages that two checks refuse, in both orders.
fn bounds(comparison: &mut Comparison, seed: u64) -> Result<(), Box<Difference>> {
    let rng = &mut Rng::new(seed);
    let whole = gen::arbitrary(rng, 3, 6, 4);
    let mut tables = Vec::new();
    for p in 0..3 {
        for count in [0, 4_096, 4_097] {
            let mut table = whole.clone();
            table.counts[p] = count;
            tables.push(table);
        }
    }
    for (k, message) in whole.messages.iter().enumerate() {
        let mut near = [*message; 4];
        near[0].sender = 3;
        near[1].receiver = 3;
        near[2].sent = whole.counts[message.sender] - 1;
        near[3].sent = whole.counts[message.sender];
        for message in near {
            let mut table = whole.clone();
            table.messages[k] = message;
            tables.push(table);
        }
    }
    let mut tables: Vec<Vec<u8>> = tables.iter().map(Table::to_bytes).collect();
    let receipts = gen::boundary_receipts(&whole);
    tables.extend(receipts.into_iter().map(|(bytes, _)| bytes));
    for (number, table) in tables.iter().enumerate() {
        let made_by = format!("bounds, seed {seed}, table {number}");
        make::battery(comparison, rng, &made_by, table, true)?;
    }
    // A check covers the whole table before the next begins, wherever its message is.
    let spoil = |table: &mut Table, k: usize, check: u32| {
        let message = &mut table.messages[k];
        match check {
            6 if k == 0 || k == 4 => message.sender = 3,
            6 => message.receiver = 3,
            7 => message.receiver = message.sender,
            8 => message.sent = whole.counts[message.sender],
            _ => message.received = whole.counts[message.receiver] + 1,
        }
    };
    for (earlier, later) in [(0, 1), (0, 5), (3, 4)] {
        for first in 6..=9 {
            for second in (6..=9).filter(|&second| second != first) {
                let made_by =
                    format!("bounds, seed {seed}, {first} at {earlier}, {second} at {later}");
                let mut table = whole.clone();
                spoil(&mut table, earlier, first);
                spoil(&mut table, later, second);
                let (bytes, check) = (table.to_bytes(), Outcome::refused(first.min(second)));
                comparison.call_expecting(rng, &made_by, &bytes, &Call::CheckTable, check)?;
                make::battery(comparison, rng, &made_by, &bytes, true)?;
            }
        }
    }
    Ok(())
}

/// Every damage and every pair of damages. A table that is cut for 1 has
/// nothing else to damage.
fn damages(comparison: &mut Comparison, seed: u64) -> Result<(), Box<Difference>> {
    let rng = &mut Rng::new(seed);
    for (place, &first) in TABLE_CHECKS.iter().enumerate() {
        for &second in &TABLE_CHECKS[place..] {
            if first == 1 && second != 1 {
                continue;
            }
            let with_order = second == 23;
            for round in 0..if with_order { 12 } else { 4 } {
                let (n, m) = (rng.between(2, 6), rng.between(1, 8));
                let whole = gen::arbitrary(rng, n, m, 5).to_bytes();
                let pair = if first == second {
                    vec![first]
                } else {
                    vec![first, second]
                };
                let Some(bytes) = gen::damage_many(rng, &whole, &pair) else {
                    continue;
                };
                let made_by = format!("damages {pair:?}, seed {seed}, round {round}");
                make::battery(comparison, rng, &made_by, &bytes, true)?;
            }
        }
    }
    Ok(())
}

/// Several refusals at once, which pins their order: small tables with and
/// without a full count and an unsaved message, a table full of messages, and
/// damaged ones; each with arguments of every kind and with buffers that are
/// enough or not.
fn orders(comparison: &mut Comparison, seed: u64) -> Result<(), Box<Difference>> {
    let rng = &mut Rng::new(seed);
    let small = Table {
        counts: vec![3, 2],
        messages: vec![
            Message::new((1, 0), (0, 2)),
            Message::new((0, 2), (1, 0)),
            Message::new((1, 1), (0, 0)),
            Message::new((1, 1), (0, 0)),
        ],
    };
    let mut full_count = small.clone();
    full_count.counts[0] = 4_096;
    let mut full_counts = small.clone();
    full_counts.counts = vec![4_096; 2];
    let mut full_of_messages = full_count.clone();
    full_of_messages.messages.resize(4_096, small.messages[3]);
    // Message 0 not saved yet; of the second table it is one above the count.
    let mut unsaved = full_count.clone();
    unsaved.messages[0].received = 4_096;
    let mut above = full_count.clone();
    above.messages[0].received = 4_097;
    // Message 3 out of turn, in each of the ways: received while message 2 waits,
    // saved or not; sent before it; and received before message 0.
    let [mut saved, mut not_saved, mut sent, mut received] = [(); 4].map(|()| full_count.clone());
    saved.messages[3].received = 2;
    not_saved.messages[3].received = 4_096;
    sent.messages[3].sent = 0;
    received.messages[2].received = 2;
    received.messages[3].received = 1;
    let made = [
        &small,
        &full_count,
        &full_counts,
        &full_of_messages,
        &unsaved,
        &above,
        &saved,
        &not_saved,
        &sent,
        &received,
    ];
    let mut tables: Vec<Vec<u8>> = made.map(Table::to_bytes).to_vec();
    for refusal in TABLE_CHECKS {
        tables.extend(gen::damage(rng, &full_count.to_bytes(), refusal));
    }
    // Good for process 0, and one that passes over message 2; then a position of M
    // and above, equal ones, falling ones, one of process 1, one that is received,
    // and saved or not; and two faults at once, of which one is to pass over.
    let lists: [&[u16]; 16] = [
        &[],
        &[2],
        &[2, 3],
        &[3],
        &[1],
        &[4],
        &[2, 4_096],
        &[65_535],
        &[2, 2],
        &[3, 2],
        &[1, 2, 3],
        &[0, 2],
        &[0, 1, 65_535],
        &[3, 3],
        &[3, 65_535],
        &[1, 3],
    ];
    // Ceilings on both sides of every boundary, for each of the counts; many too
    // many of them, also so that a length cut to 8 or 16 bits would be right.
    let mut ceilings: Vec<Vec<u16>> = Vec::new();
    for table in [&small, &full_count, &full_counts] {
        ceilings.extend(gen::boundary_ceilings(table));
    }
    for length in [256, 258, 65_536, 65_538] {
        ceilings.extend([vec![0; length], vec![65_535; length]]);
    }
    // Names on both sides of every boundary, and as many too many of them in one
    // list or in both.
    let mut names: Vec<gen::Names> = Vec::new();
    for table in [&small, &full_count, &full_counts] {
        names.extend(gen::boundary_names(table));
    }
    for length in [256, 258, 65_536, 65_538] {
        let rising: Vec<u16> = (0..length).map(|at| at as u16).collect();
        names.push((vec![0, 1], vec![0; length]));
        names.push((rising.clone(), vec![0, 0]));
        names.push((rising, vec![65_535; length]));
    }
    // Sets on both sides of bit 2, in every place; lists of 256 of them and of one
    // more, good and bad, and so that a number cut to 8 or 16 bits would be small.
    let mut lists_of_sets: Vec<Vec<u32>> = vec![
        vec![],
        vec![0],
        vec![3],
        vec![4],
        vec![1 << 31],
        vec![u32::MAX],
        vec![3, 2, 1, 0],
        vec![1, 1, 2],
        vec![4, 1, 2],
        vec![1, 4, 2],
        vec![1, 2, 4],
    ];
    for length in [255, 256, 257, 300, 512] {
        lists_of_sets.push((0..length).map(|k| k % 4).collect());
        for at in [0, length / 2, length - 1] {
            let bad = |k| if k == at { 4 } else { 3 };
            lists_of_sets.push((0..length).map(bad).collect());
        }
    }
    lists_of_sets.extend([65_536, 65_537, 65_792].map(|length| vec![3; length]));
    lists_of_sets.push(vec![4; 65_536]);
    let named = [0, 1, 2, 3, 65_535];
    for (number, table) in tables.iter().enumerate() {
        let made_by = format!("orders, table {number}");
        let room = usize::MAX;
        let mut calls = vec![
            Call::CheckTable,
            Call::RecoveryLine { room },
            Call::FallBack { room },
        ];
        for process in named {
            for to in named {
                let from = process;
                calls.push(Call::Send { from, to, room });
            }
            for list in lists {
                let list = list.to_vec();
                calls.push(Call::Save {
                    process,
                    list: list.clone(),
                    room,
                });
                calls.push(Call::Receive {
                    process,
                    list,
                    room,
                });
            }
        }
        for set in [0, 1, 2, 3, 4, 6, 7, 1 << 31, u32::MAX] {
            calls.push(Call::LineOfSet { set, room });
        }
        for sets in &lists_of_sets {
            for numbers in [0, 3, 4, 5] {
                let sets = sets.clone();
                calls.push(Call::LinesOfSets {
                    sets,
                    numbers,
                    room,
                });
            }
        }
        // Mark buffers that are just enough for the table, one byte short, and
        // none; of a refused table any.
        let needed = Table::read(table).map_or(1, |table| mark_bytes(&table));
        for ceilings in &ceilings {
            let ceilings = ceilings.clone();
            for marks in [0, needed - 1, needed, needed + 1] {
                let ceilings = ceilings.clone();
                calls.push(Call::MarkedLine {
                    ceilings,
                    marks,
                    room,
                });
            }
            calls.push(Call::LineUnder { ceilings, room });
        }
        for (processes, states) in &names {
            calls.push(Call::StandTogether {
                processes: processes.clone(),
                states: states.clone(),
                room,
            });
        }
        for numbers in 0..=5 {
            calls.push(Call::KeepSheet { numbers, room });
        }
        for call in &calls {
            // In an exact buffer and one byte short, or, where a check before
            // 16 catches, in an empty one; then in an empty and a long one.
            exact_and_short(comparison, rng, &made_by, table, call)?;
            for room in [0, table.len() + 20] {
                comparison.call(rng, &made_by, table, &call.with_room(room))?;
            }
        }
        make::listings(comparison, rng, &made_by, table)?;
    }
    Ok(())
}

/// Every list of positions, by every process and one beyond, of a save and of a
/// receipt: on tables with at most four messages, which wait, are received by a
/// state, or are not saved yet, for this process and another.
fn lists(comparison: &mut Comparison, seed: u64) -> Result<(), Box<Difference>> {
    let rng = &mut Rng::new(seed);
    for (m, tables) in [(0, 1), (1, 3), (2, 8), (3, 12), (4, 6)] {
        for number in 0..tables {
            let made_by = format!("lists, seed {seed}, {m} messages, table {number}");
            let mut table = gen::arbitrary(rng, 2, m, 3);
            let waiting = number % 2 == 0;
            for (k, message) in table.messages.iter_mut().enumerate() {
                // Of three the first waits, and the second is unsaved; in every
                // second table all wait but one.
                match (k + number) % 3 {
                    0 => message.received = 0,
                    1 if !waiting => message.received = table.counts[message.receiver],
                    _ if waiting && k > 0 => message.received = 0,
                    _ => {}
                }
            }
            // Every fourth table is left as it came.
            if number % 4 != 3 {
                gen::put_in_turn(&mut table.messages);
            }
            let bytes = table.to_bytes();
            for process in 0..=2 {
                for list in make::all_lists(m) {
                    let room = usize::MAX;
                    let save = Call::Save {
                        process,
                        list: list.clone(),
                        room,
                    };
                    exact_and_short(comparison, rng, &made_by, &bytes, &save)?;
                    let receive = Call::Receive {
                        process,
                        list,
                        room,
                    };
                    exact_and_short(comparison, rng, &made_by, &bytes, &receive)?;
                    for room in [0, bytes.len() + 5] {
                        comparison.call(rng, &made_by, &bytes, &receive.with_room(room))?;
                    }
                }
            }
        }
    }
    Ok(())
}

/// Tables in which several messages of a channel wait: for every process every set
/// of at most six of the messages that wait for it, of a save and of a receipt, with
/// room for the answer and without.
fn sets(comparison: &mut Comparison, seed: u64) -> Result<(), Box<Difference>> {
    let rng = &mut Rng::new(seed);
    for number in 0..240 {
        let made_by = format!("sets, seed {seed}, table {number}");
        let table = make::waiting(rng);
        let bytes = table.to_bytes();
        for process in 0..table.processes() {
            let mut waiting = table.waiting_for(process);
            waiting.truncate(6);
            for choice in 0..1 << waiting.len() {
                let chosen = (0..waiting.len()).filter(|at| choice >> at & 1 == 1);
                let list: Vec<u16> = chosen.map(|at| waiting[at] as u16).collect();
                let (process, room) = (process as u16, [0, bytes.len()][rng.between(0, 1)]);
                let save = Call::Save {
                    process,
                    list: list.clone(),
                    room,
                };
                comparison.call(rng, &made_by, &bytes, &save)?;
                let receive = Call::Receive {
                    process,
                    list,
                    room,
                };
                comparison.call(rng, &made_by, &bytes, &receive)?;
            }
        }
    }
    Ok(())
}

/// Two messages of one channel at every two places of five, the others of other
/// channels: numbers that are in turn and the same the other way round, so out of
/// turn in each of the ways; equal ones; unsaved ones. The same numbers in two
/// channels that have one end in common, or both, the other way round, are in turn.
/// Each with every call; and, out of turn, beside the damage of each other check.
fn channels(comparison: &mut Comparison, seed: u64) -> Result<(), Box<Difference>> {
    let rng = &mut Rng::new(seed);
    // Send and receipt numbers of the earlier and of the later, under counts of 3:
    // that of the receipt is 0 to wait and 3 to be unsaved.
    let pairs: [[(u32, u32); 2]; 10] = [
        [(0, 1), (1, 1)],
        [(0, 0), (2, 0)],
        [(1, 1), (1, 2)],
        [(1, 2), (1, 3)],
        [(1, 2), (1, 0)],
        [(1, 3), (1, 0)],
        [(0, 3), (2, 3)],
        [(1, 1), (1, 1)],
        [(2, 3), (2, 3)],
        [(2, 0), (2, 0)],
    ];
    // The channels of both: the same; another receiver, another sender, back.
    let ends = [
        [(0, 1), (0, 1)],
        [(0, 1), (0, 2)],
        [(0, 1), (2, 1)],
        [(0, 1), (1, 0)],
    ];
    for (number, pair) in pairs.iter().enumerate() {
        for [here, there] in ends {
            for swapped in [false, true] {
                for later in 1..5 {
                    for earlier in 0..later {
                        let [first, second] = if swapped { [pair[1], pair[0]] } else { *pair };
                        let mut table = Table {
                            counts: vec![3; 4],
                            messages: [(3, 0), (3, 1), (3, 2), (1, 3), (2, 3)]
                                .map(|(j, i)| Message::new((j, 1), (i, 2)))
                                .to_vec(),
                        };
                        let message = |(j, i), (y, r)| Message::new((j, y), (i, r));
                        table.messages[earlier] = message(here, first);
                        table.messages[later] = message(there, second);
                        let made_by = format!(
                            "channels, seed {seed}, pair {number}, {here:?} {there:?}, places {earlier} {later}"
                        );
                        let bytes = table.to_bytes();
                        let broken = here == there && swapped && pair[0] != pair[1];
                        let refusal = if broken { 23 } else { 0 };
                        let check = Outcome::refused(refusal);
                        comparison.call_expecting(
                            rng,
                            &made_by,
                            &bytes,
                            &Call::CheckTable,
                            check,
                        )?;
                        // All calls where it matters most, and on some of the others.
                        if here == there && later - earlier != 2 || rng.chance(1, 8) {
                            make::battery(comparison, rng, &made_by, &bytes, true)?;
                        }
                        if broken {
                            let other = TABLE_CHECKS[rng.between(4, TABLE_CHECKS.len() - 2)];
                            let both = gen::damage(rng, &bytes, other).expect("it has messages");
                            let check = Outcome::refused(other);
                            comparison.call_expecting(
                                rng,
                                &made_by,
                                &both,
                                &Call::CheckTable,
                                check,
                            )?;
                        }
                    }
                }
            }
        }
    }
    Ok(())
}

/// Every two lists of at most two numbers each, processes up to N and states up to
/// one above the highest count, on tables of two processes with every mixture of
/// messages that wait, are received by a state, or are not saved yet; and of at
/// most three numbers each on few of them.
fn names(comparison: &mut Comparison, seed: u64) -> Result<(), Box<Difference>> {
    let rng = &mut Rng::new(seed);
    for (longest, tables) in [(2, 40), (3, 3)] {
        for number in 0..tables {
            let made_by = format!("names, seed {seed}, lists up to {longest}, table {number}");
            let m = number % 5;
            let mut table = gen::arbitrary(rng, 2, m, 3);
            for (k, message) in table.messages.iter_mut().enumerate() {
                // Of four the first waits, and the second is unsaved.
                match (k + number) % 4 {
                    0 => message.received = 0,
                    1 => message.received = table.counts[message.receiver],
                    _ => {}
                }
            }
            // Every eighth table is left as it came.
            if number % 8 != 7 {
                gen::put_in_turn(&mut table.messages);
            }
            let bytes = table.to_bytes();
            let highest = table.counts[0].max(table.counts[1]) as u16;
            let lists = |most: u16| make::all_lists_of(most, longest);
            for processes in lists(2) {
                for states in lists(highest + 1) {
                    let call = Call::StandTogether {
                        processes: processes.clone(),
                        states,
                        room: usize::MAX,
                    };
                    exact_and_short(comparison, rng, &made_by, &bytes, &call)?;
                    comparison.call(rng, &made_by, &bytes, &call.with_room(5))?;
                }
            }
        }
    }
    Ok(())
}

/// Lists of sets, for every number of processes: none, the empty set, all, each
/// process alone, pairs, any, one many times over; up to 256 of them, and more; with a
/// bit at N or above in the first, in the last and in one between. Each with a scratch
/// and an answer buffer that are exact, one short, one longer, none, and far longer.
fn lists_of_sets(comparison: &mut Comparison, seed: u64) -> Result<(), Box<Difference>> {
    let rng = &mut Rng::new(seed);
    for n in 1..=32 {
        for kind in 0..3 {
            let made_by = format!("lists of sets, seed {seed}, {n} processes, table {kind}");
            let m = rng.between(n, 4 * n);
            let table = match kind {
                0 => gen::history(rng, n, m),
                1 => gen::arbitrary(rng, n, m, 5),
                _ => gen::clustered(rng, n, m),
            };
            let bytes = table.to_bytes();
            let all = all_hold(n);
            let singles: Vec<u32> = (0..n).map(single_holder).collect();
            let backward = singles.iter().rev().copied().collect();
            let mut pairs: Vec<u32> = Vec::new();
            for p in 0..n {
                pairs.extend((0..p).map(|q| single_holder(p) | single_holder(q)));
            }
            rng.shuffle(&mut pairs);
            pairs.truncate(255);
            let any: Vec<u32> = (0..256).map(|_| rng.next_bits() as u32 & all).collect();
            let mut lists = vec![
                vec![],
                vec![0],
                vec![all],
                vec![0, 0, all, all, 0],
                vec![any[0]; 9],
                singles,
                backward,
                pairs,
                any[..255].to_vec(),
                any.clone(),
            ];
            for length in [257, 300, [512, 65_536, 65_792][kind]] {
                lists.push(any.iter().cycle().copied().take(length).collect());
            }
            for length in [1, 3, 256, 257] {
                for at in [0, length / 2, length - 1] {
                    let mut bad: Vec<u32> = any.iter().cycle().copied().take(length).collect();
                    // Of 32 processes no bit is too high.
                    bad[at] |= 1 << [n.min(31), rng.between(n.min(31), 31), 31][rng.between(0, 2)];
                    lists.push(bad);
                }
            }
            for sets in lists {
                let call = |numbers: usize| Call::LinesOfSets {
                    sets: sets.clone(),
                    numbers,
                    room: usize::MAX,
                };
                let square = n * n;
                let least = 2 * n * sets.len();
                exact_and_short(comparison, rng, &made_by, &bytes, &call(square))?;
                for (numbers, room) in [
                    (square, 0),
                    (square + 1, least + 1),
                    (square - 1, least),
                    (square - 1, least.saturating_sub(1)),
                    (0, 0),
                    (square + 1_024, least.min(16_384) + 300),
                    (65_536 + square - 1, least.min(16_384)),
                ] {
                    // The last is long, and is tried now and then.
                    if numbers < 65_536 || rng.chance(1, 8) {
                        let call = call(numbers).with_room(room);
                        comparison.call(rng, &made_by, &bytes, &call)?;
                    }
                }
            }
        }
    }
    Ok(())
}

/// The mark buffer: tables whose bits just fill bytes, and with one bit less and
/// more, with few processes and with as many as there may be; lengths on both
/// sides of the least one, of the counts alone, and of 8 and 16 bits. Each under
/// the last states, from which the most roots give way, and by chance.
fn marks(comparison: &mut Comparison, seed: u64) -> Result<(), Box<Difference>> {
    let rng = &mut Rng::new(seed);
    for n in [1, 2, 3, 5, 7, 8, 9, 15, 16, 17, 31, 32] {
        for more in 0..=16 {
            let (m, most) = (rng.between(0, 3 * n), rng.between(1, 9) as u32);
            let mut table = gen::arbitrary(rng, n, m, most);
            // The last process takes the bits up to a byte, and then `more`.
            let bits: u32 = table.counts.iter().map(|count| count + 1).sum();
            table.counts[n - 1] += (8 - bits % 8) % 8 + more;
            let made_by = format!("marks, seed {seed}, {n} processes, {more} bits more");
            let bytes = table.to_bytes();
            let needed = mark_bytes(&table);
            let of_counts = table.counts.iter().sum::<u32>() as usize / 8;
            let last = table.counts.iter().map(|&count| count as u16 - 1).collect();
            for ceilings in [last, gen::ceilings(rng, &table)] {
                let lengths = [
                    0,
                    of_counts,
                    of_counts + 1,
                    needed - 1,
                    needed,
                    needed + 1,
                    needed + 8,
                    256,
                    256 + needed - 1,
                    16_388,
                    65_536,
                    65_536 + needed - 1,
                ];
                for marks in lengths {
                    let call = Call::MarkedLine {
                        ceilings: ceilings.clone(),
                        marks,
                        room: usize::MAX,
                    };
                    exact_and_short(comparison, rng, &made_by, &bytes, &call)?;
                }
            }
        }
    }
    Ok(())
}

/// Listings of tables whose share is an exact half, or one state away from it:
/// for all small numbers of kept states and some up to the most, with totals
/// from the least to the most; then of histories to which a process is added
/// whose count makes the share so.
fn shares(comparison: &mut Comparison, seed: u64) -> Result<(), Box<Difference>> {
    let rng = &mut Rng::new(seed);
    let listing = Call::Listing { room: usize::MAX };
    let most = share::most_kept(32);
    let mut numbers: Vec<usize> = (1..=most).collect();
    // Large ones are slow.
    numbers.retain(|&kept| kept <= 64 || kept == most || rng.chance(1, 6));
    for kept in numbers {
        for total in share::halves(kept) {
            for (kept, total) in share::near(kept, total) {
                let Some(table) = share::table(rng, kept, total) else {
                    continue;
                };
                let made_by = format!("shares, seed {seed}, {kept} of {total}");
                let bytes = table.to_bytes();
                exact_and_short(comparison, rng, &made_by, &bytes, &listing)?;
            }
        }
    }
    for number in 0..300 {
        let (n, m) = (rng.between(1, 31), rng.between(0, 60));
        let history = gen::history(rng, n, m);
        let states = history.counts.iter().sum::<u32>() as usize;
        let text = reference::listing(&history.to_bytes());
        let (kept, _) = share::read(text.as_bytes()).expect("an accepted table");
        for total in share::halves(kept as usize + 1) {
            for total in [total - 1, total, total + 1] {
                if !(states + 1..=states + 4_096).contains(&total) {
                    continue;
                }
                let made_by = format!("shares, seed {seed}, history {number}, a total of {total}");
                let bytes = share::with_another(&history, total - states).to_bytes();
                exact_and_short(comparison, rng, &made_by, &bytes, &listing)?;
            }
        }
    }
    Ok(())
}

/// A chain of steps in which each starts from the bytes that the library
/// wrote. Lines and sheets now and then. How many steps were made.
fn chain(comparison: &mut Comparison, seed: u64, steps: usize) -> Result<(), Box<Difference>> {
    let rng = &mut Rng::new(seed);
    let mut bytes = if rng.chance(2, 3) {
        let n = rng.between(1, 8);
        Table::start(n).to_bytes()
    } else {
        make::some_accepted(rng).to_bytes()
    };
    for number in 0..steps {
        let made_by = format!("chain, seed {seed}, step {number}");
        let table = Table::read(&bytes).expect("the library writes accepted tables");
        let n = table.processes();
        let call = make::step(rng, &table);
        let outcome = exact_and_short(comparison, rng, &made_by, &bytes, &call)?;
        if outcome.number == 0 {
            bytes = outcome.answer;
        }
        if number % 8 == 0 {
            let room = usize::MAX;
            let set = make::set(rng, n);
            let now = Table::read(&bytes).expect("the library writes accepted tables");
            let ceilings = make::ceilings(rng, &now);
            let numbers = n * n + rng.between(0, 3);
            let marks = make::marks(rng, mark_bytes(&now));
            let (processes, states) = make::names(rng, &now);
            let sets = make::sets(rng, n, true);
            for call in [
                Call::RecoveryLine { room },
                Call::LinesOfSets {
                    sets,
                    numbers,
                    room,
                },
                Call::StandTogether {
                    processes,
                    states,
                    room,
                },
                Call::LineOfSet { set, room },
                Call::MarkedLine {
                    ceilings: ceilings.clone(),
                    marks,
                    room,
                },
                Call::LineUnder { ceilings, room },
                Call::KeepSheet { numbers, room },
                Call::Listing { room },
            ] {
                exact_and_short(comparison, rng, &made_by, &bytes, &call)?;
            }
        }
    }
    Ok(())
}

fn run(comparison: &mut Comparison, calls: u64, seed: u64) -> Result<(), Box<Difference>> {
    let start = Instant::now();
    let mut done = 0;
    let mut part = |comparison: &Comparison, what: &str| {
        let total = comparison.total();
        println!(
            "{what}: {} calls, {:.1} s so far",
            total - done,
            start.elapsed().as_secs_f64()
        );
        done = total;
    };
    limits(comparison, seed)?;
    part(comparison, "limits, long dominoes and chains");
    truncations(comparison, seed + 1)?;
    part(comparison, "every truncation");
    bounds(comparison, seed + 5)?;
    damages(comparison, seed + 2)?;
    part(comparison, "bounds, damages and pairs of damages");
    orders(comparison, seed + 3)?;
    part(comparison, "several refusals at once");
    marks(comparison, seed + 6)?;
    part(comparison, "mark buffers");
    shares(comparison, seed + 4)?;
    part(comparison, "shares at and near exact halves");
    for number in 0..40 {
        chain(comparison, seed + 1_000 + number, 250)?;
    }
    part(
        comparison,
        "40 chains of 250 steps over the library's own answers",
    );
    // However few calls are asked for, some tables are by chance.
    let mut round = 0;
    while comparison.total() < calls || round < LEAST_TABLES {
        let rng = &mut Rng::new(seed.wrapping_mul(0x1_0000_0001).wrapping_add(round));
        let (kind, bytes) = make::table(rng);
        comparison.passes.add(&bytes);
        let made_by = format!("round {round} of seed {seed}, a table of the kind '{kind}'");
        make::battery(comparison, rng, &made_by, &bytes, bytes.len() > 8_000)?;
        round += 1;
    }
    part(comparison, &format!("{round} tables by chance"));
    // Behind the others, so that they take nothing from the tables by chance.
    channels(comparison, seed + 9)?;
    part(
        comparison,
        "two messages at all places, in turn and out of turn",
    );
    sets(comparison, seed + 10)?;
    part(comparison, "all sets of waiting messages");
    lists(comparison, seed + 7)?;
    part(comparison, "all lists of saves and receipts");
    names(comparison, seed + 8)?;
    part(comparison, "all lists of named states");
    lists_of_sets(comparison, seed + 11)?;
    part(comparison, "lists of sets");
    Ok(())
}

fn main() -> ExitCode {
    let mut arguments = env::args().skip(1).map(|word| word.parse::<u64>());
    let (calls, seed) = match (arguments.next(), arguments.next(), arguments.next()) {
        (None, _, _) => (CALLS, SEED),
        (Some(Ok(calls)), None, _) => (calls, SEED),
        (Some(Ok(calls)), Some(Ok(seed)), None) => (calls, seed),
        _ => {
            eprintln!("usage: calls [CALLS] [SEED]");
            return ExitCode::from(2);
        }
    };
    println!("comparing at least {calls} calls, seed {seed}");
    let mut comparison = Comparison::default();
    if let Err(difference) = run(&mut comparison, calls, seed) {
        println!("{difference}");
        println!("FAILED after {} calls that agree", comparison.total());
        return ExitCode::FAILURE;
    }
    print!("calls by the number returned:\n{}", comparison.report());
    let strays = comparison.strays();
    if !strays.is_empty() {
        println!("FAILED: {}", strays.join(", "));
        return ExitCode::FAILURE;
    }
    println!(
        "{} calls and {} lookups agree; every call met each of its refusals and no other, shares each rounding, named states both answers, and lists of sets each kind",
        comparison.total(),
        comparison.lookups
    );
    ExitCode::SUCCESS
}
