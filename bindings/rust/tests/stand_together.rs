//! `stand_together` beside the definition, tried on every line of small tables,
//! beside a search for zigzag paths written here, and on the corpus; its refusals;
//! what it leaves alone.
#![cfg(all(feature = "run_table", feature = "listing_text"))]

mod common;

use common::{
    accepted, bytes, bytes_of, corpus, counts, example_a, is_consistent, latest_of, lines_below,
    small, Chance, EXAMPLE_A,
};
use keeper::{archive, Checkpoint, Refusal, Table, LARGEST_LINE};

/// Checkpoints by process and number.
fn named(pairs: &[(u16, u16)]) -> Vec<Checkpoint> {
    let checkpoint = |&(process, number): &(u16, u16)| Checkpoint { process, number };
    pairs.iter().map(checkpoint).collect()
}

/// The answer on names that no check catches.
fn answer(table: &Table, names: &[Checkpoint]) -> Option<Vec<u16>> {
    let answer = table.stand_together(names);
    let line = answer.unwrap_or_else(|refusal| panic!("{table:?}, {names:?}: {refusal}"));
    line.map(|line| line.to_vec())
}

/// A table of counts and messages (sender, number, receiver, number).
fn of(counts: &[u16], messages: &[[u16; 4]]) -> Table {
    Table::from_bytes(bytes_of(counts, messages)).expect("it is accepted")
}

/// Every list of names: of each process none, or one of its checkpoints.
fn lists(table: &Table) -> Vec<Vec<Checkpoint>> {
    let choices = lines_below(&counts(table)).into_iter();
    choices
        .map(|choice| {
            let chosen = (0..).zip(choice).zip(table.counts());
            // The count stands for none.
            let chosen = chosen.filter(|((_, number), count)| number < count);
            chosen
                .map(|((process, number), _)| Checkpoint { process, number })
                .collect()
        })
        .collect()
}

/// The latest of all consistent lines that have the named checkpoints, where there
/// is one.
fn latest_with(table: &Table, names: &[Checkpoint]) -> Option<Vec<u16>> {
    let mut lines = lines_below(&counts(table));
    lines.retain(|line| {
        let has = |one: &Checkpoint| line[usize::from(one.process)] == one.number;
        names.iter().all(has) && is_consistent(table, line)
    });
    (!lines.is_empty()).then(|| latest_of(lines))
}

/// Whether a zigzag path leads from one checkpoint to the other, by Definition 1:
/// of the received messages those that a path from the first can end with, taken one
/// after another until there are no more.
fn zigzag(table: &Table, from: Checkpoint, to: Checkpoint) -> bool {
    let received: Vec<[u16; 4]> = table
        .messages()
        .filter_map(|one| Some([one.sender, one.sent, one.receiver, one.received?.get()]))
        .collect();
    let mut on_path = vec![false; received.len()];
    loop {
        let goes_on = |[sender, sent, ..]: &[u16; 4]| {
            let before = received.iter().zip(&on_path).filter(|(_, on)| **on);
            let mut before = before.map(|(message, _)| message);
            (*sender == from.process && *sent >= from.number)
                || before.any(|[_, _, receiver, number]| receiver == sender && *sent >= number - 1)
        };
        let next: Vec<bool> = received.iter().map(goes_on).collect();
        if next == on_path {
            break;
        }
        on_path = next;
    }
    let ends =
        |[_, _, receiver, number]: &[u16; 4]| *receiver == to.process && *number <= to.number;
    received
        .iter()
        .zip(on_path)
        .any(|(message, on)| on && ends(message))
}

#[test]
fn the_latest_line_that_has_the_named_ones_or_a_zigzag_path() {
    let mut chance = Chance(20_261_117);
    let tables = (0..800).map(|_| small(&mut chance)).collect::<Vec<_>>();
    let (mut yes, mut no, mut to_itself, mut all) = (0, 0, 0, 0);
    for table in [example_a()].iter().chain(&tables) {
        for names in lists(table) {
            let line = answer(table, &names);
            assert_eq!(line, latest_with(table, &names), "{table:?}, {names:?}");
            let pairs = names
                .iter()
                .flat_map(|from| names.iter().map(move |to| (from, to)));
            let paths: Vec<_> = pairs
                .filter(|(from, to)| zigzag(table, **from, **to))
                .collect();
            assert_eq!(
                line.is_none(),
                !paths.is_empty(),
                "{table:?}, {names:?}: {paths:?}"
            );
            yes += usize::from(line.is_some());
            no += usize::from(line.is_none());
            to_itself += usize::from(paths.iter().any(|(from, to)| from == to));
            all += usize::from(names.len() == counts(table).len() && names.len() > 1);
        }
    }
    // Of each there are many: names of every process, too.
    assert!(yes > 4_000 && no > 1_000, "{yes} {no}");
    assert!(to_itself > 100 && all > 500, "{to_itself} {all}");
}

#[test]
fn example_a_by_its_names() {
    let a = example_a();
    for (names, line) in [
        (&[][..], Some([3, 3])),
        (&[(0, 0)], Some([0, 1])),
        (&[(0, 1)], Some([1, 1])),
        // From 0.2 to itself by messages 3 and 2.
        (&[(0, 2)], None),
        (&[(1, 0)], Some([0, 0])),
        (&[(1, 1)], Some([1, 1])),
        (&[(1, 2)], Some([3, 2])),
        (&[(0, 0), (1, 0)], Some([0, 0])),
        (&[(0, 0), (1, 1)], Some([0, 1])),
        // From 0.0 to 1.2 by message 0.
        (&[(0, 0), (1, 2)], None),
        // From 1.0 to 0.1 by message 1.
        (&[(0, 1), (1, 0)], None),
        (&[(0, 1), (1, 1)], Some([1, 1])),
        // From 0.1 to 1.2 by message 3.
        (&[(0, 1), (1, 2)], None),
        (&[(0, 2), (1, 0)], None),
        (&[(0, 2), (1, 1)], None),
        (&[(0, 2), (1, 2)], None),
    ] {
        let line = line.map(|line| line.to_vec());
        assert_eq!(answer(&a, &named(names)), line, "{names:?}");
    }
}

/// The smallest zigzag path that is no chain of cause and effect, from checkpoint 1
/// of process 0 to itself, with each of its numbers a little higher and lower.
#[test]
fn a_zigzag_path_to_itself() {
    let counts = [4, 3];
    let with = |first: [u16; 4], second: [u16; 4]| of(&counts, &[first, second]);
    let useless = |table: &Table, number: u16| answer(table, &named(&[(0, number)])).is_none();
    // After 0.2; received before 1.2, in interval 1; sent there; received before 0.2.
    let path = with([0, 2, 1, 2], [1, 1, 0, 2]);
    assert!(useless(&path, 2));
    // Neither the one before nor the one after, nor the other process's.
    assert!(!useless(&path, 1) && !useless(&path, 3));
    for number in 0..3 {
        assert!(answer(&path, &named(&[(1, number)])).is_some(), "{number}");
    }
    for (table, expected) in [
        // Sent an interval before, and later; received earlier, and later.
        (with([0, 1, 1, 2], [1, 1, 0, 2]), false),
        (with([0, 3, 1, 2], [1, 1, 0, 2]), true),
        (with([0, 2, 1, 1], [1, 1, 0, 2]), true),
        (with([0, 2, 1, 3], [1, 1, 0, 2]), false),
        (with([0, 2, 1, 2], [1, 0, 0, 2]), false),
        (with([0, 2, 1, 2], [1, 2, 0, 2]), true),
        (with([0, 2, 1, 2], [1, 1, 0, 1]), true),
        (with([0, 2, 1, 2], [1, 1, 0, 3]), false),
        // Waiting messages take no part, nor do messages the other way round.
        (with([0, 2, 1, 0], [1, 1, 0, 2]), false),
        (with([0, 2, 1, 2], [1, 1, 0, 0]), false),
        (with([1, 1, 0, 2], [0, 2, 1, 2]), true),
    ] {
        assert_eq!(useless(&table, 2), expected, "{table:?}");
    }
    // It is on no consistent line, whatever else is named.
    for number in 0..3 {
        assert_eq!(answer(&path, &named(&[(0, 2), (1, number)])), None);
    }
    assert_eq!(latest_with(&path, &named(&[(0, 2)])), None);
}

/// A receipt that is not saved yet lies in the last interval of its receiver.
#[test]
fn receipts_that_are_not_saved() {
    // After 0.1, received by process 1 since its checkpoint 0; process 1 sent to 0
    // there, before 0.1. Two messages, and three checkpoints in all.
    let unsaved = of(&[2, 1], &[[0, 1, 1, 1], [1, 0, 0, 1]]);
    assert!(unsaved.message(0).expect("there").is_unsaved());
    assert_eq!(answer(&unsaved, &named(&[(0, 1)])), None);
    assert_eq!(answer(&unsaved, &named(&[(0, 0)])), Some(vec![0, 0]));
    assert_eq!(answer(&unsaved, &named(&[])), Some(vec![2, 1]));
    // Waiting, it is on no path.
    let waiting = of(&[2, 1], &[[0, 1, 1, 0], [1, 0, 0, 1]]);
    assert_eq!(answer(&waiting, &named(&[(0, 1)])), Some(vec![1, 1]));
    // In the last interval of process 1, and not in the one before.
    let later = of(&[2, 2], &[[0, 1, 1, 2], [1, 0, 0, 1]]);
    assert!(later.message(0).expect("there").is_unsaved());
    assert_eq!(answer(&later, &named(&[(0, 1)])), Some(vec![1, 1]));
    let last = of(&[2, 2], &[[0, 1, 1, 2], [1, 1, 0, 1]]);
    assert_eq!(answer(&last, &named(&[(0, 1)])), None);
    // No checkpoint has received it, so that a path ends with it nowhere; the line
    // stands where it is not received.
    let end = of(&[2, 2], &[[0, 1, 1, 2]]);
    assert_eq!(answer(&end, &named(&[(0, 1), (1, 1)])), Some(vec![1, 1]));
    assert_eq!(answer(&end, &named(&[(0, 1)])), Some(vec![1, 1]));
    assert_eq!(answer(&end, &named(&[(1, 1)])), Some(vec![2, 1]));
    // Saved, it is received before that checkpoint.
    let mut saved = end.clone();
    assert_eq!(saved.save(1, &[]), Ok(2));
    assert_eq!(answer(&saved, &named(&[(0, 1), (1, 2)])), None);
    assert_eq!(answer(&saved, &named(&[(0, 1), (1, 1)])), Some(vec![1, 1]));
}

/// The lines that the listings of the corpus have stand together: the recovery line
/// with all its checkpoints, and of each line of a holder those that are there.
#[test]
fn lines_of_the_corpus_stand_together() {
    for case in corpus() {
        let Ok(table) = Table::from_bytes(&case.table[..]) else {
            continue;
        };
        let numbers = |row: &str| -> Vec<u16> {
            let fields = row.split(' ').map(|field| field.parse().expect("a number"));
            fields.collect()
        };
        let on = |line: &[u16]| -> Vec<Checkpoint> {
            let all = (0..).zip(line.iter().copied());
            let there = all.filter(|(process, number)| *number < table.count(*process));
            named(&there.collect::<Vec<_>>())
        };
        let name = &case.name;
        assert_eq!(answer(&table, &[]), Some(counts(&table)), "{name}");
        let recovery = numbers(case.rows("line").next().expect("a line"));
        assert_eq!(answer(&table, &on(&recovery)), Some(recovery), "{name}");
        for row in case.rows("hold") {
            let held = &numbers(row)[1..];
            // The latest line with these is this one or a later one.
            let line = answer(&table, &on(held)).expect("a yes");
            assert!(line.iter().zip(held).all(|(l, h)| l >= h), "{name}, {row}");
            assert!(is_consistent(&table, &line), "{name}, {row}");
            let holder = numbers(row)[0];
            let last = table.count(holder) - 1;
            let alone = answer(&table, &named(&[(holder, last)]));
            // A process that holds is put back by its own line just where its last
            // checkpoint is on none.
            let stays = held[usize::from(holder)] == last;
            assert_eq!(alone, stays.then(|| held.to_vec()), "{name}, {row}");
        }
    }
}

#[test]
fn names_that_are_refused() {
    for (name, table) in accepted() {
        let n = counts(&table).len() as u16;
        let refused = |pairs: &[(u16, u16)]| table.stand_together(&named(pairs)).err();
        for process in 0..n {
            // The last checkpoint can be named, and what stands for the new state
            // can't.
            let count = table.count(process);
            assert_eq!(refused(&[(process, 0)]), None, "{name}, {process}");
            assert_eq!(refused(&[(process, count - 1)]), None, "{name}, {process}");
            for number in [count, count + 1, u16::MAX] {
                let caught = Some(Refusal::NamedStateTooHigh);
                assert_eq!(refused(&[(process, number)]), caught, "{name}, {process}");
            }
            // Twice, and after a higher one.
            for after in [process, n - 1] {
                let caught = Some(Refusal::BadNamedProcess);
                assert_eq!(
                    refused(&[(after, 0), (process, 0)]),
                    caught,
                    "{name}, {process}"
                );
            }
        }
        for process in [n, n + 1, 32, u16::MAX] {
            let caught = Some(Refusal::BadNamedProcess);
            for number in [0, u16::MAX] {
                assert_eq!(refused(&[(process, number)]), caught, "{name}, {process}");
            }
            assert_eq!(
                refused(&[(0, 0), (process, 0)]),
                caught,
                "{name}, {process}"
            );
        }
        // Any other length of the second list, whatever they name.
        let mut line = [0x5a; LARGEST_LINE];
        for (processes, states) in [
            (0, 1),
            (1, 0),
            (1, 2),
            (2, 1),
            (32, 33),
            (65_536, 0),
            (1, 65_537),
        ] {
            for number in [0, u16::MAX] {
                let (processes, states) = (vec![number; processes], vec![number; states]);
                let refused =
                    keeper::stand_together(table.as_bytes(), &processes, &states, &mut line);
                assert_eq!(refused, Err(Refusal::UnequalLists), "{name}");
            }
        }
        assert_eq!(line, [0x5a; LARGEST_LINE], "{name}");
    }
    // A list as long as it can be said, of which the first 32 are right.
    let table = of(&[1; 32], &[]);
    let mut long: Vec<u16> = (0..32).collect();
    let mut line = [0; LARGEST_LINE];
    let together = |processes: &[u16], line: &mut [u8]| {
        keeper::stand_together(table.as_bytes(), processes, &vec![0; processes.len()], line)
    };
    assert_eq!(together(&long, &mut line), Ok(Some(64)));
    assert_eq!(line, [0; 64]);
    long.extend((0..65_536).map(|place| place as u16));
    assert_eq!(together(&long, &mut line), Err(Refusal::BadNamedProcess));
}

/// The table's checks come before 20, that before 21, that before 22, and that
/// before 16; each is of the whole list before the next.
#[test]
fn the_first_check_that_catches() {
    let a = bytes(&EXAMPLE_A);
    let mut line = [0x5a; 3];
    let mut refused = |table: &[u8], processes: &[u16], states: &[u16]| {
        keeper::stand_together(table, processes, states, &mut line).expect_err("a check catches")
    };
    assert_eq!(refused(&a[..47], &[9], &[]), Refusal::WrongLength);
    assert_eq!(refused(&a[..3], &[], &[]), Refusal::TableTooShort);
    assert_eq!(refused(&a, &[9], &[9, 9]), Refusal::UnequalLists);
    assert_eq!(refused(&a, &[1, 0], &[9]), Refusal::UnequalLists);
    assert_eq!(refused(&a, &[0, 2], &[9, 0]), Refusal::BadNamedProcess);
    assert_eq!(refused(&a, &[1, 1], &[9, 9]), Refusal::BadNamedProcess);
    assert_eq!(refused(&a, &[1, 0], &[9, 9]), Refusal::BadNamedProcess);
    assert_eq!(refused(&a, &[0, 1], &[3, 1]), Refusal::NamedStateTooHigh);
    assert_eq!(refused(&a, &[0, 1], &[1, 3]), Refusal::NamedStateTooHigh);
    // Also where those before can't stand together.
    assert_eq!(refused(&a, &[0, 1], &[2, 3]), Refusal::NamedStateTooHigh);
    assert_eq!(refused(&a, &[0, 1], &[1, 1]), Refusal::AnswerTooShort);
    assert_eq!(refused(&a, &[], &[]), Refusal::AnswerTooShort);
    // A no needs no room, whether there is some or none.
    assert_eq!(keeper::stand_together(&a, &[0], &[2], &mut line), Ok(None));
    assert_eq!(keeper::stand_together(&a, &[0], &[2], &mut []), Ok(None));
    assert_eq!(line, [0x5a; 3]);
    let mut enough = [0; 4];
    let yes = keeper::stand_together(&a, &[1], &[2], &mut enough);
    assert_eq!((yes, enough), (Ok(Some(4)), [3, 0, 2, 0]));
}

/// By the archive's own call: under a refusal `written` and the buffer are as they
/// were; of a no `written` is 0 and the buffer is as it was; of a yes what lies beyond
/// the answer is; and lists and table always. The buffer stands at even and odd
/// places.
#[test]
fn what_is_left_alone() {
    let a = bytes(&EXAMPLE_A);
    let yes = Some(&[3, 0, 2, 0]);
    for (processes, states, room, number, line) in [
        (&[0][..], &[][..], 64, 20, None),
        (&[], &[0], 64, 20, None),
        (&[0, 1], &[0, 0, 0], 0, 20, None),
        (&[2], &[0], 64, 21, None),
        (&[0, 0], &[0, 0], 64, 21, None),
        (&[1, 0], &[0, 0], 0, 21, None),
        (&[u16::MAX], &[u16::MAX], 64, 21, None),
        (&[1], &[3], 64, 22, None),
        (&[0, 1], &[0, u16::MAX], 0, 22, None),
        (&[1], &[2], 0, 16, None),
        (&[1], &[2], 3, 16, None),
        (&[], &[], 3, 16, None),
        (&[0], &[2], 0, 0, None),
        (&[0], &[2], 3, 0, None),
        (&[0], &[2], 64, 0, None),
        (&[0, 1], &[1, 2], 64, 0, None),
        (&[1], &[2], 4, 0, yes),
        (&[1], &[2], 64, 0, yes),
        (&[], &[], 4, 0, Some(&[3, 0, 3, 0])),
    ] {
        for at in 4..6 {
            let guarded = |list: &[u16]| [&[0x5a5a], list, &[0x5a5a]].concat();
            let (one, other) = (guarded(processes), guarded(states));
            let (mut buffer, mut written) = ([0xa5; 72], 77);
            // SAFETY: each length is that of what its pointer leads to, and
            // nothing overlaps.
            let answered = unsafe {
                archive::keeper_stand_together(
                    a.as_ptr(),
                    a.len(),
                    one[1..].as_ptr(),
                    processes.len(),
                    other[1..].as_ptr(),
                    states.len(),
                    buffer[at..].as_mut_ptr(),
                    room,
                    &mut written,
                )
            };
            let mut expected = [0xa5; 72];
            if let Some(line) = line {
                expected[at..at + 4].copy_from_slice(line);
            }
            let length = match number {
                0 => line.map_or(0, |line| line.len()),
                _ => 77,
            };
            let asked = format!("{processes:?}, {states:?}, {room}, {at}");
            assert_eq!((answered, written), (number, length), "{asked}");
            assert_eq!(buffer, expected, "{asked}");
            assert_eq!(
                (one, other),
                (guarded(processes), guarded(states)),
                "{asked}"
            );
            assert_eq!(a, bytes(&EXAMPLE_A), "{asked}");
        }
    }
    // Empty lists may be null pointers, and so may the buffer where its length is 0.
    let (mut buffer, mut written) = ([0xa5; 6], 77);
    for (room, number, length) in [(0, 16, 77), (3, 16, 77), (4, 0, 4)] {
        // SAFETY: the lengths of the null pointers are 0, and the buffer is longer
        // than its length says.
        let answered = unsafe {
            archive::keeper_stand_together(
                a.as_ptr(),
                a.len(),
                std::ptr::null(),
                0,
                std::ptr::null(),
                0,
                match room {
                    0 => std::ptr::null_mut(),
                    _ => buffer.as_mut_ptr(),
                },
                room,
                &mut written,
            )
        };
        assert_eq!((answered, written), (number, length), "{room}");
    }
    assert_eq!(buffer, [3, 0, 3, 0, 0xa5, 0xa5]);
}

/// A table with as much as there can be, and a path that has all its messages.
#[test]
fn thirty_two_processes_4096_checkpoints_and_4096_messages() {
    // From the last checkpoint of 0 to 1, round and round among 1 to 30, one interval
    // lower in each round, and to 31 before its checkpoint 1. Each is sent in the
    // interval in which the one before it is received.
    let round_message = |k: u16| {
        let (from, to) = (1 + k % 30, 1 + (k + 1) % 30);
        let sent = 4_095 - k / 30;
        [from, sent, to, if to == 1 { sent } else { sent + 1 }]
    };
    let mut messages = vec![[0, 4_095, 1, 4_096]];
    messages.extend((0..4_094).map(round_message));
    assert_eq!(messages[4_094], [14, 3_959, 15, 3_960]);
    messages.push([15, 3_959, 31, 1]);
    // So each channel is in order.
    messages.reverse();
    let table = of(&[4_096; 32], &messages);
    let ends = |number: u16| named(&[(0, 4_095), (31, number)]);
    assert_eq!(answer(&table, &ends(1)), None);
    assert_eq!(answer(&table, &ends(4_095)), None);
    let line = answer(&table, &ends(0)).expect("a yes");
    assert_eq!((line[0], line[31]), (4_095, 0));
    // Each of them is needed.
    for position in [0, 1, 30, 2_000, 4_094, 4_095] {
        let mut messages = messages.clone();
        messages.remove(position);
        let line = answer(&of(&[4_096; 32], &messages), &ends(1));
        assert!(line.is_some(), "{position}");
    }
    // Every process named.
    let all = |number: u16| named(&(0..32).map(|p| (p, number)).collect::<Vec<_>>());
    assert_eq!(answer(&table, &all(0)), Some(vec![0; 32]));
    assert_eq!(answer(&table, &all(4_095)), None);
    let refused = table.stand_together(&all(4_096));
    assert_eq!(refused, Err(Refusal::NamedStateTooHigh));
    // Without messages every choice stands together.
    let free = of(&[4_096; 32], &[]);
    assert_eq!(answer(&free, &all(4_095)), Some(vec![4_095; 32]));
    let mut line = vec![4_096; 32];
    line[31] = 0;
    assert_eq!(answer(&free, &named(&[(31, 0)])), Some(line));
}
