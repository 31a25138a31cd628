//! `marked_line` beside the definition of the line, tried on every line of small
//! tables, beside a graph search written here, and beside the listings of the
//! corpus; the size of its marks; its refusals; what it leaves alone.
#![cfg(all(feature = "run_table", feature = "listing_text"))]

mod common;

use std::collections::BTreeSet;

use common::{
    accepted, bytes, ceilings_of, corpus, counts, example_a, latest, lines_below, small, Chance,
    EXAMPLE_A,
};
use keeper::{archive, Refusal, Table, LARGEST_LINE, MARKS_ROOM};

/// A table of these counts without messages.
fn of_counts(counts: &[u16]) -> Table {
    let numbers = [&[counts.len() as u16, 0], counts].concat();
    Table::from_bytes(bytes(&numbers)).expect("within the limits")
}

/// Asks with a buffer of the marks' size and one that is longer, of several
/// contents; the line, which has to be the same each time, and the marks as they
/// are said to be.
fn marked(table: &Table, ceilings: &[u16]) -> Vec<u16> {
    let size = table.marks_size();
    let mut lines = vec![];
    for (longer, fill) in [(0, 0x00), (0, 0xff), (1, 0xa5), (9, 0x5a)] {
        let mut marks = vec![fill; size + longer];
        let line = table.marked_line(ceilings, &mut marks);
        lines.push(line.expect("no ceiling is too high"));
        assert_eq!(marks, [vec![0; size], vec![fill; longer]].concat());
    }
    assert!(lines.iter().all(|line| *line == lines[0]), "{lines:?}");
    lines[0].to_vec()
}

/// Figure 3 over an explicit graph, and in how many rounds a root gave way.
fn figure_3(table: &Table, ceilings: &[u16]) -> (Vec<u16>, usize) {
    let mut edges = BTreeSet::new();
    for (process, count) in (0..).zip(table.counts()) {
        edges.extend((0..count).map(|number| ((process, number), (process, number + 1))));
    }
    for message in table.messages() {
        if let Some(received) = message.received {
            let to = (message.receiver, received.get());
            edges.insert(((message.sender, message.sent), to));
        }
    }
    let (mut roots, mut marked) = (ceilings.to_vec(), BTreeSet::new());
    for rounds in 0.. {
        let mut from: Vec<(u16, u16)> = (0..).zip(roots.iter().copied()).collect();
        while let Some(place) = from.pop() {
            for (_, to) in edges.iter().filter(|(own, _)| *own == place) {
                if marked.insert(*to) {
                    from.push(*to);
                }
            }
        }
        let before = roots.clone();
        for (process, root) in (0..).zip(&mut roots) {
            while marked.contains(&(process, *root)) {
                *root -= 1;
            }
        }
        if roots == before {
            return (roots, rounds);
        }
    }
    unreachable!("a root gives way in each round")
}

#[test]
fn the_line_under_ceilings_by_another_method() {
    let mut chance = Chance(20_261_117);
    let tables = (0..300).map(|_| small(&mut chance)).collect::<Vec<_>>();
    let (mut lists, mut rounds) = (0, [0; 20]);
    for table in [example_a()].iter().chain(&tables) {
        for ceilings in lines_below(&counts(table)) {
            let line = marked(table, &ceilings);
            assert_eq!(line, latest(table, &ceilings), "{table:?}, {ceilings:?}");
            let (searched, gave_way) = figure_3(table, &ceilings);
            assert_eq!(line, searched, "{table:?}, {ceilings:?}");
            lists += 1;
            rounds[gave_way] += 1;
        }
    }
    assert!(lists > 3_000, "{lists}");
    // In none, in one and in two rounds a root gives way: of each there are many.
    assert!(rounds[..3].iter().all(|lists| *lists > 20), "{rounds:?}");
}

/// Two processes of `count` checkpoints, with messages (0,k) to (1,k) and (1,k-1)
/// to (0,k) for each k from 1: one root gives way by one checkpoint in each round,
/// down to 0 0, where process 0 stands at its last checkpoint first.
#[test]
fn a_domino_in_many_rounds() {
    for count in [2, 3, 40, 2_049] {
        let sends = (1..count).flat_map(|k| [0, k, 1, k - 1]);
        let receipts = (1..count).flat_map(|k| [1, k, 0, k]);
        let head = [2, 2 * (count - 1), count, count];
        let numbers: Vec<u16> = head.into_iter().chain(sends).chain(receipts).collect();
        let table = Table::from_bytes(bytes(&numbers)).expect("within the limits");
        assert_eq!(marked(&table, &[count, count]), [count, count]);
        assert_eq!(marked(&table, &[count, count - 1]), [count, count - 1]);
        assert_eq!(marked(&table, &[count - 1, count]), [0, 0]);
        assert_eq!(marked(&table, &[count - 1, count - 1]), [0, 0]);
        if count <= 40 {
            let rounds = 2 * usize::from(count - 1);
            let searched = figure_3(&table, &[count - 1, count - 1]);
            assert_eq!(searched, (vec![0, 0], rounds), "{count}");
        }
    }
}

#[test]
fn example_a_by_its_ceilings() {
    let a = example_a();
    for (ceilings, line) in [
        ([3, 3], [3, 3]),
        ([3, 2], [3, 2]),
        ([2, 3], [1, 1]),
        ([2, 2], [1, 1]),
        ([3, 1], [1, 1]),
        ([1, 3], [1, 1]),
        ([0, 3], [0, 1]),
        ([3, 0], [0, 0]),
        ([0, 0], [0, 0]),
    ] {
        assert_eq!(marked(&a, &ceilings), line, "{ceilings:?}");
    }
}

/// The lines that the listings of the corpus have; and byte for byte what
/// `line_under` writes, under ceilings by chance.
#[test]
fn the_tables_of_the_corpus() {
    let mut chance = Chance(19);
    for case in corpus() {
        let Ok(table) = Table::from_bytes(&case.table[..]) else {
            continue;
        };
        let (name, n) = (&case.name, table.processes());
        let shown = |set: u32| {
            let line = marked(&table, &ceilings_of(&table, set));
            let numbers: Vec<String> = line.iter().map(u16::to_string).collect();
            numbers.join(" ")
        };
        let all = u32::MAX >> (32 - u32::from(n));
        assert_eq!(case.rows("line").collect::<Vec<_>>(), [shown(all)]);
        for (process, row) in (0..n).zip(case.rows("hold")) {
            let held = format!("{process} {}", shown(1 << process));
            assert_eq!(row, held, "{name}");
        }
        for _ in 0..8 {
            let below = |count: u16| chance.below(usize::from(count) + 1) as u16;
            let ceilings: Vec<u16> = table.counts().map(below).collect();
            let mut marks = vec![0xff; table.marks_size()];
            let (mut one, mut other) = ([0xa5; LARGEST_LINE], [0xa5; LARGEST_LINE]);
            let by_marking = keeper::marked_line(&case.table, &ceilings, &mut marks, &mut one);
            let under = keeper::line_under(&case.table, &ceilings, &mut other);
            assert_eq!((by_marking, one), (under, other), "{name}, {ceilings:?}");
        }
    }
}

/// One bit for each checkpoint, one for each process: sums at and beside the
/// multiples of 8, by hand.
#[test]
fn sizes_of_marks() {
    for (counts, size) in [
        (&[1][..], 1),
        (&[6], 1),
        (&[7], 1),
        (&[8], 2),
        (&[15], 2),
        (&[16], 3),
        (&[4_096], 513),
        (&[3, 3], 1),
        (&[3, 4], 2),
        (&[1; 4], 1),
        (&[1; 5], 2),
        (&[1; 32], 8),
        (&[4_096; 16], 8_194),
        (&[4_096; 31], 15_876),
        (&[4_096; 32], 16_388),
    ] {
        let table = of_counts(counts);
        assert_eq!(table.marks_size(), size, "{counts:?}");
        assert_eq!(keeper::marks_size(table.as_bytes()), Ok(size), "{counts:?}");
        assert_eq!(marked(&table, counts), counts);
        let mut marks = vec![0xff; size];
        for length in [0, size / 2, size - 1] {
            let refused = table.marked_line(counts, &mut marks[..length]);
            assert_eq!(refused, Err(Refusal::MarksTooShort), "{counts:?}, {length}");
        }
        assert_eq!(marks, vec![0xff; size], "{counts:?}");
    }
    for (name, table) in accepted() {
        let bits = table.counts().map(usize::from).sum::<usize>() + counts(&table).len();
        let size = table.marks_size();
        assert!(8 * (size - 1) < bits && bits <= 8 * size, "{name}");
        assert!(size <= MARKS_ROOM, "{name}");
    }
    // A refused table has no marks.
    for case in corpus() {
        if let Some(number) = case.refused() {
            let refused = keeper::marks_size(&case.table).expect_err("it is refused");
            assert_eq!(refused.number(), number, "{}", case.name);
        }
    }
}

#[test]
fn lists_that_are_refused() {
    let mut marks = vec![0x5a; MARKS_ROOM];
    for (name, table) in accepted() {
        let counts = counts(&table);
        let n = counts.len();
        for length in [0, 1, n - 1, n + 1, 31, 32, 33, 64, 65_536, 65_536 + n] {
            if length == n {
                continue;
            }
            for number in [0, u16::MAX] {
                let refused = table.marked_line(&vec![number; length], &mut marks);
                assert_eq!(refused, Err(Refusal::WrongCeilingCount), "{name}, {length}");
            }
        }
        for process in 0..n {
            let mut ceilings = vec![0; n];
            for higher in [counts[process] + 1, u16::MAX] {
                ceilings[process] = higher;
                let refused = table.marked_line(&ceilings, &mut marks);
                assert_eq!(refused, Err(Refusal::CeilingTooHigh), "{name}, {process}");
            }
        }
    }
    assert!(marks.iter().all(|byte| *byte == 0x5a));
}

/// The table's checks come before 17, that before 18, that before 19, and that
/// before 16.
#[test]
fn the_first_check_that_catches() {
    let a = bytes(&EXAMPLE_A);
    let mut line = [0x5a; 3];
    let mut refused = |table: &[u8], ceilings: &[u16], marks: &mut [u8]| {
        keeper::marked_line(table, ceilings, marks, &mut line).expect_err("the buffer is short")
    };
    assert_eq!(refused(&a[..47], &[9], &mut []), Refusal::WrongLength);
    assert_eq!(refused(&a, &[9], &mut []), Refusal::WrongCeilingCount);
    assert_eq!(refused(&a, &[9, 9, 9], &mut []), Refusal::WrongCeilingCount);
    assert_eq!(refused(&a, &[3, 4], &mut []), Refusal::CeilingTooHigh);
    assert_eq!(refused(&a, &[4, 3], &mut []), Refusal::CeilingTooHigh);
    assert_eq!(refused(&a, &[3, 3], &mut []), Refusal::MarksTooShort);
    let mut marks = [0x5a; 2];
    assert_eq!(refused(&a, &[3, 3], &mut marks), Refusal::AnswerTooShort);
    assert_eq!((line, marks), ([0x5a; 3], [0x5a; 2]));
    let mut enough = [0; 4];
    let written = keeper::marked_line(&a, &[3, 2], &mut marks[..1], &mut enough);
    assert_eq!(written, Ok(4));
    assert_eq!((enough, marks), ([3, 0, 2, 0], [0, 0x5a]));
}

/// By the archive's own call: under a refusal `written`, the marks and the buffer
/// are as they were, otherwise what lies beyond the answer and the marks is, and
/// the list and the table always. The marks stand at even and odd places.
#[test]
fn what_is_left_alone() {
    let a = bytes(&EXAMPLE_A);
    for (list, marks, room, number) in [
        (&[][..], 8, 64, 17),
        (&[3], 8, 64, 17),
        (&[3, 3, 3], 8, 64, 17),
        (&[3, 4], 8, 64, 18),
        (&[u16::MAX, 0], 0, 0, 18),
        (&[3, 2], 0, 64, 19),
        (&[3, 2], 0, 0, 19),
        (&[3, 2], 1, 0, 16),
        (&[3, 2], 8, 3, 16),
        (&[3, 2], 1, 4, 0),
        (&[3, 2], 8, 64, 0),
    ] {
        for at in 4..12 {
            let guarded = [&[0x5a5a], list, &[0x5a5a]].concat();
            let (mut buffer, mut marked, mut written) = ([0xa5; 72], [0xc3; 24], 77);
            // SAFETY: each length is that of what its pointer leads to, and
            // nothing overlaps.
            let answered = unsafe {
                archive::keeper_marked_line(
                    a.as_ptr(),
                    a.len(),
                    guarded[1..].as_ptr(),
                    list.len(),
                    marked[at..].as_mut_ptr(),
                    marks,
                    buffer[4..].as_mut_ptr(),
                    room,
                    &mut written,
                )
            };
            let (mut answer, mut cleared) = ([0xa5; 72], [0xc3; 24]);
            if number == 0 {
                answer[4..8].copy_from_slice(&[3, 0, 2, 0]);
                cleared[at] = 0;
            }
            let length = if number == 0 { 4 } else { 77 };
            let asked = format!("{list:?}, {marks}, {room}, {at}");
            assert_eq!((answered, written), (number, length), "{asked}");
            assert_eq!((buffer, marked), (answer, cleared), "{asked}");
            assert_eq!(guarded, [&[0x5a5a], list, &[0x5a5a]].concat());
            assert_eq!(a, bytes(&EXAMPLE_A));
        }
    }
    // What is empty may be a null pointer.
    for (list, number) in [(&[][..], 17), (&[3, 2], 19)] {
        let mut written = 77;
        // SAFETY: the lengths of the null pointers are 0, and a slice's pointer
        // is to as many numbers as its length says.
        let answered = unsafe {
            archive::keeper_marked_line(
                a.as_ptr(),
                a.len(),
                match list {
                    [] => std::ptr::null(),
                    _ => list.as_ptr(),
                },
                list.len(),
                std::ptr::null_mut(),
                0,
                std::ptr::null_mut(),
                0,
                &mut written,
            )
        };
        assert_eq!((answered, written), (number, 77));
    }
}

/// The most marks, on a table with as many messages as there can be.
#[test]
fn thirty_two_processes_4096_checkpoints_and_4096_messages() {
    // Each message is sent at the last checkpoint of 0 and received by process 31
    // before another of its checkpoints, from number 1 on; the last two before one.
    let sends = (0..4_096).flat_map(|_| [0, 4_095]);
    let receipts = (0..4_096).flat_map(|k| [31, 4_095.min(1 + k)]);
    let numbers = [32, 4_096].into_iter().chain([4_096; 32]);
    let numbers: Vec<u16> = numbers.chain(sends).chain(receipts).collect();
    let table = Table::from_bytes(bytes(&numbers)).expect("within the limits");
    assert_eq!(table.marks_size(), MARKS_ROOM);
    let mut ceilings = vec![4_096; 32];
    assert_eq!(marked(&table, &ceilings), ceilings);
    ceilings[0] = 4_095;
    let mut line = ceilings.clone();
    line[31] = 0;
    assert_eq!(marked(&table, &ceilings), line);
    let mut marks = vec![0xff; MARKS_ROOM - 1];
    assert_eq!(
        table.marked_line(&ceilings, &mut marks),
        Err(Refusal::MarksTooShort)
    );
    assert!(marks.iter().all(|byte| *byte == 0xff));
}
