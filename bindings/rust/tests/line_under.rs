//! `line_under` beside the definition, tried on every line of small tables, and
//! beside the listings of the corpus; its refusals; what it leaves alone.
#![cfg(all(feature = "run_table", feature = "listing_text"))]

mod common;

use common::{
    accepted, bytes, ceilings_of, corpus, counts, example_a, is_consistent, latest, lines_below,
    small, Chance, EXAMPLE_A,
};
use keeper::{archive, Refusal, Table, LARGEST_LINE};

#[test]
fn the_latest_consistent_line_at_or_below_all_ceilings() {
    let mut chance = Chance(20_261_116);
    let tables = (0..400).map(|_| small(&mut chance)).collect::<Vec<_>>();
    let (mut lists, mut lowered) = (0, 0);
    for table in [example_a()].iter().chain(&tables) {
        for ceilings in lines_below(&counts(table)) {
            let line = table.line_under(&ceilings).expect("none is too high");
            assert_eq!(*line, latest(table, &ceilings), "{table:?}, {ceilings:?}");
            lists += 1;
            lowered += usize::from(*line != ceilings);
        }
    }
    assert!(lists > 4_000 && lowered > 1_000, "{lists} {lowered}");
}

#[test]
fn example_a_by_its_ceilings() {
    let a = example_a();
    for (ceilings, line) in [
        ([3, 3], [3, 3]),
        ([3, 2], [3, 2]),
        ([2, 3], [1, 1]),
        ([2, 2], [1, 1]),
        ([3, 1], [1, 1]),
        ([1, 3], [1, 1]),
        ([0, 3], [0, 1]),
        ([3, 0], [0, 0]),
        ([0, 0], [0, 0]),
    ] {
        assert_eq!(*a.line_under(&ceilings).unwrap(), line, "{ceilings:?}");
    }
}

/// A set is one kind of ceilings: the lines that the listings of the corpus
/// have, and those of sets by chance.
#[test]
fn the_line_of_a_set_is_the_line_under_its_ceilings() {
    let mut chance = Chance(7);
    for case in corpus() {
        let Ok(table) = Table::from_bytes(&case.table[..]) else {
            continue;
        };
        let (name, n) = (&case.name, table.processes());
        let all = u32::MAX >> (32 - u32::from(n));
        let line = table.line_under(&ceilings_of(&table, all)).unwrap();
        assert_eq!(case.rows("line").collect::<Vec<_>>(), [line.to_string()]);
        let free = table.line_under(&counts(&table)).unwrap();
        assert_eq!(*free, counts(&table), "{name}");
        for (process, row) in (0..n).zip(case.rows("hold")) {
            let ceilings = ceilings_of(&table, 1 << process);
            let line = table.line_under(&ceilings).unwrap();
            assert_eq!(row, format!("{process} {line}"), "{name}");
        }
        for _ in 0..8 {
            let set = chance.below(1 << 32) as u32 & all;
            let (mut by_set, mut by_list) = ([0xa5; LARGEST_LINE], [0xa5; LARGEST_LINE]);
            let written = keeper::line_of_set(&case.table, set, &mut by_set);
            let ceilings = ceilings_of(&table, set);
            let under = keeper::line_under(&case.table, &ceilings, &mut by_list);
            assert_eq!((under, by_list), (written, by_set), "{name}, {set:#x}");
        }
    }
}

/// A ceiling less gives a line that is nowhere later.
#[test]
fn lower_ceilings_give_no_later_line() {
    let mut chance = Chance(11);
    for (name, table) in accepted() {
        let mut ceilings = counts(&table);
        let mut line = table.line_under(&ceilings).unwrap();
        for _ in 0..20 {
            let process = chance.below(ceilings.len());
            ceilings[process] -= chance.below(1 + usize::from(ceilings[process])) as u16;
            let lower = table.line_under(&ceilings).unwrap();
            assert!(lower.iter().zip(&*line).all(|(l, o)| l <= o), "{name}");
            assert!(lower.iter().zip(&ceilings).all(|(l, c)| l <= c), "{name}");
            assert!(is_consistent(&table, &lower), "{name}");
            line = lower;
        }
    }
}

#[test]
fn lists_that_are_refused() {
    for (name, table) in accepted() {
        let counts = counts(&table);
        let n = counts.len();
        // Any length but N, of numbers that would be refused and of others.
        for length in [0, 1, n - 1, n + 1, 31, 32, 33, 64, 65_536, 65_536 + n] {
            if length == n {
                continue;
            }
            for number in [0, u16::MAX] {
                let refused = table.line_under(&vec![number; length]);
                assert_eq!(refused, Err(Refusal::WrongCeilingCount), "{name}, {length}");
            }
        }
        // The count is a ceiling, and one more is none, at each process alone.
        for process in 0..n {
            let mut ceilings = vec![0; n];
            ceilings[process] = counts[process];
            let line = table.line_under(&ceilings).expect("the count is a ceiling");
            let below = line.iter().zip(&ceilings).all(|(l, c)| l <= c);
            assert!(below && is_consistent(&table, &line), "{name}, {process}");
            for higher in [counts[process] + 1, u16::MAX] {
                ceilings[process] = higher;
                let refused = table.line_under(&ceilings);
                assert_eq!(refused, Err(Refusal::CeilingTooHigh), "{name}, {process}");
            }
        }
    }
}

/// The table's checks come before 17, that before 18, and that before 16.
#[test]
fn the_first_check_that_catches() {
    let a = bytes(&EXAMPLE_A);
    let mut short = [0; 3];
    let mut under = |table: &[u8], ceilings: &[u16]| {
        keeper::line_under(table, ceilings, &mut short).expect_err("the buffer is short")
    };
    assert_eq!(under(&a[..47], &[9]), Refusal::WrongLength);
    assert_eq!(under(&a, &[9]), Refusal::WrongCeilingCount);
    assert_eq!(under(&a, &[9, 9, 9]), Refusal::WrongCeilingCount);
    assert_eq!(under(&a, &[3, 4]), Refusal::CeilingTooHigh);
    assert_eq!(under(&a, &[4, 3]), Refusal::CeilingTooHigh);
    assert_eq!(under(&a, &[3, 3]), Refusal::AnswerTooShort);
    assert_eq!(short, [0; 3]);
    let mut enough = [0; 4];
    assert_eq!(keeper::line_under(&a, &[3, 2], &mut enough), Ok(4));
    assert_eq!(enough, [3, 0, 2, 0]);
}

/// By the archive's own call: under a refusal `written` and the buffer are as
/// they were, otherwise what lies beyond the answer is, and the list always.
#[test]
fn what_is_left_alone() {
    let a = bytes(&EXAMPLE_A);
    for (list, room, number) in [
        (&[][..], 64, 17),
        (&[3], 64, 17),
        (&[3, 3, 3], 64, 17),
        (&[3, 4], 64, 18),
        (&[u16::MAX, 0], 64, 18),
        (&[3, 2], 0, 16),
        (&[3, 2], 3, 16),
        (&[3, 2], 4, 0),
        (&[3, 2], 64, 0),
    ] {
        let guarded = [&[0x5a5a], list, &[0x5a5a]].concat();
        let mut buffer = [0xa5; 72];
        let mut written = 77;
        // SAFETY: each length is that of what its pointer leads to, and nothing
        // overlaps.
        let answered = unsafe {
            archive::keeper_line_under(
                a.as_ptr(),
                a.len(),
                guarded[1..].as_ptr(),
                list.len(),
                buffer[4..].as_mut_ptr(),
                room,
                &mut written,
            )
        };
        let mut expected = [0xa5; 72];
        if number == 0 {
            expected[4..8].copy_from_slice(&[3, 0, 2, 0]);
        }
        let length = if number == 0 { 4 } else { 77 };
        assert_eq!((answered, written), (number, length), "{list:?}, {room}");
        assert_eq!(buffer, expected, "{list:?}, {room}");
        assert_eq!(guarded, [&[0x5a5a], list, &[0x5a5a]].concat());
        assert_eq!(a, bytes(&EXAMPLE_A));
    }
    // An empty list may be a null pointer.
    let mut written = 77;
    // SAFETY: the lengths of both null pointers are 0.
    let answered = unsafe {
        archive::keeper_line_under(
            a.as_ptr(),
            a.len(),
            std::ptr::null(),
            0,
            std::ptr::null_mut(),
            0,
            &mut written,
        )
    };
    assert_eq!((answered, written), (17, 77));
}

#[test]
fn thirty_two_processes_and_4096_checkpoints() {
    let numbers = [vec![32, 0], vec![4_096; 32]].concat();
    let table = Table::from_bytes(bytes(&numbers)).unwrap();
    let mut ceilings = vec![4_096; 32];
    assert_eq!(*table.line_under(&ceilings).unwrap(), ceilings[..]);
    ceilings[31] = 0;
    assert_eq!(*table.line_under(&ceilings).unwrap(), ceilings[..]);
    ceilings[31] = 4_097;
    assert_eq!(table.line_under(&ceilings), Err(Refusal::CeilingTooHigh));
    assert_eq!(
        table.line_under(&ceilings[..31]),
        Err(Refusal::WrongCeilingCount)
    );
}
