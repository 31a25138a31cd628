//! `lines_of_sets` beside the definition of the line, tried on every set of small
//! tables, beside `line_of_set` and on the corpus; its scratch; its refusals; what it
//! leaves alone.
#![cfg(all(feature = "run_table", feature = "listing_text"))]

mod common;

use common::{
    accepted, bytes, bytes_of, ceilings_of, corpus, counts, example_a, latest, number_at, small,
    Chance, EXAMPLE_A,
};
use keeper::{archive, Line, Refusal, Table, LARGEST_LINE, LINES_ROOM, MOST_SETS, SCRATCH_NUMBERS};

/// A table of counts and messages (sender, number, receiver, number).
fn of(counts: &[u16], messages: &[[u16; 4]]) -> Table {
    Table::from_bytes(bytes_of(counts, messages)).expect("it is accepted")
}

/// The lines of sets and those of single holders, as numbers.
type Said = (Vec<Vec<u16>>, Vec<Vec<u16>>);

/// Asks with an answer buffer and a scratch of the least length, and with longer ones,
/// of several contents; the lines, which have to be the same each time, with all that
/// lies beyond them as it was.
fn asked(table: &Table, sets: &[u32]) -> Said {
    let n = counts(table).len();
    let (size, square) = (2 * n * sets.len(), n * n);
    let mut said = vec![];
    for (longer, fill) in [(0, 0x00), (0, 0xff), (1, 0xa5), (67, 0x5a)] {
        let wide = u16::from_le_bytes([fill, fill]);
        let mut scratch = vec![wide; square + longer];
        let mut answer = vec![fill; size + longer];
        let written = keeper::lines_of_sets(table.as_bytes(), sets, &mut scratch, &mut answer);
        assert_eq!(written, Ok(size), "{table:?}, {sets:?}");
        assert_eq!(answer[size..], vec![fill; longer], "{table:?}, {sets:?}");
        assert_eq!(scratch[square..], vec![wide; longer], "{table:?}, {sets:?}");
        let numbers: Vec<u16> = (0..n * sets.len())
            .map(|place| number_at(&answer, place))
            .collect();
        let each = |all: &[u16]| all.chunks(n).map(<[u16]>::to_vec).collect::<Vec<_>>();
        said.push((each(&numbers), each(&scratch[..square])));
    }
    assert!(said.iter().all(|one| *one == said[0]), "{said:?}");
    said.swap_remove(0)
}

/// The bytes of the single call, one line after another.
fn single(table: &Table, sets: &[u32]) -> Vec<u8> {
    let mut lines = vec![];
    for set in sets {
        let mut line = [0; LARGEST_LINE];
        let written = keeper::line_of_set(table.as_bytes(), *set, &mut line).expect("a line");
        lines.extend_from_slice(&line[..written]);
    }
    lines
}

#[test]
fn every_set_of_small_tables_by_the_definition() {
    let mut chance = Chance(20_261_118);
    let tables = (0..500).map(|_| small(&mut chance)).collect::<Vec<_>>();
    let (mut back, mut below_both) = (0, 0);
    for table in [example_a()].iter().chain(&tables) {
        let n = counts(table).len();
        // Each set, then each once more from the last one on.
        let rising: Vec<u32> = (0..1 << n).collect();
        let sets: Vec<u32> = rising.iter().chain(rising.iter().rev()).copied().collect();
        let (lines, holders) = asked(table, &sets);
        assert_eq!(lines.len(), sets.len());
        for (set, line) in sets.iter().zip(&lines) {
            let expected = latest(table, &ceilings_of(table, *set));
            assert_eq!(*line, expected, "{table:?}, {set:b}");
            // A process outside the set is put back.
            let outside = (0..n).filter(|process| set >> process & 1 == 0);
            back += usize::from(outside.into_iter().any(|p| line[p] < counts(table)[p]));
            // No member's line is that of the set.
            let mut members = (0..n).filter(|process| set >> process & 1 == 1);
            below_both += usize::from(*set != 0 && members.all(|p| holders[p] != *line));
        }
        for (process, line) in holders.iter().enumerate() {
            let expected = latest(table, &ceilings_of(table, 1 << process));
            assert_eq!(*line, expected, "{table:?}, {process}");
        }
    }
    // Of each there are many.
    assert!(back > 500 && below_both > 500, "{back} {below_both}");
}

#[test]
fn example_a_by_its_sets() {
    let a = example_a();
    let (lines, holders) = asked(&a, &[0b11, 0b10, 0, 0b01, 0b10, 0b10]);
    let expected = [[1, 1], [3, 2], [3, 3], [1, 1], [3, 2], [3, 2]];
    assert_eq!(lines, expected);
    assert_eq!(holders, [[1, 1], [3, 2]]);
    // The empty set alone, and none at all.
    assert_eq!(asked(&a, &[0]).0, [[3, 3]]);
    assert_eq!(asked(&a, &[]), (vec![], holders));
}

/// The lines of single holders in the listings, and for all processes the recovery line;
/// each further set as the single call has it.
#[test]
fn lines_of_the_corpus() {
    for case in corpus() {
        let Ok(table) = Table::from_bytes(&case.table[..]) else {
            continue;
        };
        let name = &case.name;
        let numbers = |row: &str| -> Vec<u16> {
            let fields = row.split(' ').map(|field| field.parse().expect("a number"));
            fields.collect()
        };
        let hold: Vec<Vec<u16>> = case
            .rows("hold")
            .map(|row| numbers(row)[1..].to_vec())
            .collect();
        let recovery = numbers(case.rows("line").next().expect("a line"));
        let n = recovery.len();
        let all = (1u64 << n) - 1;
        // Nobody, everybody, and each process alone, the last one first.
        let mut sets = vec![0, all as u32];
        sets.extend((0..n).rev().map(|process| 1 << process));
        let (lines, holders) = asked(&table, &sets);
        assert_eq!(lines[0], counts(&table), "{name}");
        assert_eq!(lines[1], recovery, "{name}");
        assert_eq!(holders, hold, "{name}");
        let rising: Vec<_> = lines[2..].iter().rev().cloned().collect();
        assert_eq!(rising, hold, "{name}");
    }
}

/// Beside the single call, byte for byte: as many sets as there may be, by chance, and
/// each set without one of its members, which the line then no longer has to suit.
#[test]
fn the_single_call_for_each_set() {
    let mut chance = Chance(8);
    let mut differ = 0;
    for (name, table) in accepted() {
        let n = counts(&table).len();
        let all = ((1u64 << n) - 1) as u32;
        let mut sets: Vec<u32> = (0..n).map(|process| all & !(1 << process)).collect();
        while sets.len() < MOST_SETS {
            sets.push(chance.below(1 << n.min(30)) as u32 | (1 << (n - 1)));
        }
        let mut scratch = [0; SCRATCH_NUMBERS];
        let mut answer = [0; LINES_ROOM];
        let written = keeper::lines_of_sets(table.as_bytes(), &sets, &mut scratch, &mut answer);
        let written = written.expect("no check catches");
        assert_eq!(answer[..written], single(&table, &sets), "{name}");
        let recovery = table.recovery_line();
        let lines = table.lines_of_sets(&sets).expect("no check catches");
        differ += lines.iter().filter(|line| **line != recovery).count();
    }
    assert!(differ > 1_000, "{differ}");
}

#[test]
fn owned_lines() {
    let a = example_a();
    let lines = a.lines_of_sets(&[0b01, 0b10, 0]).expect("no check catches");
    let numbers = |line: &Line| line.to_vec();
    let expected = [[1, 1], [3, 2], [3, 3]];
    assert_eq!((lines.len(), lines.is_empty()), (3, false));
    assert_eq!(lines.iter().map(numbers).collect::<Vec<_>>(), expected);
    assert_eq!(lines.iter().len(), 3);
    let back: Vec<_> = lines.iter().rev().map(numbers).collect();
    assert_eq!(back, [[3, 3], [3, 2], [1, 1]]);
    assert_eq!(lines.get(1).map(numbers), Some(vec![3, 2]));
    assert_eq!(lines.get(3), None);
    assert_eq!(lines[1].to_string(), "3 2");
    let mut borrowed = vec![];
    for line in &lines {
        borrowed.push(numbers(line));
    }
    assert_eq!(borrowed, expected);
    // Each line is the one that the single call gives, as its own type.
    for (line, set) in lines.iter().zip([0b01, 0b10, 0]) {
        assert_eq!(Ok(line), a.line_of_set(set).as_ref());
    }
    // The lines of single holders, of which the sheet is made too.
    let sheet = a.keep_sheet();
    for process in 0..3 {
        assert_eq!(lines.holder(process), sheet.line(process), "{process}");
    }
    assert_eq!(lines.holder(1).map(numbers), Some(vec![3, 2]));
    assert_eq!(lines.holder(u16::MAX), None);
    let owned: Vec<Line> = lines.clone().into_iter().collect();
    assert_eq!(owned[..], lines[..]);
    // No sets: no lines, and the holders' all the same.
    let none = a.lines_of_sets(&[]).expect("no check catches");
    assert_eq!((none.len(), none.is_empty()), (0, true));
    assert_eq!(none.holder(1), lines.holder(1));
    assert_ne!(none, lines);
}

#[test]
fn two_hundred_and_fifty_six_sets() {
    for (n, last) in [(1, 0b1), (2, 0b10), (31, 1 << 30), (32, 1 << 31)] {
        let table = of(&vec![2; n], &[]);
        for (sets, refused) in [(255, None), (256, None), (257, Some(Refusal::TooManySets))] {
            // Nobody, but for the last one of the list.
            let mut list = vec![0; sets];
            list[sets - 1] = last;
            let lines = table.lines_of_sets(&list);
            assert_eq!(lines.as_ref().err(), refused.as_ref(), "{n}, {sets}");
            let Ok(lines) = lines else { continue };
            let mut line = vec![2; n];
            assert!(lines[..sets - 1].iter().all(|one| **one == line[..]));
            line[n - 1] = 1;
            assert_eq!(*lines[sets - 1], line, "{n}, {sets}");
        }
        for sets in [258, 512, 513, 65_536, 65_792] {
            let refused = table.lines_of_sets(&vec![0; sets]).err();
            assert_eq!(refused, Some(Refusal::TooManySets), "{n}, {sets}");
        }
    }
}

/// Of any set of the list, whichever it is; where N is 32 of none.
#[test]
fn a_set_with_a_process_that_is_not_there() {
    for n in 1..=32 {
        let table = of(&vec![1; n], &[]);
        let all = ((1u64 << n) - 1) as u32;
        for length in [1, 2, 3, 256] {
            let mut sets = vec![all; length];
            assert_eq!(table.lines_of_sets(&sets).err(), None, "{n}, {length}");
            for place in [0, length / 2, length - 1] {
                for bit in n..32 {
                    sets[place] = 1 << bit;
                    let refused = table.lines_of_sets(&sets).err();
                    let caught = Some(Refusal::UnknownProcessInSet);
                    assert_eq!(refused, caught, "{n}, {length}, {place}, {bit}");
                }
                sets[place] = all;
            }
        }
    }
}

/// Process 31 sends process 0 a message after its last checkpoint, and 0 saves: where 31
/// holds, 0 goes back, and where any other holds, nobody else does.
#[test]
fn thirty_two_processes() {
    let table = of(&[4_096; 32], &[[31, 4_095, 0, 4_000]]);
    let sets = [1 << 31, 1 << 30, 1, u32::MAX, u32::MAX >> 1, 0, 1 << 31 | 2];
    let (lines, holders) = asked(&table, &sets);
    let line = |set: u32| -> Vec<u16> {
        let mut line: Vec<u16> = (0..32).map(|p| 4_096 - (set >> p & 1) as u16).collect();
        if set >> 31 == 1 {
            line[0] = 3_999;
        }
        line
    };
    for (set, said) in sets.iter().zip(&lines) {
        assert_eq!(*said, line(*set), "{set:b}");
    }
    for (process, said) in holders.iter().enumerate() {
        assert_eq!(*said, line(1 << process), "{process}");
    }
    assert_eq!(lines[3][0], 3_999);
    assert_eq!(lines[4][0], 4_095);
}

/// The table's checks come before 25, that before 12, that before 15, and that before
/// 16; 12 is of the whole list.
#[test]
fn the_first_check_that_catches() {
    let a = bytes(&EXAMPLE_A);
    let refused = |table: &[u8], sets: &[u32], numbers: usize, room: usize| {
        let (mut scratch, mut answer) = (vec![0x5a5a; numbers], vec![0x5a; room]);
        let said = keeper::lines_of_sets(table, sets, &mut scratch, &mut answer);
        assert_eq!(scratch, vec![0x5a5a; numbers]);
        assert_eq!(answer, vec![0x5a; room]);
        said.expect_err("a check catches")
    };
    let many = [4; 257];
    assert_eq!(refused(&a[..3], &many, 0, 0), Refusal::TableTooShort);
    assert_eq!(refused(&a[..47], &many, 0, 0), Refusal::WrongLength);
    let mut out_of_order = a.clone();
    out_of_order[34] = 0; // the receipt number of message 1
    let caught = refused(&out_of_order, &many, 0, 0);
    assert_eq!(caught, Refusal::ChannelOutOfOrder);
    assert_eq!(refused(&a, &many, 0, 0), Refusal::TooManySets);
    assert_eq!(refused(&a, &many, 4, 1_028), Refusal::TooManySets);
    assert_eq!(refused(&a, &[0; 257], 4, 1_028), Refusal::TooManySets);
    let unknown = Refusal::UnknownProcessInSet;
    assert_eq!(refused(&a, &many[..256], 0, 0), unknown);
    assert_eq!(refused(&a, &[4, 0, 0], 0, 0), unknown);
    assert_eq!(refused(&a, &[0, 4, 0], 3, 12), unknown);
    assert_eq!(refused(&a, &[0, 0, 4], 4, 11), unknown);
    assert_eq!(refused(&a, &[0, 0, 1 << 31], 4, 12), unknown);
    assert_eq!(refused(&a, &[0; 3], 0, 0), Refusal::ScratchTooShort);
    assert_eq!(refused(&a, &[0; 3], 3, 11), Refusal::ScratchTooShort);
    assert_eq!(refused(&a, &[0; 3], 3, 12), Refusal::ScratchTooShort);
    assert_eq!(refused(&a, &[], 3, 0), Refusal::ScratchTooShort);
    assert_eq!(refused(&a, &[0; 3], 4, 0), Refusal::AnswerTooShort);
    assert_eq!(refused(&a, &[0; 3], 4, 11), Refusal::AnswerTooShort);
    assert_eq!(refused(&a, &[3; 256], 4, 1_023), Refusal::AnswerTooShort);
    let (mut scratch, mut answer) = ([0; 4], [0; 12]);
    let said = keeper::lines_of_sets(&a, &[0b10; 3], &mut scratch, &mut answer);
    assert_eq!((said, scratch), (Ok(12), [1, 1, 3, 2]));
    assert_eq!(answer, [3, 0, 2, 0, 3, 0, 2, 0, 3, 0, 2, 0]);
}

/// The least scratch and the least buffer, and one number or byte less, for every N.
#[test]
fn scratch_and_room_of_every_size() {
    for n in 1..=32 {
        let table = of(&vec![3; n], &[]);
        for length in [1, 2, 255, 256] {
            let sets = vec![1; length];
            let (square, size) = (n * n, 2 * n * length);
            for (numbers, room, refused) in [
                (square - 1, size, Some(Refusal::ScratchTooShort)),
                (square - 1, size - 1, Some(Refusal::ScratchTooShort)),
                (square, size - 1, Some(Refusal::AnswerTooShort)),
                (1_024, 0, Some(Refusal::AnswerTooShort)),
                (square, size, None),
            ] {
                let (mut scratch, mut answer) = (vec![7; numbers], vec![7; room]);
                let table = table.as_bytes();
                let said = keeper::lines_of_sets(table, &sets, &mut scratch, &mut answer);
                let asked = format!("{n}, {length}, {numbers}, {room}");
                assert_eq!(said.err(), refused, "{asked}");
                let untouched = scratch.iter().all(|one| *one == 7);
                assert_eq!(untouched, refused.is_some(), "{asked}");
                let untouched = answer.iter().all(|one| *one == 7);
                assert_eq!(untouched, refused.is_some(), "{asked}");
            }
        }
    }
}

/// By the archive's own call: under a refusal `written`, the scratch and the buffer are
/// as they were; on success what lies beyond the answer and the lines is; and list and
/// table always. The buffer stands at even and odd places.
#[test]
fn what_is_left_alone() {
    let a = bytes(&EXAMPLE_A);
    let (both, none) = (&[1, 0, 1, 0][..], &[3, 0, 3, 0][..]);
    let lines = [both, none, both].concat();
    for (sets, numbers, room, number, lines) in [
        (&[0; 257][..], 4, 1_028, 25, &[][..]),
        (&[4; 257], 0, 0, 25, &[]),
        (&[3, 4], 4, 8, 12, &[]),
        (&[u32::MAX], 3, 3, 12, &[]),
        (&[3, 0, 3], 3, 12, 15, &[]),
        (&[3, 0, 3], 0, 0, 15, &[]),
        (&[], 3, 0, 15, &[]),
        (&[3, 0, 3], 4, 11, 16, &[]),
        (&[3, 0, 3], 9, 0, 16, &[]),
        (&[3], 4, 3, 16, &[]),
        (&[3, 0, 3], 4, 12, 0, &lines),
        (&[3, 0, 3], 9, 40, 0, &lines),
        (&[], 4, 0, 0, &[]),
        (&[], 5, 40, 0, &[]),
    ] {
        for at in 4..6 {
            let guarded = [&[0x5a5a_5a5a], sets, &[0x5a5a_5a5a]].concat();
            let mut scratch = vec![0x5a5a; numbers + 2];
            let (mut buffer, mut written) = (vec![0xa5; room + 10], 77);
            // SAFETY: each length is that of what its pointer leads to, and
            // nothing overlaps.
            let answered = unsafe {
                archive::keeper_lines_of_sets(
                    a.as_ptr(),
                    a.len(),
                    guarded[1..].as_ptr(),
                    sets.len(),
                    scratch[1..].as_mut_ptr(),
                    numbers,
                    buffer[at..].as_mut_ptr(),
                    room,
                    &mut written,
                )
            };
            let mut expected = vec![0xa5; room + 10];
            expected[at..at + lines.len()].copy_from_slice(lines);
            let mut held = vec![0x5a5a; numbers + 2];
            if number == 0 {
                held[1..5].copy_from_slice(&[1, 1, 3, 2]);
            }
            let length = if number == 0 { lines.len() } else { 77 };
            let asked = format!("{} sets, {numbers}, {room}, {at}", sets.len());
            assert_eq!((answered, written), (number, length), "{asked}");
            assert_eq!(buffer, expected, "{asked}");
            assert_eq!(scratch, held, "{asked}");
            let around = [&[0x5a5a_5a5a], sets, &[0x5a5a_5a5a]].concat();
            assert_eq!(guarded, around, "{asked}");
            assert_eq!(a, bytes(&EXAMPLE_A), "{asked}");
        }
    }
}

/// An empty list may be a null pointer, and so may a scratch and a buffer of no length.
#[test]
fn null_where_the_length_is_0() {
    let a = bytes(&EXAMPLE_A);
    for (numbers, room, number) in [(0, 0, 15), (0, 4, 15), (4, 0, 0), (4, 4, 0)] {
        let (mut scratch, mut buffer, mut written) = ([0x5a5a; 4], [0xa5; 4], 77);
        // SAFETY: the lengths of the null pointers are 0, and scratch and buffer are as
        // long as theirs say.
        let answered = unsafe {
            archive::keeper_lines_of_sets(
                a.as_ptr(),
                a.len(),
                std::ptr::null(),
                0,
                match numbers {
                    0 => std::ptr::null_mut(),
                    _ => scratch.as_mut_ptr(),
                },
                numbers,
                match room {
                    0 => std::ptr::null_mut(),
                    _ => buffer.as_mut_ptr(),
                },
                room,
                &mut written,
            )
        };
        let (length, held) = match number {
            0 => (0, [1, 1, 3, 2]),
            _ => (77, [0x5a5a; 4]),
        };
        assert_eq!((answered, written), (number, length), "{numbers}, {room}");
        assert_eq!((scratch, buffer), (held, [0xa5; 4]), "{numbers}, {room}");
    }
}
