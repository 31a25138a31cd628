//! `Sheet` beside the call on slices and the corpus; sheets that are damaged.
#![cfg(all(feature = "run_table", feature = "listing_text"))]

mod common;

use std::error::Error;

use common::{accepted, bytes, corpus, example_a, number_at, Chance};
use keeper::{Checkpoint, Sheet, SheetError, Table, SCRATCH_NUMBERS, SHEET_ROOM};

/// The sheet of example A: three checkpoints and two messages.
const SHEET_OF_A: [u16; 10] = [3, 2, 0, 1, 1, 1, 1, 2, 0, 4];

fn checkpoint(process: u16, number: u16) -> Checkpoint {
    Checkpoint { process, number }
}

fn read(numbers: &[u16]) -> Result<Sheet, SheetError> {
    Sheet::from_bytes(&bytes(numbers))
}

#[test]
fn sheets_are_those_of_the_call_on_slices_and_of_the_listings() {
    let mut scratch = [0; SCRATCH_NUMBERS];
    let mut answer = [0; SHEET_ROOM];
    for case in corpus() {
        let Ok(table) = Table::from_bytes(&case.table[..]) else {
            continue;
        };
        let (sheet, name) = (table.keep_sheet(), &case.name);
        let written = keeper::keep_sheet(&case.table, &mut scratch, &mut answer).unwrap();
        assert_eq!(sheet.as_bytes(), &answer[..written], "{name}");
        let n = usize::from(table.processes());
        for (holder, line) in (0..).zip(scratch[..n * n].chunks(n)) {
            assert_eq!(
                sheet.line(holder).map(|line| &line[..]),
                Some(line),
                "{name}"
            );
        }
        assert_eq!(sheet.line(n as u16), None, "{name}");

        let rows: Vec<String> = sheet
            .checkpoints()
            .map(|kept| format!("{} {}", kept.process, kept.number))
            .collect();
        assert!(
            case.rows("checkpoint").eq(rows.iter().map(String::as_str)),
            "{name}"
        );
        let positions: Vec<String> = sheet.messages().map(|p| p.to_string()).collect();
        assert!(
            case.rows("message")
                .eq(positions.iter().map(String::as_str)),
            "{name}"
        );
        assert_eq!(
            sheet.checkpoints().len(),
            usize::from(number_at(&answer, 0))
        );
        assert_eq!(sheet.messages().len(), usize::from(number_at(&answer, 1)));

        // Every lookup, one beyond the last on each side included.
        let kept: Vec<Checkpoint> = sheet.checkpoints().collect();
        for process in 0..=n as u16 {
            for number in 0..=table.count(process) {
                let listed = kept.contains(&checkpoint(process, number));
                assert_eq!(sheet.has_checkpoint(process, number), listed, "{name}");
            }
        }
        let mut is_kept = vec![false; table.messages().len() + 1];
        sheet
            .messages()
            .for_each(|position| is_kept[usize::from(position)] = true);
        for (position, listed) in (0..).zip(is_kept) {
            assert_eq!(sheet.has_message(position), listed, "{name}");
        }
        assert!(!sheet.has_message(u16::MAX) && !sheet.has_checkpoint(u16::MAX, u16::MAX));
    }
}

#[test]
fn sheets_are_read_back_whole_or_not_at_all() {
    for (name, table) in accepted() {
        let sheet = table.keep_sheet();
        let whole = sheet.as_bytes();
        let again = Sheet::from_bytes(whole).unwrap_or_else(|error| panic!("{name}: {error}"));
        assert_eq!(again, sheet, "{name}");
        assert!(again.checkpoints().eq(sheet.checkpoints()), "{name}");
        assert!(again.messages().eq(sheet.messages()), "{name}");
        assert_eq!(
            (again.line(0), sheet.line(0).is_some()),
            (None, true),
            "{name}"
        );
        for length in 0..whole.len() {
            let expected = match length {
                0..=3 => SheetError::TooShort { length },
                _ => SheetError::WrongLength {
                    length,
                    expected: whole.len(),
                },
            };
            assert_eq!(Sheet::from_bytes(&whole[..length]), Err(expected), "{name}");
        }
        let longer = [whole, &[0]].concat();
        let expected = SheetError::WrongLength {
            length: longer.len(),
            expected: whole.len(),
        };
        assert_eq!(Sheet::try_from(&longer[..]), Err(expected), "{name}");
    }
}

#[test]
fn k_or_q_is_off() {
    let length = 20;
    for (k, q, expected) in [(4, 2, 24), (2, 2, 16), (3, 3, 22), (3, 1, 18), (0, 0, 4)] {
        let mut sheet = SHEET_OF_A;
        sheet[..2].copy_from_slice(&[k, q]);
        assert_eq!(
            read(&sheet),
            Err(SheetError::WrongLength { length, expected })
        );
    }
    let most = [u16::MAX; 10];
    let expected = 4 + 6 * 65_535;
    assert_eq!(
        read(&most),
        Err(SheetError::WrongLength { length, expected })
    );
}

#[test]
fn k_and_q_are_off_and_the_length_is_right() {
    let off = |k, q| {
        let mut sheet = SHEET_OF_A;
        sheet[..2].copy_from_slice(&[k, q]);
        read(&sheet).unwrap_err()
    };
    let error = SheetError::CheckpointOutOfOrder {
        place: 2,
        checkpoint: checkpoint(1, 0),
    };
    assert_eq!(off(4, 0), error);
    let error = |place, position| SheetError::MessageOutOfOrder { place, position };
    assert_eq!(off(2, 4), error(2, 0));
    assert_eq!(off(1, 6), error(1, 1));
    assert_eq!(off(0, 8), SheetError::NoCheckpoint { process: 0 });
}

/// Any two neighbours exchanged, and any entry doubled, in every sheet.
#[test]
fn order_is_broken() {
    let mut broken = 0;
    for (name, table) in accepted() {
        let sheet = table.keep_sheet();
        let kept: Vec<Checkpoint> = sheet.checkpoints().collect();
        let positions: Vec<u16> = sheet.messages().collect();
        let written = |kept: &[Checkpoint], positions: &[u16]| {
            let mut numbers = vec![kept.len() as u16, positions.len() as u16];
            numbers.extend(kept.iter().map(|kept| kept.process));
            numbers.extend(kept.iter().map(|kept| kept.number));
            numbers.extend(positions);
            numbers
        };
        assert_eq!(
            read(&written(&kept, &positions)),
            Ok(sheet.clone()),
            "{name}"
        );
        // A few hundred places of the largest sheets are enough.
        for place in (1..kept.len()).take(300) {
            let mut exchanged = kept.clone();
            exchanged.swap(place - 1, place);
            let result = read(&written(&exchanged, &positions)).unwrap_err();
            let gap = matches!(result, SheetError::NoCheckpoint { .. });
            let checkpoint = exchanged[place];
            let error = SheetError::CheckpointOutOfOrder { place, checkpoint };
            // A process moved before one that has nothing else leaves a gap, which is seen first.
            assert!(result == error || gap && exchanged[place - 1].process > checkpoint.process);

            let mut doubled = kept.clone();
            doubled.insert(place, kept[place - 1]);
            let checkpoint = doubled[place];
            let error = SheetError::CheckpointOutOfOrder { place, checkpoint };
            assert_eq!(read(&written(&doubled, &positions)), Err(error), "{name}");
            broken += 2;
        }
        for place in (1..positions.len()).take(300) {
            let mut exchanged = positions.clone();
            exchanged.swap(place - 1, place);
            let position = exchanged[place];
            let error = SheetError::MessageOutOfOrder { place, position };
            assert_eq!(read(&written(&kept, &exchanged)), Err(error), "{name}");

            let mut doubled = positions.clone();
            doubled.insert(place, positions[place - 1]);
            let position = doubled[place];
            let error = SheetError::MessageOutOfOrder { place, position };
            assert_eq!(read(&written(&kept, &doubled)), Err(error), "{name}");
            broken += 2;
        }
    }
    assert!(broken > 4_000, "{broken} broken sheets");
}

#[test]
fn a_process_has_no_checkpoint() {
    let none = |process| Err(SheetError::NoCheckpoint { process });
    assert_eq!(read(&[0, 0]), none(0));
    assert_eq!(read(&[0, 1, 7]), none(0));
    assert_eq!(read(&[1, 0, 1, 0]), none(0));
    assert_eq!(read(&[2, 0, 0, 2, 5, 5]), none(1));
    assert!(read(&[2, 0, 0, 1, 5, 5]).is_ok());
}

#[test]
fn limits_from_both_sides() {
    // The numbers at their highest, with a checkpoint of each of 32 processes.
    let sheet = |process: u16, number: u16, position: u16| {
        let mut numbers = vec![32, 1];
        numbers.extend(0..31);
        numbers.push(process);
        numbers.extend([0; 31]);
        numbers.extend([number, position]);
        numbers
    };
    let highest = read(&sheet(31, 4_095, 4_095)).unwrap();
    assert!(highest.has_checkpoint(31, 4_095) && highest.has_message(4_095));
    let out = |process, number| {
        let checkpoint = checkpoint(process, number);
        Err(SheetError::CheckpointOutOfRange {
            place: 31,
            checkpoint,
        })
    };
    assert_eq!(read(&sheet(32, 0, 0)), out(32, 0));
    assert_eq!(read(&sheet(u16::MAX, 0, 0)), out(u16::MAX, 0));
    assert_eq!(read(&sheet(31, 4_096, 0)), out(31, 4_096));
    assert_eq!(read(&sheet(31, u16::MAX, 0)), out(31, u16::MAX));
    for position in [4_096, u16::MAX] {
        let error = SheetError::MessageOutOfRange { place: 0, position };
        assert_eq!(read(&sheet(31, 0, position)), Err(error));
    }
}

/// Bytes by chance: what is read is in order and has the same bytes.
#[test]
fn bytes_by_chance() {
    let mut chance = Chance(7);
    let (mut whole, mut refused) = (0, 0);
    for round in 0..60_000 {
        let mut sheet = bytes(&SHEET_OF_A);
        match round % 3 {
            0 => {
                let place = chance.below(sheet.len());
                sheet[place] = chance.below(256) as u8;
            }
            1 => {
                for byte in &mut sheet[4..] {
                    *byte = chance.below(3) as u8 * (chance.below(5) / 4) as u8;
                }
            }
            _ => {
                sheet = (0..chance.below(40))
                    .map(|_| chance.below(4) as u8)
                    .collect();
            }
        }
        match Sheet::from_bytes(&sheet) {
            Err(_) => refused += 1,
            Ok(read) => {
                whole += 1;
                assert_eq!(read.as_bytes(), sheet);
                let kept: Vec<Checkpoint> = read.checkpoints().collect();
                assert!(kept.windows(2).all(|pair| pair[0] < pair[1]));
                let positions: Vec<u16> = read.messages().collect();
                assert!(positions.windows(2).all(|pair| pair[0] < pair[1]));
                assert!((0..=kept.last().unwrap().process)
                    .all(|process| kept.iter().any(|kept| kept.process == process)));
            }
        }
    }
    assert!(whole > 500 && refused > 20_000, "{whole} {refused}");
}

#[test]
fn errors_in_words() {
    let words: [(&[u8], &str); 7] = [
        (&[1, 0, 0], "the sheet has 3 bytes, fewer than 4"),
        (
            &[0, 0, 1, 0],
            "the sheet has 4 bytes, and by its K and Q it has 6",
        ),
        (
            &bytes(&[1, 0, 32, 5]),
            "entry 0 of the checkpoints, 5 of process 32, is beyond the limits of a table",
        ),
        (
            &bytes(&[2, 0, 0, 0, 5, 5]),
            "entry 1 of the checkpoints, 5 of process 0, is not above the one before it",
        ),
        (
            &bytes(&[1, 0, 3, 5]),
            "the sheet has no checkpoint of process 0",
        ),
        (
            &bytes(&[1, 1, 0, 0, 4_096]),
            "entry 0 of the messages, position 4096, is beyond the limits of a table",
        ),
        (
            &bytes(&[1, 2, 0, 0, 9, 9]),
            "entry 1 of the messages, position 9, is not above the one before it",
        ),
    ];
    for (sheet, expected) in words {
        let error: Box<dyn Error> = Sheet::from_bytes(sheet).unwrap_err().into();
        assert_eq!(error.to_string(), expected);
    }
}

#[test]
fn sheets_are_equal_by_their_bytes() {
    let sheet = example_a().keep_sheet();
    assert_eq!(read(&SHEET_OF_A).as_ref(), Ok(&sheet));
    assert_eq!(sheet.as_ref(), bytes(&SHEET_OF_A));
    assert_ne!(sheet, Table::new(2).unwrap().keep_sheet());
}
