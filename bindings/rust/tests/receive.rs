//! `receive` beside its definition, written here on numbers; what saves, fall
//! backs, lines and sheets make of what is received and not saved yet; its
//! refusals; what it leaves alone.
#![cfg(all(feature = "run_table", feature = "listing_text"))]

mod common;

use common::{
    accepted, bytes, ceilings_of, counts, example_a, in_turn, latest, lines_below, number_at,
    small, waiting_for, Chance, EXAMPLE_A,
};
use keeper::{archive, check_table, Refusal, Table, LARGEST_TABLE, SCRATCH_NUMBERS, SHEET_ROOM};

/// A receipt by its definition, on the numbers of an accepted table: the numbers
/// after it, or the refusal.
fn defined(table: &[u8], process: u16, list: &[u16]) -> Result<Vec<u8>, Refusal> {
    let n = usize::from(number_at(table, 0));
    let m = usize::from(number_at(table, 1));
    let receipt = |k: usize| 2 + n + 2 * m + 2 * k;
    if usize::from(process) >= n {
        return Err(Refusal::UnknownProcess);
    }
    let waits = |k: usize| {
        k < m && number_at(table, receipt(k)) == process && number_at(table, receipt(k) + 1) == 0
    };
    let rises = list.windows(2).all(|pair| pair[0] < pair[1]);
    if !rises || !list.iter().all(|k| waits(usize::from(*k))) {
        return Err(Refusal::BadList);
    }
    let sender = |k: usize| number_at(table, 2 + n + 2 * k);
    let passed_over = |k: usize| {
        let mut older = (0..k).filter(|q| waits(*q) && sender(*q) == sender(k));
        older.any(|q| !list.contains(&(q as u16)))
    };
    if list.iter().any(|k| passed_over(usize::from(*k))) {
        return Err(Refusal::MessagePassedOver);
    }
    let mut after = table.to_vec();
    for k in list {
        let place = 2 * (receipt(usize::from(*k)) + 1);
        let count = number_at(table, 2 + usize::from(process));
        after[place..place + 2].copy_from_slice(&count.to_le_bytes());
    }
    Ok(after)
}

/// Asks with a buffer as long as the table, one that is longer, and one that is a
/// byte short; the answer, which has to be the same, and what lies beyond it as it
/// was.
fn received(table: &[u8], process: u16, list: &[u16]) -> Result<Vec<u8>, Refusal> {
    let mut exact = vec![0x5a; table.len()];
    let answered = keeper::receive(table, process, list, &mut exact);
    let mut longer = vec![0xa5; table.len() + 9];
    assert_eq!(
        keeper::receive(table, process, list, &mut longer),
        answered,
        "{list:?}"
    );
    let mut short = vec![0x3c; table.len().saturating_sub(1)];
    let refused = keeper::receive(table, process, list, &mut short);
    assert_eq!(
        refused,
        Err(answered.err().unwrap_or(Refusal::AnswerTooShort))
    );
    assert!(short.iter().all(|byte| *byte == 0x3c));
    match answered {
        Ok(written) => {
            assert_eq!(written, table.len());
            assert_eq!(longer[..written], exact);
            assert!(longer[written..].iter().all(|byte| *byte == 0xa5));
            assert_eq!(check_table(&exact), Ok(()));
            Ok(exact)
        }
        Err(refusal) => {
            assert!(exact.iter().all(|byte| *byte == 0x5a));
            assert!(longer.iter().all(|byte| *byte == 0xa5));
            Err(refusal)
        }
    }
}

/// The accepted tables of the corpus, and small ones.
fn tables(chance: &mut Chance) -> Vec<(String, Table)> {
    let small = (0..2_000).map(|k| (format!("small table {k}"), small(chance)));
    accepted().into_iter().chain(small).collect()
}

/// Example A with other numbers at places that count numbers.
fn changed(changes: &[(usize, u16)]) -> Vec<u8> {
    let mut numbers = EXAMPLE_A;
    for (place, number) in changes {
        numbers[*place] = *number;
    }
    bytes(&numbers)
}

/// The place of the receipt number of message 4 of example A.
const LAST_RECEIPT: usize = 23;

#[test]
fn example_a_receives_its_last_message() {
    let a = bytes(&EXAMPLE_A);
    let after = changed(&[(LAST_RECEIPT, 3)]);
    assert_eq!(received(&a, 0, &[4]), Ok(after.clone()));
    // The lines, by hand: message 4 was sent after checkpoint 2 of process 1, and
    // the new state of process 0 has received it.
    let table = Table::from_bytes(after).unwrap();
    assert_eq!(*table.recovery_line(), [1, 1]);
    assert_eq!(*table.line_of_set(0b01).unwrap(), [1, 1]);
    assert_eq!(*table.line_of_set(0b10).unwrap(), [1, 1]);
    assert_eq!(*table.line_of_set(0).unwrap(), [3, 3]);
    assert_eq!(*table.line_under(&[3, 2]).unwrap(), [1, 1]);
    // Where it waits process 0 goes on as it is.
    assert_eq!(*example_a().line_of_set(0b10).unwrap(), [3, 2]);
    let sheet = table.keep_sheet();
    let kept: Vec<_> = sheet.checkpoints().map(|c| (c.process, c.number)).collect();
    assert_eq!(kept, [(0, 1), (1, 1)]);
    assert_eq!(sheet.messages().collect::<Vec<_>>(), [0]);
}

/// The check of receipt numbers from both sides: those of case F of the format's
/// document, and at each process.
#[test]
fn a_receipt_number_of_the_count_and_one_above() {
    let refused = Err(Refusal::ReceiptNumberTooHigh);
    for (number, expected) in [(2, Ok(())), (3, Ok(())), (4, refused), (u16::MAX, refused)] {
        let table = changed(&[(LAST_RECEIPT, number)]);
        assert_eq!(check_table(&table), expected, "{number}");
        assert_eq!(keeper::run_table::check(&table), expected, "{number}");
    }
    for count in [1, 2, 255, 256, 4_095, 4_096] {
        let table = |received: u16| bytes(&[2, 1, 1, count, 0, 0, 1, received]);
        assert_eq!(check_table(&table(count)), Ok(()));
        assert_eq!(check_table(&table(count + 1)), refused);
        let message = Table::from_bytes(table(count)).unwrap().message(0).unwrap();
        assert!(message.is_unsaved(), "{count}");
        let message = Table::from_bytes(table(count - 1)).unwrap();
        let message = message.message(0).unwrap();
        assert!(!message.is_unsaved(), "{count}");
        assert_eq!(message.is_saved(), count > 1);
    }
    // Not the sender's count: that of process 0 is 3 here.
    let table = |received: u16| bytes(&[2, 1, 3, 1, 0, 0, 1, received]);
    assert_eq!(check_table(&table(1)), Ok(()));
    for number in 2..4 {
        assert_eq!(check_table(&table(number)), refused);
    }
}

/// Every list of positions of up to three entries, also such as are refused, on
/// small tables; longer ones by chance on those of the corpus.
#[test]
fn the_definition() {
    let mut chance = Chance(20_261_118);
    let tables = (0..900).map(|_| small(&mut chance)).collect::<Vec<_>>();
    let (mut made, mut refused, mut passed) = (0, 0, 0);
    let mut compared = |table: &Table, process: u16, list: &[u16]| {
        let answered = received(table.as_bytes(), process, list);
        let expected = defined(table.as_bytes(), process, list);
        assert_eq!(answered, expected, "{table:?}, {process}, {list:?}");
        match answered {
            Ok(_) => made += usize::from(!list.is_empty()),
            Err(Refusal::MessagePassedOver) => passed += 1,
            Err(_) => refused += 1,
        }
    };
    for table in [example_a()].iter().chain(&tables) {
        let m = table.messages().len() as u16;
        for process in 0..=table.processes() {
            compared(table, process, &[]);
            for one in 0..=m {
                compared(table, process, &[one]);
                for two in 0..=m {
                    compared(table, process, &[one, two]);
                    compared(table, process, &[one, two, m.saturating_sub(1)]);
                }
            }
        }
    }
    for (_, table) in accepted() {
        for process in 0..=table.processes() {
            let mut list = waiting_for(&table, process);
            compared(&table, process, &list);
            list.retain(|_| chance.below(2) == 0);
            compared(&table, process, &list);
            list.push(chance.below(1 + table.messages().len()) as u16);
            compared(&table, process, &list);
        }
    }
    assert!(
        made > 500 && refused > 5_000 && passed > 100,
        "{made} {refused} {passed}"
    );
}

/// In two parts or at once; and a save of what was received is a save that lists
/// it, byte for byte.
#[test]
fn receipts_one_after_another_and_saved() {
    let mut chance = Chance(23);
    let (mut parts, mut saves) = (0, 0);
    for (name, table) in tables(&mut chance) {
        for process in 0..table.processes() {
            let list = waiting_for(&table, process);
            let mut one = list.clone();
            one.retain(|_| chance.below(2) == 0);
            let one = in_turn(&table, &one);
            let mut other = list.clone();
            other.retain(|position| !one.contains(position));
            let mut at_once = table.clone();
            at_once.receive(process, &list).unwrap();
            let mut in_parts = table.clone();
            in_parts.receive(process, &one).unwrap();
            let between = in_parts.clone();
            in_parts.receive(process, &other).unwrap();
            assert_eq!(in_parts, at_once, "{name}");
            parts += usize::from(!one.is_empty() && !other.is_empty());

            // What is listed once is never listed again.
            if let Some(first) = list.first() {
                let refused = Err(Refusal::BadList);
                assert_eq!(at_once.receive(process, &[*first]), refused, "{name}");
                if table.count(process) < 4_096 {
                    assert_eq!(at_once.save(process, &[*first]).map(|_| ()), refused);
                }
            }
            assert_eq!(in_parts, at_once, "{name}");

            if table.count(process) < 4_096 {
                let mut listed = table.clone();
                assert_eq!(listed.save(process, &list), Ok(table.count(process)));
                let mut received = at_once;
                assert_eq!(received.save(process, &[]), Ok(table.count(process)));
                assert_eq!(received, listed, "{name}");
                let mut both = between;
                both.save(process, &other).unwrap();
                assert_eq!(both, listed, "{name}");
                saves += usize::from(!list.is_empty());
            }
        }
    }
    assert!(parts > 50 && saves > 100, "{parts} {saves}");
}

/// What is received and not saved yet is lost by a fall back: the table after it
/// is that of a run which had not received it.
#[test]
fn a_fall_back_makes_it_waiting_again() {
    let mut chance = Chance(24);
    let (mut again, mut gone) = (0, 0);
    for (name, table) in tables(&mut chance) {
        let mut received = table.clone();
        for process in 0..table.processes() {
            let list = waiting_for(&table, process);
            received.receive(process, &list).unwrap();
        }
        let (mut before, mut after) = (table.clone(), received.clone());
        let (one, other) = (before.fall_back(), after.fall_back());
        assert_eq!((&one, &before), (&other, &after), "{name}");
        for (message, position) in received.messages().zip(other.messages) {
            if !message.is_unsaved() {
                continue;
            }
            match position {
                Some(position) => {
                    assert!(after.message(position).unwrap().is_waiting(), "{name}");
                    again += 1;
                }
                None => gone += 1,
            }
        }
        assert!(!after.messages().any(|message| message.is_unsaved()));
    }
    assert!(again > 100 && gone > 100, "{again} {gone}");
}

/// Lines by their definition where messages are unsaved: of sets, under ceilings
/// and by marking. The recovery line is that of the run without the receipts.
#[test]
fn lines_count_what_is_unsaved() {
    let mut chance = Chance(20_261_119);
    let (mut unsaved, mut lowered) = (0, 0);
    for _ in 0..300 {
        let table = small(&mut chance);
        let mut without = table.as_bytes().to_vec();
        let (n, m) = (counts(&table).len(), table.messages().len());
        for (k, message) in table.messages().enumerate() {
            if message.is_unsaved() {
                let place = 2 * (2 + n + 2 * m + 2 * k + 1);
                without[place..place + 2].copy_from_slice(&[0, 0]);
                unsaved += 1;
            }
        }
        let without = Table::from_bytes(without).unwrap();
        assert_eq!(table.recovery_line(), without.recovery_line(), "{table:?}");
        for set in 0..1 << n {
            let line = table.line_of_set(set).unwrap();
            let expected = latest(&table, &ceilings_of(&table, set));
            assert_eq!(*line, expected, "{table:?}, {set}");
            lowered += usize::from(line != without.line_of_set(set).unwrap());
        }
        for ceilings in lines_below(&counts(&table)) {
            let expected = latest(&table, &ceilings);
            assert_eq!(*table.line_under(&ceilings).unwrap(), expected);
            let mut marks = vec![0xff; table.marks_size()];
            let marked = table.marked_line(&ceilings, &mut marks).unwrap();
            assert_eq!(*marked, expected, "{table:?}, {ceilings:?}");
        }
    }
    assert!(unsaved > 150 && lowered > 50, "{unsaved} {lowered}");
}

/// The smallest sheet on which it tells whether a message waits or is unsaved:
/// counts 1 and 1, and a message each way.
#[test]
fn neither_waiting_nor_always_kept() {
    let mut table = Table::new(2).unwrap();
    table.send(0, 1).unwrap();
    table.send(1, 0).unwrap();
    let kept = |table: &Table| table.keep_sheet().messages().collect::<Vec<_>>();
    assert_eq!(kept(&table), [0, 1]);
    // One alone is kept: it crosses the line 1 0 of process 1 holding. Once the other
    // is received too that line is 0 0.
    table.receive(1, &[0]).unwrap();
    assert_eq!(*table.line_of_set(0b10).unwrap(), [1, 0]);
    assert_eq!(kept(&table), [0, 1]);
    table.receive(0, &[1]).unwrap();
    assert_eq!(*table.line_of_set(0b10).unwrap(), [0, 0]);
    assert_eq!(
        table.as_bytes(),
        bytes(&[2, 2, 1, 1, 0, 0, 1, 0, 1, 1, 0, 1])
    );
    assert_eq!(kept(&table), []);
    // Kept where it crosses a line: process 0 saves after sending, and process 1
    // receives without saving.
    let mut table = Table::new(2).unwrap();
    table.send(0, 1).unwrap();
    table.save(0, &[]).unwrap();
    table.receive(1, &[0]).unwrap();
    assert!(table.message(0).unwrap().is_unsaved());
    assert_eq!(*table.line_of_set(0b10).unwrap(), [2, 0]);
    assert_eq!(kept(&table), [0]);
    // Saved by process 1 it is no longer.
    table.save(1, &[]).unwrap();
    assert_eq!(kept(&table), []);
}

/// Sheets by their definition on small tables: the lines of single holders by
/// `latest`.
#[test]
fn sheets_by_their_definition() {
    let mut chance = Chance(20_261_120);
    let (mut kept_unsaved, mut not_kept) = (0, 0);
    let (mut scratch, mut answer) = ([0; SCRATCH_NUMBERS], [0; SHEET_ROOM]);
    for _ in 0..600 {
        let table = small(&mut chance);
        let n = counts(&table).len();
        let lines: Vec<Vec<u16>> = (0..n)
            .map(|holder| latest(&table, &ceilings_of(&table, 1 << holder)))
            .collect();
        let sheet = table.keep_sheet();
        for (process, count) in (0..).zip(table.counts()) {
            for number in 0..count {
                let on = lines
                    .iter()
                    .any(|line| line[usize::from(process)] == number);
                assert_eq!(sheet.has_checkpoint(process, number), on, "{table:?}");
            }
        }
        for (position, message) in (0..).zip(table.messages()) {
            let crosses = |line: &Vec<u16>| {
                let received = message.received.map_or(0, |number| number.get());
                message.sent < line[usize::from(message.sender)]
                    && line[usize::from(message.receiver)] < received
            };
            let on = message.is_waiting() || lines.iter().any(crosses);
            assert_eq!(sheet.has_message(position), on, "{table:?}, {position}");
            if message.is_unsaved() {
                *if on { &mut kept_unsaved } else { &mut not_kept } += 1;
            }
        }
        let written = keeper::keep_sheet(table.as_bytes(), &mut scratch, &mut answer).unwrap();
        assert_eq!(&answer[..written], sheet.as_bytes());
        assert_eq!(scratch[..n * n], lines.concat());
    }
    assert!(
        kept_unsaved > 50 && not_kept > 50,
        "{kept_unsaved} {not_kept}"
    );
}

/// The table's checks come before 10, that before 13, that before 24, and that
/// before 16; there is no 14.
#[test]
fn the_first_check_that_catches() {
    let a = bytes(&EXAMPLE_A);
    let mut short = [0x5a; 47];
    let mut refused = |table: &[u8], process: u16, list: &[u16]| {
        keeper::receive(table, process, list, &mut short).expect_err("the buffer is short")
    };
    assert_eq!(refused(&a[..47], 9, &[9]), Refusal::WrongLength);
    let nine = changed(&[(LAST_RECEIPT, 4)]);
    assert_eq!(refused(&nine, 9, &[9]), Refusal::ReceiptNumberTooHigh);
    assert_eq!(refused(&a, 2, &[9]), Refusal::UnknownProcess);
    assert_eq!(refused(&a, u16::MAX, &[]), Refusal::UnknownProcess);
    assert_eq!(refused(&a, 1, &[4]), Refusal::BadList);
    assert_eq!(refused(&a, 0, &[5]), Refusal::BadList);
    assert_eq!(refused(&a, 0, &[4, 4]), Refusal::BadList);
    assert_eq!(refused(&a, 0, &[4]), Refusal::AnswerTooShort);
    assert_eq!(refused(&a, 0, &[]), Refusal::AnswerTooShort);
    assert_eq!(short, [0x5a; 47]);
    // Two messages wait for process 1, from process 0.
    let two = bytes(&[2, 2, 1, 1, 0, 0, 0, 0, 1, 0, 1, 0]);
    let mut refused = |list: &[u16]| keeper::receive(&two, 1, list, &mut short[..23]);
    assert_eq!(refused(&[1, 1]), Err(Refusal::BadList));
    assert_eq!(refused(&[1, 2]), Err(Refusal::BadList));
    assert_eq!(refused(&[1]), Err(Refusal::MessagePassedOver));
    assert_eq!(refused(&[0]), Err(Refusal::AnswerTooShort));
    assert_eq!(refused(&[0, 1]), Err(Refusal::AnswerTooShort));
    assert_eq!(short, [0x5a; 47]);
    // A save of a process with 4,096 checkpoints is refused by 14, and a receipt is
    // made.
    let full = bytes(&[2, 1, 1, 4_096, 0, 0, 1, 0]);
    let mut answer = vec![0; LARGEST_TABLE];
    let save = keeper::save(&full, 1, &[0], &mut answer);
    assert_eq!(save, Err(Refusal::TableFull));
    let after = bytes(&[2, 1, 1, 4_096, 0, 0, 1, 4_096]);
    assert_eq!(received(&full, 1, &[0]), Ok(after));
}

/// By the archive's own call: under a refusal `written` and the buffer are as they
/// were, otherwise what lies beyond the answer is, and the list and the table
/// always. The buffer stands at even and odd places.
#[test]
fn what_is_left_alone() {
    let a = bytes(&EXAMPLE_A);
    let after = changed(&[(LAST_RECEIPT, 3)]);
    for (process, list, room, number) in [
        (2, &[][..], 64, 10),
        (0, &[5], 64, 13),
        (0, &[4, 4], 0, 13),
        (1, &[4], 64, 13),
        (0, &[4], 0, 16),
        (0, &[4], 47, 16),
        (0, &[4], 48, 0),
        (0, &[4], 64, 0),
    ] {
        for at in 4..12 {
            let guarded = [&[0x5a5a], list, &[0x5a5a]].concat();
            let (mut buffer, mut written) = ([0xa5; 80], 77);
            // SAFETY: each length is that of what its pointer leads to, and
            // nothing overlaps.
            let answered = unsafe {
                archive::keeper_receive(
                    a.as_ptr(),
                    a.len(),
                    process,
                    guarded[1..].as_ptr(),
                    list.len(),
                    buffer[at..].as_mut_ptr(),
                    room,
                    &mut written,
                )
            };
            let mut expected = [0xa5; 80];
            if number == 0 {
                expected[at..at + 48].copy_from_slice(&after);
            }
            let length = if number == 0 { 48 } else { 77 };
            let asked = format!("{process}, {list:?}, {room}, {at}");
            assert_eq!((answered, written), (number, length), "{asked}");
            assert_eq!(buffer, expected, "{asked}");
            assert_eq!(guarded, [&[0x5a5a], list, &[0x5a5a]].concat());
            assert_eq!(a, bytes(&EXAMPLE_A));
        }
    }
    // What is empty may be a null pointer.
    for (process, room, number) in [(2, 0, 10), (0, 0, 16), (0, 48, 0)] {
        let (mut buffer, mut written) = ([0xa5; 48], 77);
        // SAFETY: the list's length is 0, and so is that of the buffer where its
        // pointer is null.
        let answered = unsafe {
            archive::keeper_receive(
                a.as_ptr(),
                a.len(),
                process,
                std::ptr::null(),
                0,
                match room {
                    0 => std::ptr::null_mut(),
                    _ => buffer.as_mut_ptr(),
                },
                room,
                &mut written,
            )
        };
        assert_eq!(answered, number);
        match number {
            // An empty list: the table.
            0 => assert_eq!((&buffer[..], written), (&a[..], 48)),
            _ => assert_eq!((buffer, written), ([0xa5; 48], 77)),
        }
    }
}

/// The longest list that can be, in a table with the most messages.
#[test]
fn four_thousand_and_ninety_six_messages() {
    let numbers = [vec![32, 4_096], vec![4_096; 32], [30, 4_095].repeat(4_096)].concat();
    let table = |received: u16| bytes(&[&numbers[..], &[31, received].repeat(4_096)].concat());
    let list: Vec<u16> = (0..4_096).collect();
    assert_eq!(table(0).len(), LARGEST_TABLE);
    assert_eq!(received(&table(0), 31, &list), Ok(table(4_096)));
    let unsaved = Table::from_bytes(table(4_096)).unwrap();
    assert!(unsaved.messages().all(|message| message.is_unsaved()));
    assert_eq!(unsaved.line_of_set(1 << 30).unwrap()[31], 4_095);
    assert_eq!(received(&table(4_096), 31, &[0]), Err(Refusal::BadList));
    assert_eq!(received(&table(4_096), 31, &[]), Ok(table(4_096)));
    let longer: Vec<u16> = (0..=4_096).collect();
    assert_eq!(received(&table(0), 31, &longer), Err(Refusal::BadList));
}
