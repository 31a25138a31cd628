//! `Table` beside the calls on slices, the corpus and its own limits.
#![cfg(all(feature = "run_table", feature = "listing_text"))]

mod common;

use std::num::NonZeroU16;

use common::{accepted, bytes, corpus, example_a, in_turn, number_at, waiting_for, Chance};
use keeper::{FellBack, Message, Refusal, Table, LARGEST_TABLE};

/// What a message says of itself: sender, send number, receiver, receipt number
/// (0: waiting), and whether it is waiting, unsaved, saved.
type Entry = (u16, u16, u16, u16, [bool; 3]);

fn entry(message: Message) -> Entry {
    let received = message.received.map_or(0, NonZeroU16::get);
    let is = [
        message.is_waiting(),
        message.is_unsaved(),
        message.is_saved(),
    ];
    (message.sender, message.sent, message.receiver, received, is)
}

/// The table's messages, read from its bytes by the format's places.
fn messages_in(table: &[u8]) -> Vec<Entry> {
    let n = usize::from(number_at(table, 0));
    let m = usize::from(number_at(table, 1));
    let sends = |k: usize| 2 + n + 2 * k;
    let receipts = |k: usize| 2 + n + 2 * m + 2 * k;
    (0..m)
        .map(|k| {
            let receiver = number_at(table, receipts(k));
            let received = number_at(table, receipts(k) + 1);
            let count = number_at(table, 2 + usize::from(receiver));
            let is = [
                received == 0,
                received == count,
                0 < received && received < count,
            ];
            let (sender, sent) = (number_at(table, sends(k)), number_at(table, sends(k) + 1));
            (sender, sent, receiver, received, is)
        })
        .collect()
}

type Call<'a> = &'a dyn Fn(&[u8], &mut [u8]) -> Result<usize, Refusal>;

/// The step of a table beside the call on slices: the same bytes, or the same
/// refusal and the table unchanged.
fn step_is<T>(
    table: &Table,
    step: impl FnOnce(&mut Table) -> Result<T, Refusal>,
    call: Call,
) -> Result<(T, Table), Refusal> {
    let mut answer = vec![0xa5; LARGEST_TABLE];
    let mut stepped = table.clone();
    match (step(&mut stepped), call(table.as_bytes(), &mut answer)) {
        (Ok(answered), Ok(written)) => {
            assert_eq!(stepped.as_bytes(), &answer[..written]);
            Ok((answered, stepped))
        }
        (Err(refusal), Err(expected)) => {
            assert_eq!(refusal, expected);
            assert_eq!(&stepped, table);
            Err(refusal)
        }
        (step, call) => panic!(
            "the table's step: {:?}; the call: {call:?}",
            step.map(|_| ())
        ),
    }
}

fn send_is(table: &Table, from: u16, to: u16) -> Result<(u16, Table), Refusal> {
    step_is(table, |table| table.send(from, to), &|table, answer| {
        keeper::send(table, from, to, answer)
    })
}

fn save_is(table: &Table, process: u16, list: &[u16]) -> Result<(u16, Table), Refusal> {
    step_is(
        table,
        |table| table.save(process, list),
        &|table, answer| keeper::save(table, process, list, answer),
    )
}

fn receive_is(table: &Table, process: u16, list: &[u16]) -> Result<Table, Refusal> {
    step_is(
        table,
        |table| table.receive(process, list),
        &|table, answer| keeper::receive(table, process, list, answer),
    )
    .map(|((), after)| after)
}

/// A fall back beside the call on slices. Where each message went is told from
/// the two tables: a send entry is either in both as often or in the old one
/// alone, and order is kept, so a message is the next one of the new table just
/// where it has the send entry of that.
fn fall_back_is(table: &Table) -> (FellBack, Table) {
    let (fell_back, after) = step_is(table, |table| Ok(table.fall_back()), &keeper::fall_back)
        .expect("a fall back is never refused");
    assert_eq!(fell_back.line, table.recovery_line());
    assert!(after.counts().eq(fell_back.line.iter().map(|c| c + 1)));
    let new = messages_in(after.as_bytes());
    let mut found = 0;
    let expected: Vec<Option<u16>> = messages_in(table.as_bytes())
        .iter()
        .map(|old| {
            let next = new.get(found)?;
            let same = (next.0, next.1) == (old.0, old.1);
            same.then(|| {
                assert_eq!(next.2, old.2);
                found += 1;
                found as u16 - 1
            })
        })
        .collect();
    assert_eq!(found, new.len());
    assert!(!after.messages().any(|message| message.is_unsaved()));
    assert_eq!(fell_back.messages, expected);
    (fell_back, after)
}

#[test]
fn the_corpus_is_read_as_its_bytes_and_listings_have_it() {
    for case in corpus() {
        let read = Table::from_bytes(&case.table[..]);
        let number = read.as_ref().err().map(|refusal| refusal.number());
        assert_eq!(number, case.refused(), "{}", case.name);
        let Ok(table) = read else { continue };
        let name = &case.name;

        assert_eq!(table.as_bytes(), case.table, "{name}");
        let n = number_at(&case.table, 0);
        assert_eq!(table.processes(), n, "{name}");
        assert_eq!(table.counts().len(), usize::from(n), "{name}");
        for (process, count) in (0..n).zip(table.counts()) {
            let expected = number_at(&case.table, 2 + usize::from(process));
            assert_eq!((count, table.count(process)), (expected, expected));
        }
        assert_eq!((table.count(n), table.count(u16::MAX)), (0, 0));
        let messages = messages_in(&case.table);
        assert_eq!(table.messages().len(), messages.len(), "{name}");
        assert!(
            table.messages().map(entry).eq(messages.iter().copied()),
            "{name}"
        );
        for (position, message) in (0..).zip(&messages) {
            assert_eq!(table.message(position).map(entry), Some(*message), "{name}");
        }
        assert_eq!(table.message(messages.len() as u16), None);
        assert_eq!(table.message(u16::MAX), None);

        assert_eq!(table.listing(), case.listing, "{name}");
        let line = table.recovery_line();
        assert_eq!(case.rows("line").collect::<Vec<_>>(), [line.to_string()]);
        assert_eq!(line.len(), usize::from(n));
        let all = u32::MAX >> (32 - u32::from(n));
        assert_eq!(table.line_of_set(all).as_ref(), Ok(&line), "{name}");
        assert!(table
            .line_of_set(0)
            .unwrap()
            .iter()
            .copied()
            .eq(table.counts()));
        if n < 32 {
            let refused = table.line_of_set(1 << n);
            assert_eq!(refused, Err(Refusal::UnknownProcessInSet), "{name}");
        }
        for (process, row) in (0..n).zip(case.rows("hold")) {
            let line = table.line_of_set(1 << process).unwrap();
            assert_eq!(row, format!("{process} {line}"), "{name}");
        }
    }
}

#[test]
fn steps_are_those_of_the_calls_on_slices() {
    let mut refused = 0;
    for (_, table) in accepted() {
        let n = table.processes();
        let m = table.messages().len() as u16;
        for (from, to) in [
            (0, n - 1),
            (n - 1, 0),
            (0, n),
            (n, 0),
            (0, 0),
            (u16::MAX, 0),
        ] {
            match send_is(&table, from, to) {
                Ok((position, after)) => {
                    assert_eq!(position, m);
                    let message = after.message(position).unwrap();
                    assert_eq!((message.sender, message.receiver), (from, to));
                    assert_eq!(message.sent, table.count(from) - 1);
                    assert!(message.is_waiting());
                    assert_eq!(after.messages().len(), usize::from(m) + 1);
                }
                Err(_) => refused += 1,
            }
        }
        for process in [0, n / 2, n - 1, n, u16::MAX] {
            let waiting = waiting_for(&table, process);
            let first: Vec<u16> = waiting.iter().copied().take(1).collect();
            for list in [&[][..], &first, &waiting, &[m], &[0, 0]] {
                match save_is(&table, process, list) {
                    Ok((number, after)) => {
                        assert_eq!(number, table.count(process));
                        assert_eq!(after.count(process), number + 1);
                        for position in list {
                            let received = after.message(*position).unwrap().received;
                            assert_eq!(received.map(NonZeroU16::get), Some(number));
                        }
                    }
                    Err(_) => refused += 1,
                }
                match receive_is(&table, process, list) {
                    Ok(after) => {
                        assert!(after.counts().eq(table.counts()));
                        for (position, old) in (0..).zip(table.messages()) {
                            let new = after.message(position).unwrap();
                            match list.contains(&position) {
                                true => {
                                    assert!(old.is_waiting() && new.is_unsaved());
                                    let received = new.received.map(NonZeroU16::get);
                                    assert_eq!(received, Some(table.count(process)));
                                }
                                false => assert_eq!(new, old),
                            }
                        }
                    }
                    Err(_) => refused += 1,
                }
            }
        }
        fall_back_is(&table);
    }
    assert!(refused > 500, "{refused} steps were refused");
}

#[test]
fn chains_of_steps() {
    let mut chance = Chance(20_260_101);
    let (mut removed, mut waiting_again, mut unsaved, mut saved) = (0, 0, 0, 0);
    for chain in 0..60 {
        let n = 2 + chain % 7;
        let mut table = Table::new(n).unwrap();
        for _ in 0..60 {
            let process = chance.below(n) as u16;
            match chance.below(20) {
                0 => {
                    let (fell_back, after) = fall_back_is(&table);
                    for (old, position) in table.messages().zip(fell_back.messages) {
                        match position.map(|position| after.message(position).unwrap()) {
                            None => removed += 1,
                            Some(new) if new.received != old.received => {
                                assert!(new.is_waiting());
                                waiting_again += 1;
                                unsaved += usize::from(old.is_unsaved());
                            }
                            Some(_) => assert!(!old.is_unsaved()),
                        }
                    }
                    table = after;
                }
                1..=9 => {
                    let to = (usize::from(process) + 1 + chance.below(n - 1)) % n;
                    table = send_is(&table, process, to as u16).unwrap().1;
                }
                10..=13 => {
                    let mut list = waiting_for(&table, process);
                    list.retain(|_| chance.below(3) > 0);
                    let list = in_turn(&table, &list);
                    table = receive_is(&table, process, &list).unwrap();
                }
                _ => {
                    let mut list = waiting_for(&table, process);
                    list.retain(|_| chance.below(3) > 0);
                    let list = in_turn(&table, &list);
                    let is_unsaved =
                        |message: &Message| message.is_unsaved() && message.receiver == process;
                    saved += table.messages().filter(is_unsaved).count();
                    let (number, after) = save_is(&table, process, &list).unwrap();
                    for (old, new) in table.messages().zip(after.messages()) {
                        if is_unsaved(&old) {
                            assert!(new.is_saved());
                            assert_eq!(new.received.map(NonZeroU16::get), Some(number));
                        }
                    }
                    table = after;
                }
            }
        }
    }
    assert!(
        removed > 100 && waiting_again > 10 && unsaved > 10 && saved > 100,
        "{removed} {waiting_again} {unsaved} {saved}"
    );
}

#[test]
fn a_new_table_by_its_number_of_processes() {
    for n in [1, 2, 31, 32] {
        let table = Table::new(n).unwrap();
        let mut expected = vec![n as u16, 0];
        expected.resize(2 + n, 1);
        assert_eq!(table.as_bytes(), bytes(&expected));
    }
    // 65,537 has the low 16 bits of 1, and 65,568 those of 32.
    for n in [0, 33, 34, 65_535, 65_536, 65_537, 65_568, usize::MAX] {
        assert_eq!(Table::new(n), Err(Refusal::ProcessesOutOfRange), "{n}");
    }
}

#[test]
fn one_process_and_no_messages() {
    let mut table = Table::new(1).unwrap();
    assert_eq!(table.send(0, 0), Err(Refusal::SendToItself));
    assert_eq!(table.save(0, &[]), Ok(1));
    assert_eq!(*table.recovery_line(), [1]);
    assert_eq!(table.fall_back().messages, []);
    assert_eq!(table.count(0), 2);
    assert_eq!(table.line_of_set(2), Err(Refusal::UnknownProcessInSet));
}

#[test]
fn thirty_two_processes() {
    let mut table = Table::new(32).unwrap();
    assert_eq!(table.send(31, 0), Ok(0));
    assert_eq!(table.send(32, 0), Err(Refusal::UnknownProcess));
    assert_eq!(table.send(0, 32), Err(Refusal::UnknownProcess));
    assert_eq!(table.save(32, &[]), Err(Refusal::UnknownProcess));
    assert_eq!(table.receive(32, &[]), Err(Refusal::UnknownProcess));
    assert_eq!(table.receive(31, &[]), Ok(()));
    assert_eq!(table.save(31, &[]), Ok(1));
    assert_eq!(table.line_of_set(u32::MAX), Ok(table.recovery_line()));
    assert_eq!(table.line_of_set(1 << 31).unwrap()[31], 1);
    assert_eq!(table.keep_sheet().line(31).unwrap().len(), 32);
    assert_eq!(table.keep_sheet().line(32), None);
}

#[test]
fn a_table_full_of_messages() {
    let mut table = Table::new(2).unwrap();
    for position in 0..4_096 {
        assert_eq!(table.send(position % 2, (position + 1) % 2), Ok(position));
    }
    assert_eq!(table.as_bytes().len(), 4 + 4 + 8 * 4_096);
    let full = table.clone();
    assert_eq!(table.send(0, 1), Err(Refusal::TableFull));
    assert_eq!(table.send(0, 2), Err(Refusal::UnknownProcess));
    assert_eq!(table, full);
    // All that wait for process 1, the longest list that can be; then all others,
    // which are received first.
    let list: Vec<u16> = (0..4_096).step_by(2).collect();
    assert_eq!(table.save(1, &list), Ok(1));
    let list: Vec<u16> = (1..4_096).step_by(2).collect();
    assert_eq!(table.receive(0, &list), Ok(()));
    assert_eq!(table.messages().filter(Message::is_unsaved).count(), 2_048);
    assert_eq!(table.save(0, &list), Err(Refusal::BadList));
    assert_eq!(table.save(0, &[]), Ok(1));
    assert_eq!(table.messages().filter(Message::is_saved).count(), 4_096);
    assert_eq!(table.send(1, 0), Err(Refusal::TableFull));
    assert_eq!(table.keep_sheet().messages().len(), 0);
    let (_, after) = fall_back_is(&table);
    assert_eq!(after.messages().len(), 4_096);
    fall_back_is(&full);
}

#[test]
fn a_count_of_4096() {
    let mut table = Table::new(2).unwrap();
    for number in 1..4_096 {
        assert_eq!(table.save(1, &[]), Ok(number));
    }
    table.send(0, 1).unwrap();
    let full = table.clone();
    assert_eq!(table.count(1), 4_096);
    assert_eq!(table.save(1, &[]), Err(Refusal::TableFull));
    assert_eq!(table.save(1, &[0]), Err(Refusal::TableFull));
    assert_eq!(table.save(1, &[1]), Err(Refusal::BadList));
    assert_eq!(table, full);
    // A receipt takes no room: its number is 4,096.
    assert_eq!(table.receive(1, &[1]), Err(Refusal::BadList));
    assert_eq!(table.receive(1, &[0]), Ok(()));
    let received = table.message(0).unwrap();
    assert!(received.is_unsaved() && received.received == NonZeroU16::new(4_096));
    assert_eq!(table.save(1, &[]), Err(Refusal::TableFull));
    assert_eq!(table.save(0, &[]), Ok(1));
    assert_eq!(*table.line_of_set(0).unwrap(), [2, 4_096]);
    assert!(table.keep_sheet().has_checkpoint(1, 4_095));
    assert!(!table.keep_sheet().has_checkpoint(1, 4_096));
}

#[test]
fn lists_that_are_refused() {
    let mut table = Table::new(3).unwrap();
    table.send(2, 1).unwrap();
    table.send(0, 1).unwrap();
    table.send(2, 1).unwrap();
    table.send(0, 2).unwrap();
    table.save(1, &[1]).unwrap();
    table.send(0, 1).unwrap();
    table.receive(1, &[4]).unwrap();
    let before = table.clone();
    let long: Vec<u16> = (0..=u16::MAX).collect();
    let lists: [&[u16]; 13] = [
        &[2, 0],          // falling
        &[0, 0],          // doubled
        &[0, 2, 2],       // doubled at the end
        &[1],             // received
        &[0, 1, 2],       // one of them received
        &[3],             // for another
        &[4],             // received and not saved yet
        &[0, 2, 4],       // one of them so
        &[5],             // M
        &[0, 2, 5],       // M at the end
        &[0, u16::MAX],   // far beyond M
        &[0, 2, 2, 2, 2], // more than there are messages
        &long,            // every position that there is a number for
    ];
    for list in lists {
        assert_eq!(save_is(&table, 1, list).map(|_| ()), Err(Refusal::BadList));
        assert_eq!(table.save(1, list), Err(Refusal::BadList));
        assert_eq!(
            receive_is(&table, 1, list).map(|_| ()),
            Err(Refusal::BadList)
        );
        assert_eq!(table.receive(1, list), Err(Refusal::BadList));
        assert_eq!(table, before);
    }
    assert_eq!(table.save(3, &[0]), Err(Refusal::UnknownProcess));
    assert_eq!(table.receive(3, &[0]), Err(Refusal::UnknownProcess));
    assert_eq!(table.receive(1, &[0]), Ok(()));
    assert_eq!(table.save(1, &[2]), Ok(2));
    assert_eq!(table.save(2, &[3]), Ok(1));
    assert!(table.messages().all(|message| message.is_saved()));
}

#[test]
fn bytes_in_and_out() {
    let table = example_a();
    let own = table.as_bytes().to_vec();
    assert_eq!(Table::try_from(own.clone()), Ok(table.clone()));
    assert_eq!(Table::try_from(&own[..]), Ok(table.clone()));
    assert_eq!(table.as_ref(), own);
    assert_eq!(table.clone().into_bytes(), own);
    for end in 0..own.len() {
        let expected = keeper::check_table(&own[..end]).unwrap_err();
        assert_eq!(Table::from_bytes(&own[..end]), Err(expected));
        assert_eq!(Table::try_from(&own[..end]), Err(expected));
    }
    let mut longer = own;
    longer.push(0);
    assert_eq!(Table::try_from(longer), Err(Refusal::WrongLength));
}

#[test]
fn a_table_is_shown_by_its_counts_and_messages() {
    let shown = format!("{:?}", example_a());
    assert!(shown.starts_with("Table { counts: [3, 3], messages: [Message { sender: 0, sent: 0, "));
    assert!(
        shown.ends_with("receiver: 0, received: None, unsaved: false }] }"),
        "{shown}"
    );
    let mut table = example_a();
    table.receive(0, &[4]).unwrap();
    let shown = format!("{table:?}");
    assert!(
        shown.ends_with("receiver: 0, received: Some(3), unsaved: true }] }"),
        "{shown}"
    );
}

/// A change of equality or of the hash would mix up runs that a caller keys by.
#[test]
fn tables_are_equal_by_their_bytes() {
    use std::collections::HashSet;
    let mut one = Table::new(2).unwrap();
    one.send(0, 1).unwrap();
    let two = Table::from_bytes(one.as_bytes()).unwrap();
    assert_eq!(one, two);
    let mut seen = HashSet::from([one.clone()]);
    assert!(!seen.insert(two));
    one.send(0, 1).unwrap();
    assert!(seen.insert(one));
}
