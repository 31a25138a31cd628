//! Channels deliver in the order sent: the table's check 23 beside its definition, in
//! every call; check 24 of a save and a receipt, its place among their checks and what
//! it leaves alone; steps of a table in order leave one in order.
#![cfg(all(feature = "run_table", feature = "listing_text"))]

mod common;

use common::{
    bytes, bytes_of, in_order, in_turn, passes_over, small, small_numbers, waiting_for, Chance,
    EXAMPLE_A,
};
use keeper::{archive, check_table, run_table, Refusal, Table, LARGEST_TABLE};

/// Whether of two messages (sender, number, receiver, number) the later one is out of
/// turn with the earlier one.
fn out_of_turn(earlier: &[u16; 4], later: &[u16; 4]) -> bool {
    let same = (earlier[0], earlier[2]) == (later[0], later[2]);
    let falls = later[1] < earlier[1];
    let overtakes = later[3] != 0 && earlier[3] == 0;
    let before = later[3] != 0 && earlier[3] != 0 && later[3] < earlier[3];
    same && (falls || overtakes || before)
}

fn broken(messages: &[[u16; 4]]) -> bool {
    let mut later = messages.iter().enumerate();
    later.any(|(k, later)| messages[..k].iter().any(|one| out_of_turn(one, later)))
}

const OUT_OF_ORDER: Result<(), Refusal> = Err(Refusal::ChannelOutOfOrder);

/// Two messages from process 0 to process 1, whose counts are 3 and 3.
fn two(sent: [u16; 2], received: [u16; 2]) -> Vec<u8> {
    let message = |k: usize| [0, sent[k], 1, received[k]];
    bytes_of(&[3, 3], &[message(0), message(1)])
}

#[test]
fn the_three_ways_and_equal_numbers() {
    for (sent, received, expected) in [
        ([1, 0], [1, 1], OUT_OF_ORDER), // a smaller send number
        ([1, 0], [1, 0], OUT_OF_ORDER), // of one that waits too,
        ([1, 0], [0, 0], OUT_OF_ORDER), // and where both wait
        ([2, 1], [1, 2], OUT_OF_ORDER),
        ([0, 1], [0, 1], OUT_OF_ORDER), // received while the earlier one waits
        ([0, 0], [0, 1], OUT_OF_ORDER),
        ([0, 0], [0, 3], OUT_OF_ORDER), // and not saved yet
        ([0, 1], [2, 1], OUT_OF_ORDER), // a smaller receipt number
        ([0, 0], [3, 2], OUT_OF_ORDER), // than that of one not saved yet
        ([0, 0], [3, 1], OUT_OF_ORDER),
        ([0, 0], [0, 0], Ok(())), // equal numbers
        ([2, 2], [2, 2], Ok(())),
        ([1, 1], [3, 3], Ok(())), // both not saved yet
        ([0, 1], [1, 2], Ok(())),
        ([0, 2], [2, 3], Ok(())),
        ([0, 2], [1, 0], Ok(())), // the later one waits
        ([0, 2], [3, 0], Ok(())),
        ([1, 2], [0, 0], Ok(())), // both wait
    ] {
        let table = two(sent, received);
        assert_eq!(check_table(&table), expected, "{sent:?} {received:?}");
        assert_eq!(run_table::check(&table), expected, "{sent:?} {received:?}");
        assert_eq!(Table::from_bytes(table).map(|_| ()), expected);
    }
}

/// Other messages between them make no difference, and messages of other channels
/// are not compared: the way back, another receiver, another sender.
#[test]
fn only_messages_of_one_channel_are_compared() {
    let (one, other) = ([0, 1, 1, 2], [0, 0, 1, 1]);
    let between = [[1, 2, 0, 1], [2, 2, 1, 1], [0, 0, 2, 1], [1, 0, 2, 3]];
    let table = |messages: &[[u16; 4]]| check_table(&bytes_of(&[3, 3, 3], messages));
    assert_eq!(table(&[one, other]), OUT_OF_ORDER);
    assert_eq!(table(&[other, one]), Ok(()));
    let far = [&[one][..], &between, &[other]].concat();
    assert_eq!(table(&far), OUT_OF_ORDER);
    for different in [[1, 0, 0, 1], [2, 0, 1, 1], [0, 0, 2, 1], [2, 0, 0, 1]] {
        assert_eq!(table(&[one, different]), Ok(()), "{different:?}");
        assert_eq!(table(&[different, one]), Ok(()), "{different:?}");
    }
    // Not just neighbours, and not just the first: the third is out of turn with the
    // first alone, the fourth with the third alone.
    assert_eq!(
        table(&[[0, 1, 1, 1], [2, 0, 1, 1], [0, 0, 1, 1]]),
        OUT_OF_ORDER
    );
    let late = [[0, 0, 1, 1], [0, 0, 1, 1], [0, 1, 1, 3], [0, 1, 1, 2]];
    assert_eq!(table(&late), OUT_OF_ORDER);
    assert_eq!(table(&late[..3]), Ok(()));
}

#[test]
fn the_definition() {
    let mut chance = Chance(20_261_123);
    let (mut accepted, mut refused) = (0, 0);
    for _ in 0..4_000 {
        let (counts, mut messages) = small_numbers(&mut chance);
        let expected = match broken(&messages) {
            true => OUT_OF_ORDER,
            false => Ok(()),
        };
        let table = bytes_of(&counts, &messages);
        assert_eq!(check_table(&table), expected, "{counts:?} {messages:?}");
        assert_eq!(run_table::check(&table), expected);
        match expected {
            Ok(()) => accepted += 1,
            Err(_) => refused += 1,
        }
        in_order(&mut messages);
        assert!(!broken(&messages));
        assert_eq!(check_table(&bytes_of(&counts, &messages)), Ok(()));
    }
    assert!(accepted > 500 && refused > 500, "{accepted} {refused}");
}

/// Every call that takes a table, the refusal of each.
fn refusals(table: &[u8]) -> Vec<Refusal> {
    let answer = &mut vec![0x5a; LARGEST_TABLE][..];
    let marks = &mut vec![0x5a; keeper::MARKS_ROOM][..];
    let scratch = &mut [0x5a5a; keeper::SCRATCH_NUMBERS];
    // Arguments that later checks would catch.
    let refusals = [
        check_table(table),
        run_table::check(table),
        keeper::recovery_line(table, answer).map(|_| ()),
        keeper::line_of_set(table, u32::MAX, answer).map(|_| ()),
        keeper::line_under(table, &[], answer).map(|_| ()),
        keeper::marked_line(table, &[], marks, answer).map(|_| ()),
        keeper::stand_together(table, &[9], &[], answer).map(|_| ()),
        keeper::send(table, 9, 9, answer).map(|_| ()),
        keeper::save(table, 9, &[9], answer).map(|_| ()),
        keeper::receive(table, 9, &[9], answer).map(|_| ()),
        keeper::fall_back(table, &mut answer[..3]).map(|_| ()),
        keeper::keep_sheet(table, &mut scratch[..1], answer).map(|_| ()),
    ]
    .map(|answered| answered.expect_err("the table is refused"));
    assert!(answer.iter().chain(marks.iter()).all(|byte| *byte == 0x5a));
    assert!(scratch.iter().all(|number| *number == 0x5a5a));
    refusals.to_vec()
}

/// 9 comes before 23, whichever message is at fault, and 23 before 10 and all others.
#[test]
fn in_every_call_after_9_and_before_the_others() {
    for table in [
        two([1, 0], [1, 1]),
        two([0, 0], [0, 1]),
        two([0, 0], [2, 1]),
    ] {
        assert_eq!(refusals(&table), [Refusal::ChannelOutOfOrder; 12]);
        let mut listing = vec![0; keeper::LISTING_ROOM];
        let written = keeper::listing(&table, &mut listing).unwrap();
        assert_eq!(&listing[..written], b"refused 23\n");
    }
    for table in [two([1, 0], [4, 1]), two([1, 0], [1, 4])] {
        assert_eq!(refusals(&table), [Refusal::ReceiptNumberTooHigh; 12]);
    }
    assert_eq!(
        refusals(&two([3, 0], [1, 1])),
        [Refusal::SendNumberTooHigh; 12]
    );
}

/// A save and a receipt of a list, and what both answer.
fn both(table: &Table, process: u16, list: &[u16]) -> Result<(), Refusal> {
    let (mut saved, mut received) = (table.clone(), table.clone());
    let answers = (
        saved.save(process, list).map(|_| ()),
        received.receive(process, list),
    );
    if answers.0.is_err() {
        assert_eq!((&saved, &received), (table, table));
    }
    assert_eq!(answers.0, answers.1, "{table:?}, {process}, {list:?}");
    answers.0
}

#[test]
fn lists_that_pass_over_a_message() {
    let mut table = Table::new(3).unwrap();
    for (from, to) in [(0, 1), (0, 1), (2, 1), (0, 2), (0, 1), (2, 1)] {
        table.send(from, to).unwrap();
    }
    let passed: Result<(), Refusal> = Err(Refusal::MessagePassedOver);
    for (list, expected) in [
        (&[1][..], passed),
        (&[4], passed),
        (&[0, 4], passed),
        (&[1, 4], passed),
        (&[5], passed),
        (&[0, 5], passed), // one channel is in order, the other not
        (&[0, 1, 4, 5], passed),
        (&[2, 4], passed),
        (&[0], Ok(())),
        (&[0, 1], Ok(())), // both are listed
        (&[0, 1, 4], Ok(())),
        (&[2], Ok(())), // an older message of another channel waits
        (&[2, 5], Ok(())),
        (&[0, 2], Ok(())),
        (&[0, 1, 2, 4, 5], Ok(())),
        (&[], Ok(())),
    ] {
        assert_eq!(both(&table, 1, list), expected, "{list:?}");
    }
    // Older ones of the same sender wait for another process.
    assert_eq!(both(&table, 2, &[3]), Ok(()));
    // What is received waits no longer, saved or not.
    table.receive(1, &[0]).unwrap();
    assert_eq!(both(&table, 1, &[4]), passed);
    assert_eq!(both(&table, 1, &[1]), Ok(()));
    table.save(1, &[1]).unwrap();
    assert_eq!(both(&table, 1, &[4]), Ok(()));
    assert_eq!(both(&table, 1, &[5]), passed);
}

/// 13 before 24, wherever in the list it catches; 24 before 14 and 16.
#[test]
fn the_place_of_24() {
    let waiting = |count: u16| bytes_of(&[1, count], &[[0, 0, 1, 0], [0, 0, 1, 0]]);
    let mut answer = vec![0x5a; LARGEST_TABLE];
    for (count, list, room, save, receive) in [
        (1, &[1, 1][..], 24, 13, 13),
        (1, &[1, 2], 24, 13, 13),
        (1, &[1, 0], 24, 13, 13),
        (1, &[1], 24, 24, 24),
        (1, &[1], 23, 24, 24),
        (1, &[1], 0, 24, 24),
        (4_096, &[1], 24, 24, 24),
        (4_096, &[1], 0, 24, 24),
        (4_096, &[1, 2], 0, 13, 13),
        (4_096, &[0, 1], 0, 14, 16),
        (1, &[0, 1], 23, 16, 16),
        (1, &[0], 0, 16, 16),
    ] {
        let table = waiting(count);
        let answer = &mut answer[..room];
        let number = |answered: Result<usize, Refusal>| answered.expect_err("refused").number();
        let saved = number(keeper::save(&table, 1, list, answer));
        let received = number(keeper::receive(&table, 1, list, answer));
        assert_eq!(
            (saved, received),
            (save, receive),
            "{count} {list:?} {room}"
        );
        assert!(answer.iter().all(|byte| *byte == 0x5a));
    }
    // 10 comes first.
    let refused = keeper::save(&waiting(1), 2, &[1], &mut answer);
    assert_eq!(refused, Err(Refusal::UnknownProcess));
}

/// By the archive's own calls: under 24 nothing that is lent changes, `written`
/// included.
#[test]
fn what_24_leaves_alone() {
    let table = bytes_of(&[1, 1], &[[0, 0, 1, 0], [0, 0, 1, 0]]);
    for room in [0, 23, 24, 40] {
        let list = [0x5a5a, 1, 0x5a5a];
        let (mut buffer, mut written) = ([0xa5; 64], 77);
        // SAFETY: each length is that of what its pointer leads to, and nothing
        // overlaps.
        let answered = unsafe {
            let (table, length) = (table.as_ptr(), table.len());
            let answer = buffer[9..].as_mut_ptr();
            let list = list[1..].as_ptr();
            (
                archive::keeper_save(table, length, 1, list, 1, answer, room, &mut written),
                archive::keeper_receive(table, length, 1, list, 1, answer, room, &mut written),
            )
        };
        assert_eq!((answered, written), ((24, 24), 77));
        assert_eq!((buffer, list), ([0xa5; 64], [0x5a5a, 1, 0x5a5a]));
    }
}

/// Every list of waiting messages of small tables; and steps in order leave tables in
/// order, which `Table` asks for in each answer here.
#[test]
fn every_list_of_what_waits() {
    let mut chance = Chance(20_261_124);
    let (mut made, mut passed) = (0, 0);
    for _ in 0..1_500 {
        let table = small(&mut chance);
        for process in 0..table.processes() {
            let waiting = waiting_for(&table, process);
            for choice in 0..1 << waiting.len() {
                let chosen = waiting.iter().enumerate();
                let chosen = chosen.filter(|(place, _)| choice >> place & 1 == 1);
                let list: Vec<u16> = chosen.map(|(_, position)| *position).collect();
                let over = list.iter().any(|k| passes_over(&table, &list, *k));
                assert_eq!(over, in_turn(&table, &list) != list);
                let answered = both(&table, process, &list);
                assert_eq!(answered == Err(Refusal::MessagePassedOver), over);
                match answered {
                    Ok(()) => {
                        let (mut saved, mut received) = (table.clone(), table.clone());
                        saved.save(process, &list).unwrap();
                        received.receive(process, &list).unwrap();
                        for mut after in [saved, received] {
                            assert_eq!(check_table(after.as_bytes()), Ok(()));
                            after.fall_back();
                            assert_eq!(check_table(after.as_bytes()), Ok(()));
                        }
                        made += 1;
                    }
                    Err(_) => passed += 1,
                }
            }
        }
    }
    assert!(made > 2_000 && passed > 100, "{made} {passed}");
}

/// At the limits: the last two of 4,096 messages of one channel.
#[test]
fn four_thousand_and_ninety_six_messages() {
    let numbers = |last: [u16; 2]| {
        let messages = [
            vec![[30, 4_095, 31, 1]; 4_095],
            vec![[30, last[0], 31, last[1]]],
        ];
        bytes_of(&[4_096; 32], &messages.concat())
    };
    assert_eq!(numbers([0, 0]).len(), LARGEST_TABLE);
    assert_eq!(check_table(&numbers([4_095, 1])), Ok(()));
    assert_eq!(check_table(&numbers([4_095, 0])), Ok(()));
    assert_eq!(check_table(&numbers([4_094, 1])), OUT_OF_ORDER);
    assert_eq!(check_table(&numbers([4_094, 0])), OUT_OF_ORDER);
    // All wait, and the list has each but the first.
    let waiting = bytes_of(&[1; 32], &[[30, 0, 31, 0]; 4_096]);
    let table = Table::from_bytes(waiting).unwrap();
    let list: Vec<u16> = (0..4_096).collect();
    assert_eq!(both(&table, 31, &list), Ok(()));
    let passed = Err(Refusal::MessagePassedOver);
    assert_eq!(both(&table, 31, &list[1..]), passed);
    assert_eq!(both(&table, 31, &[4_095]), passed);
    assert_eq!(both(&table, 31, &list[..4_095]), Ok(()));
}

/// Example A is in order, and out of order with one number of it changed.
#[test]
fn example_a_with_a_number_changed() {
    // Messages 0 and 3 are from 0 to 1, and 1, 2 and 4 from 1 to 0. Places count numbers:
    // the send number of message k stands at 5 + 2k, its receipt number at 15 + 2k.
    for (place, number, expected) in [
        (15, 0, OUT_OF_ORDER), // message 0 waits, and 3 is received
        (21, 1, OUT_OF_ORDER), // 3 is received before 0
        (21, 3, Ok(())),       // and behind it, not saved yet
        (21, 0, Ok(())),       // 3 waits
        (9, 0, Ok(())),        // 1 and 2 are sent in one interval
        (13, 0, OUT_OF_ORDER), // 4 is sent before 2
        (13, 1, Ok(())),       // and in the same interval
        (7, 2, OUT_OF_ORDER),  // 1 is sent behind 2
        (17, 0, OUT_OF_ORDER), // 1 waits, and 2 is received
        (17, 3, OUT_OF_ORDER), // 1 is not saved yet, and 2 is
        (19, 0, Ok(())),       // 2 and 4 wait
        (23, 1, OUT_OF_ORDER), // 4 is received before 2
        (23, 2, Ok(())),       // and with it
    ] {
        let mut numbers = EXAMPLE_A;
        numbers[place] = number;
        assert_eq!(check_table(&bytes(&numbers)), expected, "{place} {number}");
    }
}
