//! The comparison can fail: with an outcome to expect that is spoilt in one
//! place, it reports a difference.

use differential::compare::{
    against_line_under, against_single_calls, checks_of, Call, Comparison, LISTS, NAMES, STANDS,
};
use differential::lend::Lent;
use differential::passes::LINES;
use differential::share::ROUNDINGS;
use reference::gen::{arbitrary, domino_chain, Order, Rng};
use reference::passes::{beside, falling_pair};
use reference::{Message, Outcome, Table, TABLE_CHECKS};

fn example_a() -> Table {
    Table {
        counts: vec![3, 3],
        messages: vec![
            Message::new((0, 0), (1, 2)),
            Message::new((1, 0), (0, 1)),
            Message::new((1, 1), (0, 2)),
            Message::new((0, 2), (1, 2)),
            Message::new((1, 2), (0, 0)),
        ],
    }
}

fn all_calls(room: usize) -> Vec<Call> {
    vec![
        Call::RecoveryLine { room },
        Call::LineOfSet { set: 2, room },
        Call::LinesOfSets {
            sets: vec![2, 0, 3],
            numbers: 6,
            room,
        },
        Call::LineUnder {
            ceilings: vec![3, 1],
            room,
        },
        Call::MarkedLine {
            ceilings: vec![2, 3],
            marks: 3,
            room,
        },
        Call::StandTogether {
            processes: vec![1],
            states: vec![2],
            room,
        },
        Call::Send {
            from: 0,
            to: 1,
            room,
        },
        Call::Save {
            process: 0,
            list: vec![4],
            room,
        },
        Call::Receive {
            process: 0,
            list: vec![4],
            room,
        },
        Call::FallBack { room },
        Call::KeepSheet { numbers: 6, room },
        Call::Listing { room },
    ]
}

/// A buffer that is enough for the answers of these calls on small tables.
const ENOUGH: usize = 400;

/// Whether the comparison of this call with this outcome fails.
fn fails(table: &[u8], call: &Call, outcome: Outcome) -> bool {
    let mut comparison = Comparison::default();
    let rng = &mut Rng::new(7);
    comparison
        .call_expecting(rng, "a spoilt outcome", table, call, outcome)
        .is_err()
}

#[test]
fn every_bit_of_an_answer_counts() {
    let table = example_a().to_bytes();
    for call in all_calls(ENOUGH) {
        let expected = call.expected(&table);
        assert!(!fails(&table, &call, expected.clone()));
        for bit in 0..8 * expected.answer.len() {
            let mut spoilt = expected.clone();
            spoilt.answer[bit / 8] ^= 1 << (bit % 8);
            assert!(fails(&table, &call, spoilt), "{call:?}, bit {bit}");
        }
    }
}

#[test]
fn the_length_counts() {
    let table = example_a().to_bytes();
    for call in all_calls(ENOUGH) {
        let expected = call.expected(&table);
        let mut shorter = expected.clone();
        shorter.answer.pop();
        assert!(fails(&table, &call, shorter));
        let mut longer = expected;
        longer.answer.push(0);
        assert!(fails(&table, &call, longer));
    }
}

#[test]
fn the_number_counts() {
    let table = example_a().to_bytes();
    for room in [0, ENOUGH] {
        for call in all_calls(room) {
            let expected = call.expected(&table);
            for number in (0..=25).filter(|&number| number != expected.number) {
                let mut spoilt = expected.clone();
                spoilt.number = number;
                assert!(fails(&table, &call, spoilt), "{call:?}, {number}");
            }
        }
    }
    let call = Call::CheckTable;
    assert!(fails(&table, &call, Outcome::refused(4)));
    assert!(!fails(&table, &call, Outcome::refused(0)));
}

/// On success and under 16 the scratch holds the lines, and no more of it is
/// written.
#[test]
fn the_scratch_counts() {
    let table = example_a().to_bytes();
    for room in [0, 100] {
        let call = Call::KeepSheet { numbers: 6, room };
        let expected = call.expected(&table);
        let lines = expected.lines.clone().expect("the lines");
        assert_eq!(lines, [1, 1, 3, 2]);
        for at in 0..lines.len() {
            let mut spoilt = expected.clone();
            spoilt.lines.as_mut().unwrap()[at] += 1;
            assert!(fails(&table, &call, spoilt));
        }
        let mut none = expected.clone();
        none.lines = None;
        assert!(fails(&table, &call, none));
        let mut more = expected;
        more.lines.as_mut().unwrap().push(0);
        assert!(fails(&table, &call, more));
    }
}

/// On success the bytes that the marks need are zero, and no more of them: one
/// byte for example A. A refusal leaves all as they were.
#[test]
fn the_marks_count() {
    let table = example_a().to_bytes();
    let call = |marks, room| Call::MarkedLine {
        ceilings: vec![2, 3],
        marks,
        room,
    };
    let answered = call(3, 4).expected(&table);
    assert_eq!((answered.number, answered.marks), (0, Some(1)));
    for (marks, room, number) in [(3, 4, 0), (3, 3, 16), (3, 0, 16), (0, 4, 19)] {
        let call = call(marks, room);
        let expected = call.expected(&table);
        assert_eq!(expected.number, number);
        assert!(!fails(&table, &call, expected.clone()));
        let all = [None, Some(1), Some(2), Some(3)].into_iter();
        let fits = all.filter(|zeros| zeros.unwrap_or(0) <= marks);
        for zeros in fits.filter(|&zeros| zeros != expected.marks) {
            let mut spoilt = expected.clone();
            spoilt.marks = zeros;
            assert!(fails(&table, &call, spoilt), "{call:?}, {zeros:?}");
        }
    }
}

/// A mark buffer is refused where it is one byte short, and not where it is
/// enough: the other number is a difference.
#[test]
fn the_length_of_the_marks_counts() {
    let call = |marks| Call::MarkedLine {
        ceilings: vec![0, 0],
        marks,
        room: ENOUGH,
    };
    // 8 bits and 9 bits.
    for (counts, needed) in [(vec![3, 3], 1), (vec![3, 4], 2)] {
        let messages = Vec::new();
        let table = Table { counts, messages }.to_bytes();
        for marks in 0..=3 {
            let mut answered = Outcome::answered(vec![0; 4], ENOUGH);
            answered.marks = Some(needed.min(marks));
            let refused = Outcome::refused(19);
            assert_eq!(fails(&table, &call(marks), answered), marks < needed);
            assert_eq!(fails(&table, &call(marks), refused), marks >= needed);
        }
    }
}

/// Each call has met each of its checks once, and shares each rounding.
fn all_met() -> Comparison {
    let mut comparison = Comparison::default();
    for (place, name) in NAMES.iter().enumerate() {
        for number in checks_of(name).into_iter().chain([0]) {
            comparison.calls.insert((place, number), 1);
        }
    }
    comparison.shares = [1; ROUNDINGS.len()];
    comparison.stands = [1; STANDS.len()];
    comparison.lists = [1; LISTS.len()];
    comparison
}

/// The numbers answered are held against each call's list of checks: one that
/// was never met counts, and so does one that is not on the list.
#[test]
fn the_lists_of_checks_count() {
    assert_eq!(checks_of("check_table"), TABLE_CHECKS);
    assert_eq!(checks_of("listing"), [16]);
    let of_sets = [&TABLE_CHECKS[..], &[25, 12, 15, 16]].concat();
    assert_eq!(checks_of("lines_of_sets"), of_sets);
    let of_marking = [&TABLE_CHECKS[..], &[17, 18, 19, 16]].concat();
    assert_eq!(checks_of("marked_line"), of_marking);
    let of_names = [&TABLE_CHECKS[..], &[20, 21, 22, 16]].concat();
    assert_eq!(checks_of("stand_together"), of_names);
    // 14 is a check of a save, and none of a receipt; 24 is one of both.
    let of_save = [&TABLE_CHECKS[..], &[10, 13, 24, 14, 16]].concat();
    assert_eq!(checks_of("save"), of_save);
    let of_receipt = [&TABLE_CHECKS[..], &[10, 13, 24, 16]].concat();
    assert_eq!(checks_of("receive"), of_receipt);
    let mut comparison = all_met();
    assert_eq!(comparison.strays(), [""; 0]);
    for (place, name) in NAMES.iter().enumerate() {
        for number in checks_of(name).into_iter().chain([0]) {
            comparison.calls.remove(&(place, number));
            let stray = format!("no {name} answered {number}");
            assert_eq!(comparison.strays(), [stray]);
            comparison.calls.insert((place, number), 1);
        }
        comparison.calls.insert((place, 99), 1);
        let stray = format!("{name} answered 99, which is none of its checks");
        assert_eq!(comparison.strays(), [stray]);
        comparison.calls.remove(&(place, 99));
    }
}

/// A way to round a share that was never met counts, and it is counted by what
/// the listing says.
#[test]
fn the_ways_to_round_count() {
    for (place, way) in ROUNDINGS.iter().enumerate() {
        let mut comparison = all_met();
        comparison.shares[place] = 0;
        let stray = format!("no share was rounded: {way}");
        assert_eq!(comparison.strays(), [stray]);
    }
    // 50 of example A; none of a refused table, and none under 16.
    let mut comparison = Comparison::default();
    let table = example_a().to_bytes();
    let rng = &mut Rng::new(12);
    for (bytes, room) in [(&table[..], ENOUGH), (&table[1..], ENOUGH), (&table[..], 0)] {
        let call = Call::Listing { room };
        assert!(comparison.call(rng, "example A", bytes, &call).is_ok());
    }
    assert_eq!(comparison.shares, [1, 0, 0, 0, 0]);
}

/// "So 1 state of 8 prints 12 and 3 of 8 print 38": every other number is a
/// difference.
#[test]
fn the_share_counts() {
    let one = "line 7\nhold 0 7\ncheckpoint 0 7\nshare ";
    let three = "line 0 1 4\nhold 0 0 2 5\nhold 1 1 1 5\nhold 2 1 2 4\n\
        checkpoint 0 0\ncheckpoint 1 1\ncheckpoint 2 4\nshare ";
    for (counts, text, share) in [(vec![8], one, 12), (vec![1, 2, 5], three, 38)] {
        let table = Table {
            counts,
            messages: Vec::new(),
        };
        let call = Call::Listing { room: ENOUGH };
        for percent in 0..=101 {
            let outcome = Outcome::answered(format!("{text}{percent}\n").into(), ENOUGH);
            let difference = fails(&table.to_bytes(), &call, outcome);
            assert_eq!(difference, percent != share, "{text}{percent}");
        }
    }
}

/// Example A after process 0 received message 4: the receipt number is the count.
/// Any other number is a difference, and so is another count of process 0.
#[test]
fn the_receipt_number_counts() {
    let table = example_a();
    let call = Call::Receive {
        process: 0,
        list: vec![4],
        room: ENOUGH,
    };
    for received in 0..=5 {
        let mut next = table.clone();
        next.messages[4].received = received;
        let outcome = Outcome::answered(next.to_bytes(), ENOUGH);
        let difference = fails(&table.to_bytes(), &call, outcome);
        assert_eq!(difference, received != 3, "{received}");
        next.counts[0] = 4;
        let outcome = Outcome::answered(next.to_bytes(), ENOUGH);
        assert!(fails(&table.to_bytes(), &call, outcome));
    }
}

/// Check 9 at the count and one above it; a list with an unsaved message; a
/// receipt at 4,096 states, which is not refused by 14: the other number is a
/// difference.
#[test]
fn the_refusals_of_receipts_count() {
    let with = |received: u32| {
        let mut table = example_a();
        table.messages[4].received = received;
        table.to_bytes()
    };
    let receive = |process: u16, list: &[u16]| Call::Receive {
        process,
        list: list.to_vec(),
        room: ENOUGH,
    };
    for (received, number) in [(0, 0), (2, 0), (3, 0), (4, 9), (5, 9), (65_535, 9)] {
        for other in [0, 9] {
            let difference = fails(&with(received), &Call::CheckTable, Outcome::refused(other));
            assert_eq!(difference, other != number, "{received} {other}");
        }
    }
    for number in [9, 10, 13, 14, 16] {
        let outcome = || Outcome::refused(number);
        // Unsaved, so it does not wait; received by state 2; of process 1; beyond.
        assert_eq!(fails(&with(3), &receive(0, &[4]), outcome()), number != 13);
        assert_eq!(fails(&with(0), &receive(0, &[2]), outcome()), number != 13);
        assert_eq!(fails(&with(0), &receive(0, &[3]), outcome()), number != 13);
        assert_eq!(fails(&with(0), &receive(0, &[5]), outcome()), number != 13);
        assert_eq!(fails(&with(0), &receive(2, &[4]), outcome()), number != 10);
        assert_eq!(fails(&with(4), &receive(0, &[4]), outcome()), number != 9);
        let short = receive(0, &[4]).with_room(47);
        assert_eq!(fails(&with(0), &short, outcome()), number != 16);
        // A save of the same would be.
        let mut full = example_a();
        full.counts[0] = 4_096;
        let save = Call::Save {
            process: 0,
            list: vec![4],
            room: ENOUGH,
        };
        assert_eq!(fails(&full.to_bytes(), &save, outcome()), number != 14);
        assert!(fails(&full.to_bytes(), &receive(0, &[4]), outcome()));
    }
}

/// Both sides of 23, each of the three ways, and its place behind 9 and before all
/// that a call checks besides: every other number is a difference, in every call.
#[test]
fn the_order_of_channels_counts() {
    // Counts of 3, two messages from process 0 to process 1, and a third.
    let back = Message::new((1, 1), (0, 0));
    let with = |first: (u32, u32), second: (u32, u32), third: Message| {
        let message = |(sent, received)| Message::new((0, sent), (1, received));
        let table = Table {
            counts: vec![3, 3],
            messages: vec![message(first), third, message(second)],
        };
        table.to_bytes()
    };
    let cases = [
        // Equal ones, one behind the other, waiting last, unsaved before waiting.
        ((1, 1), (1, 1), back, 0),
        ((0, 1), (2, 3), back, 0),
        ((1, 3), (1, 0), back, 0),
        ((1, 0), (1, 0), back, 0),
        // Sent before it; received while it waits, saved or not; received before it.
        ((1, 1), (0, 1), back, 23),
        ((1, 0), (0, 0), back, 23),
        ((1, 0), (1, 2), back, 23),
        ((1, 0), (1, 3), back, 23),
        ((1, 2), (1, 1), back, 23),
        ((1, 3), (1, 2), back, 23),
        // The same numbers in the other direction are of another channel.
        ((1, 2), (1, 2), Message::new((1, 0), (0, 1)), 0),
        // 9 and 8 of the third, and of one that is out of turn.
        ((1, 2), (1, 1), Message::new((1, 1), (0, 4)), 9),
        ((1, 2), (1, 1), Message::new((1, 3), (0, 0)), 8),
        ((1, 4), (1, 1), back, 9),
    ];
    for (first, second, third, refusal) in cases {
        let table = with(first, second, third);
        for number in [0, 8, 9, 23] {
            let outcome = Outcome::refused(number);
            let difference = fails(&table, &Call::CheckTable, outcome);
            assert_eq!(difference, number != refusal, "{first:?} {second:?}");
        }
        if refusal == 0 {
            continue;
        }
        // In every other call, with arguments and rooms that are refused too.
        let mut calls = all_calls(0);
        calls.pop();
        calls.extend([
            Call::Send {
                from: 2,
                to: 2,
                room: 0,
            },
            Call::Save {
                process: 9,
                list: vec![7],
                room: 0,
            },
            Call::Receive {
                process: 1,
                list: vec![2, 2],
                room: 0,
            },
        ]);
        for call in calls {
            for number in [0, 8, 9, 10, 11, 13, 15, 16, 17, 20, 23, 24] {
                let difference = fails(&table, &call, Outcome::refused(number));
                assert_eq!(difference, number != refusal, "{call:?} {number}");
            }
        }
    }
}

/// A list that takes both of two waiting messages, or the older, is answered; one
/// that passes over the older is refused by 24, of a save and of a receipt, behind 13
/// and before 14 and 16. Of another sender, or received, it is not passed over.
#[test]
fn what_is_passed_over_counts() {
    let table = |full: bool, older: u32| Table {
        counts: vec![3, if full { 4_096 } else { 3 }, 3],
        messages: vec![
            Message::new((0, 0), (1, older)),
            Message::new((0, 1), (1, 0)),
            Message::new((2, 1), (1, 0)),
        ],
    };
    let calls = |list: &[u16], room: usize| {
        let list = list.to_vec();
        [
            Call::Save {
                process: 1,
                list: list.clone(),
                room,
            },
            Call::Receive {
                process: 1,
                list,
                room,
            },
        ]
    };
    let cases: [(&[u16], u32, u32); 12] = [
        (&[0], 0, 0),
        (&[0, 1], 0, 0),
        (&[0, 1, 2], 0, 0),
        (&[2], 0, 0),
        (&[0, 2], 0, 0),
        (&[1], 0, 24),
        (&[1, 2], 0, 24),
        (&[1], 2, 0),
        (&[1], 3, 0),
        (&[1, 1], 0, 13),
        (&[1, 3], 0, 13),
        (&[2, 1], 0, 13),
    ];
    for (list, older, refusal) in cases {
        let bytes = table(false, older).to_bytes();
        for call in calls(list, ENOUGH) {
            for number in [13, 14, 16, 24] {
                let difference = fails(&bytes, &call, Outcome::refused(number));
                assert_eq!(difference, number != refusal, "{call:?} {number}");
            }
        }
        // Without room, and at 4,096 states.
        let [save, receive] = calls(list, 0);
        for number in [0, 13, 14, 16, 24] {
            let outcome = || Outcome::refused(number);
            let short = if refusal == 0 { 16 } else { refusal };
            assert_eq!(fails(&bytes, &save, outcome()), number != short);
            assert_eq!(fails(&bytes, &receive, outcome()), number != short);
            let full = table(true, older).to_bytes();
            let at_most = if refusal == 0 { 14 } else { refusal };
            assert_eq!(fails(&full, &save, outcome()), number != at_most);
            assert_eq!(fails(&full, &receive, outcome()), number != short);
        }
    }
    // Both: they get the count, and nothing else changes.
    for received in 0..=4 {
        let mut next = table(false, 0);
        next.messages[0].received = received;
        next.messages[1].received = 3;
        let outcome = Outcome::answered(next.to_bytes(), ENOUGH);
        let [_, receive] = calls(&[0, 1], ENOUGH);
        let difference = fails(&table(false, 0).to_bytes(), &receive, outcome);
        assert_eq!(difference, received != 3);
    }
}

/// The line of a set and the sheet with the message unsaved, and with it
/// waiting: what is right of the one is a difference of the other.
#[test]
fn unsaved_messages_count() {
    let with = |received: u32| Table {
        counts: vec![1, 1],
        messages: vec![
            Message::new((0, 0), (1, received)),
            Message::new((1, 0), (0, received)),
        ],
    };
    let (waiting, unsaved) = (with(0).to_bytes(), with(1).to_bytes());
    for set in [1, 2] {
        let call = Call::LineOfSet { set, room: ENOUGH };
        // Process 0 holds, or process 1, and the other may stand at 1 or not.
        let free = if set == 1 { [0, 0, 1, 0] } else { [1, 0, 0, 0] };
        let free = Outcome::answered(free.to_vec(), ENOUGH);
        let back = Outcome::answered(vec![0; 4], ENOUGH);
        assert!(!fails(&waiting, &call, free.clone()));
        assert!(fails(&waiting, &call, back.clone()));
        assert!(!fails(&unsaved, &call, back));
        assert!(fails(&unsaved, &call, free));
    }
    let call = Call::KeepSheet {
        numbers: 4,
        room: ENOUGH,
    };
    let states = [0, 0, 1, 0, 0, 0, 0, 0];
    for messages in [&[][..], &[0, 0], &[1, 0], &[0, 0, 1, 0]] {
        let sizes = [2, 0, messages.len() as u8 / 2, 0];
        let sheet = [&sizes[..], &states, messages].concat();
        let mut outcome = Outcome::answered(sheet, ENOUGH);
        outcome.lines = Some(vec![0; 4]);
        let difference = fails(&unsaved, &call, outcome.clone());
        assert_eq!(difference, !messages.is_empty(), "{messages:?}");
        outcome.lines = Some(vec![0, 1, 1, 0]);
        let difference = fails(&waiting, &call, outcome);
        assert_eq!(difference, messages.len() < 4, "{messages:?}");
    }
}

/// Names of example A: the answers that were worked out from its consistent lines,
/// 0 0, 0 1, 1 1, 3 2 and 3 3. A no in the place of a yes is a difference, and a yes
/// in the place of a no, and any other line, in a buffer of any length; and so is
/// each refusal.
#[test]
fn both_answers_to_names_count() {
    /// Processes, states, and the line of a yes.
    type Answered<'a> = (&'a [u16], &'a [u16], Option<[u8; 2]>);
    let table = example_a().to_bytes();
    let answer = |line: Option<[u8; 2]>| line.map_or(vec![], |[a, b]| vec![a, 0, b, 0]);
    let cases: [Answered; 7] = [
        (&[], &[], Some([3, 3])),
        (&[0], &[0], Some([0, 1])),
        (&[0], &[2], None),
        (&[1], &[2], Some([3, 2])),
        (&[0, 1], &[1, 1], Some([1, 1])),
        (&[0, 1], &[1, 2], None),
        (&[0, 1], &[0, 2], None),
    ];
    for (processes, states, line) in cases {
        for room in [0, 3, 4, ENOUGH] {
            let call = Call::StandTogether {
                processes: processes.to_vec(),
                states: states.to_vec(),
                room,
            };
            let fits = line.is_none() || room >= 4;
            let lines = (0..=3).flat_map(|a| (0..=3).map(move |b| Some([a, b])));
            for other in lines.chain([None]) {
                // The library's line under the names finds the same.
                let against = against_line_under(&table, (processes, states), &answer(other));
                assert_eq!(against.is_some(), other != line, "{call:?} {other:?}");
                let outcome = Outcome::answered(answer(other), ENOUGH);
                if outcome.answer.len() <= room {
                    let difference = fails(&table, &call, outcome);
                    assert_eq!(difference, !fits || other != line, "{call:?} {other:?}");
                }
            }
            for number in [16, 20, 21, 22] {
                let difference = fails(&table, &call, Outcome::refused(number));
                assert_eq!(difference, fits || number != 16, "{call:?} {number}");
            }
        }
    }
}

/// Both sides of 20, 21 and 22, and their order: every other number is a
/// difference.
#[test]
fn the_refusals_of_names_count() {
    let table = example_a().to_bytes();
    let cases: [(&[u16], &[u16], u32); 12] = [
        (&[0, 1], &[0], 20),
        (&[0], &[0, 0], 20),
        (&[2], &[], 20),
        (&[0, 1], &[3], 20),
        (&[2], &[0], 21),
        (&[0, 2], &[0, 0], 21),
        (&[1, 1], &[1, 1], 21),
        (&[1, 0], &[1, 1], 21),
        (&[0, 2], &[3, 0], 21),
        (&[0], &[3], 22),
        (&[1], &[65_535], 22),
        (&[0, 1], &[2, 3], 22),
    ];
    for (processes, states, refusal) in cases {
        for room in [0, ENOUGH] {
            let call = Call::StandTogether {
                processes: processes.to_vec(),
                states: states.to_vec(),
                room,
            };
            for number in [0, 16, 20, 21, 22] {
                let outcome = Outcome::refused(number);
                assert_eq!(fails(&table, &call, outcome), number != refusal, "{call:?}");
            }
        }
    }
}

/// An answer to names that was never met counts, and they are counted by what the
/// archive answers.
#[test]
fn the_answers_to_names_are_counted() {
    for (place, answer) in STANDS.iter().enumerate() {
        let mut comparison = all_met();
        comparison.stands[place] = 0;
        let stray = format!("no named states were told {answer}");
        assert_eq!(comparison.strays(), [stray]);
    }
    let mut comparison = Comparison::default();
    let table = example_a().to_bytes();
    let rng = &mut Rng::new(13);
    // Two noes and a yes; none of a refused table, and none under 16.
    for (bytes, state, room) in [
        (&table[..], 2, ENOUGH),
        (&table[..], 2, 0),
        (&table[..], 1, ENOUGH),
        (&table[1..], 1, ENOUGH),
        (&table[..], 1, 0),
    ] {
        let call = Call::StandTogether {
            processes: vec![0],
            states: vec![state],
            room,
        };
        assert!(comparison.call(rng, "example A", bytes, &call).is_ok());
    }
    assert_eq!(comparison.stands, [2, 1]);
}

/// The lines of all sets of example A, 3 3, 1 1, 3 2 and 1 1: any other line in the
/// place of one is a difference, and so are two of them the other way round, one left
/// out, one more, and any other number in the scratch. The library's line of each set
/// and its scratch of a sheet find the same.
#[test]
fn every_line_of_sets_counts() {
    let table = example_a().to_bytes();
    let sets = [2, 0, 3, 1];
    let call = Call::LinesOfSets {
        sets: sets.to_vec(),
        numbers: 6,
        room: ENOUGH,
    };
    let lines = [[3, 2], [3, 3], [1, 1], [1, 1]];
    let singles = vec![1, 1, 3, 2];
    let outcome = |lines: &[[u8; 2]], singles: &[u16]| {
        let bytes: Vec<u8> = lines.iter().flatten().flat_map(|&at| [at, 0]).collect();
        let mut outcome = Outcome::answered(bytes, ENOUGH);
        outcome.lines = Some(singles.to_vec());
        outcome
    };
    let differs = |lines: &[[u8; 2]], singles: &[u16]| {
        let outcome = outcome(lines, singles);
        let against = against_single_calls(&table, &sets, &outcome.answer, singles);
        let difference = fails(&table, &call, outcome);
        assert_eq!(against.is_some(), difference, "{lines:?} {singles:?}");
        difference
    };
    assert!(!differs(&lines, &singles));
    for at in 0..4 {
        for line in (0..=3).flat_map(|a| (0..=3).map(move |b| [a, b])) {
            let mut spoilt = lines;
            spoilt[at] = line;
            assert_eq!(differs(&spoilt, &singles), line != lines[at]);
        }
        let mut spoilt = lines;
        spoilt.swap(at, (at + 1) % 4);
        assert_eq!(differs(&spoilt, &singles), spoilt != lines);
        for number in 0..=4 {
            let mut spoilt = singles.clone();
            spoilt[at] = number;
            assert_eq!(differs(&lines, &spoilt), number != singles[at]);
        }
    }
    assert!(differs(&lines[..3], &singles));
    assert!(differs(&lines[1..], &singles));
    assert!(differs(&[&lines[..], &[[1, 1]]].concat(), &singles));
    assert!(differs(&[[3, 3]; 4], &singles));
    assert!(differs(&lines, &[3, 2, 1, 1]));
}

/// Both sides of 25, 12, 15 and 16, and their order: every other number is a
/// difference, and so is a scratch that is filled under a refusal, or not on success.
#[test]
fn the_refusals_of_sets_count() {
    let table = example_a().to_bytes();
    let many = |set: u32, times: usize| vec![set; times];
    let cases: [(Vec<u32>, usize, usize, u32); 18] = [
        (vec![], 4, 0, 0),
        (vec![], 3, 0, 15),
        (vec![3], 4, 4, 0),
        (vec![3], 4, 3, 16),
        (vec![3], 3, 4, 15),
        (vec![3], 3, 3, 15),
        (vec![4], 4, 4, 12),
        (vec![4], 3, 4, 12),
        (vec![4], 4, 3, 12),
        (vec![4, 3, 3], 4, 12, 12),
        (vec![3, 4, 3], 4, 12, 12),
        (vec![3, 3, 4], 4, 12, 12),
        (many(3, 256), 4, 1_024, 0),
        (many(3, 256), 4, 1_023, 16),
        (many(3, 257), 4, 1_028, 25),
        (many(4, 257), 4, 1_028, 25),
        (many(3, 257), 3, 1_028, 25),
        (many(3, 257), 4, 0, 25),
    ];
    for (sets, numbers, room, refusal) in cases {
        let call = Call::LinesOfSets {
            sets: sets.clone(),
            numbers,
            room,
        };
        let answered = |lines: Option<Vec<u16>>| {
            let mut outcome = Outcome::answered([1, 0, 1, 0].repeat(sets.len()), usize::MAX);
            outcome.lines = lines;
            outcome
        };
        let singles = [1, 1, 3, 2];
        if 4 * sets.len() <= room {
            let right = || Some(singles[..numbers.min(4)].to_vec());
            assert_eq!(fails(&table, &call, answered(right())), refusal != 0);
            assert!(fails(&table, &call, answered(None)));
        }
        for number in [12, 15, 16, 25] {
            let difference = fails(&table, &call, Outcome::refused(number));
            assert_eq!(difference, number != refusal, "{numbers} {room} {number}");
            let mut filled = Outcome::refused(number);
            filled.lines = Some(singles[..numbers].to_vec());
            assert!(fails(&table, &call, filled));
        }
    }
}

/// A kind of lists of sets that was never answered counts, and they are counted by what
/// the archive answers.
#[test]
fn the_lists_of_sets_are_counted() {
    for (place, kind) in LISTS.iter().enumerate() {
        let mut comparison = all_met();
        comparison.lists[place] = 0;
        let stray = format!("no list of sets was answered with {kind}");
        assert_eq!(comparison.strays(), [stray]);
    }
    let mut comparison = Comparison::default();
    // Each process goes back by one alone, so that a pair has a line of its own.
    let table = Table {
        counts: vec![1, 4],
        messages: Vec::new(),
    };
    let bytes = table.to_bytes();
    let rng = &mut Rng::new(14);
    let mut ask = |sets: Vec<u32>, room: usize| {
        let call = Call::LinesOfSets {
            sets,
            numbers: 4,
            room,
        };
        assert!(comparison.call(rng, "two counts", &bytes, &call).is_ok());
        comparison.lists
    };
    assert_eq!(ask(vec![], 0), [1, 0, 0, 0, 0, 0]);
    assert_eq!(ask(vec![1], 4), [1, 1, 0, 0, 0, 0]);
    assert_eq!(ask(vec![3], 4), [1, 2, 0, 0, 0, 1]);
    assert_eq!(ask(vec![0], 4), [1, 3, 0, 0, 0, 1]);
    assert_eq!(ask(vec![0, 1, 2], 12), [1, 3, 1, 0, 0, 1]);
    assert_eq!(ask(vec![1, 2, 1], 12), [1, 3, 2, 0, 1, 1]);
    assert_eq!(ask(vec![2; 255], 1_020), [1, 3, 3, 0, 2, 1]);
    assert_eq!(ask(vec![3; 256], 1_024), [1, 3, 3, 1, 3, 2]);
    // Nothing of a list that is refused.
    assert_eq!(ask(vec![3; 257], 1_028), [1, 3, 3, 1, 3, 2]);
    assert_eq!(ask(vec![3], 3), [1, 3, 3, 1, 3, 2]);
    assert_eq!(ask(vec![4], 4), [1, 3, 3, 1, 3, 2]);
}

/// Lines that too few tables by chance have count, once there are many tables.
#[test]
fn the_passes_of_lines_count() {
    let by_sender = |m: usize| domino_chain(&mut Rng::new(1), m, Order::BySender);
    let mut comparison = all_met();
    for table in [
        // Of two processes: two passes, three, and four.
        by_sender(1),
        by_sender(2),
        by_sender(4),
        // Of five, four passes, with numbers that fall behind it, and before it.
        beside(&[by_sender(4), falling_pair()]),
        beside(&[falling_pair(), by_sender(4)]),
        // Of four, five passes, and behind it three.
        beside(&[by_sender(6), by_sender(2)]),
        // Of seven, three passes; of eight, four, and five.
        beside(&[by_sender(2), falling_pair(), by_sender(2)]),
        beside(&vec![by_sender(4); 4]),
        beside(&vec![by_sender(6); 4]),
    ] {
        comparison.passes.add(&table.to_bytes());
    }
    // Nothing of a table that is refused.
    comparison.passes.add(&[0; 3]);
    assert_eq!(comparison.passes.accepted, 9);
    assert_eq!(comparison.passes.times, [4, 4, 2, 2, 2, 2, 1]);
    for (place, (kind, share)) in LINES.iter().enumerate() {
        let mut comparison = all_met();
        comparison.passes.times = LINES.map(|(_, share)| 2 * share);
        comparison.passes.times[place] = 2 * share - 1;
        comparison.passes.accepted = 999;
        assert_eq!(comparison.strays(), [""; 0]);
        comparison.passes.accepted = 2_000;
        let [stray] = &comparison.strays()[..] else {
            panic!("{kind}: one of them");
        };
        let wanted = format!("fewer than {share} of 1,000 tables have lines of {kind}: ");
        assert!(stray.starts_with(&wanted), "{stray}");
    }
}

/// An outcome of another table is seen.
#[test]
fn another_table_counts() {
    let rng = &mut Rng::new(8);
    let mut seen = 0;
    for _ in 0..200 {
        let table = arbitrary(rng, 3, 5, 4);
        let mut other = table.clone();
        let at = rng.between(0, 4);
        let message = &mut other.messages[at];
        message.received = [0, table.counts[message.receiver]][rng.between(0, 1)];
        let mut calls = all_calls(ENOUGH);
        calls.push(Call::LineUnder {
            ceilings: table.counts.iter().map(|&count| count as u16 / 2).collect(),
            room: ENOUGH,
        });
        calls.push(Call::MarkedLine {
            ceilings: table.counts.iter().map(|&count| count as u16 / 2).collect(),
            marks: 2,
            room: ENOUGH,
        });
        calls.push(Call::LinesOfSets {
            sets: (0..8).collect(),
            numbers: 9,
            room: ENOUGH,
        });
        calls.push(Call::StandTogether {
            processes: vec![0, 2],
            states: [0, 2].map(|p| table.counts[p] as u16 / 2).to_vec(),
            room: ENOUGH,
        });
        for call in calls {
            let here = call.expected(&table.to_bytes());
            let there = call.expected(&other.to_bytes());
            if here != there {
                assert!(fails(&table.to_bytes(), &call, there));
                seen += 1;
            }
        }
    }
    assert!(seen > 200, "{seen}");
}

#[test]
fn guards_count() {
    let rng = &mut Rng::new(9);
    let lent: Lent<u8> = Lent::room(rng, 10);
    assert!(lent.difference(&lent.copy()).is_none());
    let mut other = lent.copy();
    other.slice_mut()[3] ^= 1;
    assert_eq!(lent.difference(&other).map(|found| found.0), Some(3));
    // One byte before the slice and one behind it, and the farthest ones.
    for place in [-1, -32, 10, 41] {
        let mut other = lent.copy();
        let (all, front) = other.with_guards();
        all[front.wrapping_add_signed(place)] ^= 1;
        assert_eq!(lent.difference(&other).map(|found| found.0), Some(place));
    }
}
