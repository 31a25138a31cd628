//! The examples of the scope document, byte for byte.

use reference::gen::Rng;
use reference::*;

const ROOM: usize = 40_000;

/// (process, state number)
type Entry = (usize, u32);

fn table(counts: &[u32], messages: &[(Entry, Entry)]) -> Vec<u8> {
    Table {
        counts: counts.to_vec(),
        messages: messages
            .iter()
            .map(|&(send, receipt)| Message::new(send, receipt))
            .collect(),
    }
    .to_bytes()
}

/// Example A, written out number by number.
const A: [u8; 48] = [
    2, 0, 5, 0, // N, M
    3, 0, 3, 0, // counts
    0, 0, 0, 0, 1, 0, 0, 0, 1, 0, 1, 0, 0, 0, 2, 0, 1, 0, 2, 0, // sends
    1, 0, 2, 0, 0, 0, 1, 0, 0, 0, 2, 0, 1, 0, 2, 0, 0, 0, 0, 0, // receipts
];

const A_LISTING: &str = "line 1 1
hold 0 1 1
hold 1 3 2
checkpoint 0 1
checkpoint 1 1
checkpoint 1 2
message 0
message 4
share 50
";

#[test]
fn a_reads_and_writes_the_same_bytes() {
    let built = table(
        &[3, 3],
        &[
            ((0, 0), (1, 2)),
            ((1, 0), (0, 1)),
            ((1, 1), (0, 2)),
            ((0, 2), (1, 2)),
            ((1, 2), (0, 0)),
        ],
    );
    assert_eq!(built, A);
    assert_eq!(check_table(&A), 0);
    assert_eq!(Table::read(&A).unwrap().to_bytes(), A);
}

#[test]
fn a_listing() {
    assert_eq!(listing(&A), A_LISTING);
}

#[test]
fn a_line() {
    let outcome = recovery_line(&A, 4);
    assert_eq!(outcome.number, 0);
    assert_eq!(outcome.answer, [1, 0, 1, 0]);
    assert_eq!(outcome.lines, None);
}

#[test]
fn a1_hold_lines() {
    assert_eq!(line_of_set(&A, 1, 4).answer, [1, 0, 1, 0]);
    assert_eq!(line_of_set(&A, 2, 4).answer, [3, 0, 2, 0]);
    assert_eq!(line_of_set(&A, 3, 4).answer, recovery_line(&A, 4).answer);
    // "The line of the empty set is the counts."
    assert_eq!(line_of_set(&A, 0, 4).answer, [3, 0, 3, 0]);
}

/// The consistent lines of A are 0 0, 0 1, 1 1, 3 2 and 3 3: message 0 asks
/// that L of 0 > 0 or L of 1 < 2, message 1 that L of 1 > 0 or L of 0 < 1,
/// message 2 that L of 1 > 1 or L of 0 < 2, message 3 that L of 0 > 2 or L of
/// 1 < 2. So the latest at or below each pair of ceilings, worked out by hand:
#[test]
fn a_lines_under_all_ceilings() {
    let lines: [[[u8; 2]; 4]; 4] = [
        [[0, 0], [0, 1], [0, 1], [0, 1]],
        [[0, 0], [1, 1], [1, 1], [1, 1]],
        [[0, 0], [1, 1], [1, 1], [1, 1]],
        [[0, 0], [1, 1], [3, 2], [3, 3]],
    ];
    for a in 0..=3u16 {
        for b in 0..=3u16 {
            let outcome = line_under(&A, &[a, b], 4);
            let [at_0, at_1] = lines[usize::from(a)][usize::from(b)];
            assert_eq!(outcome.number, 0);
            assert_eq!(outcome.answer, [at_0, 0, at_1, 0], "{a} {b}");
            assert_eq!(outcome.lines, None);
        }
    }
    for above in [[4, 3], [3, 4], [4, 4], [0, 65535], [65535, 0]] {
        assert_eq!(line_under(&A, &above, 4), Outcome::refused(18));
    }
}

#[test]
fn a2_sheet() {
    let sheet = [
        0x03, 0x00, 0x02, 0x00, 0x00, 0x00, 0x01, 0x00, 0x01, 0x00, 0x01, 0x00, 0x01, 0x00, 0x02,
        0x00, 0x00, 0x00, 0x04, 0x00,
    ];
    let outcome = keep_sheet(&A, 4, 20);
    assert_eq!(outcome.number, 0);
    assert_eq!(outcome.answer, sheet);
    assert_eq!(outcome.lines, Some(vec![1, 1, 3, 2]));
}

#[test]
fn a3_fall_back() {
    let outcome = fall_back(&A, 24);
    assert_eq!(outcome.number, 0);
    assert_eq!(
        outcome.answer,
        [
            2, 0, 2, 0, 2, 0, 2, 0, // N, M, counts
            0, 0, 0, 0, 1, 0, 0, 0, // sends
            1, 0, 0, 0, 0, 0, 1, 0, // receipts
        ]
    );
    assert_eq!(
        outcome.answer,
        table(&[2, 2], &[((0, 0), (1, 0)), ((1, 0), (0, 1))])
    );
    assert_eq!(fall_back(&A, 23), Outcome::refused(16));
}

#[test]
fn a_state_2_of_process_0_is_needed_by_no_future() {
    let a = Table::read(&A).unwrap();
    for depth in 2..=4 {
        let (states, messages) = needed_by_futures(&a, depth);
        assert_eq!(Vec::from_iter(states), [(0, 1), (1, 1), (1, 2)]);
        assert_eq!(Vec::from_iter(messages), [0, 4]);
    }
}

#[test]
fn b() {
    let b = table(&[1], &[]);
    assert_eq!(b, [1, 0, 0, 0, 1, 0]);
    assert_eq!(recovery_line(&b, 2).answer, [0, 0]);
    assert_eq!(line_under(&b, &[0], 2).answer, [0, 0]);
    assert_eq!(line_under(&b, &[1], 2).answer, [1, 0]);
    assert_eq!(line_under(&b, &[2], 2), Outcome::refused(18));
    let sheet = keep_sheet(&b, 1, 8);
    assert_eq!(sheet.number, 0);
    assert_eq!(sheet.answer, [1, 0, 0, 0, 0, 0, 0, 0]);
    assert_eq!(sheet.lines, Some(vec![0]));
    assert_eq!(listing(&b), "line 0\nhold 0 0\ncheckpoint 0 0\nshare 100\n");
}

#[test]
fn c() {
    let c = table(&[1, 4], &[]);
    let sheet = keep_sheet(&c, 4, ROOM);
    assert_eq!(sheet.lines, Some(vec![0, 4, 1, 3]));
    // Without messages every ceiling is its own line.
    assert_eq!(line_under(&c, &[0, 4], 4).answer, [0, 0, 4, 0]);
    assert_eq!(line_under(&c, &[1, 2], 4).answer, [1, 0, 2, 0]);
    assert_eq!(sheet.answer, [2, 0, 0, 0, 0, 0, 1, 0, 0, 0, 3, 0]);
    assert_eq!(
        listing(&c),
        "line 0 3\nhold 0 0 4\nhold 1 1 3\ncheckpoint 0 0\ncheckpoint 1 3\nshare 40\n"
    );
}

#[test]
fn d() {
    let d = table(&[2, 2], &[((0, 1), (1, 1)), ((1, 0), (0, 1))]);
    assert_eq!(recovery_line(&d, ROOM).answer, [0, 0, 0, 0]);
    // 2 1 is the latest line but the counts; all others go back to zero.
    assert_eq!(line_under(&d, &[2, 1], 4).answer, [2, 0, 1, 0]);
    assert_eq!(line_under(&d, &[1, 2], 4).answer, [0, 0, 0, 0]);
    assert_eq!(line_under(&d, &[1, 1], 4).answer, [0, 0, 0, 0]);
    assert_eq!(line_under(&d, &[2, 0], 4).answer, [0, 0, 0, 0]);
    let sheet = keep_sheet(&d, 4, ROOM);
    assert_eq!(sheet.lines, Some(vec![0, 0, 2, 1]));
    assert_eq!(
        sheet.answer,
        [3, 0, 0, 0, 0, 0, 1, 0, 1, 0, 0, 0, 0, 0, 1, 0]
    );
    assert_eq!(
        listing(&d),
        "line 0 0\nhold 0 0 0\nhold 1 2 1\ncheckpoint 0 0\ncheckpoint 1 0\ncheckpoint 1 1\nshare 75\n"
    );
}

/// All calls on the same bytes give the same refusal of the table.
fn refused_everywhere(bytes: &[u8], number: u32) {
    assert_eq!(check_table(bytes), number);
    let refused = Outcome::refused(number);
    assert_eq!(recovery_line(bytes, ROOM), refused);
    assert_eq!(line_of_set(bytes, u32::MAX, ROOM), refused);
    assert_eq!(lines_of_sets(bytes, &[u32::MAX; 257], 0, 0), refused);
    assert_eq!(lines_of_sets(bytes, &[], ROOM, ROOM), refused);
    assert_eq!(line_under(bytes, &[], 0), refused);
    assert_eq!(line_under(bytes, &[65535, 65535], ROOM), refused);
    assert_eq!(line_under(bytes, &[0, 0], ROOM), refused);
    assert_eq!(marked_line(bytes, &[65535, 65535], 0, 0), refused);
    assert_eq!(marked_line(bytes, &[0, 0], ROOM, ROOM), refused);
    assert_eq!(stand_together(bytes, &[99, 99], &[65535], 0), refused);
    assert_eq!(stand_together(bytes, &[], &[], ROOM), refused);
    assert_eq!(send(bytes, 99, 99, 0), refused);
    assert_eq!(save(bytes, 99, &[9, 9], 0), refused);
    assert_eq!(receive(bytes, 99, &[9, 9], 0), refused);
    assert_eq!(receive(bytes, 0, &[], ROOM), refused);
    assert_eq!(fall_back(bytes, 0), refused);
    assert_eq!(keep_sheet(bytes, 0, 0), refused);
    assert_eq!(listing(bytes), format!("refused {number}\n"));
}

#[test]
fn e() {
    refused_everywhere(&[2, 0, 5], 1);
    refused_everywhere(&[], 1);
    refused_everywhere(&[33, 0, 0, 0], 2);
    refused_everywhere(&[2, 0, 1, 16], 3);
    // 33 and 4,097 with the bytes that would go with them.
    let mut many = vec![33, 0, 0, 0];
    many.extend([1, 0].repeat(33));
    refused_everywhere(&many, 2);
    let mut long = vec![1, 0, 1, 16, 1, 0];
    long.extend(vec![0; 8 * 4097]);
    refused_everywhere(&long, 3);
}

#[test]
fn f() {
    let mut longer = A.to_vec();
    longer.push(0);
    refused_everywhere(&longer, 4);

    // "so case F takes receipt (0,4) there."
    let mut receipt = A;
    receipt[46] = 4; // the last receipt is (0, 4)
    refused_everywhere(&receipt, 9);

    let mut send = A;
    send[26] = 3; // the last send is (1, 3)
    refused_everywhere(&send, 8);
}

/// Example A after process 0 received message 4 and did not save yet: receipt
/// (0,3) in the last entry, which was case F before document 02, §4.
fn a_received() -> [u8; 48] {
    let mut received = A;
    received[46] = 3;
    received
}

#[test]
fn a_after_a_receipt() {
    let outcome = receive(&A, 0, &[4], 48);
    assert_eq!(outcome.number, 0);
    assert_eq!(outcome.answer, a_received());
    assert_eq!((outcome.lines, outcome.marks), (None, None));
    assert_eq!(receive(&A, 0, &[4], 47), Outcome::refused(16));
    // The list may have no entries; the table is then the same.
    assert_eq!(receive(&A, 0, &[], 48).answer, A);
    assert_eq!(receive(&A, 1, &[], 48).answer, A);
    assert_eq!(receive(&A, 1, &[4], 48), Outcome::refused(13));
    assert_eq!(receive(&A, 2, &[4], 48), Outcome::refused(10));
    // It waits no longer, so it cannot be listed a second time.
    assert_eq!(receive(&a_received(), 0, &[4], 48), Outcome::refused(13));
    assert_eq!(save(&a_received(), 0, &[4], 48), Outcome::refused(13));
}

/// With process 1 holding, at 2, message 4 was sent after the line: process 0
/// cannot stand at its new state, nor at 2, since message 3 was sent after 2
/// and received by 2 of process 1, and message 2 by 2 of process 0. So state 2
/// of process 1 is not kept any more, and message 4, sent from it, is not
/// either. The line of process 0 holding does not see the receipt.
#[test]
fn a_received_listing() {
    let text = "line 1 1
hold 0 1 1
hold 1 1 1
checkpoint 0 1
checkpoint 1 1
message 0
share 33
";
    assert_eq!(listing(&a_received()), text);
    let sheet = keep_sheet(&a_received(), 4, 14);
    assert_eq!(sheet.answer, [2, 0, 1, 0, 0, 0, 1, 0, 1, 0, 1, 0, 0, 0]);
    assert_eq!(sheet.lines, Some(vec![1, 1, 1, 1]));
    assert_eq!(line_of_set(&a_received(), 0, 4).answer, [3, 0, 3, 0]);
    // Saved with nothing else received, the receipt is that of state 3.
    let saved = save(&a_received(), 0, &[], 48).answer;
    assert_eq!(saved, save(&A, 0, &[4], 48).answer);
    // A fall back goes to 1 1 as before, and removes message 4.
    assert_eq!(fall_back(&a_received(), 24), fall_back(&A, 24));
}

/// The least table in which a receipt makes a difference to what is kept:
/// counts 1 1 and a message either way. While both wait, both are kept. While
/// both are unsaved, whoever holds puts the other back to 0, where neither was
/// sent before the line: neither is kept. While one is unsaved, it is kept: with
/// its receiver holding, its sender stands at its new state, behind the send.
#[test]
fn least_case() {
    let with = |r: u32, s: u32| table(&[1, 1], &[((0, 0), (1, r)), ((1, 0), (0, s))]);
    let states = [(0, 0), (1, 0)];
    let cases: [(u32, u32, [u16; 4], &[usize]); 4] = [
        (0, 0, [0, 1, 1, 0], &[0, 1]),
        (1, 1, [0, 0, 0, 0], &[]),
        (1, 0, [0, 0, 1, 0], &[0, 1]),
        (0, 1, [0, 1, 0, 0], &[0, 1]),
    ];
    for (r, s, lines, messages) in cases {
        let bytes = with(r, s);
        let outcome = keep_sheet(&bytes, 4, ROOM);
        assert_eq!(outcome.lines, Some(lines.to_vec()), "{r} {s}");
        let sheet = reference::sheet::kept(&Table::read(&bytes).unwrap());
        assert_eq!(sheet.states, states);
        assert_eq!(sheet.messages, messages, "{r} {s}");
        assert_eq!(outcome.answer, sheet.to_bytes());
        let needs = needed_by_futures(&Table::read(&bytes).unwrap(), 4);
        assert_eq!(Vec::from_iter(needs.0), states);
        assert_eq!(Vec::from_iter(needs.1), messages, "{r} {s}");
    }
    assert_eq!(
        listing(&with(1, 1)),
        "line 0 0\nhold 0 0 0\nhold 1 0 0\ncheckpoint 0 0\ncheckpoint 1 0\nshare 100\n"
    );
    assert_eq!(receive(&with(0, 0), 1, &[0], 24).answer, with(1, 0));
    assert_eq!(receive(&with(1, 0), 0, &[1], 24).answer, with(1, 1));
    // Neither send remains after a fall back to 0 0.
    assert_eq!(fall_back(&with(1, 1), 8).answer, table(&[1, 1], &[]));
}

/// Example A can be made with the steps alone, step by step on bytes.
#[test]
fn a_is_a_run() {
    let mut now = table(&[1, 1], &[]);
    let mut step = |outcome: fn(&[u8]) -> Outcome| {
        let outcome = outcome(&now);
        assert_eq!(outcome.number, 0);
        now = outcome.answer;
    };
    step(|t| send(t, 0, 1, ROOM)); // message 0, sent after (0, 0)
    step(|t| send(t, 1, 0, ROOM)); // message 1, sent after (1, 0)
    step(|t| save(t, 0, &[1], ROOM)); // state 1 of process 0
    step(|t| save(t, 1, &[], ROOM)); // state 1 of process 1
    step(|t| send(t, 1, 0, ROOM)); // message 2, sent after (1, 1)
    step(|t| save(t, 0, &[2], ROOM)); // state 2 of process 0
    step(|t| send(t, 0, 1, ROOM)); // message 3, sent after (0, 2)
    step(|t| save(t, 1, &[0, 3], ROOM)); // state 2 of process 1
    step(|t| send(t, 1, 0, ROOM)); // message 4, sent after (1, 2)
    assert_eq!(now, A);
}

/// The same run with receipts of their own: what was received before a save is
/// saved by it.
#[test]
fn a_is_a_run_that_receives() {
    let mut now = table(&[1, 1], &[]);
    let mut step = |outcome: fn(&[u8]) -> Outcome| {
        let outcome = outcome(&now);
        assert_eq!(outcome.number, 0);
        now = outcome.answer;
    };
    step(|t| send(t, 0, 1, ROOM)); // message 0, sent after (0, 0)
    step(|t| send(t, 1, 0, ROOM)); // message 1, sent after (1, 0)
    step(|t| receive(t, 0, &[1], ROOM));
    step(|t| save(t, 0, &[], ROOM)); // state 1 of process 0
    step(|t| save(t, 1, &[], ROOM)); // state 1 of process 1
    step(|t| receive(t, 1, &[0], ROOM)); // saved by state 2, further down
    step(|t| send(t, 1, 0, ROOM)); // message 2, sent after (1, 1)
    step(|t| receive(t, 0, &[], ROOM));
    step(|t| save(t, 0, &[2], ROOM)); // state 2 of process 0
    step(|t| send(t, 0, 1, ROOM)); // message 3, sent after (0, 2)
    step(|t| receive(t, 1, &[3], ROOM));
    step(|t| save(t, 1, &[], ROOM)); // state 2 of process 1, with messages 0 and 3
    step(|t| send(t, 1, 0, ROOM)); // message 4, sent after (1, 2)
    assert_eq!(now, A);
}

/// Lookups on whole, cut and damaged bytes.
#[test]
fn lookups_are_total() {
    assert_eq!(processes(&A), 2);
    assert_eq!(messages(&A), 5);
    assert_eq!((count(&A, 0), count(&A, 1), count(&A, 2)), (3, 3, 0));
    let entry = |k: usize| (sender(&A, k), sent(&A, k), receiver(&A, k), received(&A, k));
    assert_eq!(entry(0), (0, 0, 1, 2));
    assert_eq!(entry(3), (0, 2, 1, 2));
    assert_eq!(entry(4), (1, 2, 0, 0));
    assert_eq!(entry(5), (0, 0, 0, 0));
    assert_eq!(entry(usize::MAX), (0, 0, 0, 0));
    assert_eq!(count(&A, usize::MAX), 0);

    assert_eq!((processes(&[]), messages(&[])), (0, 0));
    assert_eq!(processes(&[7]), 7);
    assert_eq!(processes(&[7, 1]), 263);
    assert_eq!(messages(&[7, 1, 9]), 9);
    // A count that is cut in its middle, and one wholly past the end.
    assert_eq!(count(&[3, 0, 0, 0, 1, 1, 5], 1), 5);
    assert_eq!(count(&[3, 0, 0, 0, 1, 1, 5], 2), 0);
    // Far more processes and messages than bytes.
    let far = [255, 255, 255, 255, 1, 0];
    assert_eq!(count(&far, 0), 1);
    assert_eq!(count(&far, 65_534), 0);
    assert_eq!(count(&far, 65_535), 0);
    assert_eq!(received(&far, 65_534), 0);

    // Against the values of accepted tables.
    let mut rng = Rng::new(7);
    for _ in 0..200 {
        let n = rng.between(1, 32);
        let m = rng.between(0, 40);
        let table = reference::gen::arbitrary(&mut rng, n, m, 4096);
        let bytes = table.to_bytes();
        assert_eq!(usize::from(processes(&bytes)), table.counts.len());
        assert_eq!(usize::from(messages(&bytes)), table.messages.len());
        for (p, &c) in table.counts.iter().enumerate() {
            assert_eq!(u32::from(count(&bytes, p)), c);
        }
        for (k, message) in table.messages.iter().enumerate() {
            assert_eq!(usize::from(sender(&bytes, k)), message.sender);
            assert_eq!(u32::from(sent(&bytes, k)), message.sent);
            assert_eq!(usize::from(receiver(&bytes, k)), message.receiver);
            assert_eq!(u32::from(received(&bytes, k)), message.received);
        }
    }
}
