//! `corpus DIR` writes the corpus of the listing program into a folder: for
//! each entry a run table, `NAME.table`, and the text that the program is to
//! print for it, `NAME.listing`, from this implementation. The same files come
//! out every time.
//!
//! What a name promises is checked before anything is written: `refused_N_...`
//! is refused with N and nothing else is refused (the cases of the document and
//! what is accepted since document 02, §4, apart), `share_N_...` ends in that
//! share, `..._of_V_by_K_of_S` keeps K of S states, which is V percent, the lines
//! of `passes_...` take as many passes over the messages as it says, and the
//! document's own cases, the first ones with unsaved messages, those of zigzag
//! paths and those of channels have the texts that were worked out by hand from
//! the documents. `refused_23_NAME` is what NAME was before document 02, §7, where
//! that is out of turn.

use std::collections::BTreeSet;
use std::path::Path;
use std::process::ExitCode;

use reference::gen::{self, Order, Rng};
use reference::lines::{ceiling, hold_lines, line_by_enumeration, single_holder};
use reference::passes::{self, beside, lifted, passes_of_holders, passes_of_run, sends_fall};
use reference::steps::do_fall_back;
use reference::table::MOST_BYTES;
use reference::{listing, messages, processes, Message, Table};

// ---------------------------------------------------------------------------
// Ways to write a table.

/// One message: sender, send number, receiver, receipt number.
type Entry = [u16; 4];

/// Numbers, low byte first.
fn numbers(list: &[u16]) -> Vec<u8> {
    list.iter().flat_map(|n| n.to_le_bytes()).collect()
}

/// The bytes for these counts and messages, whether accepted or not.
fn written(counts: &[u16], messages: &[Entry]) -> Vec<u8> {
    let mut list = vec![counts.len() as u16, messages.len() as u16];
    list.extend(counts);
    for [sender, sent, ..] in messages {
        list.extend([sender, sent]);
    }
    for [.., receiver, received] in messages {
        list.extend([receiver, received]);
    }
    numbers(&list)
}

/// The bytes with the number at an index (0 is N, 1 is M) made another.
fn with_number(mut bytes: Vec<u8>, index: usize, number: u16) -> Vec<u8> {
    bytes[2 * index..2 * index + 2].copy_from_slice(&number.to_le_bytes());
    bytes
}

/// The bytes with more behind them, up to a length. The further bytes rise by
/// one, so none of them stands for an end.
fn lengthened(mut bytes: Vec<u8>, length: usize) -> Vec<u8> {
    assert!(bytes.len() < length);
    for at in bytes.len()..length {
        bytes.push(at as u8);
    }
    bytes
}

/// The front of the bytes.
fn cut(bytes: &[u8], length: usize) -> Vec<u8> {
    bytes[..length].to_vec()
}

// ---------------------------------------------------------------------------
// The document's own cases, with what each is to print. These texts come from
// the document and from working by hand, not from the code.

const A_COUNTS: [u16; 2] = [3, 3];
const A_MESSAGES: [Entry; 5] = [
    [0, 0, 1, 2],
    [1, 0, 0, 1],
    [1, 1, 0, 2],
    [0, 2, 1, 2],
    [1, 2, 0, 0],
];

fn a() -> Vec<u8> {
    written(&A_COUNTS, &A_MESSAGES)
}

/// A with another last message.
fn a_with_last(last: Entry) -> Vec<u8> {
    let mut messages = A_MESSAGES;
    messages[4] = last;
    written(&A_COUNTS, &messages)
}

fn a_after_fall_back() -> Vec<u8> {
    let bytes = written(&[2, 2], &[[0, 0, 1, 0], [1, 0, 0, 1]]);
    let mut table = Table::read(&a()).expect("A is accepted");
    do_fall_back(&mut table);
    assert_eq!(table.to_bytes(), bytes, "A3 of the document");
    bytes
}

const A_TEXT: &str = "line 1 1
hold 0 1 1
hold 1 3 2
checkpoint 0 1
checkpoint 1 1
checkpoint 1 2
message 0
message 4
share 50
";

const A3_TEXT: &str = "line 1 1
hold 0 1 2
hold 1 2 1
checkpoint 0 1
checkpoint 1 1
message 0
share 50
";

const B_TEXT: &str = "line 0
hold 0 0
checkpoint 0 0
share 100
";

const C_TEXT: &str = "line 0 3
hold 0 0 4
hold 1 1 3
checkpoint 0 0
checkpoint 1 3
share 40
";

const D_TEXT: &str = "line 0 0
hold 0 0 0
hold 1 2 1
checkpoint 0 0
checkpoint 1 0
checkpoint 1 1
share 75
";

/// A after process 0 received message 4 and did not save yet.
const A_RECEIVED_TEXT: &str = "line 1 1
hold 0 1 1
hold 1 1 1
checkpoint 0 1
checkpoint 1 1
message 0
share 33
";

/// Name, table and text of the document's examples and marked cases. Document
/// 02, §4: "Check 9 refuses only numbers above the count, so case F takes
/// receipt (0,4) there." With (0,3) it was refused before.
fn of_the_document() -> Vec<(&'static str, Vec<u8>, &'static str)> {
    vec![
        ("example_a", a(), A_TEXT),
        ("case_a3_a_after_fall_back", a_after_fall_back(), A3_TEXT),
        ("case_b", written(&[1], &[]), B_TEXT),
        ("case_c", written(&[1, 4], &[]), C_TEXT),
        (
            "case_d",
            written(&[2, 2], &[[0, 1, 1, 1], [1, 0, 0, 1]]),
            D_TEXT,
        ),
        ("case_e_3_bytes", cut(&a(), 3), "refused 1\n"),
        ("case_e_33_processes", written(&[1; 33], &[]), "refused 2\n"),
        (
            "case_e_4097_messages",
            with_number(a(), 1, 4_097),
            "refused 3\n",
        ),
        ("case_f_one_byte_more", lengthened(a(), 49), "refused 4\n"),
        (
            "case_f_receipt_0_3",
            a_with_last([1, 2, 0, 3]),
            A_RECEIVED_TEXT,
        ),
        (
            "case_f_receipt_0_4",
            a_with_last([1, 2, 0, 4]),
            "refused 9\n",
        ),
        ("case_f_send_1_3", a_with_last([1, 3, 0, 0]), "refused 8\n"),
    ]
}

// ---------------------------------------------------------------------------
// Messages that are received and not saved yet, with what each table is to
// print, by hand.

const EITHER_WAY_TEXT: &str = "line 0 0
hold 0 0 0
hold 1 0 0
checkpoint 0 0
checkpoint 1 0
share 100
";

const EITHER_WAY_WAITING_TEXT: &str = "line 0 0
hold 0 0 1
hold 1 1 0
checkpoint 0 0
checkpoint 1 0
message 0
message 1
share 100
";

const ONE_OF_TWO_TEXT: &str = "line 0 0
hold 0 0 0
hold 1 1 0
checkpoint 0 0
checkpoint 1 0
message 0
message 1
share 100
";

const ALONE_TEXT: &str = "line 0 0
hold 0 0 0
hold 1 1 0
checkpoint 0 0
checkpoint 1 0
message 0
share 100
";

const EARLIER_SEND_TEXT: &str = "line 1 1
hold 0 1 2
hold 1 2 1
checkpoint 0 1
checkpoint 1 1
message 0
share 50
";

const CHAIN_TEXT: &str = "line 1 1 1
hold 0 1 1 1
hold 1 2 1 1
hold 2 2 2 1
checkpoint 0 1
checkpoint 1 1
checkpoint 2 1
message 0
message 1
share 50
";

const BESIDE_SAVED_TEXT: &str = "line 2 1 1
hold 0 2 1 1
hold 1 3 1 1
hold 2 3 3 2
checkpoint 0 2
checkpoint 1 1
checkpoint 2 1
checkpoint 2 2
message 0
message 2
message 4
share 44
";

const BEYOND_A_DOMINO_TEXT: &str = "line 0 0 1
hold 0 0 0 2
hold 1 2 1 2
hold 2 2 2 1
checkpoint 0 0
checkpoint 1 0
checkpoint 1 1
checkpoint 2 1
message 2
share 67
";

const ACROSS_NO_LINE_TEXT: &str = "line 1 1
hold 0 1 1
hold 1 1 1
checkpoint 0 1
checkpoint 1 1
share 50
";

/// Name, table and text.
fn of_unsaved() -> Vec<(&'static str, Vec<u8>, &'static str)> {
    vec![
        // Whoever holds puts the other back to 0, from where it sent: not kept.
        (
            "unsaved_either_way",
            written(&[1, 1], &[[0, 0, 1, 1], [1, 0, 0, 1]]),
            EITHER_WAY_TEXT,
        ),
        // The same run with its receipts written as waiting, as they were before.
        (
            "unsaved_either_way_as_waiting",
            written(&[1, 1], &[[0, 0, 1, 0], [1, 0, 0, 0]]),
            EITHER_WAY_WAITING_TEXT,
        ),
        (
            "unsaved_one_of_two",
            written(&[1, 1], &[[0, 0, 1, 1], [1, 0, 0, 0]]),
            ONE_OF_TWO_TEXT,
        ),
        (
            "unsaved_alone",
            written(&[1, 1], &[[0, 0, 1, 1]]),
            ALONE_TEXT,
        ),
        // Sent before the last state of its sender: no line moves.
        (
            "unsaved_and_sent_earlier",
            written(&[2, 2], &[[0, 0, 1, 2]]),
            EARLIER_SEND_TEXT,
        ),
        // One new state puts the next one back.
        (
            "unsaved_in_a_chain",
            written(&[2, 2, 2], &[[0, 1, 1, 2], [1, 1, 2, 2]]),
            CHAIN_TEXT,
        ),
        // Positions 0 and 2 are unsaved and kept across two different lines, 1
        // and 3 are received and saved, 4 waits.
        (
            "unsaved_beside_saved_and_waiting",
            written(
                &[3, 3, 3],
                &[
                    [0, 2, 1, 3],
                    [1, 2, 2, 2],
                    [2, 0, 0, 3],
                    [2, 1, 1, 2],
                    [1, 1, 0, 0],
                ],
            ),
            BESIDE_SAVED_TEXT,
        ),
        // Processes 0 and 1 put each other back to 0; what 1 received from 2 was
        // sent before every line at which 2 stands.
        (
            "unsaved_beyond_a_domino",
            written(&[2, 2, 2], &[[0, 1, 1, 1], [1, 0, 0, 1], [2, 0, 1, 2]]),
            BEYOND_A_DOMINO_TEXT,
        ),
        // Both were sent from the states at which the lines stand.
        (
            "unsaved_across_no_line",
            written(&[2, 2], &[[1, 1, 0, 2], [0, 0, 1, 1], [0, 1, 1, 2]]),
            ACROSS_NO_LINE_TEXT,
        ),
    ]
}

// ---------------------------------------------------------------------------
// Zigzag paths and cycles, with what each table is to print, by hand.

const FIGURE_1_TEXT: &str = "line 0 0 0
hold 0 0 0 0
hold 1 0 0 0
hold 2 0 0 0
checkpoint 0 0
checkpoint 1 0
checkpoint 2 0
share 50
";

const PATH_IN_ONE_INTERVAL_TEXT: &str = "line 1 1 1
hold 0 1 1 1
hold 1 2 2 3
hold 2 2 3 2
checkpoint 0 1
checkpoint 1 1
checkpoint 1 2
checkpoint 2 1
checkpoint 2 2
share 62
";

const CYCLE_OF_THREE_TEXT: &str = "line 0 0 0
hold 0 1 2 2
hold 1 2 1 2
hold 2 0 0 0
checkpoint 0 0
checkpoint 0 1
checkpoint 1 0
checkpoint 1 1
checkpoint 2 0
share 83
";

/// Name, table and text.
fn of_zigzag() -> Vec<(&'static str, Vec<u8>, &'static str)> {
    vec![
        // A run with the facts that source document 003 tells of its Figure 1,
        // m1 to m5 at positions 0 to 4: with any holder all go back to the start.
        (
            "zigzag_figure_1",
            written(
                &[2, 2, 2],
                &[
                    [0, 0, 1, 1],
                    [1, 0, 2, 1],
                    [2, 1, 0, 1],
                    [0, 1, 1, 1],
                    [1, 1, 0, 2],
                ],
            ),
            FIGURE_1_TEXT,
        ),
        // Process 1 sent the second message in the interval in which it received
        // the first: with 0 holding, both receivers go back.
        (
            "zigzag_path_in_one_interval",
            written(&[2, 3, 3], &[[0, 1, 1, 2], [1, 1, 2, 2]]),
            PATH_IN_ONE_INTERVAL_TEXT,
        ),
        // State 1 of process 2 is on a cycle of all three messages, and not kept,
        // while the last states of the others are.
        (
            "zigzag_cycle_of_three",
            written(&[2, 2, 2], &[[0, 0, 1, 1], [1, 0, 2, 1], [2, 1, 0, 1]]),
            CYCLE_OF_THREE_TEXT,
        ),
    ]
}

// ---------------------------------------------------------------------------
// Channels, with what each table is to print, by hand.

const RECEIVED_THEN_WAITING_TEXT: &str = "line 1 1
hold 0 1 2
hold 1 2 1
checkpoint 0 1
checkpoint 1 1
message 1
share 50
";

const SAVED_UNSAVED_WAITING_TEXT: &str = "line 1 1
hold 0 1 1
hold 1 2 1
checkpoint 0 1
checkpoint 1 1
message 1
message 2
message 3
share 50
";

const EQUAL_NUMBERS_TEXT: &str = "line 2 2
hold 0 2 3
hold 1 3 2
checkpoint 0 2
checkpoint 1 2
share 33
";

const THREE_CHANNELS_TEXT: &str = "line 1 0 1
hold 0 1 0 2
hold 1 2 1 2
hold 2 2 2 1
checkpoint 0 1
checkpoint 1 0
checkpoint 1 1
checkpoint 2 1
message 0
message 1
message 2
message 4
share 67
";

/// Name, table and text.
fn of_channels() -> Vec<(&'static str, Vec<u8>, &'static str)> {
    vec![
        // The first is before every line, the second waits.
        (
            "channel_received_then_waiting",
            written(&[2, 2], &[[0, 0, 1, 1], [0, 1, 1, 0]]),
            RECEIVED_THEN_WAITING_TEXT,
        ),
        // One of each kind, and two that are unsaved: the first of these was sent
        // before both hold lines, the second before that of process 1.
        (
            "channel_saved_unsaved_and_waiting",
            written(
                &[2, 2],
                &[[0, 0, 1, 1], [0, 0, 1, 2], [0, 1, 1, 2], [0, 1, 1, 0]],
            ),
            SAVED_UNSAVED_WAITING_TEXT,
        ),
        // Both numbers are equal, and no line is between.
        (
            "channel_of_equal_numbers",
            written(&[3, 3], &[[0, 1, 1, 2], [0, 1, 1, 2]]),
            EQUAL_NUMBERS_TEXT,
        ),
        // Three channels to process 1 and from it, each in turn and none with the
        // others. State 1 of process 1 has received 3, which was sent after state 1
        // of process 0: with that one holding 1 stands at 0, and 0 waits there
        // again, as 2 does.
        (
            "channel_between_other_channels",
            written(
                &[2, 2, 2],
                &[
                    [0, 0, 1, 1],
                    [1, 1, 2, 0],
                    [2, 0, 1, 1],
                    [0, 1, 1, 1],
                    [2, 1, 1, 0],
                ],
            ),
            THREE_CHANNELS_TEXT,
        ),
    ]
}

// ---------------------------------------------------------------------------
// Refusals, and the accepted side of each boundary.

/// An entry: its name and its table.
type Named = (String, Vec<u8>);

fn add(list: &mut Vec<Named>, name: &str, bytes: Vec<u8>) {
    list.push((name.to_string(), bytes));
}

/// Checks 1 to 4: the sizes and the length.
fn sizes(list: &mut Vec<Named>) {
    add(list, "refused_1_no_bytes", Vec::new());
    add(list, "refused_1_one_byte", vec![2]);
    add(list, "refused_1_two_bytes", vec![2, 0]);
    add(list, "refused_1_three_bytes_n_33", vec![33, 0, 0]);

    add(list, "refused_2_four_zeros", vec![0; 4]);
    add(list, "refused_2_n_0_with_a_message", {
        written(&[], &[[0, 0, 1, 0]])
    });
    add(list, "refused_2_four_bytes_n_33", numbers(&[33, 0]));
    add(list, "refused_2_n_258", with_number(a(), 0, 258));
    add(list, "refused_2_n_32770", with_number(a(), 0, 32_770));
    add(list, "refused_2_n_65535", with_number(a(), 0, 65_535));
    add(list, "accepted_n_1", written(&[3], &[]));
    add(list, "accepted_n_32", written(&[1; 32], &[]));

    add(list, "refused_3_four_bytes_m_4097", numbers(&[32, 4_097]));
    // 4 + 2 x 28 + 8 x 4,097 = 32,836: the length is that of the largest table.
    let many = vec![[27, 0, 26, 0]; 4_097];
    add(list, "refused_3_m_4097_whole", written(&[1; 28], &many));
    add(list, "refused_3_m_8192_without_messages", {
        with_number(written(&[1, 1], &[]), 1, 8_192)
    });
    add(list, "refused_3_m_8197", with_number(a(), 1, 8_197));
    add(list, "refused_3_m_65535", with_number(a(), 1, 65_535));

    add(list, "refused_4_four_bytes_n_1", numbers(&[1, 0]));
    add(list, "refused_4_four_bytes_m_4096", numbers(&[32, 4_096]));
    add(list, "refused_4_one_byte_less", cut(&a(), 47));
    add(list, "refused_4_no_messages_one_byte_less", {
        cut(&written(&[1, 1], &[]), 7)
    });
    add(list, "refused_4_no_messages_one_byte_more", {
        lengthened(written(&[1, 1], &[]), 9)
    });
    add(list, "refused_4_without_receipts", cut(&a(), 28));
    add(list, "refused_4_one_message_more", lengthened(a(), 56));
    add(list, "refused_4_m_one_less", with_number(a(), 1, 4));
    add(list, "refused_4_small_then_many_bytes", {
        lengthened(a(), 40_000)
    });
}

/// Check 5: the counts.
fn counts(list: &mut Vec<Named>) {
    add(list, "refused_5_count_0", written(&[0], &[]));
    add(list, "refused_5_count_4097", written(&[4_097], &[]));
    add(list, "refused_5_count_65535", written(&[65_535], &[]));
    add(list, "refused_5_first_count_0", {
        written(&[0, 3, 3], &[[1, 0, 2, 1]])
    });
    add(list, "refused_5_last_count_4097", {
        let mut counts = [4_096; 32];
        counts[31] = 4_097;
        written(&counts, &[])
    });
    add(list, "accepted_counts_1", {
        written(&[1, 1, 1], &[[0, 0, 1, 0], [1, 0, 2, 0], [2, 0, 0, 0]])
    });
    add(list, "accepted_count_4096", written(&[4_096], &[]));
    add(list, "accepted_counts_4096_and_1", {
        written(&[4_096, 1], &[[0, 4_095, 1, 0], [1, 0, 0, 4_095]])
    });
}

/// Checks 6 to 9: the messages.
fn entries(list: &mut Vec<Named>) {
    let with = |message: Entry| written(&[3, 2, 4], &[message]);
    add(list, "accepted_sender_n_minus_1", with([2, 0, 0, 1]));
    add(list, "accepted_receiver_n_minus_1", with([0, 0, 2, 1]));
    add(list, "refused_6_sender_n", with([3, 0, 0, 1]));
    add(list, "refused_6_receiver_n", with([0, 0, 3, 1]));
    add(list, "refused_6_sender_256", with([256, 0, 1, 1]));
    add(list, "refused_6_receiver_65535", with([0, 0, 65_535, 0]));
    add(
        list,
        "refused_6_one_process",
        written(&[5], &[[0, 0, 1, 0]]),
    );
    add(list, "refused_6_last_receiver", a_with_last([1, 2, 2, 0]));

    add(list, "refused_7_received", with([2, 0, 2, 1]));
    add(list, "refused_7_waiting", with([0, 0, 0, 0]));
    add(
        list,
        "refused_7_one_process",
        written(&[5], &[[0, 0, 0, 0]]),
    );
    add(list, "refused_7_last", a_with_last([1, 2, 1, 0]));

    // The counts are 3, 2 and 4.
    add(list, "accepted_send_count_minus_1", with([1, 1, 2, 0]));
    add(list, "refused_8_send_count", with([1, 2, 2, 0]));
    add(list, "refused_8_send_below_the_receivers_count", {
        with([1, 3, 2, 1])
    });
    add(list, "refused_8_send_65535", with([2, 65_535, 0, 0]));
    add(list, "refused_8_send_256", with([2, 256, 0, 0]));
    add(list, "refused_8_first", {
        written(&[3, 3], &[[0, 3, 1, 2], [1, 0, 0, 1]])
    });
    add(list, "accepted_receipt_count_minus_1", with([2, 0, 1, 1]));
    add(list, "accepted_receipt_count", with([2, 0, 1, 2]));
    add(list, "refused_9_receipt_below_the_senders_count", {
        with([2, 3, 1, 3])
    });
    add(list, "refused_9_receipt_65535", with([1, 0, 2, 65_535]));
    add(list, "refused_9_receipt_256", with([1, 0, 2, 256]));
    add(list, "accepted_receipt_count_first", {
        written(&[3, 3], &[[0, 2, 1, 3], [1, 0, 0, 1]])
    });
    add(list, "refused_9_receipt_count_plus_1", with([2, 0, 1, 3]));
    add(list, "refused_9_first_count_plus_1", {
        written(&[3, 3], &[[0, 2, 1, 4], [1, 0, 0, 1]])
    });
    add(list, "refused_9_last_count_plus_1", {
        written(&[3, 3], &[[0, 2, 1, 3], [1, 0, 0, 4]])
    });
    // Above the sender's count and not the receiver's, and the other way round.
    add(list, "accepted_receipt_count_above_the_senders", {
        with([1, 0, 2, 4])
    });
    add(list, "refused_9_receipt_4_below_the_senders_count", {
        written(&[3, 9], &[[1, 8, 0, 4]])
    });
    add(list, "accepted_receipt_1_of_count_1", {
        written(&[4_096, 1], &[[0, 4_095, 1, 1]])
    });
    add(list, "refused_9_receipt_2_of_count_1", {
        written(&[4_096, 1], &[[0, 4_095, 1, 2]])
    });
    add(list, "accepted_receipt_4096_of_count_4096", {
        written(&[4_096, 1], &[[1, 0, 0, 4_096]])
    });
    add(list, "refused_9_receipt_4097_of_count_4096", {
        written(&[4_096, 1], &[[1, 0, 0, 4_097]])
    });
    // The low byte alone would not be above the count.
    add(
        list,
        "refused_9_receipt_259_of_count_4",
        with([1, 0, 2, 259]),
    );
}

/// Tables that two checks or more would catch: the earlier one answers, even
/// where the later one's fault stands further to the front.
fn order_of_checks(list: &mut Vec<Named>) {
    add(list, "refused_2_order_2_3_4", {
        with_number(with_number(a(), 0, 33), 1, 4_097)
    });
    add(
        list,
        "refused_2_order_2_4",
        with_number(cut(&a(), 40), 0, 0),
    );
    add(list, "refused_3_order_3_4_5", {
        with_number(written(&[0, 4_097], &A_MESSAGES), 1, 4_097)
    });
    add(list, "refused_4_order_4_5", {
        lengthened(written(&[0, 3], &A_MESSAGES), 49)
    });
    add(list, "refused_4_order_4_to_9", {
        let messages = [[0, 0, 1, 9], [0, 9, 1, 0], [0, 0, 0, 0], [2, 0, 0, 0]];
        cut(&written(&[3, 0], &messages), 39)
    });
    add(list, "refused_5_order_5_8_9", {
        written(&[3, 0], &[[0, 3, 1, 0], [1, 0, 0, 3]])
    });
    add(list, "refused_5_order_5_6_7", {
        written(&[3, 3, 4_097], &[[3, 0, 0, 0], [1, 0, 1, 0]])
    });
    add(list, "refused_6_order_6_7", {
        written(&[3, 3], &[[0, 0, 0, 0], [1, 0, 2, 0]])
    });
    add(list, "refused_6_order_6_and_7_in_one", {
        written(&[3, 3], &[[2, 0, 2, 0]])
    });
    add(list, "refused_6_order_9_8_7_6", {
        let messages = [[0, 0, 1, 3], [0, 3, 1, 0], [1, 0, 1, 0], [2, 0, 0, 0]];
        written(&[3, 3], &messages)
    });
    add(list, "refused_7_order_9_8_7", {
        written(&[3, 3], &[[0, 0, 1, 3], [0, 3, 1, 0], [1, 0, 1, 0]])
    });
    add(list, "refused_7_order_7_8_9_in_one", {
        written(&[3, 3], &[[1, 3, 1, 3]])
    });
    add(list, "refused_8_order_9_8", {
        written(&[3, 3], &[[0, 0, 1, 3], [0, 3, 1, 0]])
    });
    add(list, "refused_8_order_8_and_9_in_one", {
        written(&[3, 3], &[[0, 3, 1, 3]])
    });
    // The same with one above the count, which is what 9 refuses now.
    add(list, "refused_5_order_5_8_9_count_plus_1", {
        written(&[3, 0], &[[0, 3, 1, 0], [1, 0, 0, 4]])
    });
    add(list, "refused_6_order_9_8_7_6_count_plus_1", {
        let messages = [[0, 0, 1, 4], [0, 3, 1, 0], [1, 0, 1, 0], [2, 0, 0, 0]];
        written(&[3, 3], &messages)
    });
    add(list, "refused_7_order_9_8_7_count_plus_1", {
        written(&[3, 3], &[[0, 0, 1, 4], [0, 3, 1, 0], [1, 0, 1, 0]])
    });
    add(list, "refused_7_order_7_8_9_in_one_count_plus_1", {
        written(&[3, 3], &[[1, 3, 1, 4]])
    });
    add(list, "refused_8_order_9_8_count_plus_1", {
        written(&[3, 3], &[[0, 0, 1, 4], [0, 3, 1, 0]])
    });
    add(list, "refused_8_order_8_and_9_in_one_count_plus_1", {
        written(&[3, 3], &[[0, 3, 1, 4]])
    });
}

/// Check 23: two messages of one channel, out of turn and in turn.
fn channels(list: &mut Vec<Named>) {
    let two = |first: [u16; 2], second: [u16; 2]| {
        let entry = |[sent, received]: [u16; 2]| [0, sent, 1, received];
        written(&[3, 3], &[entry(first), entry(second)])
    };
    // The later one's send number is smaller.
    add(list, "refused_23_sent_earlier", two([1, 1], [0, 1]));
    add(
        list,
        "refused_23_sent_earlier_both_waiting",
        two([2, 0], [1, 0]),
    );
    add(
        list,
        "refused_23_sent_earlier_received_and_waiting",
        two([2, 1], [0, 0]),
    );
    add(
        list,
        "refused_23_sent_earlier_received_later",
        two([1, 1], [0, 2]),
    );
    // It is received while the earlier one waits.
    add(
        list,
        "refused_23_received_while_the_earlier_waits",
        two([0, 0], [0, 1]),
    );
    add(
        list,
        "refused_23_sent_later_received_while_the_earlier_waits",
        two([0, 0], [2, 2]),
    );
    add(
        list,
        "refused_23_unsaved_while_the_earlier_waits",
        two([0, 0], [1, 3]),
    );
    add(
        list,
        "refused_23_counts_1_unsaved_while_the_earlier_waits",
        written(&[1, 1], &[[1, 0, 0, 0], [1, 0, 0, 1]]),
    );
    // Its receipt number is smaller.
    add(list, "refused_23_received_earlier", two([0, 2], [0, 1]));
    add(
        list,
        "refused_23_sent_later_received_earlier",
        two([0, 2], [2, 1]),
    );
    add(list, "refused_23_saved_after_unsaved", two([0, 3], [1, 2]));
    // In all three ways at once there are three messages.
    add(list, "refused_23_three_faults", {
        written(&[3, 3], &[[0, 2, 1, 2], [0, 1, 1, 0], [0, 0, 1, 1]])
    });

    // Equal numbers, and all that rises.
    add(list, "accepted_channel_equal_sends", two([1, 1], [1, 2]));
    add(list, "accepted_channel_equal_receipts", two([0, 2], [1, 2]));
    add(list, "accepted_channel_both_rise", two([0, 1], [2, 2]));
    add(list, "accepted_channel_all_waiting", two([0, 0], [2, 0]));
    add(
        list,
        "accepted_channel_received_then_waiting_of_equal_sends",
        two([1, 2], [1, 0]),
    );
    add(
        list,
        "accepted_channel_unsaved_then_waiting",
        two([0, 3], [0, 0]),
    );
    add(
        list,
        "accepted_channel_saved_then_unsaved",
        two([0, 2], [0, 3]),
    );
    add(list, "accepted_channel_both_unsaved", two([0, 3], [1, 3]));

    // Not neighbours: others stand between, of the other direction, with the same
    // receiver and with the same sender.
    let between = |first: Entry, last: Entry| {
        let others = [[1, 0, 0, 1], [2, 0, 1, 2], [0, 0, 2, 1], [2, 2, 1, 2]];
        let all: Vec<Entry> = [&[first][..], &others, &[last]].concat();
        written(&[3, 3, 3], &all)
    };
    add(list, "refused_23_others_between_sent_earlier", {
        between([0, 2, 1, 1], [0, 1, 1, 1])
    });
    add(
        list,
        "refused_23_others_between_received_while_the_earlier_waits",
        between([0, 0, 1, 0], [0, 1, 1, 1]),
    );
    add(
        list,
        "refused_23_others_between_unsaved_while_the_earlier_waits",
        between([0, 0, 1, 0], [0, 1, 1, 3]),
    );
    add(list, "refused_23_others_between_received_earlier", {
        between([0, 0, 1, 2], [0, 1, 1, 1])
    });
    add(list, "accepted_others_between", {
        between([0, 0, 1, 1], [0, 1, 1, 1])
    });
    // Of a channel of four the last two, and the first two.
    let four = |receipts: [u16; 4]| written(&[3, 5], &receipts.map(|r| [0, 1, 1, r]));
    add(list, "refused_23_last_two_of_four", four([1, 2, 4, 3]));
    add(list, "refused_23_first_two_of_four", four([2, 1, 3, 4]));
    add(list, "refused_23_first_of_four_waits", four([0, 1, 2, 3]));
    add(list, "refused_23_third_of_four_waits", four([1, 2, 0, 3]));
    add(list, "accepted_four_that_rise", four([1, 2, 3, 4]));
    add(list, "accepted_four_of_which_two_wait", four([1, 4, 0, 0]));

    // What would be out of turn in one channel is not in two.
    add(list, "accepted_other_direction_out_of_turn", {
        written(&[3, 3], &[[0, 2, 1, 2], [1, 0, 0, 1]])
    });
    add(list, "accepted_other_direction_received_while_one_waits", {
        written(&[3, 3], &[[0, 0, 1, 0], [1, 0, 0, 1]])
    });
    add(list, "accepted_other_sender_out_of_turn", {
        written(&[3, 3, 3], &[[0, 2, 1, 2], [2, 0, 1, 1]])
    });
    add(list, "accepted_other_sender_unsaved_while_one_waits", {
        written(&[3, 3, 3], &[[0, 0, 1, 0], [2, 0, 1, 3]])
    });
    add(list, "accepted_other_receiver_out_of_turn", {
        written(&[3, 3, 3], &[[0, 2, 1, 2], [0, 0, 2, 1]])
    });

    // Both bytes of the numbers: the low byte alone would rise, and fall.
    let large = |first: [u16; 2], second: [u16; 2]| {
        let entry = |[sent, received]: [u16; 2]| [31, sent, 0, received];
        written(&[4_096; 32], &[entry(first), entry(second)])
    };
    add(
        list,
        "refused_23_sent_256_then_1",
        large([256, 300], [1, 300]),
    );
    add(
        list,
        "refused_23_sent_256_then_255",
        large([256, 0], [255, 0]),
    );
    add(
        list,
        "refused_23_received_512_then_257",
        large([9, 512], [9, 257]),
    );
    add(
        list,
        "refused_23_received_4096_then_4095",
        large([4_095, 4_096], [4_095, 4_095]),
    );
    add(
        list,
        "accepted_channel_255_then_256",
        large([255, 255], [256, 256]),
    );
    add(
        list,
        "accepted_channel_4095_then_4096",
        large([4_095, 4_095], [4_095, 4_096]),
    );

    // Full tables of two channels in turns: one is out of turn, the first that can
    // be, and the last.
    let full: Vec<Entry> = (0..4_096u16)
        .map(|k| [k % 2, k / 2, 1 - k % 2, k / 2 + 1])
        .collect();
    add(list, "accepted_4096_messages_of_two_channels", {
        written(&[2_048, 2_048], &full)
    });
    for (name, k) in [("third", 2), ("last", 4_095)] {
        let mut sent = full.clone();
        sent[k - 2][1] = sent[k][1];
        sent[k][1] -= 1;
        let mut received = full.clone();
        received[k - 2][3] = 0;
        for (way, messages) in [("sent_earlier", sent), ("received_first", received)] {
            let name = format!("refused_23_{name}_of_4096_{way}");
            add(list, &name, written(&[2_048, 2_048], &messages));
        }
    }

    // The checks before it, each with its fault behind two that are out of turn.
    let behind =
        |counts: [u16; 2], last: Entry| written(&counts, &[[0, 1, 1, 1], [0, 0, 1, 1], last]);
    add(list, "refused_9_order_23_9", behind([3, 3], [1, 0, 0, 4]));
    add(list, "refused_8_order_23_8", behind([3, 3], [1, 3, 0, 0]));
    add(list, "refused_7_order_23_7", behind([3, 3], [1, 0, 1, 0]));
    add(list, "refused_6_order_23_6", behind([3, 3], [1, 0, 2, 0]));
    add(
        list,
        "refused_5_order_5_23",
        behind([3, 4_097], [1, 0, 0, 0]),
    );
    add(list, "refused_4_order_4_23", {
        lengthened(behind([3, 3], [1, 0, 0, 0]), 33)
    });
    add(list, "refused_23_order_23_alone", {
        behind([3, 3], [1, 0, 0, 0])
    });
    // In the two messages themselves.
    add(list, "refused_9_order_9_and_23_in_one", two([0, 4], [0, 1]));
    add(
        list,
        "refused_9_order_9_while_the_earlier_waits",
        two([0, 0], [0, 4]),
    );
    add(list, "refused_8_order_8_and_23_in_one", two([3, 1], [0, 1]));
    add(list, "refused_8_order_8_9_23", two([3, 4], [0, 1]));
}

// ---------------------------------------------------------------------------
// Tables that were accepted before document 02, §7, and are out of turn. Each has
// a table that is in turn and makes its point, under the name without the refusal
// or, for orders of dominoes, under that of another order.

/// Adds a table that 23 refuses, under the name that it had.
fn was(list: &mut Vec<Named>, name: &str, bytes: Vec<u8>) {
    add(list, &format!("refused_23_{name}"), bytes);
}

fn out_of_turn(list: &mut Vec<Named>) {
    was(list, "sent_at_the_line_itself", {
        let messages = [[0, 2, 1, 2], [0, 2, 1, 3], [0, 1, 1, 3], [0, 1, 1, 1]];
        written(&[3, 4], &messages)
    });
    was(list, "the_same_entry_twice", {
        let twice = [A_MESSAGES, A_MESSAGES].concat();
        written(&A_COUNTS, &twice)
    });
    was(list, "received_before_sent", {
        written(&[9, 9], &[[0, 8, 1, 1], [1, 3, 0, 2], [0, 0, 1, 8]])
    });
    was(list, "unsaved_across_no_line", {
        written(&[2, 2], &[[1, 1, 0, 2], [0, 1, 1, 2], [0, 0, 1, 1]])
    });
    was(list, "share_12_of_12_5_by_2_of_16_with_messages", {
        let messages = [[0, 8, 1, 4], [1, 6, 0, 5], [0, 3, 1, 4], [1, 3, 0, 0]];
        written(&[9, 7], &messages)
    });
    let mut messages = vec![A_MESSAGES[1]; 1_003];
    messages[500] = A_MESSAGES[2];
    messages[501] = A_MESSAGES[3];
    for (turn, position) in DIGITS_OF_POSITIONS.into_iter().enumerate() {
        messages[position] = A_MESSAGES[if turn % 2 == 0 { 0 } else { 4 }];
    }
    was(list, "digits_of_positions", written(&A_COUNTS, &messages));
    was(list, "digits_of_sends_and_receipts", {
        let messages = [
            [0, 300, 1, 1_000],
            [1, 999, 0, 257],
            [0, 256, 1, 512],
            [0, 255, 1, 512],
            [0, 255, 1, 511],
            [1, 511, 0, 257],
            [1, 510, 0, 257],
            [1, 510, 0, 256],
        ];
        written(&[301, 1_002], &messages)
    });
    let by_seed = |kind: &str, seed: u64, n: usize, m: usize| {
        let name = format!("any-order-{kind}");
        let bytes = gen::by_name(&name, seed, n, m).or_else(|| gen::by_name(kind, seed, n, m));
        bytes.expect("a kind and a size")
    };
    for (kind, seed, n, m) in OUT_OF_TURN {
        let name = format!("{}_{n}_processes_{m}_messages", kind.replace('-', "_"));
        was(list, &name, by_seed(kind, seed, n, m));
    }
    was(list, "largest_history", by_seed("history", 23, 32, 4_096));
    was(list, "largest_history_unsaved", {
        by_seed("history-unsaved", 21, 32, 4_096)
    });
    was(
        list,
        "largest_long_listing",
        long_listing(&|_, drawn| drawn),
    );
}

/// Kind, seed, processes and messages of the generated ones, as they were.
const OUT_OF_TURN: [(&str, u64, usize, usize); 27] = [
    ("history", 2, 2, 30),
    ("history", 4, 5, 40),
    ("history", 4, 8, 60),
    ("history", 8, 12, 70),
    ("history", 108, 32, 120),
    ("arbitrary", 13, 2, 4),
    ("arbitrary", 8, 3, 6),
    ("arbitrary", 17, 5, 40),
    ("arbitrary", 11, 6, 14),
    ("arbitrary", 8, 10, 12),
    ("clustered", 4, 4, 12),
    ("clustered", 1, 9, 30),
    ("clustered", 4, 16, 60),
    ("clustered", 4, 32, 250),
    ("domino-reverse", 2, 2, 8),
    ("domino-shuffled", 3, 2, 25),
    ("ring-reverse", 7, 4, 18),
    ("ring-shuffled", 8, 5, 31),
    ("history-unsaved", 116, 2, 30),
    ("history-unsaved", 102, 5, 40),
    ("history-unsaved", 6, 12, 70),
    ("arbitrary-unsaved", 1, 2, 4),
    ("arbitrary-unsaved", 45, 6, 14),
    ("arbitrary-unsaved", 19, 10, 40),
    ("clustered-unsaved", 72, 4, 12),
    ("clustered-unsaved", 35, 9, 30),
    ("clustered-unsaved", 1, 32, 250),
];

// ---------------------------------------------------------------------------
// Accepted tables with a point.

/// The counts with one state more for each process in turn, up to a sum.
fn up_to(mut counts: Vec<u16>, sum: u32) -> Vec<u16> {
    let n = counts.len();
    let more = sum - counts.iter().copied().map(u32::from).sum::<u32>();
    for turn in 0..more as usize {
        counts[turn % n] += 1;
    }
    counts
}

/// Processes without messages. Each keeps its last state, so `kept` of them
/// keep `kept` of the `states`.
fn apart(kept: u32, states: u32) -> Vec<u8> {
    written(&up_to(vec![1; kept as usize], states), &[])
}

/// Stairs that keep `kept` of the `states`, 528 at most. Each process j sends
/// from its last state to the later ones, which receive that in state j + 1:
/// with j holding they stand at j. So process i keeps states 0 to i - 1 and its
/// last one. The last process receives from as many only as are left to keep.
fn stairs(kept: u32, states: u32) -> Vec<u8> {
    let mut keeps = Vec::new();
    let mut left = kept as u16;
    while left > 0 {
        let here = left.min(keeps.len() as u16 + 1);
        keeps.push(here);
        left -= here;
    }
    let counts = up_to(keeps.clone(), states);
    let mut messages = Vec::new();
    for j in 0..counts.len() {
        for i in (j + 1..counts.len()).filter(|&i| j + 1 < usize::from(keeps[i])) {
            messages.push([j as u16, counts[j] - 1, i as u16, j as u16 + 1]);
        }
    }
    written(&counts, &messages)
}

/// Readings that the document warns of, and sentences easily missed.
fn points(list: &mut Vec<Named>) {
    // The message (0,1) to (1,1) is crossed by the line of holding process 2
    // alone, not by the recovery line.
    add(list, "kept_by_a_hold_line_alone", {
        written(&[2, 2, 2], &[[0, 1, 1, 1], [2, 1, 1, 1]])
    });
    // y = L of the sender: sent after the line, so an orphan when received
    // before it (2), and not kept when received after it (3). y = L - 1: kept (1).
    add(list, "sent_at_the_line_itself", {
        let messages = [[0, 1, 1, 1], [0, 1, 1, 2], [0, 2, 1, 2], [0, 2, 1, 3]];
        written(&[3, 4], &messages)
    });
    // Waiting messages sent after the recovery line: no orphans, and kept.
    add(list, "waiting_and_sent_after_the_line", {
        let messages = [[0, 1, 1, 1], [1, 0, 0, 1], [0, 1, 1, 0], [1, 1, 0, 0]];
        written(&[2, 2], &messages)
    });
    add(list, "the_same_entry_twice", {
        let twice: Vec<Entry> = A_MESSAGES.iter().flat_map(|&one| [one, one]).collect();
        written(&A_COUNTS, &twice)
    });
    // Received in a state before the one it was sent after: the table is
    // accepted all the same.
    add(list, "received_before_sent", {
        written(&[9, 9, 9], &[[0, 8, 1, 1], [1, 3, 0, 2], [2, 0, 1, 8]])
    });
}

/// The share: at its ends, just below a whole number, and with large sums of
/// counts.
fn shares(list: &mut Vec<Named>) {
    add(list, "share_100_stairs", stairs(210, 210));
    add(
        list,
        "share_100_of_99_526_by_210_of_211_in_stairs",
        stairs(210, 211),
    );
    add(list, "share_1_of_0_990_by_1_of_101", written(&[101], &[]));
    // 1 of 100.
    add(list, "share_1_exactly", written(&[100], &[]));
    let mut counts = [14; 10];
    counts[9] = 17;
    add(list, "share_7_of_6_993_by_10_of_143", written(&counts, &[]));
    let mut counts = [3; 32];
    counts[0] = 4;
    add(
        list,
        "share_33_of_32_990_by_32_of_97",
        written(&counts, &[]),
    );
    // Stairs of 11 processes with 12 states each keep 66, and 11 processes
    // without messages keep one each of 19.
    let even = gen::staircase(11, 12);
    let mut counts = [vec![12; 11], vec![1; 11]].concat();
    counts[11] = 5;
    counts[21] = 5;
    let messages: Vec<Entry> = even.messages.iter().map(entry).collect();
    add(list, "share_51_of_50_993_by_77_of_151", {
        written(&counts, &messages)
    });
    // The sum of counts is 65,536 + 3, and 131,072.
    let mut counts = [4_096; 17];
    counts[16] = 3;
    add(list, "share_0_sum_65539", written(&counts, &[]));
    add(list, "share_0_sum_131072", written(&[4_096; 32], &[]));
}

/// Share, value, kept states and all states, by hand. The value is exact with
/// fewer than three digits behind the point.
type Share = (u32, &'static str, u32, u32);

/// Exact halves and their neighbours one state away: one state more, one less,
/// one more kept, one fewer kept. Processes without messages.
const HALVES_APART: [Share; 17] = [
    // An even percent and a half: down.
    (12, "12_5", 1, 8),
    (12, "12_5", 32, 256),
    (12, "12_451", 32, 257),
    (13, "12_549", 32, 255),
    (12, "12_109", 31, 256),
    (62, "62_5", 5, 8),
    (0, "0_5", 1, 200),
    (0, "0_498", 1, 201),
    (1, "0_503", 1, 199),
    (0, "0_5", 32, 6_400),
    (0, "0_49992", 32, 6_401),
    (1, "0_50008", 32, 6_399),
    (0, "0_484", 31, 6_400),
    // An odd percent and a half: up.
    (38, "37_5", 3, 8),
    (88, "87_5", 7, 8),
    // Halves that are missed with a quotient in 64-bit binary fractions:
    // 100 x (23 / 40) falls below its half, 15 x (100 / 24) above.
    (58, "57_5", 23, 40),
    (62, "62_5", 15, 24),
];

/// The same in stairs, which keep more states than there are processes.
const HALVES_IN_STAIRS: [Share; 30] = [
    // One kept state more than 32 processes without messages keep.
    (13, "12_891", 33, 256),
    (1, "0_516", 33, 6_400),
    (62, "62_5", 5, 8),
    (38, "37_5", 3, 8),
    (38, "37_5", 105, 280),
    (37, "37_367", 105, 281),
    (38, "37_634", 105, 279),
    (38, "37_857", 106, 280),
    (37, "37_143", 104, 280),
    (88, "87_5", 7, 8),
    // 99.5 is 199 of 200 or 398 of 400: 597 are more than can be kept. Beside
    // 199 of 200 stand whole numbers and 99.005, and next to the half 200 of
    // 201 and 198 of 199, whose sums are odd.
    (100, "99_5", 199, 200),
    (99, "99_005", 199, 201),
    (100, "100", 199, 199),
    (100, "100", 200, 200),
    (99, "99", 198, 200),
    (100, "99_502", 200, 201),
    (99, "99_497", 198, 199),
    (100, "99_5", 398, 400),
    (99, "99_252", 398, 401),
    (100, "99_749", 398, 399),
    (100, "99_75", 399, 400),
    (99, "99_25", 397, 400),
    // Both halves beside 50.
    (50, "49_5", 99, 200),
    (50, "50_5", 101, 200),
    // In 32-bit binary fractions 100 x (59 / 200) falls below its half.
    (30, "29_5", 59, 200),
    // The largest sums that have a half, with 528 states kept: 0.5 is the only
    // half above 65,536, and 1.5 the next.
    (0, "0_5", 528, 105_600),
    (0, "0_499995", 528, 105_601),
    (1, "0_500005", 528, 105_599),
    (2, "1_5", 528, 35_200),
    (1, "1_49996", 528, 35_201),
];

/// The share on exact halves and next to them.
fn halves(list: &mut Vec<Named>) {
    let name = |(share, value, kept, states): Share| {
        format!("share_{share}_of_{value}_by_{kept}_of_{states}")
    };
    for share in HALVES_APART {
        let (.., kept, states) = share;
        add(list, &name(share), apart(kept, states));
    }
    for share in HALVES_IN_STAIRS {
        let (.., kept, states) = share;
        add(list, &(name(share) + "_in_stairs"), stairs(kept, states));
    }
    // 2 of 16 is 12.5. Two processes that put each other back to states 4 and
    // 3, whichever holds; positions 0 and 3 are kept, by crossing that line and
    // by waiting. One kept state alone is one process, so without messages.
    add(list, "share_12_of_12_5_by_2_of_16_with_messages", {
        let messages = [[0, 3, 1, 4], [0, 8, 1, 4], [1, 6, 0, 5], [1, 6, 0, 0]];
        written(&[9, 7], &messages)
    });
}

/// A message as an entry.
fn entry(message: &Message) -> Entry {
    let small = |n: u32| u16::try_from(n).expect("16 bits");
    [
        message.sender as u16,
        small(message.sent),
        message.receiver as u16,
        small(message.received),
    ]
}

/// Numbers on both sides of each further digit, and of the second byte.
fn digits(list: &mut Vec<Named>) {
    let counts = [
        1, 2, 9, 10, 11, 99, 100, 101, 255, 256, 257, 999, 1_000, 1_001, 4_095, 4_096,
    ];
    add(list, "digits_of_states", written(&counts, &[]));
    // A and a third process, with some 1,000 messages that are not kept. Kept are
    // those at the positions named, by crossing a line and by waiting in turn; what
    // waits is from the third process.
    let mut messages = vec![A_MESSAGES[1]; 1_003];
    messages[500..].fill(A_MESSAGES[2]);
    messages[1_002] = A_MESSAGES[3];
    for (turn, position) in DIGITS_OF_POSITIONS.into_iter().enumerate() {
        messages[position] = [A_MESSAGES[0], [2, 0, 0, 0]][turn % 2];
    }
    add(list, "digits_of_positions", written(&[3, 3, 1], &messages));
    // Sends and receipts with both bytes in use. Process 0 holding, the last
    // two and 4 put the line to 999, 256 and 511; of the others, which stand just
    // before and just after that line 256 511, positions 1 and 3 cross it.
    add(list, "digits_of_sends_and_receipts", {
        let messages = [
            [0, 255, 1, 511],
            [0, 255, 1, 512],
            [1, 510, 0, 256],
            [1, 510, 0, 257],
            [0, 256, 1, 512],
            [1, 511, 0, 257],
            [1, 999, 0, 257],
            [0, 300, 1, 1_000],
        ];
        written(&[301, 1_002], &messages)
    });
}

/// Positions on both sides of each further digit, and of the second byte.
const DIGITS_OF_POSITIONS: [usize; 10] = [0, 9, 10, 99, 100, 255, 256, 999, 1_000, 1_001];

// ---------------------------------------------------------------------------
// The largest tables.

/// A table with as long a listing as could be made: N = 32, M = 4,096, counts
/// 4,096, 467 states kept and all but 87 messages: 65,568 bytes, more than 16
/// bits can count. Processes stand in groups of five; each sends, at its end, a message to every process of the
/// later groups, received at a state of the sender's own. So every holder has
/// a line of its own at every process of the later groups, and these messages
/// are crossed by the lines of the sender's group, except those of the first
/// in a group. The rest waits; its send numbers are drawn, and `sent` takes that of
/// the message before it in its channel and what was drawn. What is not kept stands
/// first, where positions are short.
fn long_listing(sent: &dyn Fn(u16, u16) -> u16) -> Vec<u8> {
    let first = 4_000;
    let mut messages = Vec::new();
    for leader in [true, false] {
        for p in (0..32u16).filter(|p| (p % 5 == 0) == leader) {
            for i in (p / 5 + 1) * 5..32 {
                messages.push([p, 4_095, i, first + p + 1]);
            }
        }
    }
    let mut latest = [[0; 32]; 32];
    for &[j, sent, i, _] in &messages {
        latest[usize::from(j)][usize::from(i)] = sent;
    }
    let rng = &mut Rng::new(4_096);
    while messages.len() < 4_096 {
        let j = rng.between(0, 31);
        let i = (j + rng.between(1, 31)) % 32;
        let sent = sent(latest[j][i], rng.between(0, 4_095) as u16);
        latest[j][i] = sent;
        messages.push([j as u16, sent, i as u16, 0]);
    }
    written(&[4_096; 32], &messages)
}

fn largest(list: &mut Vec<Named>) {
    let history = gen::saved_history(&mut Rng::new(23), 32, 4_096).to_bytes();
    assert_eq!(history.len(), MOST_BYTES, "another seed, please");
    add(list, "largest_history", history.clone());
    let long = long_listing(&u16::max);
    assert_eq!(listing(&long).len(), 65_568);
    add(list, "largest_long_listing", long);
    // The program reads at most 32,837 bytes. The first 32,836 of these are
    // accepted tables.
    add(list, "refused_4_largest_and_a_byte", {
        lengthened(history.clone(), 32_837)
    });
    add(list, "refused_4_largest_then_many_bytes", {
        lengthened(history, 40_000)
    });
    let unsaved = gen::history(&mut Rng::new(21), 32, 4_096);
    let bytes = unsaved.to_bytes();
    assert_eq!(bytes.len(), MOST_BYTES, "another seed, please");
    let mut messages = unsaved.messages.iter();
    assert!(messages.any(|message| unsaved.unsaved(message)));
    add(list, "largest_history_unsaved", bytes);
}

// ---------------------------------------------------------------------------
// By chance and by pattern.

/// Kind, seed, processes and messages of the generated tables. Those of the kinds
/// that end in `-unsaved` have such messages.
const GENERATED: [(&str, u64, usize, usize); 43] = [
    ("history", 7, 2, 6),
    ("history", 11, 2, 30),
    ("history", 6, 3, 12),
    ("history", 4, 5, 40),
    ("history", 104, 8, 60),
    ("history", 8, 12, 70),
    ("history", 108, 32, 120),
    ("arbitrary", 13, 2, 4),
    ("arbitrary", 8, 3, 6),
    ("arbitrary", 10, 4, 5),
    ("arbitrary", 17, 5, 40),
    ("arbitrary", 11, 6, 14),
    ("arbitrary", 8, 10, 12),
    ("clustered", 4, 4, 12),
    ("clustered", 1, 9, 30),
    ("clustered", 4, 16, 60),
    ("clustered", 4, 32, 250),
    ("domino-time", 1, 2, 7),
    ("domino-rounds-along", 2, 2, 8),
    ("domino-interleaved", 3, 2, 25),
    ("domino-by-sender", 4, 2, 40),
    ("domino-by-sender-backward", 5, 2, 41),
    ("domino-every-second", 5, 2, 101),
    ("ring-time", 6, 3, 12),
    ("ring-rounds-against", 7, 4, 18),
    ("ring-rounds-along", 7, 4, 19),
    ("ring-interleaved", 8, 5, 31),
    ("ring-by-sender", 9, 7, 49),
    ("ring-by-sender-backward", 9, 7, 50),
    ("ring-every-second", 10, 32, 96),
    ("history-unsaved", 26, 2, 6),
    ("history-unsaved", 99, 2, 30),
    ("history-unsaved", 128, 3, 12),
    ("history-unsaved", 102, 5, 40),
    ("history-unsaved", 6, 12, 70),
    ("history-unsaved", 7, 32, 120),
    ("arbitrary-unsaved", 1, 2, 4),
    ("arbitrary-unsaved", 66, 4, 5),
    ("arbitrary-unsaved", 45, 6, 14),
    ("arbitrary-unsaved", 19, 10, 40),
    ("clustered-unsaved", 72, 4, 12),
    ("clustered-unsaved", 35, 9, 30),
    ("clustered-unsaved", 1, 32, 250),
];

fn by_chance(list: &mut Vec<Named>) {
    for (kind, seed, n, m) in GENERATED {
        let bytes = gen::by_name(kind, seed, n, m).expect("a kind and a size");
        let kind = kind.replace('-', "_");
        let name = format!("{kind}_{n}_processes_{m}_messages");
        let made = (
            usize::from(processes(&bytes)),
            usize::from(messages(&bytes)),
        );
        assert_eq!(made, (n, m), "{name}: another seed, please");
        let table = Table::read(&bytes).expect("an accepted table");
        let mut messages = table.messages.iter();
        let unsaved = messages.any(|message| table.unsaved(message));
        assert_eq!(unsaved, name.contains("_unsaved_"), "{name}");
        add(list, &name, bytes);
    }
    let table = gen::staircase(5, 1_000);
    add(list, "stairs_5_processes", table.to_bytes());
}

// ---------------------------------------------------------------------------
// Many passes.

/// A domino of two processes by sender, down to 3 3: half as many passes as
/// messages, and two.
fn by_sender(m: usize) -> Table {
    lifted(gen::domino_chain(&mut Rng::new(1), m, Order::BySender), 3)
}

/// A ring in which every holder puts the others back, and no line goes below 1.
fn ring_of_all(n: usize, m: usize, order: Order) -> Table {
    lifted(gen::ring_unsaved(&mut Rng::new(1), n, m, order), 1)
}

/// Tables whose lines take many passes over the messages: whoever tries N / 4 + 2 of
/// them, or another number, and then something else has to end with the same lines.
/// `_of_holders_` says the passes of the line of each, 0 where nobody else is put
/// back. Where a name has `falling`, the send numbers of a sender fall.
fn many_passes(list: &mut Vec<Named>) {
    let mut add = |name: &str, table: Table| add(list, name, table.to_bytes());
    // The boundary: the last of N / 4 + 2 passes lowers nothing, and lowers the last.
    // A ring by sender, the last sender first, takes a pass for each round; in the
    // sheet it takes one more from process 1 on.
    for n in [2, 4, 8, 32] {
        for passes in [n / 4 + 2, n / 4 + 3] {
            let ring = ring_of_all(n, n * (passes - 1), Order::BySenderBackward);
            let mut name = format!("passes_{passes}_ring_of_{n}");
            if n < 32 {
                let others = format!("_{}", passes + 1).repeat(n - 1);
                name += &format!("_of_holders_{passes}{others}");
            }
            add(&name, ring);
        }
    }
    // Many more, of senders with one receiver, and with several.
    add("passes_12_domino_by_sender", by_sender(20));
    add(
        "passes_12_sixteen_dominoes_by_sender",
        beside(&vec![by_sender(20); 16]),
    );
    add(
        "passes_23_ring_in_the_order_of_sending_of_holders_23_26_25_24_23",
        ring_of_all(5, 39, Order::Time),
    );
    add(
        "passes_30_ring_by_sender_of_holders_30_33_32_31_30",
        ring_of_all(5, 39, Order::BySender),
    );
    add(
        "passes_32_chain_by_sender",
        lifted(passes::by_sender(passes::chain(5, 60)), 2),
    );
    // The messages of a sender at distances up to eight, of just two eights and of one
    // more, with those of another between them: whoever looks for them some at a time
    // has to come to each, from every holder.
    add(
        "passes_11_ring_of_2_apart_of_holders_11_11_0_0",
        passes::apart(ring_of_all(2, 19, Order::BySender), &APART),
    );
    // Numbers that fall along the chain.
    add(
        "passes_17_falling_chain_of_three",
        lifted(passes::chain(3, 18), 1),
    );
    add(
        "passes_40_falling_chain_of_five",
        lifted(passes::chain(5, 40), 2),
    );
    // Lines of many passes and of few on one sheet, and holders between them from
    // whom no pass is needed. Of five processes, three passes are N / 4 + 2.
    let few = || gen::domino_chain(&mut Rng::new(1), 4, Order::Time);
    let falling = passes::falling_pair;
    add(
        "passes_of_holders_2_0_12_0_2_0",
        beside(&[few(), by_sender(20), few()]),
    );
    for m in [2, 4, 20] {
        let first = m / 2 + 2;
        add(
            &format!("passes_of_holders_{first}_0_2_0_0_falling_behind_it"),
            beside(&[by_sender(m), falling()]),
        );
    }
    add(
        "passes_of_holders_2_0_0_12_0_2_0_0_falling_round_it",
        beside(&[falling(), by_sender(20), falling()]),
    );
    add(
        "passes_of_holders_17_0_0_2_0_0_2_0_falling",
        beside(&[passes::chain(3, 18), falling(), few()]),
    );
}

/// How far the messages of a sender stand apart. With 1 and 17 first, the first
/// messages are found where fewer than eight are left, at once and behind two eights.
const APART: [usize; 6] = [1, 17, 7, 8, 9, 16];

/// `passes_P_..._of_holders_P_P...`: stops unless the recovery line and the lines of
/// the single holders take as many passes, and unless a name with `falling` is that
/// of a table in which the numbers of a sender fall.
fn promised_passes(name: &str, bytes: &[u8]) {
    let table = Table::read(bytes).expect("a table with passes");
    let number = |word: &str| word.parse::<usize>().ok();
    if let Some(told) = name.split('_').nth(1).and_then(number) {
        assert_eq!(passes_of_run(&table), told, "{name}");
    }
    if let Some((_, back)) = name.split_once("of_holders_") {
        let told: Vec<usize> = back.split('_').map_while(number).collect();
        assert_eq!(passes_of_holders(&table), told, "{name}");
    }
    assert_eq!(sends_fall(&table), name.contains("falling"), "{name}");
}

// ---------------------------------------------------------------------------
// All of it.

/// All entries: name, table, expected text.
fn corpus() -> Vec<(String, Vec<u8>, String)> {
    let mut list = Vec::new();
    sizes(&mut list);
    counts(&mut list);
    entries(&mut list);
    order_of_checks(&mut list);
    channels(&mut list);
    out_of_turn(&mut list);
    points(&mut list);
    shares(&mut list);
    halves(&mut list);
    digits(&mut list);
    largest(&mut list);
    by_chance(&mut list);
    many_passes(&mut list);
    let mut all = Vec::new();
    let by_hand = [of_the_document(), of_unsaved(), of_zigzag(), of_channels()];
    for (name, bytes, text) in by_hand.into_iter().flatten() {
        assert_eq!(listing(&bytes), text, "{name}: worked out by hand");
        enumerated(name, &bytes);
        all.push((name.to_string(), bytes, text.to_string()));
    }
    for (name, bytes) in list {
        let text = listing(&bytes);
        promised(&name, &bytes, &text);
        enumerated(&name, &bytes);
        all.push((name, bytes, text));
    }
    let names: BTreeSet<&String> = all.iter().map(|(name, ..)| name).collect();
    assert_eq!(names.len(), all.len(), "two entries of one name");
    all
}

/// Stops when the text is not what the name says.
fn promised(name: &str, bytes: &[u8], text: &str) {
    let mut words = name.split('_');
    let (word, number) = (words.next(), words.next().unwrap_or(""));
    match word {
        Some("refused") => assert_eq!(text, format!("refused {number}\n"), "{name}"),
        Some("share") => {
            assert!(text.ends_with(&format!("\nshare {number}\n")), "{name}");
            promised_value(name, bytes, text);
        }
        Some("passes") => promised_passes(name, bytes),
        _ => assert!(text.starts_with("line "), "{name}: {text}"),
    }
}

/// `share_N_of_V_by_K_of_S...`: stops unless K of S states are kept and that is
/// V percent, the point written `_`. With fewer than three digits behind it V
/// is exact; else it is the nearest one with these digits, and not exact.
fn promised_value(name: &str, bytes: &[u8], text: &str) {
    let Some((front, back)) = name.split_once("_by_") else {
        return;
    };
    let table = Table::read(bytes).expect("a table with a share");
    let kept = text.matches("\ncheckpoint ").count() as u64;
    let states: u64 = table.counts.iter().copied().map(u64::from).sum();
    let told: Vec<&str> = back.split('_').take(3).collect();
    assert_eq!(told.join(" "), format!("{kept} of {states}"), "{name}");

    let (_, value) = front.split_once("_of_").expect("the value");
    let (whole, digits) = value.split_once('_').unwrap_or((value, ""));
    let scaled: u64 = format!("{whole}{digits}").parse().expect("digits");
    let off = (scaled * states).abs_diff(100 * kept * 10u64.pow(digits.len() as u32));
    if digits.len() < 3 {
        assert_eq!(off, 0, "{name}");
    } else {
        assert!(0 < off && 2 * off <= states, "{name}");
    }
}

/// Stops when the hold lines of a small table are not those found by trying
/// every line.
fn enumerated(name: &str, bytes: &[u8]) {
    let Ok(table) = Table::read(bytes) else {
        return;
    };
    let mut tries = 1u64;
    for &count in &table.counts {
        tries = tries.saturating_mul(u64::from(count) + 1);
    }
    if tries.saturating_mul(table.messages.len() as u64 + 1) > 3_000_000 {
        return;
    }
    for (p, line) in hold_lines(&table).iter().enumerate() {
        let tried = line_by_enumeration(&table, &ceiling(&table, single_holder(p)));
        assert_eq!(*line, tried, "{name}: the line of holding process {p}");
    }
}

fn main() -> ExitCode {
    let args: Vec<String> = std::env::args().skip(1).collect();
    let [folder] = args.as_slice() else {
        eprintln!("usage: corpus DIR");
        return ExitCode::from(2);
    };
    let folder = Path::new(folder);
    let write = || -> std::io::Result<usize> {
        std::fs::create_dir_all(folder)?;
        let all = corpus();
        for (name, bytes, text) in &all {
            std::fs::write(folder.join(format!("{name}.table")), bytes)?;
            std::fs::write(folder.join(format!("{name}.listing")), text)?;
        }
        Ok(all.len())
    };
    match write() {
        Ok(entries) => {
            println!("{entries} tables written, each with its listing");
            ExitCode::SUCCESS
        }
        Err(error) => {
            eprintln!("{}: {error}", folder.display());
            ExitCode::FAILURE
        }
    }
}
