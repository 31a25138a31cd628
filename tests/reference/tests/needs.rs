//! What futures need is what the keep sheet keeps.

use std::collections::HashSet;

use reference::futures::{ends, needed_with, Steps};
use reference::gen::{all_tables, arbitrary, history, Rng};
use reference::sheet::kept;
use reference::*;

/// "whatever any list needs is on the sheet, and whatever is on the sheet some
/// list needs.", with the receiving step among the steps: "the sheet holds
/// exactly what these futures need." And "Futures receive only in that order, and
/// what is kept is measured by such futures."
fn needs_agree(table: &Table, depth: usize) {
    let (states, messages) = needed_by_futures(table, depth);
    let sheet = kept(table);
    assert_eq!(Vec::from_iter(states), sheet.states, "{table:?}");
    assert_eq!(Vec::from_iter(messages), sheet.messages, "{table:?}");
}

#[test]
fn two_processes_depth_3() {
    let mut tables = 0;
    for table in all_tables(2, 2, 2) {
        needs_agree(&table, 3);
        tables += 1;
    }
    // As many as `generators.rs` has by hand.
    assert_eq!(tables, 236);
}

/// One save by each process is as much as a list must have.
#[test]
fn as_many_steps_as_processes_are_enough() {
    for table in all_tables(2, 2, 2) {
        needs_agree(&table, table.processes());
    }
}

#[test]
fn two_processes_depth_4_and_5() {
    for table in all_tables(2, 2, 2) {
        needs_agree(&table, 4);
    }
    for table in all_tables(2, 2, 1) {
        needs_agree(&table, 5);
    }
}

#[test]
fn two_processes_with_more_states_and_messages() {
    for table in all_tables(2, 3, 2).chain(all_tables(2, 2, 3)) {
        needs_agree(&table, 3);
    }
}

/// All tables, of those that differ in the names of processes and the order of
/// messages alone one at least: counts and messages do not fall, where waiting is
/// above all receipt numbers, as it is within a channel.
#[test]
fn three_processes() {
    let (mut tables, mut with_unsaved) = (0, 0);
    let key = |one: &Message| {
        let receipt = (one.waiting(), one.received);
        (one.sender, one.sent, one.receiver, receipt)
    };
    let one_at_least = |table: &Table| {
        table.counts.windows(2).all(|pair| pair[0] <= pair[1])
            && table
                .messages
                .windows(2)
                .all(|pair| key(&pair[0]) <= key(&pair[1]))
    };
    for table in all_tables(3, 2, 2).filter(one_at_least) {
        needs_agree(&table, 3);
        tables += 1;
        let mut messages = table.messages.iter();
        with_unsaved += usize::from(messages.any(|message| table.unsaved(message)));
    }
    assert!(
        tables > 1_000 && with_unsaved > 500,
        "{tables} {with_unsaved}"
    );
    for table in all_tables(3, 2, 1).filter(one_at_least).step_by(2) {
        needs_agree(&table, 4);
    }
}

/// Channels of up to four messages, under the least counts and up to 2.
#[test]
fn longer_channels() {
    let of_one_channel = |table: &Table| {
        let mut messages = table.messages.iter();
        messages.all(|message| message.same_channel(&table.messages[0]))
    };
    let mut tables = 0;
    for table in all_tables(2, 1, 4).chain(all_tables(2, 2, 4).filter(of_one_channel)) {
        needs_agree(&table, 3);
        tables += 1;
    }
    // With m messages of a channel that has two send numbers and three receipt
    // numbers, waiting among them, m + 1 times (m + 1) (m + 2) / 2 are in turn.
    let of_2_2 = 1 + 2 * (2 * 3 + 3 * 6 + 4 * 10 + 5 * 15);
    assert!(tables > of_2_2, "{tables}");
}

/// Without the receiving step the same is needed, at every depth: where a list
/// receives and saves later, another saves with these messages on its list, and
/// until then the recovery line is the same for both. So the receiving step adds
/// nothing to what is needed, and takes nothing away.
#[test]
fn receipts_add_no_needs() {
    let mut tables = 0;
    let small = [(2, 2, 2, 3), (2, 3, 2, 2), (2, 1, 3, 3), (3, 2, 1, 3)];
    for (n, c, m, most_depth) in small {
        for table in all_tables(n, c, m) {
            for depth in 0..=most_depth {
                let with = needed_by_futures(&table, depth);
                let without = needed_with(&table, depth, Steps::WithoutReceipts);
                assert_eq!(with, without, "{table:?} {depth}");
            }
            tables += 1;
        }
    }
    assert!(tables > 1_000, "{tables}");
}

/// Yet some tables are reached with the receiving step alone: from counts 1 1
/// and a message that waits, one step leads to the message unsaved, and no list
/// of other steps does, however they are put together here. A search that does
/// not receive would miss these tables.
#[test]
fn receipts_lead_to_further_ends() {
    let waits = Table {
        counts: vec![1, 1],
        messages: vec![Message::new((0, 0), (1, 0))],
    };
    let mut unsaved = waits.clone();
    unsaved.messages[0].received = 1;
    assert_eq!(ends(&waits, 0, Steps::All), HashSet::from([waits.clone()]));
    assert!(ends(&waits, 1, Steps::All).contains(&unsaved));
    for depth in 0..=4 {
        let without = ends(&waits, depth, Steps::WithoutReceipts);
        assert!(!without.contains(&unsaved));
        let any_unsaved = |end: &Table| end.messages.iter().any(|message| end.unsaved(message));
        assert!(!without.iter().any(any_unsaved));
        let with = ends(&waits, depth, Steps::All);
        assert!(without.is_subset(&with));
        assert_eq!(without.len() < with.len(), depth > 0);
    }
}

#[test]
fn chance_tables() {
    let mut rng = Rng::new(10);
    for round in 0..150 {
        let n = rng.between(1, 3);
        let m = rng.between(0, 5);
        let table = if round % 2 == 0 {
            history(&mut rng, n, m)
        } else {
            arbitrary(&mut rng, n, m, 4)
        };
        needs_agree(&table, 3);
    }
}

/// With fewer steps less is needed, never something else: with no step only
/// the recovery line itself and what crosses it.
#[test]
fn needs_grow_with_the_depth() {
    let mut rng = Rng::new(11);
    for _ in 0..100 {
        let n = rng.between(1, 3);
        let m = rng.between(0, 5);
        let table = arbitrary(&mut rng, n, m, 4);
        let mut before = needed_by_futures(&table, 0);
        assert_eq!(before.0.len(), n);
        for depth in 1..=3 {
            let now = needed_by_futures(&table, depth);
            assert!(before.0.is_subset(&now.0) && before.1.is_subset(&now.1));
            before = now;
        }
    }
}
