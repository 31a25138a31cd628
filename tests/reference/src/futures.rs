//! Futures: a search over all lists of steps up to a depth, for the states and
//! messages of the first table that some list needs. Nothing here knows the
//! keep sheet or its lines.

use std::collections::{BTreeSet, HashSet};

use crate::lines::line_of_run;
use crate::steps::{do_fall_back, do_receive, do_save, do_send, passes_over};
use crate::table::Table;

/// A table that some list of steps reached, with what became of the states and
/// messages of the first table.
#[derive(Clone, PartialEq, Eq, Hash)]
struct Reached {
    table: Table,
    /// For each process and each state of the first table: still there?
    state_there: Vec<Vec<bool>>,
    /// For each message of the first table: its position now, if still there.
    message_at: Vec<Option<usize>>,
}

/// (process, state) pairs and message positions of the first table.
pub type Needs = (BTreeSet<(usize, u32)>, BTreeSet<usize>);

impl Reached {
    /// "Let E be the table at the end (the accepted one, where the list is
    /// empty)".
    fn first(table: &Table) -> Reached {
        Reached {
            table: table.clone(),
            state_there: table
                .counts
                .iter()
                .map(|&count| vec![true; count as usize])
                .collect(),
            message_at: (0..table.messages.len()).map(Some).collect(),
        }
    }

    fn after_send(&self, j: usize, i: usize) -> Reached {
        let mut next = self.clone();
        do_send(&mut next.table, j, i);
        next
    }

    fn after_save(&self, i: usize, list: &[usize]) -> Reached {
        let mut next = self.clone();
        do_save(&mut next.table, i, list);
        next
    }

    fn after_receipt(&self, i: usize, list: &[usize]) -> Reached {
        let mut next = self.clone();
        do_receive(&mut next.table, i, list);
        next
    }

    fn after_fall_back(&self) -> Reached {
        let mut next = self.clone();
        let rollback = do_fall_back(&mut next.table);
        // "still there in E unless a fall back in the list went to a line
        // below c at i."
        for (i, states) in next.state_there.iter_mut().enumerate() {
            for (c, there) in states.iter_mut().enumerate() {
                if rollback.line[i] < c as u32 {
                    *there = false;
                }
            }
        }
        // "still there, at whatever position, unless a fall back in the list
        // removed it."
        for at in &mut next.message_at {
            *at = at.and_then(|position| rollback.moved_to[position]);
        }
        next
    }

    /// Every table one step further. "A send names any two processes, a save
    /// any process and any list of positions", and "Futures gain the receiving
    /// step", which "takes a process and a list as a save does". "Futures receive
    /// only in that order", the one in which a channel's messages were sent. Steps
    /// that 10, 11, 13 or 24 catch leave the table as it is, and so does a receipt
    /// of nothing: they lead nowhere new and are left out.
    fn one_step_on(&self, steps: Steps) -> Vec<Reached> {
        let n = self.table.processes();
        let mut all = vec![self.after_fall_back()];
        for j in 0..n {
            for i in (0..n).filter(|&i| i != j) {
                all.push(self.after_send(j, i));
            }
        }
        for i in 0..n {
            let waiting = self.table.waiting_for(i);
            for choice in 0u32..1 << waiting.len() {
                let list: Vec<usize> = (0..waiting.len())
                    .filter(|&at| (choice >> at) & 1 == 1)
                    .map(|at| waiting[at])
                    .collect();
                if passes_over(&self.table, &list) {
                    continue;
                }
                all.push(self.after_save(i, &list));
                if steps == Steps::All && !list.is_empty() {
                    all.push(self.after_receipt(i, &list));
                }
            }
        }
        all
    }

    /// Adds what this end needs.
    fn add_needs(&self, needs: &mut Needs) {
        let line = line_of_run(&self.table);
        // "The future needs state c of i when it is still there and L of i is
        // c."
        for (i, states) in self.state_there.iter().enumerate() {
            for (c, &there) in states.iter().enumerate() {
                if there && line[i] == c as u32 {
                    needs.0.insert((i, c as u32));
                }
            }
        }
        // "It needs a message when it is still there, as (j, y) to (i, r) in
        // E, and y < L of j, and r is 0 or above L of i."
        for (first_position, at) in self.message_at.iter().enumerate() {
            if let Some(position) = *at {
                let message = &self.table.messages[position];
                if message.sent < line[message.sender]
                    && (message.received == 0 || message.received > line[message.receiver])
                {
                    needs.1.insert(first_position);
                }
            }
        }
    }
}

/// The steps that a list may have.
#[derive(Clone, Copy, Debug, PartialEq, Eq)]
pub enum Steps {
    /// All of them: sends, saves, receipts and fall backs.
    All,
    /// No receipts: a process receives when it saves, and not between.
    WithoutReceipts,
}

/// Every table that some list of at most `depth` of these steps reaches, the
/// first one included. The search goes breadth first, so a table is first met
/// with the most steps left and need not be followed again.
fn reached(table: &Table, depth: usize, steps: Steps) -> HashSet<Reached> {
    let first = Reached::first(table);
    let mut met = HashSet::from([first.clone()]);
    let mut newest = vec![first];
    for _ in 0..depth {
        let mut further = Vec::new();
        for reached in &newest {
            for next in reached.one_step_on(steps) {
                if met.insert(next.clone()) {
                    further.push(next);
                }
            }
        }
        newest = further;
    }
    met
}

/// The states and the messages of `table` that some list of at most `depth` of
/// these steps needs.
pub fn needed_with(table: &Table, depth: usize, steps: Steps) -> Needs {
    let mut needs = (BTreeSet::new(), BTreeSet::new());
    for end in reached(table, depth, steps) {
        end.add_needs(&mut needs);
    }
    needs
}

/// The states and the messages of `table` that some future of at most `depth`
/// steps needs. "A future is a finite list of sends, saves and fall backs", and
/// "Futures gain the receiving step".
pub fn needed_by_futures(table: &Table, depth: usize) -> Needs {
    needed_with(table, depth, Steps::All)
}

/// The tables at the end of all lists of at most `depth` of these steps.
pub fn ends(table: &Table, depth: usize, steps: Steps) -> HashSet<Table> {
    let met = reached(table, depth, steps);
    met.into_iter().map(|end| end.table).collect()
}

#[cfg(test)]
mod tests {
    use super::*;
    use crate::table::{out_of_turn_in_pairs, Message};

    /// Example A of the scope document.
    fn example_a() -> Table {
        Table {
            counts: vec![3, 3],
            messages: vec![
                Message::new((0, 0), (1, 2)),
                Message::new((1, 0), (0, 1)),
                Message::new((1, 1), (0, 2)),
                Message::new((0, 2), (1, 2)),
                Message::new((1, 2), (0, 0)),
            ],
        }
    }

    #[test]
    fn a_fall_back_loses_what_lies_above_its_line() {
        let after = Reached::first(&example_a()).after_fall_back();
        // It went to line 1 1: the states at the line are still there.
        assert_eq!(after.state_there, vec![vec![true, true, false]; 2]);
        assert_eq!(after.message_at, [Some(0), Some(1), None, None, None]);
        assert_eq!(after.table.counts, [2, 2]);
    }

    #[test]
    fn a_number_used_again_names_another_state_and_message() {
        let after = Reached::first(&example_a())
            .after_fall_back()
            .after_save(0, &[])
            .after_save(1, &[0])
            .after_send(1, 0);
        assert_eq!(after.table.counts, [3, 3]);
        assert_eq!(after.state_there, vec![vec![true, true, false]; 2]);
        assert_eq!(after.message_at, [Some(0), Some(1), None, None, None]);
        // The new states 2 are the recovery line, yet not the old states 2.
        let mut needs = (BTreeSet::new(), BTreeSet::new());
        after.add_needs(&mut needs);
        assert_eq!(needs, (BTreeSet::new(), BTreeSet::new()));
    }

    /// The message was sent before the line 1 0 to which the run falls back, so
    /// it is still there, and waits once more.
    #[test]
    fn an_unsaved_message_is_followed_through_a_fall_back() {
        let table = Table {
            counts: vec![2, 1],
            messages: vec![Message::new((0, 0), (1, 0))],
        };
        let after = Reached::first(&table).after_receipt(1, &[0]);
        assert_eq!(after.table.messages, [Message::new((0, 0), (1, 1))]);
        assert_eq!(after.table.counts, [2, 1]);
        let after = after.after_fall_back();
        assert_eq!(after.table, table);
        assert_eq!(after.message_at, [Some(0)]);
        assert_eq!(after.state_there, vec![vec![true, true], vec![true]]);
    }

    /// Messages 0 and 1 are of one channel, 2 is of another. Of the lists of a
    /// save or receipt by process 1 none has message 1 without message 0: that
    /// leaves 6 of 8, one of which is empty.
    #[test]
    fn a_channel_is_received_in_turn() {
        let table = Table {
            counts: vec![1, 1, 1],
            messages: vec![
                Message::new((0, 0), (1, 0)),
                Message::new((0, 0), (1, 0)),
                Message::new((2, 0), (1, 0)),
            ],
        };
        // One fall back, six sends, one save each by 0 and 2.
        for (steps, tried) in [(Steps::All, 9 + 6 + 5), (Steps::WithoutReceipts, 9 + 6)] {
            assert_eq!(Reached::first(&table).one_step_on(steps).len(), tried);
        }
        for steps in [Steps::All, Steps::WithoutReceipts] {
            for end in ends(&table, 3, steps) {
                assert!(!out_of_turn_in_pairs(&end.messages), "{end:?}");
            }
        }
    }

    #[test]
    fn all_steps_are_tried() {
        // One fall back, two sends, two saves by 0 (message 4 waits), one save
        // by 1, and one receipt by 0.
        for (steps, tried) in [(Steps::All, 7), (Steps::WithoutReceipts, 6)] {
            let further = Reached::first(&example_a()).one_step_on(steps);
            assert_eq!(further.len(), tried);
            let different: HashSet<Reached> = further.into_iter().collect();
            assert_eq!(different.len(), tried);
        }
    }
}
