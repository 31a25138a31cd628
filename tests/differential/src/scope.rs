//! All tables up to a size that check 23 refuses or nothing does, in every
//! order of their messages, taken by classes: tables that differ in the order of
//! their messages alone, or in the names of their processes too.

use reference::table::out_of_turn_in_pairs;
use reference::{Message, Table};

/// A scope: at most so many processes, states each, states in all, and messages.
#[derive(Clone, Copy, Debug, PartialEq, Eq)]
pub struct Scope {
    pub processes: usize,
    pub states: u32,
    pub total: u32,
    pub messages: usize,
}

impl Scope {
    /// The scope of at most so many processes, states each, and messages.
    pub fn of(processes: usize, states: u32, messages: usize) -> Scope {
        Scope {
            processes,
            states,
            total: processes as u32 * states,
            messages,
        }
    }

    /// The scope of at most so many states in all, and messages.
    pub fn of_total(total: u32, messages: usize) -> Scope {
        Scope {
            processes: total as usize,
            states: total,
            total,
            messages,
        }
    }

    /// All counts of the scope.
    fn counts(self) -> Vec<Vec<u32>> {
        let mut all: Vec<Vec<u32>> = Vec::new();
        let mut of_n: Vec<Vec<u32>> = vec![Vec::new()];
        for _ in 0..self.processes {
            of_n = of_n
                .iter()
                .flat_map(|front| {
                    let most = self.states.min(self.total - front.iter().sum::<u32>());
                    (1..=most).map(move |count| [&front[..], &[count]].concat())
                })
                .collect();
            all.extend(of_n.iter().cloned());
        }
        all
    }

    /// The number of tables in the scope, by counting and not by listing:
    /// under counts that allow c messages there are 1 + c + c^2 + ... tables.
    pub fn size(self) -> u64 {
        let tables = |counts: &Vec<u32>| {
            let choices = all_messages(counts).len() as u64;
            (0..=self.messages as u32)
                .map(|m| choices.pow(m))
                .sum::<u64>()
        };
        self.counts().iter().map(tables).sum()
    }

    /// How many of them have all channels in turn, by counting again. A channel
    /// is in turn when its send numbers do not fall and its receipt numbers do
    /// not, where waiting is the highest; the two are chosen one without the other.
    pub fn in_turn(self) -> u64 {
        let of_counts = |counts: &Vec<u32>| {
            self.tables_by_channels(counts, |j, i, k| {
                not_falling(counts[j], k) * not_falling(counts[i] + 1, k)
            })
        };
        self.counts().iter().map(of_counts).sum()
    }

    /// How many lists of a process there are, on all tables in turn, that 13 does
    /// not catch, and how many of them pass over no message: of each channel to the
    /// process any of its waiting messages, and the first few of them.
    pub fn lists(self) -> (u64, u64) {
        let count = |lists: &dyn Fn(u64) -> u64| -> u64 {
            let of_process = |counts: &[u32], process: usize| {
                self.tables_by_channels(counts, |j, i, k| {
                    if i != process {
                        return not_falling(counts[j], k) * not_falling(counts[i] + 1, k);
                    }
                    // The last `waiting` of the k messages wait.
                    let receipts = (0..=k)
                        .map(|waiting| not_falling(counts[i], k - waiting) * lists(waiting))
                        .sum::<u64>();
                    not_falling(counts[j], k) * receipts
                })
            };
            let of_counts = |counts: &Vec<u32>| -> u64 {
                (0..counts.len()).map(|i| of_process(counts, i)).sum()
            };
            self.counts().iter().map(of_counts).sum()
        };
        (
            count(&|waiting| 1 << waiting),
            count(&|waiting| waiting + 1),
        )
    }

    /// How many tables there are under these counts, where `ways` says in how many
    /// ways the channel from j to i can have k messages. What stands in the places
    /// of a channel is chosen, and which places of the table these are.
    fn tables_by_channels(self, counts: &[u32], ways: impl Fn(usize, usize, u64) -> u64) -> u64 {
        let most = self.messages;
        let mut of_size = vec![0; most + 1];
        of_size[0] = 1;
        for j in 0..counts.len() {
            for i in (0..counts.len()).filter(|&i| i != j) {
                let before = of_size.clone();
                for (m, tables) in of_size.iter_mut().enumerate() {
                    *tables = (0..=m)
                        .map(|k| choose(m as u64, k as u64) * ways(j, i, k as u64) * before[m - k])
                        .sum();
                }
            }
        }
        of_size.iter().sum()
    }

    /// Gives every table whose messages stand in rising order to `look`.
    pub fn each_sorted<E>(self, mut look: impl FnMut(&Table) -> Result<(), E>) -> Result<(), E> {
        for counts in self.counts() {
            let choices = all_messages(&counts);
            for m in 0..=self.messages {
                if m > 0 && choices.is_empty() {
                    break;
                }
                let mut picks = vec![0; m];
                loop {
                    look(&Table {
                        counts: counts.clone(),
                        messages: picks.iter().map(|&pick| choices[pick]).collect(),
                    })?;
                    // The next choice that does not fall: raise the last pick
                    // that can be raised, and put all behind it there too.
                    let Some(at) = (0..m).rev().find(|&at| picks[at] + 1 < choices.len()) else {
                        break;
                    };
                    let pick = picks[at] + 1;
                    picks[at..].fill(pick);
                }
            }
        }
        Ok(())
    }
}

/// How many ways there are to choose k out of n.
fn choose(n: u64, k: u64) -> u64 {
    (0..k).fold(1, |ways, at| ways * (n - at) / (at + 1))
}

/// How many lists of k numbers out of so many do not fall.
fn not_falling(numbers: u32, k: u64) -> u64 {
    choose(u64::from(numbers) + k - 1, k)
}

/// The tables of a scope that were met: in turn, and out of turn.
#[derive(Clone, Copy, Debug, Default, PartialEq, Eq)]
pub struct Met {
    pub in_turn: u64,
    pub out_of_turn: u64,
}

impl Met {
    /// Whether all channels of this table are in turn; it is counted.
    pub fn is_in_turn(&mut self, table: &Table) -> bool {
        let broken = out_of_turn_in_pairs(&table.messages);
        if broken {
            self.out_of_turn += 1;
        } else {
            self.in_turn += 1;
        }
        !broken
    }

    /// Panics unless these are as many as the scope has.
    pub fn is_all_of(self, scope: Scope) {
        let all = Met {
            in_turn: scope.in_turn(),
            out_of_turn: scope.size() - scope.in_turn(),
        };
        assert_eq!(self, all, "every table once");
    }
}

impl std::fmt::Display for Met {
    fn fmt(&self, to: &mut std::fmt::Formatter<'_>) -> std::fmt::Result {
        let Met {
            in_turn,
            out_of_turn,
        } = self;
        let tables = in_turn + out_of_turn;
        write!(to, "{tables} tables ({out_of_turn} out of turn)")
    }
}

/// The table with its messages in an order in which all channels are in turn, if
/// they have one: each channel's by send number, then receipt number, waiting last.
pub fn put_in_turn(table: &Table) -> Option<Table> {
    let mut table = table.clone();
    table.messages.sort_unstable_by_key(|message| {
        let channel = (message.sender, message.receiver);
        (channel, message.sent, message.waiting(), message.received)
    });
    (!out_of_turn_in_pairs(&table.messages)).then_some(table)
}

/// Every message that the checks 6 to 9 allow under these counts, rising.
fn all_messages(counts: &[u32]) -> Vec<Message> {
    let mut all = Vec::new();
    for j in 0..counts.len() {
        for sent in 0..counts[j] {
            for i in (0..counts.len()).filter(|&i| i != j) {
                for received in 0..=counts[i] {
                    all.push(Message::new((j, sent), (i, received)));
                }
            }
        }
    }
    all
}

/// Goes on to the next order of the items, the first one being rising; equal
/// items are not told apart. False when there is none.
pub fn next_order<T: Ord>(items: &mut [T]) -> bool {
    let Some(at) = (1..items.len()).rev().find(|&at| items[at - 1] < items[at]) else {
        return false;
    };
    let swap = (at..items.len())
        .rev()
        .find(|&other| items[at - 1] < items[other])
        .expect("the item at `at` is larger");
    items.swap(at - 1, swap);
    items[at..].reverse();
    true
}

/// The table with its processes renamed, its messages in rising order again:
/// process p becomes `names[p]`.
pub fn renamed(table: &Table, names: &[usize]) -> Table {
    let mut counts = vec![0; names.len()];
    for (p, &count) in table.counts.iter().enumerate() {
        counts[names[p]] = count;
    }
    let mut messages: Vec<Message> = table
        .messages
        .iter()
        .map(|message| renamed_message(message, names))
        .collect();
    messages.sort_unstable();
    Table { counts, messages }
}

/// The message with its processes renamed.
pub fn renamed_message(message: &Message, names: &[usize]) -> Message {
    Message::new(
        (names[message.sender], message.sent),
        (names[message.receiver], message.received),
    )
}

/// The least of all renamings of a table, and the names that lead to it.
pub fn least_renaming(table: &Table) -> (Table, Vec<usize>) {
    let mut names: Vec<usize> = (0..table.processes()).collect();
    let mut least = (renamed(table, &names), names.clone());
    while next_order(&mut names) {
        let other = renamed(table, &names);
        if (&other.counts, &other.messages) < (&least.0.counts, &least.0.messages) {
            least = (other, names.clone());
        }
    }
    least
}

#[cfg(test)]
mod tests {
    use super::*;
    use reference::gen::{all_tables, all_tables_of_both_sides};
    use reference::steps::passes_over;
    use std::collections::HashSet;

    /// Every table of a scope comes once, in agreement with the enumeration of
    /// the second implementation, and so do those in turn.
    #[test]
    fn every_table_once() {
        for (processes, states, messages) in [(1, 3, 2), (2, 2, 3), (2, 3, 2), (3, 2, 2)] {
            let scope = Scope::of(processes, states, messages);
            let all = all_tables_of_both_sides(processes, states, messages);
            assert_eq!(tables_of(scope), all.collect());
            let in_turn = all_tables(processes, states, messages);
            assert_eq!(scope.in_turn(), in_turn.count() as u64);
        }
    }

    /// With a bound on the states in all there are those that keep to it.
    #[test]
    fn every_table_of_a_total_once() {
        for (total, messages) in [(1, 2), (3, 2), (4, 2), (5, 1)] {
            let scope = Scope::of_total(total, messages);
            let keeps = |table: &Table| table.counts.iter().sum::<u32>() <= total;
            let all = all_tables_of_both_sides(total as usize, total, messages);
            assert_eq!(tables_of(scope), all.filter(keeps).collect());
            let in_turn = all_tables(total as usize, total, messages);
            assert_eq!(scope.in_turn(), in_turn.filter(keeps).count() as u64);
        }
    }

    /// Two messages of one channel with c send numbers and d receipt numbers,
    /// waiting among them: c x d squared are there in all, and in turn are those in
    /// which neither falls, 1 + ... + c times 1 + ... + d.
    #[test]
    fn both_sides_by_hand() {
        // One state each: of 4 pairs 3 are in turn, in either direction.
        let one = Scope::of(2, 1, 2);
        assert_eq!((one.size(), one.in_turn()), (1 + 1 + 4 + 16, 22 - 2));
        // Counts 1 and 2: 9 - 6 and 16 - 9; twice 2: 36 - 18 in either direction.
        let two = Scope::of(2, 2, 2);
        let broken = 2 + 2 * (3 + 7) + 2 * 18;
        assert_eq!(two.size() - two.in_turn(), broken);
        // Three messages in one channel: of 8 the waiting come last in 4; of two
        // in one channel and one in the other, 1 of 4 pairs is broken, whatever the
        // third is and wherever it stands.
        let three = Scope::of(2, 1, 3);
        let broken = 2 + 2 * (8 - 4) + 2 * (3 * 2);
        assert_eq!(three.size() - three.in_turn(), broken);
        // No messages, no order.
        let none = Scope::of(3, 4, 0);
        assert_eq!(none.size(), none.in_turn());
    }

    /// Lists of a process: with at most two messages one is passed over just where
    /// both wait in one channel and the later is taken without the other.
    #[test]
    fn lists_by_hand() {
        // The tables are: one process; two of them with no message, with one (two
        // wait, two are received), and with two in turn.
        let (good, ordered) = Scope::of(2, 1, 2).lists();
        assert_eq!(good - ordered, 2);
        // One process: one list. Two: on the empty table two, one each. One message
        // that waits: two lists of its receiver and one of the other.
        let (good, ordered) = Scope::of(2, 1, 1).lists();
        assert_eq!((good, ordered), (1 + 2 + 2 * 3 + 2 * 2, good));
        // Two states: as many tables with two waiting messages of a channel as it
        // has pairs of send numbers that do not fall, 1 or 3.
        let (good, ordered) = Scope::of(2, 2, 2).lists();
        assert_eq!(good - ordered, 2 + 2 * (1 + 3) + 2 * 3);
    }

    /// The same by listing.
    #[test]
    fn lists_by_listing() {
        for (processes, states, messages) in [(2, 2, 3), (3, 1, 3), (2, 3, 2), (3, 2, 2)] {
            let (mut good, mut ordered) = (0, 0);
            for table in all_tables(processes, states, messages) {
                for i in 0..table.processes() {
                    let waiting = table.waiting_for(i);
                    for choice in 0..1 << waiting.len() {
                        let chosen = (0..waiting.len()).filter(|at| choice >> at & 1 == 1);
                        let list: Vec<usize> = chosen.map(|at| waiting[at]).collect();
                        good += 1;
                        ordered += u64::from(!passes_over(&table, &list));
                    }
                }
            }
            let scope = Scope::of(processes, states, messages);
            assert_eq!(scope.lists(), (good, ordered));
        }
    }

    /// Where some order of the messages is in turn, one is found, and it has them all.
    #[test]
    fn an_order_in_turn_is_found() {
        let (mut found, mut none) = (0, 0);
        let all: Result<(), ()> = Scope::of(2, 2, 3).each_sorted(|sorted| {
            let mut table = sorted.clone();
            let mut any = !out_of_turn_in_pairs(&table.messages);
            while next_order(&mut table.messages) {
                any = any || !out_of_turn_in_pairs(&table.messages);
            }
            let turned = put_in_turn(sorted);
            assert_eq!(turned.is_some(), any, "{sorted:?}");
            match turned {
                None => none += 1,
                Some(mut turned) => {
                    turned.messages.sort_unstable();
                    assert_eq!(&turned, sorted);
                    found += 1;
                }
            }
            Ok(())
        });
        assert_eq!(all, Ok(()));
        assert!(found > 500 && none > 50, "{found} {none}");
    }

    /// All tables of a scope, each of which came once.
    fn tables_of(scope: Scope) -> HashSet<Table> {
        let mut met = HashSet::new();
        let mut times = Met::default();
        let all: Result<(), ()> = scope.each_sorted(|sorted| {
            let mut table = sorted.clone();
            loop {
                times.is_in_turn(&table);
                met.insert(table.clone());
                if !next_order(&mut table.messages) {
                    return Ok(());
                }
            }
        });
        assert_eq!(all, Ok(()));
        times.is_all_of(scope);
        assert_eq!(met.len() as u64, scope.size());
        met
    }

    #[test]
    fn renamings_have_one_least() {
        let table = Table {
            counts: vec![3, 1, 2],
            messages: vec![Message::new((0, 2), (2, 1)), Message::new((2, 0), (1, 0))],
        };
        let (least, names) = least_renaming(&table);
        assert_eq!(renamed(&table, &names), least);
        assert_eq!(least.counts, [1, 2, 3]);
        let mut other_names = vec![0, 1, 2];
        loop {
            let other = renamed(&table, &other_names);
            assert_eq!(least_renaming(&other).0, least);
            if !next_order(&mut other_names) {
                break;
            }
        }
    }
}
