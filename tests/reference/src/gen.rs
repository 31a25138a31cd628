//! Tables for tests: by chance, by pattern, damaged on purpose, and all of
//! them up to a size; and ceilings and names of states for a table. The same
//! seed always gives the same table.

use std::cmp::Reverse;
use std::collections::BTreeMap;

use crate::lines::line_by_work_list;
use crate::steps::{do_fall_back, do_receive, do_save, do_send};
use crate::table::{
    count, messages, out_of_turn_in_pairs, processes, receiver, sender, Message, Table,
    MOST_MESSAGES, MOST_PROCESSES, MOST_STATES, TABLE_CHECKS,
};

// ---------------------------------------------------------------------------
// Chance.

/// A small generator of pseudo-random numbers (the splitmix64 recipe).
#[derive(Clone, Debug)]
pub struct Rng {
    state: u64,
}

impl Rng {
    /// A generator that depends on the seed alone.
    pub fn new(seed: u64) -> Rng {
        Rng { state: seed }
    }

    /// The next 64 bits.
    pub fn next_bits(&mut self) -> u64 {
        self.state = self.state.wrapping_add(0x9E37_79B9_7F4A_7C15);
        let mut bits = self.state;
        bits = (bits ^ (bits >> 30)).wrapping_mul(0xBF58_476D_1CE4_E5B9);
        bits = (bits ^ (bits >> 27)).wrapping_mul(0x94D0_49BB_1331_11EB);
        bits ^ (bits >> 31)
    }

    /// A number from `low` to `high`, both included.
    pub fn between(&mut self, low: usize, high: usize) -> usize {
        assert!(low <= high, "an empty range has no number");
        let width = (high - low) as u64 + 1;
        low + (self.next_bits() % width) as usize
    }

    /// True about `times` times out of `of`.
    pub fn chance(&mut self, times: usize, of: usize) -> bool {
        self.between(1, of) <= times
    }

    /// Puts a slice in a chance order.
    pub fn shuffle<T>(&mut self, items: &mut [T]) {
        for last in (1..items.len()).rev() {
            let other = self.between(0, last);
            items.swap(last, other);
        }
    }

    /// Two different processes out of n; n is 2 or more.
    fn two_processes(&mut self, n: usize) -> (usize, usize) {
        let j = self.between(0, n - 1);
        let i = (j + self.between(1, n - 1)) % n;
        (j, i)
    }
}

// ---------------------------------------------------------------------------
// Channels in order.

/// The positions of each channel, rising, by sender and then receiver.
pub fn channels(messages: &[Message]) -> Vec<Vec<usize>> {
    let mut all: BTreeMap<(usize, usize), Vec<usize>> = BTreeMap::new();
    for (k, message) in messages.iter().enumerate() {
        let channel = (message.sender, message.receiver);
        all.entry(channel).or_default().push(k);
    }
    all.into_values().collect()
}

/// Puts the messages of each channel in turn: its send numbers rise from position
/// to position, and so do its receipt numbers, those that wait last. Each channel
/// has the numbers that it had, and keeps its positions.
pub fn put_in_turn(messages: &mut [Message]) {
    for positions in channels(messages) {
        let mut sends: Vec<u32> = positions.iter().map(|&k| messages[k].sent).collect();
        let mut receipts: Vec<u32> = positions.iter().map(|&k| messages[k].received).collect();
        sends.sort_unstable();
        receipts.sort_unstable_by_key(|&received| (received == 0, received));
        for (at, &k) in positions.iter().enumerate() {
            messages[k].sent = sends[at];
            messages[k].received = receipts[at];
        }
    }
}

/// Of the positions waiting for a process, rising, as many of each channel as
/// were chosen, the oldest ones, so that none is passed over.
pub fn oldest_as_many(table: &Table, waiting: &[usize], chosen: &[usize]) -> Vec<usize> {
    let mut many = vec![0; table.processes()];
    for &k in chosen {
        many[table.messages[k].sender] += 1;
    }
    let mut list = waiting.to_vec();
    list.retain(|&k| {
        let left = &mut many[table.messages[k].sender];
        let taken = *left > 0;
        *left -= usize::from(taken);
        taken
    });
    list
}

/// A way in which a later message of a channel breaks its order.
#[derive(Clone, Copy, Debug, PartialEq, Eq)]
pub enum Fault {
    /// Its send number is smaller.
    Sent,
    /// It is received while the earlier one waits.
    Waiting,
    /// Both are received, and its receipt number is smaller.
    Received,
}

impl Fault {
    /// All the ways.
    pub const ALL: [Fault; 3] = [Fault::Sent, Fault::Waiting, Fault::Received];
}

/// Breaks the order of one channel of an accepted table in this way, and in no
/// other: of two messages which already are of one channel, or become so. `None`
/// for a table of fewer than two messages, or where the counts do not have two
/// numbers for it.
pub fn put_out_of_turn(rng: &mut Rng, table: &Table, fault: Fault) -> Option<Table> {
    let mut broken = table.clone();
    let m = table.messages.len();
    if m < 2 {
        return None;
    }
    let mut many = channels(&table.messages);
    many.retain(|positions| positions.len() > 1);
    if many.is_empty() || rng.chance(1, 4) {
        let later = rng.between(1, m - 1);
        let earlier = rng.between(0, later - 1);
        broken.messages[later] = broken.messages[earlier];
        put_in_turn(&mut broken.messages);
        many = channels(&broken.messages);
        many.retain(|positions| positions.contains(&earlier));
    }
    let positions = &many[rng.between(0, many.len() - 1)];
    let at = rng.between(1, positions.len() - 1);
    let later = positions[at];
    let earlier = positions[rng.between(0, at - 1)];
    let Message {
        sender, receiver, ..
    } = broken.messages[later];
    let last = table.counts[sender] as usize - 1;
    let count = table.counts[receiver] as usize;
    let messages = &mut broken.messages;
    match fault {
        Fault::Sent => {
            if last == 0 {
                return None;
            }
            let sent = rng.between(1, last);
            messages[earlier].sent = sent as u32;
            messages[later].sent = rng.between(0, sent - 1) as u32;
        }
        Fault::Waiting => {
            if messages[later].waiting() {
                let before = positions[..at].iter().map(|&k| messages[k].received);
                let least = before.max().unwrap_or(0).max(1);
                messages[later].received = rng.between(least as usize, count) as u32;
            }
            messages[earlier].received = 0;
        }
        Fault::Received => {
            if count == 1 {
                return None;
            }
            for &k in &positions[..at] {
                if messages[k].waiting() {
                    messages[k].received = count as u32;
                }
            }
            let received = rng.between(1, count - 1);
            messages[later].received = received as u32;
            messages[earlier].received = rng.between(received + 1, count) as u32;
        }
    }
    Some(broken)
}

// ---------------------------------------------------------------------------
// Tables by chance. Each kind is made with unsaved messages, and as it was before
// document 02, §4, without them. They are accepted, but for those of
// [`in_any_order`].

/// Whether the messages of a channel are in turn.
#[derive(Clone, Copy, Debug, PartialEq, Eq)]
enum Turn {
    /// Each channel is in order: "Channels deliver in turn."
    Kept,
    /// They come as they come, as before document 02, §7.
    Any,
}

/// A table of the named kind as its seed gave it before document 02, §7, so that
/// channels are in any order: `history`, `arbitrary` and `clustered`, and with
/// unsaved messages `history-unsaved` and so on. `None` for another kind.
pub fn in_any_order(rng: &mut Rng, kind: &str, n: usize, m: usize) -> Option<Table> {
    Some(match kind {
        "history" => history_with(rng, n, m, 0, Turn::Any),
        "history-unsaved" => {
            let receive_share = rng.between(5, 70);
            history_with(rng, n, m, receive_share, Turn::Any)
        }
        "arbitrary" => {
            let most = some_most(rng);
            arbitrary_with(rng, n, m, most, &saved_receipt, Turn::Any)
        }
        "arbitrary-unsaved" => {
            let most = some_most(rng);
            arbitrary_with(rng, n, m, most, &any_receipt, Turn::Any)
        }
        "clustered" => clustered_with(rng, n, m, &near_and_saved, Turn::Any),
        "clustered-unsaved" => clustered_with(rng, n, m, &near_or_unsaved, Turn::Any),
        _ => return None,
    })
}

/// The highest count of an arbitrary table that is made by its name.
fn some_most(rng: &mut Rng) -> u32 {
    [2, 8, 64, 512, MOST_STATES][rng.between(0, 4)]
}

/// A history made by the steps alone, from processes with one state each. It
/// ends soon after the m-th message, or after a bounded number of steps. Half
/// of the histories fall back now and then. Follows "Send from j to i", "Save
/// by i" and "Fall back" of the section on steps, and document 02, §4: "A step
/// that receives is added". It receives each channel's messages in the order sent.
pub fn history(rng: &mut Rng, n: usize, m: usize) -> Table {
    let receive_share = rng.between(5, 70);
    history_with(rng, n, m, receive_share, Turn::Kept)
}

/// A history without receipts: a process receives when it saves.
pub fn saved_history(rng: &mut Rng, n: usize, m: usize) -> Table {
    history_with(rng, n, m, 0, Turn::Kept)
}

/// A history in which so many of a hundred steps that are no sends and no fall
/// backs receive, and the others save.
fn history_with(rng: &mut Rng, n: usize, m: usize, receive_share: usize, turn: Turn) -> Table {
    let mut table = Table::start(n);
    let most_steps = 4 * m + 3 * n;
    let fall_backs = rng.chance(1, 2);
    let send_share = rng.between(30, 80);
    let take_share = rng.between(20, 100);
    let mut steps_after = rng.between(0, 2 * n);
    for _ in 0..most_steps {
        if table.messages.len() == m {
            if steps_after == 0 {
                break;
            }
            steps_after -= 1;
        }
        if fall_backs && rng.chance(3, most_steps) {
            do_fall_back(&mut table);
        } else if n > 1 && table.messages.len() < m && rng.chance(send_share, 100) {
            let (j, i) = rng.two_processes(n);
            do_send(&mut table, j, i);
        } else {
            let i = rng.between(0, n - 1);
            let receives = receive_share > 0 && rng.chance(receive_share, 100);
            if receives || table.counts[i] < MOST_STATES {
                let waiting = table.waiting_for(i);
                let mut list = waiting.clone();
                list.retain(|_| rng.chance(take_share, 100));
                if turn == Turn::Kept {
                    list = oldest_as_many(&table, &waiting, &list);
                }
                if receives {
                    do_receive(&mut table, i, &list);
                } else {
                    do_save(&mut table, i, &list);
                }
            }
        }
    }
    table
}

/// Any accepted table with n processes, m messages (none for one process) and
/// counts of at most `most`: "N is 1 to 32, M is 0 to 4,096, each count 1 to
/// 4,096." It need not be a run that could have happened. One message in seven
/// or more is unsaved, however large the counts are.
pub fn arbitrary(rng: &mut Rng, n: usize, m: usize, most: u32) -> Table {
    arbitrary_with(rng, n, m, most, &any_receipt, Turn::Kept)
}

/// Any accepted table whose receipt numbers are all below the counts.
pub fn saved_arbitrary(rng: &mut Rng, n: usize, m: usize, most: u32) -> Table {
    arbitrary_with(rng, n, m, most, &saved_receipt, Turn::Kept)
}

/// A receipt number up to the count, and that one more often.
fn any_receipt(rng: &mut Rng, count: u32) -> u32 {
    if rng.chance(1, 7) {
        count
    } else {
        rng.between(0, count as usize) as u32
    }
}

/// A receipt number below the count.
fn saved_receipt(rng: &mut Rng, count: u32) -> u32 {
    rng.between(0, count as usize - 1) as u32
}

/// Any table, with `receipt` for a receipt number under a count.
fn arbitrary_with(
    rng: &mut Rng,
    n: usize,
    m: usize,
    most: u32,
    receipt: &dyn Fn(&mut Rng, u32) -> u32,
    turn: Turn,
) -> Table {
    let counts: Vec<u32> = (0..n)
        .map(|_| rng.between(1, most as usize) as u32)
        .collect();
    let mut table = Table {
        counts,
        messages: Vec::new(),
    };
    for _ in 0..if n > 1 { m } else { 0 } {
        let (j, i) = rng.two_processes(n);
        let sent = rng.between(0, table.counts[j] as usize - 1) as u32;
        let received = receipt(rng, table.counts[i]);
        table.messages.push(Message::new((j, sent), (i, received)));
    }
    if turn == Turn::Kept {
        put_in_turn(&mut table.messages);
    }
    table
}

/// An accepted table with traffic in clusters ("N is 1 to 32, M is 0 to 4,096,
/// each count 1 to 4,096"): most messages stay within a small group of
/// processes and are received near the time of their sending, few cross the
/// groups. So single-holder lines differ from one group to the other. What
/// would be received after the last state is unsaved.
pub fn clustered(rng: &mut Rng, n: usize, m: usize) -> Table {
    clustered_with(rng, n, m, &near_or_unsaved, Turn::Kept)
}

/// The same, where what would be received after the last state waits.
pub fn saved_clustered(rng: &mut Rng, n: usize, m: usize) -> Table {
    clustered_with(rng, n, m, &near_and_saved, Turn::Kept)
}

/// A receipt near a number, unsaved where that is above the last state.
fn near_or_unsaved(near: u32, count: u32) -> u32 {
    near.min(count)
}

/// A receipt near a number, waiting where that is above the last state.
fn near_and_saved(near: u32, count: u32) -> u32 {
    if near < count {
        near
    } else {
        0
    }
}

/// Traffic in clusters, with `receipt` for a receipt near a number and under a
/// count.
fn clustered_with(
    rng: &mut Rng,
    n: usize,
    m: usize,
    receipt: &dyn Fn(u32, u32) -> u32,
    turn: Turn,
) -> Table {
    let group = rng.between(2, 5);
    let share = m / n.max(1);
    let most = (share + 4).clamp(2, MOST_STATES as usize);
    let counts: Vec<u32> = (0..n)
        .map(|_| rng.between(most.div_ceil(2), most) as u32)
        .collect();
    let mut table = Table {
        counts,
        messages: Vec::new(),
    };
    let mut late = Vec::new();
    for k in 0..if n > 1 { m } else { 0 } {
        let (j, mut i) = rng.two_processes(n);
        if rng.chance(19, 20) {
            // Choose the receiver inside the group of the sender, if it can.
            let first = j / group * group;
            let size = group.min(n - first);
            if size > 1 {
                i = first + (j - first + rng.between(1, size - 1)) % size;
            }
        }
        let sent = rng.between(0, table.counts[j] as usize - 1) as u32;
        let near = sent + 2 - rng.between(0, 2) as u32;
        let received = receipt(near, table.counts[i]);
        table.messages.push(Message::new((j, sent), (i, received)));
        if rng.chance(1, 12) {
            late.push(k);
        }
    }
    if turn == Turn::Any {
        late.into_iter()
            .for_each(|k| table.messages[k].received = 0);
        return table;
    }
    put_in_turn(&mut table.messages);
    // For each that is late the last one of its channel that was received waits:
    // so the others are still received near the time of their sending.
    for k in late {
        let one = table.messages[k];
        let mut last = table.messages.iter_mut().rev();
        if let Some(message) = last.find(|other| other.same_channel(&one) && !other.waiting()) {
            message.received = 0;
        }
    }
    table
}

// ---------------------------------------------------------------------------
// Dominoes.

/// The order in which the messages of a domino stand in the table.
#[derive(Clone, Copy, Debug, PartialEq, Eq)]
pub enum Order {
    /// In the order of sending.
    Time,
    /// Round after round, each message before the one that makes it an orphan:
    /// the chain runs against the order of passes, all the way.
    RoundsAgainst,
    /// Round after round, each message of a round behind the one that makes it an
    /// orphan: the chain runs with the order of passes, as far as a round goes.
    RoundsAlong,
    /// All messages of one sender together, in the order of sending.
    BySender,
    /// The same, the last sender first.
    BySenderBackward,
    /// By chance, and each channel in the order of sending.
    Interleaved,
    /// The latest sent message first.
    Reverse,
    /// By chance.
    Shuffled,
    /// First every second message, then the others.
    EverySecond,
}

impl Order {
    /// The orders in which each channel is in turn, whatever the size.
    pub const ALL: [Order; 6] = [
        Order::Time,
        Order::RoundsAgainst,
        Order::RoundsAlong,
        Order::BySender,
        Order::BySenderBackward,
        Order::Interleaved,
    ];

    /// The orders in which later messages of a channel stand before earlier ones:
    /// in reverse where a channel has two messages, by chance in most cases, and
    /// with every second one first in rings of an odd number of processes with
    /// three rounds or more.
    pub const OUT_OF_TURN: [Order; 3] = [Order::Reverse, Order::Shuffled, Order::EverySecond];

    /// Puts the messages of rounds of n, which stand in the order of sending and
    /// end with a whole round, into this order.
    fn arrange(self, rng: &mut Rng, n: usize, messages: &mut [Message]) {
        match self {
            Order::Time => {}
            // The chain begins with the message that is sent last in a round, and
            // then goes through the others as they were sent.
            Order::RoundsAgainst => {
                for round in messages.rchunks_mut(n) {
                    let others = round.len() - 1;
                    round[..others].reverse();
                }
            }
            Order::RoundsAlong => {
                for round in messages.rchunks_mut(n) {
                    round.rotate_right(1);
                }
            }
            Order::BySender => messages.sort_by_key(|message| message.sender),
            Order::BySenderBackward => messages.sort_by_key(|message| Reverse(message.sender)),
            Order::Interleaved => {
                // Which channel stands where is by chance.
                let mut left = channels(messages);
                left.iter_mut().for_each(|positions| positions.reverse());
                let mut lots: Vec<usize> = (0..left.len())
                    .flat_map(|channel| vec![channel; left[channel].len()])
                    .collect();
                rng.shuffle(&mut lots);
                let old = messages.to_vec();
                for (place, channel) in messages.iter_mut().zip(lots) {
                    *place = old[left[channel].pop().expect("as many lots as messages")];
                }
            }
            Order::Reverse => messages.reverse(),
            Order::Shuffled => rng.shuffle(messages),
            Order::EverySecond => {
                let old = messages.to_vec();
                let even = old.iter().step_by(2);
                let odd = old.iter().skip(1).step_by(2);
                for (place, message) in messages.iter_mut().zip(even.chain(odd)) {
                    *place = *message;
                }
            }
        }
    }
}

/// A domino around a ring of n processes (2 or more) with m messages: each
/// message is an orphan as soon as the one after it in the chain has put its
/// sender back. When m is a multiple of n, the recovery line is all zeros;
/// otherwise the oldest messages are missing and the chain stops earlier.
/// Made to strain "an orphan of a line puts its receiver back to r - 1; passes
/// over the messages go on until a pass lowers nothing."
pub fn ring_domino(rng: &mut Rng, n: usize, m: usize, order: Order) -> Table {
    ring_dominoes(rng, 1, n, m, order)
}

/// So many ring dominoes of n processes each that share no process, with m messages
/// in all: the rings take turns, a round each. See [`ring_domino`].
pub fn ring_dominoes(rng: &mut Rng, rings: usize, n: usize, m: usize, order: Order) -> Table {
    assert!(rings >= 1 && n >= 2, "a ring has two processes or more");
    let rounds = m.div_ceil(rings * n);
    let mut messages = Vec::new();
    for round in 1..=rounds as u32 {
        for first in (0..rings).map(|ring| ring * n) {
            for p in 1..n {
                let receipt = (first + (p + 1) % n, round);
                messages.push(Message::new((first + p, round - 1), receipt));
            }
            messages.push(Message::new((first, round), (first + 1, round)));
        }
    }
    let mut messages = messages.split_off(messages.len() - m);
    order.arrange(rng, n, &mut messages);
    Table {
        counts: vec![rounds as u32 + 1; rings * n],
        messages,
    }
}

/// The ring domino of m messages before the states of its last round are saved, and
/// before the last message is sent. Each process has sent since its last state, and
/// that message is received, by process 1 saved and by the others not: so whichever
/// process holds, the chain goes all round the ring, as far as there are messages.
pub fn ring_unsaved(rng: &mut Rng, n: usize, m: usize, order: Order) -> Table {
    let mut ring = ring_domino(rng, n, m + 1, order);
    let last = ring.counts[0] - 1;
    ring.messages
        .retain(|message| (message.sender, message.sent) != (0, last));
    ring.counts = vec![last; n];
    ring
}

/// The domino of two processes with m messages, in the given order; see
/// [`ring_domino`].
pub fn domino_chain(rng: &mut Rng, m: usize, order: Order) -> Table {
    ring_domino(rng, 2, m, order)
}

// ---------------------------------------------------------------------------
// Tables at the limits.

/// A table in which every single-holder line stands elsewhere at every later
/// process, so that n x (n + 1) / 2 states are kept. `count` is above n.
/// Follows "State c of process i is kept when some line whose holding set is a
/// single process has c at i".
pub fn staircase(n: usize, count: u32) -> Table {
    assert!(count as usize > n, "the stairs need one state each");
    let mut messages = Vec::new();
    for j in 0..n {
        for i in j + 1..n {
            messages.push(Message::new((j, count - 1), (i, j as u32 + 1)));
        }
    }
    Table {
        counts: vec![count; n],
        messages,
    }
}

/// The stairs with m messages: theirs over and over. As many states are kept, once
/// each message of the stairs is there, and no message is.
pub fn staircase_repeated(n: usize, count: u32, m: usize) -> Table {
    let mut stairs = staircase(n, count);
    let all = stairs.messages.clone();
    stairs.messages = all.into_iter().cycle().take(m).collect();
    stairs
}

/// Tables with N = 32, M = 4,096 and all counts 4,096: "32,836 at most."
pub fn limit_tables(rng: &mut Rng) -> Vec<Table> {
    let n = MOST_PROCESSES;
    let counts = vec![MOST_STATES; n];
    let last = MOST_STATES as usize - 1;
    let filled = |rng: &mut Rng, make: &dyn Fn(&mut Rng) -> (u32, u32)| {
        let mut messages = Vec::new();
        for _ in 0..MOST_MESSAGES {
            let (j, i) = rng.two_processes(n);
            let (sent, received) = make(rng);
            messages.push(Message::new((j, sent), (i, received)));
        }
        put_in_turn(&mut messages);
        Table {
            counts: counts.clone(),
            messages,
        }
    };
    let mut tables = vec![
        // All waiting: nothing falls, all 4,096 messages are kept.
        filled(rng, &|rng| (rng.between(0, last) as u32, 0)),
        // Anything.
        filled(rng, &|rng| {
            (rng.between(0, last) as u32, rng.between(0, last) as u32)
        }),
        // Sent early and received late: many messages cross.
        filled(rng, &|rng| {
            (
                rng.between(0, 40) as u32,
                rng.between(last - 40, last) as u32,
            )
        }),
        // Sent at the very end, received at the very start.
        filled(rng, &|_| (last as u32, 1)),
        // Received soon after the sending.
        filled(rng, &|rng| {
            let sent = rng.between(0, last - 3) as u32;
            (sent, sent + 1 + rng.between(0, 2) as u32)
        }),
    ];
    // Ring dominoes pushed up to the last states, in every order that is in turn.
    for order in Order::ALL {
        let mut ring = ring_domino(rng, n, MOST_MESSAGES, order);
        let lift = MOST_STATES - ring.counts[0];
        for message in &mut ring.messages {
            message.sent += lift;
            message.received += lift;
        }
        ring.counts = counts.clone();
        tables.push(ring);
    }
    // The stairs, filled up with waiting messages.
    let mut stairs = staircase(n, MOST_STATES);
    while stairs.messages.len() < MOST_MESSAGES {
        let (j, i) = rng.two_processes(n);
        stairs.messages.push(Message::new((j, last as u32), (i, 0)));
    }
    tables.push(stairs);
    // Sent from the last states and unsaved: whoever holds puts all others back
    // to their last states, and no message is kept.
    tables.push(filled(rng, &|_| (last as u32, MOST_STATES)));
    // Waiting, received by the last state, and unsaved.
    tables.push(filled(rng, &|rng| {
        let received = [0, MOST_STATES - 1, MOST_STATES][rng.between(0, 2)];
        (rng.between(0, last) as u32, received)
    }));
    tables
}

// ---------------------------------------------------------------------------
// Ceilings for an accepted table.

/// Ceilings by chance that no check refuses: "one ceiling for each process, a
/// state number up to and including its count". Some are 0, the last state or
/// the count, some stand at a send or receipt of their process or next to it,
/// the others anywhere.
pub fn ceilings(rng: &mut Rng, table: &Table) -> Vec<u16> {
    let mut list = Vec::new();
    for (p, &count) in table.counts.iter().enumerate() {
        let count = count as usize;
        let at = match rng.between(0, 6) {
            0 => 0,
            1 => count - 1,
            2 | 3 => count,
            4 => rng.between(0, count),
            _ => near_a_message(rng, table, p).unwrap_or(count).min(count),
        };
        list.push(at as u16);
    }
    list
}

/// The number of a send or receipt of process p, or one next to it.
fn near_a_message(rng: &mut Rng, table: &Table, p: usize) -> Option<usize> {
    let messages = table.messages.iter();
    let numbers: Vec<u32> = messages
        .filter(|message| p == message.sender || p == message.receiver)
        .map(|message| {
            if p == message.sender {
                message.sent
            } else {
                message.received
            }
        })
        .collect();
    let last = numbers.len().checked_sub(1)?;
    let number = numbers[rng.between(0, last)] as usize;
    Some((number + rng.between(0, 2)).saturating_sub(1))
}

/// Lists on both sides of "A ceiling list whose length isn't N gives 17 and a
/// ceiling above its process's count gives 18": the counts, the last states,
/// zeros; the counts with one of them 0, lower by one, higher by one or
/// 65,535; and lists of 0, N - 1 and N + 1 numbers, zeros or 65,535.
pub fn boundary_ceilings(table: &Table) -> Vec<Vec<u16>> {
    let n = table.processes();
    let counts: Vec<u16> = table.counts.iter().map(|&count| count as u16).collect();
    let last = counts.iter().map(|count| count - 1).collect();
    let mut lists = vec![counts.clone(), last, vec![0; n]];
    for p in 0..n {
        for at in [0, counts[p] - 1, counts[p] + 1, u16::MAX] {
            let mut list = counts.clone();
            list[p] = at;
            lists.push(list);
        }
    }
    for length in [0, n - 1, n + 1] {
        lists.extend([vec![0; length], vec![u16::MAX; length]]);
    }
    lists
}

// ---------------------------------------------------------------------------
// Names of states of an accepted table.

/// "two parallel lists, processes and state numbers".
pub type Names = (Vec<u16>, Vec<u16>);

/// Names by chance that no check refuses: some of the processes, rising, each
/// with a state below its count. In two of three lists each state is chosen for
/// itself: 0, the last one, one next to a message, or any. In the third they are
/// states of one line under chance ceilings, which stand together, and then, two
/// times of three, one of them is moved by one.
pub fn names(rng: &mut Rng, table: &Table) -> Names {
    let n = table.processes();
    let share = if rng.chance(1, 12) {
        0
    } else {
        rng.between(1, 4)
    };
    let mut named: Vec<usize> = (0..n).filter(|_| rng.chance(share, 4)).collect();
    let last = |p: usize| table.counts[p] as usize - 1;
    let mut states: Vec<usize>;
    if rng.chance(2, 3) {
        states = Vec::new();
        for &p in &named {
            let at = match rng.between(0, 4) {
                0 => 0,
                1 => last(p),
                2 => rng.between(0, last(p)),
                _ => near_a_message(rng, table, p).unwrap_or(0),
            };
            states.push(at.min(last(p)));
        }
    } else {
        let ceilings: Vec<u32> = ceilings(rng, table).into_iter().map(u32::from).collect();
        let line = line_by_work_list(table, &ceilings);
        named.retain(|&p| line[p] < table.counts[p]);
        states = named.iter().map(|&p| line[p] as usize).collect();
        if !named.is_empty() && rng.chance(2, 3) {
            let moved = rng.between(0, named.len() - 1);
            let at = (states[moved] + 2 * rng.between(0, 1)).saturating_sub(1);
            states[moved] = at.min(last(named[moved]));
        }
    }
    let small = |list: Vec<usize>| list.into_iter().map(|number| number as u16).collect();
    (small(named), small(states))
}

/// Lists on both sides of "Lists of unequal length give 20, a process of N or
/// above or not above the one before gives 21, and a state number not below its
/// count gives 22": no names; each process alone with its state 0, its last
/// state, its count, one more and 65,535; all processes with state 0, with their
/// last states and with their counts; N and 65,535 for the last of them; each
/// process twice, and with the one before it in the wrong order; a process of N
/// behind states that are all counts; and lists of which one is longer by one
/// number or the only one.
pub fn boundary_names(table: &Table) -> Vec<Names> {
    let n = table.processes() as u16;
    let all: Vec<u16> = (0..n).collect();
    let zeros = vec![0; all.len()];
    let counts: Vec<u16> = table.counts.iter().map(|&count| count as u16).collect();
    let last: Vec<u16> = counts.iter().map(|count| count - 1).collect();
    let mut lists = vec![(vec![], vec![])];
    for (&p, &count) in all.iter().zip(&counts) {
        for at in [0, count - 1, count, count + 1, u16::MAX] {
            lists.push((vec![p], vec![at]));
        }
        lists.push((vec![p, p], vec![0, 0]));
        if p > 0 {
            lists.push((vec![p, p - 1], vec![0, 0]));
        }
    }
    for states in [&zeros, &last, &counts] {
        lists.push((all.clone(), states.clone()));
    }
    for outside in [n, u16::MAX] {
        let (_, rest) = all.split_last().expect("a process");
        lists.push(([rest, &[outside]].concat(), zeros.clone()));
        lists.push((vec![outside], vec![0]));
    }
    lists.push(([&all[..], &[n]].concat(), [&counts[..], &[0]].concat()));
    lists.push((all.clone(), [&zeros[..], &[0]].concat()));
    lists.push(([&all[..], &[n]].concat(), zeros.clone()));
    lists.extend([(all, vec![]), (vec![], zeros)]);
    lists
}

// ---------------------------------------------------------------------------
// Receipt numbers of an accepted table.

/// The bytes with one receipt number made another, message by message, on both
/// sides of "Check 9 refuses only numbers above the count": 0, the count less
/// one, the count, one more and 65,535; each with the refusal that it meets. That
/// is 23 where it is no longer the message's turn to be received, or already past
/// its turn.
pub fn boundary_receipts(table: &Table) -> Vec<(Vec<u8>, u32)> {
    let mut all = Vec::new();
    for (k, message) in table.messages.iter().enumerate() {
        let count = table.counts[message.receiver];
        for (received, refusal) in [
            (0, 0),
            (count - 1, 0),
            (count, 0),
            (count + 1, 9),
            (u32::from(u16::MAX), 9),
        ] {
            let mut other = table.clone();
            other.messages[k].received = received;
            let broken = refusal == 0 && out_of_turn_in_pairs(&other.messages);
            all.push((other.to_bytes(), if broken { 23 } else { refusal }));
        }
    }
    all
}

// ---------------------------------------------------------------------------
// Damage. Each function takes an accepted table and yields bytes that meet its
// refusal first, or `None` when the table has no message to damage, and for 23
// when it does not have two.

/// Writes a number into the bytes.
fn set(bytes: &mut [u8], at: usize, number: usize) {
    let number = u16::try_from(number).expect("16 bits");
    bytes[at..at + 2].copy_from_slice(&number.to_le_bytes());
}

/// Where the send (process and then number) of message k stands, and where its
/// receipt.
fn entry_at(bytes: &[u8], k: usize) -> (usize, usize) {
    let sends = 4 + 2 * usize::from(processes(bytes));
    let receipts = sends + 4 * usize::from(messages(bytes));
    (sends + 4 * k, receipts + 4 * k)
}

/// Any one message of the table.
fn some_message(rng: &mut Rng, bytes: &[u8]) -> Option<usize> {
    match usize::from(messages(bytes)) {
        0 => None,
        m => Some(rng.between(0, m - 1)),
    }
}

/// A number at or above `least`: often just that, or the largest.
fn at_least(rng: &mut Rng, least: usize) -> usize {
    match rng.between(0, 3) {
        0 => least,
        1 => 0xFFFF,
        2 => (least + rng.between(0, 3)).min(0xFFFF),
        _ => rng.between(least, 0xFFFF),
    }
}

/// Damage for "1. The table has fewer than 4 bytes."
pub fn cut_into_header(rng: &mut Rng, bytes: &[u8]) -> Option<Vec<u8>> {
    Some(bytes[..rng.between(0, 3)].to_vec())
}

/// Damage for "2. N is 0 or above 32."
pub fn break_process_number(rng: &mut Rng, bytes: &[u8]) -> Option<Vec<u8>> {
    let mut broken = bytes.to_vec();
    let n = if rng.chance(1, 3) {
        0
    } else {
        at_least(rng, 33)
    };
    set(&mut broken, 0, n);
    Some(broken)
}

/// Damage for "3. M is above 4,096."
pub fn break_message_number(rng: &mut Rng, bytes: &[u8]) -> Option<Vec<u8>> {
    let mut broken = bytes.to_vec();
    let m = at_least(rng, 4_097);
    set(&mut broken, 2, m);
    Some(broken)
}

/// Damage for "4. The length differs from 4 + 2N + 8M."
pub fn break_length(rng: &mut Rng, bytes: &[u8]) -> Option<Vec<u8>> {
    let mut broken = bytes.to_vec();
    match rng.between(0, 4) {
        0 => broken.push(0),
        1 => {
            for _ in 0..rng.between(1, 16) {
                broken.push(rng.next_bits() as u8);
            }
        }
        2 => broken.truncate(rng.between(4, bytes.len() - 1)),
        3 => {
            // Another M that is not too large.
            let m = usize::from(messages(bytes));
            let other = (m + rng.between(1, MOST_MESSAGES)) % (MOST_MESSAGES + 1);
            set(&mut broken, 2, other);
        }
        _ => {
            // Another N from 1 to 32.
            let n = usize::from(processes(bytes));
            let other = (n - 1 + rng.between(1, MOST_PROCESSES - 1)) % MOST_PROCESSES + 1;
            set(&mut broken, 0, other);
        }
    }
    Some(broken)
}

/// Damage for "5. A count is 0 or above 4,096."
pub fn break_count(rng: &mut Rng, bytes: &[u8]) -> Option<Vec<u8>> {
    let mut broken = bytes.to_vec();
    let p = rng.between(0, usize::from(processes(bytes)) - 1);
    let bad = if rng.chance(1, 3) {
        0
    } else {
        at_least(rng, 4_097)
    };
    set(&mut broken, 4 + 2 * p, bad);
    Some(broken)
}

/// Damage for "6. A sender or receiver is N or above."
pub fn break_process_of_message(rng: &mut Rng, bytes: &[u8]) -> Option<Vec<u8>> {
    let k = some_message(rng, bytes)?;
    let mut broken = bytes.to_vec();
    let (send, receipt) = entry_at(bytes, k);
    let bad = at_least(rng, usize::from(processes(bytes)));
    match rng.between(0, 2) {
        0 => set(&mut broken, send, bad),
        1 => set(&mut broken, receipt, bad),
        _ => {
            set(&mut broken, send, bad);
            set(&mut broken, receipt, bad);
        }
    }
    Some(broken)
}

/// Damage for "7. A message has the same sender and receiver."
pub fn make_self_message(rng: &mut Rng, bytes: &[u8]) -> Option<Vec<u8>> {
    let k = some_message(rng, bytes)?;
    let mut broken = bytes.to_vec();
    let (send, receipt) = entry_at(bytes, k);
    if rng.chance(1, 2) {
        set(&mut broken, receipt, usize::from(sender(bytes, k)));
    } else {
        set(&mut broken, send, usize::from(receiver(bytes, k)));
    }
    Some(broken)
}

/// Damage for "8. A send number is not below the sender's count."
pub fn break_send_number(rng: &mut Rng, bytes: &[u8]) -> Option<Vec<u8>> {
    let k = some_message(rng, bytes)?;
    let mut broken = bytes.to_vec();
    let limit = usize::from(count(bytes, usize::from(sender(bytes, k))));
    let bad = at_least(rng, limit);
    set(&mut broken, entry_at(bytes, k).0 + 2, bad);
    Some(broken)
}

/// Damage for "9. A receipt number is above the receiver's count."
pub fn break_receipt_number(rng: &mut Rng, bytes: &[u8]) -> Option<Vec<u8>> {
    let k = some_message(rng, bytes)?;
    let mut broken = bytes.to_vec();
    let highest = usize::from(count(bytes, usize::from(receiver(bytes, k))));
    let bad = at_least(rng, highest + 1);
    set(&mut broken, entry_at(bytes, k).1 + 2, bad);
    Some(broken)
}

/// Damage for "23. Of two messages with the same sender and receiver the later one has a smaller send number, or is received while the earlier one waits, or, where both are received, has a smaller receipt number."
///
/// In one of the three ways. A table with two messages can be broken in the second
/// at least.
pub fn break_channel_order(rng: &mut Rng, bytes: &[u8]) -> Option<Vec<u8>> {
    let table = Table::read(bytes).ok()?;
    let fault = Fault::ALL[rng.between(0, 2)];
    let broken = put_out_of_turn(rng, &table, fault);
    let broken = broken.or_else(|| put_out_of_turn(rng, &table, Fault::Waiting));
    Some(broken?.to_bytes())
}

/// Damage for one of the table's checks, by its number.
pub fn damage(rng: &mut Rng, bytes: &[u8], refusal: u32) -> Option<Vec<u8>> {
    match refusal {
        1 => cut_into_header(rng, bytes),
        2 => break_process_number(rng, bytes),
        3 => break_message_number(rng, bytes),
        4 => break_length(rng, bytes),
        5 => break_count(rng, bytes),
        6 => break_process_of_message(rng, bytes),
        7 => make_self_message(rng, bytes),
        8 => break_send_number(rng, bytes),
        9 => break_receipt_number(rng, bytes),
        23 => break_channel_order(rng, bytes),
        _ => None,
    }
}

/// Several damages in one table. The damage for the last check in checking
/// order comes first, so the refusal met is that of the first: "A check covers
/// the whole table or list before the next begins."
pub fn damage_many(rng: &mut Rng, bytes: &[u8], refusals: &[u32]) -> Option<Vec<u8>> {
    let mut sorted = refusals.to_vec();
    sorted.sort_unstable_by_key(|refusal| TABLE_CHECKS.iter().position(|check| check == refusal));
    let mut broken = bytes.to_vec();
    for &refusal in sorted.iter().rev() {
        broken = damage(rng, &broken, refusal)?;
    }
    Some(broken)
}

/// Bytes by chance, at most `longest` of them.
pub fn random_bytes(rng: &mut Rng, longest: usize) -> Vec<u8> {
    let length = rng.between(0, longest);
    (0..length).map(|_| rng.next_bits() as u8).collect()
}

/// A table of the right length for n and m whose other numbers are small and
/// by chance, so that the checks from 5 on are met in any mixture.
pub fn random_body(rng: &mut Rng, n: usize, m: usize) -> Vec<u8> {
    let mut bytes = vec![0; 4 + 2 * n + 8 * m];
    set(&mut bytes, 0, n);
    set(&mut bytes, 2, m);
    let highest = rng.between(1, 5);
    let entries = 4 + 2 * n;
    for at in (4..bytes.len()).step_by(2) {
        // Counts are lifted, and few processes are too high, so that some tables
        // get past the later checks; a state number may be above every count.
        let number = if at < entries {
            highest + rng.between(0, highest)
        } else {
            match (at - entries) % 4 {
                0 => rng.between(0, n * 8) / 8,
                _ => rng.between(0, 2 * highest + 1),
            }
        };
        set(&mut bytes, at, number);
    }
    // Half of the tables have most of their messages between two processes, with
    // numbers that are not too high, so that check 23 is met as well.
    if n > 1 && rng.chance(1, 2) {
        let (j, i) = rng.two_processes(n);
        for k in 0..m {
            if rng.chance(1, 12) {
                continue;
            }
            let (send, receipt) = entry_at(&bytes, k);
            let (from, to) = if rng.chance(3, 4) { (j, i) } else { (i, j) };
            set(&mut bytes, send, from);
            set(&mut bytes, send + 2, rng.between(0, highest - 1));
            set(&mut bytes, receipt, to);
            set(&mut bytes, receipt + 2, rng.between(0, highest));
        }
    }
    bytes
}

/// Every proper front part of the bytes, the longest first.
pub fn truncations(bytes: &[u8]) -> impl Iterator<Item = Vec<u8>> + '_ {
    (0..bytes.len())
        .rev()
        .map(|length| bytes[..length].to_vec())
}

// ---------------------------------------------------------------------------
// All tables up to a size.

/// Every table with at most `processes` processes, at most `states` saved states
/// each and at most `messages` messages that the checks 1 to 9 let pass.
pub struct AllTables {
    most_processes: usize,
    most_states: u32,
    most_messages: usize,
    counts: Vec<u32>,
    /// Every message the counts allow.
    choices: Vec<Message>,
    /// The messages of the next table, as indices of `choices`.
    picks: Vec<usize>,
    done: bool,
}

/// All accepted tables with N <= n, counts <= c and M <= m, each once.
pub fn all_tables(n: usize, c: u32, m: usize) -> impl Iterator<Item = Table> {
    all_tables_of_both_sides(n, c, m).filter(|table| !out_of_turn_in_pairs(&table.messages))
}

/// All tables with N <= n, counts <= c and M <= m that check 23 refuses or
/// nothing does, each once: "N is 1 to 32, M is 0 to 4,096, each count 1 to
/// 4,096", and the checks 6 to 9.
pub fn all_tables_of_both_sides(n: usize, c: u32, m: usize) -> AllTables {
    AllTables {
        most_processes: n,
        most_states: c,
        most_messages: m,
        counts: vec![1],
        choices: Vec::new(),
        picks: Vec::new(),
        done: n == 0 || c == 0,
    }
}

/// Every message that the checks 6 to 9 allow under these counts.
fn all_messages(counts: &[u32]) -> Vec<Message> {
    let mut all = Vec::new();
    for j in 0..counts.len() {
        for i in (0..counts.len()).filter(|&i| i != j) {
            for sent in 0..counts[j] {
                for received in 0..=counts[i] {
                    all.push(Message::new((j, sent), (i, received)));
                }
            }
        }
    }
    all
}

impl AllTables {
    /// Goes on to the next choice of messages, then to the next counts, then
    /// to one process more.
    fn go_on(&mut self) {
        for pick in &mut self.picks {
            *pick += 1;
            if *pick < self.choices.len() {
                return;
            }
            *pick = 0;
        }
        if self.picks.len() < self.most_messages && !self.choices.is_empty() {
            self.picks.push(0);
            return;
        }
        self.picks.clear();
        let full = self.counts.iter().all(|&count| count == self.most_states);
        if !full {
            for count in &mut self.counts {
                if *count < self.most_states {
                    *count += 1;
                    break;
                }
                *count = 1;
            }
        } else if self.counts.len() < self.most_processes {
            self.counts = vec![1; self.counts.len() + 1];
        } else {
            self.done = true;
        }
        self.choices = all_messages(&self.counts);
    }
}

impl Iterator for AllTables {
    type Item = Table;

    fn next(&mut self) -> Option<Table> {
        if self.done {
            return None;
        }
        let table = Table {
            counts: self.counts.clone(),
            messages: self.picks.iter().map(|&pick| self.choices[pick]).collect(),
        };
        self.go_on();
        Some(table)
    }
}

// ---------------------------------------------------------------------------
// By name, for the program.

/// The kinds that [`by_name`] knows, besides those below and `damage-1` to
/// `damage-9` and `damage-23`. But for the last two they are accepted.
pub const KINDS: [&str; 27] = [
    "history",
    "history-unsaved",
    "arbitrary",
    "arbitrary-unsaved",
    "clustered",
    "clustered-unsaved",
    "domino-time",
    "domino-rounds-against",
    "domino-rounds-along",
    "domino-by-sender",
    "domino-by-sender-backward",
    "domino-interleaved",
    "ring-time",
    "ring-rounds-against",
    "ring-rounds-along",
    "ring-by-sender",
    "ring-by-sender-backward",
    "ring-interleaved",
    "ring-time-unsaved",
    "ring-interleaved-unsaved",
    "dominoes-time",
    "dominoes-by-sender",
    "staircase",
    "staircase-repeated",
    "limit",
    "random-bytes",
    "random-body",
];

/// The kinds whose channels are out of order: the first three in one way each,
/// the others where they have messages enough.
pub const OUT_OF_TURN_KINDS: [&str; 15] = [
    "out-of-turn-sent",
    "out-of-turn-waiting",
    "out-of-turn-received",
    "any-order-history",
    "any-order-history-unsaved",
    "any-order-arbitrary",
    "any-order-arbitrary-unsaved",
    "any-order-clustered",
    "any-order-clustered-unsaved",
    "domino-reverse",
    "domino-shuffled",
    "domino-every-second",
    "ring-reverse",
    "ring-shuffled",
    "ring-every-second",
];

/// The bytes of a table of the named kind. `history`, `arbitrary`, `clustered` and
/// `ring-...` have no unsaved messages; `...-unsaved` have them. `domino-...` has
/// two processes whatever n is, and `dominoes-...` are n / 2 of these, beside each
/// other; `staircase` has the highest counts and `staircase-repeated` the least;
/// `staircase` and `limit` do not look at m; `limit` takes one of its tables by the
/// seed; `out-of-turn-...` and `damage-K` spoil an arbitrary table in a way and for
/// check K of a table; `any-order-...` is what the seed gave before channels were in
/// turn. `None` for an unknown kind or for a size that the kind cannot have.
pub fn by_name(kind: &str, seed: u64, n: usize, m: usize) -> Option<Vec<u8>> {
    if n == 0 || n > MOST_PROCESSES || m > MOST_MESSAGES {
        return None;
    }
    let rng = &mut Rng::new(seed);
    let (family, order) = match kind.split_once('-') {
        Some(("ring", order)) => match order.strip_suffix("-unsaved") {
            Some(order) => ("ring-unsaved", order),
            None => ("ring", order),
        },
        Some((family @ ("domino" | "dominoes"), order)) => (family, order),
        _ => (kind, ""),
    };
    let order = match order {
        "time" => Some(Order::Time),
        "rounds-against" => Some(Order::RoundsAgainst),
        "rounds-along" => Some(Order::RoundsAlong),
        "by-sender" => Some(Order::BySender),
        "by-sender-backward" => Some(Order::BySenderBackward),
        "interleaved" => Some(Order::Interleaved),
        "reverse" => Some(Order::Reverse),
        "shuffled" => Some(Order::Shuffled),
        "every-second" => Some(Order::EverySecond),
        _ => None,
    };
    if let Some(refusal) = kind.strip_prefix("damage-") {
        let whole = arbitrary(rng, n, m, 64).to_bytes();
        return damage(rng, &whole, refusal.parse().ok()?);
    }
    if let Some(fault) = kind.strip_prefix("out-of-turn-") {
        let fault = match fault {
            "sent" => Fault::Sent,
            "waiting" => Fault::Waiting,
            "received" => Fault::Received,
            _ => return None,
        };
        let mut whole = arbitrary(rng, n, m, 64);
        // Every channel has two numbers to choose from.
        for count in &mut whole.counts {
            *count = (*count).max(2);
        }
        return Some(put_out_of_turn(rng, &whole, fault)?.to_bytes());
    }
    if let Some(kind) = kind.strip_prefix("any-order-") {
        return Some(in_any_order(rng, kind, n, m)?.to_bytes());
    }
    let table = match family {
        "history" => saved_history(rng, n, m),
        "history-unsaved" => history(rng, n, m),
        "arbitrary" | "arbitrary-unsaved" => {
            let most = some_most(rng);
            if kind == "arbitrary" {
                saved_arbitrary(rng, n, m, most)
            } else {
                arbitrary(rng, n, m, most)
            }
        }
        "clustered" => saved_clustered(rng, n, m),
        "clustered-unsaved" => clustered(rng, n, m),
        "domino" => domino_chain(rng, m, order?),
        "dominoes" if n % 2 != 1 => ring_dominoes(rng, n / 2, 2, m, order?),
        "ring" if n >= 2 => ring_domino(rng, n, m, order?),
        "ring-unsaved" if n >= 2 => ring_unsaved(rng, n, m, order?),
        "staircase" => staircase(n, MOST_STATES),
        "staircase-repeated" => staircase_repeated(n, n as u32 + 1, m),
        "limit" => {
            let mut tables = limit_tables(rng);
            tables.swap_remove((seed % tables.len() as u64) as usize)
        }
        "random-bytes" => return Some(random_bytes(rng, 4 + 2 * n + 8 * m)),
        "random-body" => return Some(random_body(rng, n, m)),
        _ => return None,
    };
    Some(table.to_bytes())
}
