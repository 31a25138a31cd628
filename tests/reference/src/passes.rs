//! Lines that take many passes over the messages: how many they take, and tables
//! that have such lines. No line of this implementation is found so; whoever finds
//! lines by passes, or does something else once there were many, is to be tried on
//! these tables.

use crate::gen::Rng;
use crate::lines::{all_hold, ceiling, is_orphan, single_holder};
use crate::table::{Message, Table};

// ---------------------------------------------------------------------------
// How many.

/// How many passes over the messages, from the last to the first, the line under a
/// ceiling takes, the last of which lowers nothing: "an orphan of a line puts its
/// receiver back to r - 1; passes over the messages go on until a pass lowers
/// nothing."
pub fn passes(table: &Table, ceiling: &[u32]) -> usize {
    let mut line = ceiling.to_vec();
    let mut passes = 0;
    loop {
        passes += 1;
        let mut lowered = false;
        for message in table.messages.iter().rev() {
            if is_orphan(message, &line) {
                line[message.receiver] = message.received - 1;
                lowered = true;
            }
        }
        if !lowered {
            return passes;
        }
    }
}

/// The passes of the recovery line.
pub fn passes_of_run(table: &Table) -> usize {
    passes(table, &ceiling(table, all_hold(table.processes())))
}

/// The passes of the line of each single holder; 0 where nobody received what it
/// sent since its last state, so that no other process is put back.
pub fn passes_of_holders(table: &Table) -> Vec<usize> {
    let sent_on = |p: usize| {
        let last = table.counts[p] - 1;
        let mut messages = table.messages.iter();
        messages.any(|message| message.sender == p && message.sent == last && !message.waiting())
    };
    let line = |p: usize| passes(table, &ceiling(table, single_holder(p)));
    (0..table.processes())
        .map(|p| if sent_on(p) { line(p) } else { 0 })
        .collect()
}

/// Whether the send numbers of some sender, to whichever receivers, fall from one
/// position to a later one. No run writes such a table, and no check refuses it.
pub fn sends_fall(table: &Table) -> bool {
    let mut latest = vec![0; table.processes()];
    table.messages.iter().any(|message| {
        let before = latest[message.sender];
        latest[message.sender] = message.sent;
        message.sent < before
    })
}

// ---------------------------------------------------------------------------
// Tables.

/// A chain of m messages, each of which makes the next one an orphan, through all
/// channels of n processes (2 or more), then through all of them again, and so on.
/// Those of one way through the channels stand in the order of the chain, so that a
/// pass lowers one of them at a time; those of the next way stand before them,
/// because a channel's numbers fall along the chain. The numbers of a sender fall
/// with the position, from three processes on.
pub fn chain(n: usize, m: usize) -> Table {
    assert!(n >= 2, "a channel has two processes");
    // 0 1 0 2 ... 0 n-1, 1 2 1 3 ... 1 n-1, and so on, and then from n-1 to 0.
    let pairs = (0..n).flat_map(|p| (p + 1..n).flat_map(move |q| [p, q]));
    let way: Vec<usize> = pairs.collect();
    let process = |k: usize| way[k % way.len()];
    let mut receipts = vec![0; n];
    (1..=m).for_each(|k| receipts[process(k)] += 1);
    let most: u32 = receipts.into_iter().max().unwrap_or(0);
    let mut at = vec![most; n];
    let mut messages = Vec::new();
    for k in 0..m {
        let (j, i) = (process(k), process(k + 1));
        messages.push(Message::new((j, at[j]), (i, at[i])));
        at[i] -= 1;
    }
    let ways = messages.chunks(way.len()).rev();
    Table {
        counts: vec![most + 1; n],
        messages: ways.flatten().copied().collect(),
    }
}

/// The messages of each sender together, in the order of sending: its numbers rise.
pub fn by_sender(mut table: Table) -> Table {
    let order = |message: &Message| (message.sender, message.sent);
    table.messages.sort_by_key(order);
    table
}

/// The table with as many states more before all messages: its lines stop there,
/// where they fell to 0.
pub fn lifted(mut table: Table, states: u32) -> Table {
    for message in &mut table.messages {
        message.sent += states;
        if !message.waiting() {
            message.received += states;
        }
    }
    table.counts.iter_mut().for_each(|count| *count += states);
    table
}

/// The table with its messages further apart: each so many positions behind the one
/// before it as the distances say, one after another and then over again. Between
/// them stand messages of a further process to another, sent after any state of the
/// table and received early. They are orphans of no line, but would be as messages of
/// any other sender.
pub fn apart(table: Table, distances: &[usize]) -> Table {
    let (n, most) = (table.processes(), table.counts.iter().max());
    let sent = *most.expect("a process");
    let between = Message::new((n, sent), (n + 1, 1));
    let mut all = Table {
        counts: table.counts.clone(),
        messages: Vec::new(),
    };
    all.counts.extend([sent + 2, 2]);
    for (k, &message) in table.messages.iter().enumerate() {
        if k > 0 {
            let distance = distances[(k - 1) % distances.len()];
            all.messages.extend(vec![between; distance - 1]);
        }
        all.messages.push(message);
    }
    all
}

/// Two messages of one sender, the earlier sent one behind the other: the line of
/// process 0 needs the first, and a search of what process 0 sent that goes from the
/// last message to the first, and ends where one was sent before the line, never
/// comes to it.
pub fn falling_pair() -> Table {
    Table {
        counts: vec![2; 3],
        messages: vec![Message::new((0, 1), (1, 1)), Message::new((0, 0), (2, 1))],
    }
}

/// Tables side by side as one: the processes of each behind those of the ones before
/// it, and so its messages, which nobody else receives.
pub fn beside(parts: &[Table]) -> Table {
    let mut all = Table {
        counts: Vec::new(),
        messages: Vec::new(),
    };
    for part in parts {
        let first = all.counts.len();
        all.counts.extend(&part.counts);
        all.messages
            .extend(part.messages.iter().map(|message| Message {
                sender: message.sender + first,
                receiver: message.receiver + first,
                ..*message
            }));
    }
    all
}

/// The same with the messages of all parts among each other by chance, each part's
/// in its order.
pub fn among(rng: &mut Rng, parts: &[Table]) -> Table {
    let mut all = beside(parts);
    let mut lots = Vec::new();
    for (at, part) in parts.iter().enumerate() {
        lots.resize(lots.len() + part.messages.len(), at);
    }
    let mut left = vec![Vec::new(); parts.len()];
    for (&at, &message) in lots.iter().zip(&all.messages).rev() {
        left[at].push(message);
    }
    rng.shuffle(&mut lots);
    for (place, at) in all.messages.iter_mut().zip(lots) {
        *place = left[at].pop().expect("as many lots as messages");
    }
    all
}
