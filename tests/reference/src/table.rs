//! The run table: lookups in raw bytes, the table's checks, reading, writing.

use std::collections::HashMap;

/// "N is 1 to 32".
pub const MOST_PROCESSES: usize = 32;
/// "M is 0 to 4,096".
pub const MOST_MESSAGES: usize = 4_096;
/// "each count 1 to 4,096".
pub const MOST_STATES: u32 = 4_096;
/// "32,836 at most": the bytes of the largest table.
pub const MOST_BYTES: usize = 32_836;

// ---------------------------------------------------------------------------
// Lookups. They are total: a damaged table is read too. A byte past the end
// reads as 0, a process or message that is not there has zeros.

/// The 16-bit number whose low byte stands at `at`.
/// "Every number is an unsigned 16-bit number, low byte first."
fn number_at(bytes: &[u8], at: usize) -> u16 {
    let byte = |k: usize| bytes.get(k).copied().unwrap_or(0);
    u16::from_le_bytes([byte(at), byte(at + 1)])
}

/// "Sizes come first: N, the number of processes".
pub fn processes(bytes: &[u8]) -> u16 {
    number_at(bytes, 0)
}

/// "M, the number of messages".
pub fn messages(bytes: &[u8]) -> u16 {
    number_at(bytes, 2)
}

/// "then for each process its count of saved states." Zero for p at N or
/// above.
pub fn count(bytes: &[u8], p: usize) -> u16 {
    if p >= usize::from(processes(bytes)) {
        return 0;
    }
    number_at(bytes, 4 + 2 * p)
}

/// One of the four numbers of message k: field 0 and 1 are its send, field 2
/// and 3 its receipt. "Then come two parallel arrays of M entries each, one of
/// sends and one of receipts." Zero for k at M or above.
fn field(bytes: &[u8], k: usize, field: usize) -> u16 {
    let n = usize::from(processes(bytes));
    let m = usize::from(messages(bytes));
    if k >= m {
        return 0;
    }
    let sends = 4 + 2 * n;
    let receipts = sends + 4 * m;
    match field {
        0 => number_at(bytes, sends + 4 * k),
        1 => number_at(bytes, sends + 4 * k + 2),
        2 => number_at(bytes, receipts + 4 * k),
        _ => number_at(bytes, receipts + 4 * k + 2),
    }
}

/// The process of the send of message k. "A send is (process, number of the
/// latest state saved before sending)."
pub fn sender(bytes: &[u8], k: usize) -> u16 {
    field(bytes, k, 0)
}

/// The state number of the send of message k. "A send is (process, number of
/// the latest state saved before sending)."
pub fn sent(bytes: &[u8], k: usize) -> u16 {
    field(bytes, k, 1)
}

/// The process of the receipt of message k. "A receipt is (process, number of
/// the first state saved after receiving)."
pub fn receiver(bytes: &[u8], k: usize) -> u16 {
    field(bytes, k, 2)
}

/// The state number of the receipt of message k. "a receipt number of 0
/// means: waiting, not yet received." One "equal to the receiver's count now
/// means: received, not yet saved."
pub fn received(bytes: &[u8], k: usize) -> u16 {
    field(bytes, k, 3)
}

// ---------------------------------------------------------------------------
// The checks.

/// The numbers of a table's checks, "In checking order". The order is that of
/// this list and not that of the numbers.
pub const TABLE_CHECKS: [u32; 10] = [1, 2, 3, 4, 5, 6, 7, 8, 9, 23];

/// The first of the table's checks that catches, or 0. "A check covers the
/// whole table or list before the next begins."
///
/// Checks: the table's.
pub fn check_table(bytes: &[u8]) -> u32 {
    // 1. The table has fewer than 4 bytes.
    if bytes.len() < 4 {
        return 1;
    }
    // 2. N is 0 or above 32.
    let n = usize::from(processes(bytes));
    if n == 0 || n > MOST_PROCESSES {
        return 2;
    }
    // 3. M is above 4,096.
    let m = usize::from(messages(bytes));
    if m > MOST_MESSAGES {
        return 3;
    }
    // 4. The length differs from 4 + 2N + 8M.
    if bytes.len() != 4 + 2 * n + 8 * m {
        return 4;
    }
    // 5. A count is 0 or above 4,096.
    if (0..n).any(|p| count(bytes, p) == 0 || u32::from(count(bytes, p)) > MOST_STATES) {
        return 5;
    }
    // 6. A sender or receiver is N or above.
    let outside = |process: u16| usize::from(process) >= n;
    if (0..m).any(|k| outside(sender(bytes, k)) || outside(receiver(bytes, k))) {
        return 6;
    }
    // 7. A message has the same sender and receiver.
    if (0..m).any(|k| sender(bytes, k) == receiver(bytes, k)) {
        return 7;
    }
    // 8. A send number is not below the sender's count.
    let count_of = |process: u16| count(bytes, usize::from(process));
    if (0..m).any(|k| sent(bytes, k) >= count_of(sender(bytes, k))) {
        return 8;
    }
    // 9. A receipt number is above the receiver's count.
    if (0..m).any(|k| received(bytes, k) > count_of(receiver(bytes, k))) {
        return 9;
    }
    // 23. Of two messages with the same sender and receiver the later one has a smaller send number, or is received while the earlier one waits, or, where both are received, has a smaller receipt number.
    let entries: Vec<Message> = (0..m).map(|k| message_at(bytes, k)).collect();
    let broken = if m <= MOST_IN_PAIRS {
        out_of_turn_in_pairs(&entries)
    } else {
        out_of_turn_by_channel(&entries)
    };
    if broken {
        return 23;
    }
    0
}

/// Up to so many messages all pairs are compared, beyond that channel by channel.
const MOST_IN_PAIRS: usize = 200;

/// Message k of the bytes.
fn message_at(bytes: &[u8], k: usize) -> Message {
    Message {
        sender: usize::from(sender(bytes, k)),
        sent: u32::from(sent(bytes, k)),
        receiver: usize::from(receiver(bytes, k)),
        received: u32::from(received(bytes, k)),
    }
}

/// Whether two messages break the order of their channel. "Compare entries with
/// the same sender and receiver, the earlier position first: the later one's send
/// number may not be smaller, it may not be received while the earlier one waits,
/// and, where both are received, it may not have a smaller receipt number." An
/// unsaved message is received.
pub fn out_of_turn(earlier: &Message, later: &Message) -> bool {
    if !earlier.same_channel(later) {
        return false;
    }
    let sent_before = later.sent < earlier.sent;
    let received_while_it_waits = !later.waiting() && earlier.waiting();
    let both_received = !later.waiting() && !earlier.waiting();
    let received_before = both_received && later.received < earlier.received;
    sent_before || received_while_it_waits || received_before
}

/// Whether any two messages break the order of their channel: all pairs of
/// positions.
pub fn out_of_turn_in_pairs(messages: &[Message]) -> bool {
    for (place, later) in messages.iter().enumerate() {
        let mut before = messages[..place].iter();
        if before.any(|earlier| out_of_turn(earlier, later)) {
            return true;
        }
    }
    false
}

/// The same by one look at each message: neither its send number nor its receipt
/// number, where waiting is above all numbers, may be below that of the message
/// before it in the channel. `tests/channels.rs` has both ways side by side.
pub fn out_of_turn_by_channel(messages: &[Message]) -> bool {
    let mut latest: HashMap<(usize, usize), (u32, u32)> = HashMap::new();
    for message in messages {
        let received = if message.waiting() {
            u32::MAX
        } else {
            message.received
        };
        let channel = (message.sender, message.receiver);
        let before = latest.insert(channel, (message.sent, received));
        if before.is_some_and(|(y, r)| message.sent < y || received < r) {
            return true;
        }
    }
    false
}

// ---------------------------------------------------------------------------
// The table as values. The numbers are wider than 16 bits, because a future
// knows no upper bound.

/// A state: its process and its number, which is the process's count for the
/// new state.
pub type State = (usize, u32);

/// One message, (sender, sent) to (receiver, received).
#[derive(Clone, Copy, Debug, PartialEq, Eq, Hash, PartialOrd, Ord)]
pub struct Message {
    /// The sending process.
    pub sender: usize,
    /// The latest state saved before sending.
    pub sent: u32,
    /// The receiving process.
    pub receiver: usize,
    /// The first state saved after receiving; 0 while the message waits, and
    /// the receiver's count while it is unsaved.
    pub received: u32,
}

impl Message {
    /// The message (j, y) to (i, r): "A send is (process, number of the latest
    /// state saved before sending). A receipt is (process, number of the first
    /// state saved after receiving)."
    pub fn new(send: (usize, u32), receipt: (usize, u32)) -> Message {
        Message {
            sender: send.0,
            sent: send.1,
            receiver: receipt.0,
            received: receipt.1,
        }
    }

    /// "a receipt number of 0 means: waiting, not yet received."
    pub fn waiting(&self) -> bool {
        self.received == 0
    }

    /// Whether both are of one channel: "entries with the same sender and
    /// receiver". The channel from i to j is another than that from j to i.
    pub fn same_channel(&self, other: &Message) -> bool {
        self.sender == other.sender && self.receiver == other.receiver
    }
}

/// A run table as values. A message's position is its index.
#[derive(Clone, Debug, PartialEq, Eq, Hash)]
pub struct Table {
    /// The count of saved states of each process.
    pub counts: Vec<u32>,
    /// The messages by position.
    pub messages: Vec<Message>,
}

impl Table {
    /// A run at its start: every process has saved its state 0 and nothing was
    /// sent. "Saved states of a process are numbered from 0".
    pub fn start(processes: usize) -> Table {
        Table {
            counts: vec![1; processes],
            messages: Vec::new(),
        }
    }

    /// Reads a table that the table's checks accept; otherwise the number of
    /// the refusal. "Sizes come first: N, the number of processes; M, the
    /// number of messages; then for each process its count of saved states."
    pub fn read(bytes: &[u8]) -> Result<Table, u32> {
        let refusal = check_table(bytes);
        if refusal != 0 {
            return Err(refusal);
        }
        // The length was checked, so every number is there to be taken.
        let numbers: Vec<u16> = bytes
            .chunks_exact(2)
            .map(|pair| u16::from_le_bytes([pair[0], pair[1]]))
            .collect();
        let n = usize::from(numbers[0]);
        let m = usize::from(numbers[1]);
        let (counts, entries) = numbers[2..].split_at(n);
        let (sends, receipts) = entries.split_at(2 * m);
        Ok(Table {
            counts: counts.iter().map(|&c| u32::from(c)).collect(),
            messages: sends
                .chunks_exact(2)
                .zip(receipts.chunks_exact(2))
                .map(|(send, receipt)| Message {
                    sender: usize::from(send[0]),
                    sent: u32::from(send[1]),
                    receiver: usize::from(receipt[0]),
                    received: u32::from(receipt[1]),
                })
                .collect(),
        })
    }

    /// The bytes of the table. "The table has exactly 4 + 2N + 8M bytes".
    /// Panics when a number does not fit 16 bits.
    pub fn to_bytes(&self) -> Vec<u8> {
        let mut bytes = Vec::new();
        put(&mut bytes, self.counts.len());
        put(&mut bytes, self.messages.len());
        for &count in &self.counts {
            put(&mut bytes, count as usize);
        }
        for message in &self.messages {
            put(&mut bytes, message.sender);
            put(&mut bytes, message.sent as usize);
        }
        for message in &self.messages {
            put(&mut bytes, message.receiver);
            put(&mut bytes, message.received as usize);
        }
        bytes
    }

    /// "N, the number of processes".
    pub fn processes(&self) -> usize {
        self.counts.len()
    }

    /// Whether a message of the table is unsaved: "A receipt number equal to the
    /// receiver's count now means: received, not yet saved." A count is 1 or
    /// more, so such a message does not wait.
    pub fn unsaved(&self, message: &Message) -> bool {
        message.received == self.counts[message.receiver]
    }

    /// The positions of the messages waiting for process i, rising. "a receipt
    /// number of 0 means: waiting, not yet received." An unsaved message waits
    /// no longer.
    pub fn waiting_for(&self, i: usize) -> Vec<usize> {
        (0..self.messages.len())
            .filter(|&k| self.messages[k].receiver == i && self.messages[k].waiting())
            .collect()
    }
}

/// Adds one number at the end. "Every number is an unsigned 16-bit number, low
/// byte first."
pub(crate) fn put(bytes: &mut Vec<u8>, number: usize) {
    let number = u16::try_from(number).expect("a number above 16 bits cannot be written");
    bytes.extend_from_slice(&number.to_le_bytes());
}
