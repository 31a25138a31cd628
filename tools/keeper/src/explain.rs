//! Refusals in the words of the caller: which process, which message, which
//! numbers. That a call is refused, and by which number, is the library's
//! answer; here is looked up what caught.

use std::collections::HashMap;

use keeper::{run_table, Checkpoint, Refusal};

use crate::sets;

/// A call on a table, with its arguments as the caller named them.
pub enum Call<'a> {
    /// One that has no others.
    Table,
    Send {
        from: u16,
        to: u16,
    },
    Save {
        process: u16,
        list: &'a [u16],
    },
    Receive {
        process: u16,
        list: &'a [u16],
    },
    /// The line of these processes.
    Hold(&'a [u16]),
    /// The lines of these sets of processes.
    Sets(&'a [&'a [u16]]),
    /// The line under these ceilings.
    Under(&'a [u16]),
    /// Whether these checkpoints stand together, by process and then by number.
    Stand(&'a [Checkpoint]),
}

/// Where the messages of a table stand in the text that it was read from.
#[derive(Clone, Default)]
pub struct Places {
    /// The name of the text.
    pub name: String,
    /// By position, the line; those that are in no text are not there.
    pub lines: Vec<usize>,
}

impl Places {
    /// A message by its position, and by its line where it has one.
    fn message(&self, k: usize) -> String {
        match self.lines.get(k) {
            Some(line) => format!("message {k} at {}:{line}", self.name),
            None => format!("message {k}"),
        }
    }
}

/// `refused`, the number, and what caught.
pub fn refusal(table: &[u8], places: &Places, call: &Call, refusal: Refusal) -> String {
    format!(
        "refused {}: {}",
        refusal.number(),
        words(table, places, call, refusal)
    )
}

/// What caught; the words of the refusal where nothing more is known.
pub fn words(table: &[u8], places: &Places, call: &Call, refusal: Refusal) -> String {
    let found = match refusal.is_of_table() {
        true => in_table(table, places, refusal),
        false => in_call(table, places, call, refusal),
    };
    found.unwrap_or_else(|| refusal.words().to_string())
}

/// What in a table is to blame for a refusal by one of the table's checks.
#[derive(Debug, PartialEq, Eq)]
pub enum Culprit {
    Process(usize),
    Message(usize),
    /// A message that is out of turn with an earlier one of its channel.
    Pair {
        earlier: usize,
        later: usize,
    },
}

/// The first process or message that the library refuses so where it stands
/// alone; or the first message that it refuses so behind an earlier one of its
/// channel, with the nearest such.
pub fn culprit(table: &[u8], refusal: Refusal) -> Option<Culprit> {
    let (n, m) = sizes(table);
    let counts_at = 4;
    let (sends_at, receipts_at) = (counts_at + 2 * n, counts_at + 2 * n + 4 * m);
    match refusal {
        Refusal::CountOutOfRange => {
            let mut counts = table.get(counts_at..sends_at)?.chunks(2);
            let alone = |count: &[u8]| [&[1, 0, 0, 0], count].concat();
            counts
                .position(|count| keeper::check_table(&alone(count)) == Err(refusal))
                .map(Culprit::Process)
        }
        Refusal::UnknownProcessInMessage
        | Refusal::MessageToItsSender
        | Refusal::SendNumberTooHigh
        | Refusal::ReceiptNumberTooHigh => {
            let (n, counts) = (&table[..2], table.get(counts_at..sends_at)?);
            let sends = table.get(sends_at..receipts_at)?.chunks(4);
            let receipts = table.get(receipts_at..)?.chunks(4);
            let alone = |send: &[u8], receipt: &[u8]| [n, &[1, 0], counts, send, receipt].concat();
            sends
                .zip(receipts)
                .position(|(send, receipt)| {
                    keeper::check_table(&alone(send, receipt)) == Err(refusal)
                })
                .map(Culprit::Message)
        }
        Refusal::ChannelOutOfOrder => {
            let (n, counts) = (&table[..2], table.get(counts_at..sends_at)?);
            let sends: Vec<_> = table.get(sends_at..receipts_at)?.chunks(4).collect();
            let receipts: Vec<_> = table.get(receipts_at..)?.chunks(4).collect();
            let alone = |earlier: usize, later: usize| {
                let sends = [sends[earlier], sends[later]].concat();
                let receipts = [receipts[earlier], receipts[later]].concat();
                [n, &[2, 0], counts, &sends, &receipts].concat()
            };
            let refused = |earlier: usize, later: usize| {
                keeper::check_table(&alone(earlier, later)) == Err(refusal)
            };
            // The messages before the first that is out of turn are in order, so that the
            // last of them in its channel is one that it is out of turn with.
            let mut last = HashMap::new();
            (0..m).find_map(|later| {
                let channel = (
                    run_table::sender(table, later),
                    run_table::receiver(table, later),
                );
                let earlier = last.insert(channel, later)?;
                refused(earlier, later).then_some(Culprit::Pair { earlier, later })
            })
        }
        _ => None,
    }
}

fn sizes(table: &[u8]) -> (usize, usize) {
    (
        run_table::processes(table).into(),
        run_table::messages(table).into(),
    )
}

fn in_table(table: &[u8], places: &Places, refusal: Refusal) -> Option<String> {
    let ((n, m), length) = (sizes(table), table.len());
    match refusal {
        Refusal::TableTooShort if length == 0 => return Some("the table is empty".to_string()),
        Refusal::TableTooShort => {
            let bytes = plural(length, "byte");
            return Some(format!("the table has {bytes}, and needs 4 at least"));
        }
        Refusal::ProcessesOutOfRange => return Some(format!("N is {n}, and must be 1 to 32")),
        Refusal::TooManyMessages => return Some(format!("M is {m}, and 4096 at most")),
        Refusal::WrongLength => {
            let has = match length > keeper::LARGEST_TABLE {
                true => format!("more than {} bytes", keeper::LARGEST_TABLE),
                false => plural(length, "byte"),
            };
            let needed = 4 + 2 * n + 8 * m;
            return Some(format!(
                "the table has {has}, and {needed} are needed for N = {n} and M = {m}"
            ));
        }
        _ => (),
    }
    Some(match culprit(table, refusal)? {
        Culprit::Process(p) => {
            let count = usize::from(run_table::count(table, p));
            let has = plural(count, "checkpoint");
            format!("process {p} has {has}, and must have 1 to 4096")
        }
        Culprit::Message(k) => {
            let (sender, sent) = (run_table::sender(table, k), run_table::sent(table, k));
            let (receiver, received) =
                (run_table::receiver(table, k), run_table::received(table, k));
            let count = |process: u16| run_table::count(table, process.into());
            match refusal {
                Refusal::UnknownProcessInMessage if usize::from(sender) >= n => {
                    format!("message {k} is from process {sender}, and N is {n}")
                }
                Refusal::UnknownProcessInMessage => {
                    format!("message {k} is for process {receiver}, and N is {n}")
                }
                Refusal::MessageToItsSender => {
                    format!("message {k} is from process {sender} to itself")
                }
                Refusal::SendNumberTooHigh => format!(
                    "message {k} has send number {sent}, and process {sender} has {}",
                    plural(count(sender).into(), "checkpoint")
                ),
                Refusal::ReceiptNumberTooHigh => format!(
                    "message {k} has receipt number {received}, above the count {} of process {receiver}",
                    count(receiver)
                ),
                _ => return None,
            }
        }
        Culprit::Pair { earlier, later } => out_of_turn(table, places, earlier, later),
    })
}

/// How a message is out of turn with an earlier one of its channel: the first of the
/// three ways that holds.
fn out_of_turn(table: &[u8], places: &Places, earlier: usize, later: usize) -> String {
    let numbers = |k: usize| (run_table::sent(table, k), run_table::received(table, k));
    let ((sent_before, received_before), (sent, received)) = (numbers(earlier), numbers(later));
    let before = places.message(earlier);
    let how = if sent < sent_before {
        format!("has send number {sent}, smaller than {sent_before} of {before}")
    } else if received_before == 0 {
        format!("is received while {before} waits")
    } else {
        format!("has receipt number {received}, smaller than {received_before} of {before}")
    };
    let channel = channel(table, later);
    format!("message {later} {how}, which goes before it {channel}")
}

/// The channel of a message in words.
fn channel(table: &[u8], k: usize) -> String {
    let (sender, receiver) = (run_table::sender(table, k), run_table::receiver(table, k));
    format!("from process {sender} to process {receiver}")
}

fn in_call(table: &[u8], places: &Places, call: &Call, refusal: Refusal) -> Option<String> {
    let (n, m) = sizes(table);
    let unknown = |named: &[u16]| {
        let process = named.iter().find(|process| usize::from(**process) >= n)?;
        Some(no_process(*process, n))
    };
    match (refusal, call) {
        (Refusal::UnknownProcess, Call::Send { from, to }) => unknown(&[*from, *to]),
        (Refusal::UnknownProcess, Call::Save { process, .. } | Call::Receive { process, .. }) => {
            unknown(&[*process])
        }
        (Refusal::UnknownProcessInSet, Call::Hold(processes)) => unknown(processes),
        (Refusal::UnknownProcessInSet, Call::Sets(sets)) => {
            let (set, process) = sets.iter().find_map(|set| {
                let process = set.iter().find(|process| usize::from(**process) >= n)?;
                Some((set, process))
            })?;
            let set = sets::shown(set);
            Some(format!("the set {set} has process {process}, and N is {n}"))
        }
        (Refusal::WrongCeilingCount, Call::Under(ceilings)) => {
            let processes = if n == 1 { "process" } else { "processes" };
            let ceilings = plural(ceilings.len(), "ceiling");
            Some(format!("{ceilings} for {n} {processes}"))
        }
        (Refusal::CeilingTooHigh, Call::Under(ceilings)) => {
            let counts = (0..n).map(|p| run_table::count(table, p));
            let mut pairs = ceilings.iter().zip(counts).enumerate();
            let (p, (ceiling, count)) = pairs.find(|(_, (ceiling, count))| *ceiling > count)?;
            Some(format!(
                "the ceiling {ceiling} of process {p} is above its count {count}"
            ))
        }
        (Refusal::BadNamedProcess, Call::Stand(named)) => {
            let mut pairs = named.windows(2);
            let twice = pairs.find(|pair| pair[0].process == pair[1].process);
            match twice.filter(|pair| usize::from(pair[0].process) < n) {
                Some([one, other]) => Some(format!(
                    "process {} is named twice, with checkpoints {} and {}",
                    one.process, one.number, other.number
                )),
                _ => unknown(&named.iter().map(|one| one.process).collect::<Vec<_>>()),
            }
        }
        (Refusal::NamedStateTooHigh, Call::Stand(named)) => {
            let count = |one: &Checkpoint| run_table::count(table, one.process.into());
            let one = named.iter().find(|one| one.number >= count(one))?;
            Some(no_checkpoint(one.process, one.number, count(one)))
        }
        (Refusal::SendToItself, Call::Send { from, .. }) => {
            Some(format!("process {from} does not send to itself"))
        }
        (Refusal::BadList, Call::Save { process, list } | Call::Receive { process, list }) => {
            in_list(table, *process, list)
        }
        (Refusal::MessagePassedOver, Call::Save { list, .. } | Call::Receive { list, .. }) => {
            passed_over(table, places, list)
        }
        (Refusal::TableFull, Call::Send { .. }) => {
            Some(format!("the table has {m} messages, and takes no more"))
        }
        (Refusal::TableFull, Call::Save { process, .. }) => {
            let count = run_table::count(table, (*process).into());
            Some(format!(
                "process {process} has {count} checkpoints, and takes no more"
            ))
        }
        _ => None,
    }
}

/// What is the matter with the list of a save or receipt: the first position that
/// is not right.
fn in_list(table: &[u8], process: u16, list: &[u16]) -> Option<String> {
    let (_, m) = sizes(table);
    for (place, position) in list.iter().enumerate() {
        let k = usize::from(*position);
        if k >= m {
            return Some(match m {
                0 => format!("message {k}: there are none (M is 0)"),
                1 => format!("message {k}: there is only one (M is 1)"),
                _ => format!("message {k}: there are only {m} (M is {m})"),
            });
        }
        if let Some(before) = list[..place].last().filter(|before| *before >= position) {
            return Some(format!("positions rise: {k} does not follow {before}"));
        }
        let receiver = run_table::receiver(table, k);
        if receiver != process {
            return Some(format!(
                "message {k} does not wait for process {process}: it is for process {receiver}"
            ));
        }
        let received = run_table::received(table, k);
        let not_waiting = format!("message {k} does not wait for process {process}");
        if received == run_table::count(table, process.into()) {
            return Some(format!("{not_waiting}: it is received, and not saved yet"));
        }
        if received != 0 {
            return Some(format!(
                "{not_waiting}: it was received before checkpoint {received}"
            ));
        }
    }
    None
}

/// The first position of a list that passes over an older waiting message of its
/// channel, with the nearest such.
fn passed_over(table: &[u8], places: &Places, list: &[u16]) -> Option<String> {
    let channel_of = |k: usize| (run_table::sender(table, k), run_table::receiver(table, k));
    let waits = |k: usize| run_table::received(table, k) == 0;
    let listed = |k: usize| list.iter().any(|position| usize::from(*position) == k);
    list.iter().find_map(|position| {
        let k = usize::from(*position);
        let mut older = (0..k).rev();
        let older = older.find(|q| channel_of(*q) == channel_of(k) && waits(*q) && !listed(*q))?;
        Some(format!(
            "{} passes over {}, which waits before it {}",
            places.message(k),
            places.message(older),
            channel(table, k)
        ))
    })
}

/// Of a process that the table does not have.
pub fn no_process(process: u16, n: usize) -> String {
    format!("there is no process {process} (N is {n})")
}

/// Of a checkpoint that a process does not have.
pub fn no_checkpoint(process: u16, number: u16, count: u16) -> String {
    format!(
        "there is no checkpoint {number} of process {process}: it has {}",
        plural(count.into(), "checkpoint")
    )
}

/// A number of things.
pub fn plural(number: usize, what: &str) -> String {
    match number {
        1 => format!("1 {what}"),
        _ => format!("{number} {what}s"),
    }
}
