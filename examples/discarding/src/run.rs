//! One run: its processes, its table, its files and the steps that it makes.

use std::collections::HashMap;
use std::path::Path;

use keeper::Table;

use crate::chance::{mixed, Chance};
use crate::failure::Failure;
use crate::record::Record;
use crate::store::{Cleared, Policy, Stock, Store, Thing};

pub struct Run<P> {
    name: u64,
    /// Whether the table is told of each receipt at once; else the next save of the
    /// process lists what it has received.
    prompt: bool,
    stock: Stock,
    processes: Vec<Process>,
    store: Store<P>,
    record: Record,
}

/// A process as it is now: all of this is lost at a fall back.
#[derive(Default)]
struct Process {
    state: State,
    /// The messages that it has not received, as they came: so those of one sender
    /// stand in the order sent.
    inbox: Vec<Mail>,
    /// The identities of those that it has received since its latest checkpoint.
    received: Vec<u64>,
    /// Whether its last act was a save.
    has_just_saved: bool,
}

struct Mail {
    from: u16,
    identity: u64,
    contents: Vec<u8>,
}

/// What a process is: a digest of all that it did and received, in that order.
#[derive(Clone, Copy, Default)]
struct State {
    digest: u64,
    events: u64,
}

/// What a fall back restored.
#[derive(Default)]
pub struct Restored {
    /// The checkpoints, one for each process.
    pub checkpoints: Vec<u64>,
    /// Those of them that are older than the latest of their process.
    pub older: u64,
    /// The checkpoints that were taken after these, and are gone.
    pub undone: u64,
    /// The messages that were delivered again.
    pub messages: Vec<u64>,
    /// Those of them that were received and not saved to the table.
    pub unsaved: u64,
}

/// Which messages of its inbox a process receives. Those of one sender it receives in
/// the order sent; another order would be refused by 24.
pub enum Which {
    /// One: the oldest from the sender of the message so many before the newest,
    /// counted round.
    OldestFrom(usize),
    /// The newest, and before it all others from its sender.
    UpToNewest,
    All,
}

/// A keep sheet that was made, by identities.
pub struct Listed {
    pub kept: Vec<u64>,
    /// The messages that are received and not saved to the table, and not kept.
    pub unsaved: Vec<u64>,
}

impl State {
    fn absorbs(&mut self, event: u64) {
        self.digest = mixed(self.digest ^ mixed(event));
        self.events += 1;
    }

    /// The contents of a checkpoint: no two have the same.
    fn contents(&self, head: String) -> Vec<u8> {
        let State { digest, events } = self;
        let head = format!("{head}\ndigest {digest:016x} after {events} events\n");
        padded(head, *digest)
    }

    /// The state of a checkpoint's contents.
    fn read(contents: &[u8]) -> Option<State> {
        let text = std::str::from_utf8(contents).ok()?;
        let line = text.lines().nth(1)?.strip_prefix("digest ")?;
        let (digest, events) = line.split_once(" after ")?;
        Some(State {
            digest: u64::from_str_radix(digest, 16).ok()?,
            events: events.strip_suffix(" events")?.parse().ok()?,
        })
    }
}

/// A head and up to some hundred letters behind it, by the digest.
fn padded(head: String, digest: u64) -> Vec<u8> {
    let mut chance = Chance::new(digest);
    let letters = chance.below(120);
    let mut contents = head.into_bytes();
    contents.extend((0..letters).map(|_| b'a' + chance.below(26) as u8));
    contents.push(b'\n');
    contents
}

/// The event of receiving a message with these contents.
fn event_of(contents: &[u8]) -> u64 {
    contents
        .iter()
        .fold(0, |digest, byte| mixed(digest ^ u64::from(*byte)))
}

impl<P: Policy> Run<P> {
    /// A run that begins, each process with its checkpoint 0, in a new folder.
    pub fn new(
        name: u64,
        processes: usize,
        prompt: bool,
        folder: &Path,
        policy: P,
    ) -> Result<Run<P>, Failure> {
        let mut run = Run {
            name,
            prompt,
            stock: Stock {
                table: Table::new(processes)?,
                checkpoints: vec![Vec::new(); processes],
                messages: Vec::new(),
                next: 0,
            },
            processes: Vec::new(),
            store: Store::new(folder, policy)?,
            record: Record::new(processes),
        };
        for process in 0..processes as u16 {
            run.processes.push(Process::default());
            let (identity, contents) = run.write_checkpoint(process, 0)?;
            run.note_checkpoint(process, identity, &contents);
        }
        Ok(run)
    }

    pub fn processes(&self) -> usize {
        self.processes.len()
    }

    /// Whether there is a message for the process that it has not received.
    pub fn has_mail(&self, process: u16) -> bool {
        !self.processes[usize::from(process)].inbox.is_empty()
    }

    /// Whether the process has received messages since its latest checkpoint.
    pub fn has_received(&self, process: u16) -> bool {
        !self.processes[usize::from(process)].received.is_empty()
    }

    pub fn has_just_saved(&self, process: u16) -> bool {
        self.processes[usize::from(process)].has_just_saved
    }

    fn new_identity(&mut self) -> u64 {
        self.stock.next += 1;
        self.stock.next - 1
    }

    /// Writes the file of a checkpoint of the process as it is: its identity and
    /// contents. Contents are written before the table has their entry, so that
    /// no entry is ever without them.
    fn write_checkpoint(&mut self, process: u16, number: u16) -> Result<(u64, Vec<u8>), Failure> {
        let identity = self.new_identity();
        let head = format!("run {} process {process} checkpoint {identity}", self.name);
        let contents = self.processes[usize::from(process)].state.contents(head);
        let thing = Thing::Checkpoint {
            process,
            number,
            identity,
        };
        self.store.write(thing, &contents)?;
        Ok((identity, contents))
    }

    /// The table has the checkpoint.
    fn note_checkpoint(&mut self, process: u16, identity: u64, contents: &[u8]) {
        self.stock.checkpoints[usize::from(process)].push(identity);
        self.record.saved(process, identity, contents);
    }

    pub fn send(&mut self, from: u16, to: u16) -> Result<(), Failure> {
        let identity = self.new_identity();
        let sender = &mut self.processes[usize::from(from)];
        sender.state.absorbs(identity);
        sender.has_just_saved = false;
        let digest = sender.state.digest;
        let head = format!("run {} message {identity} from {from} to {to}", self.name);
        let contents = padded(format!("{head}\nby {digest:016x}\n"), digest);
        let position = self.stock.table.messages().len() as u16;
        self.store
            .write(Thing::Message { position, identity }, &contents)?;
        self.stock.table.send(from, to)?;
        self.stock.messages.push(identity);
        self.record.sent(from, identity, &contents);
        self.processes[usize::from(to)].inbox.push(Mail {
            from,
            identity,
            contents,
        });
        Ok(())
    }

    /// The positions of these messages, rising, as the lists of steps want them.
    fn positions_of(&self, identities: &[u64]) -> Vec<u16> {
        let messages = (0..).zip(&self.stock.messages);
        messages
            .filter(|(_, identity)| identities.contains(identity))
            .map(|(position, _)| position)
            .collect()
    }

    /// The process receives messages of its inbox, which is not empty; how many. A
    /// prompt run tells the table, to which they are unsaved then. To the table of
    /// another run they wait still, until the next save of the process lists them.
    pub fn receive(&mut self, process: u16, which: Which) -> Result<usize, Failure> {
        let receiver = &mut self.processes[usize::from(process)];
        let newest = receiver.inbox.len() - 1;
        let sender_at = |place: usize| receiver.inbox[place].from;
        let taken: Vec<Mail> = match which {
            Which::All => std::mem::take(&mut receiver.inbox),
            Which::OldestFrom(back) => {
                let from = sender_at(newest - back % receiver.inbox.len());
                let oldest = receiver.inbox.iter().position(|mail| mail.from == from);
                vec![receiver.inbox.remove(oldest.expect("one of its own"))]
            }
            Which::UpToNewest => {
                let from = sender_at(newest);
                let inbox = std::mem::take(&mut receiver.inbox);
                let (taken, left) = inbox.into_iter().partition(|mail| mail.from == from);
                receiver.inbox = left;
                taken
            }
        };
        receiver.has_just_saved = false;
        for mail in &taken {
            receiver.state.absorbs(event_of(&mail.contents));
            receiver.received.push(mail.identity);
            self.record.received(process, mail.identity);
        }
        if self.prompt {
            let identities: Vec<u64> = taken.iter().map(|mail| mail.identity).collect();
            let positions = self.positions_of(&identities);
            self.stock.table.receive(process, &positions)?;
        }
        Ok(taken.len())
    }

    /// The process saves: with what it has received, which is listed where the table
    /// was not told of it before.
    pub fn save(&mut self, process: u16) -> Result<(), Failure> {
        let saver = &mut self.processes[usize::from(process)];
        let received = std::mem::take(&mut saver.received);
        saver.has_just_saved = true;
        let positions = match self.prompt {
            true => Vec::new(),
            false => self.positions_of(&received),
        };
        let number = self.stock.table.count(process);
        let (identity, contents) = self.write_checkpoint(process, number)?;
        self.stock.table.save(process, &positions)?;
        self.note_checkpoint(process, identity, &contents);
        Ok(())
    }

    /// The whole run falls back: every process is put back to its checkpoint on
    /// the recovery line, and every message that waits then is delivered again,
    /// all from the files.
    pub fn fall_back(&mut self) -> Result<Restored, Failure> {
        let mut restored = Restored::default();
        let unsaved: Vec<u64> = self.unsaved().collect();
        let fell_back = self.stock.table.fall_back();

        // The identities go along. From here on, those of the stock are of what
        // is in the table.
        for (identities, number) in self.stock.checkpoints.iter_mut().zip(fell_back.line.iter()) {
            let undone = identities.len() - 1 - usize::from(*number);
            restored.undone += undone as u64;
            restored.older += u64::from(undone > 0);
            identities.truncate(usize::from(*number) + 1);
        }
        let mut stays = fell_back.messages.iter().map(Option::is_some);
        self.stock.messages.retain(|_| stays.next() == Some(true));

        for (process, number) in (0..).zip(fell_back.line.iter()) {
            let thing = self.stock.checkpoint(process, *number);
            let identity = thing.identity();
            let contents = self.store.read(thing, self.record.checkpoint(identity))?;
            self.processes[usize::from(process)] = Process {
                state: State::read(&contents).expect("it is what was stored"),
                ..Process::default()
            };
            restored.checkpoints.push(identity);
        }
        for (position, message) in (0..).zip(self.stock.table.messages()) {
            if message.is_waiting() {
                let thing = self.stock.message(position);
                let identity = thing.identity();
                let contents = self.store.read(thing, self.record.message(identity))?;
                let inbox = &mut self.processes[usize::from(message.receiver)].inbox;
                inbox.push(Mail {
                    from: message.sender,
                    identity,
                    contents,
                });
                restored.unsaved += u64::from(unsaved.contains(&identity));
                restored.messages.push(identity);
            }
        }
        self.record
            .fell_back(&restored.checkpoints, &restored.messages)?;
        Ok(restored)
    }

    /// The messages that are received and not saved to the table.
    fn unsaved(&self) -> impl Iterator<Item = u64> + '_ {
        let messages = self.stock.table.messages().zip(&self.stock.messages);
        messages
            .filter(|(message, _)| message.is_unsaved())
            .map(|(_, identity)| *identity)
    }

    /// Makes the keep sheet of the table as it is.
    pub fn make_sheet(&mut self) -> Listed {
        let sheet = self.stock.table.keep_sheet();
        self.store.sheet_made(&self.stock, &sheet);
        let kept: Vec<u64> = self
            .stock
            .listed(&sheet)
            .map(|thing| thing.identity())
            .collect();
        let unsaved = self.unsaved().filter(|identity| !kept.contains(identity));
        Listed {
            unsaved: unsaved.collect(),
            kept,
        }
    }

    /// Whether the table says of each message what the processes know: that it
    /// waits, is unsaved, or is saved.
    pub fn check_receipts(&self) -> Result<(), Failure> {
        let mut known: HashMap<u64, &str> = HashMap::new();
        for process in &self.processes {
            let waiting = process.inbox.iter().map(|mail| mail.identity);
            known.extend(waiting.map(|identity| (identity, "waiting")));
            let told = if self.prompt { "unsaved" } else { "waiting" };
            known.extend(process.received.iter().map(|identity| (*identity, told)));
        }
        for (message, identity) in self.stock.table.messages().zip(&self.stock.messages) {
            let told = match (message.is_waiting(), message.is_unsaved()) {
                (true, _) => "waiting",
                (_, true) => "unsaved",
                _ => "saved",
            };
            let expected = known.get(identity).copied().unwrap_or("saved");
            if told != expected {
                return Err(Failure::NoState(format!(
                    "message {identity} is {told} in the table, and {expected} by what the processes did"
                )));
            }
        }
        Ok(())
    }

    /// Which processes could go on as they are if those of the set failed now, and
    /// how far back the others would have to go: the line of the set, which must be
    /// the record's. How many could go on, and how many others had to go back. Of a
    /// run that is not prompt the table does not know what was received, and there
    /// is nothing to compare.
    pub fn try_failure(&self, set: u32) -> Result<Option<(u64, u64)>, Failure> {
        if !self.prompt {
            return Ok(None);
        }
        let line = self.stock.table.line_of_set(set)?;
        let counts = self.stock.table.counts();
        let behind: Vec<usize> = counts
            .zip(line.iter())
            .map(|(count, number)| usize::from(count - number))
            .collect();
        let failed: Vec<bool> = (0..self.processes.len())
            .map(|p| set >> p & 1 == 1)
            .collect();
        let expected = self.record.after_failure(&failed);
        if behind != expected {
            return Err(Failure::NoState(format!(
                "where processes {failed:?} failed the line is {behind:?} behind, and by the record {expected:?}"
            )));
        }
        let up = behind.iter().zip(&failed).filter(|(_, failed)| !**failed);
        let (mut go_on, mut go_back) = (0, 0);
        for (behind, _) in up {
            *if *behind == 0 {
                &mut go_on
            } else {
                &mut go_back
            } += 1;
        }
        Ok(Some((go_on, go_back)))
    }

    /// Deletes what goes by the last sheet.
    pub fn clear(&self) -> Result<Cleared, Failure> {
        self.store.clear()
    }

    /// The run is over, and its files go.
    pub fn end(self) -> Result<(), Failure> {
        self.store.remove()
    }
}

#[cfg(test)]
mod tests {
    use super::*;
    use crate::store::BySheet;

    /// A run of two processes: 0 has sent two messages to 1, which has received both.
    fn run(name: &str, prompt: bool) -> Run<BySheet> {
        let folder = format!("discarding-run-{}-{name}", std::process::id());
        let folder = std::env::temp_dir().join(folder);
        let mut run = Run::new(1, 2, prompt, &folder, BySheet::default()).unwrap();
        run.send(0, 1).unwrap();
        run.send(0, 1).unwrap();
        assert_eq!(run.receive(1, Which::All).unwrap(), 2);
        run
    }

    #[test]
    fn what_the_table_says_of_receipts_is_compared() {
        let mut run = run("receipts", true);
        run.check_receipts().unwrap();
        assert_eq!(run.try_failure(0b01).unwrap(), Some((0, 1)));
        assert_eq!(run.try_failure(0b10).unwrap(), Some((1, 0)));
        assert_eq!(run.try_failure(0b11).unwrap(), Some((0, 0)));
        // A table that was told of one receipt alone.
        let told = run.stock.table.clone();
        let mut table = Table::new(2).unwrap();
        table.send(0, 1).unwrap();
        table.send(0, 1).unwrap();
        table.receive(1, &[0]).unwrap();
        run.stock.table = table.clone();
        let failure = run.check_receipts().unwrap_err().to_string();
        assert!(
            failure.ends_with("is waiting in the table, and unsaved by what the processes did"),
            "{failure}"
        );
        // One that was told of none puts nobody back.
        run.stock.table = Table::new(2).unwrap();
        run.stock.table.send(0, 1).unwrap();
        run.stock.table.send(0, 1).unwrap();
        let failure = run.try_failure(0b01).unwrap_err().to_string();
        assert!(
            failure.ends_with("the line is [1, 0] behind, and by the record [1, 1]"),
            "{failure}"
        );
        // One that took a checkpoint of its own.
        run.stock.table = told.clone();
        run.stock.table.save(1, &[]).unwrap();
        let failure = run.check_receipts().unwrap_err().to_string();
        assert!(failure.contains("is saved in the table"), "{failure}");
        run.stock.table = told;
        run.check_receipts().unwrap();
        run.end().unwrap();
    }

    /// Process 1 has two messages of process 0 and one of process 2 between them, and
    /// receives them in the order sent, each way, also when they are delivered again.
    #[test]
    fn each_sender_s_messages_are_received_in_the_order_sent() {
        let folder = format!("discarding-run-{}-order", std::process::id());
        let folder = std::env::temp_dir().join(folder);
        let mut run = Run::new(1, 3, true, &folder, BySheet::default()).unwrap();
        let waiting = |run: &Run<BySheet>| -> Vec<u16> {
            let messages = (0..).zip(run.stock.table.messages());
            let waiting = messages.filter(|(_, message)| message.is_waiting());
            waiting.map(|(position, _)| position).collect()
        };
        for (from, to) in [(0, 1), (2, 1), (0, 1)] {
            run.send(from, to).unwrap();
        }
        run.save(0).unwrap();
        run.save(2).unwrap();
        // The newest is from 0, and so is the third from it, round.
        assert_eq!(run.receive(1, Which::OldestFrom(3)).unwrap(), 1);
        assert_eq!(waiting(&run), [1, 2]);
        assert_eq!(run.receive(1, Which::OldestFrom(1)).unwrap(), 1);
        assert_eq!(waiting(&run), [2]);
        assert_eq!(run.fall_back().unwrap().messages.len(), 3);
        assert_eq!(waiting(&run), [0, 1, 2]);
        assert_eq!(run.receive(1, Which::UpToNewest).unwrap(), 2);
        assert_eq!(waiting(&run), [1]);
        assert_eq!(run.receive(1, Which::All).unwrap(), 1);
        run.check_receipts().unwrap();
        run.end().unwrap();
    }

    #[test]
    fn a_save_saves_what_was_received() {
        for prompt in [true, false] {
            let mut run = run(&format!("saves-{prompt}"), prompt);
            let is_unsaved = |run: &Run<BySheet>| run.unsaved().count();
            assert_eq!(is_unsaved(&run), if prompt { 2 } else { 0 });
            run.check_receipts().unwrap();
            run.save(1).unwrap();
            assert_eq!(is_unsaved(&run), 0);
            assert!(run.stock.table.messages().all(|message| message.is_saved()));
            run.check_receipts().unwrap();
            // The table of a run that is not prompt can't tell what a failure costs.
            assert_eq!(run.try_failure(0b01).unwrap().is_some(), prompt);
            run.end().unwrap();
        }
    }

    #[test]
    fn a_fall_back_delivers_again_what_was_not_saved() {
        let mut run = run("delivers", true);
        run.save(0).unwrap();
        let restored = run.fall_back().unwrap();
        assert_eq!((restored.messages.len(), restored.unsaved), (2, 2));
        assert_eq!(run.unsaved().count(), 0);
        run.check_receipts().unwrap();
        run.end().unwrap();
    }
}
