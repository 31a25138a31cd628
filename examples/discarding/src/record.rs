//! What should be: the contents of everything that was ever stored, and what
//! each process had sent and received at each of its checkpoints. It is made of
//! the processes' own acts and knows nothing of tables, lines and sheets, so that
//! it can tell whether a fall back was right.

use std::collections::{BTreeSet, HashMap};

use crate::failure::Failure;

#[derive(Default)]
pub struct Record {
    checkpoints: HashMap<u64, Saved>,
    messages: HashMap<u64, Vec<u8>>,
    /// By process, what it did since its latest checkpoint.
    since: Vec<Since>,
}

struct Saved {
    process: usize,
    contents: Vec<u8>,
    did: Since,
}

/// Messages by identity, from one checkpoint to the next.
#[derive(Default)]
struct Since {
    /// The checkpoint before; none before the first.
    checkpoint: Option<u64>,
    sent: Vec<u64>,
    received: Vec<u64>,
}

impl Record {
    pub fn new(processes: usize) -> Record {
        let mut record = Record::default();
        record.since.resize_with(processes, Since::default);
        record
    }

    pub fn saved(&mut self, process: u16, identity: u64, contents: &[u8]) {
        let process = usize::from(process);
        let next = Since {
            checkpoint: Some(identity),
            ..Since::default()
        };
        let saved = Saved {
            process,
            contents: contents.to_vec(),
            did: std::mem::replace(&mut self.since[process], next),
        };
        let before = self.checkpoints.insert(identity, saved);
        assert!(before.is_none(), "identity {identity} is given twice");
    }

    pub fn sent(&mut self, process: u16, identity: u64, contents: &[u8]) {
        self.since[usize::from(process)].sent.push(identity);
        let before = self.messages.insert(identity, contents.to_vec());
        assert!(before.is_none(), "identity {identity} is given twice");
    }

    pub fn received(&mut self, process: u16, identity: u64) {
        self.since[usize::from(process)].received.push(identity);
    }

    pub fn checkpoint(&self, identity: u64) -> &[u8] {
        &self.checkpoints[&identity].contents
    }

    pub fn message(&self, identity: u64) -> &[u8] {
        &self.messages[&identity]
    }

    /// By process, how far back it would have to go if these failed now: 0 where it
    /// could go on as it is, 1 to its latest checkpoint, 2 to the one before, and so
    /// on. Those that failed have lost what they did since their latest checkpoint;
    /// any other goes back only where it has received what was not sent by then.
    pub fn after_failure(&self, failed: &[bool]) -> Vec<usize> {
        // Of each message, who sent it and who received it, and how far back that
        // was: 0 since the latest checkpoint.
        let (mut sent, mut received) = (HashMap::new(), Vec::new());
        for (process, since) in self.since.iter().enumerate() {
            let (mut did, mut back) = (Some(since), 0);
            while let Some(part) = did {
                sent.extend(part.sent.iter().map(|message| (*message, (process, back))));
                received.extend(
                    part.received
                        .iter()
                        .map(|message| (*message, process, back)),
                );
                did = part.checkpoint.map(|before| &self.checkpoints[&before].did);
                back += 1;
            }
        }
        let mut behind: Vec<usize> = failed.iter().map(|failed| usize::from(*failed)).collect();
        let mut changed = true;
        while changed {
            changed = false;
            for (message, receiver, back) in &received {
                let (sender, sent_back) = sent[message];
                if *back >= behind[*receiver] && sent_back < behind[sender] {
                    behind[*receiver] = back + 1;
                    changed = true;
                }
            }
        }
        behind
    }

    /// The run fell back to these checkpoints, by process, and these messages
    /// were delivered again. Every message received by then must have been sent
    /// by then, and those sent and not received are the ones delivered again.
    pub fn fell_back(&mut self, line: &[u64], delivered: &[u64]) -> Result<(), Failure> {
        let (mut sent, mut received) = (BTreeSet::new(), BTreeSet::new());
        for (process, &checkpoint) in line.iter().enumerate() {
            self.since[process] = Since {
                checkpoint: Some(checkpoint),
                ..Since::default()
            };
            let mut at = Some(checkpoint);
            while let Some(identity) = at {
                let saved = &self.checkpoints[&identity];
                if saved.process != process {
                    return Err(Failure::NoState(format!(
                        "process {process} was put back to checkpoint {checkpoint} of another"
                    )));
                }
                sent.extend(&saved.did.sent);
                received.extend(&saved.did.received);
                at = saved.did.checkpoint;
            }
        }
        if let Some(orphan) = received.difference(&sent).next() {
            return Err(Failure::NoState(format!(
                "message {orphan} is received in the restored states and sent in none"
            )));
        }
        let delivered: BTreeSet<u64> = delivered.iter().copied().collect();
        let underway: BTreeSet<u64> = sent.difference(&received).copied().collect();
        match underway.symmetric_difference(&delivered).next() {
            None => Ok(()),
            Some(message) if underway.contains(message) => Err(Failure::NoState(format!(
                "message {message} is sent and not received in the restored states, and was not delivered again"
            ))),
            Some(message) => Err(Failure::NoState(format!(
                "message {message} was delivered again, and is not under way in the restored states"
            ))),
        }
    }
}

#[cfg(test)]
mod tests {
    use super::*;

    /// Checkpoints 0 and 1 of two processes. Then 0 sends message 2 and saves (4);
    /// it sends message 3; 1 receives message 2, saves (5), receives 3 and saves
    /// (6).
    fn record() -> Record {
        let mut record = Record::new(2);
        record.saved(0, 0, b"");
        record.saved(1, 1, b"");
        record.sent(0, 2, b"");
        record.saved(0, 4, b"");
        record.sent(0, 3, b"");
        record.received(1, 2);
        record.saved(1, 5, b"");
        record.received(1, 3);
        record.saved(1, 6, b"");
        record
    }

    fn told(line: &[u64], delivered: &[u64]) -> String {
        match record().fell_back(line, delivered) {
            Ok(()) => "fits".to_string(),
            Err(failure) => failure.to_string(),
        }
    }

    #[test]
    fn lines_and_what_is_under_way() {
        assert_eq!(told(&[0, 1], &[]), "fits");
        assert_eq!(told(&[4, 1], &[2]), "fits");
        assert_eq!(told(&[4, 5], &[]), "fits");
        assert_eq!(
            told(&[4, 6], &[]),
            "message 3 is received in the restored states and sent in none"
        );
        assert_eq!(
            told(&[0, 5], &[]),
            "message 2 is received in the restored states and sent in none"
        );
        assert_eq!(
            told(&[4, 1], &[]),
            "message 2 is sent and not received in the restored states, and was not delivered again"
        );
        assert_eq!(
            told(&[4, 5], &[2]),
            "message 2 was delivered again, and is not under way in the restored states"
        );
        assert_eq!(
            told(&[5, 1], &[]),
            "process 0 was put back to checkpoint 5 of another"
        );
    }

    #[test]
    fn what_a_failure_costs() {
        // Message 3 was sent after the latest checkpoint of process 0, and is
        // received in checkpoint 6.
        assert_eq!(record().after_failure(&[false, false]), [0, 0]);
        assert_eq!(record().after_failure(&[true, false]), [1, 2]);
        assert_eq!(record().after_failure(&[false, true]), [0, 1]);
        // Process 1 sends what process 0 has received and not saved.
        let mut record = record();
        record.sent(1, 7, b"");
        assert_eq!(record.after_failure(&[false, true]), [0, 1]);
        record.received(0, 7);
        assert_eq!(record.after_failure(&[false, true]), [1, 2]);
        record.saved(1, 8, b"");
        assert_eq!(record.after_failure(&[false, true]), [0, 1]);
        // It has saved what it sent, and process 0 what it sent: message 3.
        record.saved(0, 9, b"");
        assert_eq!(record.after_failure(&[true, true]), [1, 1]);
    }

    #[test]
    fn what_was_done_after_the_line_is_forgotten() {
        let mut record = record();
        record.fell_back(&[4, 5], &[]).unwrap();
        record.saved(0, 7, b"");
        record.saved(1, 8, b"");
        record.fell_back(&[7, 8], &[]).unwrap();
    }
}
