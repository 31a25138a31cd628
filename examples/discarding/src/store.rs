//! Contents in files, and what decides which of them go.

use std::collections::HashSet;
use std::fmt;
use std::fs;
use std::io::ErrorKind;
use std::path::{Path, PathBuf};

use keeper::{Sheet, Table};

use crate::failure::Failure;

/// Something that has contents: where it stands in the table now, and the
/// identity that it has for good. An identity is a serial number of the run,
/// for checkpoints and messages alike; none is used twice.
#[derive(Clone, Copy, Debug, PartialEq, Eq)]
pub enum Thing {
    Checkpoint {
        process: u16,
        number: u16,
        identity: u64,
    },
    Message {
        position: u16,
        identity: u64,
    },
}

impl Thing {
    pub fn identity(&self) -> u64 {
        match *self {
            Thing::Checkpoint { identity, .. } | Thing::Message { identity, .. } => identity,
        }
    }
}

impl fmt::Display for Thing {
    fn fmt(&self, to: &mut fmt::Formatter<'_>) -> fmt::Result {
        match self {
            Thing::Checkpoint {
                process,
                number,
                identity,
            } => {
                write!(
                    to,
                    "checkpoint {number} of process {process} (identity {identity})"
                )
            }
            Thing::Message { position, identity } => {
                write!(
                    to,
                    "the message at position {position} (identity {identity})"
                )
            }
        }
    }
}

/// The table with the identities of what is in it.
pub struct Stock {
    pub table: Table,
    /// By process and number.
    pub checkpoints: Vec<Vec<u64>>,
    /// By position.
    pub messages: Vec<u64>,
    /// The identity that comes next: all that are there are below it.
    pub next: u64,
}

impl Stock {
    pub fn checkpoint(&self, process: u16, number: u16) -> Thing {
        let identity = self.checkpoints[usize::from(process)][usize::from(number)];
        Thing::Checkpoint {
            process,
            number,
            identity,
        }
    }

    pub fn message(&self, position: u16) -> Thing {
        let identity = self.messages[usize::from(position)];
        Thing::Message { position, identity }
    }

    /// All that the sheet of this table lists.
    pub fn listed<'a>(&'a self, sheet: &'a Sheet) -> impl Iterator<Item = Thing> + 'a {
        let checkpoints = sheet
            .checkpoints()
            .map(|kept| self.checkpoint(kept.process, kept.number));
        let messages = sheet.messages().map(|position| self.message(position));
        checkpoints.chain(messages)
    }
}

/// Decides under which name contents are stored, and which files go. The real
/// policy is [`BySheet`], and no other is in this program; tests/faults.rs has
/// wrong ones, to show that they are found.
pub trait Policy {
    /// The name of the file of these contents.
    fn file(&self, thing: Thing) -> String;

    /// A keep sheet was made of the table as it is now. The files are gone
    /// through later, when the run has made further steps.
    fn sheet_made(&mut self, stock: &Stock, sheet: &Sheet);

    /// Whether a file goes, by the last sheet.
    fn goes(&self, file: &str) -> bool;
}

/// The real policy: contents are stored by identity, and a file goes just where
/// it is older than the sheet and the sheet does not list what it is of. So what
/// was saved or sent after the sheet was made stays until the next one.
#[derive(Default)]
pub struct BySheet {
    /// The identities of what the sheet lists.
    pub listed: HashSet<u64>,
    /// The first identity that was given after the sheet was made.
    pub newer: u64,
}

impl Policy for BySheet {
    fn file(&self, thing: Thing) -> String {
        let identity = thing.identity();
        match thing {
            Thing::Checkpoint { .. } => format!("checkpoint-{identity:08}"),
            Thing::Message { .. } => format!("message-{identity:08}"),
        }
    }

    fn sheet_made(&mut self, stock: &Stock, sheet: &Sheet) {
        self.listed = stock.listed(sheet).map(|thing| thing.identity()).collect();
        self.newer = stock.next;
    }

    fn goes(&self, file: &str) -> bool {
        match identity_in(file) {
            Some(identity) => identity < self.newer && !self.listed.contains(&identity),
            // Nothing of ours.
            None => false,
        }
    }
}

fn identity_in(file: &str) -> Option<u64> {
    let (kind, identity) = file.split_once('-')?;
    match kind {
        "checkpoint" | "message" => identity.parse().ok(),
        _ => None,
    }
}

/// The files of one run, in a folder of their own.
pub struct Store<P> {
    folder: PathBuf,
    policy: P,
}

/// What going through the files did.
pub struct Cleared {
    pub before: usize,
    pub deleted: usize,
}

impl<P: Policy> Store<P> {
    /// A store in a new folder. One that is there already is left alone.
    pub fn new(folder: &Path, policy: P) -> Result<Store<P>, Failure> {
        fs::create_dir(folder).map_err(Failure::files(folder))?;
        Ok(Store {
            folder: folder.to_path_buf(),
            policy,
        })
    }

    pub fn write(&self, thing: Thing, contents: &[u8]) -> Result<(), Failure> {
        let file = self.folder.join(self.policy.file(thing));
        fs::write(&file, contents).map_err(Failure::files(&file))
    }

    /// The contents, which must be there and be these.
    pub fn read(&self, thing: Thing, expected: &[u8]) -> Result<Vec<u8>, Failure> {
        let file = self.folder.join(self.policy.file(thing));
        match fs::read(&file) {
            Ok(contents) if contents == expected => Ok(contents),
            Ok(_) => Err(Failure::Wrong { thing, file }),
            Err(error) if error.kind() == ErrorKind::NotFound => {
                Err(Failure::Missing { thing, file })
            }
            Err(error) => Err(Failure::files(&file)(error)),
        }
    }

    pub fn sheet_made(&mut self, stock: &Stock, sheet: &Sheet) {
        self.policy.sheet_made(stock, sheet);
    }

    /// Deletes the files that go by the last sheet.
    pub fn clear(&self) -> Result<Cleared, Failure> {
        let mut cleared = Cleared {
            before: 0,
            deleted: 0,
        };
        let failed = |error| Failure::files(&self.folder)(error);
        for entry in fs::read_dir(&self.folder).map_err(failed)? {
            let entry = entry.map_err(failed)?;
            cleared.before += 1;
            if self.policy.goes(&entry.file_name().to_string_lossy()) {
                let file = entry.path();
                fs::remove_file(&file).map_err(Failure::files(&file))?;
                cleared.deleted += 1;
            }
        }
        Ok(cleared)
    }

    /// The run is over: its folder goes, with all that is in it.
    pub fn remove(self) -> Result<(), Failure> {
        fs::remove_dir_all(&self.folder).map_err(Failure::files(&self.folder))
    }
}

#[cfg(test)]
mod tests {
    use super::*;

    /// Two processes with two checkpoints each, of which the sheet lists the
    /// latest alone, and a message that was received before them.
    fn stock() -> Stock {
        let mut table = Table::new(2).unwrap();
        table.send(0, 1).unwrap();
        table.save(0, &[]).unwrap();
        table.save(1, &[0]).unwrap();
        Stock {
            table,
            checkpoints: vec![vec![0, 3], vec![1, 4]],
            messages: vec![2],
            next: 5,
        }
    }

    #[test]
    fn what_is_older_than_the_sheet_and_not_listed_goes() {
        let stock = stock();
        let mut policy = BySheet::default();
        // Before the first sheet nothing goes.
        assert!(!policy.goes("checkpoint-00000000"));
        policy.sheet_made(&stock, &stock.table.keep_sheet());
        for (file, goes) in [
            ("checkpoint-00000000", true),
            ("checkpoint-00000001", true),
            ("message-00000002", true),
            ("checkpoint-00000003", false),
            ("checkpoint-00000004", false),
            // Newer than the sheet.
            ("message-00000005", false),
            ("checkpoint-00000006", false),
            // Nothing of ours.
            ("checkpoint-", false),
            ("checkpoint", false),
            ("message-2.old", false),
            ("notes-00000000", false),
        ] {
            assert_eq!(policy.goes(file), goes, "{file}");
        }
    }

    #[test]
    fn names_show_the_identity() {
        let (stock, policy) = (stock(), BySheet::default());
        assert_eq!(policy.file(stock.checkpoint(1, 1)), "checkpoint-00000004");
        assert_eq!(policy.file(stock.message(0)), "message-00000002");
        assert_eq!(identity_in(&policy.file(stock.message(0))), Some(2));
    }
}
