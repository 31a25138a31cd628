//! What was done, in numbers.

use std::fmt;

#[derive(Clone, Debug, Default, PartialEq, Eq)]
pub struct Tally {
    pub runs: u64,
    /// Runs that a full table ended.
    pub full: u64,
    pub sends: u64,
    pub saves: u64,
    pub receipts: u64,
    /// Messages that the receipts were of.
    pub received: u64,
    pub fall_backs: u64,
    /// Fall backs that put a process back to a checkpoint older than its latest.
    pub deep: u64,
    /// Checkpoints that fall backs went behind, and the most for one of them.
    pub undone: u64,
    pub most_undone: u64,
    /// Checkpoints read back, and those older than the latest of their process.
    pub restored: u64,
    pub older: u64,
    /// Messages delivered again, and those of them that were received and not saved.
    pub redelivered: u64,
    pub unsaved: u64,
    /// Messages that a sheet did not list though they were received and not saved.
    pub discarded: u64,
    /// Sets of processes whose failure was tried; of the other processes, those that
    /// could go on as they were, and those that had to go back.
    pub failures: u64,
    pub go_on: u64,
    pub go_back: u64,
    pub sheets: u64,
    pub written: u64,
    pub deleted: u64,
    pub most_files: u64,
    /// Contents that a sheet listed, and those of them that a fall back read.
    pub listed: u64,
    pub needed: u64,
}

impl Tally {
    /// The steps: all that the processes did.
    pub fn steps(&self) -> u64 {
        self.sends + self.saves + self.receipts + self.fall_backs
    }

    pub fn add(&mut self, other: &Tally) {
        self.runs += other.runs;
        self.full += other.full;
        self.sends += other.sends;
        self.saves += other.saves;
        self.receipts += other.receipts;
        self.received += other.received;
        self.fall_backs += other.fall_backs;
        self.deep += other.deep;
        self.undone += other.undone;
        self.most_undone = self.most_undone.max(other.most_undone);
        self.restored += other.restored;
        self.older += other.older;
        self.redelivered += other.redelivered;
        self.unsaved += other.unsaved;
        self.discarded += other.discarded;
        self.failures += other.failures;
        self.go_on += other.go_on;
        self.go_back += other.go_back;
        self.sheets += other.sheets;
        self.written += other.written;
        self.deleted += other.deleted;
        self.most_files = self.most_files.max(other.most_files);
        self.listed += other.listed;
        self.needed += other.needed;
    }
}

/// So many in a hundred, rounded down.
fn share(part: u64, whole: u64) -> u64 {
    100 * part / whole.max(1)
}

impl fmt::Display for Tally {
    fn fmt(&self, to: &mut fmt::Formatter<'_>) -> fmt::Result {
        writeln!(
            to,
            "{} steps in {} runs ({} ended by a full table): {} sends, {} saves, {} receipts of {} messages, {} fall backs",
            self.steps(),
            self.runs,
            self.full,
            self.sends,
            self.saves,
            self.receipts,
            self.received,
            self.fall_backs
        )?;
        writeln!(
            to,
            "{} checkpoints restored, {}% of them older than their process's latest; {} messages redelivered",
            self.restored,
            share(self.older, self.restored),
            self.redelivered
        )?;
        writeln!(
            to,
            "{}% of the fall backs went behind a latest checkpoint; {} checkpoints undone, {} at once at most",
            share(self.deep, self.fall_backs),
            self.undone,
            self.most_undone
        )?;
        writeln!(
            to,
            "{} of the messages redelivered were received and not saved; {} messages could be discarded before they were saved",
            self.unsaved, self.discarded
        )?;
        writeln!(
            to,
            "{} failures of some processes tried: of the others {} could go on as they were, and {} had to go back",
            self.failures, self.go_on, self.go_back
        )?;
        writeln!(
            to,
            "{} files written, {} deleted by {} sheets ({}%), {} at once at most",
            self.written,
            self.deleted,
            self.sheets,
            share(self.deleted, self.written),
            self.most_files
        )?;
        write!(
            to,
            "{} of the {} contents that a sheet listed were needed by a fall back ({}%)",
            self.needed,
            self.listed,
            share(self.needed, self.listed)
        )
    }
}
