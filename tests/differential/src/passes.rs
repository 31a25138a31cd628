//! How many passes over the messages the lines of the tables by chance take. A
//! library may try some passes and then look for orphans in another way, so tables
//! must be there whose lines take more of them, and those on which such a search
//! could miss something.

use reference::passes::{passes_of_holders, passes_of_run, sends_fall};
use reference::Table;

/// The passes that may be tried first, for so many processes.
fn tried(processes: usize) -> usize {
    processes / 4 + 2
}

/// From so many processes on, few lines by chance take as many passes as may be tried.
const WIDE: usize = 8;

/// What the lines of an accepted table, the recovery line and those of single
/// holders, may be like, and of how many tables out of a thousand they are so at the
/// least.
pub const LINES: [(&str, u64); 7] = [
    ("N / 4 + 2 passes", 150),
    ("N / 4 + 3", 25),
    ("N / 4 + 2 or N / 4 + 3, of 8 processes or more", 15),
    ("more than N / 4 + 3", 90),
    ("more than N / 4 + 2, and send numbers that fall", 35),
    ("more than N / 4 + 2, and of a later holder fewer", 18),
    ("the same, and send numbers that fall", 10),
];

/// With fewer tables the shares are left to chance.
const ENOUGH: u64 = 1_000;

/// Accepted tables, and how many of them have lines of each kind of [`LINES`].
#[derive(Default)]
pub struct Passes {
    pub accepted: u64,
    pub times: [u64; LINES.len()],
}

impl Passes {
    /// Counts a table; one that is refused has no lines.
    pub fn add(&mut self, bytes: &[u8]) {
        let Ok(table) = Table::read(bytes) else {
            return;
        };
        let tried = tried(table.processes());
        let of_holders = passes_of_holders(&table);
        let of_run = passes_of_run(&table);
        let lines = || of_holders.iter().copied().chain([of_run]);
        let many = |passes: usize| passes > tried;
        let few = |passes: usize| 0 < passes && passes <= tried;
        let mut later = of_holders
            .iter()
            .copied()
            .skip_while(|&passes| !many(passes));
        let before = later.any(few);
        let last = lines().any(|passes| passes == tried);
        let next = lines().any(|passes| passes == tried + 1);
        let falling = sends_fall(&table);
        self.accepted += 1;
        for (times, so) in self.times.iter_mut().zip([
            last,
            next,
            (last || next) && table.processes() >= WIDE,
            lines().any(|passes| passes > tried + 1),
            lines().any(many) && falling,
            before,
            before && falling,
        ]) {
            *times += u64::from(so);
        }
    }

    /// The kinds of lines that fewer tables have than they should.
    pub fn strays(&self) -> Vec<String> {
        let few = |&(&(_, share), &times): &(&(&str, u64), &u64)| {
            self.accepted >= ENOUGH && 1_000 * times < share * self.accepted
        };
        let kinds = LINES.iter().zip(&self.times).filter(few);
        kinds
            .map(|((kind, share), times)| {
                let accepted = self.accepted;
                format!(
                    "fewer than {share} of 1,000 tables have lines of {kind}: {times} of {accepted}"
                )
            })
            .collect()
    }

    /// How many tables have lines of each kind.
    pub fn report(&self) -> String {
        let kinds = LINES.iter().zip(&self.times);
        let kinds: Vec<String> = kinds
            .map(|((kind, _), times)| format!("{kind}: {times}"))
            .collect();
        format!("of {} tables: {}", self.accepted, kinds.join("; "))
    }
}
