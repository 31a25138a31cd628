//! Runs by chance: which process does what, when a sheet is made and when the
//! files are gone through.

use std::collections::HashSet;
use std::error::Error;
use std::fmt;
use std::path::Path;

use keeper::Refusal;

use crate::chance::Chance;
use crate::failure::Failure;
use crate::run::{Run, Which};
use crate::store::Policy;
use crate::tally::Tally;

/// A failure and where it was: enough to have it again.
#[derive(Debug)]
pub struct Failed {
    pub seed: u64,
    pub run: u64,
    /// The steps made before it, in all runs of the seed.
    pub steps: u64,
    pub failure: Failure,
}

impl fmt::Display for Failed {
    fn fmt(&self, to: &mut fmt::Formatter<'_>) -> fmt::Result {
        let Failed {
            seed,
            run,
            steps,
            failure,
        } = self;
        write!(to, "seed {seed}, run {run}, after {steps} steps: {failure}")
    }
}

impl Error for Failed {}

/// Makes so many steps (1 or more) in runs by the seed, in folders `run-1`,
/// `run-2` and so on of `folder`, none of which may be there. A run ends after
/// some time or when its table is full (14): it falls back once more, its folder
/// is removed, and a new run begins in a fresh one. After a failure the folder of
/// its run is left.
pub fn drive<P: Policy>(
    steps: u64,
    seed: u64,
    folder: &Path,
    policy: impl Fn() -> P,
) -> Result<Tally, Failed> {
    let mut course = Course {
        chance: Chance::new(seed),
        tally: Tally::default(),
        steps,
        temper: Temper::Mixed,
        temper_steps: 0,
        fall_back_in: 1,
    };
    while course.tally.steps() < steps {
        course.tally.runs += 1;
        let run = course.tally.runs;
        let folder = folder.join(format!("run-{run}"));
        course
            .run(run, &folder, policy())
            .map_err(|failure| Failed {
                seed,
                run,
                steps: course.tally.steps(),
                failure,
            })?;
    }
    Ok(course.tally)
}

/// How the processes behave for some time.
#[derive(Clone, Copy)]
enum Temper {
    /// Anything by chance.
    Mixed,
    /// A relay: the process named sends to another right after it saved, and that
    /// one receives the message (behind older ones of the same sender), saves, and
    /// sends on. So each checkpoint depends on
    /// a message that was sent after the latest checkpoint of another, and that
    /// checkpoint on a message before: where one is put back all of them are, like
    /// dominoes.
    Relay { at: u16 },
}

enum Act {
    Send { from: u16, to: u16 },
    Receive { process: u16 },
    Save { process: u16 },
    FallBack,
}

struct Course {
    chance: Chance,
    tally: Tally,
    /// The steps to make in all.
    steps: u64,
    temper: Temper,
    /// For how many steps it lasts.
    temper_steps: usize,
    /// In this run a fall back comes once in so many steps.
    fall_back_in: usize,
}

/// Three runs of four end after some time; the fourth goes on until its table is
/// full.
fn run_length(chance: &mut Chance) -> u64 {
    match chance.below(4) {
        0 => u64::MAX,
        _ => chance.between(300, 4_000) as u64,
    }
}

/// What is to be done with files next, and in how many steps.
struct Sweep {
    sheet_is_made: bool,
    steps: usize,
}

/// Of one run, by identity: what a sheet listed, what a fall back read, and the
/// messages that a sheet did not list though they were received and not saved.
#[derive(Default)]
struct Needs {
    listed: HashSet<u64>,
    read: HashSet<u64>,
    unsaved: HashSet<u64>,
}

impl Course {
    fn run<P: Policy>(&mut self, name: u64, folder: &Path, policy: P) -> Result<(), Failure> {
        let processes = self.chance.between(2, 8);
        let prompt = !self.chance.once_in(3);
        let length = run_length(&mut self.chance);
        // One that is to fill its table falls back less often.
        self.fall_back_in = match length {
            u64::MAX => [60, 150, 600][self.chance.below(3)],
            _ => [25, 60, 150][self.chance.below(3)],
        };
        let end = self.steps.min(self.tally.steps().saturating_add(length));
        let mut run = Run::new(name, processes, prompt, folder, policy)?;
        self.tally.written += processes as u64;
        let mut needs = Needs::default();
        let mut sweep = Sweep {
            sheet_is_made: false,
            steps: 0,
        };
        while self.tally.steps() + 1 < end {
            let act = self.choose(&run);
            match self.make(&mut run, &mut needs, act) {
                Err(Failure::Refused(Refusal::TableFull)) => {
                    self.tally.full += 1;
                    break;
                }
                made => made?,
            }
            self.sweep(&mut run, &mut needs, &mut sweep)?;
        }
        self.make(&mut run, &mut needs, Act::FallBack)?;
        self.tally.discarded += needs.unsaved.len() as u64;
        self.tally.listed += needs.listed.len() as u64;
        self.tally.needed += needs.listed.intersection(&needs.read).count() as u64;
        run.end()
    }

    fn choose<P: Policy>(&mut self, run: &Run<P>) -> Act {
        let process = self.chance.below(run.processes()) as u16;
        if self.temper_steps == 0 {
            self.temper = match self.chance.below(2) {
                0 => Temper::Mixed,
                _ => Temper::Relay { at: process },
            };
            self.temper_steps = self.chance.between(20, 150);
        }
        self.temper_steps -= 1;
        if self.chance.once_in(self.fall_back_in) {
            return Act::FallBack;
        }
        match self.temper {
            // Now and then another process does something meanwhile.
            Temper::Relay { at } if !self.chance.once_in(20) => self.relay(at, run),
            _ => match self.chance.below(100) {
                0..=25 => Act::Save { process },
                26..=67 if run.has_mail(process) => Act::Receive { process },
                _ => self.send_from(process, run),
            },
        }
    }

    fn relay<P: Policy>(&mut self, at: u16, run: &Run<P>) -> Act {
        // A run of another number of processes may have begun meanwhile.
        let process = at % run.processes() as u16;
        if run.has_received(process) {
            return Act::Save { process };
        }
        if run.has_just_saved(process) || !run.has_mail(process) {
            let act = self.send_from(process, run);
            if let Act::Send { to, .. } = act {
                self.temper = Temper::Relay { at: to };
            }
            return act;
        }
        Act::Receive { process }
    }

    fn send_from<P: Policy>(&mut self, from: u16, run: &Run<P>) -> Act {
        let processes = run.processes();
        let further = self.chance.between(1, processes - 1);
        let to = ((usize::from(from) + further) % processes) as u16;
        Act::Send { from, to }
    }

    fn make<P: Policy>(
        &mut self,
        run: &mut Run<P>,
        needs: &mut Needs,
        act: Act,
    ) -> Result<(), Failure> {
        match act {
            Act::Send { from, to } => {
                run.send(from, to)?;
                self.tally.sends += 1;
                self.tally.written += 1;
            }
            Act::Receive { process } => {
                // In a relay the newest, else the oldest of any sender, and now and then
                // all at once.
                let which = match self.temper {
                    Temper::Relay { .. } => Which::UpToNewest,
                    Temper::Mixed if self.chance.once_in(8) => Which::All,
                    Temper::Mixed => Which::OldestFrom(self.chance.below(1 << 16)),
                };
                self.tally.received += run.receive(process, which)? as u64;
                self.tally.receipts += 1;
            }
            Act::Save { process } => {
                run.save(process)?;
                self.tally.saves += 1;
                self.tally.written += 1;
            }
            Act::FallBack => {
                let restored = run.fall_back()?;
                self.tally.fall_backs += 1;
                self.tally.deep += u64::from(restored.older > 0);
                self.tally.undone += restored.undone;
                self.tally.most_undone = self.tally.most_undone.max(restored.undone);
                self.tally.restored += restored.checkpoints.len() as u64;
                self.tally.older += restored.older;
                self.tally.redelivered += restored.messages.len() as u64;
                self.tally.unsaved += restored.unsaved;
                needs.read.extend(restored.checkpoints);
                needs.read.extend(restored.messages);
            }
        }
        Ok(())
    }

    /// Makes a sheet every few steps, and deletes by it a few steps later, as a
    /// store does that deletes in its own time: what was saved or sent meanwhile
    /// is newer than the sheet.
    fn sweep<P: Policy>(
        &mut self,
        run: &mut Run<P>,
        needs: &mut Needs,
        sweep: &mut Sweep,
    ) -> Result<(), Failure> {
        if sweep.steps > 0 {
            sweep.steps -= 1;
            return Ok(());
        }
        if sweep.sheet_is_made {
            let cleared = run.clear()?;
            self.tally.deleted += cleared.deleted as u64;
            self.tally.most_files = self.tally.most_files.max(cleared.before as u64);
            sweep.steps = self.chance.between(1, 6);
        } else {
            let listed = run.make_sheet();
            needs.listed.extend(listed.kept);
            needs.unsaved.extend(listed.unsaved);
            self.tally.sheets += 1;
            run.check_receipts()?;
            let set = self.chance.below(1 << run.processes()) as u32;
            if let Some((go_on, go_back)) = run.try_failure(set)? {
                self.tally.failures += 1;
                self.tally.go_on += go_on;
                self.tally.go_back += go_back;
            }
            sweep.steps = self.chance.between(0, 4);
        }
        sweep.sheet_is_made = !sweep.sheet_is_made;
        Ok(())
    }
}
