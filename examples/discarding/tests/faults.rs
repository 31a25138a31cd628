//! Policies that delete one thing too many, or mix contents up: each is found,
//! with every seed, in runs that the real policy passes.

use std::collections::HashSet;
use std::env;
use std::fs;
use std::path::PathBuf;

use discarding::{drive, BySheet, Chance, Failed, Failure, Policy, Stock, Tally, Thing};
use keeper::Sheet;

const STEPS: u64 = 20_000;
const SEEDS: [u64; 3] = [1, 2, 3];

/// A folder that goes when the test is over.
struct Folder(PathBuf);

impl Folder {
    fn new(name: &str) -> Folder {
        let name = format!("discarding-test-{}-{name}", std::process::id());
        let folder = env::temp_dir().join(name);
        fs::create_dir(&folder).expect("a new folder");
        Folder(folder)
    }
}

impl Drop for Folder {
    fn drop(&mut self) {
        let _ = fs::remove_dir_all(&self.0);
    }
}

fn driven<P: Policy>(name: &str, seed: u64, policy: impl Fn() -> P) -> Result<Tally, Failed> {
    let folder = Folder::new(&format!("{name}-{seed}").replace(' ', "-"));
    drive(STEPS, seed, &folder.0, policy)
}

/// Every seed must end in contents that are missing, or others where `wrong`.
fn is_found<P: Policy>(name: &str, wrong: bool, policy: impl Fn() -> P) {
    for seed in SEEDS {
        match driven(name, seed, &policy) {
            Ok(tally) => panic!("{name} is not found with seed {seed}:\n{tally}"),
            Err(failed) => {
                println!("{name}: {failed}");
                assert!(
                    match failed.failure {
                        Failure::Missing { .. } => true,
                        Failure::Wrong { .. } => wrong,
                        _ => false,
                    },
                    "{name}: {failed}"
                );
            }
        }
    }
}

#[test]
fn the_real_policy_passes() {
    let mut sum = Tally::default();
    for seed in SEEDS {
        let tally =
            driven("real", seed, BySheet::default).unwrap_or_else(|failed| panic!("{failed}"));
        assert_eq!(tally.steps(), STEPS);
        // There was much to find: what was deleted, and what was needed after that.
        assert!(tally.deleted * 10 > tally.written * 8, "{tally}");
        assert!(tally.older * 4 > tally.restored, "{tally}");
        assert!(
            tally.deep * 2 > tally.fall_backs && tally.most_undone > 20,
            "{tally}"
        );
        assert!(tally.redelivered > 1_000, "{tally}");
        // What was received and not saved: delivered again, or discarded before.
        assert!(tally.unsaved > 100 && tally.discarded > 100, "{tally}");
        assert!(
            tally.failures > 500 && tally.go_on > 500 && tally.go_back > 500,
            "{tally}"
        );
        sum.add(&tally);
    }
    assert!(sum.full > 0, "no run was ended by a full table:\n{sum}");
}

/// A policy with the real one's names, that forgets some of what is listed.
struct Forgets<F> {
    real: BySheet,
    forgotten: F,
}

impl<F: FnMut(&Stock, &[Thing]) -> Vec<Thing>> Policy for Forgets<F> {
    fn file(&self, thing: Thing) -> String {
        self.real.file(thing)
    }

    fn sheet_made(&mut self, stock: &Stock, sheet: &Sheet) {
        self.real.sheet_made(stock, sheet);
        let listed: Vec<Thing> = stock.listed(sheet).collect();
        for thing in (self.forgotten)(stock, &listed) {
            assert!(self.real.listed.remove(&thing.identity()));
        }
    }

    fn goes(&self, file: &str) -> bool {
        self.real.goes(file)
    }
}

fn forgets<F>(forgotten: F) -> Forgets<F> {
    Forgets {
        real: BySheet::default(),
        forgotten,
    }
}

fn is_on_the_recovery_line(stock: &Stock, thing: Thing) -> bool {
    let line = stock.table.recovery_line();
    match thing {
        Thing::Checkpoint {
            process, number, ..
        } => line[usize::from(process)] == number,
        Thing::Message { position, .. } => {
            let message = stock.table.message(position).unwrap();
            let is_sent_before = message.sent < line[usize::from(message.sender)];
            let is_received_before = match message.received {
                None => false,
                Some(number) => number.get() <= line[usize::from(message.receiver)],
            };
            is_sent_before && !is_received_before
        }
    }
}

fn is_waiting(stock: &Stock, thing: Thing) -> bool {
    match thing {
        Thing::Checkpoint { .. } => false,
        Thing::Message { position, .. } => stock.table.message(position).unwrap().is_waiting(),
    }
}

fn is_unsaved(stock: &Stock, thing: Thing) -> bool {
    match thing {
        Thing::Checkpoint { .. } => false,
        Thing::Message { position, .. } => stock.table.message(position).unwrap().is_unsaved(),
    }
}

fn is_checkpoint(thing: Thing) -> bool {
    matches!(thing, Thing::Checkpoint { .. })
}

/// All that is listed and fits.
fn all(stock: &Stock, listed: &[Thing], fits: impl Fn(&Stock, Thing) -> bool) -> Vec<Thing> {
    let things = listed.iter().copied();
    things.filter(|thing| fits(stock, *thing)).collect()
}

/// One of what is listed and fits, by chance; none where none fits.
fn one_of(
    fits: impl Fn(&Stock, Thing) -> bool + Copy,
) -> Forgets<impl FnMut(&Stock, &[Thing]) -> Vec<Thing>> {
    let mut chance = Chance::new(1);
    forgets(move |stock: &Stock, listed: &[Thing]| {
        let mut things = all(stock, listed, fits);
        if !things.is_empty() {
            let forgotten = chance.below(things.len());
            things = vec![things[forgotten]];
        }
        things
    })
}

#[test]
fn only_what_the_recovery_line_needs_is_kept() {
    is_found("recovery line alone", false, || {
        forgets(|stock: &Stock, listed: &[Thing]| {
            all(stock, listed, |stock, thing| {
                !is_on_the_recovery_line(stock, thing)
            })
        })
    });
}

#[test]
fn only_messages_that_cross_the_recovery_line_are_kept() {
    is_found("messages across the recovery line", false, || {
        forgets(|stock: &Stock, listed: &[Thing]| {
            all(stock, listed, |stock, thing| {
                !is_checkpoint(thing) && !is_on_the_recovery_line(stock, thing)
            })
        })
    });
}

#[test]
fn only_messages_that_wait_are_kept() {
    is_found("messages that wait", false, || {
        forgets(|stock: &Stock, listed: &[Thing]| {
            all(stock, listed, |stock, thing| {
                !is_checkpoint(thing) && !is_waiting(stock, thing)
            })
        })
    });
}

#[test]
fn only_the_latest_checkpoints_are_kept() {
    is_found("latest checkpoints", false, || {
        forgets(|stock: &Stock, listed: &[Thing]| {
            all(stock, listed, |stock, thing| match thing {
                Thing::Checkpoint {
                    process, number, ..
                } => number + 1 < stock.table.count(process),
                Thing::Message { .. } => false,
            })
        })
    });
}

#[test]
fn one_entry_of_the_sheet_is_not_kept() {
    is_found("all but one", false, || one_of(|_, _| true));
}

#[test]
fn one_checkpoint_is_not_kept() {
    is_found("all but a checkpoint", false, || {
        one_of(|_, thing| is_checkpoint(thing))
    });
}

#[test]
fn one_checkpoint_that_is_not_on_the_recovery_line_is_not_kept() {
    is_found("all but a later checkpoint", false, || {
        one_of(|stock, thing| is_checkpoint(thing) && !is_on_the_recovery_line(stock, thing))
    });
}

#[test]
fn one_message_is_not_kept() {
    is_found("all but a message", false, || {
        one_of(|_, thing| !is_checkpoint(thing))
    });
}

#[test]
fn one_message_that_does_not_wait_is_not_kept() {
    is_found("all but a received message", false, || {
        one_of(|stock, thing| !is_checkpoint(thing) && !is_waiting(stock, thing))
    });
}

#[test]
fn messages_that_are_not_saved_yet_are_not_kept() {
    is_found("none that is unsaved", false, || {
        forgets(|stock: &Stock, listed: &[Thing]| all(stock, listed, is_unsaved))
    });
}

#[test]
fn one_message_that_is_not_saved_yet_is_not_kept() {
    is_found("all but an unsaved message", false, || one_of(is_unsaved));
}

/// What is newer than the sheet goes too, since the sheet does not list it.
#[derive(Default)]
struct NewerToo(BySheet);

impl Policy for NewerToo {
    fn file(&self, thing: Thing) -> String {
        self.0.file(thing)
    }

    fn sheet_made(&mut self, stock: &Stock, sheet: &Sheet) {
        self.0.sheet_made(stock, sheet);
        self.0.newer = u64::MAX;
    }

    fn goes(&self, file: &str) -> bool {
        self.0.goes(file)
    }
}

#[test]
fn what_is_newer_than_the_sheet_is_deleted() {
    is_found("newer too", false, NewerToo::default);
}

/// Contents stored by number or position, of which those at or above the counts
/// and the number of messages that the sheet knew are newer than it.
#[derive(Default)]
struct ByNumber {
    real: BySheet,
    /// Messages are stored by identity, as they should be.
    checkpoints_alone: bool,
    listed: HashSet<String>,
    counts: Vec<u16>,
    messages: usize,
}

impl ByNumber {
    fn has(&self, thing: Thing) -> bool {
        is_checkpoint(thing) || !self.checkpoints_alone
    }

    /// Whether a file by number was there when the sheet was made; `None`: it is
    /// none of them.
    fn is_older(&self, file: &str) -> Option<bool> {
        let mut fields = file.split('-');
        match fields.next()? {
            "number" => {
                let process: usize = fields.next()?.parse().ok()?;
                let number: u16 = fields.next()?.parse().ok()?;
                Some(
                    self.counts
                        .get(process)
                        .is_some_and(|count| number < *count),
                )
            }
            "position" => Some(fields.next()?.parse::<usize>().ok()? < self.messages),
            _ => None,
        }
    }
}

impl Policy for ByNumber {
    fn file(&self, thing: Thing) -> String {
        match thing {
            _ if !self.has(thing) => self.real.file(thing),
            Thing::Checkpoint {
                process, number, ..
            } => format!("number-{process}-{number}"),
            Thing::Message { position, .. } => format!("position-{position}"),
        }
    }

    fn sheet_made(&mut self, stock: &Stock, sheet: &Sheet) {
        self.real.sheet_made(stock, sheet);
        self.listed = stock.listed(sheet).map(|thing| self.file(thing)).collect();
        self.counts = stock.table.counts().collect();
        self.messages = stock.table.messages().len();
    }

    fn goes(&self, file: &str) -> bool {
        match self.is_older(file) {
            Some(is_older) => is_older && !self.listed.contains(file),
            None => self.real.goes(file),
        }
    }
}

#[test]
fn contents_are_stored_by_number() {
    is_found("by number", true, ByNumber::default);
}

#[test]
fn checkpoints_are_stored_by_number() {
    is_found("checkpoints by number", true, || ByNumber {
        checkpoints_alone: true,
        ..ByNumber::default()
    });
}
