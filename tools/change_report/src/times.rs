//! The times of the proofs of two commits, base and head in turn.

use std::path::PathBuf;

use crate::git::Repository;
use crate::prover::{kit, prove, Failure, Run};
use crate::room::Room;
use crate::snapshot::Side;

/// What was measured. A run that failed is the last one.
pub struct Times {
    pub kit: String,
    pub cores: usize,
    /// The crates that were asked for, where not all were.
    pub crates: Vec<String>,
    pub base: Vec<Run>,
    pub head: Vec<Run>,
}

impl Times {
    /// What failed, and in which run of which side.
    pub fn failure(&self) -> Option<(&Failure, String)> {
        let sides = [("base", &self.base), ("head", &self.head)];
        sides.into_iter().find_map(|(name, runs)| {
            let failure = runs.last()?.failure.as_ref()?;
            Some((failure, format!("{name}, run {}", runs.len())))
        })
    }
}

/// Proves both commits from nothing, one after the other, that many times. A
/// failure ends it. Where crates are named, only they are proved, and what they
/// stand on.
pub fn measure(
    repository: &Repository,
    base: &Side,
    head: &Side,
    runs: usize,
    crates: &[String],
) -> Result<Times, String> {
    refuse_unknown(crates, &[base, head])?;
    let mut times = Times {
        kit: kit()?,
        cores: std::thread::available_parallelism().map_or(1, usize::from),
        crates: crates.to_vec(),
        base: Vec::new(),
        head: Vec::new(),
    };
    let mut room = Room::new(repository.root())?;
    let base_folder = check_out(repository, base, &room)?;
    let head_folder = check_out(repository, head, &room)?;
    'runs: for number in 1..=runs {
        let base = (base, &base_folder, &mut times.base);
        let head = (head, &head_folder, &mut times.head);
        for (side, folder, measured) in [base, head] {
            eprintln!("run {number} of {runs}, {}", side.title());
            let run = match wanted(side, crates) {
                Some(wanted) if wanted.is_empty() => Run::default(),
                wanted => prove(folder, wanted.as_deref(), &mut room)?,
            };
            let failed = run.failure.is_some();
            measured.push(run);
            if failed {
                break 'runs;
            }
        }
    }
    Ok(times)
}

fn refuse_unknown(crates: &[String], sides: &[&Side]) -> Result<(), String> {
    let is_known = |name: &String| sides.iter().any(|side| side.snapshot.crates.contains(name));
    match crates.iter().find(|name| !is_known(name)) {
        None => Ok(()),
        Some(name) => Err(format!(
            "{name}: crates.txt lists no such crate, before or after"
        )),
    }
}

fn check_out(repository: &Repository, side: &Side, room: &Room) -> Result<PathBuf, String> {
    let folder = room.folder().join(side.name);
    repository.add_worktree(&side.commit, &folder)?;
    Ok(folder)
}

/// Which of the crates named a commit has, where some are named.
fn wanted(side: &Side, crates: &[String]) -> Option<Vec<String>> {
    if crates.is_empty() {
        return None;
    }
    let has = |name: &&String| side.snapshot.crates.contains(name);
    Some(crates.iter().filter(has).cloned().collect())
}
