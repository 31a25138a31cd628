//! What became of each file of a part of the crates: proofs, must-fail edits.

use std::collections::BTreeSet;

use crate::git::{Moves, Numstat, Repository};
use crate::snapshot::{line_count, place, Place, Side, Snapshot};

/// What became of a file.
#[derive(Clone, Copy, Debug, PartialEq, Eq, PartialOrd, Ord)]
pub enum Fate {
    Added,
    Changed,
    /// Its path is the same, and only what counts for nothing differs.
    Retouched,
    /// Its path is another one, and at most what counts for nothing differs.
    Moved,
    MovedAndChanged,
    Removed,
}

/// A file that differs.
#[derive(Debug)]
pub struct FileChange<'a> {
    pub fate: Fate,
    /// Where it stands; of a removed file, where it stood.
    pub place: Place<'a>,
    /// Where a file that moved stood.
    pub from: Option<Place<'a>>,
    pub added: usize,
    pub deleted: usize,
    pub lines_before: usize,
    pub lines_after: usize,
}

#[derive(Debug)]
pub struct FileComparison<'a> {
    /// By fate, then by crate.
    pub changes: Vec<FileChange<'a>>,
    pub left_alone: Vec<Place<'a>>,
}

impl FileComparison<'_> {
    pub fn count(&self, fate: Fate) -> usize {
        self.changes
            .iter()
            .filter(|change| change.fate == fate)
            .count()
    }
}

/// The files of a part that differ. A removed and an added file are one that
/// moved where they have the same essence, what counts of a text; or where they
/// have the same name and git finds them much alike.
pub fn differing(
    repository: &Repository,
    base: &Side,
    head: &Side,
    part: &str,
    essence: fn(&str) -> String,
) -> Result<Vec<Numstat>, String> {
    let numstat = |moves| repository.numstat(&base.commit, &head.commit, part, moves);
    let mut found = numstat(Moves::Apart)?;
    let (before, after) = (&base.snapshot, &head.snapshot);
    let mut moved = same_in_essence(&found, before, after, essence);
    moved.extend(same_in_name(numstat(Moves::Joined)?));
    for (old, new) in moved {
        let is_left = |path: &str| {
            found
                .iter()
                .any(|file| file.before == path && file.after == path)
        };
        if is_left(&old) && is_left(&new) {
            found.retain(|file| file.after != old && file.after != new);
            found.push(repository.numstat_of(&base.commit, &old, &head.commit, &new)?);
        }
    }
    Ok(found)
}

/// The paths of removed and added files that have the same essence.
fn same_in_essence(
    differing: &[Numstat],
    before: &Snapshot,
    after: &Snapshot,
    essence: fn(&str) -> String,
) -> Vec<(String, String)> {
    let only_in = |one: &Snapshot, other: &Snapshot| {
        let paths = differing.iter().map(|file| file.after.clone());
        paths
            .filter(|path| other.text(path).is_none())
            .filter_map(|path| one.text(&path).map(essence).map(|text| (path, text)))
            .filter(|(_, text)| !text.is_empty())
            .collect::<Vec<_>>()
    };
    let mut removed = only_in(before, after);
    let mut pairs = Vec::new();
    for (new, text) in only_in(after, before) {
        if let Some(place) = removed.iter().position(|(_, other)| *other == text) {
            pairs.push((removed.remove(place).0, new));
        }
    }
    pairs
}

/// The paths of the files that moved, as git says, and kept their names.
fn same_in_name(differing: Vec<Numstat>) -> Vec<(String, String)> {
    let moved = differing
        .into_iter()
        .filter(|file| file.before != file.after);
    moved
        .filter(|file| own_name(&file.before) == own_name(&file.after))
        .map(|file| (file.before, file.after))
        .collect()
}

/// The files of which a function's proof is made, in a folder of its name.
const OF_A_FUNCTION: [&str; 3] = ["Proof.antt", "Invariants.antt", "Answers.antt"];

/// A file's name; of a function's proof, with the function's.
fn own_name(path: &str) -> Vec<&str> {
    let mut parts = path.rsplit('/');
    let file = parts.next().unwrap_or(path);
    let function = parts.next().filter(|_| OF_A_FUNCTION.contains(&file));
    [Some(file), function].into_iter().flatten().collect()
}

/// Compares the files of a part, of which those `differing` differ.
pub fn compare_files<'a>(
    before: &'a Snapshot,
    after: &'a Snapshot,
    part: &str,
    differing: &'a [Numstat],
    essence: fn(&str) -> String,
) -> FileComparison<'a> {
    let mut changes: Vec<FileChange> = differing
        .iter()
        .filter_map(|numstat| change(before, after, numstat, essence))
        .collect();
    let listed = after.crates.iter().chain(&before.crates);
    let order: Vec<&String> = listed.collect();
    let rank = |krate: &str| order.iter().position(|name| *name == krate);
    changes.sort_by_key(|change| (change.fate, rank(change.place.krate), change.place.file));
    let differing: BTreeSet<&str> = differing
        .iter()
        .map(|numstat| numstat.after.as_str())
        .collect();
    let left_alone = after.part(part).into_iter().map(|(place, _)| place);
    FileComparison {
        changes,
        left_alone: left_alone
            .filter(|place| !differing.contains(place.path().as_str()))
            .collect(),
    }
}

fn change<'a>(
    before: &'a Snapshot,
    after: &'a Snapshot,
    numstat: &'a Numstat,
    essence: fn(&str) -> String,
) -> Option<FileChange<'a>> {
    let old = before.text(&numstat.before);
    let new = after.text(&numstat.after);
    let moved = numstat.before != numstat.after;
    let fate = match (old, new) {
        (None, None) => return None,
        (None, Some(_)) => Fate::Added,
        (Some(_), None) => Fate::Removed,
        (Some(old), Some(new)) => match (moved, essence(old) == essence(new)) {
            (false, false) => Fate::Changed,
            (false, true) => Fate::Retouched,
            (true, true) => Fate::Moved,
            (true, false) => Fate::MovedAndChanged,
        },
    };
    Some(FileChange {
        fate,
        place: place(&numstat.after)?,
        from: if moved { place(&numstat.before) } else { None },
        added: numstat.added,
        deleted: numstat.deleted,
        lines_before: old.map_or(0, line_count),
        lines_after: new.map_or(0, line_count),
    })
}

#[cfg(test)]
mod tests {
    use super::*;
    use crate::definitions::code;
    use crate::snapshot::tests::snapshot;

    fn numstat(before: &str, after: &str) -> Numstat {
        Numstat {
            added: 1,
            deleted: 1,
            before: format!("crates/{before}"),
            after: format!("crates/{after}"),
        }
    }

    #[test]
    fn small_proofs_that_moved_are_found() {
        let before = snapshot(&[
            ("crates.txt", "a:\nb: a"),
            ("crates/a/proofs/f/Proof.antt", "use a.f\nf : T\nf = 1\n"),
            ("crates/a/proofs/g/Proof.antt", "use a.g\ng : T\ng = 1\n"),
            ("crates/a/proofs/Lib.antt", "pub mod A\n"),
        ]);
        let after = snapshot(&[
            ("crates.txt", "a:\nb: a"),
            ("crates/b/proofs/f/Proof.antt", "use b.f\nf : T\nf = 1\n"),
            ("crates/b/proofs/g/Proof.antt", "use b.g\ng : T\ng = 2\n"),
            ("crates/b/proofs/Lib.antt", "pub mod B\n"),
        ]);
        let paths = ["f/Proof.antt", "g/Proof.antt", "Lib.antt"];
        let differing: Vec<Numstat> = ["a", "b"]
            .into_iter()
            .flat_map(|krate| paths.map(|path| format!("{krate}/proofs/{path}")))
            .map(|path| numstat(&path, &path))
            .collect();
        assert_eq!(
            same_in_essence(&differing, &before, &after, code),
            [(
                "crates/a/proofs/f/Proof.antt".to_string(),
                "crates/b/proofs/f/Proof.antt".to_string()
            )]
        );
    }

    #[test]
    fn only_a_file_that_keeps_its_name_moves_with_changes() {
        let found = same_in_name(vec![
            numstat("a/proofs/f/Proof.antt", "b/proofs/m/f/Proof.antt"),
            numstat("a/proofs/g/Proof.antt", "b/proofs/h/Proof.antt"),
            numstat("a/proofs/f/Answers.antt", "b/proofs/f/Answers.antt"),
            numstat("a/proofs/g/Answers.antt", "b/proofs/h/Answers.antt"),
            numstat("a/proofs/g/Invariants.antt", "b/proofs/h/Invariants.antt"),
            numstat("a/proofs/Laws.antt", "b/proofs/Laws.antt"),
            numstat("a/proofs/Same.antt", "a/proofs/Same.antt"),
        ]);
        let new: Vec<_> = found.iter().map(|(_, new)| new.as_str()).collect();
        assert_eq!(
            new,
            [
                "crates/b/proofs/m/f/Proof.antt",
                "crates/b/proofs/f/Answers.antt",
                "crates/b/proofs/Laws.antt"
            ]
        );
    }

    #[test]
    fn tells_what_became_of_each() {
        let before = snapshot(&[
            ("crates.txt", "b:\na: b"),
            ("crates/a/proofs/Changed.antt", "use x\nf : T\nf = 1\n"),
            ("crates/b/proofs/Retouched.antt", "use x\nf : T\nf = 1\n"),
            ("crates/a/proofs/Moved.antt", "use x\nf : T\nf = 1\n"),
            ("crates/a/proofs/Both.antt", "use x\nf : T\nf = 1\n"),
            ("crates/a/proofs/Removed.antt", "f : T\n"),
            ("crates/a/proofs/Same.antt", "f : T\n"),
            ("crates/a/src/lib.rt", "\n"),
        ]);
        let after = snapshot(&[
            ("crates.txt", "b:\na: b"),
            ("crates/a/proofs/Changed.antt", "use x\nf : T\nf = 2\n"),
            ("crates/b/proofs/Retouched.antt", "use y\nf : T\nf = 1\n"),
            ("crates/b/proofs/Moved.antt", "use y\nf : T\nf = 1\n"),
            ("crates/b/proofs/Both.antt", "use y\nf : T\nf = 2\n"),
            ("crates/a/proofs/Added.antt", "f : T\nf = 1\n"),
            ("crates/b/proofs/Added.antt", "f : T\n"),
            ("crates/a/proofs/Same.antt", "f : T\n"),
            ("crates/a/src/lib.rt", "\n"),
        ]);
        let differing = [
            numstat("a/proofs/Added.antt", "a/proofs/Added.antt"),
            numstat("b/proofs/Added.antt", "b/proofs/Added.antt"),
            numstat("a/proofs/Changed.antt", "a/proofs/Changed.antt"),
            numstat("a/proofs/Both.antt", "b/proofs/Both.antt"),
            numstat("a/proofs/Moved.antt", "b/proofs/Moved.antt"),
            numstat("a/proofs/Removed.antt", "a/proofs/Removed.antt"),
            numstat("b/proofs/Retouched.antt", "b/proofs/Retouched.antt"),
        ];
        let found = compare_files(&before, &after, "proofs", &differing, code);
        let fates: Vec<_> = found
            .changes
            .iter()
            .map(|c| (c.fate, c.place.krate))
            .collect();
        assert_eq!(
            fates,
            [
                (Fate::Added, "b"),
                (Fate::Added, "a"),
                (Fate::Changed, "a"),
                (Fate::Retouched, "b"),
                (Fate::Moved, "b"),
                (Fate::MovedAndChanged, "b"),
                (Fate::Removed, "a"),
            ]
        );
        let added = &found.changes[1];
        assert_eq!((added.lines_before, added.lines_after), (0, 2));
        assert_eq!(found.changes[4].from.map(|from| from.krate), Some("a"));
        assert_eq!(found.changes[2].from, None);
        let alone: Vec<_> = found.left_alone.iter().map(|place| place.file).collect();
        assert_eq!(alone, ["Same.antt"]);
    }
}
