//! The sections of proofs and of must-fail edits.

use super::moved_from;
use crate::files::{Fate, FileChange, FileComparison};
use crate::markdown::{details, from_to, listed, number, quoted, table, Set};
use crate::snapshot::Place;

/// How a kind of files is spoken of.
pub struct Group {
    title: &'static str,
    /// What alone differs in a file that is retouched.
    retouched: &'static str,
}

pub const PROOFS: Group = Group {
    title: "Proofs (`proofs/`)",
    retouched: "`use`, `mod`, comments",
};

pub const EDITS: Group = Group {
    title: "Must-fail edits (`must-fail/`)",
    retouched: "`file:`, comments",
};

pub fn section(group: &Group, found: &FileComparison) -> String {
    let columns = [
        ("what", Set::Left),
        ("crate", Set::Left),
        ("file", Set::Left),
        ("added", Set::Right),
        ("deleted", Set::Right),
        ("lines", Set::Right),
    ];
    let counts = format!(
        "{} added, {} changed, {} moved, {} removed, {} left alone.",
        found.count(Fate::Added),
        found.count(Fate::Changed) + found.count(Fate::Retouched),
        found.count(Fate::Moved) + found.count(Fate::MovedAndChanged),
        found.count(Fate::Removed),
        found.left_alone.len()
    );
    let rows: Vec<Vec<String>> = found
        .changes
        .iter()
        .map(|change| row(group, change))
        .collect();
    let mut text = format!("## {}\n\n{counts}\n\n", group.title);
    text += &table(&columns, &rows);
    let title = format!("Left alone: {}", found.left_alone.len());
    let alone = found
        .left_alone
        .iter()
        .map(|place| (quoted(place.krate), place.file));
    text + &details(&title, &listed(alone))
}

fn row(group: &Group, change: &FileChange) -> Vec<String> {
    let what = match change.fate {
        Fate::Added => "added".to_string(),
        Fate::Changed => "changed".to_string(),
        Fate::Retouched => format!("changed: {}", group.retouched),
        Fate::Moved => "moved".to_string(),
        Fate::MovedAndChanged => "moved and changed".to_string(),
        Fate::Removed => "removed".to_string(),
    };
    let new = change.place;
    let from = |old: Place| moved_from((old.krate, old.file), (new.krate, new.file));
    vec![
        what,
        quoted(new.krate),
        quoted(new.file) + &change.from.map_or(String::new(), from),
        number(change.added),
        number(change.deleted),
        from_to(change.lines_before, change.lines_after),
    ]
}
