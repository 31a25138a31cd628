//! The report, section by section.

mod files;
mod items;
mod times;

use crate::definitions::code;
use crate::files::{compare_files, differing};
use crate::git::{Moves, Numstat, Repository};
use crate::markdown::{number, quoted, table, wrapped, Set};
use crate::snapshot::{Side, Snapshot};
use crate::times::Times;

pub fn report(
    repository: &Repository,
    base: &Side,
    head: &Side,
    times: Option<&Times>,
) -> Result<String, String> {
    let (before, after) = (&base.snapshot, &head.snapshot);
    let numstat = |part| repository.numstat(&base.commit, &head.commit, part, Moves::Joined);
    let proofs = differing(repository, base, head, "proofs", code)?;
    let edits = differing(repository, base, head, "must-fail", replacements)?;
    let sections = [
        opening(base, head),
        times.map_or(String::new(), |times| times::section(times, before, after)),
        items::section(
            &items::DEFINITIONS,
            &before.definitions(),
            &after.definitions(),
        ),
        items::section(&items::CONTRACTS, &before.contracts(), &after.contracts()),
        items::section(
            &items::DECLARATIONS,
            &before.declarations(),
            &after.declarations(),
        ),
        files::section(
            &files::PROOFS,
            &compare_files(before, after, "proofs", &proofs, code),
        ),
        files::section(
            &files::EDITS,
            &compare_files(before, after, "must-fail", &edits, replacements),
        ),
        lines(&[
            lines_row("proofs", before, after, &proofs),
            lines_row("specs", before, after, &numstat("specs")?),
            lines_row("src", before, after, &numstat("src")?),
        ]),
    ];
    Ok(sections.concat().trim_end().to_string() + "\n")
}

fn opening(base: &Side, head: &Side) -> String {
    let of = |side: &Side| format!("{} ({})", side.title(), side.commit.subject);
    wrapped(&format!("From {} to {}.", of(base), of(head)), "") + "\n"
}

/// Where something that moved stood, each a crate and a file: as much of it as
/// differs.
fn moved_from(old: (&str, &str), new: (&str, &str)) -> String {
    let krate = (old.0 != new.0).then_some(old.0);
    let file = (old.1 != new.1).then_some(old.1);
    let parts: Vec<String> = [krate, file].into_iter().flatten().map(quoted).collect();
    format!(", from {}", parts.join(" "))
}

/// What an edit replaces, and by what: in which file, and why it must fail, is
/// no part of it.
fn replacements(edit: &str) -> String {
    let is_replacement = |line: &&str| line.starts_with("old: ") || line.starts_with("new:");
    let said: Vec<&str> = edit.lines().filter(is_replacement).collect();
    said.join("\n")
}

fn lines(rows: &[Vec<String>]) -> String {
    let columns = [
        ("lines", Set::Left),
        ("before", Set::Right),
        ("after", Set::Right),
        ("added", Set::Right),
        ("deleted", Set::Right),
    ];
    "## Lines\n\n".to_string() + &table(&columns, rows)
}

fn lines_row(
    part: &str,
    before: &Snapshot,
    after: &Snapshot,
    differing: &[Numstat],
) -> Vec<String> {
    vec![
        format!("`{part}/`"),
        number(before.lines(part)),
        number(after.lines(part)),
        number(differing.iter().map(|file| file.added).sum()),
        number(differing.iter().map(|file| file.deleted).sum()),
    ]
}

#[cfg(test)]
mod tests {
    use super::*;

    #[test]
    fn a_move_is_told_by_what_differs() {
        assert_eq!(moved_from(("a", "F"), ("b", "F")), ", from `a`");
        assert_eq!(moved_from(("a", "F"), ("a", "G")), ", from `F`");
        assert_eq!(moved_from(("a", "F"), ("b", "G")), ", from `a` `F`");
    }

    #[test]
    fn an_edit_is_what_it_replaces() {
        let edit = "# why it must fail\nfile: src/lib.rt\nold:     7\nnew:     8\nold: x\nnew:\n";
        assert_eq!(replacements(edit), "old:     7\nnew:     8\nold: x\nnew:");
    }
}
