//! The sections of definitions, of contracts, and of types and constants.

use super::moved_from;
use crate::compare::{compare, Comparison, Item};
use crate::markdown::{details, from_to, list, listed, number, quoted, table, Set};

/// How a kind of items is spoken of.
pub struct Group {
    title: &'static str,
    /// One of them.
    one: &'static str,
    /// What their size counts.
    size: &'static str,
    /// What may change in one that is left alone.
    aside: &'static str,
}

pub const DEFINITIONS: Group = Group {
    title: "Definitions (`specs/`)",
    one: "definition",
    size: "lines",
    aside: "comment",
};

pub const CONTRACTS: Group = Group {
    title: "Contracts (`src/`)",
    one: "function",
    size: "clauses",
    aside: "body",
};

pub const DECLARATIONS: Group = Group {
    title: "Types and constants (`src/`)",
    one: "name",
    size: "lines",
    aside: "",
};

pub fn section(group: &Group, before: &[Item], after: &[Item]) -> String {
    let found = compare(before, after);
    let columns = [
        ("what", Set::Left),
        ("crate", Set::Left),
        ("file", Set::Left),
        (group.one, Set::Left),
        (group.size, Set::Right),
    ];
    let counts = format!(
        "{} added, {} changed, {} moved, {} removed, {} left alone.",
        found.added.len(),
        found.changed.len(),
        found.moved.len(),
        found.removed.len(),
        found.left_alone.len()
    );
    let mut text = format!("## {}\n\n{counts}\n\n", group.title);
    text += &table(&columns, &rows(&found));
    text += &with_another_aside(group, &found);
    let alone = found.left_alone.iter().map(|(_, new)| *new);
    let title = format!("Left alone: {}", found.left_alone.len());
    text + &details(&title, &by_file(alone))
}

fn rows(found: &Comparison) -> Vec<Vec<String>> {
    let added = found
        .added
        .iter()
        .map(|item| row("added", item, "", number(item.size)));
    let changed = found
        .changed
        .iter()
        .map(|(old, new)| row(&changed_in(old, new), new, "", from_to(old.size, new.size)));
    let moved = found.moved.iter().map(|(old, new)| {
        let from = moved_from((&old.krate, &old.file), (&new.krate, &new.file));
        row("moved", new, &from, number(new.size))
    });
    let removed = found
        .removed
        .iter()
        .map(|item| row("removed", item, "", number(item.size)));
    added.chain(changed).chain(moved).chain(removed).collect()
}

fn row(what: &str, item: &Item, from: &str, size: String) -> Vec<String> {
    vec![
        what.to_string(),
        quoted(&item.krate),
        quoted(&item.file),
        quoted(&item.name) + from,
        size,
    ]
}

/// That an item changed; and where it has several parts, in which.
fn changed_in(old: &Item, new: &Item) -> String {
    match new.parts.len() {
        1 => "changed".to_string(),
        _ => format!("changed: {}", old.changed_parts(new).join(", ")),
    }
}

/// The items left alone or moved that have another comment or body.
fn with_another_aside(group: &Group, found: &Comparison) -> String {
    match found.changed_aside().as_slice() {
        [] => String::new(),
        items => format!(
            "The same, with another {}:\n\n{}\n",
            group.aside,
            list(&by_file(items.iter().copied()))
        ),
    }
}

/// Items by name, in an entry for each file.
fn by_file<'a>(items: impl Iterator<Item = &'a Item>) -> Vec<String> {
    listed(items.map(|item| {
        (
            format!("`{}` `{}`", item.krate, item.file),
            item.name.as_str(),
        )
    }))
}

#[cfg(test)]
mod tests {
    use super::*;

    fn item(file: &str, name: &str, requires: &str, body: &str) -> Item {
        Item {
            krate: "low".to_string(),
            file: file.to_string(),
            name: name.to_string(),
            parts: vec![
                ("requires", requires.to_string()),
                ("signature", "()".to_string()),
            ],
            aside: body.to_string(),
            size: requires.len(),
        }
    }

    #[test]
    fn says_what_became_of_each() {
        let before = [
            item("lib.rt", "same", "a", "1"),
            item("lib.rt", "other", "a", "1"),
            item("lib.rt", "moves", "a", "1"),
            item("lib.rt", "gone", "a", "1"),
        ];
        let after = [
            item("lib.rt", "same", "a", "2"),
            item("lib.rt", "other", "ab", "1"),
            item("lib.rt", "fresh", "", "1"),
            item("parts.rt", "moves", "a", "1"),
        ];
        let expected = "\
## Contracts (`src/`)

1 added, 1 changed, 1 moved, 1 removed, 1 left alone.

| what | crate | file | function | clauses |
|---|---|---|---|--:|
| added | `low` | `lib.rt` | `fresh` | 0 |
| changed: requires | `low` | `lib.rt` | `other` | 1 → 2 |
| moved | `low` | `parts.rt` | `moves`, from `lib.rt` | 1 |
| removed | `low` | `lib.rt` | `gone` | 1 |

The same, with another body:

- `low` `lib.rt`: `same`

<details><summary>Left alone: 1</summary>

- `low` `lib.rt`: `same`

</details>

";
        assert_eq!(section(&CONTRACTS, &before, &after), expected);
    }

    #[test]
    fn nothing_needs_no_table() {
        let expected = "\
## Definitions (`specs/`)

0 added, 0 changed, 0 moved, 0 removed, 0 left alone.

";
        assert_eq!(section(&DEFINITIONS, &[], &[]), expected);
    }
}
