//! What a commit has below `crates/`.

use std::collections::BTreeMap;

use crate::compare::Item;
use crate::definitions::definitions;
use crate::git::{Commit, Repository};
use crate::sources::{source, Function};

/// One of the two commits that are compared, with what it has.
pub struct Side {
    /// `base` or `head`.
    pub name: &'static str,
    pub commit: Commit,
    pub snapshot: Snapshot,
}

impl Side {
    pub fn read(
        name: &'static str,
        repository: &Repository,
        commit: Commit,
    ) -> Result<Side, String> {
        Ok(Side {
            name,
            snapshot: Snapshot::read(repository, &commit)?,
            commit,
        })
    }

    /// Which of the two it is, and its commit.
    pub fn title(&self) -> String {
        format!("{} `{}`", self.name, self.commit.short())
    }
}

pub struct Snapshot {
    /// The crates that `crates.txt` lists, in its order.
    pub crates: Vec<String>,
    files: BTreeMap<String, String>,
}

/// Where a file of a crate stands.
#[derive(Clone, Copy, Debug, PartialEq, Eq)]
pub struct Place<'a> {
    pub krate: &'a str,
    /// `specs`, `proofs`, `src`, `must-fail`.
    pub part: &'a str,
    /// The file's path in that folder.
    pub file: &'a str,
}

/// Where the file of a path stands, `crates/CRATE/PART/FILE`.
pub fn place(path: &str) -> Option<Place<'_>> {
    let mut parts = path.strip_prefix("crates/")?.splitn(3, '/');
    Some(Place {
        krate: parts.next()?,
        part: parts.next()?,
        file: parts.next()?,
    })
}

impl Place<'_> {
    pub fn path(&self) -> String {
        format!("crates/{}/{}/{}", self.krate, self.part, self.file)
    }
}

/// The lines of a text, as git counts them.
pub fn line_count(text: &str) -> usize {
    text.lines().count()
}

impl Snapshot {
    fn read(repository: &Repository, commit: &Commit) -> Result<Snapshot, String> {
        let files = repository.files(commit, &["crates", "crates.txt"])?;
        let list = files.get("crates.txt");
        let list = list.ok_or(format!("commit {} has no crates.txt", commit.short()))?;
        Ok(Snapshot {
            crates: listed_crates(list),
            files,
        })
    }

    pub fn text(&self, path: &str) -> Option<&str> {
        self.files.get(path).map(String::as_str)
    }

    /// The paths and texts of the files of a part of the crates, by crate in the
    /// order of `crates.txt`. Crates that it does not list come last.
    pub fn part<'a>(&'a self, part: &str) -> Vec<(Place<'a>, &'a str)> {
        let files = self.files.iter();
        let mut found: Vec<(Place, &str)> = files
            .filter_map(|(path, text)| Some((place(path)?, text.as_str())))
            .filter(|(place, _)| place.part == part)
            .collect();
        found.sort_by_key(|(place, _)| self.rank(place.krate));
        found
    }

    fn rank(&self, krate: &str) -> usize {
        let place = self.crates.iter().position(|name| name == krate);
        place.unwrap_or(self.crates.len())
    }

    /// The number of lines of a part of the crates.
    pub fn lines(&self, part: &str) -> usize {
        self.part(part)
            .iter()
            .map(|(_, text)| line_count(text))
            .sum()
    }

    pub fn definitions(&self) -> Vec<Item> {
        self.items("specs", ".antt", |text| {
            let found = definitions(text).into_iter();
            found
                .map(|definition| Item {
                    name: definition.name,
                    parts: vec![("text", definition.text)],
                    aside: definition.comment,
                    size: definition.lines,
                    ..Item::default()
                })
                .collect()
        })
    }

    pub fn contracts(&self) -> Vec<Item> {
        self.items("src", ".rt", |text| {
            source(text).functions.into_iter().map(contract).collect()
        })
    }

    /// The types and constants of the code.
    pub fn declarations(&self) -> Vec<Item> {
        self.items("src", ".rt", |text| {
            let found = source(text).declarations.into_iter();
            found
                .map(|declaration| Item {
                    name: declaration.name,
                    parts: vec![("text", declaration.text)],
                    size: declaration.lines,
                    ..Item::default()
                })
                .collect()
        })
    }

    /// The items of the files of a part with that ending.
    fn items(&self, part: &str, ending: &str, of: fn(&str) -> Vec<Item>) -> Vec<Item> {
        let files = self.part(part).into_iter();
        files
            .filter(|(place, _)| place.file.ends_with(ending))
            .flat_map(|(place, text)| {
                of(text).into_iter().map(move |item| Item {
                    krate: place.krate.to_string(),
                    file: place.file.to_string(),
                    ..item
                })
            })
            .collect()
    }
}

/// A function's contract: its signature and its clauses, by kind. The body is
/// no part of it.
fn contract(function: Function) -> Item {
    let of_kind = |kind: &str| {
        let clauses = function
            .clauses
            .iter()
            .filter(|(keyword, _)| keyword == kind);
        let texts: Vec<&str> = clauses.map(|(_, text)| text.as_str()).collect();
        texts.join("\n")
    };
    Item {
        parts: vec![
            ("ghost", of_kind("ghost")),
            ("requires", of_kind("requires")),
            ("ensures", of_kind("ensures")),
            ("signature", function.signature),
        ],
        size: function.clauses.len(),
        name: function.name,
        aside: function.body,
        ..Item::default()
    }
}

/// The crates of a `crates.txt`.
fn listed_crates(list: &str) -> Vec<String> {
    list.lines()
        .filter_map(|line| Some(of_list(line)?.0.to_string()))
        .collect()
}

/// The crate of a line of `crates.txt`, and what it stands on: a line is `NAME:
/// DEP DEP`, with `staticlib` behind the name of a static library, and `#` starts
/// a comment.
pub fn of_list(line: &str) -> Option<(&str, Vec<&str>)> {
    let (name, below) = line.split('#').next()?.split_once(':')?;
    let name = name.split_whitespace().next()?;
    Some((name, below.split_whitespace().collect()))
}

#[cfg(test)]
pub mod tests {
    use super::*;

    /// A snapshot of these paths and texts.
    pub fn snapshot(files: &[(&str, &str)]) -> Snapshot {
        let files: BTreeMap<String, String> = files
            .iter()
            .map(|(path, text)| (path.to_string(), text.to_string()))
            .collect();
        Snapshot {
            crates: listed_crates(&files["crates.txt"]),
            files,
        }
    }

    #[test]
    fn crates_come_in_the_order_of_the_list() {
        let found = snapshot(&[
            (
                "crates.txt",
                "# lowest first\nlow:\n\nhigh: low io # and more\nhigh_c staticlib: high\n",
            ),
            ("crates/high/specs/A.antt", "a : ℕ\na = 1\n"),
            ("crates/low/specs/B.antt", "b : ℕ\nb = 1\n"),
            ("crates/lost/specs/C.antt", "c : ℕ\n"),
            ("crates/low/specs/notes.txt", "d : ℕ\n"),
            ("crates/low/stdin", "e\n"),
        ]);
        assert_eq!(found.crates, ["low", "high", "high_c"]);
        let names: Vec<_> = found.definitions().into_iter().map(|d| d.name).collect();
        assert_eq!(names, ["b", "a", "c"]);
        assert_eq!(found.lines("specs"), 6);
    }

    #[test]
    fn a_contract_is_all_but_the_body() {
        let of = |text: &str| {
            let file = ("crates/a/src/lib.rt", text);
            snapshot(&[("crates.txt", "a:"), file])
                .contracts()
                .remove(0)
        };
        let first = of("fn f(x: u8)\n    requires { a }\n    ensures { b }\n{\n    1\n}\n");
        let other = of("fn f(x: u8)\n    requires { a }\n    ensures { b }\n{\n    2\n}\n");
        assert_eq!(first.parts, other.parts);
        assert_ne!(first.aside, other.aside);
        assert_eq!(first.size, 2);
        let other = of("fn f(x: u8)\n    requires { a }\n    ensures { c }\n{\n    1\n}\n");
        assert_eq!(first.changed_parts(&other), ["ensures"]);
        let other = of("pub fn f(x: u8)\n    ensures { b }\n{\n    1\n}\n");
        assert_eq!(first.changed_parts(&other), ["requires", "signature"]);
        let first = of("fn f()\n    ghost { A }\n{\n    1\n}\n");
        let other = of("fn f()\n    ghost { B }\n{\n    1\n}\n");
        assert_eq!(first.changed_parts(&other), ["ghost"]);
    }
}
