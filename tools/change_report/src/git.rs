//! The repository, by the command `git`: commits, their files, what differs
//! between two of them, worktrees.

use std::collections::BTreeMap;
use std::io::{BufRead, BufReader, Write};
use std::path::{Path, PathBuf};
use std::process::{Command, Output, Stdio};

use crate::command::missing;

pub struct Repository {
    root: PathBuf,
}

#[derive(Clone, Debug)]
pub struct Commit {
    pub id: String,
    pub subject: String,
}

impl Commit {
    pub fn short(&self) -> &str {
        &self.id[..10]
    }
}

/// Whether a removed and an added file whose texts git finds much alike are one
/// file that moved.
#[derive(Clone, Copy)]
pub enum Moves {
    Joined,
    Apart,
}

/// What git says of a file that differs between two commits. A file that moved
/// has two paths.
#[derive(Debug, PartialEq, Eq)]
pub struct Numstat {
    pub added: usize,
    pub deleted: usize,
    pub before: String,
    pub after: String,
}

impl Repository {
    /// The repository that this folder is in.
    pub fn here() -> Result<Repository, String> {
        let output = run(Path::new("."), &["rev-parse", "--show-toplevel"])?;
        if !output.status.success() {
            return Err("this folder is in no work tree of a git repository".to_string());
        }
        let root = String::from_utf8_lossy(&output.stdout);
        Ok(Repository {
            root: PathBuf::from(root.trim_end_matches('\n')),
        })
    }

    pub fn root(&self) -> &Path {
        &self.root
    }

    /// What git answers, where it succeeds.
    fn ask(&self, arguments: &[&str]) -> Result<Vec<u8>, String> {
        let output = run(&self.root, arguments)?;
        if output.status.success() {
            return Ok(output.stdout);
        }
        let said = String::from_utf8_lossy(&output.stderr);
        Err(format!("git failed: {}", said.trim_end()))
    }

    fn ask_text(&self, arguments: &[&str]) -> Result<String, String> {
        let answer = self.ask(arguments)?;
        Ok(String::from_utf8_lossy(&answer).trim_end().to_string())
    }

    /// The commit of a name.
    pub fn commit(&self, name: &str) -> Result<Commit, String> {
        let wanted = format!("{name}^{{commit}}");
        let id = self.ask_text(&["rev-parse", "--verify", "--quiet", &wanted]);
        let id = id.map_err(|_| format!("{name}: there is no such commit in this repository"))?;
        let subject = self.ask_text(&["log", "-1", "--format=%s", &id])?;
        Ok(Commit { id, subject })
    }

    pub fn is_ancestor(&self, base: &Commit, head: &Commit) -> Result<bool, String> {
        let question = ["merge-base", "--is-ancestor", &base.id, &head.id];
        Ok(run(&self.root, &question)?.status.success())
    }

    /// Whether the tree has what no commit has.
    pub fn is_dirty(&self) -> Result<bool, String> {
        let question = ["--no-optional-locks", "status", "--porcelain"];
        Ok(!self.ask(&question)?.is_empty())
    }

    /// The files of a commit at these paths and below them, with their texts.
    pub fn files(
        &self,
        commit: &Commit,
        paths: &[&str],
    ) -> Result<BTreeMap<String, String>, String> {
        let question = ["ls-tree", "-r", "-z", "--full-tree", &commit.id, "--"];
        let listed = self.ask(&[&question, paths].concat())?;
        let listed = String::from_utf8_lossy(&listed).into_owned();
        let entries = listed.split_terminator('\0').filter_map(blob_and_path);
        self.texts(entries)
            .map_err(|error| format!("git cat-file: {error}"))
    }

    /// The texts of blobs, each under its path.
    fn texts<'a>(
        &self,
        entries: impl Iterator<Item = (&'a str, &'a str)>,
    ) -> std::io::Result<BTreeMap<String, String>> {
        let mut git = git(&self.root, &["cat-file", "--batch"])
            .stdin(Stdio::piped())
            .stdout(Stdio::piped())
            .spawn()?;
        let mut questions = git.stdin.take().expect("piped");
        let mut answers = BufReader::new(git.stdout.take().expect("piped"));
        let mut found = BTreeMap::new();
        for (blob, path) in entries {
            writeln!(questions, "{blob}")?;
            found.insert(path.to_string(), next_text(&mut answers)?);
        }
        drop(questions);
        git.wait()?;
        Ok(found)
    }

    /// The files of a part of the crates that differ, and in how many lines.
    pub fn numstat(
        &self,
        base: &Commit,
        head: &Commit,
        part: &str,
        moves: Moves,
    ) -> Result<Vec<Numstat>, String> {
        let paths = format!(":(top,glob)crates/*/{part}/**");
        self.diff(moves, &[&base.id, &head.id, "--", &paths])
    }

    /// In how many lines a file of one commit and one of another differ.
    pub fn numstat_of(
        &self,
        base: &Commit,
        before: &str,
        head: &Commit,
        after: &str,
    ) -> Result<Numstat, String> {
        let old = format!("{}:{before}", base.id);
        let new = format!("{}:{after}", head.id);
        // Of two files with the same text git says nothing.
        let said = self.diff(Moves::Joined, &[&old, &new])?.pop();
        Ok(Numstat {
            added: said.as_ref().map_or(0, |said| said.added),
            deleted: said.as_ref().map_or(0, |said| said.deleted),
            before: before.to_string(),
            after: after.to_string(),
        })
    }

    fn diff(&self, moves: Moves, what: &[&str]) -> Result<Vec<Numstat>, String> {
        let plain = ["diff", "--no-ext-diff", "--no-textconv", "--numstat", "-z"];
        let moves: &[&str] = match moves {
            Moves::Joined => &["-M", "-l0"],
            Moves::Apart => &["--no-renames"],
        };
        let answer = self.ask(&[&plain[..], moves, what].concat())?;
        let found = numstats(&String::from_utf8_lossy(&answer));
        found.ok_or("git diff --numstat answers in a form that is not known".to_string())
    }

    /// Checks a commit out in a folder of its own. No hook runs there.
    pub fn add_worktree(&self, commit: &Commit, folder: &Path) -> Result<(), String> {
        let folder = folder
            .to_str()
            .ok_or("the temporary folder's name is not UTF-8")?;
        let silent = [
            "-c",
            "core.hooksPath=/dev/null",
            "worktree",
            "add",
            "--quiet",
            "--detach",
        ];
        self.ask(&[&silent[..], &[folder, &commit.id]].concat())?;
        Ok(())
    }
}

fn git(folder: &Path, arguments: &[&str]) -> Command {
    let mut command = Command::new("git");
    command.args(arguments).current_dir(folder);
    command.stdin(Stdio::null());
    command
}

fn run(folder: &Path, arguments: &[&str]) -> Result<Output, String> {
    git(folder, arguments)
        .output()
        .map_err(|error| missing("git", &error))
}

/// The blob and the path of a line of `git ls-tree`; a link or a submodule has
/// no text.
fn blob_and_path(entry: &str) -> Option<(&str, &str)> {
    let (about, path) = entry.split_once('\t')?;
    let mut about = about.split(' ');
    let mode = about.next()?;
    let blob = about.nth(1)?;
    mode.starts_with("100").then_some((blob, path))
}

/// The next text of `git cat-file --batch`: a line that ends in its size, the
/// text, and a line feed.
fn next_text(answers: &mut impl BufRead) -> std::io::Result<String> {
    let mut about = String::new();
    answers.read_line(&mut about)?;
    let size = about
        .split_whitespace()
        .nth(2)
        .and_then(|size| size.parse().ok());
    let size: usize = size.ok_or_else(|| std::io::Error::other(about.trim_end().to_string()))?;
    let mut text = vec![0; size + 1];
    answers.read_exact(&mut text)?;
    text.pop();
    Ok(String::from_utf8_lossy(&text).into_owned())
}

/// What `git diff --numstat -z` says. A file of bytes that are no text has no
/// numbers of lines.
fn numstats(answer: &str) -> Option<Vec<Numstat>> {
    let mut fields = answer.split_terminator('\0');
    let mut found = Vec::new();
    while let Some(field) = fields.next() {
        let mut parts = field.splitn(3, '\t');
        let added = parts.next()?.parse().unwrap_or(0);
        let deleted = parts.next()?.parse().unwrap_or(0);
        let path = parts.next()?;
        let (before, after) = match path {
            "" => (fields.next()?, fields.next()?),
            path => (path, path),
        };
        found.push(Numstat {
            added,
            deleted,
            before: before.to_string(),
            after: after.to_string(),
        });
    }
    Some(found)
}

#[cfg(test)]
mod tests {
    use super::*;

    #[test]
    fn reads_numstat() {
        let answer = "3\t0\tcrates/a/new\0".to_string()
            + "1\t2\t\0crates/a/old\0crates/b/old\0"
            + "-\t-\tcrates/a/bytes\0";
        let found = numstats(&answer).expect("as git writes it");
        let of = |added, deleted, before: &str, after: &str| Numstat {
            added,
            deleted,
            before: before.to_string(),
            after: after.to_string(),
        };
        assert_eq!(
            found,
            [
                of(3, 0, "crates/a/new", "crates/a/new"),
                of(1, 2, "crates/a/old", "crates/b/old"),
                of(0, 0, "crates/a/bytes", "crates/a/bytes"),
            ]
        );
        assert_eq!(numstats(""), Some(Vec::new()));
        assert_eq!(numstats("warning\0"), None);
    }

    #[test]
    fn reads_the_entries_of_a_tree() {
        assert_eq!(
            blob_and_path("100644 blob abc\tcrates/a b"),
            Some(("abc", "crates/a b"))
        );
        assert_eq!(blob_and_path("120000 blob abc\tcrates/link"), None);
        assert_eq!(blob_and_path("160000 commit abc\tcrates/other"), None);
    }

    #[test]
    fn reads_texts_by_their_size() {
        let mut answers = "a blob 3\nx\ny\nb blob 0\n\nc missing\n".as_bytes();
        assert_eq!(next_text(&mut answers).expect("a text"), "x\ny");
        assert_eq!(next_text(&mut answers).expect("a text"), "");
        assert!(next_text(&mut answers).is_err());
    }
}
