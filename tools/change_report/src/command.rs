//! Arguments, messages, exit statuses.

use std::io::{self, ErrorKind, Write};
use std::process::ExitCode;

use crate::git::Repository;
use crate::report::report;
use crate::snapshot::Side;
use crate::times::{measure, Times};

const HELP: &str = "\
change-report: what a change did to times, definitions, contracts and proofs

usage: change-report [OPTION...] BASE

Compares the commit BASE with HEAD and writes a report in Markdown: seconds to
prove each crate from nothing, and which definitions, contracts, proofs and
must-fail edits were added, changed, moved, removed and left alone. What is not
committed is not measured.

  --runs N           prove each commit N times, in turn (2)
  --times yes|no     whether to prove at all (yes)
  --crates NAMES     prove only these crates and what they stand on
  --help, -h         this text

exit status: 0 done; 1 a commit is not proved, and the report says which crate;
2 wrong usage, or something that is needed is missing
";

#[derive(Debug, PartialEq, Eq)]
struct Options {
    base: String,
    runs: usize,
    times: bool,
    crates: Vec<String>,
}

pub fn main(arguments: Vec<String>) -> ExitCode {
    if arguments
        .iter()
        .any(|word| word == "--help" || word == "-h")
    {
        print(HELP);
        return ExitCode::SUCCESS;
    }
    match options(arguments).and_then(|options| run(&options)) {
        Ok(true) => ExitCode::SUCCESS,
        Ok(false) => ExitCode::from(1),
        Err(message) => {
            say(&message);
            ExitCode::from(2)
        }
    }
}

/// The message for a command that can't be run.
pub fn missing(command: &str, error: &io::Error) -> String {
    match error.kind() {
        ErrorKind::NotFound => {
            format!("{command} is missing: README.md, \"What it needs\", says where it comes from")
        }
        _ => format!("{command} can't be run: {error}"),
    }
}

fn say(message: &str) {
    eprintln!("change-report: {message}");
}

fn print(text: &str) {
    // A reader who has seen enough is no error.
    _ = io::stdout().write_all(text.as_bytes());
}

fn options(arguments: Vec<String>) -> Result<Options, String> {
    let mut found = Options {
        base: String::new(),
        runs: 2,
        times: true,
        crates: Vec::new(),
    };
    let mut bases = Vec::new();
    let mut words = arguments.into_iter();
    while let Some(word) = words.next() {
        let mut value = || words.next().ok_or(format!("{word} needs a value"));
        match word.as_str() {
            "--runs" => found.runs = number_of_runs(&value()?)?,
            "--times" => found.times = yes_or_no(&value()?)?,
            "--crates" => found.crates = value()?.split_whitespace().map(str::to_string).collect(),
            option if option.starts_with('-') => {
                return Err(format!("{option}: there is no such option"))
            }
            _ => bases.push(word),
        }
    }
    match bases.as_slice() {
        [base] if !base.is_empty() => found.base = base.clone(),
        [] | [_] => return Err("the base is missing: make change-report BASE=<commit>".to_string()),
        _ => return Err("there is more than one base".to_string()),
    }
    Ok(found)
}

fn number_of_runs(value: &str) -> Result<usize, String> {
    let number = value.parse().ok().filter(|number| *number > 0);
    number.ok_or(format!("RUNS={value}: it is a number, 1 or more"))
}

fn yes_or_no(value: &str) -> Result<bool, String> {
    match value {
        "yes" => Ok(true),
        "no" => Ok(false),
        _ => Err(format!("TIMES={value}: it is yes or no")),
    }
}

/// Writes the report, and answers whether all was proved that was to be.
fn run(options: &Options) -> Result<bool, String> {
    let repository = Repository::here()?;
    let base = Side::read("base", &repository, repository.commit(&options.base)?)?;
    let head = Side::read("head", &repository, repository.commit("HEAD")?)?;
    if repository.is_dirty()? {
        say("what is not committed is not measured");
    }
    if !repository.is_ancestor(&base.commit, &head.commit)? {
        say("the base is no ancestor of HEAD: the report says how the two differ");
    }
    let times = match options.times {
        true => Some(measure(
            &repository,
            &base,
            &head,
            options.runs,
            &options.crates,
        )?),
        false => None,
    };
    let failure = times.as_ref().and_then(Times::failure);
    for line in failure.iter().flat_map(|(failure, _)| &failure.said) {
        eprintln!("{line}");
    }
    print(&report(&repository, &base, &head, times.as_ref())?);
    Ok(failure.is_none())
}

#[cfg(test)]
mod tests {
    use super::*;

    fn parsed(words: &[&str]) -> Result<Options, String> {
        options(words.iter().map(|word| word.to_string()).collect())
    }

    #[test]
    fn options_have_their_usual_values() {
        let usual = Options {
            base: "HEAD~1".to_string(),
            runs: 2,
            times: true,
            crates: Vec::new(),
        };
        assert_eq!(parsed(&["HEAD~1"]), Ok(usual));
        let all = ["--runs", "3", "--times", "no", "--crates", " a  b ", "x"];
        let found = parsed(&all).expect("right");
        assert_eq!((found.runs, found.times), (3, false));
        assert_eq!(found.crates, ["a", "b"]);
    }

    #[test]
    fn wrong_options_are_refused() {
        let refused = |words: &[&str]| parsed(words).expect_err("wrong");
        assert_eq!(
            refused(&["--runs", "0", "x"]),
            "RUNS=0: it is a number, 1 or more"
        );
        assert_eq!(
            refused(&["--times", "maybe", "x"]),
            "TIMES=maybe: it is yes or no"
        );
        assert_eq!(refused(&["x", "--crates"]), "--crates needs a value");
        assert_eq!(refused(&["--run", "x"]), "--run: there is no such option");
        assert_eq!(refused(&["x", "y"]), "there is more than one base");
        let missing = "the base is missing: make change-report BASE=<commit>";
        assert_eq!(refused(&[]), missing);
        assert_eq!(refused(&[""]), missing);
    }
}
