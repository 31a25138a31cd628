//! Proving a commit from nothing, by the command `rt`, with a time for each
//! crate.

use std::collections::BTreeSet;
use std::fs;
use std::io::{self, BufRead, BufReader, Write};
use std::os::unix::process::CommandExt;
use std::path::Path;
use std::process::{Child, Command, Stdio};
use std::time::{Duration, Instant};

use crate::command::missing;
use crate::room::Room;
use crate::snapshot::of_list;

/// A proof of a commit.
#[derive(Clone, Debug, Default)]
pub struct Run {
    /// The crates in the order of their proofs, with what each took.
    pub crates: Vec<(String, Took)>,
    /// What failed, where something did.
    pub failure: Option<Failure>,
}

/// The time that the proof of a crate took, in tenths of seconds.
#[derive(Clone, Copy, Debug, PartialEq, Eq)]
pub struct Took {
    /// Of a processor. Other work on the machine changes it little.
    pub processor: u64,
    pub clock: u64,
}

/// A proof that failed.
#[derive(Clone, Debug, Default, PartialEq, Eq)]
pub struct Failure {
    /// The crates that are not proved, but for those that only stand on one.
    pub crates: Vec<String>,
    /// What was said of them.
    pub said: Vec<String>,
}

impl Run {
    /// The processor's time of a crate.
    pub fn of(&self, krate: &str) -> Option<u64> {
        let found = self.crates.iter().find(|(name, _)| name == krate);
        found.map(|(_, took)| took.processor)
    }

    /// The processor's time of all crates, where there are some and none failed.
    pub fn total(&self) -> Option<u64> {
        self.sum(|took| took.processor)
    }

    /// The same by the clock.
    pub fn clock(&self) -> Option<u64> {
        self.sum(|took| took.clock)
    }

    fn sum(&self, part: fn(&Took) -> u64) -> Option<u64> {
        let whole = self.failure.is_none() && !self.crates.is_empty();
        whole.then(|| self.crates.iter().map(|(_, took)| part(took)).sum())
    }
}

/// The kit, in one line.
pub fn kit() -> Result<String, String> {
    let output = Command::new("rt")
        .arg("version")
        .stdin(Stdio::null())
        .output();
    let output = output.map_err(|error| missing("rt", &error))?;
    if !output.status.success() {
        return Err("rt version fails: is the kit whole?".to_string());
    }
    Ok(String::from_utf8_lossy(&output.stdout)
        .trim_end()
        .to_string())
}

/// Proves all crates in a folder, or those named and what they stand on: of the
/// others nothing is left there. What rt keeps lies in `crates/*/out`, which is
/// removed first, and `rt all verdict` takes nothing from anywhere else; the
/// prover's files for the time that it runs go to an empty folder. One crate is
/// proved at a time: it took what passed from the end of the one before it to its
/// own.
pub fn prove(folder: &Path, crates: Option<&[String]>, room: &mut Room) -> Result<Run, String> {
    if let Some(crates) = crates {
        keep_only(folder, crates).map_err(|error| format!("the other crates stay: {error}"))?;
    }
    remove_kept(folder).map_err(|error| format!("crates/*/out can't be removed: {error}"))?;
    let temporary = room.temporary();
    let temporary = temporary.map_err(|error| format!("no temporary folder: {error}"))?;
    let rt = waiting(folder).env("TMPDIR", temporary).spawn();
    let mut rt = rt.map_err(|error| missing("sh", &error))?;
    room.begins(rt.id());
    let run = listen(&mut rt).map_err(|error| format!("rt: {error}"))?;
    room.ended();
    Ok(run)
}

/// Removes what rt kept of earlier runs.
fn remove_kept(folder: &Path) -> io::Result<()> {
    for krate in fs::read_dir(folder.join("crates"))? {
        let kept = krate?.path().join("out");
        if kept.exists() {
            fs::remove_dir_all(kept)?;
        }
    }
    Ok(())
}

/// Leaves those crates and what they stand on, and no others: in `crates.txt`
/// and in `crates/`, where rt refuses what the list does not name.
fn keep_only(folder: &Path, crates: &[String]) -> io::Result<()> {
    let list = folder.join("crates.txt");
    let text = fs::read_to_string(&list)?;
    let wanted = with_those_below(&text, crates);
    let lines: Vec<&str> = text
        .lines()
        .filter(|line| of_list(line).is_some_and(|(name, _)| wanted.contains(name)))
        .collect();
    fs::write(&list, lines.join("\n") + "\n")?;
    for krate in fs::read_dir(folder.join("crates"))? {
        let krate = krate?;
        if !wanted.contains(krate.file_name().to_string_lossy().as_ref()) {
            fs::remove_dir_all(krate.path())?;
        }
    }
    Ok(())
}

/// Those crates of a `crates.txt`, and what they stand on.
fn with_those_below<'a>(list: &'a str, crates: &'a [String]) -> BTreeSet<&'a str> {
    let mut found: BTreeSet<&str> = BTreeSet::new();
    let mut next: Vec<&str> = crates.iter().map(String::as_str).collect();
    while let Some(krate) = next.pop() {
        let line = list
            .lines()
            .filter_map(of_list)
            .find(|line| line.0 == krate);
        if let Some((name, below)) = line {
            if found.insert(name) {
                next.extend(below);
            }
        }
    }
    found
}

/// A process that becomes rt when it is told to: none runs that the guard of the
/// room does not know of.
fn waiting(folder: &Path) -> Command {
    let mut command = Command::new("sh");
    command
        .args(["-c", r#"read -r go && exec rt "$@" </dev/null"#, "sh"])
        .args(["all", "verdict", "--jobs", "1"])
        .current_dir(folder)
        .stdin(Stdio::piped())
        .stdout(Stdio::piped())
        .process_group(0);
    command
}

/// Tells rt to go, and hears it to its end.
fn listen(rt: &mut Child) -> io::Result<Run> {
    let mut listener = Listener::default();
    let began = Instant::now();
    rt.stdin.take().expect("piped").write_all(b"go\n")?;
    for line in BufReader::new(rt.stdout.take().expect("piped")).split(b'\n') {
        let line = line?;
        let passed = Passed {
            processor: processor_time(rt.id())?,
            clock: began.elapsed(),
        };
        listener.hear(&String::from_utf8_lossy(&line), passed);
    }
    Ok(listener.finish(rt.wait()?.success()))
}

/// The time that has passed since the prover was started.
#[derive(Clone, Copy, Default)]
struct Passed {
    processor: Duration,
    clock: Duration,
}

impl Passed {
    fn since(&self, earlier: Passed) -> Took {
        let tenths = |time: Duration| (time.as_secs_f64() * 10.0).round() as u64;
        Took {
            processor: tenths(self.processor.saturating_sub(earlier.processor)),
            clock: tenths(self.clock.saturating_sub(earlier.clock)),
        }
    }
}

/// The processor's time of a process and of those that it has waited for.
fn processor_time(process: u32) -> io::Result<Duration> {
    let said = fs::read_to_string(format!("/proc/{process}/stat"))?;
    times_in(&said).ok_or_else(|| io::Error::other("/proc has no processor's time"))
}

/// The fields 14 to 17 of a process's `stat`, in hundredths of seconds. The
/// second field, the command, may have spaces and ends in the last bracket.
fn times_in(stat: &str) -> Option<Duration> {
    let (_, fields) = stat.rsplit_once(')')?;
    let times: Vec<u64> = fields
        .split_whitespace()
        .skip(11)
        .take(4)
        .map_while(|field| field.parse().ok())
        .collect();
    (times.len() == 4).then(|| Duration::from_millis(10 * times.iter().sum::<u64>()))
}

/// What was heard of a run. rt tells of each crate when it is through with it: a
/// line `== NAME`, and what was said of it. Then comes `== summary`, with what
/// became of each.
#[derive(Default)]
struct Listener {
    told: Vec<Told>,
    /// Whether the summary has begun.
    summary: bool,
    failure: Failure,
    failed: bool,
    /// The lines before the first crate, and when the last crate was told of.
    lines: Vec<String>,
    last: Passed,
}

/// A crate that rt has told of.
struct Told {
    krate: String,
    took: Took,
    lines: Vec<String>,
    proved: bool,
}

/// What the summary says of a crate.
#[derive(Debug, PartialEq, Eq)]
enum Verdict<'a> {
    Proved(&'a str),
    NotProved(&'a str),
    /// A crate that it stands on is not proved.
    NotTried,
}

fn verdict(line: &str) -> Option<Verdict<'_>> {
    let (krate, said) = line.split_once(": ")?;
    match said {
        "ok" => Some(Verdict::Proved(krate)),
        _ if said.starts_with("failed (") => Some(Verdict::NotProved(krate)),
        _ if said.starts_with("not run, since ") => Some(Verdict::NotTried),
        _ => None,
    }
}

/// Whether a line says that something of an earlier run was trusted.
fn trusts(line: &str) -> bool {
    line.starts_with("logic=proved ") && line.contains(" incremental=trusted")
}

impl Listener {
    fn hear(&mut self, line: &str, passed: Passed) {
        match line.strip_prefix("== ") {
            Some("summary") => self.summary = true,
            Some(krate) if !self.summary => {
                let took = passed.since(std::mem::replace(&mut self.last, passed));
                eprintln!("  {krate} {}.{} s", took.clock / 10, took.clock % 10);
                self.told.push(Told {
                    krate: krate.to_string(),
                    took,
                    lines: Vec::new(),
                    proved: false,
                });
            }
            _ if self.summary => self.judge(line),
            _ => {
                let told = self.told.last_mut();
                let lines = told.map_or(&mut self.lines, |told| &mut told.lines);
                lines.push(line.to_string());
            }
        }
    }

    fn judge(&mut self, line: &str) {
        match verdict(line) {
            Some(Verdict::Proved(krate)) => {
                let mut of = self.told.iter_mut().filter(|told| told.krate == krate);
                let trusted = of.any(|told| {
                    told.proved = !told.lines.iter().any(|line| trusts(line));
                    !told.proved
                });
                if trusted {
                    self.fails(krate);
                }
            }
            Some(Verdict::NotProved(krate)) => self.fails(krate),
            Some(Verdict::NotTried) => self.failed = true,
            None => {}
        }
    }

    fn fails(&mut self, krate: &str) {
        self.failed = true;
        self.failure.crates.push(krate.to_string());
        for told in self.told.iter_mut().filter(|told| told.krate == krate) {
            self.failure.said.append(&mut told.lines);
        }
    }

    fn finish(mut self, success: bool) -> Run {
        if !success && self.failure.crates.is_empty() {
            self.failure.said.append(&mut self.lines);
        }
        let proved = self.told.into_iter().filter(|told| told.proved);
        Run {
            crates: proved.map(|told| (told.krate, told.took)).collect(),
            failure: (self.failed || !success).then_some(self.failure),
        }
    }
}

#[cfg(test)]
mod tests {
    use super::*;

    /// What is heard of lines that come a second apart.
    fn heard(lines: &[&str], success: bool) -> Run {
        let mut listener = Listener::default();
        for (number, line) in (1..).zip(lines) {
            let passed = Passed {
                processor: Duration::from_millis(740) * number,
                clock: Duration::from_secs(1) * number,
            };
            listener.hear(line, passed);
        }
        listener.finish(success)
    }

    #[test]
    fn hears_what_is_proved() {
        let run = heard(
            &[
                "rt: chose 1 at a time",
                "== first",
                "fn first::echo: proved",
                "logic=proved functions=1 logic-built=trusted statements=trusted",
                "== second",
                "logic=proved functions=0 logic-built=trusted statements=trusted",
                "== summary",
                "first: ok",
                "second: ok",
                "2 of 2 crates ok",
            ],
            true,
        );
        let took = |processor, clock| Took { processor, clock };
        assert_eq!(
            run.crates,
            [
                ("first".to_string(), took(15, 20)),
                ("second".to_string(), took(22, 30))
            ]
        );
        assert_eq!((run.of("second"), run.of("third")), (Some(22), None));
        assert_eq!((run.total(), run.clock()), (Some(37), Some(50)));
        assert_eq!(run.failure, None);
    }

    #[test]
    fn hears_what_is_not_proved() {
        let run = heard(
            &[
                "== first",
                "logic=proved functions=1",
                "== second",
                "src/lib.rt:3:1: error",
                "logic=not-proved",
                "== third",
                "== fourth",
                "rattle: killed",
                "== summary",
                "first: ok",
                "second: failed (1)",
                "third: not run, since second failed",
                "fourth: failed (2)",
                "(1: not proved or not passed, 2: rattle failed, 3: antt could not tell)",
                "1 of 4 crates ok",
            ],
            false,
        );
        let failure = run.failure.expect("it failed");
        assert_eq!(failure.crates, ["second", "fourth"]);
        let said = [
            "src/lib.rt:3:1: error",
            "logic=not-proved",
            "rattle: killed",
        ];
        assert_eq!(failure.said, said);
        assert_eq!(run.crates.len(), 1);
    }

    #[test]
    fn a_failure_needs_no_crate() {
        let lost = "rt: no check reads a.rt";
        let run = heard(&[lost], false);
        let failure = run.failure.expect("it failed");
        assert_eq!(failure.crates, [""; 0]);
        assert_eq!(failure.said, [lost]);
        let run = heard(&["== first", "== summary", "first: ok"], false);
        assert_eq!(run.failure.expect("it failed").crates, [""; 0]);
    }

    #[test]
    fn nothing_is_trusted() {
        let run = heard(
            &[
                "== first",
                "logic=proved functions=1 statements=trusted incremental=trusted",
                "== summary",
                "first: ok",
            ],
            true,
        );
        assert_eq!(run.failure.expect("it failed").crates, ["first"]);
        assert_eq!(run.crates, []);
    }

    #[test]
    fn a_failed_run_has_no_total() {
        let run = heard(
            &["== a", "== b", "== summary", "a: ok", "b: failed (1)"],
            false,
        );
        assert_eq!((run.total(), run.clock()), (None, None));
        assert_eq!(heard(&[], true).total(), None);
    }

    #[test]
    fn finds_what_a_crate_stands_on() {
        let list = "a:\nb: a std\nc: b # of b\nd staticlib: c\ne: a\n";
        let found = |names: &[&str]| {
            let names: Vec<String> = names.iter().map(|name| name.to_string()).collect();
            let found = with_those_below(list, &names);
            found.into_iter().collect::<Vec<_>>().join(" ")
        };
        assert_eq!(found(&["d"]), "a b c d");
        assert_eq!(found(&["e", "b"]), "a b e");
        assert_eq!(found(&["lost"]), "");
    }

    #[test]
    fn reads_the_processors_time() {
        let stat = "7 (a (b) c) S 1 7 7 0 -1 4194304 1 2 3 4 10 20 300 4000 20 0 1 0";
        assert_eq!(times_in(stat), Some(Duration::from_millis(43_300)));
        assert_eq!(times_in("7 (sh) S 1 7"), None);
        assert_eq!(times_in(""), None);
        assert!(processor_time(std::process::id()).is_ok());
    }
}
