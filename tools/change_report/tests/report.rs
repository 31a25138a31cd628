//! The command on small repositories: what it reports, what it refuses, and
//! that it leaves nothing behind.

mod common;

use std::io::Read;
use std::os::unix::process::CommandExt;
use std::process::{Command, Stdio};
use std::time::{Duration, Instant};

use common::{ran, World};

/// Two commits, with one of each change between them.
fn changed_world(name: &str) -> World {
    let world = World::new(name);
    world.write_all(include_str!("sample/before.txt"));
    world.commit("Sums");
    world.write_all(include_str!("sample/after.txt"));
    world.commit("Sums from one");
    world
}

/// A report with words in the place of the commits' names.
fn without_ids(world: &World, report: &str) -> String {
    let short = |name: &str| world.git(&["rev-parse", name])[..10].to_string();
    report
        .replace(&short("HEAD~1"), "BASE-NAME")
        .replace(&short("HEAD"), "HEAD-NAME")
}

#[test]
fn reports_each_change() {
    let world = changed_world("reports_each_change");
    let found = world.run(&["--times", "no", "HEAD~1"]);
    assert_eq!(
        without_ids(&world, &found.report),
        include_str!("sample/expected.md")
    );
    assert_eq!((found.status, found.messages.as_str()), (0, ""));
    assert_eq!(world.asked(), [""; 0]);
    world.assert_clean();
}

#[test]
fn says_what_is_not_measured() {
    let world = changed_world("says_what_is_not_measured");
    let clean = world.run(&["--times", "no", "HEAD~1"]).report;
    world.write("crates/low/specs/Sums.antt", "other : ℕ\n");
    world.write("crates/low/specs/More.antt", "more : ℕ\n");
    let found = world.run(&["--times", "no", "HEAD~1"]);
    assert_eq!(found.report, clean);
    assert_eq!(found.status, 0);
    assert_eq!(
        found.messages,
        "change-report: what is not committed is not measured\n"
    );
    world.git(&["stash", "--quiet", "--include-untracked"]);
    world.git(&["branch", "aside"]);
    world.git(&["reset", "--quiet", "--hard", "HEAD~1"]);
    let found = world.run(&["--times", "no", "aside"]);
    assert_eq!(found.status, 0);
    let message =
        "change-report: the base is no ancestor of HEAD: the report says how the two differ\n";
    assert_eq!(found.messages, message);
}

#[test]
fn proves_base_and_head_in_turn() {
    let world = changed_world("proves_base_and_head_in_turn");
    let found = world.run(&["HEAD~1"]);
    assert_eq!(found.status, 0, "{found:?}");
    assert_eq!(
        world.asked(),
        [
            "Sums: all verdict --jobs 1 of low old",
            "Sums from one: all verdict --jobs 1 of low new",
            "Sums: all verdict --jobs 1 of low old",
            "Sums from one: all verdict --jobs 1 of low new"
        ]
    );
    let rows: Vec<&str> = found
        .report
        .lines()
        .filter(|line| line.starts_with("| "))
        .take(6)
        .collect();
    let is_row = |row: &str, title: &str, before: bool, after: bool| {
        let cells: Vec<&str> = row.split(" | ").collect();
        cells[0] == format!("| {title}")
            && (cells[1] != "–") == before
            && (cells[2] != "–") == after
    };
    assert!(is_row(rows[1], "`low`", true, true), "{rows:?}");
    assert!(is_row(rows[2], "`new`", false, true), "{rows:?}");
    assert!(is_row(rows[3], "`old`", true, false), "{rows:?}");
    assert!(is_row(rows[4], "total", true, true), "{rows:?}");
    assert!(
        is_row(rows[5], "total by the clock", true, true),
        "{rows:?}"
    );
    assert!(
        found.report.contains("(a kit for tests)"),
        "{}",
        found.report
    );
    assert!(found.report.contains("## Definitions"), "{}", found.report);
    assert!(
        found.messages.contains("run 2 of 2, head "),
        "{}",
        found.messages
    );
    world.assert_clean();
}

#[test]
fn proves_what_is_asked_for() {
    let world = changed_world("proves_what_is_asked_for");
    let found = world.run(&["--runs", "1", "--crates", "low new", "HEAD~1"]);
    assert_eq!(found.status, 0, "{found:?}");
    assert_eq!(
        world.asked(),
        [
            "Sums: all verdict --jobs 1 of low",
            "Sums from one: all verdict --jobs 1 of low new"
        ]
    );
    assert!(
        found.report.contains("crates below them: `low`, `new`."),
        "{}",
        found.report
    );
    let found = world.run(&["--runs", "2", "--crates", "new", "HEAD~1"]);
    assert_eq!(found.status, 0, "{found:?}");
    let again = "Sums from one: all verdict --jobs 1 of low new";
    assert_eq!(world.asked()[2..], [again, again]);
    assert!(found.report.contains("| `new` | – | "), "{}", found.report);
    world.assert_clean();
}

#[test]
fn says_what_is_not_proved() {
    let world = changed_world("says_what_is_not_proved");
    world.write("crates/new/fails", "");
    world.commit("A fault");
    let found = world.run(&["HEAD~1"]);
    assert_eq!(found.status, 1);
    let line = "**Not proved** (head, run 1): `new`. No further run was made.";
    assert!(found.report.contains(line), "{}", found.report);
    assert!(found.report.contains("## Definitions"), "{}", found.report);
    assert!(
        found.messages.contains("an error\nlogic=not-proved\n"),
        "{}",
        found.messages
    );
    assert_eq!(world.asked().len(), 2);
    world.assert_clean();
}

/// Has the command killed while the prover runs; `whom` is the number that
/// `kill` takes, from the command's own.
fn killed(name: &str, whom: fn(u32) -> String) {
    let world = changed_world(name);
    world.write("crates/low/waits", "");
    world.commit("A long proof");
    let mut child = world
        .command(&["HEAD~1"])
        .stdout(Stdio::null())
        .stderr(Stdio::piped())
        .process_group(0)
        .spawn()
        .expect("the command runs");
    let began = Instant::now();
    while world.asked().len() < 2 && began.elapsed() < Duration::from_secs(30) {
        std::thread::sleep(Duration::from_millis(10));
    }
    assert_eq!(world.asked().len(), 2);
    let kill = format!("kill -KILL {}", whom(child.id()));
    let status = Command::new("sh").args(["-c", &kill]).status();
    assert!(status.expect("sh runs").success());
    child.wait().expect("it ended");
    // The prover and the guard hold the other end: it closes when both have ended.
    let mut messages = String::new();
    let mut end = child.stderr.take().expect("piped");
    end.read_to_string(&mut messages).expect("UTF-8");
    assert!(
        began.elapsed() < Duration::from_secs(50),
        "the prover went on"
    );
    world.assert_clean();
}

#[test]
fn killed_alone_it_leaves_nothing() {
    killed("killed_alone", |command| command.to_string());
}

#[test]
fn killed_with_its_group_it_leaves_nothing() {
    killed("killed_with_its_group", |command| format!("-{command}"));
}

#[test]
fn says_what_is_wrong() {
    let world = changed_world("says_what_is_wrong");
    let refused = |arguments: &[&str], message: &str| {
        let found = world.run(arguments);
        assert_eq!((found.status, found.report.as_str()), (2, ""), "{found:?}");
        assert_eq!(found.messages, format!("change-report: {message}\n"));
    };
    let no_such = "there is no such commit in this repository";
    refused(&["nothing"], &format!("nothing: {no_such}"));
    refused(&["HEAD~9"], &format!("HEAD~9: {no_such}"));
    refused(
        &[""],
        "the base is missing: make change-report BASE=<commit>",
    );
    refused(&["--all", "HEAD"], "--all: there is no such option");
    refused(
        &["--crates", "low lost", "HEAD~1"],
        "lost: crates.txt lists no such crate, before or after",
    );
    world.git(&["rm", "--quiet", "crates.txt"]);
    world.commit("No list");
    let head = world.git(&["rev-parse", "HEAD"]);
    refused(
        &["HEAD~1"],
        &format!("commit {} has no crates.txt", &head[..10]),
    );
    assert_eq!(world.asked(), [""; 0]);
    world.assert_clean();
}

#[test]
fn says_what_is_missing() {
    let world = changed_world("says_what_is_missing");
    let where_from = "is missing: README.md, \"What it needs\", says where it comes from";
    let mut command = world.command(&["HEAD~1"]);
    let found = ran(command.env("PATH", world.path("with-git")).output());
    assert_eq!(found.messages, format!("change-report: rt {where_from}\n"));
    assert_eq!((found.status, found.report.as_str()), (2, ""));
    let mut command = world.command(&["HEAD~1"]);
    let found = ran(command.env("PATH", world.path("empty")).output());
    assert_eq!(found.messages, format!("change-report: git {where_from}\n"));
    assert_eq!((found.status, found.report.as_str()), (2, ""));
    let mut command = world.command(&["HEAD~1"]);
    let found = ran(command.current_dir(world.path("empty")).output());
    let message = "change-report: this folder is in no work tree of a git repository\n";
    assert_eq!(found.messages, message);
    assert_eq!((found.status, found.report.as_str()), (2, ""));
    world.assert_clean();
}

#[test]
fn helps() {
    let world = World::new("helps");
    let found = world.run(&["--help"]);
    assert_eq!((found.status, found.messages.as_str()), (0, ""));
    assert!(found.report.contains("usage: change-report"));
}
