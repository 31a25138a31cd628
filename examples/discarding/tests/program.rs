//! The program: what it prints, its statuses, and the folders that it leaves.

use std::env;
use std::fs;
use std::path::{Path, PathBuf};
use std::process::{Command, Output};
use std::time::{Duration, Instant};

fn discarding(arguments: &[&str]) -> Output {
    Command::new(env!("CARGO_BIN_EXE_discarding"))
        .args(arguments)
        .output()
        .expect("the program starts")
}

fn texts(output: &Output) -> (Option<i32>, String, String) {
    (
        output.status.code(),
        String::from_utf8_lossy(&output.stdout).into_owned(),
        String::from_utf8_lossy(&output.stderr).into_owned(),
    )
}

fn new_folder(name: &str) -> PathBuf {
    let folder = env::temp_dir().join(format!("discarding-program-{}-{name}", std::process::id()));
    fs::create_dir(&folder).expect("a new folder");
    folder
}

fn is_empty(folder: &Path) -> bool {
    fs::read_dir(folder).expect("it is there").next().is_none()
}

#[test]
fn a_seed_says_what_it_did_and_leaves_no_files() {
    let folder = new_folder("done");
    let named = folder.to_str().unwrap();
    let first = discarding(&["--steps", "700", "--seed", "7", "--folder", named]);
    let (status, output, errors) = texts(&first);
    assert_eq!((status, errors.as_str()), (Some(0), ""));
    assert!(output.starts_with("seed 7: 700 steps in "), "{output}");
    assert_eq!(output.lines().count(), 7);
    assert!(is_empty(&folder));
    let again = discarding(&["--seed", "7", "--folder", named, "--steps", "700"]);
    assert_eq!(texts(&again).1, output);
    fs::remove_dir(&folder).unwrap();
}

#[test]
fn the_temporary_folder_is_removed() {
    let temporary = new_folder("temporary");
    let output = Command::new(env!("CARGO_BIN_EXE_discarding"))
        .args(["--steps", "50", "--seed", "1"])
        .env("TMPDIR", &temporary)
        .output()
        .unwrap();
    assert_eq!(output.status.code(), Some(0));
    assert!(is_empty(&temporary));
    fs::remove_dir(&temporary).unwrap();
}

/// The last seed of an output whose first is 5, each of 20 steps.
fn last_seed(arguments: &[&str]) -> u64 {
    let (status, output, errors) = texts(&discarding(arguments));
    assert_eq!((status, errors.as_str()), (Some(0), ""));
    let seeds = output.strip_prefix("seeds 5 to ").expect("seeds");
    let last: u64 = seeds.split(':').next().unwrap().parse().unwrap();
    let steps = 20 * (last - 5 + 1);
    assert!(output.contains(&format!(": {steps} steps in ")), "{output}");
    last
}

#[test]
fn further_seeds() {
    let folder = new_folder("seeds");
    let named = folder.to_str().unwrap();
    let common = ["--steps", "20", "--seed", "5", "--folder", named];
    let with = |options: &[&'static str]| last_seed(&[&common[..], options].concat());
    assert_eq!(with(&["--seeds", "3"]), 7);
    let begin = Instant::now();
    assert!(with(&["--seconds", "1"]) > 5);
    assert!(begin.elapsed() >= Duration::from_secs(1));
    assert!(is_empty(&folder));
    fs::remove_dir(&folder).unwrap();
}

/// A folder of a run that is there already is someone else's.
#[test]
fn a_failure_is_told_and_nothing_of_others_is_touched() {
    let folder = new_folder("failure");
    let other = folder.join("run-1");
    fs::create_dir(&other).unwrap();
    fs::write(other.join("checkpoint-00000000"), "of another").unwrap();
    let named = folder.to_str().unwrap();
    let failed = discarding(&["--steps", "50", "--seed", "1", "--folder", named]);
    let (status, output, errors) = texts(&failed);
    assert_eq!((status, output.as_str()), (Some(1), ""));
    assert!(
        errors.starts_with("discarding: seed 1, run 1, after 0 steps: ")
            && errors.contains("run-1"),
        "{errors}"
    );
    let left = fs::read(other.join("checkpoint-00000000")).unwrap();
    assert_eq!(left, b"of another");
    fs::remove_dir_all(&folder).unwrap();
}

#[test]
fn wrong_usage() {
    let cases: [(&[&str], &str); 7] = [
        (&[], "--steps is missing"),
        (&["--steps", "5"], "--seed is missing"),
        (
            &["--steps", "0", "--seed", "1"],
            "--steps 0: expected 1 or more",
        ),
        (
            &["--steps", "-1", "--seed", "1"],
            "--steps -1: expected a number",
        ),
        (&["--seed", "x"], "--seed x: expected a number"),
        (&["--steps"], "--steps: nothing follows it"),
        (&["--fault", "1"], "--fault: there is no such option"),
    ];
    for (arguments, words) in cases {
        let (status, output, errors) = texts(&discarding(arguments));
        assert_eq!((status, output.as_str()), (Some(2), ""), "{arguments:?}");
        assert!(
            errors.starts_with(&format!("discarding: {words}\nusage: ")),
            "{errors}"
        );
    }
    let (status, output, errors) = texts(&discarding(&["--help"]));
    assert_eq!((status, errors.as_str()), (Some(0), ""));
    assert!(output.starts_with("usage: discarding --steps N --seed S "));
}
