//! Completion, in the shells themselves.

mod common;

use std::fs;
use std::path::PathBuf;
use std::process::{Command, Stdio};

use common::{done, note};
use keeper_command::usage::SUBCOMMANDS;

/// A folder with the scripts, as they are installed, and a few files.
fn folder(name: &str) -> PathBuf {
    let path = PathBuf::from(env!("CARGO_TARGET_TMPDIR")).join(name);
    let _ = fs::remove_dir_all(&path);
    fs::create_dir_all(path.join("site-functions")).expect("created");
    fs::create_dir_all(path.join("here/folder")).expect("created");
    fs::write(path.join("keeper.bash"), done(&["completion", "bash"], b"")).expect("written");
    let zsh = done(&["completion", "zsh"], b"");
    fs::write(path.join("site-functions/_keeper"), zsh).expect("written");
    for file in ["run.table", "run two.table", "steps.txt"] {
        fs::write(path.join("here").join(file), b"").expect("written");
    }
    path
}

fn is_there(program: &str) -> bool {
    Command::new(program)
        .args(["-c", "exit 0"])
        .status()
        .is_ok_and(|status| status.success())
}

/// What bash offers for the last of the words, which are as bash takes a line
/// apart.
fn in_bash(folder: &std::path::Path, words: &[&str]) -> Vec<String> {
    let script = "\
source \"$1\" && shift && complete -p keeper >/dev/null || exit 1
COMP_WORDS=(\"$@\") COMP_CWORD=$(($# - 1))
_keeper keeper \"${COMP_WORDS[COMP_CWORD]}\" \"${COMP_WORDS[COMP_CWORD - 1]}\"
for reply in \"${COMPREPLY[@]}\"; do printf '%s\\n' \"$reply\"; done";
    let output = Command::new("bash")
        .args(["--norc", "-c", script, "bash"])
        .arg(folder.join("keeper.bash"))
        .args(words)
        .current_dir(folder.join("here"))
        .stdin(Stdio::null())
        .output()
        .expect("bash starts");
    assert!(output.status.success(), "{words:?}: {output:?}");
    assert_eq!(String::from_utf8_lossy(&output.stderr), "", "{words:?}");
    let replies = String::from_utf8(output.stdout).expect("UTF-8");
    let mut replies: Vec<String> = replies.lines().map(str::to_string).collect();
    replies.sort();
    replies
}

#[test]
fn bash() {
    if !is_there("bash") {
        note("completion: bash is missing; not tried there");
        return;
    }
    let folder = folder("bash");
    let offered = |words: &[&str]| in_bash(&folder, words);
    let files = ["folder", "run two.table", "run.table", "steps.txt"];
    // Every subcommand, and its options.
    let mut names: Vec<&str> = SUBCOMMANDS.iter().map(|row| row.name).collect();
    names.extend(["--help", "-h", "--version", "-V"]);
    names.sort();
    assert_eq!(offered(&["keeper", ""]), names);
    assert_eq!(offered(&["keeper", "de"]), ["decode"]);
    assert_eq!(offered(&["keeper", "se"]), ["send"]);
    assert_eq!(offered(&["keeper", "re"]), ["receive"]);
    assert_eq!(offered(&["keeper", "st"]), ["stand"]);
    assert_eq!(offered(&["keeper", "zz"]), [""; 0]);
    for row in SUBCOMMANDS {
        let mut names: Vec<&str> = row
            .options
            .iter()
            .flat_map(|option| option.names)
            .copied()
            .chain(["--help", "-h"])
            .collect();
        names.sort();
        assert_eq!(offered(&["keeper", row.name, "-"]), names, "{}", row.name);
        if row.options.iter().any(|option| option.names[0] == "-o") {
            assert_eq!(offered(&["keeper", row.name, "-o", ""]), files);
        }
    }
    assert_eq!(offered(&["keeper", "list", "--j"]), ["--json"]);
    assert_eq!(offered(&["keeper", "list", ""]), files);
    assert_eq!(
        offered(&["keeper", "list", "run"]),
        ["run two.table", "run.table"]
    );
    assert_eq!(offered(&["keeper", "send", "0", "1", "st"]), ["steps.txt"]);
    assert_eq!(
        offered(&["keeper", "receive", "1", "0", "st"]),
        ["steps.txt"]
    );
    assert_eq!(
        offered(&["keeper", "receive", "1", "--text-o"]),
        ["--text-out"]
    );
    assert_eq!(offered(&["keeper", "run", "st"]), ["steps.txt"]);
    assert_eq!(
        offered(&["keeper", "run", "steps.txt", "run."]),
        ["run.table"]
    );
    assert_eq!(offered(&["keeper", "draw", "--title", ""]), [""; 0]);
    assert_eq!(offered(&["keeper", "line", "--u"]), ["--under"]);
    assert_eq!(offered(&["keeper", "line", "--m"]), ["--marking"]);
    assert_eq!(offered(&["keeper", "draw", "--m"]), [""; 0]);
    assert_eq!(offered(&["keeper", "line", "--marking", ""]), files);
    assert_eq!(offered(&["keeper", "line", "--under", ""]), [""; 0]);
    assert_eq!(offered(&["keeper", "draw", "--under", ""]), [""; 0]);
    assert_eq!(
        offered(&["keeper", "line", "--under", "3,2", "st"]),
        ["steps.txt"]
    );
    assert_eq!(offered(&["keeper", "wha"]), ["what-if"]);
    let mut sets = [&files[..], &["all", "none", "pairs", "singles"]].concat();
    sets.sort();
    assert_eq!(offered(&["keeper", "what-if", ""]), sets);
    assert_eq!(
        offered(&["keeper", "what-if", "0,1", "s"]),
        ["singles", "steps.txt"]
    );
    assert_eq!(offered(&["keeper", "what-if", "--c"]), ["--cost", "--csv"]);
    assert_eq!(
        offered(&["keeper", "what-if", "--sets", "st"]),
        ["steps.txt"]
    );
    assert_eq!(offered(&["keeper", "stand", "--j"]), ["--json"]);
    assert_eq!(offered(&["keeper", "stand", ""]), files);
    assert_eq!(offered(&["keeper", "stand", "0.1", "st"]), ["steps.txt"]);
    assert_eq!(offered(&["keeper", "draw", "--s"]), ["--stand"]);
    assert_eq!(offered(&["keeper", "draw", "--stand", ""]), [""; 0]);
    assert_eq!(offered(&["keeper", "new", ""]), [""; 0]);
    assert_eq!(offered(&["keeper", "completion", ""]), ["bash", "zsh"]);
    assert_eq!(offered(&["keeper", "completion", "z"]), ["zsh"]);
    assert_eq!(offered(&["keeper", "help", "fa"]), ["fall-back"]);
    assert_eq!(offered(&["keeper", "nothing", ""]), [""; 0]);
    // An option's value behind the sign at which bash takes words apart.
    assert_eq!(offered(&["keeper", "draw", "--title", "="]), [""; 0]);
    assert_eq!(offered(&["keeper", "draw", "--title", "=", "run"]), [""; 0]);
}

/// Where zsh is missing, too: what is offered no more behind an option that
/// excludes it.
#[test]
fn options_that_exclude_each_other_in_zsh() {
    let script = String::from_utf8(done(&["completion", "zsh"], b"")).expect("UTF-8");
    let specs = |option: &str| -> Vec<&str> {
        let name = format!("){option}=");
        let lines = script.lines().map(str::trim_start);
        let lines = lines.filter(|line| line.contains(&name));
        lines
            .map(|line| line.split(name.as_str()).next().expect("one"))
            .collect()
    };
    // In `line` and in `draw`, which has all of them.
    assert_eq!(specs("--under"), ["'(--under", "'(--under --hold --stand"]);
    assert_eq!(specs("--hold"), ["'(--hold --under --stand"]);
    assert_eq!(specs("--stand"), ["'(--stand --hold --under"]);
    assert_eq!(specs("--last"), ["'(--last"]);
    // In `what-if`, of options without a value.
    for (option, excludes) in [
        ("--cost", "'(--cost --json --csv)--cost["),
        ("--csv", "'(--csv --json --cost)--csv["),
        ("--json", "'(--json --csv --cost)--json["),
    ] {
        let lines = script.lines().map(str::trim_start);
        let times = lines.filter(|line| line.starts_with(excludes)).count();
        assert_eq!(times, 1, "{option}");
    }
}

/// What zsh makes of lines where the key for completion is pressed at the end of
/// each: all that the terminal shows, with the line as it stands then behind
/// `LINE`.
fn in_zsh(folder: &std::path::Path, lines: &[String]) -> Vec<String> {
    // The shell within runs on a terminal of its own; ctrl-x shows its line.
    let script = r#"
zmodload zsh/zpty || exit 1
zpty inner zsh -f -i
zpty -w inner 'PS1= PS2= RPS1=; unsetopt prompt_sp; stty -echo'
zpty -w inner "fpath=($1 \$fpath); autoload -U compinit; compinit -u -D"
zpty -w inner "cd $2; LISTMAX=0; setopt no_beep list_rows_first"
zpty -w inner 'show() { print -r -- "LINE<$BUFFER>END"; zle kill-whole-line }; zle -N show; bindkey "^X" show'
zpty -w inner 'echo READY''NOW'
zpty -r -m inner seen '*READYNOW*' || exit 1
shift 2
for line; do
    zpty -w -n inner "$line"$'\x18'
    zpty -r -m inner seen '*LINE<*>END*' || exit 1
    print -r -- "$seen"
    print NEXT
done
zpty -d inner
"#;
    let output = Command::new("zsh")
        .args(["-f", "-c", script, "zsh"])
        .arg(folder.join("site-functions"))
        .arg(folder.join("here"))
        .args(lines)
        .env("TERM", "dumb")
        .env("COLUMNS", "200")
        .stdin(Stdio::null())
        .output()
        .expect("zsh starts");
    assert!(output.status.success(), "{output:?}");
    let seen = String::from_utf8_lossy(&output.stdout);
    let mut seen: Vec<String> = seen.split("NEXT\n").map(str::to_string).collect();
    seen.pop();
    assert_eq!(seen.len(), lines.len(), "{seen:?}");
    seen
}

#[test]
fn zsh() {
    if !is_there("zsh") {
        note("completion: zsh is missing; not tried there");
        return;
    }
    let folder = folder("zsh");
    let lines = [
        ("keeper dec", "keeper decode "),
        ("keeper fa", "keeper fall-back "),
        ("keeper list --j", "keeper list --json "),
        ("keeper list st", "keeper list steps.txt "),
        ("keeper list -o st", "keeper list -o steps.txt "),
        ("keeper list -ost", "keeper list -osteps.txt "),
        ("keeper send 0 1 st", "keeper send 0 1 steps.txt "),
        ("keeper save 0 1 st", "keeper save 0 1 steps.txt "),
        ("keeper rec", "keeper receive "),
        ("keeper sta", "keeper stand "),
        ("keeper stand 0.1 st", "keeper stand 0.1 steps.txt "),
        ("keeper wha", "keeper what-if "),
        ("keeper what-if 0,1 st", "keeper what-if 0,1 steps.txt "),
        (
            "keeper what-if --sets st",
            "keeper what-if --sets steps.txt ",
        ),
        ("keeper receive 0 1 st", "keeper receive 0 1 steps.txt "),
        ("keeper run steps.txt fo", "keeper run steps.txt folder/"),
        ("keeper completion z", "keeper completion zsh "),
        ("keeper help com", "keeper help completion "),
        ("keeper draw --ti", "keeper draw --title="),
        ("keeper zz", "keeper zz"),
    ];
    let typed: Vec<String> = lines.iter().map(|(line, _)| format!("{line}\t")).collect();
    for ((line, expected), seen) in lines.iter().zip(in_zsh(&folder, &typed)) {
        let (_, after) = seen.rsplit_once("LINE<").expect("the line");
        let (after, _) = after.split_once(">END").expect("its end");
        assert_eq!(after, *expected, "{line}");
    }
    // Several are shown, with their words.
    let mut typed = vec!["keeper s\t\t".to_string()];
    typed.extend(
        SUBCOMMANDS
            .iter()
            .map(|row| format!("keeper {} -\t\t", row.name)),
    );
    let seen = in_zsh(&folder, &typed);
    assert!(
        seen[0].contains("sheet") && seen[0].contains("the keep sheet of a table"),
        "{}",
        seen[0]
    );
    for (row, seen) in SUBCOMMANDS.iter().zip(&seen[1..]) {
        for name in row.options.iter().flat_map(|option| option.names) {
            assert!(seen.contains(name), "{}: {name}: {seen}", row.name);
        }
    }
    note("completion: tried in zsh");
}
