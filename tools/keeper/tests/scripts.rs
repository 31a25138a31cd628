//! `keeper run`: steps and questions of a script.

mod common;

use std::fs;

use common::{bytes, corpus_folder, done, example_a, fails, fresh, keeper};

/// Runs a script that is read from standard input.
fn answers(script: &str) -> String {
    String::from_utf8(done(&["run", "-"], script.as_bytes())).expect("UTF-8")
}

#[test]
fn a_run_from_its_beginning() {
    let script = "\
# two processes
new 2

send 0 1   # message 0
\tsave 1 0\r
line
save 0
line 0
line
list
fall back
check
text
fall-back
why m0
sheet
";
    let expected = "\
0 0
1 2
1 1
line 1 1
hold 0 1 2
hold 1 2 1
checkpoint 0 1
checkpoint 1 1
share 50
processes 2
states 2 2
message 0.0 -> 1.1
# Message 0 (0.0 -> 1.1) is not kept: no future needs it.
# The line of each process that alone holds passes it by:
line 0
# 1 2: received before it: process 1 stands at 2, and 1 is not above that
line 1
# 2 1: received before it: process 1 stands at 1, and 1 is not above that
# It is proved that no future needs what these lines pass by: docs/ASSURANCE.md,
# demand-3 and nothing-off-the-sheet-is-needed.
checkpoint 0 1
checkpoint 1 1
";
    assert_eq!(answers(script), expected);
}

#[test]
fn receipts_in_a_script() {
    let script = "\
new 3
send 0 1
send 2 1
receive 1 0 1   # process 1 has both, and has not saved them
text
line 0
line 2
save 2
line 0
save 1
text
fall back
receive 1
text
";
    let expected = "\
processes 3
states 1 1 1
message 0.0 -> 1.1 unsaved
message 2.0 -> 1.1 unsaved
0 0 1
1 0 0
0 0 2
processes 3
states 1 2 2
message 0.0 -> 1.1
message 2.0 -> 1.1
processes 3
states 1 1 2
message 2.0 -> 1 waiting
";
    assert_eq!(answers(script), expected);
}

#[test]
fn steps_are_the_subcommands_steps() {
    let path = corpus_folder().join("example_a.table");
    let path = path.to_str().expect("UTF-8");
    let (table, script) = (fresh("scripts.table"), fresh("scripts.steps"));
    let steps = "send 0 1\nreceive 0 4\nsave 1 5\nfall back\nreceive 1 0\nsave 0";
    fs::write(&script, steps).expect("written");
    assert_eq!(done(&["run", &script, path, "-o", &table], b""), b"");
    let mut expected = example_a();
    for step in [
        &["send", "0", "1"][..],
        &["receive", "0", "4"],
        &["save", "1", "5"],
        &["fall-back"],
        &["receive", "1", "0"],
        &["save", "0"],
    ] {
        expected = done(step, &expected);
    }
    assert_eq!(fs::read(&table).expect("read"), expected);
    // From standard input, and as texts.
    done(&["run", "-o", &table, &script], &example_a());
    assert_eq!(fs::read(&table).expect("read"), expected);
    let text = done(&["decode"], &example_a());
    let after = done(&["run", "--text", &script, "-", "-o", "-"], &text);
    assert_eq!(after, done(&["decode"], &expected));
    let after = done(&["run", "--text-in", &script, "-o", "-"], &text);
    assert_eq!(after, expected);
    // Answers first, and then the table.
    fs::write(&script, "line\nsave 0\nline").expect("written");
    let after = done(&["run", &script, path, "-o", "-", "--text-out"], b"");
    let expected = done(&["save", "0", "--text-out"], &example_a());
    assert_eq!(after, [b"1 1\n3 2\n", &expected[..]].concat());
    // No step at all.
    fs::write(&script, "# nothing\n").expect("written");
    assert_eq!(done(&["run", &script, path, "-o", "-"], b""), example_a());
}

#[test]
fn answers_as_the_subcommands_give_them() {
    let path = corpus_folder().join("example_a.table");
    let path = path.to_str().expect("UTF-8");
    for (line, arguments) in [
        ("list", &["list"][..]),
        ("list --json", &["list", "--json"]),
        ("line", &["line"]),
        ("line 1", &["line", "1"]),
        ("line 0 1", &["line", "0", "1"]),
        ("line --under 0,-", &["line", "--under", "0,3"]),
        ("line --under=3,2 --json", &["line", "--json", "1"]),
        ("line --marking", &["line"]),
        ("line --marking 1", &["line", "1"]),
        ("line --marking --under 0,-", &["line", "--under", "0,3"]),
        (
            "line --marking --json --under=3,2",
            &["line", "--json", "1"],
        ),
        ("stand", &["line", "--under", "3,3"]),
        ("stand 1.2", &["stand", "1.2"]),
        ("stand 1.1 0.1", &["stand", "0.1", "1.1"]),
        ("stand --json 1.2", &["stand", "--json", "1.2"]),
        ("sheet", &["sheet", "--text-out"]),
        ("sheet --text-out", &["sheet", "--text-out"]),
        ("sheet --json", &["sheet", "--json"]),
        ("why 1.2", &["why", "1.2"]),
        ("why --text-out 1.2", &["why", "--text-out", "1.2"]),
        ("text", &["decode"]),
        ("decode", &["decode"]),
        ("check", &["check"]),
        ("draw --hold=1", &["draw", "--hold", "1"]),
        ("draw --under -,2", &["draw", "--under", "3,2"]),
        ("draw --stand 0.2", &["draw", "--stand", "0.2"]),
        ("fall back --moves", &["fall-back", "--moves"]),
    ] {
        let expected = done(arguments, &example_a());
        assert_eq!(
            done(&["run", "-", path], line.as_bytes()),
            expected,
            "{line}"
        );
    }
}

#[test]
fn a_line_that_fails() {
    let (table, script) = (fresh("fails.table"), fresh("fails.steps"));
    fs::write(&table, example_a()).expect("written");
    let cases: &[(&str, i32, &str)] = &[
        (
            "line\n\nsend 0 5 # no such\nline\n",
            1,
            "3: send 0 5: refused 10: there is no process 5 (N is 2)",
        ),
        (
            "save 0 4\n save  0\t4\n",
            1,
            "2: save 0 4: refused 13: message 4 does not wait for process 0: it was received before checkpoint 3",
        ),
        (
            "receive 0 4\nreceive 0\nreceive 0 4",
            1,
            "3: receive 0 4: refused 13: message 4 does not wait for process 0: it is received, and not saved yet",
        ),
        (
            "line\nreceive 5",
            1,
            "2: receive 5: refused 10: there is no process 5 (N is 2)",
        ),
        (
            "receive",
            2,
            "1: receive: receive needs PROCESS (see `keeper receive --help`)",
        ),
        (
            "why 1.3",
            1,
            "1: why 1.3: there is no checkpoint 3 of process 1: it has 3 checkpoints",
        ),
        (
            "line 2",
            1,
            "1: line 2: refused 12: there is no process 2 (N is 2)",
        ),
        (
            "line\nline --under 3,2,4",
            1,
            "2: line --under 3,2,4: refused 17: 3 ceilings for 2 processes",
        ),
        (
            "line\nline --under 4,-",
            1,
            "2: line --under 4,-: refused 18: the ceiling 4 of process 0 is above its count 3",
        ),
        (
            "line\nline --marking 2",
            1,
            "2: line --marking 2: refused 12: there is no process 2 (N is 2)",
        ),
        (
            "line\nline --marking --under 4,-",
            1,
            "2: line --marking --under 4,-: refused 18: the ceiling 4 of process 0 is above its count 3",
        ),
        (
            "line\nline --under 3,,2",
            2,
            "2: line --under 3,,2: `3,,2`: a ceiling is missing: each is a number from 0 to 65535, or `-` \
             (see `keeper line --help`)",
        ),
        (
            "line\nline 1 --under 3,2",
            2,
            "2: line 1 --under 3,2: --under and PROCESS exclude each other (see `keeper line --help`)",
        ),
        (
            "line\nline under 3,2",
            2,
            "2: line under 3,2: `under` is not a number from 0 to 65535 (see `keeper line --help`)",
        ),
        (
            "line\nstand 0.2\nline",
            3,
            "2: stand 0.2: no: 0.2 is on no consistent line: a zigzag path leads from 0.2 to itself by message 3 \
             (0.2 -> 1.2), then message 2 (1.1 -> 0.2)",
        ),
        (
            "line\nstand --json 0.1 1.2\nline",
            3,
            "2: stand --json 0.1 1.2: no: 0.1 and 1.2 are on no consistent line together: a zigzag path leads from 0.1 \
             to 1.2 by message 3 (0.2 -> 1.2)",
        ),
        (
            "line\nstand 0.0 0.1",
            1,
            "2: stand 0.0 0.1: refused 21: process 0 is named twice, with checkpoints 0 and 1",
        ),
        (
            "line\nstand 0.3",
            1,
            "2: stand 0.3: refused 22: there is no checkpoint 3 of process 0: it has 3 checkpoints",
        ),
        ("stand 0 1", 2, "1: stand 0 1: `0` is no checkpoint: each is a process and a number from 0 to 65535, such as 1.2 (see `keeper stand --help`)"),
        ("line\nstand 0.1 0", 2, "2: stand 0.1 0: one word too many: `0`"),
        (
            "line\nsned 0 1",
            2,
            "2: sned 0 1: there is no step `sned`; there are new, decode, check, list, line, stand, sheet, why, send, save, receive, fall-back, draw",
        ),
        (
            "fall",
            2,
            "1: fall: there is no step `fall`; there are new, decode, check, list, line, stand, sheet, why, send, save, receive, fall-back, draw",
        ),
        (
            "send 0",
            2,
            "1: send 0: send needs FROM and TO (see `keeper send --help`)",
        ),
        (
            "line\nsave one",
            2,
            "2: save one: `one` is not a number from 0 to 65535 (see `keeper save --help`)",
        ),
        ("save 0 one", 2, "1: save 0 one: one word too many: `one`"),
        ("list -o x", 2, "1: list -o x: a step takes no option `-o`"),
        (
            "sheet --decode",
            2,
            "1: sheet --decode: a step takes no option `--decode`",
        ),
        (
            "send --help",
            2,
            "1: send --help: a step takes no option `--help`",
        ),
        (
            "line\nnew 2",
            2,
            "2: new 2: a run begins once: `new` is the first step",
        ),
    ];
    for (steps, status, message) in cases {
        fs::write(&script, steps).expect("written");
        let ran = keeper(&["run", &script, &table, "-o", &table], b"");
        assert_eq!(
            ran.errors,
            format!("keeper: {script}:{message}\n"),
            "{steps}"
        );
        assert_eq!(ran.status, *status, "{steps}");
        // What is no step is found before the first is made.
        let before = match *status {
            1 | 3 if steps.starts_with("line\n") => "1 1\n",
            2 if steps.ends_with("new 2") => "1 1\n",
            _ => "",
        };
        assert_eq!(String::from_utf8_lossy(&ran.output), before, "{steps}");
        assert_eq!(fs::read(&table).expect("read"), example_a(), "{steps}");
    }
    // Bytes that are no words are shown so that they do no harm.
    fs::write(&script, b"se\x1bnd \xff\n").expect("written");
    let ran = keeper(&["run", &script, &table], b"");
    assert_eq!(ran.status, 2);
    assert!(!ran.errors.contains('\x1b'), "{}", ran.errors);
}

#[test]
fn what_a_script_begins_with() {
    let script = fresh("begins.steps");
    fs::write(&script, "new 33\n").expect("written");
    let message = format!("{script}:1: new 33: refused 2: N is 33, and must be 1 to 32");
    fails(&["run", &script], b"", 1, &message);
    fs::write(&script, "new 2\n").expect("written");
    let message = "the script begins with `new`, and reads no FILE (see `keeper run --help`)";
    fails(&["run", &script, "x.table"], b"", 2, message);
    assert_eq!(
        done(&["run", &script, "-o", "-"], b""),
        bytes(&[2, 0, 1, 1])
    );
    let message =
        "the script is read from standard input, so that FILE must be named (see `keeper run --help`)";
    fails(&["run", "-"], b"line\n", 2, message);
    fails(&["run", "-", "-"], b"line\n", 2, message);
    fs::write(&script, "line\n").expect("written");
    let message = "(standard input): refused 4: the table has 47 bytes, and 48 are needed for N = 2 and M = 5";
    fails(&["run", &script], &example_a()[..47], 1, message);
    fs::write(&script, example_a()).expect("written");
    let message = format!("{script}: this is a table, and no script: SCRIPT stands before FILE");
    fails(&["run", &script, "steps.txt"], b"", 2, &message);
    let missing = fresh("missing.steps");
    let message = format!("{missing}: No such file or directory (os error 2)");
    fails(&["run", &missing], b"", 2, &message);
    fails(
        &["run"],
        b"",
        2,
        "run needs SCRIPT (see `keeper run --help`)",
    );
}
