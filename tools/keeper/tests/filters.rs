//! The subcommands as filters: outputs, messages and exit statuses.

mod common;

use std::fs;
use std::io::Write;
use std::path::PathBuf;
use std::process::{Command, Stdio};

use common::{as_somebody, bytes, corpus, done, example_a, fails, fresh, keeper, note, refused};
use keeper_command::usage::SUBCOMMANDS;

#[test]
fn lists_the_corpus() {
    for case in corpus() {
        let ran = keeper(&["list", &case.path], b"");
        assert_eq!(ran.output, case.listing, "{}", case.name);
        match refused(&case.listing) {
            None => assert_eq!((ran.status, ran.errors.as_str()), (0, ""), "{}", case.name),
            Some(number) => {
                let message = format!("keeper: {}: refused {number}: ", case.path);
                assert_eq!(ran.status, 1, "{}", case.name);
                assert!(ran.errors.starts_with(&message), "{}", ran.errors);
            }
        }
    }
}

#[test]
fn lists_standard_input_and_texts() {
    let a = example_a();
    let listing = done(&["list"], &a);
    assert_eq!(done(&["list", "-"], &a), listing);
    assert_eq!(done(&["list", "--text"], &done(&["decode"], &a)), listing);
    // Far more than the largest table, as the program reads it.
    let ran = keeper(&["list"], &[a, vec![0; 200_000]].concat());
    assert_eq!((ran.status, ran.output), (1, b"refused 4\n".to_vec()));
    let ran = keeper(&["list", "--text"], b"processes 2\nstates 3 0\n");
    assert_eq!((ran.status, ran.output), (1, b"refused 5\n".to_vec()));
    assert_eq!(
        ran.errors,
        "keeper: (standard input):2: refused 5: process 1 has 0 checkpoints, and must have 1 to 4096\n"
    );
}

#[test]
fn lines() {
    let a = example_a();
    assert_eq!(done(&["line"], &a), b"1 1\n");
    assert_eq!(done(&["line", "0", "1", "-"], &a), b"1 1\n");
    assert_eq!(done(&["line", "0"], &a), b"1 1\n");
    assert_eq!(done(&["line", "1"], &a), b"3 2\n");
    assert_eq!(done(&["line", "1", "1"], &a), b"3 2\n");
    assert_eq!(
        done(&["line", "--text-in", "1"], &done(&["decode"], &a)),
        b"3 2\n"
    );
    fails(
        &["line", "2"],
        &a,
        1,
        "refused 12: there is no process 2 (N is 2)",
    );
    fails(
        &["line", "0", "31"],
        &a,
        1,
        "refused 12: there is no process 31 (N is 2)",
    );
    fails(
        &["line", "0"],
        &a[..3],
        1,
        "(standard input): refused 1: the table has 3 bytes, and needs 4 at least",
    );
    let message = "`32`: a process that holds is numbered 0 to 31 (see `keeper line --help`)";
    fails(&["line", "0", "32"], &a, 2, message);
    fails(
        &["line", "65536"],
        &a,
        2,
        "`65536` is not a number from 0 to 65535 (see `keeper line --help`)",
    );
}

/// The lines that `line` writes, by the published method: of example A, and what
/// is refused and wrong.
#[test]
fn lines_by_marking() {
    let a = example_a();
    for (arguments, line) in [
        (&["line", "--marking"][..], "1 1"),
        (&["line", "--marking", "0"], "1 1"),
        (&["line", "--marking", "1"], "3 2"),
        (&["line", "1", "--marking", "-"], "3 2"),
        (&["line", "--marking", "1", "0", "1"], "1 1"),
        (&["line", "--marking", "--marking"], "1 1"),
        (&["line", "--under", "0,3", "--marking"], "0 1"),
    ] {
        let expected = format!("{line}\n");
        assert_eq!(done(arguments, &a), expected.as_bytes(), "{arguments:?}");
    }
    let text = done(&["decode"], &a);
    assert_eq!(done(&["line", "--text", "--marking", "1"], &text), b"3 2\n");
    // The most marks, and a single process.
    let most = bytes(&[vec![32, 0], vec![4096; 32]].concat());
    let expected = format!("{}4095\n", "4095 ".repeat(31));
    assert_eq!(done(&["line", "--marking"], &most), expected.as_bytes());
    let expected = format!("{}4095\n", "4096 ".repeat(31));
    assert_eq!(
        done(&["line", "--marking", "31"], &most),
        expected.as_bytes()
    );
    assert_eq!(done(&["line", "--marking"], &bytes(&[1, 0, 1])), b"0\n");

    let message = "refused 12: there is no process 2 (N is 2)";
    fails(&["line", "--marking", "2"], &a, 1, message);
    fails(&["line", "--marking", "0", "2"], &a, 1, message);
    let message = "`32`: a process that holds is numbered 0 to 31 (see `keeper line --help`)";
    fails(&["line", "--marking", "32"], &a, 2, message);
    let message = "(standard input): refused 1: the table has 3 bytes, and needs 4 at least";
    fails(&["line", "--marking"], &a[..3], 1, message);
    let message = "--under and PROCESS exclude each other (see `keeper line --help`)";
    fails(
        &["line", "--marking", "--under", "3,2", "1"],
        &a,
        2,
        message,
    );
    let message = "--marking takes no value (see `keeper line --help`)";
    fails(&["line", "--marking=1"], &a, 2, message);
    let message = "draw has no option `--marking` (see `keeper draw --help`)";
    fails(&["draw", "--marking"], &a, 2, message);
}

#[test]
fn lines_under_ceilings() {
    let a = example_a();
    for (ceilings, line) in [
        ("3,3", "3 3"),
        ("2,3", "1 1"),
        ("3,2", "3 2"),
        ("3,1", "1 1"),
        ("0,3", "0 1"),
        ("3,0", "0 0"),
        // `-` is the count.
        ("-,-", "3 3"),
        ("-,2", "3 2"),
        ("0,-", "0 1"),
    ] {
        let expected = format!("{line}\n");
        let apart = done(&["line", "--under", ceilings], &a);
        assert_eq!(apart, expected.as_bytes(), "{ceilings}");
        let attached = format!("--under={ceilings}");
        let attached = done(&["line", &attached, "-"], &a);
        assert_eq!(attached, expected.as_bytes(), "{ceilings}");
        let marked = done(&["line", "--marking", "--under", ceilings], &a);
        assert_eq!(marked, expected.as_bytes(), "{ceilings}, by marking");
    }
    let text = done(&["decode"], &a);
    assert_eq!(done(&["line", "--text", "--under=0,3"], &text), b"0 1\n");
    let one = bytes(&[1, 0, 4096]);
    assert_eq!(done(&["line", "--under", "-"], &one), b"4096\n");
    assert_eq!(done(&["line", "--under", "4096"], &one), b"4096\n");

    let refused: &[(&str, &str)] = &[
        ("3", "17: 1 ceiling for 2 processes"),
        ("-", "17: 1 ceiling for 2 processes"),
        ("3,2,4", "17: 3 ceilings for 2 processes"),
        // The length is looked at first.
        ("9,9,9", "17: 3 ceilings for 2 processes"),
        ("4,3", "18: the ceiling 4 of process 0 is above its count 3"),
        ("-,4", "18: the ceiling 4 of process 1 is above its count 3"),
        (
            "65535,65535",
            "18: the ceiling 65535 of process 0 is above its count 3",
        ),
    ];
    for (ceilings, words) in refused {
        let message = format!("refused {words}");
        fails(&["line", "--under", ceilings], &a, 1, &message);
        fails(&["line", "--under", ceilings, "--marking"], &a, 1, &message);
        fails(&["draw", "--under", ceilings], &a, 1, &message);
    }
    let message = "refused 17: 2 ceilings for 1 process";
    fails(&["line", "--under", "1,1"], &one, 1, message);
    let message = "refused 18: the ceiling 4097 of process 0 is above its count 4096";
    fails(&["line", "--under", "4097"], &one, 1, message);
    // The table's checks come first.
    let message = "(standard input): refused 1: the table has 3 bytes, and needs 4 at least";
    fails(&["line", "--under", "9"], &a[..3], 1, message);
    fails(&["line", "--marking", "--under", "9"], &a[..3], 1, message);

    let each = "each is a number from 0 to 65535, or `-`";
    let wrong: &[(&[&str], &str)] = &[
        (&["--under"], "--under needs LIST"),
        (
            &["--under", ""],
            &format!("``: a ceiling is missing: {each}"),
        ),
        (&["--under="], &format!("``: a ceiling is missing: {each}")),
        (
            &["--under", "3,,2"],
            &format!("`3,,2`: a ceiling is missing: {each}"),
        ),
        (
            &["--under", ",3"],
            &format!("`,3`: a ceiling is missing: {each}"),
        ),
        (
            &["--under", "3,2,"],
            &format!("`3,2,`: a ceiling is missing: {each}"),
        ),
        (&["--under", "3,x"], &format!("`x` is no ceiling: {each}")),
        (&["--under", "3,--"], &format!("`--` is no ceiling: {each}")),
        (&["--under", "3, 2"], &format!("` 2` is no ceiling: {each}")),
        (&["--under", "3 2"], &format!("`3 2` is no ceiling: {each}")),
        (&["--under", "+3,2"], &format!("`+3` is no ceiling: {each}")),
        (
            &["--under", "70000,2"],
            &format!("`70000` is no ceiling: {each}"),
        ),
        (
            &["--under", "3,2", "--under", "3,2"],
            "--under stands twice",
        ),
    ];
    for subcommand in ["line", "draw"] {
        for (arguments, message) in wrong {
            let arguments = [&[subcommand], *arguments].concat();
            let message = format!("{message} (see `keeper {subcommand} --help`)");
            fails(&arguments, &a, 2, &message);
        }
    }
    let message = "--under and PROCESS exclude each other (see `keeper line --help`)";
    fails(&["line", "--under", "3,2", "1"], &a, 2, message);
    fails(&["line", "1", "--under", "3,2"], &a, 2, message);
    let message = "--under and --hold exclude each other (see `keeper draw --help`)";
    fails(&["draw", "--under", "3,2", "--hold", "1"], &a, 2, message);
    fails(&["draw", "--hold", "all", "--under", "3,2"], &a, 2, message);
    let message = "line has no option `--hold` (see `keeper line --help`)";
    fails(&["line", "--hold", "1"], &a, 2, message);
}

/// A set is one kind of ceilings: the lines of the listings, by their ceilings.
#[test]
fn lines_under_the_ceilings_of_the_corpus() {
    for case in corpus() {
        if refused(&case.listing).is_some() {
            continue;
        }
        let text = String::from_utf8(done(&["decode", &case.path], b"")).expect("UTF-8");
        let states = text
            .lines()
            .nth(1)
            .and_then(|row| row.strip_prefix("states "));
        let counts = states.expect("the counts").split(' ');
        let counts: Vec<usize> = counts
            .map(|count| count.parse().expect("a number"))
            .collect();
        let line = |ceilings: Vec<String>| {
            let ceilings = ceilings.join(",");
            let arguments = ["line", "--under", &ceilings, &case.path];
            let line = String::from_utf8(done(&arguments, b"")).expect("ASCII");
            let arguments = ["line", "--marking", "--under", &ceilings, &case.path];
            let marked = String::from_utf8(done(&arguments, b"")).expect("ASCII");
            assert_eq!(line, marked, "{}, {ceilings}", case.name);
            line.trim_end().to_string()
        };
        let listing = String::from_utf8(case.listing).expect("ASCII");
        let row = |place: usize| listing.lines().nth(place).expect("a row");
        let last = counts.iter().map(|count| (count - 1).to_string()).collect();
        assert_eq!(row(0), format!("line {}", line(last)), "{}", case.name);
        // The last process alone holding, and the others without a ceiling.
        let holder = counts.len() - 1;
        let mut ceilings = vec!["-".to_string(); counts.len()];
        assert_eq!(
            Some(line(ceilings.clone()).as_str()),
            states,
            "{}",
            case.name
        );
        ceilings[holder] = (counts[holder] - 1).to_string();
        let expected = format!("hold {holder} {}", line(ceilings));
        assert_eq!(row(counts.len()), expected, "{}", case.name);
    }
}

#[test]
fn lines_of_the_corpus() {
    for case in corpus() {
        if refused(&case.listing).is_some() {
            continue;
        }
        let listing = String::from_utf8(case.listing).expect("ASCII");
        for options in [&["line"][..], &["line", "--marking"]] {
            let line = |arguments: &[&str]| {
                let line = done(&[options, arguments].concat(), b"");
                String::from_utf8(line).expect("ASCII")
            };
            let all = line(&[&case.path]);
            assert_eq!(
                listing.lines().next(),
                Some(format!("line {}", all.trim_end()).as_str())
            );
            let one = line(&["0", &case.path]);
            assert_eq!(
                listing.lines().nth(1),
                Some(format!("hold 0 {}", one.trim_end()).as_str())
            );
        }
    }
}

#[test]
fn sends() {
    let a = example_a();
    let after = bytes(&[
        2, 6, 3, 3, 0, 0, 1, 0, 1, 1, 0, 2, 1, 2, 0, 2, 1, 2, 0, 1, 0, 2, 1, 2, 0, 0, 1, 0,
    ]);
    assert_eq!(done(&["send", "0", "1"], &a), after);
    fails(
        &["send", "0", "2"],
        &a,
        1,
        "refused 10: there is no process 2 (N is 2)",
    );
    fails(
        &["send", "1", "1"],
        &a,
        1,
        "refused 11: process 1 does not send to itself",
    );
    fails(
        &["send", "0", "1"],
        &a[..47],
        1,
        "(standard input): refused 4: the table has 47 bytes, and 48 are needed for N = 2 and M = 5",
    );
    let largest = common::corpus_folder().join("largest_history.table");
    let largest = largest.to_str().expect("UTF-8");
    fails(
        &["send", "0", "1", largest],
        b"",
        1,
        "refused 14: the table has 4096 messages, and takes no more",
    );
    let text = String::from_utf8(done(&["send", "--text-out", "1", "0"], &a)).expect("UTF-8");
    assert!(
        text.ends_with("message 1.2 -> 0 waiting\nmessage 1.2 -> 0 waiting\n"),
        "{text}"
    );
}

#[test]
fn saves() {
    let a = example_a();
    let after = bytes(&[
        2, 5, 4, 3, 0, 0, 1, 0, 1, 1, 0, 2, 1, 2, 1, 2, 0, 1, 0, 2, 1, 2, 0, 3,
    ]);
    assert_eq!(done(&["save", "0", "4"], &a), after);
    let after = bytes(&[
        2, 5, 3, 4, 0, 0, 1, 0, 1, 1, 0, 2, 1, 2, 1, 2, 0, 1, 0, 2, 1, 2, 0, 0,
    ]);
    assert_eq!(done(&["save", "1", "-"], &a), after);
    let refused: &[(&[&str], &str)] = &[
        (
            &["1", "4"],
            "13: message 4 does not wait for process 1: it is for process 0",
        ),
        (
            &["0", "1", "4"],
            "13: message 1 does not wait for process 0: it was received before checkpoint 1",
        ),
        (&["0", "4", "4"], "13: positions rise: 4 does not follow 4"),
        (&["0", "4", "3"], "13: positions rise: 3 does not follow 4"),
        (&["0", "4", "5"], "13: message 5: there are only 5 (M is 5)"),
        (&["2"], "10: there is no process 2 (N is 2)"),
        (&["2", "9"], "10: there is no process 2 (N is 2)"),
    ];
    for (arguments, words) in refused {
        let arguments = [&["save"], *arguments].concat();
        fails(&arguments, &a, 1, &format!("refused {words}"));
    }
    let empty = bytes(&[2, 0, 1, 1]);
    let message = "refused 13: message 0: there are none (M is 0)";
    fails(&["save", "0", "0"], &empty, 1, message);
    let one = bytes(&[2, 1, 1, 1, 1, 0, 0, 0]);
    let message = "refused 13: message 1: there is only one (M is 1)";
    fails(&["save", "0", "0", "1"], &one, 1, message);
    let message = "refused 14: process 0 has 4096 checkpoints, and takes no more";
    fails(&["save", "0"], &bytes(&[1, 0, 4096]), 1, message);
}

#[test]
fn receives() {
    let a = example_a();
    let after = bytes(&[
        2, 5, 3, 3, 0, 0, 1, 0, 1, 1, 0, 2, 1, 2, 1, 2, 0, 1, 0, 2, 1, 2, 0, 3,
    ]);
    assert_eq!(done(&["receive", "0", "4"], &a), after);
    // No list: the table as it is, also where the file is named.
    assert_eq!(done(&["receive", "0"], &a), a);
    assert_eq!(done(&["receive", "1", "-"], &after), after);
    let text = done(&["receive", "--text-out", "0", "4"], &a);
    let text = String::from_utf8(text).expect("UTF-8");
    assert!(text.ends_with("message 1.2 -> 0.3 unsaved\n"), "{text}");
    assert_eq!(
        done(&["receive", "--text", "1"], text.as_bytes()),
        text.as_bytes()
    );
    assert_eq!(done(&["receive", "--text-in", "0"], text.as_bytes()), after);
    // A save saves it, by whichever way it was received.
    let saved = done(&["save", "0", "4"], &a);
    assert_eq!(done(&["save", "0"], &after), saved);
    // The file of -o.
    let table = fresh("receives.table");
    assert_eq!(done(&["receive", "0", "4", "-o", &table], &a), b"");
    assert_eq!(fs::read(&table).expect("read"), after);
    let refused: &[(&[&str], &str)] = &[
        (
            &["1", "4"],
            "13: message 4 does not wait for process 1: it is for process 0",
        ),
        (
            &["0", "1", "4"],
            "13: message 1 does not wait for process 0: it was received before checkpoint 1",
        ),
        (&["0", "4", "4"], "13: positions rise: 4 does not follow 4"),
        (&["0", "4", "3"], "13: positions rise: 3 does not follow 4"),
        (&["0", "5"], "13: message 5: there are only 5 (M is 5)"),
        (&["2"], "10: there is no process 2 (N is 2)"),
        (&["2", "9"], "10: there is no process 2 (N is 2)"),
        (&["65535", "4"], "10: there is no process 65535 (N is 2)"),
    ];
    for (arguments, words) in refused {
        let arguments = [&["receive"], *arguments].concat();
        fails(&arguments, &a, 1, &format!("refused {words}"));
        // The file is left as it is.
        let arguments = [&arguments[..], &["-o", &table]].concat();
        fails(&arguments, &a, 1, &format!("refused {words}"));
        assert_eq!(fs::read(&table).expect("read"), after);
    }
    let message =
        "refused 13: message 4 does not wait for process 0: it is received, and not saved yet";
    fails(&["receive", "0", "4"], &after, 1, message);
    fails(&["save", "0", "4"], &after, 1, message);
    let message = "refused 13: message 0: there are none (M is 0)";
    fails(&["receive", "0", "0"], &bytes(&[2, 0, 1, 1]), 1, message);
    fails(
        &["receive", "0"],
        &a[..47],
        1,
        "(standard input): refused 4: the table has 47 bytes, and 48 are needed for N = 2 and M = 5",
    );
    // A process that takes no more checkpoints receives still.
    let full = |received: u16| bytes(&[2, 1, 1, 4096, 0, 0, 1, received]);
    assert_eq!(done(&["receive", "1", "0"], &full(0)), full(4096));
    let message = "refused 14: process 1 has 4096 checkpoints, and takes no more";
    fails(&["save", "1"], &full(4096), 1, message);
    let message = "receive has no option `--moves` (see `keeper receive --help`)";
    fails(&["receive", "--moves", "0"], &a, 2, message);
}

/// What processes received and did not save counts where others hold: message 4
/// of example A was sent after checkpoint 2 of process 1.
#[test]
fn lines_with_what_is_not_saved() {
    let after = done(&["receive", "0", "4"], &example_a());
    for (arguments, line) in [
        (&["line"][..], "1 1"),
        (&["line", "0"], "1 1"),
        (&["line", "1"], "1 1"),
        (&["line", "--marking", "1"], "1 1"),
        (&["line", "--under", "3,2"], "1 1"),
        (&["line", "--under", "-,-"], "3 3"),
        (&["line", "--marking", "--under", "-,-"], "3 3"),
        (&["line", "--under", "2,-"], "1 1"),
    ] {
        let expected = format!("{line}\n");
        assert_eq!(
            done(arguments, &after),
            expected.as_bytes(),
            "{arguments:?}"
        );
    }
    assert_eq!(done(&["line", "1"], &example_a()), b"3 2\n");
}

#[test]
fn falls_back() {
    let after = bytes(&[2, 2, 2, 2, 0, 0, 1, 0, 1, 0, 0, 1]);
    assert_eq!(done(&["fall-back"], &example_a()), after);
    let text = "processes 2\nstates 2 2\nmessage 0.0 -> 1 waiting\nmessage 1.0 -> 0.1\n";
    assert_eq!(
        done(&["fall-back", "--text-out"], &example_a()),
        text.as_bytes()
    );
    assert_eq!(
        done(&["fall-back", "--text"], text.as_bytes()),
        text.as_bytes()
    );
    fails(
        &["fall-back"],
        b"",
        1,
        "(standard input): refused 1: the table is empty",
    );
}

#[test]
fn steps_chain_as_texts() {
    let mut text = b"processes 2\nstates 1 1\n".to_vec();
    for step in [
        &["send", "--text", "0", "1"][..],
        &["save", "--text", "1", "0"],
        &["save", "--text", "0"],
    ] {
        text = done(step, &text);
    }
    assert_eq!(text, b"processes 2\nstates 2 2\nmessage 0.0 -> 1.1\n");
    for (step, after) in [
        (
            &["send", "--text", "1", "0"][..],
            "2 2\nmessage 0.0 -> 1.1\nmessage 1.1 -> 0 waiting\n",
        ),
        (
            &["receive", "--text", "0", "1"],
            "2 2\nmessage 0.0 -> 1.1\nmessage 1.1 -> 0.2 unsaved\n",
        ),
        (
            &["save", "--text", "1"],
            "2 3\nmessage 0.0 -> 1.1\nmessage 1.1 -> 0.2 unsaved\n",
        ),
        (
            &["fall-back", "--text"],
            "2 3\nmessage 0.0 -> 1.1\nmessage 1.1 -> 0 waiting\n",
        ),
        (
            &["receive", "--text", "0", "1"],
            "2 3\nmessage 0.0 -> 1.1\nmessage 1.1 -> 0.2 unsaved\n",
        ),
        (
            &["save", "--text", "0"],
            "3 3\nmessage 0.0 -> 1.1\nmessage 1.1 -> 0.2\n",
        ),
    ] {
        text = done(step, &text);
        assert_eq!(
            String::from_utf8_lossy(&text),
            format!("processes 2\nstates {after}"),
            "{step:?}"
        );
    }
}

#[test]
fn files() {
    let (table, text) = (fresh("files.table"), fresh("files.text"));
    fs::write(&table, example_a()).expect("written");
    assert_eq!(done(&["decode", &table, "-o", &text], b""), b"");
    assert_eq!(done(&["encode", "-o", "-", &text], b""), example_a());
    // A file may be read and written again.
    assert_eq!(done(&["fall-back", "-o", &table, "--", &table], b""), b"");
    assert_eq!(
        fs::read(&table).expect("read"),
        done(&["fall-back"], &example_a())
    );
    // A refusal leaves the file as it is.
    fails(
        &["send", "0", "0", &table, "-o", &table],
        b"",
        1,
        "refused 11: process 0 does not send to itself",
    );
    assert_eq!(
        fs::read(&table).expect("read"),
        done(&["fall-back"], &example_a())
    );
    let missing = fresh("missing.table");
    fails(
        &["list", &missing],
        b"",
        2,
        &format!("{missing}: No such file or directory (os error 2)"),
    );
    let nowhere = format!("{missing}/out");
    fails(
        &["list", "-o", &nowhere],
        &example_a(),
        2,
        &format!("{nowhere}: No such file or directory (os error 2)"),
    );
    // `list` writes the listing of a refused table to the file as well.
    let listing = fresh("files.listing");
    let ran = keeper(&["list", "-o", &listing], b"");
    assert_eq!((ran.status, ran.output), (1, vec![]));
    assert_eq!(fs::read(&listing).expect("read"), b"refused 1\n");
}

#[test]
fn moves_of_a_fall_back() {
    let moves = "\
line 1 1
message 0 0
message 1 1
message 2 removed
message 3 removed
message 4 removed
";
    let (a, table) = (example_a(), fresh("moves.table"));
    assert_eq!(done(&["fall-back", "--moves"], &a), moves.as_bytes());
    // The table goes to the file, and the moves to standard output.
    let arguments = ["fall-back", "--moves", "-o", &table];
    assert_eq!(done(&arguments, &a), moves.as_bytes());
    assert_eq!(fs::read(&table).expect("read"), done(&["fall-back"], &a));
    let run = bytes(&[3, 2, 2, 2, 2, 0, 1, 1, 0, 1, 1, 2, 1]);
    assert_eq!(
        done(&["fall-back", "--moves"], &run),
        b"line 1 0 0\nmessage 0 removed\nmessage 1 removed\n"
    );
    // The first goes, and the second moves up and waits again.
    let run = bytes(&[3, 2, 2, 2, 2, 0, 1, 2, 0, 1, 1, 1, 1]);
    assert_eq!(
        done(&["fall-back", "--moves"], &run),
        b"line 1 0 1\nmessage 0 removed\nmessage 1 0\n"
    );
    // What is received and not saved: message 0 was sent after the line and goes,
    // message 1 was sent before it, moves up and waits again.
    let text =
        "processes 3\nstates 2 1 1\nmessage 0.1 -> 1.1 unsaved\nmessage 0.0 -> 2.1 unsaved\n";
    assert_eq!(
        done(&["fall-back", "--moves", "--text-in"], text.as_bytes()),
        b"line 1 0 0\nmessage 0 removed\nmessage 1 0\n"
    );
    assert_eq!(
        done(&["fall-back", "--text"], text.as_bytes()),
        b"processes 3\nstates 2 1 1\nmessage 0.0 -> 2 waiting\n"
    );
}

/// A text for a table and a table for a text: what is said, and what to do.
#[test]
fn texts_and_tables_are_told_apart() {
    let a = example_a();
    let text = done(&["decode"], &a);
    let commented = [b"\xef\xbb\xbf# a run\r\n\r\n\t  # of two\n \t", &text[..]].concat();
    for text in [
        &text[..],
        &commented,
        b"processes",
        b"processes 2\nstates 1",
    ] {
        let ran = keeper(&["list"], text);
        let number = refused(&ran.output).expect("refused, as the listing program says");
        assert_eq!(ran.status, 1);
        let message = format!(
            "keeper: (standard input): refused {number}: this is a text, and no table: read it with --text\n"
        );
        assert_eq!(ran.errors, message);
        let ran = keeper(&["decode"], text);
        let message = format!(
            "keeper: (standard input): refused {number}: this is a text, and no table: `keeper encode` makes a table of it\n"
        );
        assert_eq!((ran.status, ran.errors), (1, message));
    }
    // Nothing of the kind.
    for other in [&b""[..], b"process 2\n", b"# processes 2\n", b"states 1\n"] {
        let ran = keeper(&["check"], other);
        assert!(!ran.errors.contains("text"), "{}", ran.errors);
    }
    for table in [&a[..], &a[..47], &bytes(&[1, 0, 4097])] {
        let message = "(standard input): this is a table, and no text: read it without --text";
        for option in ["--text", "--text-in"] {
            fails(&["list", option], table, 2, message);
        }
        let message = "(standard input): this is a table, and no text: read it without --text, \
                       or with --text-out to have a text written";
        fails(&["sheet", "--text"], table, 2, message);
        let message = "(standard input): this is a table, and no text";
        fails(&["encode"], table, 2, message);
    }
}

/// Runs the command by a shell, in which it is $keeper.
fn shell(lines: &str, input: &str) -> (Option<i32>, String, String) {
    let output = Command::new("sh")
        .args(["-c", lines])
        .env("keeper", env!("CARGO_BIN_EXE_keeper"))
        .env("table", common::corpus_folder().join(input))
        .stdin(Stdio::null())
        .output()
        .expect("sh starts");
    (
        output.status.code(),
        String::from_utf8_lossy(&output.stdout).into_owned(),
        String::from_utf8_lossy(&output.stderr).into_owned(),
    )
}

#[test]
fn a_full_device_is_an_error() {
    if !PathBuf::from("/dev/full").exists() {
        note("there is no /dev/full; not tried on a full device");
        return;
    }
    let mut command = Command::new(env!("CARGO_BIN_EXE_keeper"));
    let table = common::corpus_folder().join("example_a.table");
    let command = command.args(["list", "-o", "/dev/full"]).arg(table);
    if let Some(ran) = as_somebody(command) {
        let message = "keeper: /dev/full: No space left on device (os error 28)\n";
        assert_eq!(String::from_utf8_lossy(&ran.stderr), message);
        assert_eq!(ran.status.code(), Some(2));
    }
    // Answers of every kind, and help.
    for line in [
        "list \"$table\"",
        "list --json \"$table\"",
        "line \"$table\"",
        "line --under 0,- \"$table\"",
        "line --marking \"$table\"",
        "what-if \"$table\"",
        "what-if --cost pairs \"$table\"",
        "stand 1.2 \"$table\"",
        "stand --json 0.2 \"$table\"",
        "draw --stand 0.2 \"$table\"",
        "decode \"$table\"",
        "send 0 1 \"$table\"",
        "receive 0 4 \"$table\"",
        "sheet \"$table\"",
        "why 0.0 \"$table\"",
        "fall-back --moves \"$table\"",
        "draw \"$table\"",
        "new 2",
        "--help",
        "help list",
        "--version",
        "completion bash",
    ] {
        let (status, _, errors) =
            shell(&format!("\"$keeper\" {line} >/dev/full"), "example_a.table");
        let message = "keeper: (standard output): No space left on device (os error 28)\n";
        assert_eq!((status, errors.as_str()), (Some(2), message), "{line}");
    }
    let lines = "echo line | \"$keeper\" run - \"$table\" >/dev/full";
    assert_eq!(shell(lines, "example_a.table").0, Some(2));
}

#[test]
fn a_closed_pipe_ends_silently() {
    // Nobody reads before the table is there.
    for (arguments, input) in [
        (&["list"][..], example_a()),
        (&["decode"], example_a()),
        (&["send", "0", "1"], example_a()),
        (&["receive", "0", "4"], example_a()),
        (&["fall-back", "--moves"], example_a()),
        (&["what-if"], example_a()),
        (&["stand", "1.2"], example_a()),
        // A refusal and a no, too, say nothing then.
        (&["list"], vec![1, 2, 3]),
        (&["what-if", "--json", "2"], example_a()),
        (&["stand", "--json", "0.2"], example_a()),
        (&["run", "-"], b"new 2\nlist\n".to_vec()),
    ] {
        let mut child = Command::new(env!("CARGO_BIN_EXE_keeper"))
            .args(arguments)
            .stdin(Stdio::piped())
            .stdout(Stdio::piped())
            .stderr(Stdio::piped())
            .spawn()
            .expect("the command starts");
        drop(child.stdout.take());
        let mut to = child.stdin.take().expect("piped");
        to.write_all(&input).expect("written");
        drop(to);
        let left = child.wait_with_output().expect("the command ends");
        assert_eq!(left.status.code(), Some(141), "{arguments:?}");
        assert_eq!(left.stderr, b"", "{arguments:?}");
    }
    // As users meet it: whether or not the rest is in the pipe already.
    let lines = "\"$keeper\" list \"$table\" | head -n 1";
    let (status, output, errors) = shell(lines, "largest_history.table");
    assert_eq!((status, errors.as_str()), (Some(0), ""));
    assert_eq!(output.lines().count(), 1);
}

#[test]
fn wrong_usage() {
    let cases: &[(&[&str], &str)] = &[
        (&[], "which subcommand? (see `keeper --help`)"),
        (
            &["keep"],
            "there is no subcommand `keep` (see `keeper --help`)",
        ),
        (
            &["--text"],
            "there is no subcommand `--text` (see `keeper --help`)",
        ),
        (
            &["send"],
            "send needs FROM and TO (see `keeper send --help`)",
        ),
        (
            &["send", "0"],
            "send needs FROM and TO (see `keeper send --help`)",
        ),
        (
            &["send", "0", "one"],
            "`one` is not a number from 0 to 65535 (see `keeper send --help`)",
        ),
        (
            &["send", "0", "65536"],
            "`65536` is not a number from 0 to 65535 (see `keeper send --help`)",
        ),
        (
            &["send", "0", "-1"],
            "send has no option `-1` (see `keeper send --help`)",
        ),
        (
            &["send", "0", "1", "a", "b"],
            "one argument too many: `b` (see `keeper send --help`)",
        ),
        (&["save"], "save needs PROCESS (see `keeper save --help`)"),
        (
            &["save", "-"],
            "`-` is not a number from 0 to 65535 (see `keeper save --help`)",
        ),
        (
            &["save", "0", "-", "1"],
            "`-` is not a number from 0 to 65535 (see `keeper save --help`)",
        ),
        (
            &["save", "0", "m4", "run.table"],
            "`m4` is not a number from 0 to 65535 (see `keeper save --help`)",
        ),
        (
            &["receive"],
            "receive needs PROCESS (see `keeper receive --help`)",
        ),
        (
            &["receive", "x"],
            "`x` is not a number from 0 to 65535 (see `keeper receive --help`)",
        ),
        (
            &["receive", "0", "m4", "run.table"],
            "`m4` is not a number from 0 to 65535 (see `keeper receive --help`)",
        ),
        (
            &["receive", "0", "65536"],
            "`65536` is not a number from 0 to 65535 (see `keeper receive --help`)",
        ),
        (
            &["line", "all", "run.table"],
            "`all` is not a number from 0 to 65535 (see `keeper line --help`)",
        ),
        (
            &["list", "a", "b"],
            "one argument too many: `b` (see `keeper list --help`)",
        ),
        (
            &["list", "--text-out"],
            "list has no option `--text-out` (see `keeper list --help`)",
        ),
        (
            &["encode", "--text"],
            "encode has no option `--text` (see `keeper encode --help`)",
        ),
        (
            &["decode", "-o"],
            "-o needs FILE (see `keeper decode --help`)",
        ),
        (
            &["decode", "-o", "a", "-o", "b"],
            "-o stands twice (see `keeper decode --help`)",
        ),
    ];
    for (arguments, message) in cases {
        fails(arguments, &example_a(), 2, message);
    }
}

#[test]
fn options_and_their_values() {
    let a = example_a();
    let (one, table) = (fresh("options.svg"), fresh("options.table"));
    let drawn = done(&["draw", "--hold", "1"], &a);
    for arguments in [
        &["draw", "--hold=1"][..],
        &["draw", "--hold=1", "--"],
        &["draw", "--hold", "1", "-"],
        &["draw", "-o-", "--hold=1"],
        &["draw", "-o", "-", "--hold=1"],
    ] {
        assert_eq!(done(arguments, &a), drawn, "{arguments:?}");
    }
    let title = done(&["draw", "--title", "a=b"], &a);
    assert_eq!(done(&["draw", "--title=a=b"], &a), title);
    // An empty value is one.
    assert_eq!(
        done(&["draw", "--title="], &a),
        done(&["draw", "--title", ""], &a)
    );
    for arguments in [
        &["draw", "--hold=1", &format!("-o{one}")][..],
        &["draw", "--hold", "1", "-o", &one],
    ] {
        let _ = fs::remove_file(&one);
        assert_eq!(done(arguments, &a), b"");
        assert_eq!(fs::read(&one).expect("read"), drawn);
    }
    // Behind `--` nothing is an option.
    fs::write(&table, &a).expect("written");
    assert_eq!(done(&["list", "--", &table], b""), done(&["list"], &a));
    let message = "--json: No such file or directory (os error 2)";
    fails(&["list", "--", "--json"], &a, 2, message);
    let cases: &[(&[&str], &str)] = &[
        (
            &["list", "--text=yes"],
            "--text takes no value (see `keeper list --help`)",
        ),
        (
            &["list", "--json="],
            "--json takes no value (see `keeper list --help`)",
        ),
        (
            &["list", "--no=1"],
            "list has no option `--no` (see `keeper list --help`)",
        ),
        (
            &["list", "-x"],
            "list has no option `-x` (see `keeper list --help`)",
        ),
        (
            &["list", "-\u{e9}"],
            "list has no option `-\u{e9}` (see `keeper list --help`)",
        ),
        (
            &["list", "-hx"],
            "-h stands alone (see `keeper list --help`)",
        ),
        (
            &["draw", "--hold="],
            "`` is neither a number nor `all` (see `keeper draw --help`)",
        ),
        (
            &["draw", "--hold=1", "--hold=1"],
            "--hold stands twice (see `keeper draw --help`)",
        ),
        (
            &["list", "-oa", "-ob"],
            "-o stands twice (see `keeper list --help`)",
        ),
        (
            &["check", "-o", "x"],
            "check has no option `-o` (see `keeper check --help`)",
        ),
        (
            &["completion"],
            "completion needs SHELL (see `keeper completion --help`)",
        ),
        (
            &["completion", "fish"],
            "`fish` is not `bash` or `zsh` (see `keeper completion --help`)",
        ),
        (
            &["help", "keep"],
            "there is no subcommand `keep` (see `keeper --help`)",
        ),
        (
            &["help", "list", "x"],
            "one argument too many: `x` (see `keeper help --help`)",
        ),
        (&["-x"], "there is no subcommand `-x` (see `keeper --help`)"),
    ];
    for (arguments, message) in cases {
        fails(arguments, &a, 2, message);
    }
}

#[test]
fn help_and_version() {
    let help = String::from_utf8(done(&["--help"], b"")).expect("UTF-8");
    assert_eq!(done(&["-h"], b""), help.as_bytes());
    assert_eq!(done(&["help"], b""), help.as_bytes());
    for row in SUBCOMMANDS {
        let name = row.name;
        assert!(help.contains(&format!("\n  {name}")), "{name}");
        let own = String::from_utf8(done(&[name, "--help"], b"")).expect("UTF-8");
        assert!(own.starts_with(&format!("usage: keeper {name} ")), "{own}");
        assert_eq!(done(&[name, "-h", "--no-such"], b""), own.as_bytes());
        assert_eq!(done(&["help", name], b""), own.as_bytes());
        for option in row.options {
            for option in option.names {
                assert!(own.contains(option), "{own}");
            }
        }
        for line in own.lines().chain(help.lines()) {
            assert!(
                line.chars().count() <= 90 && line.trim_end() == line,
                "{line}"
            );
        }
    }
    let version = concat!("keeper ", env!("CARGO_PKG_VERSION"), "\n");
    assert_eq!(done(&["--version"], b""), version.as_bytes());
    assert_eq!(done(&["-V"], b""), version.as_bytes());
    // What a fall back does to numbers and positions.
    let own = String::from_utf8(done(&["help", "fall-back"], b"")).expect("UTF-8");
    let own = own.replace('\n', " ");
    assert!(
        own.contains("store them by an identity of your own"),
        "{own}"
    );
}
