//! `keeper stand`: its lines, and its paths beside a checker of Definition 1 and a
//! search by rounds, both written here; messages, exit statuses and refusals.

mod common;

use std::collections::BTreeSet;
use std::fs;

use common::{bytes, corpus, done, example_a, fails, fresh, keeper, refused, refuses, Ran, Random};
use keeper::{Checkpoint, Table};
use keeper_command::stand::Path;

fn checkpoint(process: u16, number: u16) -> Checkpoint {
    Checkpoint { process, number }
}

/// A received message as the definition takes it: sender and interval of the send,
/// receiver and interval of the receipt. Interval i of a process begins at its
/// checkpoint i; the receipt of number r lies in interval r - 1.
#[derive(Clone, Copy)]
struct Sent {
    from: u16,
    sent_in: u16,
    to: u16,
    received_in: u16,
}

/// The message at a position of the table's bytes, where it was received.
fn sent(table: &[u8], position: u16) -> Option<Sent> {
    let k = usize::from(position);
    let number = keeper::run_table::received(table, k);
    (number > 0).then(|| Sent {
        from: keeper::run_table::sender(table, k),
        sent_in: keeper::run_table::sent(table, k),
        to: keeper::run_table::receiver(table, k),
        received_in: number - 1,
    })
}

/// Whether these messages, in this order, are a zigzag path from one checkpoint to
/// the other: Definition 1.
fn is_path(table: &[u8], from: Checkpoint, to: Checkpoint, messages: &[u16]) -> bool {
    let there = messages
        .iter()
        .all(|position| *position < keeper::run_table::messages(table));
    let path: Option<Vec<Sent>> = messages.iter().map(|one| sent(table, *one)).collect();
    let (true, Some(path)) = (there, path) else {
        return false;
    };
    let (Some(first), Some(last)) = (path.first(), path.last()) else {
        return false;
    };
    // Sent after the first checkpoint: in its interval or later.
    let begins = first.from == from.process && first.sent_in >= from.number;
    let goes_on = path
        .windows(2)
        .all(|two| two[1].from == two[0].to && two[1].sent_in >= two[0].received_in);
    // Received before the second: in an interval before its own.
    let ends = last.to == to.process && last.received_in < to.number;
    begins && goes_on && ends
}

/// The fewest messages of a zigzag path between two of the named checkpoints: by
/// rounds, each with the messages that some path of so many ends with.
fn fewest(table: &[u8], named: &[Checkpoint]) -> Option<usize> {
    let all = 0..keeper::run_table::messages(table);
    let all: Vec<Sent> = all.filter_map(|position| sent(table, position)).collect();
    let mut round: BTreeSet<usize> = (0..all.len())
        .filter(|k| {
            let mut named = named.iter();
            named.any(|one| all[*k].from == one.process && all[*k].sent_in >= one.number)
        })
        .collect();
    // A shortest path has no message twice.
    for length in 1..=all.len() {
        let ends = |k: &usize| {
            let mut named = named.iter();
            named.any(|one| all[*k].to == one.process && all[*k].received_in < one.number)
        };
        if round.iter().any(ends) {
            return Some(length);
        }
        let next = |k: &usize| {
            let mut before = round.iter().map(|one| all[*one]);
            before.any(|one| one.to == all[*k].from && all[*k].sent_in >= one.received_in)
        };
        round = (0..all.len()).filter(next).collect();
    }
    None
}

#[test]
fn the_checker_of_paths_checks() {
    // 0.2 -> 1.2, 1.1 -> 0.2 and a message that waits; of example A's, 3, 2 and 4.
    let a = example_a();
    let own = checkpoint(0, 2);
    assert!(is_path(&a, own, own, &[3, 2]));
    for not in [
        &[][..],
        &[2, 3],
        &[3],
        &[2],
        &[3, 4],
        &[4],
        &[3, 5],
        &[3, 2, 2],
        &[65_535],
    ] {
        assert!(!is_path(&a, own, own, not), "{not:?}");
    }
    assert!(!is_path(&a, checkpoint(0, 3), own, &[3, 2]));
    assert!(!is_path(&a, own, checkpoint(0, 1), &[3, 2]));
    assert!(!is_path(&a, checkpoint(1, 2), own, &[3, 2]));
    assert!(!is_path(&a, own, checkpoint(1, 2), &[3, 2]));
    assert!(is_path(&a, checkpoint(0, 0), checkpoint(0, 2), &[3, 2]));
    assert!(is_path(&a, own, checkpoint(1, 2), &[3]));
    assert_eq!(fewest(&a, &[own]), Some(2));
    assert_eq!(fewest(&a, &[own, checkpoint(1, 2)]), Some(1));
    assert_eq!(fewest(&a, &[checkpoint(1, 2)]), None);
    assert_eq!(fewest(&a, &[]), None);
    // One interval less, and it is none: counts 2 and 2, 0.1 -> 1.2 and 1.0 -> 0.1.
    let less = bytes(&[2, 2, 2, 2, 0, 1, 1, 0, 1, 2, 0, 1]);
    assert!(!is_path(&less, checkpoint(0, 1), checkpoint(0, 1), &[0, 1]));
    assert_eq!(fewest(&less, &[checkpoint(0, 1)]), None);
}

/// Names by chance: of each process none or one; or of one or two processes alone,
/// between which paths are longer.
fn some_names(random: &mut Random, table: &Table) -> Vec<Checkpoint> {
    let n = usize::from(table.processes());
    let chosen: BTreeSet<usize> = match random.below(2) {
        0 => (0..n).filter(|_| random.below(2) == 0).collect(),
        _ => [random.below(n), random.below(n)].into(),
    };
    let number = |process: usize| random.below(table.count(process as u16).into());
    let numbers: Vec<usize> = chosen.iter().copied().map(number).collect();
    let pairs = chosen.into_iter().zip(numbers);
    pairs
        .map(|(process, number)| checkpoint(process as u16, number as u16))
        .collect()
}

/// The library and the search on some names; how many messages the path has, where
/// the answer is a no.
fn agree(table: &Table, named: &[Checkpoint]) -> Option<usize> {
    let path = Path::shortest(table, named);
    let line = table.stand_together(named).expect("not refused");
    assert_eq!(line.is_none(), path.is_some(), "{table:?}, {named:?}");
    let few = fewest(table.as_bytes(), named);
    assert_eq!(few, path.as_ref().map(|path| path.messages.len()));
    let path = path?;
    let ends = named.contains(&path.from) && named.contains(&path.to);
    assert!(ends, "{table:?}, {named:?}, {path:?}");
    assert!(
        is_path(table.as_bytes(), path.from, path.to, &path.messages),
        "{table:?}, {named:?}, {path:?}"
    );
    few
}

#[test]
fn a_path_just_where_the_answer_is_no() {
    let mut random = Random(5);
    let (mut yes, mut lengths) = (0, [0; 12]);
    let mut tried = |table: Vec<u8>, random: &mut Random| {
        let table = Table::from_bytes(table).expect("accepted");
        for _ in 0..10 {
            match agree(&table, &some_names(random, &table)) {
                None => yes += 1,
                Some(length) => lengths[length.min(11)] += 1,
            }
        }
    };
    for round in 0..8_000 {
        let table = match round % 4 {
            0 => random.table(2, 6, 3),
            1 => random.table(4, 10, 4),
            2 => random.table(24, 40, 2),
            _ => {
                let n = 2 + random.below(5);
                random.history(n, 30)
            }
        };
        tried(table, &mut random);
    }
    for case in corpus() {
        if refused(&case.listing).is_none() && case.table.len() < 4_000 {
            tried(case.table, &mut random);
        }
    }
    // Paths of one message, of several and of many.
    assert!(yes > 5_000 && lengths[1] > 1_000, "{yes} {lengths:?}");
    assert!(lengths[2..5].iter().all(|some| *some > 50), "{lengths:?}");
    assert!(lengths[5..].iter().sum::<usize>() > 20, "{lengths:?}");
}

/// What the message of a no says: the checkpoints that it joins, and its messages by
/// position and ends.
fn told(ran: &Ran) -> (Checkpoint, Checkpoint, Vec<(u16, String)>) {
    let text = ran.errors.strip_prefix("keeper: no: ").expect("a no");
    let (off, path) = text
        .split_once(": a zigzag path leads from ")
        .expect("a path");
    let (ends, messages) = path.trim_end().split_once(" by ").expect("messages");
    let read = |text: &str| {
        let (process, number) = text.split_once('.').expect("a point");
        let digits = |digits: &str| digits.parse().expect("a number");
        checkpoint(digits(process), digits(number))
    };
    let (from, to) = ends.split_once(" to ").expect("two ends");
    let (expected, to) = match to {
        "itself" => (format!("{from} is on no consistent line"), from),
        _ => (
            format!("{from} and {to} are on no consistent line together"),
            to,
        ),
    };
    assert_eq!(off, expected, "{text}");
    let messages = messages.split(", then ").map(|message| {
        let message = message.strip_prefix("message ").expect("a message");
        let (position, ends) = message.split_once(" (").expect("its ends");
        let ends = ends.strip_suffix(')').expect("their end");
        (position.parse().expect("a position"), ends.to_string())
    });
    (read(from), read(to), messages.collect())
}

/// The same by the command, as people meet it: names in any order, some twice.
#[test]
fn the_command_tells_it() {
    let mut random = Random(23);
    let (mut yes, mut no) = (0, 0);
    for round in 0..400 {
        let table = match round % 2 {
            0 => random.table(4, 8, 3),
            _ => random.history(3, 25),
        };
        let run = Table::from_bytes(&table[..]).expect("accepted");
        let named = some_names(&mut random, &run);
        let mut words: Vec<String> = named
            .iter()
            .map(|one| format!("{}.{}", one.process, one.number))
            .collect();
        if random.below(2) == 0 {
            words.reverse();
        }
        if let Some(word) = words.last().cloned().filter(|_| random.below(2) == 0) {
            words.insert(0, word);
        }
        let arguments: Vec<&str> = ["stand"]
            .into_iter()
            .chain(words.iter().map(String::as_str))
            .collect();
        let ran = keeper(&arguments, &table);
        match run.stand_together(&named).expect("not refused") {
            Some(line) => {
                assert_eq!(ran.status, 0, "{words:?}: {ran:?}");
                let written = String::from_utf8(ran.output).expect("ASCII");
                assert_eq!(written, format!("{line}\n"), "{words:?}");
                yes += 1;
            }
            None => {
                assert_eq!((ran.status, &ran.output[..]), (3, &b""[..]), "{words:?}");
                let (from, to, messages) = told(&ran);
                assert!(named.contains(&from) && named.contains(&to), "{ran:?}");
                let positions: Vec<u16> = messages.iter().map(|(one, _)| *one).collect();
                assert!(is_path(&table, from, to, &positions), "{ran:?}");
                assert_eq!(Some(positions.len()), fewest(&table, &named), "{ran:?}");
                let text = String::from_utf8(done(&["decode"], &table)).expect("ASCII");
                let lines: Vec<&str> = text.lines().skip(2).collect();
                for (position, ends) in messages {
                    let line = lines[usize::from(position)];
                    assert_eq!(line, format!("message {ends}"), "{ran:?}");
                }
                no += 1;
            }
        }
    }
    assert!(yes > 100 && no > 80, "{yes} {no}");
}

#[test]
fn example_a_in_words() {
    let a = example_a();
    for (names, line) in [
        (&[][..], "3 3"),
        (&["-"], "3 3"),
        (&["0.0"], "0 1"),
        (&["0.1"], "1 1"),
        (&["1.1"], "1 1"),
        (&["1.2"], "3 2"),
        (&["1.2", "-"], "3 2"),
        (&["0.1", "1.1"], "1 1"),
        (&["1.1", "0.1"], "1 1"),
        (&["1.1", "0.1", "1.1", "0.1"], "1 1"),
        (&["0.0", "1.1"], "0 1"),
        (&["0.00", "01.1"], "0 1"),
    ] {
        let arguments = [&["stand"], names].concat();
        let written = String::from_utf8(done(&arguments, &a)).expect("ASCII");
        assert_eq!(written, format!("{line}\n"), "{names:?}");
    }
    for (names, message) in [
        (
            &["0.2"][..],
            "no: 0.2 is on no consistent line: a zigzag path leads from 0.2 to itself by message 3 (0.2 -> 1.2), \
             then message 2 (1.1 -> 0.2)",
        ),
        // Of two paths the shorter.
        (
            &["0.2", "1.2"],
            "no: 0.2 and 1.2 are on no consistent line together: a zigzag path leads from 0.2 to 1.2 by message 3 \
             (0.2 -> 1.2)",
        ),
        (
            &["1.0", "0.1"],
            "no: 1.0 and 0.1 are on no consistent line together: a zigzag path leads from 1.0 to 0.1 by message 1 \
             (1.0 -> 0.1)",
        ),
        // Of two as short the one whose message stands first.
        (
            &["0.0", "1.2"],
            "no: 0.0 and 1.2 are on no consistent line together: a zigzag path leads from 0.0 to 1.2 by message 0 \
             (0.0 -> 1.2)",
        ),
    ] {
        fails(&[&["stand"], names].concat(), &a, 3, message);
    }
    // A file, a text, and a file whose name is that of a checkpoint.
    let path = common::corpus_folder().join("example_a.table");
    let path = path.to_str().expect("UTF-8");
    assert_eq!(done(&["stand", "1.2", path], b""), b"3 2\n");
    let text = done(&["decode"], &a);
    assert_eq!(done(&["stand", "--text", "1.2"], &text), b"3 2\n");
    assert_eq!(done(&["stand", "1.2", "--text-in", "-"], &text), b"3 2\n");
    assert_eq!(done(&["stand", "--", "1.2"], &a), b"3 2\n");
    let folder = fresh("a folder of names");
    let _ = fs::remove_dir_all(&folder);
    fs::create_dir(&folder).expect("created");
    let named = format!("{folder}/0.2");
    fs::write(&named, &a).expect("written");
    assert_eq!(done(&["stand", "1.2", &named], b""), b"3 2\n");
}

/// The smallest zigzag path that is no chain of cause and effect, and how the
/// receipt that is not saved yet takes part.
#[test]
fn a_checkpoint_that_is_on_no_line() {
    let d = "processes 2\nstates 2 2\nmessage 0.1 -> 1.1\nmessage 1.0 -> 0.1\n";
    let message = "no: 0.1 is on no consistent line: a zigzag path leads from 0.1 to itself by message 0 (0.1 -> 1.1), \
                   then message 1 (1.0 -> 0.1)";
    fails(&["stand", "--text", "0.1"], d.as_bytes(), 3, message);
    for name in ["0.0", "1.0", "1.1"] {
        done(&["stand", "--text", name], d.as_bytes());
    }
    let unsaved = "processes 2\nstates 2 1\nmessage 0.1 -> 1.1 unsaved\nmessage 1.0 -> 0.1\n";
    let message =
        "no: 0.1 is on no consistent line: a zigzag path leads from 0.1 to itself by message 0 \
                   (0.1 -> 1.1 unsaved), then message 1 (1.0 -> 0.1)";
    fails(&["stand", "--text", "0.1"], unsaved.as_bytes(), 3, message);
    let waiting = "processes 2\nstates 2 1\nmessage 0.1 -> 1 waiting\nmessage 1.0 -> 0.1\n";
    let line = done(&["stand", "--text", "0.1"], waiting.as_bytes());
    assert_eq!(line, b"1 1\n");
}

/// A path that has all the messages of a table that has as many as it can.
#[test]
fn a_long_path() {
    // From 0 to 1, round and round among 1 to 30, one interval lower in each round,
    // and to 31.
    let round_message = |k: u16| {
        let (from, to) = (1 + k % 30, 1 + (k + 1) % 30);
        let sent = 4_095 - k / 30;
        [from, sent, to, if to == 1 { sent } else { sent + 1 }]
    };
    let mut messages = vec![[0, 4_095, 1, 4_096]];
    messages.extend((0..4_094).map(round_message));
    messages.push([15, 3_959, 31, 1]);
    // So each channel is in order.
    messages.reverse();
    let sends = messages.iter().flat_map(|message| message[..2].to_vec());
    let receipts = messages.iter().flat_map(|message| message[2..].to_vec());
    let head = [32, 4_096].into_iter().chain([4_096; 32]);
    let numbers: Vec<u16> = head.chain(sends).chain(receipts).collect();
    let ran = keeper(&["stand", "0.4095", "31.1"], &bytes(&numbers));
    assert_eq!((ran.status, &ran.output[..]), (3, &b""[..]));
    let (from, to, path) = told(&ran);
    assert_eq!((from, to), (checkpoint(0, 4_095), checkpoint(31, 1)));
    let positions: Vec<u16> = path.iter().map(|(position, _)| *position).collect();
    assert_eq!(positions, (0..4_096).rev().collect::<Vec<u16>>());
    let ran = keeper(&["stand", "0.4095", "31.0"], &bytes(&numbers));
    assert_eq!(ran.status, 0);
}

#[test]
fn names_that_are_refused() {
    let a = example_a();
    for (names, message) in [
        (&["2.0"][..], "refused 21: there is no process 2 (N is 2)"),
        (
            &["0.0", "2.0"],
            "refused 21: there is no process 2 (N is 2)",
        ),
        (
            &["65535.65535"],
            "refused 21: there is no process 65535 (N is 2)",
        ),
        (
            &["0.1", "0.2"],
            "refused 21: process 0 is named twice, with checkpoints 1 and 2",
        ),
        (
            &["1.2", "0.0", "1.0"],
            "refused 21: process 1 is named twice, with checkpoints 0 and 2",
        ),
        // 21 is of the whole list before 22.
        (
            &["0.9", "1.1", "1.2"],
            "refused 21: process 1 is named twice, with checkpoints 1 and 2",
        ),
        (
            &["0.9", "5.0", "5.1"],
            "refused 21: there is no process 5 (N is 2)",
        ),
        (
            &["0.3"],
            "refused 22: there is no checkpoint 3 of process 0: it has 3 checkpoints",
        ),
        (
            &["1.65535", "0.2"],
            "refused 22: there is no checkpoint 65535 of process 1: it has 3 checkpoints",
        ),
    ] {
        fails(&[&["stand"], names].concat(), &a, 1, message);
        let list = names.join(",");
        fails(&["draw", "--stand", &list], &a, 1, message);
    }
    let one = bytes(&[1, 0, 1]);
    assert_eq!(done(&["stand", "0.0"], &one), b"0\n");
    assert_eq!(done(&["stand"], &one), b"1\n");
    let message = "refused 22: there is no checkpoint 1 of process 0: it has 1 checkpoint";
    fails(&["stand", "0.1"], &one, 1, message);
}

#[test]
fn wrong_usage() {
    let a = example_a();
    let each = "each is a process and a number from 0 to 65535, such as 1.2";
    for (arguments, message) in [
        // What is no checkpoint is taken for FILE, of which there is one.
        (&["0", "2"][..], format!("`0` is no checkpoint: {each}")),
        (
            &["0.1", "m3", "-"],
            format!("`m3` is no checkpoint: {each}"),
        ),
        (
            &["0.1", "1.", "-"],
            format!("`1.` is no checkpoint: {each}"),
        ),
        (&["0.1.2", "-"], format!("`0.1.2` is no checkpoint: {each}")),
        (&["0.65536"], format!("`0.65536` is no checkpoint: {each}")),
        (&["65536.0"], format!("`65536.0` is no checkpoint: {each}")),
        (
            &["0.1", "-", "1.1"],
            format!("`-` is no checkpoint: {each}"),
        ),
        (
            &["--under", "3,3"],
            "stand has no option `--under`".to_string(),
        ),
        (&["--json=1"], "--json takes no value".to_string()),
    ] {
        let message = format!("{message} (see `keeper stand --help`)");
        fails(&[&["stand"], arguments].concat(), &a, 2, &message);
    }
    for (list, message) in [
        ("", format!("``: a checkpoint is missing: {each}")),
        ("0.1,", format!("`0.1,`: a checkpoint is missing: {each}")),
        (",0.1", format!("`,0.1`: a checkpoint is missing: {each}")),
        (
            "0.1,,1.1",
            format!("`0.1,,1.1`: a checkpoint is missing: {each}"),
        ),
        ("0.1, 1.1", format!("` 1.1` is no checkpoint: {each}")),
        ("0.1,1", format!("`1` is no checkpoint: {each}")),
        ("0.1,-", format!("`-` is no checkpoint: {each}")),
        ("+0.1", format!("`+0.1` is no checkpoint: {each}")),
    ] {
        let message = format!("{message} (see `keeper draw --help`)");
        fails(&["draw", "--stand", list], &a, 2, &message);
    }
    for (arguments, message) in [
        (&["--stand"][..], "--stand needs LIST"),
        (
            &["--stand", "0.1", "--stand", "1.1"],
            "--stand stands twice",
        ),
        (
            &["--stand", "0.1", "--hold", "1"],
            "--stand and --hold exclude each other",
        ),
        (
            &["--under", "3,3", "--stand=0.1"],
            "--stand and --under exclude each other",
        ),
    ] {
        let message = format!("{message} (see `keeper draw --help`)");
        fails(&[&["draw"], arguments].concat(), &a, 2, &message);
    }
    let message = "missing.table: No such file or directory (os error 2)";
    fails(&["stand", "0.1", "missing.table"], b"", 2, message);
}

/// A refused table is refused before the names are looked at.
#[test]
fn damaged_tables() {
    let mut tried = 0;
    for case in corpus() {
        let Some(number) = refused(&case.listing) else {
            continue;
        };
        for names in [&[][..], &["0.0"], &["0.0", "0.1"], &["99.99"]] {
            let arguments = [&["stand"], names, &[case.path.as_str()]].concat();
            refuses(&arguments, b"", number, &case.path);
        }
        tried += 1;
    }
    assert!(tried > 50, "{tried}");
    let a = example_a();
    for length in 0..a.len() {
        let ran = keeper(&["stand", "0.2"], &a[..length]);
        assert_eq!((ran.status, &ran.output[..]), (1, &b""[..]), "{length}");
    }
}

/// The file of `-o` has the line of a yes; a no leaves it alone, but for JSON.
#[test]
fn the_file_that_is_written() {
    let (a, file) = (example_a(), fresh("stand.line"));
    assert_eq!(done(&["stand", "1.2", "-o", &file], &a), b"");
    assert_eq!(fs::read(&file).expect("read"), b"3 2\n");
    let ran = keeper(&["stand", "0.2", "-o", &file], &a);
    assert_eq!((ran.status, &ran.output[..]), (3, &b""[..]));
    assert_eq!(fs::read(&file).expect("read"), b"3 2\n");
    let ran = keeper(&["stand", "0.2", "--json", "-o", &file], &a);
    assert_eq!((ran.status, &ran.output[..]), (3, &b""[..]));
    assert!(fs::read(&file)
        .expect("read")
        .starts_with(b"{\"line\":null,"));
    let ran = keeper(&["stand", "2.0", "-o", &file], &a);
    assert_eq!(ran.status, 1);
    assert!(fs::read(&file)
        .expect("read")
        .starts_with(b"{\"line\":null,"));
}
