//! `keeper why`: what it says agrees with the listings of the corpus, which
//! another implementation gives, and its futures are followed step by step.

mod common;

use common::{bytes, corpus, done, example_a, fails, fresh, keeper, refused};
use keeper::{Message, Refusal, Table};
use keeper_command::why::{Item, Reasons};

/// Whether a line needs it, by the format's document.
fn needs(table: &Table, line: &[u16], item: Item) -> bool {
    match item {
        Item::Checkpoint { process, number } => line[usize::from(process)] == number,
        Item::Message(position) => {
            let Message {
                sender,
                sent,
                receiver,
                received,
                ..
            } = table.message(position).expect("there");
            let received = received.map_or(0, |number| number.get());
            sent < line[usize::from(sender)]
                && (received == 0 || received > line[usize::from(receiver)])
        }
    }
}

fn numbers(line: &str) -> Vec<u16> {
    let fields = line
        .split(' ')
        .map(|field| field.parse().expect("a number"));
    fields.collect()
}

/// What a script says and shows.
#[derive(Debug, PartialEq, Eq)]
enum Told {
    Executed,
    NotExecuted,
    NotKept,
}

/// Follows a script by the library's calls, and wants each line to be the one
/// that is told behind it.
fn follow(table: &Table, item: Item, script: &str) -> Told {
    let mut now = table.clone();
    let (mut last, mut lines) = (Vec::new(), 0);
    let mut rows = script.lines().peekable();
    let head = rows.next().expect("a row");
    while let Some(row) = rows.next() {
        if row.starts_with('#') {
            continue;
        }
        match row.split_once(' ').unwrap_or((row, "")) {
            ("save", process) => {
                let process = process.parse().expect("a process");
                now.save(process, &[]).expect("a save that is told is made");
            }
            ("line", holders) => {
                last = match holders {
                    "" => now.recovery_line().to_vec(),
                    _ => {
                        let set = numbers(holders).iter().fold(0, |set, p| set | 1 << p);
                        now.line_of_set(set).expect("processes").to_vec()
                    }
                };
                let told = rows.next().expect("the line").trim_start_matches("# ");
                let told = told.split(':').next().expect("numbers");
                assert_eq!(numbers(told), last, "{script}");
                lines += 1;
                let passed = head.contains(" is not kept: ");
                assert_eq!(needs(&now, &last, item), !passed, "{script}");
            }
            _ => panic!("{script}"),
        }
    }
    if head.contains(" is not kept: ") {
        assert_eq!(lines, table.processes(), "{script}");
        assert!(script.contains("nothing-off-the-sheet-is-needed"));
        return Told::NotKept;
    }
    assert!(head.contains(" is kept: "), "{script}");
    if script.contains("not executed") {
        return Told::NotExecuted;
    }
    assert_eq!((lines, last), (1, now.recovery_line().to_vec()), "{script}");
    Told::Executed
}

/// All checkpoints and messages of a table.
fn items(table: &Table) -> Vec<Item> {
    let mut items = Vec::new();
    for (process, count) in table.counts().enumerate() {
        items.extend((0..count).map(|number| Item::Checkpoint {
            process: process as u16,
            number,
        }));
    }
    items.extend((0..table.messages().len()).map(|position| Item::Message(position as u16)));
    items
}

/// The row that a listing has of it where it is kept.
fn row(item: Item) -> String {
    match item {
        Item::Checkpoint { process, number } => format!("checkpoint {process} {number}"),
        Item::Message(position) => format!("message {position}"),
    }
}

#[test]
fn agrees_with_the_listings_of_the_corpus() {
    let (mut kept, mut not_kept, mut not_executed) = (0, 0, 0);
    for case in corpus() {
        if refused(&case.listing).is_some() {
            continue;
        }
        let listing = String::from_utf8(case.listing).expect("ASCII");
        let rows: std::collections::HashSet<&str> = listing.lines().collect();
        let table = Table::from_bytes(case.table).expect("accepted");
        let reasons = Reasons::of(table.clone());
        let items = items(&table);
        // Of a large table all that is kept, and some of the rest.
        let stride = items.len() / 2_000 + 1;
        for (place, item) in items.into_iter().enumerate() {
            let on = rows.contains(row(item).as_str());
            if !on && place % stride != 0 {
                continue;
            }
            let script = reasons.script(item, false).expect("there");
            let told = follow(&table, item, &script);
            assert_eq!(told != Told::NotKept, on, "{}: {script}", case.name);
            match told {
                Told::Executed => kept += 1,
                Told::NotKept => not_kept += 1,
                Told::NotExecuted => {
                    assert!(table.counts().any(|count| count == 4096), "{}", case.name);
                    not_executed += 1;
                }
            }
        }
    }
    assert!(kept > 3_000 && not_kept > 10_000, "{kept} {not_kept}");
    assert!(not_executed > 0, "{not_executed}");
}

/// Every table with that many processes, at most so many checkpoints of each
/// and at most two messages, received and not saved yet among them, in order where
/// they are of one channel.
fn small(n: u16, most: u16) -> Vec<Table> {
    let mut heads: Vec<Vec<u16>> = vec![vec![]];
    for _ in 0..n {
        heads = heads
            .iter()
            .flat_map(|head| (1..=most).map(|count| [&head[..], &[count]].concat()))
            .collect();
    }
    let mut tables = Vec::new();
    for counts in heads {
        let mut entries = Vec::new();
        for sender in 0..n {
            for receiver in (0..n).filter(|receiver| *receiver != sender) {
                for sent in 0..counts[usize::from(sender)] {
                    for received in 0..=counts[usize::from(receiver)] {
                        entries.push(([sender, sent], [receiver, received]));
                    }
                }
            }
        }
        let mut add = |messages: &[&([u16; 2], [u16; 2])]| {
            let sends = messages.iter().flat_map(|(send, _)| *send);
            let receipts = messages.iter().flat_map(|(_, receipt)| *receipt);
            let head = [n, messages.len() as u16].into_iter().chain(counts.clone());
            let numbers: Vec<u16> = head.chain(sends).chain(receipts).collect();
            match Table::from_bytes(bytes(&numbers)) {
                Ok(table) => tables.push(table),
                Err(refusal) => assert_eq!(refusal, Refusal::ChannelOutOfOrder),
            }
        };
        add(&[]);
        for one in &entries {
            add(&[one]);
            for other in &entries {
                add(&[one, other]);
            }
        }
    }
    tables
}

#[test]
fn every_small_table() {
    let tables: Vec<Table> = [small(1, 3), small(2, 3), small(3, 2)].concat();
    assert!(tables.len() > 2_500, "{}", tables.len());
    let mut beyond = 0;
    for table in tables {
        let sheet = table.keep_sheet();
        let reasons = Reasons::of(table.clone());
        for item in items(&table) {
            let on = match item {
                Item::Checkpoint { process, number } => sheet.has_checkpoint(process, number),
                Item::Message(position) => sheet.has_message(position),
            };
            let script = reasons.script(item, false).expect("there");
            let expected = if on { Told::Executed } else { Told::NotKept };
            assert_eq!(follow(&table, item, &script), expected, "{script}");
            beyond += usize::from(script.contains("No line of a single holder needs it"));
        }
    }
    assert!(beyond > 0, "{beyond}");
}

#[test]
fn example_a_in_words() {
    let a = example_a();
    let text = |arguments: &[&str]| String::from_utf8(done(arguments, &a)).expect("UTF-8");
    assert_eq!(
        text(&["why", "1.2"]),
        "\
# Checkpoint 1.2 is kept: a future needs it.
# The line of process 1 alone holding needs it.
# Its steps, from this table on:
save 0
line
# 3 2
# This recovery line at its end has checkpoint 2 of process 1.
"
    );
    assert_eq!(
        text(&["why", "0.2"]),
        "\
# Checkpoint 0.2 is not kept: no future needs it.
# The line of each process that alone holds passes it by:
line 0
# 1 1: process 0 stands at 1
line 1
# 3 2: process 0 stands at 3, the virtual checkpoint
# It is proved that no future needs what these lines pass by: docs/ASSURANCE.md,
# demand-3 and nothing-off-the-sheet-is-needed.
"
    );
    assert_eq!(
        text(&["why", "m2"]),
        "\
# Message 2 (1.1 -> 0.2) is not kept: no future needs it.
# The line of each process that alone holds passes it by:
line 0
# 1 1: sent after it: process 1 stands at 1, and 1 is not below that
line 1
# 3 2: received before it: process 0 stands at 3, and 2 is not above that
# It is proved that no future needs what these lines pass by: docs/ASSURANCE.md,
# demand-3 and nothing-off-the-sheet-is-needed.
"
    );
    assert!(text(&["why", "m0"]).contains("\n# The future without a step,"));
    // The tables in between, and a text read.
    let shown = text(&["why", "--text-out", "1.2"]);
    let after = String::from_utf8(done(&["save", "--text-out", "0"], &a)).expect("UTF-8");
    let commented: String = after
        .lines()
        .map(|line| format!("#     {line}\n"))
        .collect();
    assert!(
        shown.contains(&format!("save 0\n{commented}line\n")),
        "{shown}"
    );
    let text_of_a = done(&["decode"], &a);
    assert_eq!(
        done(&["why", "--text", "1.2"], &text_of_a),
        shown.as_bytes()
    );
    assert_eq!(
        done(&["why", "--text-in", "m2"], &text_of_a),
        text(&["why", "m2"]).as_bytes()
    );
}

#[test]
fn a_waiting_message_beyond_both_lines() {
    let table = bytes(&[2, 2, 2, 1, 1, 0, 0, 1, 0, 1, 1, 0]);
    let script = String::from_utf8(done(&["why", "m1"], &table)).expect("UTF-8");
    assert_eq!(
        script,
        "\
# Message 1 (0.1 -> 1 waiting) is kept: a future needs it.
# No line of a single holder needs it; it is kept since it waits.
# Its steps, from this table on:
save 0
save 1
line
# 2 1
# This recovery line at its end is crossed by it: sent by process 0 before the line,
# not received by process 1 before the line.
"
    );
}

/// What is received and not saved is kept where a line needs it, and else not.
#[test]
fn a_message_that_is_not_saved() {
    // Two processes, of which one has saved after sending: message 0 crosses the
    // line of process 1 holding.
    let text = "processes 2\nstates 2 1\nmessage 0.0 -> 1.1 unsaved\n";
    let script = done(&["why", "--text-in", "m0"], text.as_bytes());
    assert_eq!(
        String::from_utf8(script).expect("UTF-8"),
        "\
# Message 0 (0.0 -> 1.1 unsaved) is kept: a future needs it.
# The line of process 1 alone holding needs it.
# The future without a step, which begins and ends with this table:
line
# 1 0
# This recovery line at its end is crossed by it: sent by process 0 before the line,
# not received by process 1 before the line.
"
    );
    // A message each way: neither process can go on where the other holds.
    let text = "processes 2\nstates 1 1\nmessage 0.0 -> 1.1\nmessage 1.0 -> 0.1\n";
    let script = done(&["why", "--text-in", "m1"], text.as_bytes());
    assert_eq!(
        String::from_utf8(script).expect("UTF-8"),
        "\
# Message 1 (1.0 -> 0.1 unsaved) is not kept: no future needs it.
# The line of each process that alone holds passes it by:
line 0
# 0 0: sent after it: process 1 stands at 0, and 0 is not below that
line 1
# 0 0: sent after it: process 1 stands at 0, and 0 is not below that
# It is proved that no future needs what these lines pass by: docs/ASSURANCE.md,
# demand-3 and nothing-off-the-sheet-is-needed.
"
    );
    // A process that stands at its virtual checkpoint has received it.
    let text = "processes 3\nstates 1 1 1\nmessage 0.0 -> 1.1\nmessage 1.0 -> 0.1\n";
    let script = done(&["why", "--text-in", "m0"], text.as_bytes());
    let script = String::from_utf8(script).expect("UTF-8");
    assert!(
        script.contains(
            "\nline 1\n# 0 0 1: sent after it: process 0 stands at 0, and 0 is not below that\n\
             line 2\n# 1 1 0: received before it: process 1 stands at 1, the virtual checkpoint, which has received it\n"
        ),
        "{script}"
    );
    // Kept by the line of a third that holds.
    let text =
        "processes 3\nstates 1 1 2\nmessage 0.0 -> 1.1\nmessage 1.0 -> 0.1\nmessage 2.0 -> 1.1\n";
    let script = done(&["why", "--text", "m2"], text.as_bytes());
    let script = String::from_utf8(script).expect("UTF-8");
    assert!(
        script.starts_with("# Message 2 (2.0 -> 1.1 unsaved) is kept: a future needs it.\n"),
        "{script}"
    );
    let again = done(&["why", "--text-in", "m2"], text.as_bytes());
    let table = fresh("unsaved.table");
    done(&["encode", "-o", &table], text.as_bytes());
    assert_eq!(done(&["run", "-", &table], &again), b"0 0 1\n");
}

#[test]
fn what_the_limit_on_checkpoints_stops_is_said() {
    // Only a save of process 0, which has all it can have, would show it.
    let table = bytes(&[2, 1, 4096, 1, 0, 4095, 1, 0]);
    let mut full = Table::from_bytes(table.clone()).expect("accepted");
    assert_eq!(full.save(0, &[]), Err(Refusal::TableFull));
    let script = String::from_utf8(done(&["why", "m0"], &table)).expect("UTF-8");
    assert_eq!(
        script,
        "\
# Message 0 (0.4095 -> 1 waiting) is kept: a future needs it.
# The line of process 1 alone holding needs it.
# In it every process but 1 saves once, with an empty list.
# It was not executed: process 0 has 4096 checkpoints, and the library takes
# no more (refusal 14); futures know no such limit.
# The recovery line at its end, that of process 1 holding, by the call for sets:
line 1
# 4096 0
# It is crossed by it: sent by process 0 before the line,
# not received by process 1 before the line.
"
    );
    // Only all saving would show it.
    let table = bytes(&[2, 2, 4096, 1, 1, 0, 0, 4095, 0, 4095, 1, 0]);
    let script = String::from_utf8(done(&["why", "m1"], &table)).expect("UTF-8");
    assert!(
        script.contains("# In it every process saves once,")
            && script.contains("that of no process holding")
            && script.contains("\n# 4096 1\n"),
        "{script}"
    );
    // One checkpoint less, and it is executed.
    let table = bytes(&[2, 1, 4095, 1, 0, 4094, 1, 0]);
    let script = String::from_utf8(done(&["why", "m0"], &table)).expect("UTF-8");
    assert!(script.contains("\nsave 0\nline\n# 4095 0\n"), "{script}");
}

#[test]
fn the_script_is_run_by_the_command() {
    let path = common::corpus_folder().join("example_a.table");
    let path = path.to_str().expect("UTF-8");
    let again = |item: &str| {
        let script = done(&["why", item, path], b"");
        String::from_utf8(done(&["run", "-", path], &script)).expect("UTF-8")
    };
    assert_eq!(again("1.2"), "3 2\n");
    assert_eq!(again("0.2"), "1 1\n3 2\n");
    assert_eq!(again("m4"), "3 3\n");
}

#[test]
fn what_is_not_there() {
    let a = example_a();
    let cases = [
        (
            "1.3",
            1,
            "there is no checkpoint 3 of process 1: it has 3 checkpoints",
        ),
        ("2.0", 1, "there is no process 2 (N is 2)"),
        ("65535.65535", 1, "there is no process 65535 (N is 2)"),
        ("m5", 1, "there is no message 5: the table has 5"),
        (
            "1",
            2,
            "`1` is neither a checkpoint, such as 1.2, nor a message, such as m4 (see `keeper why --help`)",
        ),
        (
            "m65536",
            2,
            "`m65536` is neither a checkpoint, such as 1.2, nor a message, such as m4 (see `keeper why --help`)",
        ),
    ];
    for (item, status, message) in cases {
        fails(&["why", item], &a, status, message);
    }
    let one = bytes(&[1, 0, 1]);
    fails(
        &["why", "m0"],
        &one,
        1,
        "there is no message 0: the table has none",
    );
    let message = "there is no checkpoint 1 of process 0: it has 1 checkpoint";
    fails(&["why", "0.1"], &one, 1, message);
    fails(&["why"], &a, 2, "why needs ITEM (see `keeper why --help`)");
    assert_eq!(keeper(&["why", "0.0"], &a[..47]).status, 1);
}
