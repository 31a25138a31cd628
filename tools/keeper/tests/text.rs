//! The text form: what is read, where errors stand, and round trips.

mod common;

use common::{bytes, corpus, done, example_a, fails, keeper, refused, refuses, Random};
use keeper::Table;
use keeper_command::text;

const TEXT_OF_A: &str = "\
processes 2
states 3 3
message 0.0 -> 1.2
message 1.0 -> 0.1
message 1.1 -> 0.2
message 0.2 -> 1.2
message 1.2 -> 0 waiting
";

#[test]
fn example_a_both_ways() {
    assert_eq!(done(&["encode"], TEXT_OF_A.as_bytes()), example_a());
    assert_eq!(done(&["decode", "-"], &example_a()), TEXT_OF_A.as_bytes());
}

/// Example A, whose last message process 0 has received and not saved.
#[test]
fn received_and_not_saved_both_ways() {
    let table = bytes(&[
        2, 5, 3, 3, 0, 0, 1, 0, 1, 1, 0, 2, 1, 2, 1, 2, 0, 1, 0, 2, 1, 2, 0, 3,
    ]);
    let text = TEXT_OF_A.replace("0 waiting", "0.3 unsaved");
    assert_eq!(done(&["decode"], &table), text.as_bytes());
    assert_eq!(done(&["encode"], text.as_bytes()), table);
    // The word may be left out, and may have blanks and a comment around it.
    for end in [
        "0.3",
        "0.3 ",
        "0.3#",
        "0.3\tunsaved",
        "0.3 \t unsaved\t# yes",
        "0.3 unsaved#",
        "0.03 unsaved",
        "0.3 unsaved\r",
    ] {
        let text = TEXT_OF_A.replace("0 waiting", end);
        assert_eq!(done(&["encode"], text.as_bytes()), table, "{end:?}");
    }
    // One that is saved has no word behind it.
    assert!(!TEXT_OF_A.contains("unsaved"));
    let saved = done(&["save", "0", "--text-out"], &table);
    let saved = String::from_utf8(saved).expect("UTF-8");
    assert!(saved.ends_with("states 4 3\nmessage 0.0 -> 1.2\nmessage 1.0 -> 0.1\nmessage 1.1 -> 0.2\nmessage 0.2 -> 1.2\nmessage 1.2 -> 0.3\n"), "{saved}");
    // The first line that is not in the form is told, and the form before checks.
    let text = "processes 2\nstates 0 2\nmessage 0.0 -> 1.2 unsaved\nmessage 1.9 -> 0.1 unsaved\n";
    let message = "(standard input):4:20: expected no `unsaved` behind receipt number 1, \
                   since the count of process 0 is 0, found `unsaved`";
    fails(&["encode"], text.as_bytes(), 2, message);
    // The largest count, and one above it, which the library refuses.
    let most = "processes 2\nstates 1 4096\nmessage 0.0 -> 1.4096 unsaved\n";
    let table = bytes(&[2, 1, 1, 4096, 0, 0, 1, 4096]);
    assert_eq!(done(&["encode"], most.as_bytes()), table);
    assert_eq!(done(&["decode"], &table), most.as_bytes());
    let more = most.replace("4096", "4097");
    let message =
        "(standard input):2: refused 5: process 1 has 4097 checkpoints, and must have 1 to 4096";
    fails(&["encode"], more.as_bytes(), 1, message);
}

#[test]
fn comments_blanks_and_line_ends() {
    let text = "\u{feff}# a run \u{2192} of two\r\n\n  processes\t02 # two\r\nstates 3  3\n \t \n\
                message 0.0->1.2\n\tmessage 1.0 ->0.1 # \u{e9}\nmessage 1.1-> 0.2\n# between\n\
                message 0.2 -> 1.2\nmessage 1.2 -> 0\twaiting#";
    assert_eq!(done(&["encode"], text.as_bytes()), example_a());
    // A comment need not be UTF-8.
    assert_eq!(
        done(&["encode"], b"#\xff\xfe\nprocesses 1\nstates 1 #\x80"),
        bytes(&[1, 0, 1])
    );
}

/// A text, and the line, the column and the words of its error.
const ERRORS: &[(&str, usize, usize, &str)] = &[
    ("", 1, 1, "`processes`, found the end of the text"),
    ("# nothing\n\n", 3, 1, "`processes`, found the end of the text"),
    ("# nothing", 2, 1, "`processes`, found the end of the text"),
    ("process 2\n", 1, 1, "`processes`, found `process`"),
    ("processes2\n", 1, 1, "`processes`, found `processes2`"),
    ("states 3 3\n", 1, 1, "`processes`, found `states`"),
    ("  \u{e9}\n", 1, 3, "`processes`, found `\u{e9}`"),
    ("processes\n", 1, 10, "the number of processes, found the end of the line"),
    ("processes   # two\n", 1, 13, "the number of processes, found a comment"),
    ("processes -2\n", 1, 11, "the number of processes, found `-`"),
    ("processes two\n", 1, 11, "the number of processes, found `two`"),
    ("processes 65536\n", 1, 11, "the number of processes of at most 65535, found `65536`"),
    ("processes 2 3\n", 1, 13, "the end of the line after the number of processes, found `3`"),
    ("processes 2x\n", 1, 12, "the end of the line after the number of processes, found `x`"),
    ("processes 2", 2, 1, "`states`, found the end of the text"),
    ("processes 2\n\n#\n", 4, 1, "`states`, found the end of the text"),
    ("processes 2\nmessage 0.0 -> 1.1\n", 2, 1, "`states`, found `message`"),
    ("processes 2\nstates 3\n", 2, 9, "the count of process 1, found the end of the line"),
    ("processes 2\n\nstates 3, 3\n", 3, 9, "the count of process 1, found `,`"),
    ("processes 2\nstates 3 99999999999999999999999\n", 2, 10, "the count of process 1 of at most 65535, found `99999999999999999999`"),
    ("processes 2\nstates 3 3 3\n", 2, 12, "the end of the line after 2 counts, found `3`"),
    ("processes 2\nstates 3 3\nprocesses 2\n", 3, 1, "`message`, found `processes`"),
    ("processes 2\nstates 3 3\nmessage\n", 3, 8, "the sender, found the end of the line"),
    ("processes 2\nstates 3 3\nmessage a\n", 3, 9, "the sender, found `a`"),
    ("processes 2\nstates 3 3\nmessage 0 -> 1\n", 3, 10, "`.` after the sender, found a blank"),
    ("processes 2\nstates 3 3\nmessage 0. 0\n", 3, 11, "the send number, found a blank"),
    ("processes 2\nstates 3 3\nmessage 0.0\n", 3, 12, "`->`, found the end of the line"),
    ("processes 2\nstates 3 3\nmessage 0.0 > 1.2\n", 3, 13, "`->`, found `>`"),
    ("processes 2\nstates 3 3\nmessage 0.0 - > 1.2\n", 3, 13, "`->`, found `-`"),
    ("processes 2\nstates 3 3\nmessage 0.0 -> \n", 3, 16, "the receiver, found the end of the line"),
    ("processes 2\nstates 3 3\nmessage 0.0 -> 1\n", 3, 17, "`.` and the receipt number, or `waiting`, found the end of the line"),
    ("processes 2\nstates 3 3\nmessage 0.0 -> 1 wait\n", 3, 18, "`.` and the receipt number, or `waiting`, found `wait`"),
    ("processes 2\nstates 3 3\nmessage 0.0 -> 1waiting\n", 3, 17, "`.` and the receipt number, or `waiting`, found `waiting`"),
    ("processes 2\nstates 3 3\nmessage 0.0 -> 1.\n", 3, 18, "the receipt number, found the end of the line"),
    ("processes 2\nstates 3 3\nmessage 0.0 -> 1.0\n", 3, 18, "a receipt number of at least 1 (of a message not received, `waiting` after the receiver), found `0`"),
    ("processes 2\nstates 3 3\nmessage 0.0 -> 1.65536\n", 3, 18, "the receipt number of at most 65535, found `65536`"),
    ("processes 2\nstates 3 3\nmessage 0.0 -> 1.2 waiting\n", 3, 20, "the end of the line after the message, found `waiting`"),
    ("processes 2\nstates 3 3\nmessage 0.0 -> 1.2 unsaved\n", 3, 20, "no `unsaved` behind receipt number 2, since the count of process 1 is 3, found `unsaved`"),
    ("processes 2\nstates 3 3\nmessage 0.0 -> 1.4 unsaved\n", 3, 20, "no `unsaved` behind receipt number 4, since the count of process 1 is 3, found `unsaved`"),
    // The receiver's count, and not the sender's; and the first line that is wrong.
    ("processes 2\nstates 3 4\nmessage 0.0 -> 1.4 unsaved\nmessage 1.0 -> 0.4\tunsaved # no\nmessage 0.0 -> 1.3 unsaved\n", 4, 20, "no `unsaved` behind receipt number 4, since the count of process 0 is 3, found `unsaved`"),
    ("processes 2\nstates 3 3\nmessage 0.0 -> 2.3 unsaved\n", 3, 20, "no `unsaved` behind receipt number 3, since there is no process 2, found `unsaved`"),
    ("processes 2\nstates 3 3\nmessage 0.0 -> 1.3unsaved\n", 3, 19, "the end of the line after the message, found `unsaved`"),
    ("processes 2\nstates 3 3\nmessage 0.0 -> 1.3 Unsaved\n", 3, 20, "the end of the line after the message, found `Unsaved`"),
    ("processes 2\nstates 3 3\nmessage 0.0 -> 1.3 unsaved2\n", 3, 20, "the end of the line after the message, found `unsaved2`"),
    ("processes 2\nstates 3 3\nmessage 0.0 -> 1.3 saved\n", 3, 20, "the end of the line after the message, found `saved`"),
    ("processes 2\nstates 3 3\nmessage 0.0 -> 1.3 unsaved unsaved\n", 3, 28, "the end of the line after the message, found `unsaved`"),
    ("processes 2\nstates 3 3\nmessage 0.0 -> 1.3 unsaved.\n", 3, 27, "the end of the line after the message, found `.`"),
    ("processes 2\nstates 3 3\nmessage 0.0 -> 1 unsaved\n", 3, 18, "`.` and the receipt number, or `waiting`, found `unsaved`"),
    ("processes 2\nstates 3 3\nmessage 0.0 -> 1 waiting unsaved\n", 3, 26, "the end of the line after the message, found `unsaved`"),
    ("processes 2\nstates 3 3\nmessage 0.0 -> 1 waiting 2\n", 3, 26, "the end of the line after the message, found `2`"),
    ("processes 2\nstates 3 3\n\tmessage 0.0 -> 1.2\r\n\n message 0.0 -> 1.2 \x07\n", 5, 21, "the end of the line after the message, found `\\u{7}`"),
];

#[test]
fn errors_with_line_and_column() {
    for (text, line, column, words) in ERRORS {
        let error = text::read(text.as_bytes()).expect_err(text);
        assert_eq!((error.line, error.column), (*line, *column), "{text:?}");
        assert_eq!(error.to_string(), format!("expected {words}"), "{text:?}");
    }
    let (text, line, column, words) = ERRORS.last().expect("some");
    let message = format!("(standard input):{line}:{column}: expected {words}");
    fails(&["encode"], text.as_bytes(), 2, &message);
    fails(&["list", "--text"], text.as_bytes(), 2, &message);
}

#[test]
fn refused_texts_and_their_lines() {
    let cases = [
        ("# none\nprocesses 0\nstates\n", ":2", "2: N is 0, and must be 1 to 32"),
        (&format!("processes 33\nstates{}\n", " 1".repeat(33)), ":1", "2: N is 33, and must be 1 to 32"),
        (&format!("processes 2\nstates 1 1\n\n{}", "message 0.0 -> 1 waiting\n".repeat(4097)), ":4100", "3: M is 4097, and 4096 at most"),
        ("processes 2\n\nstates 3 0\n", ":3", "5: process 1 has 0 checkpoints, and must have 1 to 4096"),
        ("processes 1\nstates 4097\n", ":2", "5: process 0 has 4097 checkpoints, and must have 1 to 4096"),
        ("processes 2\nstates 3 3\nmessage 0.0 -> 1.1\n#\nmessage 0.0 -> 2.1\nmessage 3.0 -> 1.1\n", ":5", "6: message 1 is for process 2, and N is 2"),
        ("processes 2\nstates 3 3\nmessage 0.3 -> 1.1\nmessage 1.0 -> 1 waiting\n", ":4", "7: message 1 is from process 1 to itself"),
        ("processes 2\nstates 3 3\nmessage 0.0 -> 1.4\nmessage 0.3 -> 1.1\n", ":4", "8: message 1 has send number 3, and process 0 has 3 checkpoints"),
        ("processes 2\nstates 5 4\nmessage 0.0 -> 1.3\nmessage 0.2 -> 1.4\nmessage 0.2 -> 1.5\n", ":5", "9: message 2 has receipt number 5, above the count 4 of process 1"),
        ("processes 2\nstates 3 3\nmessage 0.1 -> 1.1\n\nmessage 0.0 -> 1.1\n", ":5", "23: message 1 has send number 0, smaller than 1 of message 0 at (standard input):3, which goes before it from process 0 to process 1"),
    ];
    for (text, place, words) in cases {
        let message = format!("(standard input){place}: refused {words}");
        fails(&["encode"], text.as_bytes(), 1, &message);
    }
    // More messages than a table can count.
    let text = format!(
        "processes 2\nstates 1 1\n{}",
        "message 0.0 -> 1 waiting\n".repeat(65_536)
    );
    let message = "(standard input):65538:1: expected no more than 65535 messages, found `message`";
    fails(&["encode"], text.as_bytes(), 2, message);
}

#[test]
fn decode_then_encode_over_the_corpus() {
    let mut accepted = 0;
    for case in corpus() {
        match refused(&case.listing) {
            Some(number) => {
                refuses(&["decode", &case.path], b"", number, &case.path);
            }
            None => {
                let text = done(&["decode", &case.path], b"");
                assert_eq!(done(&["encode"], &text), case.table, "{}", case.name);
                accepted += 1;
            }
        }
    }
    assert!(accepted > 50);
}

#[test]
fn decode_then_encode_over_random_tables() {
    let (mut random, mut unsaved) = (Random(1), 0);
    for round in 0..3_000 {
        let table = match round % 4 {
            0 => random.table(32, 60, 4_096),
            1 => random.table(4, 8, 3),
            2 => random.table(3, 200, 300),
            _ => {
                let n = 1 + random.below(6);
                random.history(n, 40)
            }
        };
        let text = text::write(&Table::from_bytes(&table[..]).expect("accepted"));
        let read = text::read(text.as_bytes()).expect("what was written is read");
        assert_eq!(read.table, table, "{text}");
        // The word says what the number says: without it the same is read.
        unsaved += text.matches(" unsaved\n").count();
        let without = text.replace(" unsaved\n", "\n");
        let read = text::read(without.as_bytes()).expect("the word may be left out");
        assert_eq!(read.table, table, "{without}");
        // Behind any other receipt it is refused, in its line.
        let received =
            |line: &&str| line.contains("->") && !line.ends_with(|c: char| c.is_alphabetic());
        let lines: Vec<&str> = text.lines().collect();
        let places: Vec<usize> = (0..lines.len())
            .filter(|at| received(&lines[*at]))
            .collect();
        if let Some(at) = places.get(random.below(places.len().max(1))) {
            let mut lies: Vec<String> = lines.iter().map(|line| line.to_string()).collect();
            lies[*at] += " unsaved";
            let error = text::read(lies.join("\n").as_bytes()).expect_err("it is saved");
            assert_eq!((error.line, error.column), (at + 1, lines[*at].len() + 2));
            assert_eq!(error.found, "`unsaved`");
        }
    }
    assert!(unsaved > 1_000, "{unsaved}");
}

#[test]
fn texts_that_are_too_long() {
    let ran = keeper(&["encode"], &vec![b'\n'; (16 << 20) + 1]);
    assert_eq!(ran.status, 2);
    assert_eq!(
        ran.errors,
        "keeper: (standard input): longer than a text may be (16777216 bytes)\n"
    );
}
