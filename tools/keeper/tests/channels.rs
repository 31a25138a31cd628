//! Channels deliver in the order sent: what is said of a table in which one does not
//! (23), with both messages and the lines of both, and of a step that passes over a
//! message (24).

mod common;

use std::fs;

use common::{done, fails, fresh, in_order, keeper, table_of, Random};
use keeper::{check_table, Refusal};
use keeper_command::explain::{culprit, Culprit};

const FROM_0_TO_1: &str = "which goes before it from process 0 to process 1";

/// A text of two processes with three checkpoints each.
fn text(messages: &str) -> String {
    format!("# a run\nprocesses 2\nstates 3 3\n{messages}")
}

/// Each of the three ways: of a text both lines are named, of a table the positions.
#[test]
fn the_three_ways() {
    let cases = [
        // A smaller send number, of messages received, of one that waits, of two.
        (
            "message 0.1 -> 1.1\nmessage 0.0 -> 1.2\n",
            "has send number 0, smaller than 1 of",
            "",
        ),
        (
            "message 0.2 -> 1.1\nmessage 0.1 -> 1 waiting\n",
            "has send number 1, smaller than 2 of",
            "",
        ),
        (
            "message 0.2 -> 1 waiting\nmessage 0.0 -> 1 waiting\n",
            "has send number 0, smaller than 2 of",
            "",
        ),
        // Received while the earlier one waits, saved or not.
        (
            "message 0.0 -> 1 waiting\nmessage 0.0 -> 1.1\n",
            "is received while",
            " waits",
        ),
        (
            "message 0.0 -> 1 waiting\nmessage 0.2 -> 1.3 unsaved\n",
            "is received while",
            " waits",
        ),
        // A smaller receipt number, than that of one that is not saved too.
        (
            "message 0.0 -> 1.2\nmessage 0.1 -> 1.1\n",
            "has receipt number 1, smaller than 2 of",
            "",
        ),
        (
            "message 0.0 -> 1.3 unsaved\nmessage 0.0 -> 1.2\n",
            "has receipt number 2, smaller than 3 of",
            "",
        ),
        // In several ways: the first of them.
        (
            "message 0.1 -> 1 waiting\nmessage 0.0 -> 1.1\n",
            "has send number 0, smaller than 1 of",
            "",
        ),
        (
            "message 0.1 -> 1.2\nmessage 0.0 -> 1.1\n",
            "has send number 0, smaller than 1 of",
            "",
        ),
    ];
    for (messages, how, end) in cases {
        let (text, file) = (text(messages), fresh("channel.txt"));
        fs::write(&file, &text).expect("written");
        let words =
            |name: &str| format!("message 1 {how} message 0 at {name}:4{end}, {FROM_0_TO_1}");
        let name = "(standard input)";
        let message = format!("{name}:5: refused 23: {}", words(name));
        fails(&["encode"], text.as_bytes(), 1, &message);
        for subcommand in ["check", "line", "stand", "sheet", "fall-back", "draw"] {
            fails(&[subcommand, "--text"], text.as_bytes(), 1, &message);
            let message = format!("{file}:5: refused 23: {}", words(&file));
            fails(&[subcommand, "--text", &file], b"", 1, &message);
        }
        // In JSON the words are the same.
        let ran = keeper(&["line", "--json", "--text"], text.as_bytes());
        let json = format!("{{\"refused\":23,\"words\":\"{}\"}}\n", words(name));
        assert_eq!(String::from_utf8(ran.output).expect("UTF-8"), json);
        assert_eq!(ran.status, 1);
        // Of a table there are no lines.
        let table = table_of_text(&text);
        assert_eq!(check_table(&table), Err(Refusal::ChannelOutOfOrder));
        let message = format!("{name}: refused 23: message 1 {how} message 0{end}, {FROM_0_TO_1}");
        for subcommand in ["check", "decode", "line", "sheet", "fall-back"] {
            fails(&[subcommand], &table, 1, &message);
        }
        let ran = keeper(&["list"], &table);
        assert_eq!((ran.status, &ran.output[..]), (1, &b"refused 23\n"[..]));
        assert_eq!(ran.errors, format!("keeper: {message}\n"));
    }
}

/// The bytes of a text that the library refuses.
fn table_of_text(text: &str) -> Vec<u8> {
    let read = keeper_command::text::read(text.as_bytes());
    read.expect("in the form").table
}

/// The first later message is named, with the nearest earlier one of its channel.
#[test]
fn which_two_are_named() {
    let messages = "\
message 0.0 -> 1.1
message 1.0 -> 0.1
message 0.1 -> 1.2   # the nearest of its channel

message 1.1 -> 0 waiting
# between them
message 0.2 -> 1.1
message 0.0 -> 1.1
message 1.0 -> 0.1
";
    let message = format!(
        "(standard input):10: refused 23: message 4 has receipt number 1, smaller than 2 of \
         message 2 at (standard input):6, {FROM_0_TO_1}"
    );
    fails(&["encode"], text(messages).as_bytes(), 1, &message);
    // In order where these are left out.
    let messages: String = messages.lines().take(5).map(|l| format!("{l}\n")).collect();
    done(&["encode"], text(&messages).as_bytes());
    // Equal numbers are in order.
    let equal = "message 0.1 -> 1.2\n".repeat(3) + &"message 0.1 -> 1 waiting\n".repeat(2);
    done(&["encode"], text(&equal).as_bytes());
    // 9 comes before it, whichever message it catches.
    let message = "(standard input):6: refused 9: message 2 has receipt number 4, above the count 3 of process 1";
    let nine = "message 0.1 -> 1.1\nmessage 0.0 -> 1.1\nmessage 0.2 -> 1.4\n";
    fails(&["encode"], text(nine).as_bytes(), 1, message);
}

/// On tables by chance: the pair that is named is the first of all pairs that are out
/// of turn, by the later message and then the nearest.
#[test]
fn the_pair_by_its_definition() {
    let (mut random, mut pairs) = (Random(23), 0);
    for _ in 0..3_000 {
        let n = 2 + random.below(3);
        let counts: Vec<u16> = (0..n).map(|_| 1 + random.below(4) as u16).collect();
        let mut messages: Vec<[u16; 4]> = Vec::new();
        for _ in 0..random.below(9) {
            let sender = random.below(n);
            let receiver = (sender + 1 + random.below(n - 1)) % n;
            let sent = random.below(counts[sender].into());
            let received = random.below(usize::from(counts[receiver]) + 1);
            messages.push([sender, sent, receiver, received].map(|number| number as u16));
        }
        if random.below(2) == 0 {
            in_order(&mut messages);
            // One message at another place.
            if messages.len() > 1 {
                let moved = messages.remove(random.below(messages.len()));
                messages.insert(random.below(messages.len()), moved);
            }
        }
        let out_of_turn = |earlier: usize, later: usize| {
            let (one, other) = (messages[earlier], messages[later]);
            let same = (one[0], one[2]) == (other[0], other[2]);
            let received = other[3] != 0 && (one[3] == 0 || other[3] < one[3]);
            same && (other[1] < one[1] || received)
        };
        let mut all = (0..messages.len())
            .flat_map(|later| (0..later).rev().map(move |earlier| (earlier, later)));
        let first = all.find(|(earlier, later)| out_of_turn(*earlier, *later));
        let table = table_of(&counts, &messages);
        let refusal = check_table(&table).err();
        assert_eq!(refusal, first.map(|_| Refusal::ChannelOutOfOrder));
        let named = refusal.and_then(|refusal| culprit(&table, refusal));
        let pair = |(earlier, later)| Culprit::Pair { earlier, later };
        assert_eq!(named, first.map(pair), "{messages:?}");
        pairs += usize::from(first.is_some());
    }
    assert!(pairs > 500 && pairs < 2_900, "{pairs}");
}

/// The last of 4,096 messages.
#[test]
fn a_full_table() {
    let mut messages = vec![[0, 1, 1, 1]; 4_095];
    messages.push([0, 0, 1, 0]);
    let message = format!(
        "(standard input): refused 23: message 4095 has send number 0, smaller than 1 of message \
         4094, {FROM_0_TO_1}"
    );
    fails(&["check"], &table_of(&[2, 2], &messages), 1, &message);
}

/// Three messages wait from 0 to 1, and one from 2 to 1.
const WAITING: &str = "\
processes 3
states 1 1 1
message 0.0 -> 1 waiting

message 2.0 -> 1 waiting
message 0.0 -> 1 waiting
message 0.0 -> 1 waiting
";

#[test]
fn lists_that_pass_over_a_message() {
    let channel = "which waits before it from process 0 to process 1";
    let (table, file) = (done(&["encode"], WAITING.as_bytes()), fresh("waiting.txt"));
    fs::write(&file, WAITING).expect("written");
    for (list, later, older) in [
        (&["2"][..], 2, 0),
        (&["3"], 3, 2), // the nearest
        (&["0", "3"], 3, 2),
        (&["1", "2"], 2, 0), // another channel is in order
        (&["2", "3"], 2, 0), // the first that passes over one
        (&["1", "2", "3"], 2, 0),
    ] {
        for step in ["save", "receive"] {
            let message =
                format!("refused 24: message {later} passes over message {older}, {channel}");
            let arguments = [&[step, "1"], list].concat();
            fails(&arguments, &table, 1, &message);
            // Where they have lines these are named.
            let line = |position: usize| [3, 5, 6, 7][position];
            let at = |position: usize| format!("message {position} at {file}:{}", line(position));
            let message = format!(
                "refused 24: {} passes over {}, {channel}",
                at(later),
                at(older)
            );
            let arguments = [&[step, "--text", "1"], list, &[file.as_str()]].concat();
            fails(&arguments, b"", 1, &message);
        }
    }
    for list in [&["0"][..], &["1"], &["0", "2"], &["0", "1", "2", "3"], &[]] {
        for step in ["save", "receive"] {
            done(&[&[step, "1"], list].concat(), &table);
        }
    }
    // 13 comes first, and 24 before 14.
    let message = "refused 13: positions rise: 2 does not follow 3";
    fails(&["receive", "1", "3", "2"], &table, 1, message);
    let full = table_of(&[1, 4_096], &[[0, 0, 1, 0], [0, 0, 1, 0]]);
    let message = format!("refused 24: message 1 passes over message 0, {channel}");
    fails(&["save", "1", "1"], &full, 1, &message);
    let message = "refused 14: process 1 has 4096 checkpoints, and takes no more";
    fails(&["save", "1", "0", "1"], &full, 1, message);
}

/// In a script: the line of the step, and of messages that stand in a text their
/// lines there. After a fall back they stand at other positions, and none is named.
#[test]
fn in_scripts() {
    let channel = "which waits before it from process 0 to process 1";
    let (script, file) = (fresh("passes.steps"), fresh("passes.txt"));
    fs::write(&file, WAITING).expect("written");
    for (steps, message) in [
        (
            "new 2\nsend 0 1\nsend 0 1\nreceive 1 1\n",
            format!("4: receive 1 1: refused 24: message 1 passes over message 0, {channel}"),
        ),
        (
            "new 2\nsend 0 1\nsend 0 1\nsend 0 1\nreceive 1 0\nsave 1 2\n",
            format!("6: save 1 2: refused 24: message 2 passes over message 1, {channel}"),
        ),
    ] {
        fs::write(&script, steps).expect("written");
        fails(&["run", &script], b"", 1, &format!("{script}:{message}"));
    }
    for (steps, message) in [
        (
            "receive 1 0 1\nsave 1 3\n",
            format!("2: save 1 3: refused 24: message 3 at {file}:7 passes over message 2 at {file}:6, {channel}"),
        ),
        (
            "send 0 1\nreceive 1 0 2 4\n",
            format!("2: receive 1 0 2 4: refused 24: message 4 passes over message 3 at {file}:7, {channel}"),
        ),
        (
            "save 0\nfall back\nreceive 1 1\n",
            format!("3: receive 1 1: refused 24: message 1 passes over message 0, {channel}"),
        ),
    ] {
        fs::write(&script, steps).expect("written");
        let arguments = ["run", &script, "--text-in", &file];
        fails(&arguments, b"", 1, &format!("{script}:{message}"));
    }
    // A run that receives in order goes through, and a fall back has it in order again.
    let steps = "new 2\nsend 0 1\nsend 0 1\nsave 0\nreceive 1 0\nreceive 1 1\nfall back\ntext\nsave 1 0 1\ntext\n";
    fs::write(&script, steps).expect("written");
    let texts = "processes 2\nstates 2 1\nmessage 0.0 -> 1 waiting\nmessage 0.0 -> 1 waiting\n\
                 processes 2\nstates 2 2\nmessage 0.0 -> 1.1\nmessage 0.0 -> 1.1\n";
    assert_eq!(done(&["run", &script], b""), texts.as_bytes());
}
