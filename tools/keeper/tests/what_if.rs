//! `keeper what-if`: its rows beside the single call and a count of what is lost written
//! here, in each form; the order of the sets; more sets than one call takes; files of
//! sets; messages, exit statuses and refusals.

mod common;

use std::fs;

use common::{
    bytes, corpus, corpus_folder, done, example_a, fails, fresh, keeper, refused, refuses,
    table_of, Random,
};
use keeper::{run_table, Table};

/// A set as it is asked for.
fn asked(set: u32) -> String {
    let processes = (0..32).filter(|process| set >> process & 1 == 1);
    let processes: Vec<String> = processes.map(|process| process.to_string()).collect();
    match processes.is_empty() {
        true => "none".to_string(),
        false => processes.join(","),
    }
}

/// What is expected of a set: its line by the single call, and what each process loses.
struct Expected {
    set: u32,
    line: Vec<u16>,
    lost: Vec<u16>,
}

impl Expected {
    fn of(table: &[u8], set: u32) -> Expected {
        let mut answer = [0; keeper::LARGEST_LINE];
        let written = keeper::line_of_set(table, set, &mut answer).expect("a line");
        let pairs = answer[..written].chunks(2);
        let line: Vec<u16> = pairs
            .map(|pair| u16::from_le_bytes([pair[0], pair[1]]))
            .collect();
        let lost = (0..line.len()).map(|p| run_table::count(table, p) - line[p]);
        Expected {
            set,
            lost: lost.collect(),
            line,
        }
    }

    fn sum(&self) -> u32 {
        let mut sum = 0;
        for lost in &self.lost {
            sum += u32::from(*lost);
        }
        sum
    }
}

fn spaced(numbers: &[u16]) -> String {
    let numbers: Vec<String> = numbers.iter().map(u16::to_string).collect();
    numbers.join(" ")
}

fn text(bytes: Vec<u8>) -> String {
    String::from_utf8(bytes).expect("ASCII")
}

/// The fields of rows whose columns have two blanks or more between, without the names,
/// which have to be those.
fn fields(output: Vec<u8>, names: &[&str]) -> Vec<Vec<String>> {
    let output = text(output);
    let mut rows = output.lines().map(|row| -> Vec<String> {
        let fields = row.split("  ").map(str::trim);
        let fields = fields.filter(|field| !field.is_empty());
        fields.map(str::to_string).collect()
    });
    assert_eq!(rows.next().expect("names"), names);
    rows.collect()
}

const FULL: &[&str] = &["set", "line", "lost", "in all"];
const COST: &[&str] = &["set", "lost", "put back"];

fn full_rows(expected: &[Expected]) -> Vec<Vec<String>> {
    let rows = expected.iter().map(|one| {
        let sum = one.sum().to_string();
        vec![asked(one.set), spaced(&one.line), spaced(&one.lost), sum]
    });
    rows.collect()
}

/// The dearest first: of those that are left the first that costs most, again and again.
fn cost_rows(mut expected: Vec<Expected>) -> Vec<Vec<String>> {
    let mut rows = vec![];
    while !expected.is_empty() {
        let most = expected.iter().map(Expected::sum).max().expect("some");
        let place = expected.iter().position(|one| one.sum() == most);
        let one = expected.remove(place.expect("there"));
        let mut back = 0;
        for (process, lost) in one.lost.iter().enumerate() {
            back |= u32::from(*lost > 0) << process;
        }
        rows.push(vec![asked(one.set), one.sum().to_string(), asked(back)]);
    }
    rows
}

fn csv(expected: &[Expected], n: usize) -> String {
    let mut rows = "set".to_string();
    for name in ["line", "lost"] {
        for process in 0..n {
            rows += &format!(",{name}_{process}");
        }
    }
    rows += ",sum\n";
    for one in expected {
        rows += &asked(one.set).replace(',', " ");
        for number in one.line.iter().chain(&one.lost) {
            rows += &format!(",{number}");
        }
        rows += &format!(",{}\n", one.sum());
    }
    rows
}

fn json(expected: &[Expected]) -> String {
    let array = |numbers: &[u16]| spaced(numbers).replace(' ', ",");
    let objects: Vec<String> = expected
        .iter()
        .map(|one| {
            let set = match one.set {
                0 => String::new(),
                set => asked(set),
            };
            format!(
                "{{\"set\":[{set}],\"line\":[{}],\"lost\":[{}],\"sum\":{}}}",
                array(&one.line),
                array(&one.lost),
                one.sum()
            )
        })
        .collect();
    format!("{{\"sets\":[{}]}}\n", objects.join(","))
}

#[test]
fn each_form_beside_the_single_call() {
    let mut random = Random(8);
    let (mut others, mut equal) = (0, 0);
    for round in 0..60 {
        let table = match round % 3 {
            0 => random.table(4, 8, 3),
            1 => random.table(32, 60, 3),
            _ => random.history(5, 40),
        };
        let n = usize::from(run_table::processes(&table));
        let all = ((1u64 << n) - 1) as u32;
        // Some stand twice, and nobody and everybody are among them.
        let mut sets = vec![all, 0];
        for _ in 0..10 {
            let set = (random.below(1 << 31) as u32) << 1 & all;
            sets.push(set | random.below(2) as u32);
        }
        sets.push(sets[3]);
        let expected = || -> Vec<Expected> {
            let each = sets.iter().map(|set| Expected::of(&table, *set));
            each.collect()
        };
        let words: Vec<String> = sets.iter().map(|set| asked(*set)).collect();
        let ran = |options: &[&str]| {
            let words = words.iter().map(String::as_str);
            let arguments: Vec<&str> = ["what-if"]
                .into_iter()
                .chain(options.iter().copied())
                .chain(words)
                .collect();
            done(&arguments, &table)
        };
        assert_eq!(fields(ran(&[]), FULL), full_rows(&expected()));
        assert_eq!(fields(ran(&["--cost"]), COST), cost_rows(expected()));
        assert_eq!(text(ran(&["--csv"])), csv(&expected(), n));
        assert_eq!(text(ran(&["--json"])), json(&expected()));
        for one in expected() {
            let outside = (0..n).filter(|p| one.set >> p & 1 == 0);
            others += usize::from(outside.into_iter().any(|p| one.lost[p] > 0));
        }
        let mut sums: Vec<u32> = expected().iter().map(Expected::sum).collect();
        sums.sort_unstable();
        equal += usize::from(sums.windows(2).filter(|two| two[0] == two[1]).count() > 1);
    }
    // Processes outside the set are put back, and sets cost the same.
    assert!(others > 100 && equal > 20, "{others} {equal}");
}

#[test]
fn example_a_in_each_form() {
    let a = example_a();
    for (arguments, output) in [
        (
            &["none", "0", "1", "0,1"][..],
            "set   line  lost  in all\n\
             none  3 3   0 0   0\n\
             0     1 1   2 2   4\n\
             1     3 2   0 1   1\n\
             0,1   1 1   2 2   4\n",
        ),
        (
            &["--cost", "none", "0", "1", "0,1"],
            "set   lost  put back\n\
             0     4     0,1\n\
             0,1   4     0,1\n\
             1     1     1\n\
             none  0     none\n",
        ),
        // Equal ones in the order given.
        (
            &["--cost", "0,1", "1", "0"],
            "set  lost  put back\n\
             0,1  4     0,1\n\
             0    4     0,1\n\
             1    1     1\n",
        ),
        (
            &["--csv", "1", "none", "all"],
            "set,line_0,line_1,lost_0,lost_1,sum\n\
             1,3,2,0,1,1\n\
             none,3,3,0,0,0\n\
             0 1,1,1,2,2,4\n",
        ),
        (
            &["--json", "all", "none"],
            "{\"sets\":[{\"set\":[0,1],\"line\":[1,1],\"lost\":[2,2],\"sum\":4},\
             {\"set\":[],\"line\":[3,3],\"lost\":[0,0],\"sum\":0}]}\n",
        ),
    ] {
        let arguments = [&["what-if"], arguments].concat();
        assert_eq!(text(done(&arguments, &a)), output, "{arguments:?}");
    }
}

/// The first column of the rows.
fn sets_of(output: Vec<u8>) -> Vec<String> {
    let rows = fields(output, FULL).into_iter();
    rows.map(|row| row[0].clone()).collect()
}

#[test]
fn words_for_sets() {
    let three = bytes(&[3, 0, 1, 2, 3]);
    for (words, sets) in [
        // Without any, each process alone.
        (&[][..], &["0", "1", "2"][..]),
        (&["singles"], &["0", "1", "2"]),
        (&["pairs"], &["0,1", "0,2", "1,2"]),
        (&["all"], &["0,1,2"]),
        (&["none"], &["none"]),
        (&["2,0,2"], &["0,2"]),
        (&["01"], &["1"]),
        (
            &["pairs", "none", "singles", "1", "all", "1"],
            &[
                "0,1", "0,2", "1,2", "none", "0", "1", "2", "1", "0,1,2", "1",
            ],
        ),
    ] {
        let arguments = [&["what-if"], words].concat();
        assert_eq!(sets_of(done(&arguments, &three)), sets, "{words:?}");
    }
    let one = bytes(&[1, 0, 1]);
    assert_eq!(
        done(&["what-if", "pairs"], &one),
        b"set  line  lost  in all\n"
    );
    assert_eq!(sets_of(done(&["what-if"], &one)), ["0"]);
    assert_eq!(
        done(&["what-if", "--json", "pairs"], &one),
        b"{\"sets\":[]}\n"
    );
    // A set of all 32, and the last of them.
    let many = Table::new(32).expect("a table").into_bytes();
    let pairs = sets_of(done(&["what-if", "pairs"], &many));
    assert_eq!((pairs.len(), pairs[495].as_str()), (496, "30,31"));
    let rows = fields(done(&["what-if", "all", "31"], &many), FULL);
    assert_eq!((rows[0][3].as_str(), rows[1][3].as_str()), ("32", "1"));
}

/// A file of sets; its name.
fn file_of(name: &str, sets: &[u8]) -> String {
    let file = fresh(name);
    fs::write(&file, sets).expect("written");
    file
}

#[test]
fn files_of_sets() {
    let path = corpus_folder().join("example_a.table");
    let path = path.to_str().expect("UTF-8");
    let all: &[u8] = b"\xef\xbb\xbf# what may fail\r\n\r\n0\r\n0 , 1 # both\r\nnone\r\n\tsingles";
    let expected = ["0", "0,1", "none", "0", "1"];
    let file = file_of("sets with marks.txt", all);
    assert_eq!(
        sets_of(done(&["what-if", "--sets", &file, path], b"")),
        expected
    );
    // The table from standard input, and the sets from there.
    let ran = done(&["what-if", "--sets", &file], &example_a());
    assert_eq!(sets_of(ran), expected);
    let ran = done(&["what-if", "--sets", &file, "-"], &example_a());
    assert_eq!(sets_of(ran), expected);
    let ran = done(&["what-if", "--sets=-", path], all);
    assert_eq!(sets_of(ran), expected);
    // Those of the arguments come first, wherever they stand.
    let ran = done(&["what-if", "1", "--sets", &file, "all", path], b"");
    let behind = [&["1", "0,1"], &expected[..]].concat();
    assert_eq!(sets_of(ran), behind);
    // No sets are no error, and not those of no SET.
    for (name, nothing) in [("empty.sets", &b""[..]), ("blank.sets", b"\r\n # none\n")] {
        let file = file_of(name, nothing);
        for (option, output) in [
            ("--text-in", "set  line  lost  in all\n"),
            ("--cost", "set  lost  put back\n"),
            ("--csv", "set,line_0,line_1,lost_0,lost_1,sum\n"),
            ("--json", "{\"sets\":[]}\n"),
        ] {
            let table = match option {
                "--text-in" => done(&["decode"], &example_a()),
                _ => example_a(),
            };
            let ran = done(&["what-if", option, "--sets", &file], &table);
            assert_eq!(text(ran), output, "{name}, {option}");
        }
    }
}

/// More sets than one call takes: every set of ten processes, and just about 256.
#[test]
fn more_sets_than_a_call_takes() {
    let mut random = Random(256);
    let table = loop {
        let table = random.history(10, 120);
        if Expected::of(&table, 1).sum() > 3 {
            break table;
        }
    };
    for sets in [255, 256, 257, 511, 512, 513, 1_024] {
        // From the last one down, so that a portion that is given twice is seen.
        let all: Vec<u32> = (0..sets).map(|place| 1_023 - place).collect();
        let lines: Vec<String> = all.iter().map(|set| asked(*set)).collect();
        let file = file_of("many.sets", lines.join("\n").as_bytes());
        let expected: Vec<Expected> = all.iter().map(|set| Expected::of(&table, *set)).collect();
        let ran = done(&["what-if", "--sets", &file], &table);
        assert_eq!(fields(ran, FULL), full_rows(&expected), "{sets}");
        let ran = done(&["what-if", "--json", "--sets", &file], &table);
        assert_eq!(text(ran), json(&expected), "{sets}");
        let ran = done(&["what-if", "--cost", "--sets", &file], &table);
        assert_eq!(fields(ran, COST), cost_rows(expected), "{sets}");
    }
    // As arguments, too.
    let arguments: Vec<&str> = ["what-if"].into_iter().chain(["3"; 257]).collect();
    assert_eq!(sets_of(done(&arguments, &table)), ["3"; 257]);
}

/// As much as a table can have, and some thousand sets.
#[test]
fn thousands_of_sets() {
    let messages: Vec<[u16; 4]> = (0..4_096)
        .map(|k: u16| [k % 32, k / 2, (k + 1) % 32, k / 2 + 1])
        .collect();
    let table = table_of(&[4_096; 32], &messages);
    let mut random = Random(1);
    let sets: Vec<u32> = (0..5_000)
        .map(|_| random.below(1 << 31) as u32 * 2 + random.below(2) as u32)
        .collect();
    let lines: Vec<String> = sets.iter().map(|set| asked(*set)).collect();
    let file = file_of("thousands.sets", lines.join("\n").as_bytes());
    let output = text(done(&["what-if", "--csv", "--sets", &file], &table));
    assert_eq!(output.lines().count(), 5_001);
    let some: Vec<Expected> = [0, 255, 256, 4_999]
        .iter()
        .map(|place| Expected::of(&table, sets[*place]))
        .collect();
    let expected = csv(&some, 32);
    let rows: Vec<&str> = output.lines().collect();
    let shown: Vec<&str> = [0, 1, 256, 257, 5_000]
        .iter()
        .map(|row| rows[*row])
        .collect();
    assert_eq!(shown, expected.lines().collect::<Vec<_>>());
}

#[test]
fn a_process_that_is_not_there() {
    let a = example_a();
    for (sets, message) in [
        (
            &["2"][..],
            "refused 12: the set 2 has process 2, and N is 2",
        ),
        (
            &["0", "1,31", "7"],
            "refused 12: the set 1,31 has process 31, and N is 2",
        ),
        // As it was asked for, with the first that is not there.
        (
            &["all", "5,0,4"],
            "refused 12: the set 5,0,4 has process 5, and N is 2",
        ),
    ] {
        fails(&[&["what-if"], sets].concat(), &a, 1, message);
        let ran = keeper(&[&["what-if", "--json"], sets].concat(), &a);
        let words = message.strip_prefix("refused 12: ").expect("the number");
        let object = format!("{{\"refused\":12,\"words\":\"{words}\"}}\n");
        assert_eq!((ran.status, text(ran.output)), (1, object));
        assert_eq!(ran.errors, format!("keeper: {message}\n"));
    }
    // In a file, with the place; one of an argument comes first.
    let file = file_of("unknown.sets", b"# sets\n0,1\n 1, 3,2\n");
    let message = format!("{file}:3:5: refused 12: the set 1,3,2 has process 3, and N is 2");
    fails(&["what-if", "--sets", &file], &a, 1, &message);
    fails(&["what-if", "pairs", "0", "--sets", &file], &a, 1, &message);
    let message = "refused 12: the set 4 has process 4, and N is 2";
    fails(&["what-if", "4", "--sets", &file], &a, 1, message);
    // The first of a file, behind a last argument that is there.
    let file = file_of("unknown at once.sets", b"2\n3\n");
    let message = format!("{file}:1:1: refused 12: the set 2 has process 2, and N is 2");
    fails(&["what-if", "--sets", &file], &a, 1, &message);
    fails(&["what-if", "1", "--sets", &file], &a, 1, &message);
    // Behind more sets than one call takes, of which a word stands for some.
    let many = format!("{}singles\n0\n0,31\n", "none\n".repeat(300));
    let file = file_of("unknown far down.sets", many.as_bytes());
    let message = format!("{file}:303:3: refused 12: the set 0,31 has process 31, and N is 2");
    fails(&["what-if", "--sets", &file], &a, 1, &message);
    fails(&["what-if", "singles", "--sets", &file], &a, 1, &message);
    // There are 32 of them.
    let last = Table::new(32).expect("a table").into_bytes();
    assert_eq!(sets_of(done(&["what-if", "31"], &last)), ["31"]);
    let most = Table::new(31).expect("a table").into_bytes();
    let message = "refused 12: the set 31 has process 31, and N is 31";
    fails(&["what-if", "31"], &most, 1, message);
}

#[test]
fn wrong_usage() {
    let a = example_a();
    let form = "a set is processes with commas between, such as 0,2, or `none`, `all`, `singles` or `pairs`";
    for (arguments, message) in [
        (&["0", "x", "-"][..], format!("`x` is no set: {form}")),
        (&["x", "0"], format!("`x` is no set: {form}")),
        (&["0,1", "0.1", "-"], format!("`0.1` is no set: {form}")),
        (&["-", "0"], format!("`-` is no set: {form}")),
        (&["All", "0"], format!("`All` is no set: {form}")),
        (&["0,"], format!("`0,`: a process is missing: {form}")),
        (&["0,,1"], format!("`0,,1`: a process is missing: {form}")),
        (
            &["0", "1,32"],
            "`32`: a process that holds is numbered 0 to 31".to_string(),
        ),
        (
            &["65536"],
            "`65536`: a process that holds is numbered 0 to 31".to_string(),
        ),
        (&["--sets"], "--sets needs FILE".to_string()),
        (
            &["--sets", "a", "--sets", "b"],
            "--sets stands twice".to_string(),
        ),
        (
            &["--csv", "--json"],
            "--csv and --json exclude each other".to_string(),
        ),
        (
            &["--json", "--cost"],
            "--cost and --json exclude each other".to_string(),
        ),
        (
            &["--cost", "--csv"],
            "--cost and --csv exclude each other".to_string(),
        ),
        (
            &["--sets", "-"],
            "the sets are read from standard input, so that FILE must be named".to_string(),
        ),
        (
            &["0", "--sets=-", "-"],
            "the sets are read from standard input, so that FILE must be named".to_string(),
        ),
        (&["--csv=1"], "--csv takes no value".to_string()),
    ] {
        let message = format!("{message} (see `keeper what-if --help`)");
        fails(&[&["what-if"], arguments].concat(), &a, 2, &message);
    }
    for (name, sets, message) in [
        (
            "wrong.sets",
            "0\n\n1,x # no\n",
            "3:3: expected a process after the comma, found `x`",
        ),
        (
            "blank between.sets",
            "0 1",
            "1:3: expected the end of the line after the set, found `1`",
        ),
        (
            "high.sets",
            "# high\r\n 1,32\r\n",
            "2:4: expected a process of at most 31, found `32`",
        ),
        (
            "word.sets",
            "none\neverybody",
            "2:1: expected a set, such as 0,2, or `none`, `all`, `singles` or `pairs`, found `everybody`",
        ),
    ] {
        let file = file_of(name, sets.as_bytes());
        let message = format!("{file}:{message}");
        fails(&["what-if", "--sets", &file], &a, 2, &message);
        // Before the table is looked at.
        fails(&["what-if", "--sets", &file], &a[..3], 2, &message);
    }
    let file = file_of("no.sets", &a);
    let message = format!("{file}: this is a table, and no list of sets");
    fails(&["what-if", "--sets", &file], &a, 2, &message);
    let missing = fresh("missing.sets");
    let message = format!("{missing}: No such file or directory (os error 2)");
    fails(&["what-if", "--sets", &missing], &a, 2, &message);
    let file = file_of("long.sets", &vec![b'\n'; (16 << 20) + 1]);
    let message = format!("{file}: longer than a list of sets may be (16777216 bytes)");
    fails(&["what-if", "--sets", &file], &a, 2, &message);
    fs::remove_file(&file).expect("removed");
    let file = file_of("longest.sets", &vec![b'\n'; 16 << 20]);
    let ran = done(&["what-if", "--sets", &file], &a);
    assert_eq!(text(ran), "set  line  lost  in all\n");
    fs::remove_file(&file).expect("removed");
}

/// A refused table is refused before the sets are looked at.
#[test]
fn damaged_tables() {
    let mut tried = 0;
    for case in corpus() {
        let Some(number) = refused(&case.listing) else {
            continue;
        };
        for sets in [&[][..], &["none"], &["31"], &["0", "all", "pairs"]] {
            let arguments = [&["what-if"], sets, &[case.path.as_str()]].concat();
            refuses(&arguments, b"", number, &case.path);
        }
        let ran = keeper(&["what-if", "--json", &case.path], b"");
        let begins = format!("{{\"refused\":{number},\"words\":\"");
        assert!(text(ran.output).starts_with(&begins), "{}", case.name);
        tried += 1;
    }
    assert!(tried > 50, "{tried}");
    let a = example_a();
    for length in 0..a.len() {
        let ran = keeper(&["what-if", "0"], &a[..length]);
        assert_eq!((ran.status, &ran.output[..]), (1, &b""[..]), "{length}");
    }
}

#[test]
fn texts_files_and_scripts() {
    let (a, file) = (example_a(), fresh("what-if.rows"));
    let output = done(&["what-if", "all", "1"], &a);
    let decoded = done(&["decode"], &a);
    assert_eq!(done(&["what-if", "--text", "all", "1"], &decoded), output);
    assert_eq!(done(&["what-if", "all", "1", "-o", &file], &a), b"");
    assert_eq!(fs::read(&file).expect("read"), output);
    // A refusal leaves the file alone.
    fails(
        &["what-if", "3", "-o", &file],
        &a,
        1,
        "refused 12: the set 3 has process 3, and N is 2",
    );
    assert_eq!(fs::read(&file).expect("read"), output);
    // A file whose name is a word for sets.
    let folder = fresh("a folder of sets");
    let _ = fs::remove_dir_all(&folder);
    fs::create_dir(&folder).expect("created");
    let named = format!("{folder}/all");
    fs::write(&named, &a).expect("written");
    assert_eq!(done(&["what-if", "all", "1", &named], b""), output);
    assert_eq!(done(&["what-if", "--", "all", "1"], &a), output);
}
