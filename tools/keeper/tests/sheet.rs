//! `keeper sheet`, `keeper check`, `keeper new`, and JSON.

mod common;

use common::{bytes, corpus, done, example_a, fails, keeper, refused, refuses, Random};

/// The sheet of example A, case A2 of the format's document.
const SHEET_OF_A: [u8; 20] = [3, 0, 2, 0, 0, 0, 1, 0, 1, 0, 1, 0, 1, 0, 2, 0, 0, 0, 4, 0];

/// The rows of a listing that name what is kept.
fn kept_rows(listing: &[u8]) -> String {
    let listing = std::str::from_utf8(listing).expect("ASCII");
    let kept = |row: &&str| row.starts_with("checkpoint ") || row.starts_with("message ");
    let rows = listing.lines().filter(kept);
    rows.map(|row| format!("{row}\n")).collect()
}

#[test]
fn sheets_of_the_corpus() {
    assert_eq!(done(&["sheet"], &example_a()), SHEET_OF_A);
    for case in corpus() {
        if let Some(number) = refused(&case.listing) {
            refuses(&["sheet", &case.path], b"", number, &case.path);
            continue;
        }
        let rows = kept_rows(&case.listing);
        let sheet = done(&["sheet", &case.path], b"");
        assert_eq!(
            done(&["sheet", "--text-out", &case.path], b""),
            rows.as_bytes()
        );
        assert_eq!(
            done(&["sheet", "--decode"], &sheet),
            rows.as_bytes(),
            "{}",
            case.name
        );
        let json = done(&["sheet", "--json", &case.path], b"");
        assert_eq!(done(&["sheet", "--decode", "--json"], &sheet), json);
    }
    let text = done(&["decode"], &example_a());
    assert_eq!(done(&["sheet", "--text-in"], &text), SHEET_OF_A);
    let rows = done(&["sheet", "--text-out"], &example_a());
    assert_eq!(done(&["sheet", "--text"], &text), rows);
}

#[test]
fn damaged_sheets() {
    let sheet = |numbers: &[u16]| bytes(numbers);
    let cases = [
        (vec![], "the sheet has 0 bytes, fewer than 4"),
        (
            SHEET_OF_A[..3].to_vec(),
            "the sheet has 3 bytes, fewer than 4",
        ),
        (
            SHEET_OF_A[..19].to_vec(),
            "the sheet has 19 bytes, and by its K and Q it has 20",
        ),
        (
            [&SHEET_OF_A[..], &[0]].concat(),
            "the sheet has 21 bytes, and by its K and Q it has 20",
        ),
        (
            sheet(&[2, 0, 0, 0, 1, 1]),
            "entry 1 of the checkpoints, 1 of process 0, is not above the one before it",
        ),
        (
            sheet(&[1, 2, 0, 0, 4, 4]),
            "entry 1 of the messages, position 4, is not above the one before it",
        ),
        (
            sheet(&[1, 0, 0, 4096]),
            "entry 0 of the checkpoints, 4096 of process 0, is beyond the limits of a table",
        ),
        (
            sheet(&[1, 0, 1, 0]),
            "the sheet has no checkpoint of process 0",
        ),
        (sheet(&[0, 0]), "the sheet has no checkpoint of process 0"),
    ];
    for (bytes, words) in cases {
        let message = format!("(standard input): {words}");
        fails(&["sheet", "--decode"], &bytes, 2, &message);
        fails(&["sheet", "--decode", "--json"], &bytes, 2, &message);
    }
    // A table is no sheet, and a sheet is no table.
    assert_eq!(keeper(&["sheet", "--decode"], &example_a()).status, 2);
    assert_eq!(keeper(&["list"], &SHEET_OF_A).status, 1);
    // Far more than any sheet.
    assert_eq!(keeper(&["sheet", "--decode"], &[1; 100_000]).status, 2);
    let message = "--decode reads a sheet, which is no text (see `keeper sheet --help`)";
    fails(
        &["sheet", "--decode", "--text-in"],
        b"processes 1\nstates 1\n",
        2,
        message,
    );
}

#[test]
fn checks() {
    let mut accepted = 0;
    for case in corpus() {
        match refused(&case.listing) {
            None => {
                assert_eq!(done(&["check", &case.path], b""), b"");
                accepted += 1;
            }
            Some(number) => refuses(&["check", &case.path], b"", number, &case.path),
        }
    }
    assert!(accepted > 50, "{accepted}");
    let cases: &[(&[u16], &str)] = &[
        (&[33, 0], "2: N is 33, and must be 1 to 32"),
        (&[0, 0], "2: N is 0, and must be 1 to 32"),
        (&[2, 4097], "3: M is 4097, and 4096 at most"),
        (
            &[1, 0, 0],
            "5: process 0 has 0 checkpoints, and must have 1 to 4096",
        ),
        (
            &[2, 0, 1, 4097],
            "5: process 1 has 4097 checkpoints, and must have 1 to 4096",
        ),
        (
            &[2, 1, 3, 3, 2, 0, 1, 0],
            "6: message 0 is from process 2, and N is 2",
        ),
        (
            &[2, 2, 3, 3, 0, 0, 0, 0, 1, 0, 7, 0],
            "6: message 1 is for process 7, and N is 2",
        ),
        (
            &[2, 1, 3, 3, 1, 9, 1, 9],
            "7: message 0 is from process 1 to itself",
        ),
        (
            &[2, 2, 3, 1, 0, 2, 1, 5, 1, 0, 0, 9],
            "8: message 1 has send number 5, and process 1 has 1 checkpoint",
        ),
        (
            &[2, 2, 3, 1, 0, 2, 1, 0, 1, 0, 0, 4],
            "9: message 1 has receipt number 4, above the count 3 of process 0",
        ),
    ];
    for (numbers, words) in cases {
        let message = format!("(standard input): refused {words}");
        fails(&["check"], &bytes(numbers), 1, &message);
    }
    let message = "(standard input): refused 4: the table has more than 32836 bytes, and 48 are needed for N = 2 and M = 5";
    let long = [example_a(), vec![0; 40_000]].concat();
    fails(&["check"], &long, 1, message);
    let message = "(standard input): refused 1: the table has 1 byte, and needs 4 at least";
    fails(&["check"], &[2], 1, message);
    fails(
        &["check"],
        b"",
        1,
        "(standard input): refused 1: the table is empty",
    );
    let text = b"processes 2\nstates 1 1\nmessage 0.0 -> 1.2\n";
    let message = "(standard input):3: refused 9: message 0 has receipt number 2, above the count 1 of process 1";
    fails(&["check", "--text"], text, 1, message);
    // A receipt number of the count is received and not saved yet.
    let text = b"processes 2\nstates 1 1\nmessage 0.0 -> 1.1\n";
    assert_eq!(done(&["check", "--text"], text), b"");
    assert_eq!(
        done(&["check"], &bytes(&[2, 2, 3, 1, 0, 2, 1, 0, 1, 0, 0, 3])),
        b""
    );
}

#[test]
fn new_tables() {
    assert_eq!(done(&["new", "1"], b""), bytes(&[1, 0, 1]));
    assert_eq!(
        done(&["new", "32"], b""),
        bytes(&[&[32, 0][..], &[1; 32]].concat())
    );
    for option in ["--text", "--text-out"] {
        assert_eq!(
            done(&["new", option, "2"], b""),
            b"processes 2\nstates 1 1\n"
        );
    }
    for n in ["0", "33", "65535"] {
        let message = format!("refused 2: N is {n}, and must be 1 to 32");
        fails(&["new", n], b"", 1, &message);
    }
    fails(&["new"], b"", 2, "new needs N (see `keeper new --help`)");
    fails(
        &["new", "2", "x"],
        b"",
        2,
        "one argument too many: `x` (see `keeper new --help`)",
    );
}

// ---- JSON, by a reader that takes nothing but what RFC 8259 has

#[derive(Clone, Debug, PartialEq)]
enum Json {
    Null,
    Number(u32),
    Text(String),
    Array(Vec<Json>),
    Object(Vec<(String, Json)>),
}

struct Reader<'a> {
    rest: &'a str,
}

impl Reader<'_> {
    fn blanks(&mut self) {
        self.rest = self.rest.trim_start_matches([' ', '\t', '\n', '\r']);
    }

    fn sign(&mut self, sign: char) -> Result<(), String> {
        self.blanks();
        match self.rest.strip_prefix(sign) {
            Some(rest) => {
                self.rest = rest;
                Ok(())
            }
            None => Err(format!("no `{sign}` at `{}`", self.rest)),
        }
    }

    fn text(&mut self) -> Result<String, String> {
        self.sign('"')?;
        let mut text = String::new();
        loop {
            let sign = self.rest.chars().next().ok_or("a string without end")?;
            self.rest = &self.rest[sign.len_utf8()..];
            match sign {
                '"' => return Ok(text),
                '\u{0}'..='\u{1f}' => return Err("a control character".to_string()),
                '\\' => {
                    let escape = self.rest.chars().next().ok_or("an escape without end")?;
                    self.rest = &self.rest[escape.len_utf8()..];
                    match escape {
                        '"' | '\\' | '/' => text.push(escape),
                        'u' => {
                            let digits = self.rest.get(..4).ok_or("a short escape")?;
                            let code = u32::from_str_radix(digits, 16).map_err(|_| "no digits")?;
                            text.push(char::from_u32(code).ok_or("no character")?);
                            self.rest = &self.rest[4..];
                        }
                        _ => return Err(format!("escape {escape}")),
                    }
                }
                _ => text.push(sign),
            }
        }
    }

    fn list<T>(
        &mut self,
        open: char,
        close: char,
        item: impl Fn(&mut Self) -> Result<T, String>,
    ) -> Result<Vec<T>, String> {
        self.sign(open)?;
        let mut items = Vec::new();
        if self.sign(close).is_ok() {
            return Ok(items);
        }
        loop {
            items.push(item(self)?);
            if self.sign(close).is_ok() {
                return Ok(items);
            }
            self.sign(',')?;
        }
    }

    fn value(&mut self) -> Result<Json, String> {
        self.blanks();
        match self.rest.chars().next() {
            Some('{') => {
                let pairs = self.list('{', '}', |reader| {
                    reader.blanks();
                    let key = reader.text()?;
                    reader.sign(':')?;
                    Ok((key, reader.value()?))
                })?;
                let mut keys: Vec<&String> = pairs.iter().map(|(key, _)| key).collect();
                keys.sort();
                match keys.windows(2).any(|two| two[0] == two[1]) {
                    true => Err("a key twice".to_string()),
                    false => Ok(Json::Object(pairs)),
                }
            }
            Some('[') => self.list('[', ']', Self::value).map(Json::Array),
            Some('"') => self.text().map(Json::Text),
            Some('n') if self.rest.starts_with("null") => {
                self.rest = &self.rest["null".len()..];
                Ok(Json::Null)
            }
            Some('0'..='9') => {
                let end = self.rest.find(|sign: char| !sign.is_ascii_digit());
                let (digits, rest) = self.rest.split_at(end.unwrap_or(self.rest.len()));
                self.rest = rest;
                match digits.len() > 1 && digits.starts_with('0') {
                    true => Err(format!("a number with a 0 before: {digits}")),
                    false => Ok(Json::Number(digits.parse().map_err(|_| "too large")?)),
                }
            }
            _ => Err(format!("no value at `{}`", self.rest)),
        }
    }
}

fn json(text: &[u8]) -> Result<Json, String> {
    let text = std::str::from_utf8(text).map_err(|error| error.to_string())?;
    let mut reader = Reader { rest: text };
    let value = reader.value()?;
    reader.blanks();
    match reader.rest {
        "" => Ok(value),
        rest => Err(format!("more: {rest}")),
    }
}

#[test]
fn the_reader_of_json_is_strict() {
    for good in [
        "{}",
        "[]",
        " [ 1 , 2 ] ",
        r#"{"a":[{"b":0}],"c":"\"\\\u0007"}"#,
        "[null,{\"a\":null}]",
    ] {
        json(good.as_bytes()).expect(good);
    }
    for bad in [
        "",
        "{",
        "[1,]",
        "[1 2]",
        "{a:1}",
        "{\"a\" 1}",
        "{\"a\":1,}",
        "[01]",
        "[1]x",
        "'a'",
        "\"a",
        "\"\\x\"",
        "\"\n\"",
        "{\"a\":1,\"a\":2}",
        "[,1]",
        "{\"a\":}",
        "[1",
        "-",
        "tru",
        "nul",
        "[nullx]",
        "Null",
    ] {
        assert!(json(bad.as_bytes()).is_err(), "{bad}");
    }
}

fn field(object: &Json, key: &str) -> Json {
    let Json::Object(pairs) = object else {
        panic!("{object:?}")
    };
    let found = pairs.iter().find(|(own, _)| own == key);
    found
        .unwrap_or_else(|| panic!("{key}: {object:?}"))
        .1
        .clone()
}

fn keys(object: &Json) -> Vec<&str> {
    let Json::Object(pairs) = object else {
        panic!("{object:?}")
    };
    pairs.iter().map(|(key, _)| key.as_str()).collect()
}

fn words(json: &Json) -> String {
    match json {
        Json::Number(number) => number.to_string(),
        Json::Array(items) => items.iter().map(words).collect::<Vec<_>>().join(" "),
        other => panic!("{other:?}"),
    }
}

/// The rows of a listing or sheet, from its object.
fn rows_of(object: &Json) -> String {
    let mut rows = String::new();
    let own = keys(object);
    if own.contains(&"line") {
        rows += &format!("line {}\n", words(&field(object, "line")));
        let Json::Array(lines) = field(object, "hold") else {
            panic!("{object:?}")
        };
        for (holder, line) in lines.iter().enumerate() {
            rows += &format!("hold {holder} {}\n", words(line));
        }
    }
    let Json::Array(kept) = field(object, "checkpoints") else {
        panic!("{object:?}")
    };
    for one in kept {
        assert_eq!(keys(&one), ["process", "number"]);
        let (process, number) = (field(&one, "process"), field(&one, "number"));
        rows += &format!("checkpoint {} {}\n", words(&process), words(&number));
    }
    let Json::Array(positions) = field(object, "messages") else {
        panic!("{object:?}")
    };
    for position in positions {
        rows += &format!("message {}\n", words(&position));
    }
    if own.contains(&"share") {
        rows += &format!("share {}\n", words(&field(object, "share")));
    }
    rows
}

#[test]
fn json_of_the_corpus() {
    for case in corpus() {
        let ran = keeper(&["list", "--json", &case.path], b"");
        let object = json(&ran.output).unwrap_or_else(|error| panic!("{}: {error}", case.name));
        assert!(ran.output.ends_with(b"}\n"));
        let sheet = keeper(&["sheet", "--json", &case.path], b"");
        match refused(&case.listing) {
            None => {
                assert_eq!(ran.status, 0);
                assert_eq!(
                    keys(&object),
                    ["line", "hold", "checkpoints", "messages", "share"]
                );
                assert_eq!(rows_of(&object).as_bytes(), case.listing, "{}", case.name);
                let object = json(&sheet.output).expect("JSON");
                assert_eq!(keys(&object), ["checkpoints", "messages"]);
                assert_eq!(rows_of(&object), kept_rows(&case.listing), "{}", case.name);
            }
            Some(number) => {
                assert_eq!((ran.status, sheet.status), (1, 1), "{}", case.name);
                assert_eq!(keys(&object), ["refused", "words"]);
                assert_eq!(field(&object, "refused"), Json::Number(number));
                let Json::Text(words) = field(&object, "words") else {
                    panic!("{object:?}")
                };
                let message = format!("keeper: {}: refused {number}: {words}\n", case.path);
                assert_eq!(ran.errors, message);
                assert_eq!((sheet.output, sheet.errors), (ran.output, message));
            }
        }
    }
    let mut random = Random(5);
    for _ in 0..20 {
        let table = random.table(6, 20, 9);
        let object = json(&done(&["list", "--json"], &table)).expect("JSON");
        assert_eq!(rows_of(&object).as_bytes(), done(&["list"], &table));
    }
}

#[test]
fn json_in_full() {
    let a = example_a();
    assert_eq!(
        String::from_utf8(done(&["list", "--json"], &a)).expect("UTF-8"),
        "{\"line\":[1,1],\"hold\":[[1,1],[3,2]],\"checkpoints\":[{\"process\":0,\"number\":1},\
         {\"process\":1,\"number\":1},{\"process\":1,\"number\":2}],\"messages\":[0,4],\"share\":50}\n"
    );
    let ran = keeper(&["list", "--json"], &bytes(&[1, 0, 4097]));
    assert_eq!(
        String::from_utf8(ran.output).expect("UTF-8"),
        "{\"refused\":5,\"words\":\"process 0 has 4097 checkpoints, and must have 1 to 4096\"}\n"
    );
    // A text is read, and JSON is written.
    let text = done(&["decode"], &a);
    assert_eq!(
        done(&["list", "--text", "--json"], &text),
        done(&["list", "--json"], &a)
    );
    assert_eq!(
        done(&["sheet", "--text", "--json"], &text),
        done(&["sheet", "--json"], &a)
    );
}

/// A message each way between two processes that have not saved: of what waits
/// all is kept, and of what is received by both nothing.
#[test]
fn received_and_not_saved_is_not_always_kept() {
    let text = |ends: [&str; 2]| {
        let [one, other] = ends;
        format!("processes 2\nstates 1 1\nmessage 0.0 -> {one}\nmessage 1.0 -> {other}\n")
    };
    let kept = |ends: [&str; 2]| {
        let rows = done(&["sheet", "--text"], text(ends).as_bytes());
        String::from_utf8(rows).expect("ASCII")
    };
    let states = "checkpoint 0 0\ncheckpoint 1 0\n";
    let both = format!("{states}message 0\nmessage 1\n");
    assert_eq!(kept(["1 waiting", "0 waiting"]), both);
    assert_eq!(kept(["1.1 unsaved", "0 waiting"]), both);
    assert_eq!(kept(["1.1 unsaved", "0.1 unsaved"]), states);
    let unsaved = text(["1.1", "0.1"]);
    assert_eq!(
        String::from_utf8(done(&["list", "--json", "--text"], unsaved.as_bytes())).expect("UTF-8"),
        "{\"line\":[0,0],\"hold\":[[0,0],[0,0]],\"checkpoints\":[{\"process\":0,\"number\":0},\
         {\"process\":1,\"number\":0}],\"messages\":[],\"share\":100}\n"
    );
}

#[test]
fn lines_in_json() {
    let a = example_a();
    for (arguments, line) in [
        (&["line", "--json"][..], "[1,1]"),
        (&["line", "--json", "1"], "[3,2]"),
        (&["line", "--json", "--under", "0,-"], "[0,1]"),
        (&["line", "--json", "--marking"], "[1,1]"),
        (&["line", "--json", "--marking", "1"], "[3,2]"),
        (&["line", "--json", "--marking", "--under", "0,-"], "[0,1]"),
    ] {
        let written = String::from_utf8(done(arguments, &a)).expect("UTF-8");
        assert_eq!(written, format!("{{\"line\":{line}}}\n"), "{arguments:?}");
        json(written.as_bytes()).expect("JSON");
    }
    let one = done(&["line", "--json"], &bytes(&[1, 0, 1]));
    assert_eq!(one, b"{\"line\":[0]}\n");
    // A refusal of the call, and one of the table, are written so, too.
    for (arguments, table, number, words) in [
        (
            &["line", "--json", "2"][..],
            &a[..],
            12,
            "there is no process 2 (N is 2)",
        ),
        (
            &["line", "--json", "--under", "3,2,1"],
            &a,
            17,
            "3 ceilings for 2 processes",
        ),
        (
            &["line", "--json", "--marking", "2"],
            &a,
            12,
            "there is no process 2 (N is 2)",
        ),
        (
            &["line", "--json", "--marking", "--under", "3"],
            &a,
            17,
            "1 ceiling for 2 processes",
        ),
        (
            &["line", "--json", "--under", "3,4"],
            &a,
            18,
            "the ceiling 4 of process 1 is above its count 3",
        ),
        (
            &["line", "--json"],
            &a[..3],
            1,
            "the table has 3 bytes, and needs 4 at least",
        ),
    ] {
        let ran = keeper(arguments, table);
        let expected = format!("{{\"refused\":{number},\"words\":\"{words}\"}}\n");
        assert_eq!(String::from_utf8_lossy(&ran.output), expected);
        json(&ran.output).expect("JSON");
        assert_eq!(ran.status, 1, "{arguments:?}");
        let told = ran
            .errors
            .ends_with(&format!("refused {number}: {words}\n"));
        assert!(told, "{}", ran.errors);
    }
}

#[test]
fn named_checkpoints_in_json() {
    let a = example_a();
    for (names, line) in [
        (&[][..], "[3,3]"),
        (&["1.2"], "[3,2]"),
        (&["1.1", "0.1"], "[1,1]"),
    ] {
        let arguments = [&["stand", "--json"], names].concat();
        let written = String::from_utf8(done(&arguments, &a)).expect("UTF-8");
        assert_eq!(written, format!("{{\"line\":{line}}}\n"), "{names:?}");
        json(written.as_bytes()).expect("JSON");
    }
    // A no has no line, and a path.
    for (names, from, to, path) in [
        (&["0.2"][..], [0, 2], [0, 2], &[3, 2][..]),
        (&["1.0", "0.1"], [1, 0], [0, 1], &[1]),
    ] {
        let arguments = [&["stand", "--json"], names].concat();
        let ran = keeper(&arguments, &a);
        assert_eq!(ran.status, 3, "{names:?}");
        assert!(ran.errors.starts_with("keeper: no: "), "{}", ran.errors);
        assert!(ran.output.ends_with(b"}\n"), "{names:?}");
        let object = json(&ran.output).expect("JSON");
        assert_eq!(keys(&object), ["line", "from", "to", "path"]);
        assert_eq!(field(&object, "line"), Json::Null);
        for (key, [process, number]) in [("from", from), ("to", to)] {
            let end = field(&object, key);
            assert_eq!(keys(&end), ["process", "number"]);
            assert_eq!(field(&end, "process"), Json::Number(process));
            assert_eq!(field(&end, "number"), Json::Number(number));
        }
        let path = path.iter().copied().map(Json::Number).collect();
        assert_eq!(field(&object, "path"), Json::Array(path), "{names:?}");
    }
    for (names, table, number, words) in [
        (&["2.0"][..], &a[..], 21, "there is no process 2 (N is 2)"),
        (
            &["0.3"],
            &a,
            22,
            "there is no checkpoint 3 of process 0: it has 3 checkpoints",
        ),
        (
            &["9.9"],
            &a[..3],
            1,
            "the table has 3 bytes, and needs 4 at least",
        ),
    ] {
        let ran = keeper(&[&["stand", "--json"], names].concat(), table);
        let expected = format!("{{\"refused\":{number},\"words\":\"{words}\"}}\n");
        assert_eq!(String::from_utf8_lossy(&ran.output), expected);
        assert_eq!(ran.status, 1, "{names:?}");
    }
}
