//! Sets of processes as they are asked for, in arguments and in a file of lines:
//!
//! ```text
//! # comments and blank lines may stand anywhere
//! none
//! 0,2
//! all
//! singles
//! pairs
//! ```

use std::ffi::OsStr;
use std::os::unix::ffi::OsStrExt;

use crate::text::{self, Line, SyntaxError};

/// Those that stand for a set, or for several.
pub const WORDS: &[&str] = &["none", "all", "singles", "pairs"];

/// What is said of a set that is not in the form.
const FORM: &str =
    "a set is processes with commas between, such as 0,2, or `none`, `all`, `singles` or `pairs`";

/// A process of a set, which has 32 bits, is numbered up to here.
const LAST: u16 = keeper::MOST_PROCESSES as u16 - 1;

/// A set, or several by one word.
#[derive(Clone, Debug, PartialEq, Eq)]
pub enum Asked {
    /// These, numbered 0 to 31; none of them is the empty set.
    Processes(Vec<u16>),
    All,
    /// Each process alone.
    Singles,
    /// Each two processes.
    Pairs,
}

impl Asked {
    fn word(word: &str) -> Option<Asked> {
        match word {
            "none" => Some(Asked::Processes(vec![])),
            "all" => Some(Asked::All),
            "singles" => Some(Asked::Singles),
            "pairs" => Some(Asked::Pairs),
            _ => None,
        }
    }

    /// The processes that it names.
    pub fn named(&self) -> &[u16] {
        match self {
            Asked::Processes(processes) => processes,
            _ => &[],
        }
    }

    /// The sets of `n` processes, in which process p is bit p.
    pub fn sets(&self, n: u16) -> Vec<u32> {
        let one = |process: u16| 1 << process;
        match self {
            Asked::Processes(processes) => vec![union(processes.iter().copied())],
            Asked::All => vec![union(0..n)],
            Asked::Singles => (0..n).map(one).collect(),
            Asked::Pairs => (0..n)
                .flat_map(|first| (first + 1..n).map(move |second| one(first) | one(second)))
                .collect(),
        }
    }
}

fn union(processes: impl Iterator<Item = u16>) -> u32 {
    processes.fold(0, |set, process| set | 1 << process)
}

/// The processes of a set, rising.
pub fn processes(set: u32) -> Vec<u16> {
    (0..=LAST)
        .filter(|process| set >> process & 1 == 1)
        .collect()
}

/// A set as it is asked for: `0,2`, or `none`.
pub fn shown(processes: &[u16]) -> String {
    match processes {
        [] => "none".to_string(),
        _ => joined(processes, ","),
    }
}

/// Numbers with a sign between two.
pub fn joined(numbers: &[u16], between: &str) -> String {
    let numbers: Vec<String> = numbers.iter().map(u16::to_string).collect();
    numbers.join(between)
}

/// Whether an argument has the form of a set: one of the words, or numbers of any
/// size and commas.
pub fn has_form(argument: &OsStr) -> bool {
    let bytes = argument.as_bytes();
    let of_list = |byte: &u8| byte.is_ascii_digit() || *byte == b',';
    let list = bytes.iter().all(of_list) && bytes.iter().any(u8::is_ascii_digit);
    list || WORDS.iter().any(|word| argument == *word)
}

/// Reads an argument, or says what is wrong with it.
pub fn read(argument: &OsStr) -> Result<Asked, String> {
    let text = argument
        .to_str()
        .filter(|_| has_form(argument))
        .ok_or_else(|| not_a_set(argument))?;
    if let Some(asked) = Asked::word(text) {
        return Ok(asked);
    }
    let process = |part: &str| match part.parse() {
        Ok(process) if process <= LAST => Ok(process),
        _ if part.is_empty() => Err(format!("`{text}`: a process is missing: {FORM}")),
        _ => Err(format!(
            "`{part}`: a process that holds is numbered 0 to {LAST}"
        )),
    };
    let processes = text.split(',').map(process).collect::<Result<_, _>>();
    processes.map(Asked::Processes)
}

pub fn not_a_set(argument: &OsStr) -> String {
    format!("`{}` is no set: {FORM}", argument.to_string_lossy())
}

/// What a line of a file asks for.
#[derive(Debug, PartialEq, Eq)]
pub struct Row {
    pub asked: Asked,
    /// From 1.
    pub line: usize,
    /// By process that it names, the column, from 1.
    pub columns: Vec<usize>,
}

/// Reads a file of lines.
pub fn rows(text: &[u8]) -> Result<Vec<Row>, SyntaxError> {
    text::lines(text::unmarked(text)).map(row).collect()
}

fn row(mut line: Line) -> Result<Row, SyntaxError> {
    line.skip_blanks();
    let length = line.run(u8::is_ascii_alphanumeric);
    let word = std::str::from_utf8(&line.bytes[line.at..line.at + length]).expect("ASCII");
    let (mut columns, number) = (Vec::new(), line.number);
    let asked = match Asked::word(word) {
        Some(asked) => {
            line.at += length;
            asked
        }
        None => {
            let mut processes = Vec::new();
            let mut what = "a set, such as 0,2, or `none`, `all`, `singles` or `pairs`";
            loop {
                line.skip_blanks();
                if line.run(u8::is_ascii_digit) == 0 {
                    return line.error(what);
                }
                columns.push(line.at + 1);
                processes.push(line.number_to(LAST, "a process")?);
                if line.at_end() || line.bytes[line.at] != b',' {
                    break;
                }
                line.at += 1;
                what = "a process after the comma";
            }
            Asked::Processes(processes)
        }
    };
    line.end("the set")?;
    Ok(Row {
        asked,
        line: number,
        columns,
    })
}

#[cfg(test)]
mod tests {
    use super::*;

    fn of(processes: &[u16]) -> Asked {
        Asked::Processes(processes.to_vec())
    }

    #[test]
    fn arguments() {
        for (argument, asked) in [
            ("none", of(&[])),
            ("all", Asked::All),
            ("singles", Asked::Singles),
            ("pairs", Asked::Pairs),
            ("0", of(&[0])),
            ("31", of(&[31])),
            ("2,0", of(&[2, 0])),
            ("01,1,007", of(&[1, 1, 7])),
        ] {
            assert!(has_form(argument.as_ref()), "{argument}");
            assert_eq!(read(argument.as_ref()), Ok(asked), "{argument}");
        }
        // In the form, and yet no set.
        for (argument, message) in [
            ("0,", format!("`0,`: a process is missing: {FORM}")),
            (",0", format!("`,0`: a process is missing: {FORM}")),
            ("0,,2", format!("`0,,2`: a process is missing: {FORM}")),
            (
                "32",
                "`32`: a process that holds is numbered 0 to 31".to_string(),
            ),
            (
                "0,99999999999999999999",
                "`99999999999999999999`: a process that holds is numbered 0 to 31".to_string(),
            ),
        ] {
            assert!(has_form(argument.as_ref()), "{argument}");
            assert_eq!(read(argument.as_ref()), Err(message), "{argument}");
        }
        for argument in [
            "", ",", "-", "0.1", "0-2", "0, 2", "None", "./all", "0,x", "+1",
        ] {
            assert!(!has_form(argument.as_ref()), "{argument}");
            let message = format!("`{argument}` is no set: {FORM}");
            assert_eq!(read(argument.as_ref()), Err(message), "{argument}");
        }
    }

    #[test]
    fn the_sets_of_words() {
        for (asked, n, sets) in [
            (of(&[]), 3, &[0][..]),
            (of(&[2, 0, 2]), 3, &[0b101]),
            (of(&[31]), 3, &[1 << 31]),
            (Asked::All, 1, &[1]),
            (Asked::All, 3, &[0b111]),
            (Asked::All, 32, &[u32::MAX]),
            (Asked::Singles, 1, &[1]),
            (Asked::Singles, 3, &[0b001, 0b010, 0b100]),
            (Asked::Pairs, 1, &[]),
            (Asked::Pairs, 2, &[0b11]),
            (Asked::Pairs, 3, &[0b011, 0b101, 0b110]),
        ] {
            assert_eq!(asked.sets(n), sets, "{asked:?}, {n}");
        }
        assert_eq!(Asked::Singles.sets(32).last(), Some(&(1 << 31)));
        assert_eq!(Asked::Pairs.sets(32).len(), 496);
        assert_eq!(Asked::Pairs.sets(32).last(), Some(&(0b11 << 30)));
    }

    #[test]
    fn sets_as_they_are_shown() {
        assert_eq!(processes(0b1000_0101), [0, 2, 7]);
        assert_eq!(processes(1 << 31), [31]);
        assert_eq!(shown(&[0, 2, 7]), "0,2,7");
        assert_eq!(shown(&[]), "none");
        assert_eq!(joined(&[0, 12], " "), "0 12");
        for set in [0, 1, 0b110, u32::MAX] {
            let argument = shown(&processes(set));
            let asked = read(argument.as_ref()).expect("a set");
            assert_eq!(asked.sets(32), [set]);
        }
    }

    #[test]
    fn files() {
        let row = |asked: Asked, line: usize, columns: &[usize]| Row {
            asked,
            line,
            columns: columns.to_vec(),
        };
        let text =
            b"\xef\xbb\xbf# sets\r\n\r\n0,2\r\n none # nobody\n\t1 , 31,1\n all\nsingles\n\npairs";
        let expected = [
            row(of(&[0, 2]), 3, &[1, 3]),
            row(of(&[]), 4, &[]),
            row(of(&[1, 31, 1]), 5, &[2, 6, 9]),
            row(Asked::All, 6, &[]),
            row(Asked::Singles, 7, &[]),
            row(Asked::Pairs, 9, &[]),
        ];
        assert_eq!(rows(text).expect("in the form"), expected);
        for text in [&b""[..], b"\n", b"# none", b"\xef\xbb\xbf", b"\r\n\r\n"] {
            assert_eq!(rows(text), Ok(vec![]));
        }
        let set = "a set, such as 0,2, or `none`, `all`, `singles` or `pairs`";
        for (text, line, column, expected, found) in [
            ("x", 1, 1, set, "`x`"),
            ("0\n\n -1", 3, 2, set, "`-`"),
            (",0", 1, 1, set, "`,`"),
            ("nones", 1, 1, set, "`nones`"),
            (
                "0,",
                1,
                3,
                "a process after the comma",
                "the end of the line",
            ),
            ("0, # 1", 1, 4, "a process after the comma", "a comment"),
            ("0,,1", 1, 3, "a process after the comma", "`,`"),
            ("0,all", 1, 3, "a process after the comma", "`all`"),
            ("0,32", 1, 3, "a process of at most 31", "`32`"),
            ("65536", 1, 1, "a process of at most 31", "`65536`"),
            ("0 2", 1, 3, "the end of the line after the set", "`2`"),
            ("0.2", 1, 2, "the end of the line after the set", "`.`"),
            ("all 2", 1, 5, "the end of the line after the set", "`2`"),
            ("none,2", 1, 5, "the end of the line after the set", "`,`"),
            ("1\r2", 1, 2, "the end of the line after the set", "`\\r`"),
        ] {
            let error = rows(text.as_bytes()).expect_err("not in the form");
            let place = (error.line, error.column);
            assert_eq!(place, (line, column), "{text}");
            let words = (error.expected.as_str(), error.found.as_str());
            assert_eq!(words, (expected, found), "{text}");
        }
    }
}
