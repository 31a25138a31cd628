//! The text form of a run table:
//!
//! ```text
//! # comments and blank lines may stand anywhere
//! processes 2
//! states 3 3
//! message 0.0 -> 1.2
//! message 0.1 -> 1.3 unsaved
//! message 1.2 -> 0 waiting
//! ```
//!
//! A message whose receipt number is its receiver's count is received and not
//! saved yet. `unsaved` says so, is written always and may be left out; behind
//! another number it is an error.
//!
//! What is read here is the form alone. Whether the numbers make a table is
//! the library's to say.

use std::fmt::{self, Write};

use keeper::{Message, Refusal, Table};

use crate::explain::{self, Culprit};

/// Where a text leaves the form, and what the form has there.
#[derive(Debug, PartialEq, Eq)]
pub struct SyntaxError {
    /// From 1.
    pub line: usize,
    /// From 1, in characters.
    pub column: usize,
    pub expected: String,
    pub found: String,
}

impl fmt::Display for SyntaxError {
    fn fmt(&self, to: &mut fmt::Formatter<'_>) -> fmt::Result {
        write!(to, "expected {}, found {}", self.expected, self.found)
    }
}

/// A text that was read: the bytes of its table, and the lines where its parts
/// stand.
#[derive(Debug)]
pub struct Read {
    pub table: Vec<u8>,
    processes_line: usize,
    states_line: usize,
    /// By position.
    pub message_lines: Vec<usize>,
}

impl Read {
    /// The line of what the library refused, where one line is to blame; of two messages
    /// that are out of turn the line of the later one.
    pub fn line_of(&self, refusal: Refusal) -> Option<usize> {
        match refusal {
            Refusal::ProcessesOutOfRange => Some(self.processes_line),
            Refusal::TooManyMessages => self.message_lines.get(keeper::MOST_MESSAGES).copied(),
            _ => match explain::culprit(&self.table, refusal)? {
                Culprit::Process(_) => Some(self.states_line),
                Culprit::Message(k) | Culprit::Pair { later: k, .. } => {
                    self.message_lines.get(k).copied()
                }
            },
        }
    }
}

/// A line of a text, and how far it has been read. All before `at` is plain
/// ASCII, so that bytes are columns.
pub struct Line<'a> {
    pub bytes: &'a [u8],
    pub at: usize,
    pub number: usize,
}

/// The lines of a text that have more than blanks and a comment.
pub fn lines(text: &[u8]) -> impl Iterator<Item = Line<'_>> {
    text.split(|byte| *byte == b'\n')
        .enumerate()
        .map(|(place, bytes)| Line {
            bytes: bytes.strip_suffix(b"\r").unwrap_or(bytes),
            at: 0,
            number: place + 1,
        })
        .filter_map(|mut line| (!line.at_end()).then_some(line))
}

impl Line<'_> {
    pub fn skip_blanks(&mut self) {
        while matches!(self.bytes.get(self.at), Some(b' ' | b'\t')) {
            self.at += 1;
        }
    }

    /// Whether only blanks and a comment are left.
    pub fn at_end(&mut self) -> bool {
        self.skip_blanks();
        matches!(self.bytes.get(self.at), None | Some(b'#'))
    }

    /// How many bytes from here on are such bytes.
    pub fn run(&self, such: impl Fn(&u8) -> bool) -> usize {
        self.bytes[self.at..]
            .iter()
            .take_while(|byte| such(byte))
            .count()
    }

    pub fn error<T>(&self, expected: impl Into<String>) -> Result<T, SyntaxError> {
        let found = match self.bytes.get(self.at) {
            None => "the end of the line".to_string(),
            Some(b'#') => "a comment".to_string(),
            Some(b' ' | b'\t') => "a blank".to_string(),
            Some(byte) => {
                let length = match byte.is_ascii_alphanumeric() {
                    true => self.run(u8::is_ascii_alphanumeric).min(20),
                    false => {
                        1 + self.bytes[self.at + 1..]
                            .iter()
                            .take_while(|next| **next & 0xc0 == 0x80)
                            .count()
                    }
                };
                let some = String::from_utf8_lossy(&self.bytes[self.at..self.at + length]);
                format!("`{}`", some.escape_debug())
            }
        };
        Err(SyntaxError {
            line: self.number,
            column: self.at + 1,
            expected: expected.into(),
            found,
        })
    }

    fn word(&mut self, word: &str) -> Result<(), SyntaxError> {
        self.skip_blanks();
        let length = self.run(u8::is_ascii_alphanumeric);
        if &self.bytes[self.at..self.at + length] != word.as_bytes() {
            return self.error(format!("`{word}`"));
        }
        self.at += length;
        Ok(())
    }

    fn sign(&mut self, sign: &str, expected: &str) -> Result<(), SyntaxError> {
        if !self.bytes[self.at..].starts_with(sign.as_bytes()) {
            return self.error(expected);
        }
        self.at += sign.len();
        Ok(())
    }

    /// A decimal number of 16 bits.
    fn number(&mut self, what: &str) -> Result<u16, SyntaxError> {
        self.number_to(u16::MAX, what)
    }

    /// A decimal number that is no larger.
    pub fn number_to(&mut self, most: u16, what: &str) -> Result<u16, SyntaxError> {
        let length = self.run(u8::is_ascii_digit);
        if length == 0 {
            return self.error(what);
        }
        let digits = std::str::from_utf8(&self.bytes[self.at..self.at + length]).expect("digits");
        match digits.parse() {
            Ok(number) if number <= most => {
                self.at += length;
                Ok(number)
            }
            _ => self.error(format!("{what} of at most {most}")),
        }
    }

    /// The word `unsaved` behind a receipt number, where it stands there: the
    /// number must be the count of the receiver.
    fn unsaved(&mut self, received: u16, receiver: u16, counts: &[u16]) -> Result<(), SyntaxError> {
        let touching = !matches!(self.bytes.get(self.at), Some(b' ' | b'\t'));
        self.skip_blanks();
        let length = self.run(u8::is_ascii_alphanumeric);
        if touching || &self.bytes[self.at..self.at + length] != b"unsaved" {
            return Ok(());
        }
        let since = match counts.get(usize::from(receiver)) {
            Some(count) if *count == received => {
                self.at += length;
                return Ok(());
            }
            Some(count) => format!("the count of process {receiver} is {count}"),
            None => format!("there is no process {receiver}"),
        };
        self.error(format!(
            "no `unsaved` behind receipt number {received}, since {since}"
        ))
    }

    pub fn end(&mut self, after: &str) -> Result<(), SyntaxError> {
        match self.at_end() {
            true => Ok(()),
            false => self.error(format!("the end of the line after {after}")),
        }
    }
}

/// A text without the mark of UTF-8 that it may begin with.
pub fn unmarked(text: &[u8]) -> &[u8] {
    text.strip_prefix(b"\xef\xbb\xbf").unwrap_or(text)
}

/// Whether bytes begin as a text does: with `processes`, after blanks and
/// comments.
pub fn looks_like_text(bytes: &[u8]) -> bool {
    unmarked(bytes)
        .split(|byte| *byte == b'\n')
        .map(<[u8]>::trim_ascii)
        .find(|line| !line.is_empty() && !line.starts_with(b"#"))
        .is_some_and(|line| line.starts_with(b"processes"))
}

/// Whether bytes are a table rather than a text: an accepted one, or bytes of 0
/// among them, which no text has outside of comments.
pub fn looks_like_table(bytes: &[u8]) -> bool {
    keeper::check_table(bytes).is_ok() || bytes.contains(&0)
}

/// Reads a text.
pub fn read(text: &[u8]) -> Result<Read, SyntaxError> {
    let text = unmarked(text);
    let mut lines = lines(text);
    // An end that comes too early stands behind the last line.
    let last = text.iter().filter(|byte| **byte == b'\n').count()
        + usize::from(!text.is_empty() && !text.ends_with(b"\n"));
    let early = |expected: &str| SyntaxError {
        line: last + 1,
        column: 1,
        expected: expected.to_string(),
        found: "the end of the text".to_string(),
    };

    let mut line = lines.next().ok_or_else(|| early("`processes`"))?;
    line.word("processes")?;
    line.skip_blanks();
    let n = line.number("the number of processes")?;
    line.end("the number of processes")?;
    let processes_line = line.number;

    let mut line = lines.next().ok_or_else(|| early("`states`"))?;
    line.word("states")?;
    let mut counts = Vec::new();
    for process in 0..n {
        line.skip_blanks();
        counts.push(line.number(&format!("the count of process {process}"))?);
    }
    line.end(&format!("{n} counts"))?;
    let states_line = line.number;

    let (mut sends, mut receipts, mut message_lines) = (Vec::new(), Vec::new(), Vec::new());
    for mut line in lines {
        if message_lines.len() == usize::from(u16::MAX) {
            return line.error("no more than 65535 messages");
        }
        line.word("message")?;
        line.skip_blanks();
        sends.push(line.number("the sender")?);
        line.sign(".", "`.` after the sender")?;
        sends.push(line.number("the send number")?);
        line.skip_blanks();
        line.sign("->", "`->`")?;
        line.skip_blanks();
        let receiver = line.number("the receiver")?;
        receipts.push(receiver);
        if line.bytes.get(line.at) == Some(&b'.') {
            line.at += 1;
            let start = line.at;
            let received = line.number("the receipt number")?;
            if received == 0 {
                line.at = start;
                return line.error("a receipt number of at least 1 (of a message not received, `waiting` after the receiver)");
            }
            receipts.push(received);
            line.unsaved(received, receiver, &counts)?;
        } else {
            let touching = !matches!(line.bytes.get(line.at), None | Some(b' ' | b'\t' | b'#'));
            if touching || line.at_end() || line.word("waiting").is_err() {
                return line.error("`.` and the receipt number, or `waiting`");
            }
            receipts.push(0);
        }
        line.end("the message")?;
        message_lines.push(line.number);
    }

    let m = message_lines.len() as u16;
    let numbers = [n, m]
        .into_iter()
        .chain(counts)
        .chain(sends)
        .chain(receipts);
    let table = numbers.flat_map(u16::to_le_bytes).collect();
    Ok(Read {
        table,
        processes_line,
        states_line,
        message_lines,
    })
}

/// The text of a table.
pub fn write(table: &Table) -> String {
    let mut text = format!("processes {}\nstates", table.processes());
    for count in table.counts() {
        let _ = write!(text, " {count}");
    }
    text.push('\n');
    for message in table.messages() {
        let _ = writeln!(text, "message {}", ends(&message));
    }
    text
}

/// A message by its ends: `0.0 -> 1.2`, `0.1 -> 1.3 unsaved`, `1.2 -> 0 waiting`.
pub fn ends(message: &Message) -> String {
    let sent = format!(
        "{}.{} -> {}",
        message.sender, message.sent, message.receiver
    );
    match message.received {
        None => format!("{sent} waiting"),
        Some(received) if message.is_unsaved() => format!("{sent}.{received} unsaved"),
        Some(received) => format!("{sent}.{received}"),
    }
}
