//! What is read: a table, or a text of which one is made.

use std::ffi::OsStr;
use std::fs::File;
use std::io::{self, Read};

use keeper::{Refusal, Table};

use crate::arguments::Arguments;
use crate::command::Failure;
use crate::explain::{self, Call, Places};
use crate::{json, text};

/// A text of more bytes is not read.
pub const MOST_TEXT: usize = 16 << 20;

/// A table, accepted or not, that was read or that a text gives.
pub struct Input {
    pub table: Vec<u8>,
    name: String,
    text: Option<text::Read>,
    /// Where its messages stand in a text.
    places: Places,
    of_script: bool,
    /// What is said where a text was given for a table.
    advice: &'static str,
}

impl Input {
    /// Reads FILE, or standard input.
    pub fn read(arguments: &Arguments) -> Result<Input, Failure> {
        match arguments.text_in() {
            true => Input::read_text(arguments),
            false => Input::read_table(arguments),
        }
    }

    fn read_table(arguments: &Arguments) -> Result<Input, Failure> {
        // One byte more than the largest table tells that the table is longer,
        // and no check tells how much longer.
        let (name, table) = read(arguments.file.as_deref(), keeper::LARGEST_TABLE)?;
        let advice = match arguments.subcommand.option("--text-in") {
            Some(_) => "read it with --text",
            None => "`keeper encode` makes a table of it",
        };
        Ok(Input {
            table,
            name,
            text: None,
            places: Places::default(),
            of_script: false,
            advice,
        })
    }

    /// Reads a text, whatever the options say.
    pub fn read_text(arguments: &Arguments) -> Result<Input, Failure> {
        let (name, bytes) = read(arguments.file.as_deref(), MOST_TEXT)?;
        if bytes.len() > MOST_TEXT {
            return Err(Failure::trouble(format!(
                "{name}: longer than a text may be ({MOST_TEXT} bytes)"
            )));
        }
        let text = text::read(&bytes).map_err(|error| {
            let place = format!("{name}:{}:{}", error.line, error.column);
            Failure::trouble(match text::looks_like_table(&bytes) {
                false => format!("{place}: {error}"),
                true if arguments.text_in() => {
                    let instead = match arguments.text_out() {
                        true => ", or with --text-out to have a text written",
                        false => "",
                    };
                    format!("{name}: this is a table, and no text: read it without --text{instead}")
                }
                true => format!("{name}: this is a table, and no text"),
            })
        })?;
        Ok(Input {
            table: text.table.clone(),
            places: Places {
                name: name.clone(),
                lines: text.message_lines.clone(),
            },
            name,
            text: Some(text),
            of_script: false,
            advice: "",
        })
    }

    /// The table that a step of a script left, and where its messages stand in the
    /// text that the script began with.
    pub fn of_script(table: Table, places: Places) -> Input {
        Input {
            table: table.into_bytes(),
            name: String::new(),
            text: None,
            places,
            of_script: true,
            advice: "",
        }
    }

    /// Where its messages stand in a text.
    pub fn places(&self) -> &Places {
        &self.places
    }

    /// Whether a script asks; its answers are all texts.
    pub fn is_of_script(&self) -> bool {
        self.of_script
    }

    /// What messages call it.
    pub fn name(&self) -> &str {
        &self.name
    }

    /// The table, where the library accepts it.
    pub fn accepted(&self) -> Result<Table, Failure> {
        Table::from_bytes(self.table.as_slice())
            .map_err(|refusal| self.refused(&Call::Table, refusal))
    }

    /// The table; with `--json` a refusal is written so as well.
    pub fn accepted_or_json(&self, arguments: &Arguments) -> Result<Table, Failure> {
        Table::from_bytes(self.table.as_slice())
            .map_err(|refusal| self.refused_or_json(&Call::Table, refusal, arguments))
    }

    /// The failure of a call on the table; with `--json` it is written so as
    /// well.
    pub fn refused_or_json(&self, call: &Call, refusal: Refusal, arguments: &Arguments) -> Failure {
        let failure = self.refused(call, refusal);
        let words = || match refusal.is_of_table() {
            true => self.table_words(refusal),
            false => explain::words(&self.table, &self.places, call, refusal),
        };
        match arguments.has("--json") {
            true => failure.with(json::refused(refusal, &words()).into()),
            false => failure,
        }
    }

    /// The failure of a call on the table.
    pub fn refused(&self, call: &Call, refusal: Refusal) -> Failure {
        if !refusal.is_of_table() {
            let message = explain::refusal(&self.table, &self.places, call, refusal);
            return Failure::refused(message);
        }
        let line = self.text.as_ref().and_then(|text| text.line_of(refusal));
        let place = match line {
            Some(line) => format!("{}:{line}", self.name),
            None => self.name.clone(),
        };
        let words = self.table_words(refusal);
        Failure::refused(format!("{place}: refused {}: {words}", refusal.number()))
    }

    /// What is said of a refused table.
    fn table_words(&self, refusal: Refusal) -> String {
        match self.text.is_none() && text::looks_like_text(&self.table) {
            true => format!("this is a text, and no table: {}", self.advice),
            false => explain::words(&self.table, &self.places, &Call::Table, refusal),
        }
    }
}

/// Whether standard input is read there: no file is named, or `-`.
pub fn is_standard(file: Option<&OsStr>) -> bool {
    file.is_none_or(|file| file == "-")
}

/// The name of a file, or of standard input, and of its bytes at most one more than
/// `most`.
pub fn read(file: Option<&OsStr>, most: usize) -> Result<(String, Vec<u8>), Failure> {
    let mut bytes = Vec::new();
    let most = most as u64 + 1;
    let (name, done) = match file {
        Some(file) if !is_standard(Some(file)) => {
            let done = File::open(file).and_then(|from| from.take(most).read_to_end(&mut bytes));
            (file.to_string_lossy().into_owned(), done)
        }
        _ => {
            let done = io::stdin().lock().take(most).read_to_end(&mut bytes);
            ("(standard input)".to_string(), done)
        }
    };
    match done {
        Ok(_) => Ok((name, bytes)),
        Err(error) => Err(Failure::trouble(format!("{name}: {error}"))),
    }
}
