//! The parts of the man page keeper.1 that the table of subcommands gives, in
//! mdoc. `tests/page.rs` compares them with the page, and writes them there.

use crate::usage::{Opt, Subcommand, Takes, Times, COMMON, EXIT_STATUS, OWN_OPTIONS, SUBCOMMANDS};

/// All parts, with the names that they have in the marks around them.
pub fn parts() -> [(&'static str, String); 3] {
    [
        ("subcommands", subcommands()),
        ("options", options()),
        ("exit status", exit_status()),
    ]
}

fn subcommands() -> String {
    let mut page = ".Bl -tag -width Ds\n".to_string();
    for subcommand in SUBCOMMANDS {
        page += &format!(".It Cm {}{}\n", subcommand.name, synopsis(subcommand));
        page += &paragraphs(subcommand.words);
        let own = subcommand.options.iter().filter(|option| !common(option));
        let own: Vec<&&Opt> = own.collect();
        if !own.is_empty() {
            page += ".Bl -tag -width Ds\n";
            for option in own {
                page += &row(option);
            }
            page += ".El\n";
        }
    }
    page + ".El\n"
}

/// The options that several subcommands, or the command itself, take.
fn options() -> String {
    let mut page = ".Bl -tag -width Ds\n".to_string();
    for option in COMMON.iter().chain(OWN_OPTIONS) {
        page += &row(option);
    }
    page + ".El\n"
}

fn exit_status() -> String {
    let rows: Vec<String> = EXIT_STATUS
        .iter()
        .map(|(status, words)| format!(".It {status}\n{}", paragraphs(words)))
        .collect();
    format!(".Bl -tag -width Ds\n{}.El\n", rows.concat())
}

/// Whether the list of options explains it.
fn common(option: &Opt) -> bool {
    COMMON.iter().any(|common| common.words == option.words)
}

fn row(option: &Opt) -> String {
    let names: Vec<String> = option.names.iter().map(|name| flag(name)).collect();
    let mut row = format!(".It {}", names.join(" , "));
    if option.takes != Takes::Nothing {
        row += &format!(" Ar {}", option.value.to_lowercase());
    }
    format!("{row}\n{}", paragraphs(option.words))
}

/// Options and arguments behind the name.
fn synopsis(subcommand: &Subcommand) -> String {
    let mut synopsis = String::new();
    for option in subcommand.options {
        let name = flag(option.names.last().expect("a name"));
        synopsis += &match option.takes {
            Takes::Nothing => format!(" Oo {name} Oc"),
            _ => format!(" Oo {name} Ar {} Oc", option.value.to_lowercase()),
        };
    }
    for argument in subcommand.arguments {
        let name = argument.name.to_lowercase();
        synopsis += &match argument.times {
            Times::Once => format!(" Ar {name}"),
            Times::AtMostOnce => format!(" Oo Ar {name} Oc"),
            Times::Any => format!(" Oo Ar {name} ... Oc"),
        };
    }
    if subcommand.file {
        synopsis += " Op Ar file";
    }
    synopsis
}

/// An option as the macro has it: without its first dash.
fn flag(name: &str) -> String {
    format!("Fl {}", escaped(&name[1..]))
}

fn escaped(text: &str) -> String {
    text.replace('\\', "\\e").replace('-', "\\-")
}

/// The names of arguments, which stand in capitals in the words.
fn is_argument(word: &str) -> bool {
    let arguments = SUBCOMMANDS.iter().flat_map(|row| row.arguments);
    let options = SUBCOMMANDS.iter().flat_map(|row| row.options.iter());
    word == "FILE"
        || arguments
            .map(|argument| argument.name)
            .any(|name| name == word)
        || options
            .map(|option| option.value)
            .any(|value| value == word && !value.is_empty())
}

/// Words as `usage` has them, in mdoc.
fn paragraphs(words: &str) -> String {
    let mut page = String::new();
    for (place, paragraph) in words.split("\n\n").enumerate() {
        if paragraph.starts_with("  ") {
            let example: Vec<String> = paragraph
                .lines()
                .map(|line| escaped(line.strip_prefix("  ").unwrap_or(line)))
                .collect();
            page += &format!(".Bd -literal -offset indent\n{}\n.Ed\n", example.join("\n"));
            continue;
        }
        // Behind an example, too: it takes no space of its own.
        if place > 0 {
            page += ".Pp\n";
        }
        page += &flowing(paragraph);
    }
    page
}

const OPENING: &[char] = &['('];
const CLOSING: &[char] = &['.', ',', ';', ':', ')', '?'];

/// A paragraph: a sentence begins a line, and so does a macro.
fn flowing(paragraph: &str) -> String {
    let mut page = Page::default();
    for (place, part) in paragraph.split('`').enumerate() {
        if place % 2 == 1 {
            page.quoted = Some(part.to_string());
            continue;
        }
        let mut rest = part;
        if let Some(quoted) = page.quoted.take() {
            let closing = rest.len() - rest.trim_start_matches(CLOSING).len();
            page.typed(&quoted, &rest[..closing]);
            rest = &rest[closing..];
        }
        for word in rest.split_whitespace() {
            page.word(word);
        }
    }
    page.end_line();
    page.text
}

#[derive(Default)]
struct Page {
    text: String,
    line: String,
    quoted: Option<String>,
}

impl Page {
    fn end_line(&mut self) {
        if self.line.is_empty() {
            return;
        }
        if self.line.starts_with(['.', '\'']) {
            self.text += "\\&";
        }
        self.text += &self.line;
        self.text.push('\n');
        self.line.clear();
    }

    fn word(&mut self, word: &str) {
        let core = word.trim_start_matches(OPENING).trim_end_matches(CLOSING);
        let before = &word[..word.len() - word.trim_start_matches(OPENING).len()];
        let after = &word[before.len() + core.len()..];
        if is_argument(core) {
            return self.macros(&format!("Ar {}", core.to_lowercase()), before, after);
        }
        if core.len() > 1 && core.starts_with('-') {
            return self.macros(&flag(core), before, after);
        }
        if self.line.len() + 1 + word.len() > 110 {
            self.end_line();
        }
        if !self.line.is_empty() {
            self.line.push(' ');
        }
        self.line += &word.replace('\\', "\\e");
        if word.ends_with('.') {
            self.end_line();
        }
    }

    /// What is typed, with what touches it behind.
    fn typed(&mut self, typed: &str, after: &str) {
        let before = match self.line.strip_suffix('(') {
            Some(line) => {
                self.line = line.trim_end().to_string();
                "("
            }
            None => "",
        };
        let option = typed.len() > 1 && typed.starts_with('-') && !typed.contains(' ');
        let text = if option {
            flag(typed)
        } else if SUBCOMMANDS.iter().any(|row| row.name == typed) {
            format!("Cm {typed}")
        } else {
            format!("Ql {}", escaped(typed))
        };
        self.macros(&text, before, after);
    }

    fn macros(&mut self, text: &str, before: &str, after: &str) {
        self.end_line();
        let (name, body) = text.split_once(' ').expect("a macro and its words");
        self.line = format!(".{name}");
        for sign in before.chars() {
            self.line += &format!(" {sign}");
        }
        self.line += &format!(" {body}");
        for sign in after.chars() {
            self.line += &format!(" {sign}");
        }
        self.text += &self.line;
        self.text.push('\n');
        self.line.clear();
    }
}
