//! The functions of a Rattle file, with their contracts, and its types and
//! constants.

use std::collections::BTreeSet;

use crate::words::{is_closing, is_opening, joined, words, Language, Word};

/// A function, as it stands in a file.
#[derive(Debug, PartialEq, Eq)]
pub struct Function {
    /// Its name, behind those of the modules of the file and of the type that
    /// it stands in.
    pub name: String,
    /// Its attributes, how it is exported, its parameters and its result.
    pub signature: String,
    /// Its clauses by keyword (`requires`, `ensures`, `ghost`), in order. One with a
    /// star speaks of memory, and is of its keyword too.
    pub clauses: Vec<(String, String)>,
    pub body: String,
}

/// A struct, an enum, a constant or a name for a type.
#[derive(Debug, PartialEq, Eq)]
pub struct Declaration {
    pub name: String,
    pub text: String,
    pub lines: usize,
}

/// What a file declares.
#[derive(Debug, Default)]
pub struct Source {
    pub functions: Vec<Function>,
    pub declarations: Vec<Declaration>,
}

/// What a file declares, in order.
pub fn source(text: &str) -> Source {
    let words = words(text, Language::Rattle);
    let mut reader = Reader {
        words: words.iter().filter(|word| !word.comment).collect(),
        at: 0,
        found: Source::default(),
    };
    reader.items("");
    reader.found
}

struct Reader<'a> {
    words: Vec<&'a Word>,
    at: usize,
    found: Source,
}

impl<'a> Reader<'a> {
    /// Reads items to the end of the block, or of the file.
    fn items(&mut self, path: &str) {
        let mut start = self.at;
        while let Some(word) = self.peek() {
            match word {
                "}" => {
                    self.at += 1;
                    return;
                }
                "{" => self.block(start, path),
                "fn" => self.function(start, path),
                "struct" | "enum" | "union" => self.declaration(start, path, true),
                "const" | "static" | "type" => self.declaration(start, path, false),
                "use" => self.take_through(";"),
                ";" => self.at += 1,
                // What is said of the file, `#![..]`, is said of no item.
                "#!" => {
                    self.at += 1;
                    self.skip();
                }
                // What stands before the keyword of an item.
                _ => {
                    self.skip();
                    continue;
                }
            }
            start = self.at;
        }
    }

    /// A module, or the functions of a type: its name is the last word.
    fn block(&mut self, start: usize, path: &str) {
        let named = self.words[start..self.at].last();
        let name = named.map_or("", |word| plain(&word.text));
        self.at += 1;
        self.items(&format!("{path}{name}::"));
    }

    fn function(&mut self, start: usize, path: &str) {
        self.at += 1;
        let name = format!("{path}{}", plain(self.peek().unwrap_or_default()));
        let mut clauses = Vec::new();
        while !matches!(self.peek(), None | Some("{" | ";")) && !self.at_clause() {
            self.skip();
        }
        let signature = self.text(start);
        while self.at_clause() {
            let word = &self.words[self.at].text;
            let keyword = word.trim_end_matches('*').to_string();
            let start = self.at;
            self.take_through("}");
            clauses.push((keyword, self.text(start)));
        }
        let start = self.at;
        self.skip();
        self.found.functions.push(Function {
            name,
            signature,
            clauses,
            body: self.text(start),
        });
    }

    fn at_clause(&self) -> bool {
        let word = self.peek().map(|word| word.trim_end_matches('*'));
        matches!(word, Some("requires" | "ensures" | "ghost"))
    }

    /// An item that ends in `;`, or where it may be so, in a block.
    fn declaration(&mut self, start: usize, path: &str, in_block: bool) {
        self.at += 1;
        let name = self.peek().unwrap_or_default();
        let name = format!("{path}{}", plain(name.trim_end_matches(':')));
        while let Some(word) = self.peek() {
            self.skip();
            if word == ";" || (in_block && word == "{") {
                break;
            }
        }
        let lines: BTreeSet<usize> = self.words[start..self.at].iter().map(|w| w.line).collect();
        self.found.declarations.push(Declaration {
            name,
            text: self.text(start),
            lines: lines.len(),
        });
    }

    fn peek(&self) -> Option<&'a str> {
        self.words.get(self.at).map(|word| word.text.as_str())
    }

    /// The words from a place up to the reader's.
    fn text(&self, start: usize) -> String {
        joined(self.words[start..self.at].iter().copied(), Language::Rattle)
    }

    /// Passes a word, or a bracket with all that is in it.
    fn skip(&mut self) {
        let mut depth = 0_usize;
        while let Some(word) = self.peek() {
            self.at += 1;
            if is_opening(word) {
                depth += 1;
            } else if is_closing(word) {
                depth = depth.saturating_sub(1);
            }
            if depth == 0 {
                return;
            }
        }
    }

    /// Passes all through that word, or through the bracket that it closes.
    fn take_through(&mut self, last: &str) {
        while self.at < self.words.len() {
            self.skip();
            if self.words[self.at - 1].text == last {
                return;
            }
        }
    }
}

/// A name without the parameters that are written tight after it.
fn plain(name: &str) -> &str {
    name.split('<').next().unwrap_or(name)
}

#[cfg(test)]
mod tests {
    use super::*;

    const FILE: &str = r#"// The file.
#![tactic(auto)]

pub mod other;

ghost use Rattle.std.specs.Prelude.{◌≡◌, length};

use run_table::numbers::{put_u16, u16_at};

const ORDER: [u32; 2] = [
    1,
    2,
];

pub struct Writer<'a> {
    pub buffer: &'a mut [u8],
}

// The table after a send.
#[unsafe(no_mangle)]
pub extern "C" fn send(
    table: &[u8],
    line: [u16; 32],
) -> u32
    requires long { 4 ≤ length table.now }
    requires one { 0 < (record { a = 1 }).a }
    ensures outcome { result ≡ f
        table.now }
{
    if table[0] == b'{' {
        return 1;
    }
    0
}

fn plain(x: u8) -> u8 {
    x
}

fn writer_at<'a>(buffer: &'a mut [u8]) -> Writer<'a>
    ghost top: { ℕ }
    requires* { held buffer top }
    ensures { result ≡ top }
{
    Writer { buffer: buffer }
}

impl Cursor {
    pub fn read(self) -> u8 {
        0
    }
}

mod inner {
    pub fn read(self) -> u8 {
        1
    }
    type Byte = u8;
}

fn last() {}
"#;

    #[test]
    fn finds_functions_by_name() {
        let found = source(FILE).functions;
        let names: Vec<_> = found.iter().map(|f| f.name.as_str()).collect();
        assert_eq!(
            names,
            [
                "send",
                "plain",
                "writer_at",
                "Cursor::read",
                "inner::read",
                "last"
            ]
        );
        let counts: Vec<_> = found.iter().map(|f| f.clauses.len()).collect();
        assert_eq!(counts, [3, 0, 3, 0, 0, 0]);
        assert_eq!(found[1].signature, "fn plain ( x: u8 ) -> u8");
        assert_eq!(found[1].body, "{ x }");
        assert_eq!(found[5].body, "{ }");
    }

    #[test]
    fn takes_a_contract_apart() {
        let send = &source(FILE).functions[0];
        assert_eq!(
            send.signature,
            "# [ unsafe ( no_mangle ) ] pub extern \"C\" fn send ( table: & [ u8 ] , line: [ u16 ; 32 ] ) -> u32"
        );
        let keywords: Vec<_> = send.clauses.iter().map(|c| c.0.as_str()).collect();
        assert_eq!(keywords, ["requires", "requires", "ensures"]);
        assert_eq!(
            send.clauses[2].1,
            "ensures outcome { result ≡ f table.now }"
        );
        let writer = &source(FILE).functions[2];
        let keywords: Vec<_> = writer.clauses.iter().map(|c| c.0.as_str()).collect();
        assert_eq!(keywords, ["ghost", "requires", "ensures"]);
        assert_eq!(writer.clauses[1].1, "requires* { held buffer top }");
        assert_eq!(send.body, "{ if table [ 0 ] == b'{' { return 1 ; } 0 }");
    }

    #[test]
    fn finds_types_and_constants() {
        let found = source(FILE).declarations;
        let sizes: Vec<_> = found.iter().map(|d| (d.name.as_str(), d.lines)).collect();
        assert_eq!(sizes, [("ORDER", 4), ("Writer", 3), ("inner::Byte", 1)]);
        assert_eq!(found[0].text, "const ORDER: [ u32 ; 2 ] = [ 1 , 2 ] ;");
    }

    #[test]
    fn layout_and_comments_change_nothing() {
        let other = FILE
            .replace(
                "(\n    table: &[u8],\n    line: [u16; 32],\n)",
                "(table: &[u8], line: [u16; 32])",
            )
            .replace("// The table after a send.", "// What a send gives.")
            .replace("result ≡ f\n        table", "result ≡ f table")
            .replace("        return 1;", "        return 1; // refused");
        assert_ne!(FILE, other);
        assert_eq!(source(FILE).functions, source(&other).functions);
    }
}
