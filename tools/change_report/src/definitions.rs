//! The definitions of an antt file: each with its signature, its clauses and
//! the comment over it.

use std::collections::BTreeSet;

use crate::words::{is_closing, is_opening, joined, words, Language, Word};

/// A definition, as it stands in a file.
#[derive(Debug, PartialEq, Eq)]
pub struct Definition {
    pub name: String,
    /// Its words, comments left out.
    pub text: String,
    /// The comment over it and those in it.
    pub comment: String,
    /// How many lines of the file have words of it.
    pub lines: usize,
}

/// The definitions of a file, in order. What brings names in (`use`, `open`)
/// or lists files (`mod`) is none.
pub fn definitions(text: &str) -> Vec<Definition> {
    let words = words(text, Language::Antt);
    let mut found = Vec::new();
    gather(
        &words.iter().collect::<Vec<_>>(),
        &Scope::default(),
        &mut found,
    );
    found.into_iter().map(Gathered::finish).collect()
}

/// The words of a file that are neither comments nor bring names in.
pub fn code(text: &str) -> String {
    let words = words(text, Language::Antt);
    let words: Vec<&Word> = words.iter().collect();
    let said = statements(&words)
        .into_iter()
        .filter(|statement| !matches!(head(statement), Head::BringsNames))
        .flat_map(|statement| statement.words);
    joined(said, Language::Antt)
}

/// What stands around a definition: the head of a `module` block, whose
/// parameters it has, or `mutual`.
#[derive(Default)]
struct Scope<'a> {
    prefix: String,
    words: Vec<&'a Word>,
}

/// A definition of which not all was read.
struct Gathered<'a> {
    name: String,
    around: Vec<&'a Word>,
    words: Vec<&'a Word>,
    above: Vec<&'a Word>,
}

impl<'a> Gathered<'a> {
    fn finish(self) -> Definition {
        let comments = self.above.iter().chain(&self.words);
        let comments: Vec<&str> = comments
            .filter(|word| word.comment)
            .flat_map(|word| word.text.split_whitespace())
            .collect();
        let own = self.words.iter().filter(|word| !word.comment);
        let lines: BTreeSet<usize> = own.map(|word| word.line).collect();
        Definition {
            name: self.name,
            text: joined([self.around, self.words].concat(), Language::Antt),
            comment: comments.join(" "),
            lines: lines.len(),
        }
    }

    fn add(&mut self, statement: Statement<'a>) {
        self.above.extend(statement.above);
        self.words.extend(statement.words);
    }
}

/// A statement: what begins at the column of its block, and all that is
/// indented under it.
struct Statement<'a> {
    /// The comment that ends on the line before it.
    above: Vec<&'a Word>,
    /// Its words, and the comments among them. The first is a word.
    words: Vec<&'a Word>,
}

/// What a statement is.
enum Head {
    BringsNames,
    /// A block of definitions, whose head has that many words.
    Block(usize),
    Declares(String),
    /// A clause of the definition before it, or its `unfolding` line.
    Continues,
}

fn gather<'a>(words: &[&'a Word], scope: &Scope<'a>, found: &mut Vec<Gathered<'a>>) {
    let mut current = None;
    for statement in statements(words) {
        match head(&statement) {
            Head::BringsNames => current = None,
            Head::Block(length) => {
                let (opening, body) = statement.words.split_at(length);
                gather(body, &scope.within(opening), found);
                current = None;
            }
            Head::Declares(name) => {
                let at = place_of(format!("{}{name}", scope.prefix), scope, found);
                found[at].add(statement);
                current = Some(at);
            }
            Head::Continues => {
                let first = format!("{}{}", scope.prefix, statement.words[0].text);
                let at = current.unwrap_or_else(|| place_of(first, scope, found));
                found[at].add(statement);
            }
        }
    }
}

/// Where a definition of that name is gathered. A name that stands twice in a
/// file, as with its fixity, is one definition.
fn place_of<'a>(name: String, scope: &Scope<'a>, found: &mut Vec<Gathered<'a>>) -> usize {
    let known = found.iter().position(|other| other.name == name);
    known.unwrap_or_else(|| {
        found.push(Gathered {
            name,
            around: scope.words.clone(),
            words: Vec::new(),
            above: Vec::new(),
        });
        found.len() - 1
    })
}

impl<'a> Scope<'a> {
    fn within(&self, opening: &[&'a Word]) -> Scope<'a> {
        let name = opening
            .iter()
            .skip_while(|word| word.text != "module")
            .nth(1);
        let own = name.map_or("_", |word| &word.text);
        Scope {
            prefix: match own {
                "_" => self.prefix.clone(),
                name => format!("{}{name}.", self.prefix),
            },
            words: [&self.words, opening].concat(),
        }
    }
}

/// The statements of a block, which begin at the column of its first word.
fn statements<'a>(words: &[&'a Word]) -> Vec<Statement<'a>> {
    let first = words.iter().find(|word| !word.comment);
    let column = first.map_or(0, |word| word.column);
    let mut found: Vec<Statement> = Vec::new();
    let mut above: Vec<&Word> = Vec::new();
    let mut depth = 0_usize;
    for &word in words {
        if word.comment && word.column <= column {
            drop_unless_next_to(&mut above, word);
            if !is_heading(&word.text) {
                above.push(word);
            }
            continue;
        }
        if !word.comment && word.column <= column && depth == 0 {
            drop_unless_next_to(&mut above, word);
            found.push(Statement {
                above: std::mem::take(&mut above),
                words: Vec::new(),
            });
        }
        if !word.comment && is_opening(&word.text) {
            depth += 1;
        } else if !word.comment && is_closing(&word.text) {
            depth = depth.saturating_sub(1);
        }
        if let Some(statement) = found.last_mut() {
            statement.words.push(word);
        }
    }
    found
}

/// Drops a comment that does not end on the line before this word.
fn drop_unless_next_to(above: &mut Vec<&Word>, word: &Word) {
    if above.last().is_some_and(|last| last.line + 1 != word.line) {
        above.clear();
    }
}

/// Whether a comment heads a part of the file, as `-- ---- send` does.
fn is_heading(comment: &str) -> bool {
    comment.starts_with("-- ----")
}

fn head(statement: &Statement) -> Head {
    let words: Vec<&str> = statement
        .words
        .iter()
        .filter(|word| !word.comment)
        .map(|word| word.text.as_str())
        .collect();
    let is_mark = |word: &&&str| matches!(**word, "unfoldable" | "abbrev" | "axiom" | "pub");
    let marks = words.iter().take_while(is_mark).count();
    match &words[marks..] {
        ["use" | "open" | "mod", ..] => Head::BringsNames,
        ["module", ..] => Head::Block(after(&statement.words, "where")),
        ["mutual", ..] => Head::Block(after(&statement.words, "mutual")),
        ["record" | "data", name, ..] => Head::Declares(name.to_string()),
        ["infix" | "infixl" | "infixr", .., name] => Head::Declares(name.to_string()),
        [name, ..] if marks > 0 || is_signature(&words) => Head::Declares(name.to_string()),
        _ => Head::Continues,
    }
}

/// How many words there are up to that one, itself included.
fn after(words: &[&Word], last: &str) -> usize {
    let place = words.iter().position(|word| word.text == last);
    place.map_or(words.len(), |place| place + 1)
}

/// Whether words are a name and its type: `name : ..`, or with the levels of
/// universes between them, `name {ℓ} : ..`.
fn is_signature(words: &[&str]) -> bool {
    match words {
        [_, ":", ..] => true,
        [_, "{", rest @ ..] => {
            let close = rest.iter().position(|word| *word == "}");
            close.is_some_and(|close| rest.get(close + 1) == Some(&":"))
        }
        _ => false,
    }
}

#[cfg(test)]
mod tests {
    use super::*;

    fn names(text: &str) -> Vec<String> {
        definitions(text).into_iter().map(|d| d.name).collect()
    }

    const FILE: &str = "\
-- What the file is about. Assumes nothing.
use mathlib.Core.List.{List, [], _∷_}
pub mod Other

-- A check: whether it catches,
-- and its number.
pub record Check : Type 0 where
  pub caught : Bool
  pub number : ℕ

-- ---- lists
-- The number of the first, or 0.
unfoldable pub firstCaught : List Check → ℕ
firstCaught [] = 0
firstCaught (c ∷ rest) =
    -- of those after it
    let later = firstCaught rest in
    cond (c .caught) (c .number) later

abbrev pub none : Check
none = record {
  caught = false;
  number = 0;
}

pub data Place : Type 0 where
  gone : Place
";

    #[test]
    fn finds_each_form() {
        let found = definitions(FILE);
        let sizes: Vec<_> = found.iter().map(|d| (d.name.as_str(), d.lines)).collect();
        assert_eq!(
            sizes,
            [("Check", 3), ("firstCaught", 5), ("none", 5), ("Place", 2)]
        );
        assert_eq!(
            found[0].comment,
            "-- A check: whether it catches, -- and its number."
        );
        assert_eq!(
            found[1].comment,
            "-- The number of the first, or 0. -- of those after it"
        );
        assert_eq!(found[2].comment, "");
        assert_eq!(
            found[2].text,
            "abbrev pub none : Check none = record { caught = false ; number = 0 }"
        );
    }

    #[test]
    fn clauses_belong_to_the_signature_before_them() {
        let text = "_⊕_ : ℕ → ℕ → ℕ\nunfolding f\nzero ⊕ b = b\n-- the rest\nsuc a ⊕ b = suc (a ⊕ b)\n\ng : ℕ\ng = 1\n";
        let found = definitions(text);
        assert_eq!(names(text), ["_⊕_", "g"]);
        assert_eq!(found[0].lines, 4);
        assert_eq!(found[0].comment, "-- the rest");
        assert_eq!(names("f {ℓ κ} : A\nf {u} a = b\n"), ["f"]);
        assert_eq!(names("use lib.{\n  a.{c},\nb\n}\nf : A\nf = b\n"), ["f"]);
        assert_eq!(names("infixl 70 _⊓_\n_⊓_ : A\na ⊓ b = a\n"), ["_⊓_"]);
    }

    #[test]
    fn a_comment_belongs_to_what_stands_right_below_it() {
        let comment = |text: &str| definitions(text).remove(0).comment;
        assert_eq!(
            comment("-- The file.\n\n-- One.\nf : A\nf = 1\n"),
            "-- One."
        );
        assert_eq!(comment("-- The file.\n\nf : A\nf = 1\n"), "");
        assert_eq!(comment("-- ---- numbers\nf : A\nf = 1 -- one\n"), "-- one");
    }

    #[test]
    fn comments_and_what_is_brought_in_change_no_definition() {
        let text = |d: &[Definition]| d.iter().map(|d| d.text.clone()).collect::<Vec<_>>();
        let other = FILE
            .replace(
                "use mathlib.Core.List",
                "open Lists using (x)\nuse lib.List",
            )
            .replace(
                "-- A check: whether it catches,",
                "-- A check: caught or not,",
            )
            .replace("  number = 0;\n}", "      number = 0 }");
        assert_ne!(FILE, other);
        assert_eq!(text(&definitions(FILE)), text(&definitions(&other)));
        assert_ne!(definitions(FILE), definitions(&other));
        let other = FILE.replace("firstCaught [] = 0", "firstCaught [] = 1");
        assert_ne!(text(&definitions(FILE)), text(&definitions(&other)));
    }

    #[test]
    fn blocks_give_their_head_to_what_is_in_them() {
        let text = "module _ (t : Table) where\n  -- one\n  f : ℕ\n  f = 1\n\n  pub g : ℕ\n  g = f\n\nh : ℕ\nh = 1\n";
        let found = definitions(text);
        assert_eq!(names(text), ["f", "g", "h"]);
        assert_eq!(found[0].text, "module _ ( t : Table ) where f : ℕ f = 1");
        assert_eq!((found[0].lines, found[0].comment.as_str()), (2, "-- one"));
        assert_eq!(found[2].text, "h : ℕ h = 1");
        let named = "pub module Of (t : Table) where\n  f : ℕ\n  f = 1\n";
        assert_eq!(names(named), ["Of.f"]);
        let mutual = "mutual\n  even : A\n  even zero = true\n\n  odd : A\n  odd zero = false\n";
        assert_eq!(names(mutual), ["even", "odd"]);
    }

    #[test]
    fn code_is_without_comments_and_what_is_brought_in() {
        let proof = "-- A proof.\nuse a.B.{c}\n\nreturns : T\nunfolding c\nreturns x = y\n";
        assert_eq!(code(proof), "returns : T unfolding c returns x = y");
    }
}
