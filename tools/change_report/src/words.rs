//! The words of antt and of Rattle: what is left of a text without its layout.

use std::str::Chars;

/// The language of a text.
#[derive(Clone, Copy, Debug, PartialEq, Eq)]
pub enum Language {
    Antt,
    Rattle,
}

/// A word or a comment, and where it stands.
#[derive(Debug)]
pub struct Word {
    pub text: String,
    /// Its line, from 0; where it spans several, the last of them.
    pub line: usize,
    /// The column of its first character, from 0.
    pub column: usize,
    pub comment: bool,
}

/// The words and comments of a text, in order.
pub fn words(text: &str, language: Language) -> Vec<Word> {
    let mut scanner = Scanner {
        rest: text.chars(),
        line: 0,
        column: 0,
        language,
    };
    std::iter::from_fn(|| scanner.next_word()).collect()
}

/// The words in one line, comments left out. A separator that a layout puts
/// before a closing bracket is left out too, since another layout has none.
pub fn joined<'a>(words: impl IntoIterator<Item = &'a Word>, language: Language) -> String {
    let optional = match language {
        Language::Antt => ";",
        Language::Rattle => ",",
    };
    let mut kept: Vec<&str> = Vec::new();
    for word in words.into_iter().filter(|word| !word.comment) {
        if is_closing(&word.text) && kept.last() == Some(&optional) {
            kept.pop();
        }
        kept.push(&word.text);
    }
    kept.join(" ")
}

pub fn is_opening(word: &str) -> bool {
    matches!(word, "(" | "{" | "[")
}

pub fn is_closing(word: &str) -> bool {
    matches!(word, ")" | "}" | "]")
}

struct Scanner<'a> {
    rest: Chars<'a>,
    line: usize,
    column: usize,
    language: Language,
}

impl Scanner<'_> {
    fn next_word(&mut self) -> Option<Word> {
        while self.peek()?.is_whitespace() {
            self.take(&mut String::new());
        }
        let column = self.column;
        let mut text = String::new();
        let comment = self.at_comment();
        if comment {
            self.take_comment(&mut text);
        } else {
            self.take_word(&mut text);
        }
        Some(Word {
            text,
            line: self.line,
            column,
            comment,
        })
    }

    fn peek(&self) -> Option<char> {
        self.rest.clone().next()
    }

    fn starts_with(&self, text: &str) -> bool {
        self.rest.as_str().starts_with(text)
    }

    /// Takes one character, and answers whether there was one.
    fn take(&mut self, text: &mut String) -> bool {
        let Some(character) = self.rest.next() else {
            return false;
        };
        text.push(character);
        self.column += 1;
        if character == '\n' {
            self.line += 1;
            self.column = 0;
        }
        true
    }

    /// What opens a comment to the end of the line, and what opens and closes
    /// one that may span lines and hold others.
    fn comment_marks(&self) -> (&'static str, &'static str, &'static str) {
        match self.language {
            Language::Antt => ("--", "{-", "-}"),
            Language::Rattle => ("//", "/*", "*/"),
        }
    }

    fn at_comment(&self) -> bool {
        let (line, open, _) = self.comment_marks();
        self.starts_with(line) || self.starts_with(open)
    }

    fn take_comment(&mut self, text: &mut String) {
        let (line, open, close) = self.comment_marks();
        if self.starts_with(line) {
            while self.peek().is_some_and(|c| c != '\n') {
                self.take(text);
            }
            return;
        }
        let mut depth = 0;
        loop {
            let opens = self.starts_with(open);
            let closes = self.starts_with(close);
            if opens || closes {
                self.take(text);
            }
            if !self.take(text) {
                return;
            }
            depth = if opens { depth + 1 } else { depth };
            depth = if closes { depth - 1 } else { depth };
            if depth == 0 {
                return;
            }
        }
    }

    fn take_word(&mut self, text: &mut String) {
        while let Some(character) = self.peek() {
            if character.is_whitespace() || (!text.is_empty() && self.ends_word()) {
                return;
            }
            if self.is_mark(character) {
                self.take(text);
                return;
            }
            match character {
                '"' => self.take_quoted('"', text),
                '«' if self.language == Language::Antt => self.take_quoted('»', text),
                '\'' if self.at_character() => self.take_quoted('\'', text),
                _ => _ = self.take(text),
            }
        }
    }

    /// Whether a word that was begun ends here. In antt `a--b` is one name.
    fn ends_word(&self) -> bool {
        self.peek().is_some_and(|c| self.is_mark(c))
            || (self.language == Language::Rattle && self.at_comment())
    }

    /// Whether a character is a word by itself. In antt `[]` is a name, and a
    /// `.` that stands tight and one that does not mean two things.
    fn is_mark(&self, character: char) -> bool {
        match self.language {
            Language::Antt => "(){};,@".contains(character),
            Language::Rattle => "(){}[];,".contains(character),
        }
    }

    /// Whether a quote opens a character of Rattle, as in `b'{'`: a lifetime
    /// has no second quote.
    fn at_character(&self) -> bool {
        let mut after = self.rest.clone().skip(1);
        self.language == Language::Rattle
            && match after.next() {
                Some('\\') => true,
                Some(_) => after.next() == Some('\''),
                None => false,
            }
    }

    fn take_quoted(&mut self, close: char, text: &mut String) {
        self.take(text);
        while let Some(character) = self.peek() {
            self.take(text);
            if character == '\\' {
                self.take(text);
            } else if character == close {
                return;
            }
        }
    }
}

#[cfg(test)]
mod tests {
    use super::*;

    fn texts(text: &str, language: Language) -> Vec<String> {
        words(text, language).into_iter().map(|w| w.text).collect()
    }

    #[test]
    fn layout_is_no_part_of_a_text() {
        let one = words("f x = g (h x) { a = 1 }", Language::Antt);
        let other = words(
            "f x  =\n    g ( h x )\n    {\n  a = 1;\n}\n",
            Language::Antt,
        );
        assert_eq!(joined(&one, Language::Antt), joined(&other, Language::Antt));
        let one = words("fn f(a: u8, b: [u16; 32]) -> u8", Language::Rattle);
        let other = words(
            "fn f(\n    a: u8,\n    b: [u16; 32],\n) -> u8",
            Language::Rattle,
        );
        assert_eq!(
            joined(&one, Language::Rattle),
            joined(&other, Language::Rattle)
        );
    }

    #[test]
    fn what_changes_the_meaning_is_kept() {
        let of = |text| joined(&words(text, Language::Antt), Language::Antt);
        assert_ne!(of("h r.f"), of("h r .f"));
        assert_ne!(of("n+n"), of("n + n"));
        assert_ne!(of("f = 1"), of("f = 2"));
        let of = |text| joined(&words(text, Language::Rattle), Language::Rattle);
        assert_ne!(of("{ f(); }"), of("{ f() }"));
    }

    #[test]
    fn comments_are_apart() {
        let found = words("f -- one; {-\n  {- two\n {- three -} -} g", Language::Antt);
        let comments: Vec<_> = found.iter().map(|w| w.comment).collect();
        assert_eq!(comments, [false, true, true, false]);
        assert_eq!((found[2].line, found[2].column), (2, 2));
        assert_eq!(joined(&found, Language::Antt), "f g");
        assert_eq!(
            joined(
                &words("a // b\n/* c */d//e", Language::Rattle),
                Language::Rattle
            ),
            "a d"
        );
        assert_eq!(texts("a--b --c", Language::Antt), ["a--b", "--c"]);
    }

    #[test]
    fn quotes_hide_brackets_and_comments() {
        assert_eq!(
            texts(r#"x = "a ( -- \" b";"#, Language::Antt),
            ["x", "=", r#""a ( -- \" b""#, ";"]
        );
        assert_eq!(texts("«a (b» c", Language::Antt), ["«a (b»", "c"]);
        assert_eq!(texts("pow' x'", Language::Antt), ["pow'", "x'"]);
        assert_eq!(
            texts(r#"f(b'{', b'\'', b"} //", 'p: &'a u8)"#, Language::Rattle),
            [
                "f",
                "(",
                "b'{'",
                ",",
                r"b'\''",
                ",",
                r#"b"} //""#,
                ",",
                "'p:",
                "&'a",
                "u8",
                ")"
            ]
        );
    }

    #[test]
    fn places_are_of_the_first_character() {
        let found = words("a\n  λx b", Language::Antt);
        let places: Vec<_> = found.iter().map(|w| (w.line, w.column)).collect();
        assert_eq!(places, [(0, 0), (1, 2), (1, 5)]);
    }
}
