//! Arguments, read by the rows of `usage`.

use std::ffi::{OsStr, OsString};
use std::fmt::Display;
use std::os::unix::ffi::{OsStrExt, OsStringExt};

use keeper::Checkpoint;

use crate::command::Failure;
use crate::sets::{self, Asked};
use crate::usage::{self, Opt, Subcommand, Takes, Times};
use crate::why::Item;

#[derive(Debug)]
enum Value {
    Nothing,
    File(OsString),
    Text(String),
    Number(u16),
    Numbers(Vec<u16>),
    Ceilings(Vec<Option<u16>>),
    Checkpoints(Vec<Checkpoint>),
    Sets(Vec<Asked>),
    Word(&'static str),
    Item(Item),
}

/// The arguments of a subcommand. An option is asked for by its first name, an
/// argument by the name that its row has.
pub struct Arguments {
    pub subcommand: &'static Subcommand,
    values: Vec<(&'static str, Value)>,
    pub file: Option<OsString>,
}

impl Arguments {
    fn value(&self, name: &str) -> Option<&Value> {
        let mut named = self.values.iter().filter(|(own, _)| *own == name);
        named.next().map(|(_, value)| value)
    }

    /// Whether it was given.
    pub fn has(&self, name: &str) -> bool {
        self.value(name).is_some()
    }

    pub fn number(&self, name: &str) -> Option<u16> {
        match self.value(name) {
            Some(Value::Number(number)) => Some(*number),
            _ => None,
        }
    }

    /// What may be given any number of times, or with commas.
    pub fn numbers(&self, name: &str) -> &[u16] {
        match self.value(name) {
            Some(Value::Numbers(numbers)) => numbers,
            _ => &[],
        }
    }

    /// The ceilings that were given, by process; `None` where one is `-`.
    pub fn ceilings(&self, name: &str) -> Option<&[Option<u16>]> {
        match self.value(name) {
            Some(Value::Ceilings(ceilings)) => Some(ceilings),
            _ => None,
        }
    }

    /// The checkpoints that were given, in the order in which they stand.
    pub fn checkpoints(&self, name: &str) -> Option<&[Checkpoint]> {
        match self.value(name) {
            Some(Value::Checkpoints(checkpoints)) => Some(checkpoints),
            _ => None,
        }
    }

    /// The sets that were given, in the order in which they stand.
    pub fn sets(&self, name: &str) -> &[Asked] {
        match self.value(name) {
            Some(Value::Sets(sets)) => sets,
            _ => &[],
        }
    }

    /// One of the words that the row names.
    pub fn word(&self, name: &str) -> Option<&'static str> {
        match self.value(name) {
            Some(Value::Word(word)) => Some(word),
            _ => None,
        }
    }

    pub fn text(&self, name: &str) -> Option<&str> {
        match self.value(name) {
            Some(Value::Text(text)) => Some(text),
            _ => None,
        }
    }

    /// A file that is no FILE: an option's, or an argument.
    pub fn file(&self, name: &str) -> Option<&OsStr> {
        match self.value(name) {
            Some(Value::File(file)) => Some(file),
            _ => None,
        }
    }

    /// An argument that its row has once.
    pub fn the_number(&self, name: &str) -> u16 {
        self.number(name).expect("the row has it once")
    }

    /// An item that its row has once.
    pub fn item(&self, name: &str) -> Item {
        match self.value(name) {
            Some(Value::Item(item)) => *item,
            _ => unreachable!("the row has it once"),
        }
    }

    pub fn text_in(&self) -> bool {
        self.has("--text-in") || self.has("--text")
    }

    pub fn text_out(&self) -> bool {
        self.has("--text-out") || self.has("--text")
    }
}

/// A failure of usage.
pub fn wrong(subcommand: &Subcommand, what: impl Display) -> Failure {
    Failure::trouble(format!("{what} (see `keeper {} --help`)", subcommand.name))
}

/// The arguments, or `None` where help is asked for.
pub fn parse(
    subcommand: &'static Subcommand,
    arguments: Vec<OsString>,
) -> Result<Option<Arguments>, Failure> {
    let mut parsed = Arguments {
        subcommand,
        values: Vec::new(),
        file: None,
    };
    let mut plain = Vec::new();
    let mut rest = arguments.into_iter();
    while let Some(argument) = rest.next() {
        if argument == "--" {
            plain.extend(rest.by_ref());
            break;
        }
        if argument == "-" || !argument.as_bytes().starts_with(b"-") {
            plain.push(argument);
            continue;
        }
        let (name, attached) = split(argument);
        let option = subcommand.option(&name).ok_or_else(|| {
            let what = format_args!("{} has no option `{name}`", subcommand.name);
            wrong(subcommand, what)
        })?;
        if option.names[0] == "--help" && attached.is_none() {
            return Ok(None);
        }
        take(subcommand, &mut parsed, option, &name, attached, &mut rest)?;
    }
    positions(subcommand, &mut parsed, plain)?;
    // An argument that may be given any number of times is there without any.
    let given = |name: &str| match parsed.value(name) {
        Some(Value::Numbers(numbers)) => !numbers.is_empty(),
        value => value.is_some(),
    };
    let mut excluding = usage::EXCLUDING.iter();
    match excluding.find(|(one, other)| given(one) && given(other)) {
        Some((one, other)) => Err(wrong(
            subcommand,
            format_args!("{one} and {other} exclude each other"),
        )),
        None => Ok(Some(parsed)),
    }
}

/// An option's name and what is attached to it: `--hold=1`, `-oFILE`.
fn split(argument: OsString) -> (String, Option<OsString>) {
    let bytes = argument.as_bytes();
    let (name, attached) = if bytes.starts_with(b"--") {
        match bytes.iter().position(|byte| *byte == b'=') {
            Some(at) => (&bytes[..at], Some(&bytes[at + 1..])),
            None => (bytes, None),
        }
    } else {
        // A letter, of one byte or more.
        let rest = &bytes[2.min(bytes.len())..];
        let more = rest.iter().take_while(|next| **next & 0xc0 == 0x80).count();
        let (name, rest) = bytes.split_at(bytes.len() - rest.len() + more);
        (name, (!rest.is_empty()).then_some(rest))
    };
    (
        String::from_utf8_lossy(name).into_owned(),
        attached.map(|bytes| OsString::from_vec(bytes.to_vec())),
    )
}

/// Takes an option with its value.
fn take(
    subcommand: &Subcommand,
    parsed: &mut Arguments,
    option: &Opt,
    name: &str,
    attached: Option<OsString>,
    rest: &mut impl Iterator<Item = OsString>,
) -> Result<(), Failure> {
    if option.takes == Takes::Nothing {
        if attached.is_some() {
            return Err(match name.starts_with("--") {
                true => wrong(subcommand, format_args!("{name} takes no value")),
                false => wrong(subcommand, format_args!("{name} stands alone")),
            });
        }
        parsed.values.push((option.names[0], Value::Nothing));
        return Ok(());
    }
    let given = attached
        .or_else(|| rest.next())
        .ok_or_else(|| wrong(subcommand, format_args!("{name} needs {}", option.value)))?;
    if parsed.has(option.names[0]) {
        return Err(wrong(subcommand, format_args!("{name} stands twice")));
    }
    let value = value(subcommand, option.takes, given)?;
    parsed.values.push((option.names[0], value));
    Ok(())
}

fn value(subcommand: &Subcommand, takes: Takes, given: OsString) -> Result<Value, Failure> {
    let text = |given: OsString| match given.into_string() {
        Ok(text) => text,
        Err(given) => given.to_string_lossy().into_owned(),
    };
    let one_of = |words: &[&'static str]| words.iter().copied().find(|word| given == *word);
    Ok(match takes {
        Takes::Nothing => Value::Nothing,
        Takes::File => Value::File(given),
        Takes::Text => Value::Text(text(given)),
        Takes::Number => Value::Number(number(subcommand, &given)?),
        Takes::Numbers => {
            let parts = given.as_bytes().split(|byte| *byte == b',');
            let numbers = parts.map(|part| number(subcommand, OsStr::from_bytes(part)));
            Value::Numbers(numbers.collect::<Result<_, _>>()?)
        }
        Takes::NumbersOr(words) => match one_of(words) {
            Some(word) => Value::Word(word),
            None if given.as_bytes().contains(&b',') || is_number(&given) => {
                return value(subcommand, Takes::Numbers, given);
            }
            None => {
                let what = format_args!(
                    "`{}` is neither a number nor {}",
                    given.to_string_lossy(),
                    listed(words)
                );
                return Err(wrong(subcommand, what));
            }
        },
        Takes::Ceilings => {
            let parts = given.as_bytes().split(|byte| *byte == b',');
            let ceilings = parts.map(|part| ceiling(subcommand, &given, OsStr::from_bytes(part)));
            Value::Ceilings(ceilings.collect::<Result<_, _>>()?)
        }
        Takes::Checkpoint => Value::Checkpoints(vec![checkpoint(subcommand, &given)?]),
        Takes::Checkpoints => {
            let parts = given.as_bytes().split(|byte| *byte == b',');
            let named = parts.map(|part| match OsStr::from_bytes(part) {
                part if part.is_empty() => {
                    let list = given.to_string_lossy();
                    let what = format_args!("`{list}`: a checkpoint is missing: {EACH}");
                    Err(wrong(subcommand, what))
                }
                part => checkpoint(subcommand, part),
            });
            Value::Checkpoints(named.collect::<Result<_, _>>()?)
        }
        Takes::Set => Value::Sets(vec![set(subcommand, &given)?]),
        Takes::OneOf(words) => Value::Word(one_of(words).ok_or_else(|| {
            let shown = given.to_string_lossy();
            wrong(
                subcommand,
                format_args!("`{shown}` is not {}", listed(words)),
            )
        })?),
        Takes::Item => {
            let item = given.to_str().and_then(Item::read);
            Value::Item(item.ok_or_else(|| {
                let shown = given.to_string_lossy();
                let what = format_args!(
                    "`{shown}` is neither a checkpoint, such as 1.2, nor a message, such as m4"
                );
                wrong(subcommand, what)
            })?)
        }
        Takes::Subcommand => {
            let row = usage::subcommand(&given).ok_or_else(|| unknown(&given))?;
            Value::Word(row.name)
        }
    })
}

/// The failure of a subcommand that is not there.
pub fn unknown(name: &OsStr) -> Failure {
    Failure::trouble(format!(
        "there is no subcommand `{}` (see `keeper --help`)",
        name.to_string_lossy()
    ))
}

/// Words as they stand in a sentence: `bash` or `zsh`.
fn listed(words: &[&str]) -> String {
    let quoted: Vec<String> = words.iter().map(|word| format!("`{word}`")).collect();
    quoted.join(" or ")
}

/// The arguments by their places, and FILE behind them.
fn positions(
    subcommand: &Subcommand,
    parsed: &mut Arguments,
    plain: Vec<OsString>,
) -> Result<(), Failure> {
    let mut plain = plain.into_iter().peekable();
    for argument in subcommand.arguments {
        match argument.times {
            Times::Once => {
                let given = plain.next().ok_or_else(|| missing(subcommand))?;
                let value = value(subcommand, argument.takes, given)?;
                parsed.values.push((argument.name, value));
            }
            Times::AtMostOnce => {
                if let Some(given) = plain.next() {
                    let value = value(subcommand, argument.takes, given)?;
                    parsed.values.push((argument.name, value));
                }
            }
            // FILE may stand next: what has the form is no FILE.
            Times::Any if argument.takes == Takes::Checkpoint => {
                let mut named = Vec::new();
                while let Some(given) = plain.next_if(|next| is_checkpoint(next)) {
                    named.push(checkpoint(subcommand, &given)?);
                }
                let value = Value::Checkpoints(named);
                parsed.values.push((argument.name, value));
            }
            Times::Any if argument.takes == Takes::Set => {
                let mut asked = Vec::new();
                while let Some(given) = plain.next_if(|next| sets::has_form(next)) {
                    asked.push(set(subcommand, &given)?);
                }
                parsed.values.push((argument.name, Value::Sets(asked)));
            }
            Times::Any => {
                let mut numbers = Vec::new();
                while let Some(given) = plain.next_if(|next| is_number(next)) {
                    numbers.push(number(subcommand, &given)?);
                }
                parsed.values.push((argument.name, Value::Numbers(numbers)));
            }
        }
    }
    if subcommand.file {
        parsed.file = plain.next();
    }
    let Some(further) = plain.next() else {
        return Ok(());
    };
    // Behind numbers, checkpoints or sets what was taken for FILE was meant as one of
    // them.
    let several = subcommand.arguments.last();
    let several = several.filter(|last| last.times == Times::Any);
    Err(match (&parsed.file, several.map(|last| last.takes)) {
        (Some(file), Some(Takes::Checkpoint)) => not_a_checkpoint(subcommand, file),
        (Some(file), Some(Takes::Set)) => wrong(subcommand, sets::not_a_set(file)),
        (Some(file), Some(_)) => not_a_number(subcommand, file),
        _ => {
            let what = format_args!("one argument too many: `{}`", further.to_string_lossy());
            wrong(subcommand, what)
        }
    })
}

/// The failure where an argument is missing.
fn missing(subcommand: &Subcommand) -> Failure {
    let needed = subcommand
        .arguments
        .iter()
        .filter(|argument| argument.times == Times::Once)
        .map(|argument| argument.name);
    let needed: Vec<&str> = needed.collect();
    let what = format_args!("{} needs {}", subcommand.name, needed.join(" and "));
    wrong(subcommand, what)
}

fn is_number(argument: &OsStr) -> bool {
    let bytes = argument.as_bytes();
    !bytes.is_empty() && bytes.iter().all(u8::is_ascii_digit)
}

fn number(subcommand: &Subcommand, argument: &OsStr) -> Result<u16, Failure> {
    let shown = argument.to_string_lossy();
    let parsed = is_number(argument).then(|| shown.parse().ok()).flatten();
    parsed.ok_or_else(|| not_a_number(subcommand, argument))
}

/// Whether an argument has the form of a checkpoint: numbers of any size with a
/// point between.
fn is_checkpoint(argument: &OsStr) -> bool {
    let mut parts = argument.as_bytes().split(|byte| *byte == b'.');
    let mut number = || {
        parts
            .next()
            .is_some_and(|part| is_number(OsStr::from_bytes(part)))
    };
    number() && number() && parts.next().is_none()
}

/// Reads `1.2`, checkpoint 2 of process 1.
pub fn read_checkpoint(text: &str) -> Option<Checkpoint> {
    let (process, number) = is_checkpoint(text.as_ref()).then(|| text.split_once('.'))??;
    Some(Checkpoint {
        process: process.parse().ok()?,
        number: number.parse().ok()?,
    })
}

fn checkpoint(subcommand: &Subcommand, argument: &OsStr) -> Result<Checkpoint, Failure> {
    let read = argument.to_str().and_then(read_checkpoint);
    read.ok_or_else(|| not_a_checkpoint(subcommand, argument))
}

fn set(subcommand: &Subcommand, argument: &OsStr) -> Result<Asked, Failure> {
    sets::read(argument).map_err(|words| wrong(subcommand, words))
}

/// What is said of a checkpoint that is not in the form.
const EACH: &str = "each is a process and a number from 0 to 65535, such as 1.2";

fn not_a_checkpoint(subcommand: &Subcommand, argument: &OsStr) -> Failure {
    let shown = argument.to_string_lossy();
    wrong(
        subcommand,
        format_args!("`{shown}` is no checkpoint: {EACH}"),
    )
}

/// A part of a list of ceilings.
fn ceiling(subcommand: &Subcommand, list: &OsStr, part: &OsStr) -> Result<Option<u16>, Failure> {
    if part == "-" {
        return Ok(None);
    }
    number(subcommand, part).map(Some).map_err(|_| {
        let list = list.to_string_lossy();
        let what = match part.is_empty() {
            true => format!("`{list}`: a ceiling is missing"),
            false => format!("`{}` is no ceiling", part.to_string_lossy()),
        };
        let what = format_args!("{what}: each is a number from 0 to 65535, or `-`");
        wrong(subcommand, what)
    })
}

fn not_a_number(subcommand: &Subcommand, argument: &OsStr) -> Failure {
    let shown = argument.to_string_lossy();
    let what = format_args!("`{shown}` is not a number from 0 to 65535");
    wrong(subcommand, what)
}

#[cfg(test)]
mod tests {
    use super::*;
    use crate::usage::{Argument, Work};

    const fn option(name: &'static [&'static str], takes: Takes) -> Opt {
        Opt {
            names: name,
            takes,
            value: "VALUE",
            words: "",
        }
    }

    static FLAG: Opt = option(&["--flag", "-f"], Takes::Nothing);
    static NUMBERS: Opt = option(&["--numbers", "-n"], Takes::Numbers);
    static EITHER: Opt = option(&["--either"], Takes::NumbersOr(&["all", "none"]));
    static CEILINGS: Opt = option(&["--under"], Takes::Ceilings);
    static HOLD: Opt = option(&["--hold"], Takes::NumbersOr(&["all"]));
    static STAND: Opt = option(&["--stand"], Takes::Checkpoints);
    static ROW: Subcommand = Subcommand {
        name: "row",
        arguments: &[
            Argument {
                name: "FIRST",
                takes: Takes::OneOf(&["one", "two"]),
                times: Times::Once,
            },
            Argument {
                name: "REST",
                takes: Takes::Number,
                times: Times::Any,
            },
        ],
        file: true,
        options: &[&FLAG, &NUMBERS, &EITHER, &CEILINGS, &HOLD, &STAND],
        short: "",
        words: "",
        work: Work::Alone(|_| Ok(())),
    };

    fn parsed(arguments: &[&str]) -> Result<Option<Arguments>, String> {
        let arguments = arguments.iter().map(OsString::from).collect();
        parse(&ROW, arguments).map_err(|failure| failure.message().unwrap_or("").to_string())
    }

    fn given(arguments: &[&str]) -> Arguments {
        parsed(arguments).expect("taken").expect("no help")
    }

    #[test]
    fn each_kind_of_value() {
        let one = given(&["one", "-n1,2,3", "--either", "all", "-f"]);
        assert_eq!(one.word("FIRST"), Some("one"));
        assert_eq!(one.numbers("--numbers"), [1, 2, 3]);
        assert_eq!(
            (one.word("--either"), one.numbers("--either")),
            (Some("all"), &[][..])
        );
        assert!(one.has("--flag") && one.file.is_none() && one.numbers("REST").is_empty());
        let two = given(&["--either=7", "two", "4", "5", "--numbers", "65535", "six"]);
        assert_eq!(
            (two.word("--either"), two.numbers("--either")),
            (None, &[7][..])
        );
        assert_eq!(
            given(&["one", "--either", "7,8"]).numbers("--either"),
            [7, 8]
        );
        assert_eq!(two.numbers("--numbers"), [65535]);
        assert_eq!(two.numbers("REST"), [4, 5]);
        assert_eq!(two.file.as_deref(), Some(OsStr::new("six")));
        assert!(!two.has("--flag"));
        // A dash by itself, or at the front, is a ceiling and no option.
        for (list, ceilings) in [
            ("3", vec![Some(3)]),
            ("-", vec![None]),
            ("0,65535", vec![Some(0), Some(65535)]),
            ("-,2,-", vec![None, Some(2), None]),
        ] {
            let apart = given(&["one", "--under", list]);
            assert_eq!(apart.ceilings("--under"), Some(&ceilings[..]), "{list}");
            let attached = given(&["one", &format!("--under={list}")]);
            assert_eq!(attached.ceilings("--under"), Some(&ceilings[..]), "{list}");
        }
        assert_eq!(one.ceilings("--under"), None);
        let named = given(&["one", "--stand", "1.20,0.0"]);
        let of = |process, number| Checkpoint { process, number };
        let expected = [of(1, 20), of(0, 0)];
        assert_eq!(named.checkpoints("--stand"), Some(&expected[..]));
        assert_eq!(one.checkpoints("--stand"), None);
        // Behind `--` nothing is an option.
        let three = given(&["--", "one", "--flag"]);
        assert_eq!(three.file.as_deref(), Some(OsStr::new("--flag")));
        assert!(parsed(&["one", "-h"]).expect("taken").is_none());
    }

    #[test]
    fn checkpoints_before_a_file() {
        static ROW: Subcommand = Subcommand {
            name: "names",
            arguments: &[Argument {
                name: "STATE",
                takes: Takes::Checkpoint,
                times: Times::Any,
            }],
            file: true,
            options: &[],
            short: "",
            words: "",
            work: Work::Alone(|_| Ok(())),
        };
        let parsed = |arguments: &[&str]| {
            let arguments = arguments.iter().map(OsString::from).collect();
            let parsed = parse(&ROW, arguments);
            parsed.map_err(|failure| failure.message().unwrap_or("").to_string())
        };
        let of = |process, number| Checkpoint { process, number };
        for (arguments, named, file) in [
            (&[][..], &[][..], None),
            (&["0.1"], &[of(0, 1)], None),
            (&["1.65535", "1.65535"], &[of(1, 65535); 2], None),
            (&["2.3", "./0.1"], &[of(2, 3)], Some("./0.1")),
            (&["2.3", "7"], &[of(2, 3)], Some("7")),
            (&["0.1.2"], &[], Some("0.1.2")),
            (&["1."], &[], Some("1.")),
            (&["-"], &[], Some("-")),
        ] {
            let given = parsed(arguments).expect("taken").expect("no help");
            assert_eq!(given.checkpoints("STATE"), Some(named), "{arguments:?}");
            assert_eq!(given.file.as_deref(), file.map(OsStr::new), "{arguments:?}");
        }
        for (arguments, shown) in [
            (&["0.65536"][..], "0.65536"),
            (&["0.1", "m1", "x"], "m1"),
            (&["x", "0.1"], "x"),
        ] {
            let told = parsed(arguments).err().expect("not taken");
            let message = format!("`{shown}` is no checkpoint: {EACH} (see `keeper names --help`)");
            assert_eq!(told, message);
        }
    }

    #[test]
    fn what_is_not_taken() {
        let cases: &[(&[&str], &str)] = &[
            (&[], "row needs FIRST"),
            (&["three"], "`three` is not `one` or `two`"),
            (&["one", "-n1,,2"], "`` is not a number from 0 to 65535"),
            (&["one", "-n1,x"], "`x` is not a number from 0 to 65535"),
            (
                &["one", "-n1,65536"],
                "`65536` is not a number from 0 to 65535",
            ),
            (&["one", "-n"], "-n needs VALUE"),
            (&["one", "-n1", "--numbers=2"], "--numbers stands twice"),
            (
                &["one", "--either=7,all"],
                "`all` is not a number from 0 to 65535",
            ),
            (
                &["one", "--either=some"],
                "`some` is neither a number nor `all` or `none`",
            ),
            (
                &["one", "--under=3,,2"],
                "`3,,2`: a ceiling is missing: each is a number from 0 to 65535, or `-`",
            ),
            (
                &["one", "--under", ""],
                "``: a ceiling is missing: each is a number from 0 to 65535, or `-`",
            ),
            (
                &["one", "--under", "1,-2"],
                "`-2` is no ceiling: each is a number from 0 to 65535, or `-`",
            ),
            (
                &["one", "--under", "65536"],
                "`65536` is no ceiling: each is a number from 0 to 65535, or `-`",
            ),
            (
                &["one", "--under", "1", "--under", "1"],
                "--under stands twice",
            ),
            (
                &["one", "--hold", "1", "--under", "1"],
                "--under and --hold exclude each other",
            ),
            (
                &["one", "--under", "1", "--hold", "all"],
                "--under and --hold exclude each other",
            ),
            (
                &["one", "--stand", "1.2,1"],
                "`1` is no checkpoint: each is a process and a number from 0 to 65535, such as 1.2",
            ),
            (
                &["one", "--stand", "1.2,"],
                "`1.2,`: a checkpoint is missing: each is a process and a number from 0 to 65535, such as 1.2",
            ),
            (
                &["one", "--hold", "1", "--stand", "1.2"],
                "--stand and --hold exclude each other",
            ),
            (
                &["one", "--stand", "1.2", "--under", "1"],
                "--stand and --under exclude each other",
            ),
            (&["one", "--flag=1"], "--flag takes no value"),
            (&["one", "-f1"], "-f stands alone"),
            (&["one", "--Flag"], "row has no option `--Flag`"),
            (
                &["one", "1", "x", "2"],
                "`x` is not a number from 0 to 65535",
            ),
            (
                &["one", "1", "x", "y"],
                "`x` is not a number from 0 to 65535",
            ),
        ];
        for (arguments, message) in cases {
            let told = parsed(arguments).err().expect("not taken");
            assert_eq!(told, format!("{message} (see `keeper row --help`)"));
        }
    }
}
