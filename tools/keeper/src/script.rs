//! Scripts: steps and questions, a line each, on one table.

use std::ffi::OsString;

use crate::arguments::{self, wrong, Arguments};
use crate::command::{put_table, Failure, Stepped};
use crate::explain::Places;
use crate::input::{self, Input, MOST_TEXT};
use crate::output::put;
use crate::text;
use crate::usage::{self, Subcommand, Work, SUBCOMMANDS};

/// Other words for the names of subcommands.
const OTHER_WORDS: &[(&[&str], &str)] = &[(&["fall", "back"], "fall-back"), (&["text"], "decode")];

/// Options that speak of files; a line of a script has none.
const OF_FILES: &[&str] = &["-o", "--text-in", "--text", "--decode"];

struct Step {
    /// From 1.
    line: usize,
    words: String,
    arguments: Arguments,
}

pub fn run(arguments: &Arguments) -> Result<(), Failure> {
    let (name, script) = read(arguments)?;
    let steps = steps(&name, &script)?;
    let fresh = steps.first().is_some_and(is_start);
    let mut input = match fresh {
        true if arguments.file.is_some() => {
            let what = "the script begins with `new`, and reads no FILE";
            return Err(wrong(arguments.subcommand, what));
        }
        true => None,
        false => Some(first(arguments)?),
    };
    for (place, step) in steps.iter().enumerate() {
        let at =
            |failure: Failure| failure.at(format_args!("{name}:{}: {}", step.line, step.words));
        let stepped = match (step.arguments.subcommand.work, &input) {
            (Work::Start(start), _) if place == 0 => Stepped {
                table: start(&step.arguments).map_err(at)?,
                said: None,
            },
            (Work::Step(work), Some(input)) => work(input, &step.arguments).map_err(at)?,
            (Work::Answer(answer), Some(input)) => {
                put(None, &answer(input, &step.arguments).map_err(at)?)?;
                continue;
            }
            _ => {
                let what = "a run begins once: `new` is the first step".to_string();
                return Err(at(Failure::trouble(what)));
            }
        };
        if let Some(said) = &stepped.said {
            put(None, said.as_bytes())?;
        }
        // Messages stay where they are, but a fall back moves them.
        let places = match (&input, step.arguments.subcommand.name) {
            (None, _) | (_, "fall-back") => Places::default(),
            (Some(input), _) => input.places().clone(),
        };
        input = Some(Input::of_script(stepped.table, places));
    }
    let (Some(input), Some(output)) = (input, arguments.file("-o")) else {
        return Ok(());
    };
    put_table(Some(output), &input.accepted()?, arguments)
}

fn is_start(step: &Step) -> bool {
    matches!(step.arguments.subcommand.work, Work::Start(_))
}

/// The table that the script begins with.
fn first(arguments: &Arguments) -> Result<Input, Failure> {
    let script = arguments.file("SCRIPT");
    if input::is_standard(script) && input::is_standard(arguments.file.as_deref()) {
        let what = "the script is read from standard input, so that FILE must be named";
        return Err(wrong(arguments.subcommand, what));
    }
    let input = Input::read(arguments)?;
    let table = input.accepted()?;
    Ok(Input::of_script(table, input.places().clone()))
}

/// The name of the script and its bytes.
fn read(arguments: &Arguments) -> Result<(String, Vec<u8>), Failure> {
    let (name, script) = input::read(arguments.file("SCRIPT"), MOST_TEXT)?;
    if script.len() > MOST_TEXT {
        let what = format!("{name}: longer than a script may be ({MOST_TEXT} bytes)");
        return Err(Failure::trouble(what));
    }
    match text::looks_like_table(&script) {
        true => Err(Failure::trouble(format!(
            "{name}: this is a table, and no script: SCRIPT stands before FILE"
        ))),
        false => Ok((name, script)),
    }
}

/// All steps, read before the first is made.
fn steps(name: &str, script: &[u8]) -> Result<Vec<Step>, Failure> {
    let mut steps = Vec::new();
    let lines = text::unmarked(script).split(|byte| *byte == b'\n');
    for (place, line) in lines.enumerate() {
        let code = line.split(|byte| *byte == b'#').next().unwrap_or(line);
        let code = String::from_utf8_lossy(code);
        let words: Vec<&str> = code.split_whitespace().collect();
        if words.is_empty() {
            continue;
        }
        let shown: String = words.join(" ").escape_debug().take(80).collect();
        let arguments = step(&words)
            .map_err(|failure| failure.at(format_args!("{name}:{}: {shown}", place + 1)))?;
        steps.push(Step {
            line: place + 1,
            words: shown,
            arguments,
        });
    }
    Ok(steps)
}

fn step(words: &[&str]) -> Result<Arguments, Failure> {
    let other = OTHER_WORDS
        .iter()
        .find(|(other, _)| words.starts_with(other));
    let (name, rest) = match other {
        Some((other, name)) => (*name, &words[other.len()..]),
        None => (words[0], &words[1..]),
    };
    let row = usage::subcommand(name.as_ref()).filter(|row| is_step(row));
    let row = row.ok_or_else(|| {
        let names = SUBCOMMANDS.iter().filter(|row| is_step(row));
        let names: Vec<&str> = names.map(|row| row.name).collect();
        let shown: String = words[0].escape_debug().take(20).collect();
        let names = names.join(", ");
        Failure::trouble(format!("there is no step `{shown}`; there are {names}"))
    })?;
    let given = rest.iter().map(OsString::from).collect();
    let arguments = arguments::parse(row, given)?
        .ok_or_else(|| Failure::trouble("a step takes no option `--help`".to_string()))?;
    if let Some(option) = OF_FILES.iter().find(|option| arguments.has(option)) {
        return Err(Failure::trouble(format!(
            "a step takes no option `{option}`"
        )));
    }
    match &arguments.file {
        Some(file) => Err(Failure::trouble(format!(
            "one word too many: `{}`",
            file.to_string_lossy().escape_debug()
        ))),
        None => Ok(arguments),
    }
}

/// Whether a line of a script can be of this subcommand: one that steps or asks, but for `what-if`, which has not landed
/// as a step (docs/PORT.md).
fn is_step(row: &Subcommand) -> bool {
    !matches!(row.work, Work::Alone(_)) && row.name != "what-if"
}
