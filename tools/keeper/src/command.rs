//! The subcommands, their failures and exit statuses.

use std::ffi::{OsStr, OsString};
use std::fmt;
use std::io::{self, Write};
use std::process::ExitCode;

use keeper::{run_table, FellBack, Line, Refusal, Table};

use crate::arguments::{self, Arguments};
use crate::explain::Call;
use crate::input::Input;
use crate::output::put;
use crate::run::{Choice, Holders, Run};
use crate::usage::{self, Subcommand, Work};
use crate::{completion, draw, json, stand, text};

/// Why nothing, or not all, was done.
pub struct Failure {
    status: u8,
    message: Option<String>,
    /// What is written all the same.
    answer: Option<Vec<u8>>,
}

impl Failure {
    /// Usage, input, output, or a text not in the form.
    pub fn trouble(message: String) -> Failure {
        Failure {
            status: 2,
            message: Some(message),
            answer: None,
        }
    }

    /// What the library refused.
    pub fn refused(message: String) -> Failure {
        Failure {
            status: 1,
            message: Some(message),
            answer: None,
        }
    }

    /// An answer that is a no, with the reason.
    pub fn no(message: String) -> Failure {
        Failure {
            status: 3,
            message: Some(message),
            answer: None,
        }
    }

    /// What a program that does as it should never says.
    pub fn internal(words: &str) -> Failure {
        Failure::trouble(format!("internal error: {words}; please report it"))
    }

    /// Nobody reads what is written: the status that a shell gives a program
    /// that ended so by a signal, and no message, as other filters do.
    pub fn closed() -> Failure {
        Failure {
            status: 141,
            message: None,
            answer: None,
        }
    }

    pub fn message(&self) -> Option<&str> {
        self.message.as_deref()
    }

    /// Behind the place where it happened.
    pub fn at(self, place: impl fmt::Display) -> Failure {
        Failure {
            message: self.message.map(|message| format!("{place}: {message}")),
            ..self
        }
    }

    /// With an answer that is written all the same.
    pub fn with(self, answer: Vec<u8>) -> Failure {
        Failure {
            answer: Some(answer),
            ..self
        }
    }
}

/// Does what the arguments say; the exit status.
pub fn main(arguments: Vec<OsString>) -> ExitCode {
    let failure = match dispatch(arguments) {
        Ok(()) => return ExitCode::SUCCESS,
        Err(failure) => failure,
    };
    if let Some(message) = failure.message {
        // Where standard error can't be written there is nobody to tell.
        let _ = writeln!(io::stderr(), "keeper: {message}");
    }
    ExitCode::from(failure.status)
}

fn dispatch(mut arguments: Vec<OsString>) -> Result<(), Failure> {
    if arguments.is_empty() {
        return Err(Failure::trouble(
            "which subcommand? (see `keeper --help`)".to_string(),
        ));
    }
    let name = arguments.remove(0);
    match name.to_str() {
        Some("--help" | "-h") => return put(None, usage::overview().as_bytes()),
        Some("--version" | "-V") => {
            let version = concat!("keeper ", env!("CARGO_PKG_VERSION"), "\n");
            return put(None, version.as_bytes());
        }
        _ => (),
    }
    let subcommand = usage::subcommand(&name).ok_or_else(|| arguments::unknown(&name))?;
    match arguments::parse(subcommand, arguments)? {
        Some(arguments) => perform(subcommand, &arguments),
        None => put(None, subcommand.help().as_bytes()),
    }
}

/// What a step left.
pub struct Stepped {
    pub table: Table,
    /// What is said of it, where that was asked for.
    pub said: Option<String>,
}

fn perform(subcommand: &Subcommand, arguments: &Arguments) -> Result<(), Failure> {
    let output = arguments.file("-o");
    match subcommand.work {
        Work::Alone(work) => work(arguments),
        Work::Start(start) => put_table(output, &start(arguments)?, arguments),
        Work::Step(step) => {
            let Stepped { table, said } = step(&Input::read(arguments)?, arguments)?;
            match said {
                None => put_table(output, &table, arguments),
                // The table is written just where -o names a place for it.
                Some(said) => {
                    put(None, said.as_bytes())?;
                    output.map_or(Ok(()), |_| put_table(output, &table, arguments))
                }
            }
        }
        Work::Answer(answer) => match answer(&Input::read(arguments)?, arguments) {
            Ok(answer) => put(output, &answer),
            Err(mut failure) => {
                if let Some(answer) = failure.answer.take() {
                    put(output, &answer)?;
                }
                Err(failure)
            }
        },
    }
}

pub fn put_table(
    output: Option<&OsStr>,
    table: &Table,
    arguments: &Arguments,
) -> Result<(), Failure> {
    match arguments.text_out() {
        true => put(output, text::write(table).as_bytes()),
        false => put(output, table.as_bytes()),
    }
}

pub fn encode(arguments: &Arguments) -> Result<(), Failure> {
    let table = Input::read_text(arguments)?.accepted()?;
    put(arguments.file("-o"), table.as_bytes())
}

pub fn decode(input: &Input, _: &Arguments) -> Result<Vec<u8>, Failure> {
    let table = input.accepted()?;
    Ok(text::write(&table).into_bytes())
}

pub fn check(input: &Input, _: &Arguments) -> Result<Vec<u8>, Failure> {
    input.accepted().map(|_| Vec::new())
}

pub fn list(input: &Input, arguments: &Arguments) -> Result<Vec<u8>, Failure> {
    if arguments.has("--json") {
        let table = input.accepted_or_json(arguments)?;
        return Ok(json::listing(&table).into_bytes());
    }
    // The library's text also where the table is refused.
    let mut listing = vec![0; keeper::LISTING_ROOM];
    let written = keeper::listing(&input.table, &mut listing)
        .map_err(|refusal| input.refused(&Call::Table, refusal))?;
    listing.truncate(written);
    match input.accepted() {
        Ok(_) => Ok(listing),
        Err(failure) => Err(failure.with(listing)),
    }
}

/// A process of a set, which has 32 bits.
fn holder(arguments: &Arguments, process: u16) -> Result<usize, Failure> {
    if usize::from(process) < keeper::MOST_PROCESSES {
        return Ok(process.into());
    }
    let what = format_args!("`{process}`: a process that holds is numbered 0 to 31");
    Err(arguments::wrong(arguments.subcommand, what))
}

/// The ceilings of `--under`, where it was given. One that was left out is the
/// count of its process.
fn ceilings(table: &[u8], arguments: &Arguments) -> Option<Vec<u16>> {
    let given = arguments.ceilings("--under")?.iter().enumerate();
    let count = |process| run_table::count(table, process);
    let numbers = given.map(|(process, ceiling)| ceiling.unwrap_or_else(|| count(process)));
    Some(numbers.collect())
}

/// The ceilings of processes that hold, of all where none is named: the last
/// checkpoint of each, and the count of any other.
fn ceilings_of_holders(table: &Table, processes: &[u16]) -> Vec<u16> {
    let holds = |process| processes.is_empty() || processes.contains(&process);
    let counts = (0..).zip(table.counts());
    let ceilings = counts.map(|(process, count)| count - u16::from(holds(process)));
    ceilings.collect()
}

/// The line under ceilings by the marking method, with marks of the right size.
fn marked_line(table: &Table, ceilings: &[u16]) -> Result<Line, Refusal> {
    table.marked_line(ceilings, &mut vec![0; table.marks_size()])
}

pub fn line(input: &Input, arguments: &Arguments) -> Result<Vec<u8>, Failure> {
    let processes = arguments.numbers("PROCESS");
    let mut set = 0;
    for process in processes {
        set |= 1 << holder(arguments, *process)?;
    }
    let table = input.accepted_or_json(arguments)?;
    let ceilings = ceilings(&input.table, arguments);
    let call = match (&ceilings, processes) {
        (Some(ceilings), _) => Call::Under(ceilings),
        (None, []) => Call::Table,
        (None, _) => Call::Hold(processes),
    };
    let line = match (&call, arguments.has("--marking")) {
        (Call::Under(ceilings), false) => table.line_under(ceilings),
        (Call::Under(ceilings), true) => marked_line(&table, ceilings),
        (Call::Hold(_), false) => table.line_of_set(set),
        // 12 is left to the call for sets.
        (Call::Hold(_), true) => table
            .line_of_set(set)
            .and_then(|_| marked_line(&table, &ceilings_of_holders(&table, processes))),
        (_, false) => Ok(table.recovery_line()),
        (_, true) => marked_line(&table, &ceilings_of_holders(&table, processes)),
    };
    let line = line.map_err(|refusal| input.refused_or_json(&call, refusal, arguments))?;
    Ok(match arguments.has("--json") {
        true => json::line(&line),
        false => format!("{line}\n"),
    }
    .into_bytes())
}

pub fn new(arguments: &Arguments) -> Result<Table, Failure> {
    let n = arguments.the_number("N");
    Table::new(n.into()).map_err(|refusal| {
        let words = match refusal {
            Refusal::ProcessesOutOfRange => format!("N is {n}, and must be 1 to 32"),
            _ => refusal.words().to_string(),
        };
        Failure::refused(format!("refused {}: {words}", refusal.number()))
    })
}

/// The table after a step, of which nothing is said.
fn stepped<T>(
    input: &Input,
    call: &Call,
    step: impl FnOnce(&mut Table) -> Result<T, Refusal>,
) -> Result<Stepped, Failure> {
    let mut table = input.accepted()?;
    step(&mut table).map_err(|refusal| input.refused(call, refusal))?;
    Ok(Stepped { table, said: None })
}

pub fn send(input: &Input, arguments: &Arguments) -> Result<Stepped, Failure> {
    let (from, to) = (arguments.the_number("FROM"), arguments.the_number("TO"));
    stepped(input, &Call::Send { from, to }, |table| {
        table.send(from, to)
    })
}

pub fn save(input: &Input, arguments: &Arguments) -> Result<Stepped, Failure> {
    let process = arguments.the_number("PROCESS");
    let list = arguments.numbers("POSITION");
    stepped(input, &Call::Save { process, list }, |table| {
        table.save(process, list)
    })
}

pub fn receive(input: &Input, arguments: &Arguments) -> Result<Stepped, Failure> {
    let process = arguments.the_number("PROCESS");
    let list = arguments.numbers("POSITION");
    stepped(input, &Call::Receive { process, list }, |table| {
        table.receive(process, list)
    })
}

pub fn fall_back(input: &Input, arguments: &Arguments) -> Result<Stepped, Failure> {
    let mut table = input.accepted()?;
    let FellBack { line, messages } = table.fall_back();
    let said = arguments.has("--moves").then(|| {
        let moved = messages.iter().enumerate().map(|(old, new)| match new {
            Some(new) => format!("message {old} {new}\n"),
            None => format!("message {old} removed\n"),
        });
        [format!("line {line}\n")]
            .into_iter()
            .chain(moved)
            .collect()
    });
    Ok(Stepped { table, said })
}

pub fn draw(input: &Input, arguments: &Arguments) -> Result<Vec<u8>, Failure> {
    let hold = arguments.numbers("--hold");
    let holders = match arguments.word("--hold") {
        Some(_) => Holders::All,
        None => {
            let named = hold.iter().map(|process| holder(arguments, *process));
            Holders::Of(named.collect::<Result<_, _>>()?)
        }
    };
    let processes = arguments.numbers("--processes").iter().copied();
    let choice = Choice {
        processes: arguments
            .has("--processes")
            .then(|| processes.map(usize::from).collect()),
        last: arguments.number("--last").map(usize::from),
        kept_only: arguments.has("--kept-only"),
    };
    let named = arguments.checkpoints("--stand").map(stand::names);
    let run = match (ceilings(&input.table, arguments), &named) {
        (Some(ceilings), _) => Run::read_under(&input.table, &ceilings)
            .map_err(|refusal| input.refused(&Call::Under(&ceilings), refusal))?,
        (None, Some(named)) => {
            let together = stand::ask(input, named, arguments)?;
            Run::read_standing(&input.table, named, together)
                .map_err(|refusal| input.refused(&Call::Stand(named), refusal))?
        }
        (None, None) => Run::read(&input.table, &holders)
            .map_err(|refusal| input.refused(&Call::Hold(hold), refusal))?,
    };
    draw::draw(&run, &choice, arguments.text("--title"))
        .map(String::into_bytes)
        .map_err(|undrawn| arguments::wrong(arguments.subcommand, undrawn))
}

pub fn completion(arguments: &Arguments) -> Result<(), Failure> {
    let script = match arguments.word("SHELL") {
        Some("bash") => completion::bash(),
        _ => completion::zsh(),
    };
    put(None, script.as_bytes())
}

pub fn help(arguments: &Arguments) -> Result<(), Failure> {
    let help = match arguments.word("SUBCOMMAND") {
        None => usage::overview(),
        Some(name) => usage::subcommand(name.as_ref())
            .expect("the name of a row")
            .help(),
    };
    put(None, help.as_bytes())
}
