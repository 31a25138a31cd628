//! `reference list < table` prints the listing.
//! `reference gen KIND SEED N M > table` writes a generated table.
//! `reference outcome CALL ARGS < table` prints the number and the answer.

use std::io::{self, Read, Write};
use std::process::ExitCode;

use reference::listing::MOST_INPUT;
use reference::Outcome;

const USAGE: &str = "usage: reference list < table
       reference gen KIND SEED N M > table
       reference outcome CALL ARGS < table
calls: check
       line ANSWER_LEN
       set SET ANSWER_LEN
       sets SCRATCH_LEN ANSWER_LEN SET...
       under ANSWER_LEN CEILING...
       marked MARKS_LEN ANSWER_LEN CEILING...
       stand ANSWER_LEN PROCESSES NUMBER...
       send FROM TO ANSWER_LEN
       save PROCESS ANSWER_LEN POSITION...
       receive PROCESS ANSWER_LEN POSITION...
       fall-back ANSWER_LEN
       keep SCRATCH_LEN ANSWER_LEN";

/// Standard input, at most `most` bytes of it.
fn input(most: u64) -> io::Result<Vec<u8>> {
    let mut bytes = Vec::new();
    io::stdin().lock().take(most).read_to_end(&mut bytes)?;
    Ok(bytes)
}

/// A decimal argument.
fn number<T: std::str::FromStr>(args: &[String], at: usize) -> Option<T> {
    args.get(at)?.parse().ok()
}

/// The decimal arguments from one on.
fn list<T: std::str::FromStr>(args: &[String], from: usize) -> Option<Vec<T>> {
    (from..args.len()).map(|at| number(args, at)).collect()
}

/// The call that the arguments name, done on the table.
fn outcome(bytes: &[u8], args: &[String]) -> Option<Outcome> {
    Some(match (args.first()?.as_str(), args.len()) {
        ("check", 1) => Outcome::refused(reference::check_table(bytes)),
        ("line", 2) => reference::recovery_line(bytes, number(args, 1)?),
        ("set", 3) => reference::line_of_set(bytes, number(args, 1)?, number(args, 2)?),
        ("sets", 3..) => {
            reference::lines_of_sets(bytes, &list(args, 3)?, number(args, 1)?, number(args, 2)?)
        }
        ("under", 2..) => reference::line_under(bytes, &list(args, 2)?, number(args, 1)?),
        ("marked", 3..) => {
            reference::marked_line(bytes, &list(args, 3)?, number(args, 1)?, number(args, 2)?)
        }
        // The first so many of the numbers are processes, the others states.
        ("stand", 3..) => {
            let numbers: Vec<u16> = list(args, 3)?;
            let (processes, states) = numbers.split_at_checked(number(args, 2)?)?;
            reference::stand_together(bytes, processes, states, number(args, 1)?)
        }
        ("send", 4) => reference::send(bytes, number(args, 1)?, number(args, 2)?, number(args, 3)?),
        ("save", 3..) => {
            reference::save(bytes, number(args, 1)?, &list(args, 3)?, number(args, 2)?)
        }
        ("receive", 3..) => {
            reference::receive(bytes, number(args, 1)?, &list(args, 3)?, number(args, 2)?)
        }
        ("fall-back", 2) => reference::fall_back(bytes, number(args, 1)?),
        ("keep", 3) => reference::keep_sheet(bytes, number(args, 1)?, number(args, 2)?),
        _ => return None,
    })
}

/// Number, answer in hexadecimal, and where there are any the scratch lines and
/// the mark buffer's zero bytes.
fn show(outcome: &Outcome) -> String {
    let mut text = format!("number {}\nanswer", outcome.number);
    for byte in &outcome.answer {
        text += &format!(" {byte:02x}");
    }
    text += "\n";
    if let Some(lines) = &outcome.lines {
        text += "lines";
        for entry in lines {
            text += &format!(" {entry}");
        }
        text += "\n";
    }
    if let Some(zeros) = outcome.marks {
        text += &format!("marks {zeros}\n");
    }
    text
}

/// What goes to standard output, or `None` when the arguments are not right.
fn run(args: &[String]) -> io::Result<Option<Vec<u8>>> {
    Ok(match args.first().map(String::as_str) {
        Some("list") if args.len() == 1 => {
            Some(reference::listing(&input(MOST_INPUT as u64)?).into_bytes())
        }
        Some("gen") if args.len() == 5 => (|| {
            reference::gen::by_name(
                &args[1],
                number(args, 2)?,
                number(args, 3)?,
                number(args, 4)?,
            )
        })(),
        Some("outcome") => {
            outcome(&input(u64::MAX)?, &args[1..]).map(|outcome| show(&outcome).into_bytes())
        }
        _ => None,
    })
}

fn main() -> ExitCode {
    let args: Vec<String> = std::env::args().skip(1).collect();
    match run(&args) {
        Ok(Some(output)) => match io::stdout().write_all(&output) {
            Ok(()) => ExitCode::SUCCESS,
            Err(_) => ExitCode::FAILURE,
        },
        Ok(None) => {
            eprintln!("{USAGE}");
            eprintln!("kinds: {}", reference::gen::KINDS.join(" "));
            eprintln!("       {}", reference::gen::OUT_OF_TURN_KINDS.join(" "));
            eprintln!("       damage-1 to damage-9, damage-23");
            ExitCode::from(2)
        }
        Err(error) => {
            eprintln!("{error}");
            ExitCode::FAILURE
        }
    }
}
