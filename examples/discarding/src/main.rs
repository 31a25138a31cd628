//! The program: arguments, a folder for the files, and what was done.

use std::env;
use std::fs;
use std::io::{self, Write};
use std::path::{Path, PathBuf};
use std::process::ExitCode;
use std::time::{Duration, Instant};

use discarding::{drive, BySheet, Tally};

const USAGE: &str = "\
usage: discarding --steps N --seed S [--seeds K] [--seconds T] [--folder DIR]

Makes N steps (sends, saves, receipts, fall backs) in runs by the seed S. The
contents of checkpoints and messages are files; what the keep sheet does not
list is deleted; every fall back reads what it needs and compares it. Ends with
status 1 and a message where something is missing or wrong.

  --steps N     1 or more
  --seed S      the same seed makes the same steps
  --seeds K     goes on with the seeds after S until K are done
  --seconds T   goes on with the seeds after S until T seconds have passed
  --folder DIR  where the folders of the runs are made, and left after a
                failure; else a temporary folder
";

struct Arguments {
    steps: u64,
    seed: u64,
    seeds: u64,
    seconds: u64,
    folder: Option<PathBuf>,
}

fn main() -> ExitCode {
    let given: Vec<String> = env::args().skip(1).collect();
    if given.iter().any(|argument| argument == "--help") {
        return written(USAGE);
    }
    let arguments = match read(&given) {
        Ok(arguments) => arguments,
        Err(words) => {
            eprint!("discarding: {words}\n{USAGE}");
            return ExitCode::from(2);
        }
    };
    match done(&arguments) {
        Ok(text) => written(&text),
        Err(words) => {
            eprintln!("discarding: {words}");
            ExitCode::FAILURE
        }
    }
}

fn written(text: &str) -> ExitCode {
    match io::stdout().write_all(text.as_bytes()) {
        Ok(()) => ExitCode::SUCCESS,
        Err(error) => {
            eprintln!("discarding: standard output: {error}");
            ExitCode::FAILURE
        }
    }
}

fn read(given: &[String]) -> Result<Arguments, String> {
    let (mut steps, mut seed, mut folder) = (None, None, None);
    let (mut seeds, mut seconds) = (1, 0);
    let mut given = given.iter();
    while let Some(option) = given.next() {
        let Some(value) = given.next() else {
            return Err(format!("{option}: nothing follows it"));
        };
        let number = || {
            value
                .parse::<u64>()
                .map_err(|_| format!("{option} {value}: expected a number"))
        };
        match option.as_str() {
            "--steps" => steps = Some(number()?),
            "--seed" => seed = Some(number()?),
            "--seeds" => seeds = number()?,
            "--seconds" => seconds = number()?,
            "--folder" => folder = Some(PathBuf::from(value)),
            _ => return Err(format!("{option}: there is no such option")),
        }
    }
    Ok(Arguments {
        steps: match steps {
            None => return Err("--steps is missing".to_string()),
            Some(0) => return Err("--steps 0: expected 1 or more".to_string()),
            Some(steps) => steps,
        },
        seed: seed.ok_or("--seed is missing")?,
        seeds,
        seconds,
        folder,
    })
}

/// What to print, or what went wrong.
fn done(arguments: &Arguments) -> Result<String, String> {
    let folder = match &arguments.folder {
        Some(folder) => folder.clone(),
        None => env::temp_dir().join(format!("discarding-{}", std::process::id())),
    };
    fs::create_dir_all(&folder).map_err(|error| format!("{}: {error}", folder.display()))?;
    let text = driven(arguments, &folder)?;
    if arguments.folder.is_none() {
        fs::remove_dir(&folder).map_err(|error| format!("{}: {error}", folder.display()))?;
    }
    Ok(text)
}

/// One seed after another, until as many are done and as much time has passed as
/// is asked for.
fn driven(arguments: &Arguments, folder: &Path) -> Result<String, String> {
    let begin = Instant::now();
    let mut tally = Tally::default();
    let mut done = 0;
    while done == 0
        || done < arguments.seeds
        || begin.elapsed() < Duration::from_secs(arguments.seconds)
    {
        let seed = arguments.seed.wrapping_add(done);
        let made = drive(arguments.steps, seed, folder, BySheet::default)
            .map_err(|failed| failed.to_string())?;
        tally.add(&made);
        done += 1;
    }
    let first = arguments.seed;
    Ok(match done {
        1 => format!("seed {first}: {tally}\n"),
        _ => {
            let last = first.wrapping_add(done - 1);
            format!("seeds {first} to {last}: {tally}\n")
        }
    })
}
