//! Why a checkpoint or a message is kept: a future that needs it, executed; or
//! why it is not: the lines that pass it by. Both are written as a script that
//! `keeper run` takes.

use std::fmt::{self, Write};

use keeper::{Checkpoint, Line, Message, Refusal, Sheet, Table};

use crate::arguments::{read_checkpoint, Arguments};
use crate::command::Failure;
use crate::explain::{no_checkpoint, no_process, plural};
use crate::input::Input;
use crate::text;

/// What is asked for.
#[derive(Clone, Copy, Debug, PartialEq, Eq)]
pub enum Item {
    Checkpoint { process: u16, number: u16 },
    Message(u16),
}

impl Item {
    /// Reads `1.2` or `m4`.
    pub fn read(text: &str) -> Option<Item> {
        if let Some(digits) = text.strip_prefix('m') {
            let all = digits.bytes().all(|byte| byte.is_ascii_digit());
            return all
                .then(|| digits.parse().ok())
                .flatten()
                .map(Item::Message);
        }
        let Checkpoint { process, number } = read_checkpoint(text)?;
        Some(Item::Checkpoint { process, number })
    }

    /// Itself, with its message where it is one; or why the table does not have
    /// it.
    fn found(self, table: &Table) -> Result<Found, String> {
        let n = table.processes();
        match self {
            Item::Checkpoint { process, .. } if process >= n => Err(no_process(process, n.into())),
            Item::Checkpoint { process, number } => match table.count(process) {
                count if number < count => Ok(Found::Checkpoint(process, number)),
                count => Err(no_checkpoint(process, number, count)),
            },
            Item::Message(position) => match table.message(position) {
                Some(message) => Ok(Found::Message(position, message)),
                None => Err(match table.messages().len() {
                    0 => format!("there is no message {position}: the table has none"),
                    m => format!("there is no message {position}: the table has {m}"),
                }),
            },
        }
    }
}

/// What is asked for, in the table.
#[derive(Clone, Copy)]
enum Found {
    Checkpoint(u16, u16),
    Message(u16, Message),
}

impl fmt::Display for Found {
    fn fmt(&self, to: &mut fmt::Formatter<'_>) -> fmt::Result {
        match self {
            Found::Checkpoint(process, number) => write!(to, "Checkpoint {process}.{number}"),
            Found::Message(position, message) => {
                write!(to, "Message {position} ({})", text::ends(message))
            }
        }
    }
}

impl Found {
    /// Whether the line needs it where it is the recovery line at the end of a
    /// future: the checkpoint is on it, or the message crosses it.
    fn needed_by(&self, line: &Line) -> bool {
        match self {
            Found::Checkpoint(process, number) => at(line, *process) == *number,
            Found::Message(_, message) => {
                message.sent < at(line, message.sender)
                    && message
                        .received
                        .is_none_or(|received| received.get() > at(line, message.receiver))
            }
        }
    }

    fn on(&self, sheet: &Sheet) -> bool {
        match self {
            Found::Checkpoint(process, number) => sheet.has_checkpoint(*process, *number),
            Found::Message(position, _) => sheet.has_message(*position),
        }
    }

    /// As it stands in another table, at the same place.
    fn within(&self, table: &Table) -> Option<Found> {
        match self {
            Found::Checkpoint(process, number) => {
                (*number < table.count(*process)).then_some(*self)
            }
            Found::Message(position, _) => {
                let message = table.message(*position)?;
                Some(Found::Message(*position, message))
            }
        }
    }

    /// What a line that needs it has to do with it.
    fn bond(&self) -> String {
        match self {
            Found::Checkpoint(process, number) => {
                format!("has checkpoint {number} of process {process}")
            }
            Found::Message(_, message) => {
                let (sender, receiver) = (message.sender, message.receiver);
                format!(
                    "is crossed by it: sent by process {sender} before the line,\n\
                     # not received by process {receiver} before the line"
                )
            }
        }
    }

    /// How a line passes it by.
    fn passed_by(&self, line: &Line, table: &Table) -> String {
        match self {
            Found::Checkpoint(process, _) => {
                let stands = at(line, *process);
                let which = match stands == table.count(*process) {
                    true => ", the virtual checkpoint",
                    false => "",
                };
                format!("process {process} stands at {stands}{which}")
            }
            Found::Message(_, message) => {
                let (sender, sent) = (message.sender, message.sent);
                match message.received {
                    // A line that it does not cross stands at the count there.
                    Some(received) if sent < at(line, sender) && message.is_unsaved() => format!(
                        "received before it: process {} stands at {received}, the virtual checkpoint, which has received it",
                        message.receiver
                    ),
                    Some(received) if sent < at(line, sender) => format!(
                        "received before it: process {} stands at {}, and {received} is not above that",
                        message.receiver,
                        at(line, message.receiver)
                    ),
                    _ => format!(
                        "sent after it: process {sender} stands at {}, and {sent} is not below that",
                        at(line, sender)
                    ),
                }
            }
        }
    }
}

fn at(line: &Line, process: u16) -> u16 {
    line[usize::from(process)]
}

/// A future in which some processes save once each, with an empty list. The
/// recovery line at its end is the line of the others holding.
struct Future {
    saves: Vec<u16>,
    line: Line,
}

impl Future {
    /// Those that show whatever is kept: nobody saves; all save but one; all
    /// save.
    fn all(table: &Table) -> Vec<Future> {
        let n = table.processes();
        let processes = || 0..n;
        let but_one = processes().map(|one| processes().filter(|p| *p != one).collect());
        [vec![]]
            .into_iter()
            .chain(but_one)
            .chain([processes().collect()])
            .map(|saves: Vec<u16>| {
                let set = processes()
                    .filter(|p| !saves.contains(p))
                    .fold(0, |set, p| set | 1 << p);
                let line = table.line_of_set(set).expect("processes of the table");
                Future { saves, line }
            })
            .collect()
    }

    /// The tables after each save.
    fn execute(&self, table: &Table) -> Result<Vec<Table>, (u16, Refusal)> {
        let mut table = table.clone();
        let mut after = Vec::new();
        for process in &self.saves {
            table
                .save(*process, &[])
                .map_err(|refusal| (*process, refusal))?;
            after.push(table.clone());
        }
        Ok(after)
    }
}

/// Why there is no reason to tell.
#[derive(Debug, PartialEq, Eq)]
pub enum Unanswered {
    /// The table does not have it.
    NotThere(String),
    /// What a program that does as it should never says.
    Internal(String),
}

impl From<Unanswered> for Failure {
    fn from(unanswered: Unanswered) -> Failure {
        match unanswered {
            Unanswered::NotThere(words) => Failure::refused(words),
            Unanswered::Internal(words) => Failure::internal(&words),
        }
    }
}

pub fn why(input: &Input, arguments: &Arguments) -> Result<Vec<u8>, Failure> {
    let reasons = Reasons::of(input.accepted()?);
    let script = reasons.script(arguments.item("ITEM"), arguments.text_out())?;
    Ok(script.into_bytes())
}

/// A table with what is needed to tell of anything in it why it is kept or not.
pub struct Reasons {
    table: Table,
    sheet: Sheet,
    futures: Vec<Future>,
}

impl Reasons {
    pub fn of(table: Table) -> Reasons {
        Reasons {
            sheet: table.keep_sheet(),
            futures: Future::all(&table),
            table,
        }
    }

    /// The script; with the table after each step where `show` says so.
    pub fn script(&self, item: Item, show: bool) -> Result<String, Unanswered> {
        let found = item.found(&self.table).map_err(Unanswered::NotThere)?;
        let needing = || self.futures.iter().filter(|one| found.needed_by(&one.line));
        // One that can be executed, where there is one.
        let future = needing()
            .find(|future| future.execute(&self.table).is_ok())
            .or_else(|| needing().next());
        if future.is_some() != found.on(&self.sheet) {
            return Err(Unanswered::Internal(format!(
                "the sheet and the lines do not agree on {found}"
            )));
        }
        match future {
            Some(future) => self.kept(found, future, show),
            None => Ok(self.not_kept(found)),
        }
    }

    fn kept(&self, found: Found, future: &Future, show: bool) -> Result<String, Unanswered> {
        let mut script = format!(
            "# {found} is kept: a future needs it.\n{}",
            self.needed_by_holders(found)
        );
        let after = match future.execute(&self.table) {
            Ok(after) => after,
            Err((process, refusal)) => {
                script += &self.not_executed(found, future, process, refusal);
                return Ok(script);
            }
        };
        let end = after.last().unwrap_or(&self.table);
        let line = end.recovery_line();
        if line != future.line {
            return Err(Unanswered::Internal(format!(
                "the recovery line at the end of the future is {line}, and {} was expected",
                future.line
            )));
        }
        if !found
            .within(end)
            .is_some_and(|found| found.needed_by(&line))
        {
            return Err(Unanswered::Internal(format!(
                "the recovery line at the end of the future, {line}, does not need {found}"
            )));
        }
        script += match future.saves.is_empty() {
            true => "# The future without a step, which begins and ends with this table:\n",
            false => "# Its steps, from this table on:\n",
        };
        for (process, table) in future.saves.iter().zip(&after) {
            let _ = writeln!(script, "save {process}");
            if show {
                for line in text::write(table).lines() {
                    let _ = writeln!(script, "#     {line}");
                }
            }
        }
        let _ = writeln!(script, "line\n# {line}");
        let _ = writeln!(script, "# This recovery line at its end {}.", found.bond());
        Ok(script)
    }

    /// Which of the lines of single holders need it.
    fn needed_by_holders(&self, found: Found) -> String {
        let needs = |holder: &u16| {
            let line = self.sheet.line(*holder);
            line.is_some_and(|line| found.needed_by(line))
        };
        let holders: Vec<String> = (0..self.table.processes())
            .filter(needs)
            .map(|holder| holder.to_string())
            .collect();
        match holders.as_slice() {
            [] => "# No line of a single holder needs it; it is kept since it waits.\n".to_string(),
            [one] => format!("# The line of process {one} alone holding needs it.\n"),
            _ => format!(
                "# The lines of these processes, each alone holding, need it: {}.\n",
                holders.join(" ")
            ),
        }
    }

    /// The library's limit on checkpoints, which futures do not know.
    fn not_executed(
        &self,
        found: Found,
        future: &Future,
        process: u16,
        refusal: Refusal,
    ) -> String {
        let holders: Vec<String> = (0..self.table.processes())
            .filter(|p| !future.saves.contains(p))
            .map(|p| p.to_string())
            .collect();
        let holders = holders.join(" ");
        let (savers, line) = match holders.is_empty() {
            true => (
                "every process saves once".to_string(),
                "# The recovery line at its end, that of no process holding, by the call for sets:"
                    .to_string(),
            ),
            false => (
                format!("every process but {holders} saves once"),
                format!(
                    "# The recovery line at its end, that of process {holders} holding, by the call for sets:\n\
                     line {holders}"
                ),
            ),
        };
        format!(
            "# In it {savers}, with an empty list.\n\
             # It was not executed: process {process} has {}, and the library takes\n\
             # no more (refusal {}); futures know no such limit.\n\
             {line}\n# {}\n# It {}.\n",
            plural(self.table.count(process).into(), "checkpoint"),
            refusal.number(),
            future.line,
            found.bond()
        )
    }

    fn not_kept(&self, found: Found) -> String {
        let mut script = format!(
            "# {found} is not kept: no future needs it.\n\
             # The line of each process that alone holds passes it by:\n"
        );
        for holder in 0..self.table.processes() {
            let line = self.sheet.line(holder).expect("the sheet has its lines");
            let _ = writeln!(
                script,
                "line {holder}\n# {line}: {}",
                found.passed_by(line, &self.table)
            );
        }
        script
            + "# It is proved that no future needs what these lines pass by: docs/ASSURANCE.md,\n\
               # demand-3 and nothing-off-the-sheet-is-needed.\n"
    }
}

#[cfg(test)]
mod tests {
    use super::*;

    /// Example A of the format's document.
    fn reasons() -> Reasons {
        let table = include_bytes!("../../../tests/corpus/example_a.table");
        Reasons::of(Table::from_bytes(&table[..]).expect("accepted"))
    }

    #[test]
    fn what_does_not_hold_is_never_told() {
        let kept = Item::Checkpoint {
            process: 1,
            number: 2,
        };
        let internal = |reasons: &Reasons, words: &str| {
            let answer = reasons.script(kept, false);
            match answer {
                Err(Unanswered::Internal(told)) => assert!(told.contains(words), "{told}"),
                answer => panic!("{answer:?}"),
            }
        };
        assert!(reasons().script(kept, false).is_ok());
        // A line that is not the one at the end of its future.
        let mut wrong = reasons();
        let line = wrong.futures[2].line.clone();
        wrong.futures[2].saves = vec![1];
        assert!(wrong.futures[2].line == line);
        internal(&wrong, "was expected");
        // Fewer futures than show what is kept.
        let mut fewer = reasons();
        fewer.futures.truncate(1);
        internal(&fewer, "do not agree");
        // A future that does not need it.
        let found = kept.found(&reasons().table).expect("there");
        let all = reasons();
        match all.kept(found, &all.futures[0], false) {
            Err(Unanswered::Internal(told)) => assert!(told.contains("does not need"), "{told}"),
            answer => panic!("{answer:?}"),
        }
    }

    #[test]
    fn items() {
        assert_eq!(Item::read("m0"), Some(Item::Message(0)));
        assert_eq!(Item::read("m65535"), Some(Item::Message(65535)));
        let checkpoint = Item::Checkpoint {
            process: 1,
            number: 20,
        };
        assert_eq!(Item::read("1.20"), Some(checkpoint));
        for not in [
            "", "m", ".", "1", "1.", ".1", "m65536", "1.65536", "m-1", "M1", "1.2.3", "+1.2", "m 1",
        ] {
            assert_eq!(Item::read(not), None, "{not}");
        }
    }
}
