//! Whether named checkpoints can stand together. The answer is the library's; for
//! a no a zigzag path that shows why is searched for here, in the table's messages.

use std::collections::VecDeque;

use keeper::{Checkpoint, Line, Message, Table};

use crate::arguments::Arguments;
use crate::command::Failure;
use crate::explain::Call;
use crate::input::Input;
use crate::{json, text};

/// Messages by which a zigzag path leads from one checkpoint to another, or to
/// itself. Each but the first is sent by the receiver of the one before, in the
/// interval of that receipt or a later one.
#[derive(Clone, Debug, PartialEq, Eq)]
pub struct Path {
    pub from: Checkpoint,
    pub to: Checkpoint,
    /// Positions, in the order of the path.
    pub messages: Vec<u16>,
}

/// A message that was received.
struct Received {
    position: u16,
    message: Message,
    /// Its receipt number; it lies in the interval before the checkpoint of that
    /// number.
    number: u16,
}

impl Path {
    /// A shortest one between any two of the named checkpoints, of which a process
    /// has one at most: breadth first over the messages, those of lower positions
    /// first.
    pub fn shortest(table: &Table, named: &[Checkpoint]) -> Option<Path> {
        let received: Vec<Received> = (0..)
            .zip(table.messages())
            .filter_map(|(position, message)| {
                let number = message.received?.get();
                Some(Received {
                    position,
                    message,
                    number,
                })
            })
            .collect();
        let named_of = |process: u16| named.iter().find(|one| one.process == process);
        let begins = |one: &Received| {
            let from = named_of(one.message.sender)?;
            (one.message.sent >= from.number).then_some(*from)
        };
        let ends = |one: &Received| {
            let to = named_of(one.message.receiver)?;
            (one.number <= to.number).then_some(*to)
        };
        let follows = |next: &Received, one: &Received| {
            next.message.sender == one.message.receiver && next.message.sent >= one.number - 1
        };
        // By message, whether a path to it is found, and the one before it there.
        let mut before: Vec<Option<Option<usize>>> = vec![None; received.len()];
        let mut next = VecDeque::new();
        for (k, one) in received.iter().enumerate() {
            if begins(one).is_some() {
                before[k] = Some(None);
                next.push_back(k);
            }
        }
        while let Some(k) = next.pop_front() {
            if let Some(to) = ends(&received[k]) {
                let mut path = vec![k];
                while let Some(Some(earlier)) = before[path[path.len() - 1]] {
                    path.push(earlier);
                }
                path.reverse();
                return Some(Path {
                    from: begins(&received[path[0]])?,
                    to,
                    messages: path.iter().map(|k| received[*k].position).collect(),
                });
            }
            for (other, one) in received.iter().enumerate() {
                if before[other].is_none() && follows(one, &received[k]) {
                    before[other] = Some(Some(k));
                    next.push_back(other);
                }
            }
        }
        None
    }

    /// Where it leads, in words: `from 0.1 to itself`.
    pub fn leads(&self) -> String {
        match self.to == self.from {
            true => format!("from {} to itself", shown(self.from)),
            false => format!("from {} to {}", shown(self.from), shown(self.to)),
        }
    }

    /// Which of the named checkpoints it keeps off every line, in words.
    pub fn keeps_off(&self) -> String {
        match self.to == self.from {
            true => format!("{} is on no consistent line", shown(self.from)),
            false => format!(
                "{} and {} are on no consistent line together",
                shown(self.from),
                shown(self.to)
            ),
        }
    }

    /// Where it leads, and by which messages.
    fn words(&self, table: &Table) -> String {
        let messages = self.messages.iter().map(|position| {
            let message = table.message(*position).expect("a message of the table");
            format!("message {position} ({})", text::ends(&message))
        });
        format!(
            "a zigzag path leads {} by {}",
            self.leads(),
            messages.collect::<Vec<_>>().join(", then ")
        )
    }
}

/// A checkpoint as it is named: `1.2`.
pub fn shown(one: Checkpoint) -> String {
    format!("{}.{}", one.process, one.number)
}

/// Whether named checkpoints stand together.
#[derive(Clone, Debug, PartialEq, Eq)]
pub enum Together {
    /// The latest consistent line that has them.
    Yes(Line),
    No(Path),
}

impl Together {
    /// The library's answer, with a path where it is a no; or what is wrong where
    /// the search does not agree with the library.
    fn of(table: &Table, named: &[Checkpoint], answer: Option<Line>) -> Result<Together, String> {
        match (answer, Path::shortest(table, named)) {
            (Some(line), None) => Ok(Together::Yes(line)),
            (None, Some(path)) => Ok(Together::No(path)),
            (Some(line), Some(path)) => Err(format!(
                "the library answers the line {line}, and {}",
                path.words(table)
            )),
            (None, None) => Err("the library answers no, and there is no zigzag path".to_string()),
        }
    }
}

/// The names by process and then by number, none twice, as the call has them.
pub fn names(given: &[Checkpoint]) -> Vec<Checkpoint> {
    let mut named = given.to_vec();
    named.sort_unstable();
    named.dedup();
    named
}

/// Asks the library, and for a path.
pub fn ask(
    input: &Input,
    named: &[Checkpoint],
    arguments: &Arguments,
) -> Result<Together, Failure> {
    let table = input.accepted_or_json(arguments)?;
    let answer = table
        .stand_together(named)
        .map_err(|refusal| input.refused_or_json(&Call::Stand(named), refusal, arguments))?;
    Together::of(&table, named, answer).map_err(|words| Failure::internal(&words))
}

pub fn stand(input: &Input, arguments: &Arguments) -> Result<Vec<u8>, Failure> {
    let named = names(arguments.checkpoints("STATE").unwrap_or_default());
    match (ask(input, &named, arguments)?, arguments.has("--json")) {
        (Together::Yes(line), true) => Ok(json::line(&line).into_bytes()),
        (Together::Yes(line), false) => Ok(format!("{line}\n").into_bytes()),
        (Together::No(path), json) => {
            let words = path.words(&input.accepted()?);
            let failure = Failure::no(format!("no: {}: {words}", path.keeps_off()));
            Err(match json {
                true => failure.with(json::path(&path).into_bytes()),
                false => failure,
            })
        }
    }
}

#[cfg(test)]
mod tests {
    use super::*;

    /// Example A of the format's document.
    fn example_a() -> Table {
        let table = include_bytes!("../../../tests/corpus/example_a.table");
        Table::from_bytes(&table[..]).expect("accepted")
    }

    fn checkpoint(process: u16, number: u16) -> Checkpoint {
        Checkpoint { process, number }
    }

    #[test]
    fn what_does_not_hold_is_never_told() {
        let table = example_a();
        let (useless, other) = ([checkpoint(0, 2)], [checkpoint(1, 2)]);
        let answer = |named: &[Checkpoint]| table.stand_together(named).expect("not refused");
        let no = Together::of(&table, &useless, answer(&useless)).expect("they agree");
        let path = Path {
            from: useless[0],
            to: useless[0],
            messages: vec![3, 2],
        };
        assert_eq!(no, Together::No(path));
        let yes = Together::of(&table, &other, answer(&other)).expect("they agree");
        assert_eq!(Some(yes), answer(&other).map(Together::Yes));
        // A no without a path, and a yes with one.
        let told = Together::of(&table, &other, None).expect_err("they do not agree");
        assert_eq!(told, "the library answers no, and there is no zigzag path");
        let told = Together::of(&table, &useless, answer(&other)).expect_err("they do not agree");
        let words =
            "the library answers the line 3 2, and a zigzag path leads from 0.2 to itself by \
                     message 3 (0.2 -> 1.2), then message 2 (1.1 -> 0.2)";
        assert_eq!(told, words);
    }

    #[test]
    fn the_order_and_the_number_of_names() {
        let (one, other) = (checkpoint(0, 2), checkpoint(1, 0));
        assert_eq!(names(&[other, one, other, one]), [one, other]);
        let lower = checkpoint(0, 1);
        assert_eq!(names(&[one, lower]), [lower, one]);
        assert_eq!(names(&[]), []);
    }
}
