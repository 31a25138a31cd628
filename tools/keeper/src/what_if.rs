//! What sets of failing processes would cost. The lines are the library's; here is
//! counted what they lose.

use keeper::{Line, Refusal, Table};

use crate::arguments::{wrong, Arguments};
use crate::command::Failure;
use crate::explain::Call;
use crate::input::{self, Input, MOST_TEXT};
use crate::sets::{self, Asked, Row};
use crate::{json, text};

/// A set, its line, and what it costs.
#[derive(Clone, Debug, PartialEq, Eq)]
pub struct Cost {
    pub set: u32,
    pub line: Line,
    /// By process, its count less its number on the line.
    pub lost: Vec<u16>,
}

impl Cost {
    /// How many states are lost in all.
    pub fn sum(&self) -> u32 {
        self.lost.iter().copied().map(u32::from).sum()
    }

    /// The processes that lose something, rising.
    fn put_back(&self) -> Vec<u16> {
        let lost = (0..).zip(&self.lost);
        lost.filter(|(_, lost)| **lost > 0)
            .map(|(process, _)| process)
            .collect()
    }
}

/// The costs of the sets, in their order: the library is asked for as many at a time
/// as it takes.
pub fn costs(table: &Table, sets: &[u32]) -> Result<Vec<Cost>, Refusal> {
    let mut costs = Vec::with_capacity(sets.len());
    for portion in sets.chunks(keeper::MOST_SETS) {
        let lines = table.lines_of_sets(portion)?;
        costs.extend(portion.iter().zip(lines).map(|(set, line)| {
            Cost {
                set: *set,
                lost: table
                    .counts()
                    .zip(line.iter())
                    .map(|(count, number)| count - number)
                    .collect(),
                line,
            }
        }));
    }
    Ok(costs)
}

/// The rows of the file of `--sets`, with its name.
fn rows(arguments: &Arguments) -> Result<(String, Vec<Row>), Failure> {
    let Some(file) = arguments.file("--sets") else {
        return Ok((String::new(), vec![]));
    };
    if input::is_standard(Some(file)) && input::is_standard(arguments.file.as_deref()) {
        let what = "the sets are read from standard input, so that FILE must be named";
        return Err(wrong(arguments.subcommand, what));
    }
    let (name, bytes) = input::read(Some(file), MOST_TEXT)?;
    if bytes.len() > MOST_TEXT {
        let what = format!("{name}: longer than a list of sets may be ({MOST_TEXT} bytes)");
        return Err(Failure::trouble(what));
    }
    let rows = sets::rows(&bytes).map_err(|error| {
        Failure::trouble(match text::looks_like_table(&bytes) {
            true => format!("{name}: this is a table, and no list of sets"),
            false => format!("{name}:{}:{}: {error}", error.line, error.column),
        })
    })?;
    Ok((name, rows))
}

pub fn what_if(input: &Input, arguments: &Arguments) -> Result<Vec<u8>, Failure> {
    let (name, rows) = rows(arguments)?;
    let mut asked: Vec<&Asked> = arguments.sets("SET").iter().collect();
    if asked.is_empty() && !arguments.has("--sets") {
        asked.push(&Asked::Singles);
    }
    let own = asked.len();
    asked.extend(rows.iter().map(|row| &row.asked));
    let table = input.accepted_or_json(arguments)?;
    let n = table.processes();
    let sets: Vec<u32> = asked.iter().flat_map(|asked| asked.sets(n)).collect();
    let costs = costs(&table, &sets).map_err(|refusal| {
        let named: Vec<&[u16]> = asked.iter().map(|asked| asked.named()).collect();
        let failure = input.refused_or_json(&Call::Sets(&named), refusal, arguments);
        // Where the first process that is not there stands in the file.
        let unknown = |processes: &&[u16]| processes.iter().position(|process| *process >= n);
        let mut places = named.iter().zip(0..);
        match places.find_map(|(processes, place)| Some((place, unknown(processes)?))) {
            Some((place, process)) if place >= own => {
                let row: &Row = &rows[place - own];
                let column = row.columns[process];
                failure.at(format_args!("{name}:{}:{column}", row.line))
            }
            _ => failure,
        }
    })?;
    Ok(if arguments.has("--json") {
        json::costs(&costs)
    } else if arguments.has("--csv") {
        csv(&costs, n)
    } else if arguments.has("--cost") {
        by_cost(costs)
    } else {
        in_full(&costs)
    }
    .into_bytes())
}

/// A row for each set.
fn in_full(costs: &[Cost]) -> String {
    let rows = costs.iter().map(|cost| {
        [
            sets::shown(&sets::processes(cost.set)),
            cost.line.to_string(),
            sets::joined(&cost.lost, " "),
            cost.sum().to_string(),
        ]
    });
    in_columns(["set", "line", "lost", "in all"], rows)
}

/// The dearest first.
fn by_cost(mut costs: Vec<Cost>) -> String {
    // Equal ones stay in their order.
    costs.sort_by_key(|cost| std::cmp::Reverse(cost.sum()));
    let rows = costs.iter().map(|cost| {
        [
            sets::shown(&sets::processes(cost.set)),
            cost.sum().to_string(),
            sets::shown(&cost.put_back()),
        ]
    });
    in_columns(["set", "lost", "put back"], rows)
}

/// Rows with two blanks or more between columns.
fn in_columns<const N: usize>(names: [&str; N], rows: impl Iterator<Item = [String; N]>) -> String {
    let rows: Vec<[String; N]> = [names.map(str::to_string)]
        .into_iter()
        .chain(rows)
        .collect();
    let width = |column: usize| rows.iter().map(|row| row[column].len()).max();
    let widths: Vec<usize> = (0..N).map(|column| width(column).unwrap_or(0)).collect();
    let mut text = String::new();
    for row in &rows {
        for (field, width) in row[..N - 1].iter().zip(&widths) {
            text += &format!("{field:width$}  ");
        }
        text += &row[N - 1];
        text.push('\n');
    }
    text
}

/// With blanks between the processes of a set, so that no field has a comma.
fn csv(costs: &[Cost], n: u16) -> String {
    let by_process = |name: &str| (0..n).map(|p| format!(",{name}_{p}")).collect::<String>();
    let mut text = format!("set{}{},sum\n", by_process("line"), by_process("lost"));
    for cost in costs {
        let fields = cost.line.iter().chain(&cost.lost);
        let fields: String = fields.map(|number| format!(",{number}")).collect();
        let set = match cost.set {
            0 => sets::shown(&[]),
            set => sets::joined(&sets::processes(set), " "),
        };
        text += &format!("{set}{fields},{}\n", cost.sum());
    }
    text
}
