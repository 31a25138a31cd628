//! A run as a diagram needs it: the table's numbers, what is kept and the
//! lines, by the library's answers; and what of it is drawn.

use std::fmt;

use keeper::{Checkpoint, Line, Refusal, Table};

use crate::stand::{Path, Together};

pub struct Message {
    pub from: usize,
    /// The number of the sender's latest checkpoint before sending.
    pub sent: usize,
    pub to: usize,
    /// The number of the receiver's first checkpoint after receiving, the virtual
    /// one where it is not saved yet; 0: it is waiting.
    pub received: usize,
    /// Whether it is received and not saved yet.
    pub unsaved: bool,
    pub kept: bool,
    /// Its place on the zigzag path that is drawn, from 0.
    pub on_path: Option<usize>,
}

impl Message {
    pub fn waiting(&self) -> bool {
        self.received == 0
    }
}

/// Whose lines are drawn, each of them alone holding.
#[derive(Clone, Debug, PartialEq, Eq)]
pub enum Holders {
    /// These, numbered 0 to 31.
    Of(Vec<usize>),
    All,
}

pub struct Run {
    pub counts: Vec<usize>,
    pub messages: Vec<Message>,
    /// By process and number.
    pub kept: Vec<Vec<bool>>,
    pub recovery_line: Vec<usize>,
    /// By process, the line of it alone holding.
    pub hold_lines: Vec<Vec<usize>>,
    /// The processes whose lines are drawn, rising.
    pub holders: Vec<usize>,
    /// The line under ceilings, where it is drawn.
    pub under: Option<Under>,
    /// The named checkpoints, where some are.
    pub stand: Option<Stand>,
}

/// A line under ceilings, both by process.
pub struct Under {
    pub ceilings: Vec<usize>,
    pub line: Vec<usize>,
}

/// Named checkpoints, by process, and whether they stand together.
pub struct Stand {
    pub named: Vec<Checkpoint>,
    pub answer: Standing,
}

pub enum Standing {
    /// The line that has them all, by process.
    Line(Vec<usize>),
    /// There is none, and this shows why.
    Path(Path),
}

impl Run {
    /// Reads a table, or refuses as the keeper does: a holder at N or above is
    /// a bit too many in a set.
    pub fn read(table: &[u8], holders: &Holders) -> Result<Run, Refusal> {
        let table = Table::from_bytes(table)?;
        let processes = 0..table.processes();
        let mut holders: Vec<usize> = match holders {
            Holders::All => processes.clone().map(usize::from).collect(),
            Holders::Of(holders) => holders.clone(),
        };
        holders.sort_unstable();
        holders.dedup();
        for holder in &holders {
            table.line_of_set(1 << holder)?;
        }
        let sheet = table.keep_sheet();
        let kept = |p: u16| -> Vec<bool> {
            let numbers = 0..table.count(p);
            numbers
                .map(|number| sheet.has_checkpoint(p, number))
                .collect()
        };
        let messages = table
            .messages()
            .zip(0..)
            .map(|(message, position)| Message {
                from: message.sender.into(),
                sent: message.sent.into(),
                to: message.receiver.into(),
                received: message.received.map_or(0, |number| number.get().into()),
                unsaved: message.is_unsaved(),
                kept: sheet.has_message(position),
                on_path: None,
            });
        let hold_line = |p| places(sheet.line(p).expect("a line of each process"));
        Ok(Run {
            counts: table.counts().map(usize::from).collect(),
            messages: messages.collect(),
            kept: processes.clone().map(kept).collect(),
            recovery_line: places(&table.recovery_line()),
            hold_lines: processes.map(hold_line).collect(),
            holders,
            under: None,
            stand: None,
        })
    }

    /// Reads a table with the line under these ceilings, or refuses as the
    /// keeper does.
    pub fn read_under(table: &[u8], ceilings: &[u16]) -> Result<Run, Refusal> {
        let line = Table::from_bytes(table)?.line_under(ceilings)?;
        let under = Under {
            ceilings: ceilings.iter().copied().map(usize::from).collect(),
            line: places(&line),
        };
        Ok(Run {
            under: Some(under),
            ..Run::read(table, &Holders::Of(vec![]))?
        })
    }

    /// Reads a table with named checkpoints, and whether they stand together.
    pub fn read_standing(
        table: &[u8],
        named: &[Checkpoint],
        together: Together,
    ) -> Result<Run, Refusal> {
        let mut run = Run::read(table, &Holders::Of(vec![]))?;
        let answer = match together {
            Together::Yes(line) => Standing::Line(places(&line)),
            Together::No(path) => {
                for (place, position) in path.messages.iter().enumerate() {
                    run.messages[usize::from(*position)].on_path = Some(place);
                }
                Standing::Path(path)
            }
        };
        let named = named.to_vec();
        run.stand = Some(Stand { named, answer });
        Ok(run)
    }

    /// The line that has the named checkpoints, where there is one.
    pub fn standing_line(&self) -> Option<&Vec<usize>> {
        match &self.stand.as_ref()?.answer {
            Standing::Line(line) => Some(line),
            Standing::Path(_) => None,
        }
    }

    /// The zigzag path between named checkpoints, where there is one.
    pub fn path(&self) -> Option<&Path> {
        match &self.stand.as_ref()?.answer {
            Standing::Line(_) => None,
            Standing::Path(path) => Some(path),
        }
    }

    /// Whether the checkpoint is a named one.
    pub fn names(&self, p: usize, number: usize) -> bool {
        let named = self.stand.iter().flat_map(|stand| &stand.named);
        let mut named = named.map(|one| (usize::from(one.process), usize::from(one.number)));
        named.any(|one| one == (p, number))
    }

    /// Whether the checkpoint is drawn though it is not kept: that of a line that
    /// was asked for, and a named one.
    fn is_asked_for(&self, p: usize, number: usize) -> bool {
        let under = self.under.iter().map(|under| &under.line);
        let mut lines = under.chain(self.standing_line());
        self.names(p, number) || lines.any(|line| line[p] == number)
    }

    /// The number of the checkpoint before which the arrow of message k ends:
    /// the virtual one for a waiting message, and for one that is not saved yet.
    pub fn ends_before(&self, k: usize) -> usize {
        let message = &self.messages[k];
        if message.waiting() {
            self.counts[message.to]
        } else {
            message.received
        }
    }

    /// The lines that are drawn: the recovery line, those of the holders, the one
    /// under ceilings, and the one that has the named checkpoints.
    pub fn lines(&self) -> impl Iterator<Item = &[usize]> {
        let holders = self.holders.iter().map(|holder| &self.hold_lines[*holder]);
        std::iter::once(&self.recovery_line)
            .chain(holders)
            .chain(self.under.iter().map(|under| &under.line))
            .chain(self.standing_line())
            .map(Vec::as_slice)
    }

    /// Whether the checkpoint is kept, named or on one of the lines.
    pub fn marks(&self, p: usize, number: usize) -> bool {
        self.kept[p].get(number) == Some(&true)
            || self.names(p, number)
            || self.lines().any(|line| line[p] == number)
    }

    /// The processes whose lines, each alone holding, have the checkpoint.
    pub fn held_at(&self, p: usize, number: usize) -> Vec<usize> {
        (0..self.counts.len())
            .filter(|holder| self.hold_lines[*holder][p] == number)
            .collect()
    }

    /// The processes whose lines, each alone holding, a message crosses: it was
    /// sent before the line and received after it.
    pub fn crossed(&self, message: &Message) -> Vec<usize> {
        let crosses = |line: &[usize]| {
            message.sent < line[message.from] && line[message.to] < message.received
        };
        (0..self.counts.len())
            .filter(|holder| crosses(&self.hold_lines[*holder]))
            .collect()
    }
}

fn places(line: &Line) -> Vec<usize> {
    line.iter().copied().map(usize::from).collect()
}

/// What a diagram is asked to show.
#[derive(Clone, Debug, Default)]
pub struct Choice {
    /// The processes that have a lifeline, from the top; all where there is
    /// none.
    pub processes: Option<Vec<usize>>,
    /// Of each process no more than so many checkpoints, its last.
    pub last: Option<usize>,
    /// Nothing but what is kept.
    pub kept_only: bool,
}

/// A choice that a run can't have.
#[derive(Clone, Debug, PartialEq, Eq)]
pub enum BadChoice {
    NoProcesses,
    NoCheckpoints,
    NoProcess { process: usize, processes: usize },
    ProcessTwice(usize),
}

impl fmt::Display for BadChoice {
    fn fmt(&self, to: &mut fmt::Formatter<'_>) -> fmt::Result {
        match self {
            BadChoice::NoProcesses => write!(to, "--processes needs a process"),
            BadChoice::NoCheckpoints => write!(to, "--last needs a number above 0"),
            BadChoice::NoProcess { process, processes } => {
                write!(to, "there is no process {process} (N is {processes})")
            }
            BadChoice::ProcessTwice(process) => {
                write!(to, "process {process} is to be drawn twice")
            }
        }
    }
}

/// What of a run is drawn.
pub struct View<'a> {
    pub run: &'a Run,
    /// The processes that have a lifeline, from the top.
    pub rows: Vec<usize>,
    /// By process, its row.
    row_of: Vec<Option<usize>>,
    /// By process, the number of the first checkpoint of those that `last`
    /// leaves. All that lies before it is left out.
    pub first: Vec<usize>,
    kept_only: bool,
}

impl<'a> View<'a> {
    pub fn of(run: &'a Run, choice: &Choice) -> Result<View<'a>, BadChoice> {
        let n = run.counts.len();
        let rows = choice.processes.clone().unwrap_or_else(|| (0..n).collect());
        if rows.is_empty() {
            return Err(BadChoice::NoProcesses);
        }
        if choice.last == Some(0) {
            return Err(BadChoice::NoCheckpoints);
        }
        let mut row_of = vec![None; n];
        for (row, process) in rows.iter().copied().enumerate() {
            let own = row_of.get_mut(process).ok_or(BadChoice::NoProcess {
                process,
                processes: n,
            })?;
            if own.replace(row).is_some() {
                return Err(BadChoice::ProcessTwice(process));
            }
        }
        let last = choice.last.unwrap_or(usize::MAX);
        Ok(View {
            run,
            rows,
            row_of,
            first: run
                .counts
                .iter()
                .map(|count| count.saturating_sub(last))
                .collect(),
            kept_only: choice.kept_only,
        })
    }

    pub fn row(&self, p: usize) -> Option<usize> {
        self.row_of[p]
    }

    /// Whether a checkpoint is drawn. The virtual one of a row always is, and so
    /// are those of lines and the named ones, though they need not be kept.
    pub fn has_checkpoint(&self, p: usize, number: usize) -> bool {
        let kept = self.run.kept[p].get(number) != Some(&false);
        let wanted = !self.kept_only || kept || self.run.is_asked_for(p, number);
        wanted && self.has_after(p, number)
    }

    /// Whether that which lies after a checkpoint of a process may be drawn.
    fn has_after(&self, p: usize, number: usize) -> bool {
        self.row_of[p].is_some() && number >= self.first[p]
    }

    /// Whether a message may be drawn where its ends are. That of a zigzag path need
    /// not be kept.
    fn wants(&self, k: usize) -> bool {
        let message = &self.run.messages[k];
        !self.kept_only || message.kept || message.on_path.is_some()
    }

    /// Whether the place of the send of message k is drawn.
    pub fn has_send(&self, k: usize) -> bool {
        let message = &self.run.messages[k];
        self.wants(k) && self.has_after(message.from, message.sent)
    }

    /// Whether the place is drawn where the arrow of message k ends.
    pub fn has_end(&self, k: usize) -> bool {
        self.wants(k) && self.has_after(self.run.messages[k].to, self.run.ends_before(k) - 1)
    }

    /// Whether something of message k is drawn.
    pub fn has_message(&self, k: usize) -> bool {
        self.has_send(k) || self.has_end(k)
    }

    /// The numbers of the checkpoints of a process that are drawn, and of its
    /// virtual one.
    pub fn checkpoints(&self, p: usize) -> impl Iterator<Item = usize> + '_ {
        (self.first[p]..=self.run.counts[p]).filter(move |number| self.has_checkpoint(p, *number))
    }

    /// The positions of the messages of which something is drawn.
    pub fn messages(&self) -> impl Iterator<Item = usize> + '_ {
        (0..self.run.messages.len()).filter(|k| self.has_message(*k))
    }
}
