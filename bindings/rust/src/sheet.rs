//! A keep sheet that is owned, made of a table or read back from its bytes.

use std::error::Error;
use std::fmt;

use crate::table::numbers;
use crate::{run_table, Line, MOST_CHECKPOINTS, MOST_MESSAGES, MOST_PROCESSES, SHEET_ROOM};

/// A checkpoint by its process and its number. Checkpoints are ordered by
/// process and then by number, as a sheet lists them.
#[derive(Clone, Copy, Debug, PartialEq, Eq, PartialOrd, Ord, Hash)]
pub struct Checkpoint {
    /// The process that took it.
    pub process: u16,
    /// Its number, from 0.
    pub number: u16,
}

/// A keep sheet, of [`Table::keep_sheet`](crate::Table::keep_sheet) or read back
/// from its bytes. With the feature `run_table`.
///
/// It speaks of the table that it was made of: after a fall back of that table
/// its numbers and positions name other things. Two sheets are equal where their
/// bytes are, whether or not they have lines.
#[derive(Clone, Debug)]
pub struct Sheet {
    bytes: Vec<u8>,
    /// By process and then number, none twice.
    checkpoints: Vec<Checkpoint>,
    /// Rising.
    messages: Vec<u16>,
    /// The lines of single holders, by process; none where the sheet was read
    /// from its bytes.
    lines: Vec<Line>,
}

impl Sheet {
    /// The sheet of an accepted table.
    pub(crate) fn of_accepted(table: &[u8]) -> Sheet {
        let n = usize::from(run_table::processes(table));
        let mut scratch = vec![0; n * n];
        let mut answer = vec![0; SHEET_ROOM];
        let written = crate::keep_sheet(table, &mut scratch, &mut answer)
            .expect("no check catches: the table is accepted, and there is room");
        let mut sheet = Sheet::sized(&answer[..written]).expect("the archive's sheets are whole");
        sheet.lines = scratch
            .chunks_exact(n)
            .map(|line| Line(line.to_vec()))
            .collect();
        sheet
    }

    /// Reads a sheet back from its bytes. It must be whole and in order: as long
    /// as K and Q say, the checkpoints by process and then number and the
    /// messages by position, none twice, all within the limits of a table, and
    /// with a checkpoint of each process. The last holds of every sheet: the line
    /// of a process that alone holds has one of its checkpoints.
    ///
    /// What was changed into another sheet can't be told; that is left to the
    /// place where it is stored.
    ///
    /// ```
    /// use keeper::{Sheet, SheetError};
    /// // The sheet of example A.
    /// let bytes = [3, 0, 2, 0, 0, 0, 1, 0, 1, 0, 1, 0, 1, 0, 2, 0, 0, 0, 4, 0];
    /// let sheet = Sheet::from_bytes(&bytes)?;
    /// assert!(sheet.has_checkpoint(1, 2));
    /// let cut = Sheet::from_bytes(&bytes[..19]).unwrap_err();
    /// assert_eq!(cut, SheetError::WrongLength { length: 19, expected: 20 });
    /// assert_eq!(cut.to_string(), "the sheet has 19 bytes, and by its K and Q it has 20");
    /// # Ok::<(), SheetError>(())
    /// ```
    pub fn from_bytes(bytes: &[u8]) -> Result<Sheet, SheetError> {
        let sheet = Sheet::sized(bytes)?;
        check_checkpoints(&sheet.checkpoints)?;
        check_messages(&sheet.messages)?;
        Ok(sheet)
    }

    /// The sheet of bytes that are as long as their K and Q say.
    fn sized(bytes: &[u8]) -> Result<Sheet, SheetError> {
        let length = bytes.len();
        if length < 4 {
            return Err(SheetError::TooShort { length });
        }
        let (head, rest) = bytes.split_at(4);
        let head = numbers(head);
        let (k, q) = (usize::from(head[0]), usize::from(head[1]));
        let expected = 4 + 4 * k + 2 * q;
        if length != expected {
            return Err(SheetError::WrongLength { length, expected });
        }
        let entries = numbers(rest);
        let (processes, entries) = entries.split_at(k);
        let (named, messages) = entries.split_at(k);
        let checkpoints = processes.iter().zip(named);
        Ok(Sheet {
            bytes: bytes.to_vec(),
            checkpoints: checkpoints
                .map(|(&process, &number)| Checkpoint { process, number })
                .collect(),
            messages: messages.to_vec(),
            lines: Vec::new(),
        })
    }

    /// The bytes of the sheet: 4 + 4K + 2Q.
    pub fn as_bytes(&self) -> &[u8] {
        &self.bytes
    }

    /// The kept checkpoints, by process and then number.
    pub fn checkpoints(&self) -> impl ExactSizeIterator<Item = Checkpoint> + '_ {
        self.checkpoints.iter().copied()
    }

    /// The positions of the kept messages, rising.
    pub fn messages(&self) -> impl ExactSizeIterator<Item = u16> + '_ {
        self.messages.iter().copied()
    }

    /// Whether that checkpoint is kept.
    pub fn has_checkpoint(&self, process: u16, number: u16) -> bool {
        let checkpoint = Checkpoint { process, number };
        self.checkpoints.binary_search(&checkpoint).is_ok()
    }

    /// Whether the message at that position is kept.
    pub fn has_message(&self, position: u16) -> bool {
        self.messages.binary_search(&position).is_ok()
    }

    /// The line of one process that alone holds, of which the sheet was made;
    /// `None` where there is no such process, and where the sheet was read from
    /// its bytes, which have no lines.
    ///
    /// ```
    /// # use keeper::{Refusal, Sheet, Table};
    /// # let example_a = include_bytes!("../../../tests/corpus/example_a.table").to_vec();
    /// let sheet = Table::from_bytes(&example_a[..])?.keep_sheet();
    /// assert_eq!(**sheet.line(1).unwrap(), [3, 2]);
    /// assert_eq!(sheet.line(2), None);
    /// # Ok::<(), Refusal>(())
    /// ```
    pub fn line(&self, holder: u16) -> Option<&Line> {
        self.lines.get(usize::from(holder))
    }
}

impl PartialEq for Sheet {
    fn eq(&self, other: &Sheet) -> bool {
        self.bytes == other.bytes
    }
}

impl Eq for Sheet {}

impl AsRef<[u8]> for Sheet {
    fn as_ref(&self) -> &[u8] {
        &self.bytes
    }
}

impl TryFrom<&[u8]> for Sheet {
    type Error = SheetError;

    fn try_from(bytes: &[u8]) -> Result<Sheet, SheetError> {
        Sheet::from_bytes(bytes)
    }
}

/// Why bytes are no keep sheet. A place counts from 0 among the checkpoints, or
/// among the messages.
#[derive(Clone, Copy, Debug, PartialEq, Eq, Hash)]
#[non_exhaustive]
pub enum SheetError {
    /// There are fewer than 4 bytes, and so no K and Q.
    TooShort { length: usize },
    /// The length differs from 4 + 4K + 2Q.
    WrongLength { length: usize, expected: usize },
    /// A process is 32 or above, or a checkpoint's number 4,096 or above.
    CheckpointOutOfRange {
        place: usize,
        checkpoint: Checkpoint,
    },
    /// A checkpoint is not above the one before it.
    CheckpointOutOfOrder {
        place: usize,
        checkpoint: Checkpoint,
    },
    /// A process has no checkpoint on the sheet, and a later one has, or none has.
    NoCheckpoint { process: u16 },
    /// A position is 4,096 or above.
    MessageOutOfRange { place: usize, position: u16 },
    /// A position is not above the one before it.
    MessageOutOfOrder { place: usize, position: u16 },
}

impl fmt::Display for SheetError {
    fn fmt(&self, to: &mut fmt::Formatter<'_>) -> fmt::Result {
        match self {
            SheetError::TooShort { length } => {
                write!(to, "the sheet has {length} bytes, fewer than 4")
            }
            SheetError::WrongLength { length, expected } => write!(
                to,
                "the sheet has {length} bytes, and by its K and Q it has {expected}"
            ),
            SheetError::CheckpointOutOfRange { place, checkpoint } => write!(
                to,
                "entry {place} of the checkpoints, {} of process {}, is beyond the limits of a table",
                checkpoint.number, checkpoint.process
            ),
            SheetError::CheckpointOutOfOrder { place, checkpoint } => write!(
                to,
                "entry {place} of the checkpoints, {} of process {}, is not above the one before it",
                checkpoint.number, checkpoint.process
            ),
            SheetError::NoCheckpoint { process } => {
                write!(to, "the sheet has no checkpoint of process {process}")
            }
            SheetError::MessageOutOfRange { place, position } => write!(
                to,
                "entry {place} of the messages, position {position}, is beyond the limits of a table"
            ),
            SheetError::MessageOutOfOrder { place, position } => write!(
                to,
                "entry {place} of the messages, position {position}, is not above the one before it"
            ),
        }
    }
}

impl Error for SheetError {}

fn check_checkpoints(checkpoints: &[Checkpoint]) -> Result<(), SheetError> {
    // The process that may come next, where no further one of the last comes.
    let mut next = 0;
    let mut before = None;
    for (place, &checkpoint) in checkpoints.iter().enumerate() {
        if usize::from(checkpoint.process) >= MOST_PROCESSES
            || usize::from(checkpoint.number) >= MOST_CHECKPOINTS
        {
            return Err(SheetError::CheckpointOutOfRange { place, checkpoint });
        }
        if before >= Some(checkpoint) {
            return Err(SheetError::CheckpointOutOfOrder { place, checkpoint });
        }
        if checkpoint.process > next {
            return Err(SheetError::NoCheckpoint { process: next });
        }
        next = checkpoint.process + 1;
        before = Some(checkpoint);
    }
    match next {
        0 => Err(SheetError::NoCheckpoint { process: 0 }),
        _ => Ok(()),
    }
}

fn check_messages(messages: &[u16]) -> Result<(), SheetError> {
    let mut before = None;
    for (place, &position) in messages.iter().enumerate() {
        if usize::from(position) >= MOST_MESSAGES {
            return Err(SheetError::MessageOutOfRange { place, position });
        }
        if before >= Some(position) {
            return Err(SheetError::MessageOutOfOrder { place, position });
        }
        before = Some(position);
    }
    Ok(())
}
