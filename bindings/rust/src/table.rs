//! A run table that is owned and stepped in place, over the calls of lib.rs and
//! the lookups of run_table.rs.

use std::fmt;
use std::num::NonZeroU16;
use std::ops::Deref;

use crate::{run_table, Checkpoint, Lines, Refusal, Sheet, LARGEST_LINE, MOST_PROCESSES};

/// An accepted run table, owned: the run as it is now. With the feature
/// `run_table`.
///
/// The answer of every method is the archive's; this layer only lends the
/// buffers. A step that is refused leaves the table as it was. Two tables are
/// equal where their bytes are.
///
/// ```
/// use keeper::Table;
/// let mut table = Table::new(2)?; // two processes with checkpoint 0 each
/// let position = table.send(0, 1)?; // a message, at position 0
/// table.receive(1, &[position])?; // process 1 receives it
/// table.save(1, &[])?; // and saves
/// assert_eq!(*table.recovery_line(), [0, 0]); // it was sent after checkpoint 0 of process 0
/// table.save(0, &[])?;
/// assert_eq!(*table.recovery_line(), [1, 1]);
/// let sheet = table.keep_sheet();
/// assert!(sheet.has_checkpoint(1, 1) && !sheet.has_checkpoint(1, 0));
/// # Ok::<(), keeper::Refusal>(())
/// ```
#[derive(Clone, PartialEq, Eq, Hash)]
pub struct Table {
    /// An accepted table: what `check_table` accepted, or the answer of a step.
    bytes: Vec<u8>,
}

/// A message of a [`Table`], as the table had it when it was asked for. It is
/// waiting, unsaved or saved: just one of [`is_waiting`](Message::is_waiting),
/// [`is_unsaved`](Message::is_unsaved) and [`is_saved`](Message::is_saved) is true.
///
/// ```
/// let mut table = keeper::Table::new(2)?;
/// let position = table.send(0, 1)?;
/// assert!(table.message(position).unwrap().is_waiting());
/// table.receive(1, &[position])?;
/// assert!(table.message(position).unwrap().is_unsaved());
/// table.save(1, &[])?; // checkpoint 1 of process 1 has it
/// let message = table.message(position).unwrap();
/// assert!(message.is_saved());
/// assert_eq!(message.received.unwrap().get(), 1);
/// # Ok::<(), keeper::Refusal>(())
/// ```
#[derive(Clone, Copy, Debug, PartialEq, Eq, Hash)]
pub struct Message {
    /// The process that sent it.
    pub sender: u16,
    /// The number of the sender's latest checkpoint before sending.
    pub sent: u16,
    /// The process that it is for.
    pub receiver: u16,
    /// The number of the receiver's first checkpoint after receiving, which is the
    /// receiver's count where there is none yet; `None`: it is waiting (undelivered).
    pub received: Option<NonZeroU16>,
    /// Whether the receipt number is the receiver's count.
    unsaved: bool,
}

impl Message {
    /// Whether it is waiting for its receiver (undelivered): not received yet.
    pub fn is_waiting(&self) -> bool {
        self.received.is_none()
    }

    /// Whether it is received and not saved yet: its receiver has taken no
    /// checkpoint since.
    pub fn is_unsaved(&self) -> bool {
        self.unsaved
    }

    /// Whether it is received, and a checkpoint of its receiver has it: the one
    /// numbered [`received`](Message::received).
    pub fn is_saved(&self) -> bool {
        !self.is_waiting() && !self.is_unsaved()
    }
}

/// One number for each process, by process: that of one of its checkpoints, or
/// its count, which stands for its virtual checkpoint. It is shown as its
/// numbers with one blank between.
///
/// ```
/// let line = keeper::Table::new(3)?.recovery_line();
/// assert_eq!(line.len(), 3);
/// assert_eq!(line[2], 0);
/// assert_eq!(line.to_string(), "0 0 0");
/// # Ok::<(), keeper::Refusal>(())
/// ```
#[derive(Clone, Debug, PartialEq, Eq, Hash)]
pub struct Line(pub(crate) Vec<u16>);

/// What [`Table::fall_back`] did: all that is needed to carry along what is
/// stored for the run.
#[derive(Clone, Debug, PartialEq, Eq, Hash)]
pub struct FellBack {
    /// The recovery line that the run fell back to. Of process p the checkpoints
    /// up to number `line[p]` are there still; those above it are gone.
    pub line: Line,
    /// By the position that a message had before, its position now; `None` where
    /// it was removed.
    pub messages: Vec<Option<u16>>,
}

/// Why a call can't be refused: the table is accepted and the buffer is as long
/// as the longest answer.
const NEVER_REFUSED: &str = "no check catches: the table is accepted, and there is room";

impl Table {
    /// The table of a run that begins: `processes` processes with one checkpoint
    /// each, and no messages. Refused by 2 where that is 0 or above 32.
    ///
    /// ```
    /// use keeper::{Refusal, Table};
    /// let table = Table::new(32)?;
    /// assert!(table.counts().all(|count| count == 1));
    /// assert_eq!(Table::new(0), Err(Refusal::ProcessesOutOfRange));
    /// assert_eq!(Table::new(33), Err(Refusal::ProcessesOutOfRange));
    /// # Ok::<(), Refusal>(())
    /// ```
    pub fn new(processes: usize) -> Result<Table, Refusal> {
        // One above the limit stands for every number above it, so that no
        // number is too large for the 16 bits of N.
        let n = processes.min(MOST_PROCESSES + 1);
        let mut numbers = vec![1; 2 + n];
        numbers[..2].copy_from_slice(&[n as u16, 0]);
        Table::from_bytes(
            numbers
                .into_iter()
                .flat_map(u16::to_le_bytes)
                .collect::<Vec<u8>>(),
        )
    }

    /// A table by its bytes, or the first of the table's checks that catches.
    ///
    /// ```
    /// use keeper::{Refusal, Table};
    /// # let example_a = include_bytes!("../../../tests/corpus/example_a.table").to_vec();
    /// let table = Table::from_bytes(&example_a[..])?;
    /// assert_eq!(table.counts().collect::<Vec<_>>(), [3, 3]);
    /// assert_eq!(Table::from_bytes(&example_a[..47]), Err(Refusal::WrongLength));
    /// # Ok::<(), Refusal>(())
    /// ```
    pub fn from_bytes(bytes: impl Into<Vec<u8>>) -> Result<Table, Refusal> {
        let bytes = bytes.into();
        crate::check_table(&bytes)?;
        Ok(Table { bytes })
    }

    /// The bytes of the table: 4 + 2N + 8M.
    pub fn as_bytes(&self) -> &[u8] {
        &self.bytes
    }

    /// The bytes of the table, and the table is gone.
    pub fn into_bytes(self) -> Vec<u8> {
        self.bytes
    }

    /// N, the number of processes.
    pub fn processes(&self) -> u16 {
        run_table::processes(&self.bytes)
    }

    /// How many checkpoints the process has, numbered from 0; 0 where there is
    /// no such process.
    pub fn count(&self, process: u16) -> u16 {
        run_table::count(&self.bytes, process.into())
    }

    /// The counts of all processes, by process.
    pub fn counts(&self) -> impl ExactSizeIterator<Item = u16> + '_ {
        (0..self.processes()).map(|process| self.count(process))
    }

    /// The message at a position, where there is one.
    ///
    /// ```
    /// # use keeper::{Refusal, Table};
    /// # let example_a = include_bytes!("../../../tests/corpus/example_a.table").to_vec();
    /// let table = Table::from_bytes(&example_a[..])?;
    /// // Message 3 of example A was sent by process 0 after its checkpoint 2,
    /// // and received by process 1 before its checkpoint 2.
    /// let message = table.message(3).unwrap();
    /// assert_eq!((message.sender, message.sent), (0, 2));
    /// assert_eq!((message.receiver, message.received.unwrap().get()), (1, 2));
    /// assert!(message.is_saved());
    /// assert!(table.message(4).unwrap().is_waiting());
    /// assert_eq!(table.message(5), None);
    /// # Ok::<(), Refusal>(())
    /// ```
    pub fn message(&self, position: u16) -> Option<Message> {
        (position < run_table::messages(&self.bytes)).then(|| self.message_there(position))
    }

    /// All messages, by position: as many as `len` of it says.
    pub fn messages(&self) -> impl ExactSizeIterator<Item = Message> + '_ {
        (0..run_table::messages(&self.bytes)).map(|position| self.message_there(position))
    }

    fn message_there(&self, position: u16) -> Message {
        let k = usize::from(position);
        let receiver = run_table::receiver(&self.bytes, k);
        let received = run_table::received(&self.bytes, k);
        Message {
            sender: run_table::sender(&self.bytes, k),
            sent: run_table::sent(&self.bytes, k),
            receiver,
            received: NonZeroU16::new(received),
            // A count is never 0.
            unsaved: received == self.count(receiver),
        }
    }

    /// The recovery line of the run, as [`recovery_line`](crate::recovery_line).
    pub fn recovery_line(&self) -> Line {
        line(|answer| crate::recovery_line(&self.bytes, answer)).expect(NEVER_REFUSED)
    }

    /// The line of a set of processes that hold, in which process p is bit p, as
    /// [`line_of_set`](crate::line_of_set). Refused by 12 where the set has a bit
    /// at N or above.
    ///
    /// ```
    /// # use keeper::{Refusal, Table};
    /// # let example_a = include_bytes!("../../../tests/corpus/example_a.table").to_vec();
    /// let table = Table::from_bytes(&example_a[..])?;
    /// assert_eq!(*table.line_of_set(0b10)?, [3, 2]); // process 1 of example A holds
    /// assert_eq!(table.line_of_set(0b11)?, table.recovery_line());
    /// assert_eq!(table.line_of_set(0b100), Err(Refusal::UnknownProcessInSet));
    /// # Ok::<(), Refusal>(())
    /// ```
    pub fn line_of_set(&self, set: u32) -> Result<Line, Refusal> {
        line(|answer| crate::line_of_set(&self.bytes, set, answer))
    }

    /// The lines of many sets of processes that hold, as
    /// [`lines_of_sets`](crate::lines_of_sets): what [`Table::line_of_set`] answers for
    /// each of them, in their order, with the lines of single holders found once for all.
    /// Refused by 25 where there are more than [`MOST_SETS`](crate::MOST_SETS) of them,
    /// and by 12 where one has a bit at N or above.
    ///
    /// ```
    /// # use keeper::{Refusal, Table};
    /// # let example_a = include_bytes!("../../../tests/corpus/example_a.table").to_vec();
    /// let table = Table::from_bytes(&example_a[..])?;
    /// let lines = table.lines_of_sets(&[0b11, 0b10])?;
    /// assert_eq!(lines[0], table.recovery_line()); // both processes of example A hold
    /// assert_eq!(*lines[1], [3, 2]); // process 1 holds
    /// assert!(table.lines_of_sets(&[])?.is_empty());
    /// assert_eq!(table.lines_of_sets(&[0b11, 0b100]), Err(Refusal::UnknownProcessInSet));
    /// assert_eq!(table.lines_of_sets(&[0; 257]), Err(Refusal::TooManySets));
    /// # Ok::<(), Refusal>(())
    /// ```
    pub fn lines_of_sets(&self, sets: &[u32]) -> Result<Lines, Refusal> {
        Lines::of_accepted(&self.bytes, sets)
    }

    /// The line under a list of ceilings, one for each process, process 0
    /// first, as [`line_under`](crate::line_under): for taking up the run from
    /// before something was changed. Refused by 17 where there are not N of them, and by
    /// 18 where one is above its process's count.
    ///
    /// ```
    /// # use keeper::{Refusal, Table};
    /// # let example_a = include_bytes!("../../../tests/corpus/example_a.table").to_vec();
    /// let table = Table::from_bytes(&example_a[..])?;
    /// // Process 0 is taken up from before its checkpoint 1; process 1 is free.
    /// assert_eq!(*table.line_under(&[0, table.count(1)])?, [0, 1]);
    /// assert_eq!(table.line_under(&[2, 2])?, table.recovery_line());
    /// assert_eq!(table.line_under(&[4, 0]), Err(Refusal::CeilingTooHigh));
    /// assert_eq!(table.line_under(&[]), Err(Refusal::WrongCeilingCount));
    /// # Ok::<(), Refusal>(())
    /// ```
    pub fn line_under(&self, ceilings: &[u16]) -> Result<Line, Refusal> {
        line(|answer| crate::line_under(&self.bytes, ceilings, answer))
    }

    /// The line under a list of ceilings by the published marking method, as
    /// [`marked_line`](crate::marked_line): the answer of [`Table::line_under`],
    /// which is proved. Its marks stand in the buffer lent, of
    /// [`Table::marks_size`] bytes or more; these bytes are 0 afterwards, and those
    /// beyond as they were. Refused by 17 and 18, as `line_under`, and by 19 where
    /// the buffer is shorter; on a refusal the marks are as they were.
    ///
    /// ```
    /// # use keeper::{Refusal, Table};
    /// # let example_a = include_bytes!("../../../tests/corpus/example_a.table").to_vec();
    /// let table = Table::from_bytes(&example_a[..])?;
    /// let mut marks = vec![0; table.marks_size()];
    /// assert_eq!(*table.marked_line(&[0, 3], &mut marks)?, [0, 1]);
    /// assert_eq!(table.marked_line(&[2, 2], &mut marks)?, table.recovery_line());
    /// assert_eq!(table.marked_line(&[4, 0], &mut marks), Err(Refusal::CeilingTooHigh));
    /// assert_eq!(table.marked_line(&[2, 2], &mut []), Err(Refusal::MarksTooShort));
    /// # Ok::<(), Refusal>(())
    /// ```
    pub fn marked_line(&self, ceilings: &[u16], marks: &mut [u8]) -> Result<Line, Refusal> {
        line(|answer| crate::marked_line(&self.bytes, ceilings, marks, answer))
    }

    /// The bytes of marks that [`Table::marked_line`] needs, as
    /// [`marks_size`](crate::marks_size).
    pub fn marks_size(&self) -> usize {
        crate::marks_size(&self.bytes).expect(NEVER_REFUSED)
    }

    /// Whether the named checkpoints can stand together, as
    /// [`stand_together`](crate::stand_together): the latest consistent line that has
    /// each of them, or `None`, which is a no. They stand by process, strictly rising,
    /// and may be none at all; the other processes may stand anywhere up to their
    /// counts. Refused by 21 where a process is N or above or not above the one before
    /// it, and by 22 where the process has no such checkpoint. The two lists of the
    /// call are made of this one, so that 20 never catches.
    ///
    /// ```
    /// # use keeper::{Checkpoint, Refusal, Table};
    /// # let example_a = include_bytes!("../../../tests/corpus/example_a.table").to_vec();
    /// let table = Table::from_bytes(&example_a[..])?;
    /// let of = |process, number| Checkpoint { process, number };
    /// let line = table.stand_together(&[of(0, 1), of(1, 1)])?.expect("a yes");
    /// assert_eq!(*line, [1, 1]);
    /// let line = table.stand_together(&[of(1, 2)])?.expect("a yes");
    /// assert_eq!(*line, [3, 2]); // process 0 stands at its new state
    /// // Process 0 sends message 3 after its checkpoint 2, and process 1 receives it
    /// // between its checkpoints 1 and 2, as it sends message 2, which process 0
    /// // receives before its checkpoint 2: a zigzag path from that checkpoint to itself.
    /// assert_eq!(table.stand_together(&[of(0, 2)])?, None);
    /// assert_eq!(table.stand_together(&[of(1, 1), of(0, 1)]), Err(Refusal::BadNamedProcess));
    /// assert_eq!(table.stand_together(&[of(0, 3)]), Err(Refusal::NamedStateTooHigh));
    /// # Ok::<(), Refusal>(())
    /// ```
    pub fn stand_together(&self, named: &[Checkpoint]) -> Result<Option<Line>, Refusal> {
        let processes: Vec<u16> = named.iter().map(|one| one.process).collect();
        let states: Vec<u16> = named.iter().map(|one| one.number).collect();
        let mut answer = [0; LARGEST_LINE];
        let written = crate::stand_together(&self.bytes, &processes, &states, &mut answer)?;
        Ok(written.map(|length| Line(numbers(&answer[..length]))))
    }

    /// Sends a message from one process to another, and answers its position.
    /// Refused by 10, 11 and 14, as [`send`](crate::send).
    ///
    /// ```
    /// # use keeper::{Refusal, Table};
    /// # let example_a = include_bytes!("../../../tests/corpus/example_a.table").to_vec();
    /// let mut table = Table::from_bytes(&example_a[..])?;
    /// assert_eq!(table.send(0, 1), Ok(5));
    /// assert!(table.message(5).unwrap().is_waiting());
    /// assert_eq!(table.send(0, 0), Err(Refusal::SendToItself));
    /// # Ok::<(), Refusal>(())
    /// ```
    pub fn send(&mut self, from: u16, to: u16) -> Result<u16, Refusal> {
        let position = run_table::messages(&self.bytes);
        let room = self.bytes.len() + 8;
        self.step(room, |table, answer| crate::send(table, from, to, answer))?;
        Ok(position)
    }

    /// A checkpoint (save) of the process, which first receives the messages at
    /// the positions listed; answers the number of the checkpoint. The positions
    /// rise strictly, and each is that of a message that waits for the process.
    /// What it received before, by [`Table::receive`], is saved too and is not
    /// listed. With a message the list has every older one from the same sender that
    /// waits for the process. Refused by 10, 13, 24 and 14, as [`save`](crate::save).
    ///
    /// ```
    /// # use keeper::{Refusal, Table};
    /// # let example_a = include_bytes!("../../../tests/corpus/example_a.table").to_vec();
    /// let mut table = Table::from_bytes(&example_a[..])?;
    /// assert_eq!(table.save(1, &[4]), Err(Refusal::BadList)); // it waits for process 0
    /// assert_eq!(table.save(0, &[4]), Ok(3));
    /// assert_eq!(table.message(4).unwrap().received.unwrap().get(), 3);
    /// # Ok::<(), Refusal>(())
    /// ```
    pub fn save(&mut self, process: u16, received: &[u16]) -> Result<u16, Refusal> {
        let number = self.count(process);
        let room = self.bytes.len();
        self.step(room, |table, answer| {
            crate::save(table, process, received, answer)
        })?;
        Ok(number)
    }

    /// The process receives the messages at the positions listed, and takes no
    /// checkpoint: they are unsaved until its next one. The positions rise
    /// strictly, and each is that of a message that waits for the process; one that
    /// is unsaved waits no longer. With a message the list has every older one from
    /// the same sender that waits for the process. An empty list changes nothing.
    /// Refused by 10, 13 and 24, as [`receive`](crate::receive).
    ///
    /// ```
    /// # use keeper::{Refusal, Table};
    /// # let example_a = include_bytes!("../../../tests/corpus/example_a.table").to_vec();
    /// let mut table = Table::from_bytes(&example_a[..])?;
    /// assert_eq!(table.receive(1, &[4]), Err(Refusal::BadList)); // it waits for process 0
    /// table.receive(0, &[4])?;
    /// let message = table.message(4).unwrap();
    /// assert!(message.is_unsaved());
    /// assert_eq!(message.received.unwrap().get(), table.count(0));
    /// assert_eq!(table.receive(0, &[4]), Err(Refusal::BadList)); // it waits no longer
    /// let mut later = table.clone();
    /// assert_eq!((later.send(1, 0)?, later.send(1, 0)?), (5, 6));
    /// assert_eq!(later.receive(0, &[6]), Err(Refusal::MessagePassedOver)); // before 5
    /// later.receive(0, &[5, 6])?;
    /// // Process 1 sent it after its checkpoint 2: where it holds, process 0 can't go on
    /// // as it is any more, and then process 1 has to go back further too.
    /// assert_eq!(*table.line_of_set(0b10)?, [1, 1]);
    /// # Ok::<(), Refusal>(())
    /// ```
    pub fn receive(&mut self, process: u16, received: &[u16]) -> Result<(), Refusal> {
        let room = self.bytes.len();
        self.step(room, |table, answer| {
            crate::receive(table, process, received, answer)
        })
    }

    /// The whole run falls back to its recovery line, as
    /// [`fall_back`](crate::fall_back). Answers the line and where each message
    /// went. No message is unsaved then: one that was waits again, or is gone.
    ///
    /// **Numbers and positions are used again after a fall back.** A number then
    /// names another checkpoint, and a position another message. Whoever stores
    /// contents by number or position can mix up what the keeper protects: a
    /// file of the old checkpoint 3 is taken for that of the new one, or is
    /// discarded or written over in its place. Store contents by an identity of
    /// your own that is never used again, such as a serial number, and carry it
    /// along with [`FellBack`]:
    ///
    /// ```
    /// # use keeper::{Refusal, Table};
    /// # let example_a = include_bytes!("../../../tests/corpus/example_a.table").to_vec();
    /// let mut table = Table::from_bytes(&example_a[..])?;
    /// // The identities of what is stored: by process and number, and by position.
    /// let mut checkpoints = vec![vec![100, 102, 105], vec![101, 103, 104]];
    /// let mut messages = vec![200, 201, 202, 203, 204];
    ///
    /// let fell_back = table.fall_back();
    /// assert_eq!(*fell_back.line, [1, 1]);
    /// assert_eq!(fell_back.messages, [Some(0), Some(1), None, None, None]);
    ///
    /// for (identities, number) in checkpoints.iter_mut().zip(fell_back.line.iter()) {
    ///     identities.truncate(usize::from(*number) + 1);
    /// }
    /// let mut stayed = fell_back.messages.iter().map(Option::is_some);
    /// messages.retain(|_| stayed.next().unwrap());
    /// assert_eq!(checkpoints, [[100, 102], [101, 103]]);
    /// assert_eq!(messages, [200, 201]);
    /// # Ok::<(), Refusal>(())
    /// ```
    pub fn fall_back(&mut self) -> FellBack {
        let line = self.recovery_line();
        // A message stays where it was sent before the line, and order is kept.
        let mut next = 0..;
        let messages = self
            .messages()
            .map(
                |message| match message.sent < line[usize::from(message.sender)] {
                    true => next.next(),
                    false => None,
                },
            )
            .collect();
        let room = self.bytes.len();
        self.step(room, crate::fall_back).expect(NEVER_REFUSED);
        debug_assert_eq!(next.start, run_table::messages(&self.bytes));
        FellBack { line, messages }
    }

    /// The keep sheet: exactly the checkpoints and messages that some future of
    /// the run needs. The contents of all others can be discarded; no entry of
    /// the table may be dropped for that. Every message that waits is kept; one
    /// that is unsaved only where a future needs it.
    ///
    /// It is the sheet of the table as it is now. What is saved or sent after it
    /// was made is not on it, and stays until a later sheet leaves it out.
    ///
    /// ```
    /// # use keeper::{Checkpoint, Refusal, Table};
    /// # let example_a = include_bytes!("../../../tests/corpus/example_a.table").to_vec();
    /// let sheet = Table::from_bytes(&example_a[..])?.keep_sheet();
    /// let kept: Vec<_> = sheet.checkpoints().map(|kept| (kept.process, kept.number)).collect();
    /// assert_eq!(kept, [(0, 1), (1, 1), (1, 2)]);
    /// assert_eq!(sheet.messages().collect::<Vec<_>>(), [0, 4]);
    /// # Ok::<(), Refusal>(())
    /// ```
    pub fn keep_sheet(&self) -> Sheet {
        Sheet::of_accepted(&self.bytes)
    }

    /// The listing: the text that the program `listing` prints for the table.
    /// With the feature `listing_text`.
    ///
    /// ```
    /// let listing = keeper::Table::new(1)?.listing();
    /// assert_eq!(listing, "line 0\nhold 0 0\ncheckpoint 0 0\nshare 100\n");
    /// # Ok::<(), keeper::Refusal>(())
    /// ```
    #[cfg(feature = "listing_text")]
    pub fn listing(&self) -> String {
        let mut text = vec![0; crate::LISTING_ROOM];
        let written = crate::listing(&self.bytes, &mut text).expect(NEVER_REFUSED);
        text.truncate(written);
        String::from_utf8(text).expect("a listing is of ASCII characters")
    }

    /// Puts the answer of a step in the table's place; on a refusal nothing
    /// changes.
    fn step(
        &mut self,
        room: usize,
        call: impl FnOnce(&[u8], &mut [u8]) -> Result<usize, Refusal>,
    ) -> Result<(), Refusal> {
        let mut answer = vec![0; room];
        let written = call(&self.bytes, &mut answer)?;
        answer.truncate(written);
        self.bytes = answer;
        Ok(())
    }
}

/// The line that a call answers.
fn line(call: impl FnOnce(&mut [u8]) -> Result<usize, Refusal>) -> Result<Line, Refusal> {
    let mut answer = [0; LARGEST_LINE];
    let written = call(&mut answer)?;
    Ok(Line(numbers(&answer[..written])))
}

/// 16-bit numbers, low byte first.
pub(crate) fn numbers(bytes: &[u8]) -> Vec<u16> {
    bytes
        .chunks_exact(2)
        .map(|pair| u16::from_le_bytes([pair[0], pair[1]]))
        .collect()
}

/// The counts and the messages, and not the bytes.
impl fmt::Debug for Table {
    fn fmt(&self, to: &mut fmt::Formatter<'_>) -> fmt::Result {
        to.debug_struct("Table")
            .field("counts", &self.counts().collect::<Vec<_>>())
            .field("messages", &self.messages().collect::<Vec<_>>())
            .finish()
    }
}

impl AsRef<[u8]> for Table {
    fn as_ref(&self) -> &[u8] {
        &self.bytes
    }
}

impl TryFrom<Vec<u8>> for Table {
    type Error = Refusal;

    fn try_from(bytes: Vec<u8>) -> Result<Table, Refusal> {
        Table::from_bytes(bytes)
    }
}

impl TryFrom<&[u8]> for Table {
    type Error = Refusal;

    fn try_from(bytes: &[u8]) -> Result<Table, Refusal> {
        Table::from_bytes(bytes)
    }
}

impl Deref for Line {
    type Target = [u16];

    fn deref(&self) -> &[u16] {
        &self.0
    }
}

impl fmt::Display for Line {
    fn fmt(&self, to: &mut fmt::Formatter<'_>) -> fmt::Result {
        for (process, number) in self.0.iter().enumerate() {
            if process > 0 {
                to.write_str(" ")?;
            }
            write!(to, "{number}")?;
        }
        Ok(())
    }
}
