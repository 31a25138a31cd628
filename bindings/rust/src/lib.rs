//! The keeper in safe Rust, over its proved static libraries: recovery lines,
//! steps, keep sheets and listings of run tables.
//!
//! A [`Table`] owns a run and steps it in place; its [`Sheet`] says what must be
//! kept:
//!
//! ```
//! # #[cfg(feature = "run_table")]
//! # fn main() -> Result<(), keeper::Refusal> {
//! let mut table = keeper::Table::new(2)?; // two processes with checkpoint 0 each
//! let position = table.send(0, 1)?;
//! table.save(1, &[position])?; // process 1 receives the message and saves
//! let sheet = table.keep_sheet();
//! assert!(sheet.has_checkpoint(1, 0)); // the message was sent after the last checkpoint of 0
//! # Ok(())
//! # }
//! # #[cfg(not(feature = "run_table"))]
//! # fn main() {}
//! ```
//!
//! # Slices
//!
//! Below it are the calls as the archive has them. A run table is bytes; an
//! answer is written to the front of a buffer that the caller lends, and a call
//! answers `Ok` with the length written or `Err` with a [`Refusal`];
//! [`stand_together`], which can answer no, has an `Option` in its `Ok`. On a
//! refusal nothing lent is changed, with one exception: under
//! [`Refusal::AnswerTooShort`] the scratch of [`keep_sheet`] holds the lines.
//! Bytes and numbers beyond an answer are never changed. No call allocates,
//! keeps what it was lent, or panics.
//!
//! What is lent to one call may not overlap. Rust's borrow rules see to that
//! here, so no call is unsafe. [`mod@archive`] has the unsafe ones below them.
//!
//! The doc tests use example A: two processes with three checkpoints each and
//! five messages.
//!
//! ```
//! /// Numbers as a table has them: 16 bits, low byte first.
//! fn bytes(numbers: &[u16]) -> Vec<u8> {
//!     numbers.iter().flat_map(|number| number.to_le_bytes()).collect()
//! }
//! let example_a = bytes(&[
//!     2, 5, // N and M
//!     3, 3, // the counts
//!     0, 0, 1, 0, 1, 1, 0, 2, 1, 2, // the sends: process, number
//!     1, 2, 0, 1, 0, 2, 1, 2, 0, 0, // the receipts: process, number; 0: waiting
//! ]);
//! assert_eq!(keeper::check_table(&example_a), Ok(()));
//! # assert_eq!(example_a, include_bytes!("../../../tests/corpus/example_a.table"));
//! ```
//!
//! # Features
//!
//! Both are on unless `default-features = false` is asked for.
//!
//! | feature | links | adds |
//! |---|---|---|
//! | none | `libkeeper.a` | the calls on slices |
//! | `run_table` | `librun_table.a` | the table reader, [`Table`], [`Lines`] and [`Sheet`] |
//! | `listing_text` | `liblisting_text.a` | the listing |
//!
//! # Where the archives are
//!
//! `KEEPER_LIB_DIR` in the environment of the build names the folder of the
//! archives, such as `/usr/local/lib` after `make install`. A relative name
//! counts from the folder of this package, not from where cargo was called.
//! Where it is not set or empty, `target/staticlib` of the repository is taken,
//! where `make archives` writes them. The build stops and says which archive is
//! missing. The archives are for x86-64.

pub mod archive;
#[cfg(feature = "run_table")]
mod lines;
#[cfg(feature = "listing_text")]
mod listing_text;
mod refusal;
#[cfg(feature = "run_table")]
pub mod run_table;
#[cfg(feature = "run_table")]
mod sheet;
#[cfg(feature = "run_table")]
mod table;

#[cfg(feature = "run_table")]
pub use lines::Lines;
#[cfg(feature = "listing_text")]
pub use listing_text::{listing, LISTING_ROOM};
pub use refusal::Refusal;
#[cfg(feature = "run_table")]
pub use sheet::{Checkpoint, Sheet, SheetError};
#[cfg(feature = "run_table")]
pub use table::{FellBack, Line, Message, Table};

use refusal::outcome;

/// N is at most this.
pub const MOST_PROCESSES: usize = 32;

/// M is at most this.
pub const MOST_MESSAGES: usize = 4_096;

/// A process has at most this many checkpoints.
pub const MOST_CHECKPOINTS: usize = 4_096;

/// The bytes of the largest table: enough for the answer of every step.
pub const LARGEST_TABLE: usize = 4 + 2 * MOST_PROCESSES + 8 * MOST_MESSAGES;

/// The bytes of the largest line: enough for the answer of [`recovery_line`],
/// [`line_of_set`], [`line_under`], [`marked_line`] and [`stand_together`].
pub const LARGEST_LINE: usize = 2 * MOST_PROCESSES;

/// [`lines_of_sets`] takes at most this many sets.
pub const MOST_SETS: usize = 256;

/// The bytes that are enough for the lines of [`MOST_SETS`] sets: 16,384.
pub const LINES_ROOM: usize = LARGEST_LINE * MOST_SETS;

/// The bytes of marks that are enough for [`marked_line`] on every table, one bit
/// for each checkpoint and virtual checkpoint: 16,388. [`marks_size`] says how
/// many one table needs.
pub const MARKS_ROOM: usize = marks_bytes(MOST_PROCESSES * MOST_CHECKPOINTS, MOST_PROCESSES);

/// The numbers of scratch that are enough for [`keep_sheet`] and [`lines_of_sets`] on
/// every table: N × N for N = 32.
pub const SCRATCH_NUMBERS: usize = MOST_PROCESSES * MOST_PROCESSES;

/// The bytes that are enough for every keep sheet, by the proof that at most
/// N × N checkpoints are kept: 12,292.
pub const SHEET_ROOM: usize = 4 + 4 * SCRATCH_NUMBERS + 2 * MOST_MESSAGES;

// Each call below is sound for one reason: the archive's functions are proved
// to read and write nothing but what they are lent, for slices of any length
// and any contents, as long as no two of them overlap. A shared and a mutable
// borrow, or two mutable ones, never overlap.

/// Whether the table is accepted: `Ok` where no call refuses it by one of the
/// table's checks.
///
/// The messages from one process to another are a channel, which delivers in the
/// order sent, and they stand in the table in that order: of two of them the one at
/// the later position has no smaller send number, is not received while the earlier
/// one waits, and where both are received has no smaller receipt number. A table
/// that breaks this is refused by [`Refusal::ChannelOutOfOrder`].
///
/// Checks: the table's.
///
/// ```
/// # let example_a = include_bytes!("../../../tests/corpus/example_a.table").to_vec();
/// use keeper::{check_table, Refusal};
/// assert_eq!(check_table(&example_a), Ok(()));
/// assert_eq!(check_table(&example_a[..3]), Err(Refusal::TableTooShort));
/// assert_eq!(check_table(&example_a[..47]), Err(Refusal::WrongLength));
/// // Messages 1, 2 and 4 are from process 1 to process 0. Were message 1 to wait,
/// // message 2 would be received out of turn.
/// let mut out_of_order = example_a.clone();
/// out_of_order[34] = 0; // the receipt number of message 1
/// assert_eq!(check_table(&out_of_order), Err(Refusal::ChannelOutOfOrder));
/// ```
pub fn check_table(table: &[u8]) -> Result<(), Refusal> {
    // SAFETY: see above.
    let number = unsafe { archive::keeper_check_table(table.as_ptr(), table.len()) };
    outcome(number, 0).map(|_| ())
}

/// The recovery line of the run: the latest consistent line in which every
/// process stands at a checkpoint that it has. The answer is N numbers of 16
/// bits by process, low byte first: 2N bytes, [`LARGEST_LINE`] at most.
///
/// Checks: the table's, 16.
///
/// ```
/// # let example_a = include_bytes!("../../../tests/corpus/example_a.table").to_vec();
/// let mut line = [0; keeper::LARGEST_LINE];
/// let written = keeper::recovery_line(&example_a, &mut line)?;
/// assert_eq!(line[..written], [1, 0, 1, 0]);
/// # Ok::<(), keeper::Refusal>(())
/// ```
pub fn recovery_line(table: &[u8], answer: &mut [u8]) -> Result<usize, Refusal> {
    let mut written = 0;
    // SAFETY: see above `check_table`.
    let number = unsafe {
        archive::keeper_recovery_line(
            table.as_ptr(),
            table.len(),
            answer.as_mut_ptr(),
            answer.len(),
            &mut written,
        )
    };
    outcome(number, written)
}

/// The line of a set of processes that hold, in which process p is bit p: the
/// latest consistent line in which a holding process stands at one of its
/// checkpoints, and any other may also stand at its new state, numbered as its
/// count, which has received what is not saved yet. So where the processes of the
/// set have failed, it says which of the others can go on as they are, and how far
/// back the rest have to go. A set is one kind of ceilings, those of [`line_under`]: a holding
/// process has its last checkpoint, and any other its count. The answer has the
/// form of [`recovery_line`]'s.
///
/// Checks: the table's, 12, 16.
///
/// ```
/// # let example_a = include_bytes!("../../../tests/corpus/example_a.table").to_vec();
/// use keeper::{line_of_set, Refusal};
/// let mut line = [0; keeper::LARGEST_LINE];
/// // Process 0 holds; process 1 holds; nobody holds.
/// assert_eq!(line_of_set(&example_a, 0b01, &mut line), Ok(4));
/// assert_eq!(line[..4], [1, 0, 1, 0]);
/// assert_eq!(line_of_set(&example_a, 0b10, &mut line), Ok(4));
/// assert_eq!(line[..4], [3, 0, 2, 0]);
/// assert_eq!(line_of_set(&example_a, 0, &mut line), Ok(4));
/// assert_eq!(line[..4], [3, 0, 3, 0]);
/// // There is no process 2.
/// assert_eq!(line_of_set(&example_a, 0b100, &mut line), Err(Refusal::UnknownProcessInSet));
/// ```
pub fn line_of_set(table: &[u8], set: u32, answer: &mut [u8]) -> Result<usize, Refusal> {
    let mut written = 0;
    // SAFETY: see above `check_table`.
    let number = unsafe {
        archive::keeper_line_of_set(
            table.as_ptr(),
            table.len(),
            set,
            answer.as_mut_ptr(),
            answer.len(),
            &mut written,
        )
    };
    outcome(number, written)
}

/// The lines of many sets of processes that hold, in one call: what [`line_of_set`]
/// answers for each of them, byte for byte, one line after another in the order of
/// `sets`. The lines of the N sets of one process each are found once; the line of any
/// other set is their minimum over its processes, place by place, and that of the empty
/// set is the counts. So a plan of what to do when processes fail costs little more for
/// 256 sets than for a few. There may be [`MOST_SETS`] sets at most, a set may stand
/// twice, and for no sets the answer has no bytes.
///
/// The answer is N numbers of 16 bits by process, low byte first, for each set: 2N bytes
/// times the number of sets, [`LINES_ROOM`] at most. The number of process p on line k is
/// at 2(kN + p).
///
/// On success the first N × N numbers of the scratch are the lines of single holders, N
/// numbers each, the line of process 0 first, where there are no sets too, and those
/// beyond are unchanged; [`SCRATCH_NUMBERS`] are always enough. On a refusal the scratch
/// is unchanged, under [`Refusal::AnswerTooShort`] too.
///
/// Checks: the table's, 25, 12, 15, 16. The check 12 is of all sets.
///
/// ```
/// # let example_a = include_bytes!("../../../tests/corpus/example_a.table").to_vec();
/// use keeper::{lines_of_sets, Refusal};
/// let mut scratch = [0; keeper::SCRATCH_NUMBERS];
/// let mut lines = [0; keeper::LINES_ROOM];
/// // Both processes hold; process 1 holds; nobody holds.
/// assert_eq!(lines_of_sets(&example_a, &[0b11, 0b10, 0], &mut scratch, &mut lines), Ok(12));
/// assert_eq!(lines[..12], [
///     1, 0, 1, 0, // what `line_of_set` answers for 0b11
///     3, 0, 2, 0, // for 0b10
///     3, 0, 3, 0, // and for 0
/// ]);
/// // The lines of process 0 alone and of process 1 alone.
/// assert_eq!(scratch[..4], [1, 1, 3, 2]);
/// // There is no process 2.
/// assert_eq!(
///     lines_of_sets(&example_a, &[0, 0b100], &mut scratch, &mut lines),
///     Err(Refusal::UnknownProcessInSet)
/// );
/// assert_eq!(
///     lines_of_sets(&example_a, &[0; 257], &mut scratch, &mut lines),
///     Err(Refusal::TooManySets)
/// );
/// ```
pub fn lines_of_sets(
    table: &[u8],
    sets: &[u32],
    scratch: &mut [u16],
    answer: &mut [u8],
) -> Result<usize, Refusal> {
    let mut written = 0;
    // SAFETY: see above `check_table`.
    let number = unsafe {
        archive::keeper_lines_of_sets(
            table.as_ptr(),
            table.len(),
            sets.as_ptr(),
            sets.len(),
            scratch.as_mut_ptr(),
            scratch.len(),
            answer.as_mut_ptr(),
            answer.len(),
            &mut written,
        )
    };
    outcome(number, written)
}

/// The line under a list of ceilings, one for each process, process 0 first:
/// the latest consistent line in which no process stands above its ceiling. It
/// is for taking up a run from before something was changed. A ceiling is the
/// number of a checkpoint, or the count, which stands for the new state and
/// leaves the process free. Lower ceilings never give a later line, and under
/// the ceilings of a set the answer is that of [`line_of_set`], byte for byte.
/// No step goes to this line: a fall back goes to the recovery line. Nor does
/// the keep sheet protect it: whoever discards by sheets may no longer have its
/// checkpoints, or the logs of messages that cross it. The answer has the form
/// of [`recovery_line`]'s.
///
/// Checks: the table's, 17, 18, 16.
///
/// ```
/// # let example_a = include_bytes!("../../../tests/corpus/example_a.table").to_vec();
/// use keeper::{line_under, Refusal};
/// let mut line = [0; keeper::LARGEST_LINE];
/// // Process 1 from before its checkpoint 2; then process 0 from before its checkpoint 1.
/// assert_eq!(line_under(&example_a, &[3, 1], &mut line), Ok(4));
/// assert_eq!(line[..4], [1, 0, 1, 0]);
/// assert_eq!(line_under(&example_a, &[0, 3], &mut line), Ok(4));
/// assert_eq!(line[..4], [0, 0, 1, 0]);
/// // The ceilings of the set of process 1.
/// assert_eq!(line_under(&example_a, &[3, 2], &mut line), Ok(4));
/// assert_eq!(line[..4], [3, 0, 2, 0]);
/// // There are two processes, with three checkpoints each.
/// assert_eq!(line_under(&example_a, &[3], &mut line), Err(Refusal::WrongCeilingCount));
/// assert_eq!(line_under(&example_a, &[3, 4], &mut line), Err(Refusal::CeilingTooHigh));
/// ```
pub fn line_under(table: &[u8], ceilings: &[u16], answer: &mut [u8]) -> Result<usize, Refusal> {
    let mut written = 0;
    // SAFETY: see above `check_table`.
    let number = unsafe {
        archive::keeper_line_under(
            table.as_ptr(),
            table.len(),
            ceilings.as_ptr(),
            ceilings.len(),
            answer.as_mut_ptr(),
            answer.len(),
            &mut written,
        )
    };
    outcome(number, written)
}

/// The line under a list of ceilings by the published marking method, the
/// rollback propagation algorithm (Figure 3 of Wang and Fuchs, *Optimal Message
/// Log Reclamation for Uncoordinated Checkpointing*). It is proved to be the
/// answer of [`line_under`], byte for byte, for every table and all ceilings.
///
/// The method works on the checkpoint graph: all checkpoints, the virtual ones
/// included; an edge from each to the next of its process, and for each received
/// message one from the checkpoint before its send to the checkpoint after its
/// receipt, the virtual one where it is not saved yet. The root set starts at the ceilings, and all that is reachable from it
/// by one edge or more is marked. While a root is marked, each marked root gives
/// way to the latest unmarked checkpoint of its process, and what is reachable
/// from the new roots is marked too. The last root set is the line.
///
/// `marks` is lent for the marks: [`marks_size`] bytes or more, with whatever
/// stands in them; [`MARKS_ROOM`] are always enough. On success the first
/// [`marks_size`] bytes are 0, and those beyond are unchanged. On a refusal all
/// are unchanged. The answer has the form of [`recovery_line`]'s.
///
/// Checks: the table's, 17, 18, 19, 16.
///
/// ```
/// # let example_a = include_bytes!("../../../tests/corpus/example_a.table").to_vec();
/// use keeper::{marked_line, marks_size, Refusal};
/// let mut line = [0; keeper::LARGEST_LINE];
/// let mut marks = vec![0; marks_size(&example_a)?];
/// // Process 1 from before its checkpoint 2; then process 0 from before its checkpoint 1.
/// assert_eq!(marked_line(&example_a, &[3, 1], &mut marks, &mut line), Ok(4));
/// assert_eq!(line[..4], [1, 0, 1, 0]);
/// assert_eq!(marked_line(&example_a, &[0, 3], &mut marks, &mut line), Ok(4));
/// assert_eq!(line[..4], [0, 0, 1, 0]);
/// // A longer buffer, with other bytes in it: those of the marks are 0 afterwards.
/// let mut marks = [0xff; 4];
/// assert_eq!(marked_line(&example_a, &[3, 2], &mut marks, &mut line), Ok(4));
/// assert_eq!((&line[..4], marks), (&[3, 0, 2, 0][..], [0, 0xff, 0xff, 0xff]));
/// // A buffer with no room for the eight marks of example A.
/// assert_eq!(marked_line(&example_a, &[3, 2], &mut [], &mut line), Err(Refusal::MarksTooShort));
/// # Ok::<(), Refusal>(())
/// ```
pub fn marked_line(
    table: &[u8],
    ceilings: &[u16],
    marks: &mut [u8],
    answer: &mut [u8],
) -> Result<usize, Refusal> {
    let mut written = 0;
    // SAFETY: see above `check_table`.
    let number = unsafe {
        archive::keeper_marked_line(
            table.as_ptr(),
            table.len(),
            ceilings.as_ptr(),
            ceilings.len(),
            marks.as_mut_ptr(),
            marks.len(),
            answer.as_mut_ptr(),
            answer.len(),
            &mut written,
        )
    };
    outcome(number, written)
}

/// The bytes of marks that [`marked_line`] needs for a table: one bit for each
/// checkpoint and for the virtual checkpoint of each process, (sum of counts + N)
/// / 8 bytes, rounded up; [`MARKS_ROOM`] at most. Refused as by [`check_table`].
///
/// ```
/// # let example_a = include_bytes!("../../../tests/corpus/example_a.table").to_vec();
/// use keeper::{marks_size, Refusal};
/// assert_eq!(marks_size(&example_a), Ok(1)); // 3 + 3 + 2 bits
/// assert_eq!(marks_size(&[1, 0, 0, 0, 8, 0]), Ok(2)); // 8 + 1 bits
/// assert_eq!(marks_size(&example_a[..47]), Err(Refusal::WrongLength));
/// ```
pub fn marks_size(table: &[u8]) -> Result<usize, Refusal> {
    check_table(table)?;
    // An accepted table has N at its front and N counts behind N and M.
    let number_at =
        |place: usize| usize::from(u16::from_le_bytes([table[place], table[place + 1]]));
    let n = number_at(0);
    let sum = (0..n).map(|process| number_at(4 + 2 * process)).sum();
    Ok(marks_bytes(sum, n))
}

/// The bytes of the marks of `n` processes whose counts have that sum.
const fn marks_bytes(sum: usize, n: usize) -> usize {
    (sum + n + 7) / 8
}

/// Whether named checkpoints can stand together: the latest consistent line that
/// has each of them, or a no. Checkpoint `states[k]` of process `processes[k]` is
/// named, k from 0 on; the processes rise strictly. Those that are not named may
/// stand anywhere up to their counts. Where nothing is named it is a yes with the
/// counts.
///
/// A yes is `Some` with the length written; the answer has the form of
/// [`recovery_line`]'s. A no is `None`: the answer buffer is unchanged, and may be
/// of any length, 0 too, since check 16 is of a yes alone.
///
/// It is a no exactly when a zigzag path leads from a named checkpoint to a named
/// one, to another or to itself (Xu and Netzer, *Adaptive Independent Checkpointing
/// for Reducing Rollback Propagation*, Definition 1). That is a chain of one or more
/// received messages. The first is sent by the process of the first checkpoint, after
/// it; each next one is sent by the receiver of the one before, between the same two
/// checkpoints as that receipt or later; the last is received by the process of the
/// second checkpoint, before it. A message may so be sent before the one ahead of it
/// is received, and then the path is no chain of cause and effect. A checkpoint with a
/// zigzag path to itself is on no consistent line.
///
/// What is said at [`line_under`] of what may be discarded holds here too.
///
/// Checks: the table's, 20, 21, 22, 16.
///
/// ```
/// # let example_a = include_bytes!("../../../tests/corpus/example_a.table").to_vec();
/// use keeper::{stand_together, Refusal};
/// let mut line = [0; keeper::LARGEST_LINE];
/// // Checkpoint 1 of both processes; then checkpoint 2 of process 1.
/// assert_eq!(stand_together(&example_a, &[0, 1], &[1, 1], &mut line), Ok(Some(4)));
/// assert_eq!(line[..4], [1, 0, 1, 0]);
/// assert_eq!(stand_together(&example_a, &[1], &[2], &mut line), Ok(Some(4)));
/// assert_eq!(line[..4], [3, 0, 2, 0]);
/// // Message 3 is sent after checkpoint 2 of process 0 and received before
/// // checkpoint 2 of process 1. Nothing is written for a no.
/// assert_eq!(stand_together(&example_a, &[0, 1], &[2, 2], &mut []), Ok(None));
/// // No names: the counts.
/// assert_eq!(stand_together(&example_a, &[], &[], &mut line), Ok(Some(4)));
/// assert_eq!(line[..4], [3, 0, 3, 0]);
/// // There are two processes with three checkpoints each, 0 to 2, named in their order.
/// assert_eq!(stand_together(&example_a, &[0, 1], &[1], &mut line), Err(Refusal::UnequalLists));
/// assert_eq!(stand_together(&example_a, &[1, 0], &[1, 1], &mut line), Err(Refusal::BadNamedProcess));
/// assert_eq!(stand_together(&example_a, &[2], &[0], &mut line), Err(Refusal::BadNamedProcess));
/// assert_eq!(stand_together(&example_a, &[0], &[3], &mut line), Err(Refusal::NamedStateTooHigh));
/// ```
pub fn stand_together(
    table: &[u8],
    processes: &[u16],
    states: &[u16],
    answer: &mut [u8],
) -> Result<Option<usize>, Refusal> {
    let mut written = 0;
    // SAFETY: see above `check_table`.
    let number = unsafe {
        archive::keeper_stand_together(
            table.as_ptr(),
            table.len(),
            processes.as_ptr(),
            processes.len(),
            states.as_ptr(),
            states.len(),
            answer.as_mut_ptr(),
            answer.len(),
            &mut written,
        )
    };
    // A line has 2N bytes, and N is not 0.
    let length = outcome(number, written)?;
    Ok((length > 0).then_some(length))
}

/// The table after a send: a message from the latest checkpoint of `from`,
/// waiting for `to`, is added at the end. The answer is a table, 8 bytes
/// longer than the one given.
///
/// Checks: the table's, 10, 11, 14, 16.
///
/// ```
/// # let example_a = include_bytes!("../../../tests/corpus/example_a.table").to_vec();
/// use keeper::{send, Refusal};
/// let mut next = vec![0; keeper::LARGEST_TABLE];
/// assert_eq!(send(&example_a, 0, 1, &mut next), Ok(56));
/// assert_eq!(next[..4], [2, 0, 6, 0]);
/// assert_eq!(next[28..32], [0, 0, 2, 0]); // sent by process 0 after its checkpoint 2
/// assert_eq!(next[52..56], [1, 0, 0, 0]); // waiting for process 1
/// assert_eq!(send(&example_a, 0, 2, &mut next), Err(Refusal::UnknownProcess));
/// assert_eq!(send(&example_a, 1, 1, &mut next), Err(Refusal::SendToItself));
/// ```
pub fn send(table: &[u8], from: u16, to: u16, answer: &mut [u8]) -> Result<usize, Refusal> {
    let mut written = 0;
    // SAFETY: see above `check_table`.
    let number = unsafe {
        archive::keeper_send(
            table.as_ptr(),
            table.len(),
            from,
            to,
            answer.as_mut_ptr(),
            answer.len(),
            &mut written,
        )
    };
    outcome(number, written)
}

/// The table after a checkpoint (save) of `process`, which first receives the
/// waiting messages at the positions of `list`, strictly rising; it may be
/// empty. Their receipt number becomes the old count of the process, and the
/// count grows by one. What the process received before, by [`receive`], is saved
/// too: it has that receipt number already, and is not listed. A channel delivers in
/// the order sent: with a message the list has every message at an earlier position
/// from the same sender that waits for the process too, or is refused by
/// [`Refusal::MessagePassedOver`]. The answer is a table as long as the one given.
///
/// Checks: the table's, 10, 13, 24, 14, 16.
///
/// ```
/// # let example_a = include_bytes!("../../../tests/corpus/example_a.table").to_vec();
/// use keeper::{save, Refusal};
/// let mut next = vec![0; keeper::LARGEST_TABLE];
/// // Message 4 waits for process 0.
/// assert_eq!(save(&example_a, 0, &[4], &mut next), Ok(48));
/// assert_eq!(next[4..8], [4, 0, 3, 0]); // the counts
/// assert_eq!(next[44..48], [0, 0, 3, 0]); // its receipt
/// assert_eq!(save(&example_a, 1, &[4], &mut next), Err(Refusal::BadList));
/// // Process 1 sends process 0 another message, which comes behind message 4.
/// let written = keeper::send(&example_a, 1, 0, &mut next)?;
/// let sent = next[..written].to_vec();
/// assert_eq!(save(&sent, 0, &[5], &mut next), Err(Refusal::MessagePassedOver));
/// assert_eq!(save(&sent, 0, &[4, 5], &mut next), Ok(56));
/// # Ok::<(), Refusal>(())
/// ```
pub fn save(table: &[u8], process: u16, list: &[u16], answer: &mut [u8]) -> Result<usize, Refusal> {
    let mut written = 0;
    // SAFETY: see above `check_table`.
    let number = unsafe {
        archive::keeper_save(
            table.as_ptr(),
            table.len(),
            process,
            list.as_ptr(),
            list.len(),
            answer.as_mut_ptr(),
            answer.len(),
            &mut written,
        )
    };
    outcome(number, written)
}

/// The table after a receipt: `process` receives the waiting messages at the
/// positions of `list`, strictly rising, and takes no checkpoint. Their receipt
/// number becomes the count of the process: received, and not saved yet. They wait
/// no longer and can't be listed again; the next [`save`] of the process saves
/// them. With a message the list has the older ones of its channel that wait, as that
/// of a save. Nothing else changes; an empty list gives the table. The answer is a
/// table as long as the one given.
///
/// Checks: the table's, 10, 13, 24, 16.
///
/// ```
/// # let example_a = include_bytes!("../../../tests/corpus/example_a.table").to_vec();
/// use keeper::{receive, Refusal};
/// let mut next = vec![0; keeper::LARGEST_TABLE];
/// // Message 4 waits for process 0.
/// assert_eq!(receive(&example_a, 0, &[4], &mut next), Ok(48));
/// assert_eq!(next[4..8], [3, 0, 3, 0]); // the counts, as they were
/// assert_eq!(next[44..48], [0, 0, 3, 0]); // its receipt: the count of process 0
/// // It waits no longer.
/// let received = next[..48].to_vec();
/// assert_eq!(receive(&received, 0, &[4], &mut next), Err(Refusal::BadList));
/// // The next save of process 0 saves it: its receipt stays, and the count is above it.
/// assert_eq!(keeper::save(&received, 0, &[], &mut next), Ok(48));
/// assert_eq!((&next[4..8], &next[44..48]), (&[4, 0, 3, 0][..], &[0, 0, 3, 0][..]));
/// ```
pub fn receive(
    table: &[u8],
    process: u16,
    list: &[u16],
    answer: &mut [u8],
) -> Result<usize, Refusal> {
    let mut written = 0;
    // SAFETY: see above `check_table`.
    let number = unsafe {
        archive::keeper_receive(
            table.as_ptr(),
            table.len(),
            process,
            list.as_ptr(),
            list.len(),
            answer.as_mut_ptr(),
            answer.len(),
            &mut written,
        )
    };
    outcome(number, written)
}

/// The table after the whole run has fallen back to its recovery line L: each
/// count becomes L + 1, a message not sent before the line is removed, and of
/// the others one received after the line waits again; so does one that was
/// received and not saved yet. Order is kept. The answer is a table, no longer
/// than the one given.
///
/// Checks: the table's, 16. A buffer shorter than the table is enough where the
/// answer is.
///
/// ```
/// # let example_a = include_bytes!("../../../tests/corpus/example_a.table").to_vec();
/// let mut next = vec![0; keeper::LARGEST_TABLE];
/// let written = keeper::fall_back(&example_a, &mut next)?;
/// let after: Vec<u8> = [2u16, 2, 2, 2, 0, 0, 1, 0, 1, 0, 0, 1]
///     .iter().flat_map(|number| number.to_le_bytes()).collect();
/// assert_eq!(next[..written], after);
/// # Ok::<(), keeper::Refusal>(())
/// ```
pub fn fall_back(table: &[u8], answer: &mut [u8]) -> Result<usize, Refusal> {
    let mut written = 0;
    // SAFETY: see above `check_table`.
    let number = unsafe {
        archive::keeper_fall_back(
            table.as_ptr(),
            table.len(),
            answer.as_mut_ptr(),
            answer.len(),
            &mut written,
        )
    };
    outcome(number, written)
}

/// The keep sheet: exactly the checkpoints and messages that some future of
/// the run (any list of sends, receipts, saves and fall backs in which each channel
/// delivers in the order sent) needs. In 16-bit numbers, low byte first: K and Q; K
/// processes; K checkpoint numbers, by process and then number; Q positions of
/// messages, rising. It has 4 + 4K + 2Q bytes; [`SHEET_ROOM`] bytes are always enough.
///
/// The first N × N numbers of the scratch hold the lines of single holders
/// afterwards, N numbers each, the line of process 0 first;
/// [`SCRATCH_NUMBERS`] are always enough. Under
/// [`Refusal::AnswerTooShort`] the scratch holds the lines too.
///
/// Checks: the table's, 15, 16.
///
/// ```
/// # let example_a = include_bytes!("../../../tests/corpus/example_a.table").to_vec();
/// use keeper::{keep_sheet, Refusal};
/// let mut scratch = [0; keeper::SCRATCH_NUMBERS];
/// let mut sheet = [0; keeper::SHEET_ROOM];
/// assert_eq!(keep_sheet(&example_a, &mut scratch, &mut sheet), Ok(20));
/// assert_eq!(sheet[..20], [
///     3, 0, 2, 0, // three checkpoints and two messages
///     0, 0, 1, 0, 1, 0, // of processes 0, 1 and 1
///     1, 0, 1, 0, 2, 0, // numbered 1, 1 and 2
///     0, 0, 4, 0, // messages 0 and 4
/// ]);
/// assert_eq!(scratch[..4], [1, 1, 3, 2]);
/// assert_eq!(keep_sheet(&example_a, &mut scratch[..3], &mut sheet), Err(Refusal::ScratchTooShort));
/// assert_eq!(keep_sheet(&example_a, &mut scratch, &mut sheet[..19]), Err(Refusal::AnswerTooShort));
/// ```
pub fn keep_sheet(table: &[u8], scratch: &mut [u16], answer: &mut [u8]) -> Result<usize, Refusal> {
    let mut written = 0;
    // SAFETY: see above `check_table`.
    let number = unsafe {
        archive::keeper_keep_sheet(
            table.as_ptr(),
            table.len(),
            scratch.as_mut_ptr(),
            scratch.len(),
            answer.as_mut_ptr(),
            answer.len(),
            &mut written,
        )
    };
    outcome(number, written)
}

#[cfg(test)]
mod tests {
    use super::*;

    #[test]
    fn sizes() {
        assert_eq!(LARGEST_TABLE, 32_836);
        assert_eq!(LARGEST_LINE, 64);
        assert_eq!(MOST_SETS, 256);
        assert_eq!(LINES_ROOM, 16_384);
        assert_eq!(MARKS_ROOM, 16_388);
        assert_eq!(SCRATCH_NUMBERS, 1_024);
        assert_eq!(SHEET_ROOM, 12_292);
    }
}
