//! A plain second implementation of the keeper: the run table, its recovery
//! lines, states that stand together, the four steps, the keep sheet and the
//! listing. It is written for comparison, so it prefers short and direct ways,
//! and ways that do not resemble the lowering rule, over speed and small memory.
//!
//! Doc comments quote the sentence that they follow, of the scope document or
//! of a change request. A message that was received and is not saved yet is
//! called unsaved. The messages from one process to another are a channel, which
//! is in turn where check 23 finds nothing in it.
//!
//! * `table`   - lookups in raw bytes, the table's checks, reading and writing
//! * `lines`   - orphans, consistency and latest consistent lines under ceilings
//! * `marking` - the graph of states, and the marking procedure on it
//! * `sets`    - the lines of many sets
//! * `zigzag`  - zigzag paths, and whether named states stand together
//! * `steps`   - send, save, receive and fall back
//! * `sheet`   - the keep sheet
//! * `futures` - a search over lists of steps for what they need
//! * `listing` - the text of the listing program, and the share in it
//! * `gen`     - tables made by chance, by pattern and by enumeration; ceilings
//!   and names
//! * `passes`  - tables whose lines take many passes over the messages, and how
//!   many

pub mod futures;
pub mod gen;
pub mod lines;
pub mod listing;
pub mod marking;
pub mod passes;
pub mod sets;
pub mod sheet;
pub mod steps;
pub mod table;
pub mod zigzag;

pub use futures::needed_by_futures;
pub use lines::{line_of_set, line_under, recovery_line};
pub use listing::listing;
pub use marking::marked_line;
pub use sets::lines_of_sets;
pub use sheet::keep_sheet;
pub use steps::{fall_back, receive, save, send};
pub use table::{
    check_table, count, messages, processes, received, receiver, sender, sent, Message, Table,
    TABLE_CHECKS,
};
pub use zigzag::stand_together;

/// What a call yields: the returned number, the bytes of the answer, and what
/// stands at the front of the scratch or of the mark buffer where the call
/// writes them.
#[derive(Clone, Debug, PartialEq, Eq)]
pub struct Outcome {
    /// Zero, or the number of the refusal.
    pub number: u32,
    /// The bytes of the answer. Its length is "the length written". Empty on
    /// refusal, since then the answer buffer is left as it was, and for the no
    /// of named states that cannot stand together.
    pub answer: Vec<u8>,
    /// The first N x N numbers of the scratch afterwards, or `None` when the
    /// scratch is left as it was. Only the keep sheet and the lines of many sets
    /// write it.
    pub lines: Option<Vec<u16>>,
    /// How many bytes at the front of the mark buffer are zero afterwards, or
    /// `None` when the mark buffer is left as it was. Only the line by marking
    /// writes it. The bytes beyond these keep their values.
    pub marks: Option<usize>,
}

impl Outcome {
    /// "A refusal writes nothing".
    pub fn refused(number: u32) -> Outcome {
        Outcome {
            number,
            answer: Vec::new(),
            lines: None,
            marks: None,
        }
    }

    /// "Zero is success, with the length written", unless check 16 stops it:
    /// "The answer buffer is shorter than the answer."
    pub fn answered(answer: Vec<u8>, answer_len: usize) -> Outcome {
        if answer_len < answer.len() {
            return Outcome::refused(16);
        }
        Outcome {
            number: 0,
            answer,
            lines: None,
            marks: None,
        }
    }
}
