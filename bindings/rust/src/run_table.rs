//! The table reader, over `librun_table.a`: with the feature `run_table`.
//!
//! The lookups answer for a refused table too: a byte beyond its end is read
//! as 0, and a process or message that is not there has numbers of 0.
//!
//! ```
//! # let example_a = include_bytes!("../../../tests/corpus/example_a.table").to_vec();
//! use keeper::run_table::{check, count, messages, processes, received, receiver, sender, sent};
//! assert_eq!(check(&example_a), Ok(()));
//! assert_eq!((processes(&example_a), messages(&example_a)), (2, 5));
//! assert_eq!((count(&example_a, 1), count(&example_a, 2)), (3, 0)); // there is no process 2
//! // Message 3 was sent by process 0 after its checkpoint 2, and received by
//! // process 1 before its checkpoint 2.
//! assert_eq!((sender(&example_a, 3), sent(&example_a, 3)), (0, 2));
//! assert_eq!((receiver(&example_a, 3), received(&example_a, 3)), (1, 2));
//! // Message 4 waits; there is no message 5.
//! assert_eq!((sender(&example_a, 4), received(&example_a, 4)), (1, 0));
//! assert_eq!((sender(&example_a, 5), receiver(&example_a, 5)), (0, 0));
//! ```

use crate::archive;
use crate::refusal::{outcome, Refusal};

// Sound as the calls in lib.rs are: the archive's functions are proved to read
// nothing but what they are lent, whatever stands there, and write nothing.

/// As [`check_table`](crate::check_table): `Ok` where every call accepts the
/// table.
pub fn check(table: &[u8]) -> Result<(), Refusal> {
    // SAFETY: see above; so for the lookups below.
    let number = unsafe { archive::run_table_check(table.as_ptr(), table.len()) };
    outcome(number, 0).map(|_| ())
}

/// N.
pub fn processes(table: &[u8]) -> u16 {
    unsafe { archive::run_table_processes(table.as_ptr(), table.len()) }
}

/// M.
pub fn messages(table: &[u8]) -> u16 {
    unsafe { archive::run_table_messages(table.as_ptr(), table.len()) }
}

/// The count of process `p`.
pub fn count(table: &[u8], p: usize) -> u16 {
    unsafe { archive::run_table_count(table.as_ptr(), table.len(), p) }
}

/// The sender of message `k`.
pub fn sender(table: &[u8], k: usize) -> u16 {
    unsafe { archive::run_table_sender(table.as_ptr(), table.len(), k) }
}

/// The send number of message `k`.
pub fn sent(table: &[u8], k: usize) -> u16 {
    unsafe { archive::run_table_sent(table.as_ptr(), table.len(), k) }
}

/// The receiver of message `k`.
pub fn receiver(table: &[u8], k: usize) -> u16 {
    unsafe { archive::run_table_receiver(table.as_ptr(), table.len(), k) }
}

/// The receipt number of message `k`; 0: it is waiting; the count of its receiver:
/// it is received and not saved yet.
pub fn received(table: &[u8], k: usize) -> u16 {
    unsafe { archive::run_table_received(table.as_ptr(), table.len(), k) }
}
