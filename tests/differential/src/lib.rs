//! Compares the proved library with the second implementation.
//!
//! * `lend`    - buffers with guards on both sides, for what a call is lent
//! * `compare` - one call made by the archive, by the binding and by the
//!   second implementation, and everything that may differ
//! * `make`    - tables and arguments by chance
//! * `passes`  - how many passes over the messages the lines of tables take
//! * `share`   - how the share of a listing was rounded, and tables that have a
//!   chosen one
//! * `scope`   - all tables up to a size
//! * `show`    - tables and answers for a reader

pub mod compare;
pub mod lend;
pub mod make;
pub mod passes;
pub mod scope;
pub mod share;
pub mod show;
