//! A run that discards. Processes keep the contents of their checkpoints and
//! messages in files; what no keep sheet lists is deleted while the run goes on;
//! at every fall back all that is needed is read back and compared, byte for
//! byte, with a record that knows nothing of the keeper.
//!
//! `run` has the processes and the steps; `store` the files, and the one policy
//! that decides which of them go; `record` what should be; `drive` makes runs.

mod chance;
mod drive;
mod failure;
mod record;
mod run;
mod store;
mod tally;

pub use chance::Chance;
pub use drive::{drive, Failed};
pub use failure::Failure;
pub use store::{BySheet, Policy, Stock, Thing};
pub use tally::Tally;
