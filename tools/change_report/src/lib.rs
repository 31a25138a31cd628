//! The change report: what a change did to the times of proofs, to definitions,
//! contracts and proofs, in Markdown, for the note of a change.

pub mod command;
mod compare;
mod definitions;
mod files;
mod git;
mod markdown;
mod prover;
mod report;
mod room;
mod snapshot;
mod sources;
mod times;
mod words;
