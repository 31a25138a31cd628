//! The command `keeper`: run tables as text, steps, lines, listings and
//! diagrams. All that is said of a table is the proved libraries' answer; here
//! are its forms on paper: text, arguments and pictures.
#![forbid(unsafe_code)]

pub mod arguments;
pub mod command;
pub mod completion;
pub mod draw;
pub mod explain;
pub mod input;
pub mod json;
pub mod layout;
pub mod output;
pub mod page;
pub mod run;
pub mod script;
pub mod sets;
pub mod sheet;
pub mod stand;
pub mod text;
pub mod usage;
pub mod what_if;
pub mod why;
