//! What ends a run that should have gone on.

use std::error::Error;
use std::fmt;
use std::io;
use std::path::{Path, PathBuf};

use keeper::Refusal;

use crate::store::Thing;

#[derive(Debug)]
pub enum Failure {
    /// A fall back needs contents whose file is gone.
    Missing { thing: Thing, file: PathBuf },
    /// A fall back read contents that are not those that were stored.
    Wrong { thing: Thing, file: PathBuf },
    /// A fall back restored a state of the run that the record knows to be none.
    NoState(String),
    /// The keeper refused a step that can be made.
    Refused(Refusal),
    /// Files can't be written, read, listed or deleted.
    Files { path: PathBuf, error: io::Error },
}

impl Failure {
    pub fn files(path: &Path) -> impl FnOnce(io::Error) -> Failure + '_ {
        |error| Failure::Files {
            path: path.to_path_buf(),
            error,
        }
    }
}

impl From<Refusal> for Failure {
    fn from(refusal: Refusal) -> Failure {
        Failure::Refused(refusal)
    }
}

impl fmt::Display for Failure {
    fn fmt(&self, to: &mut fmt::Formatter<'_>) -> fmt::Result {
        match self {
            Failure::Missing { thing, file } => {
                write!(to, "{thing} is needed and {} is gone", file.display())
            }
            Failure::Wrong { thing, file } => {
                write!(
                    to,
                    "{thing} is needed and {} has other contents",
                    file.display()
                )
            }
            Failure::NoState(words) => write!(to, "{words}"),
            Failure::Refused(refusal) => write!(to, "the keeper {refusal}"),
            Failure::Files { path, error } => write!(to, "{}: {error}", path.display()),
        }
    }
}

impl Error for Failure {}
