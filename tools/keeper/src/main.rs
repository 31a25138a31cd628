//! `keeper`: see `keeper --help`.
#![forbid(unsafe_code)]

use std::process::ExitCode;

fn main() -> ExitCode {
    keeper_command::command::main(std::env::args_os().skip(1).collect())
}
