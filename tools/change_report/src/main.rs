//! `change-report`: see `change-report --help`.

use std::process::ExitCode;

fn main() -> ExitCode {
    change_report::command::main(std::env::args().skip(1).collect())
}
