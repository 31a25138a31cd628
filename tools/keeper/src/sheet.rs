//! The keep sheet: its bytes, as rows of the listing, and read back.

use keeper::Sheet;

use crate::arguments::{wrong, Arguments};
use crate::command::Failure;
use crate::input::Input;
use crate::json;

pub fn sheet(input: &Input, arguments: &Arguments) -> Result<Vec<u8>, Failure> {
    let sheet = match arguments.has("--decode") {
        true if arguments.text_in() => {
            let what = "--decode reads a sheet, which is no text";
            return Err(wrong(arguments.subcommand, what));
        }
        true => Sheet::from_bytes(&input.table)
            .map_err(|error| Failure::trouble(format!("{}: {error}", input.name())))?,
        false => input.accepted_or_json(arguments)?.keep_sheet(),
    };
    let text = arguments.text_out() || arguments.has("--decode") || input.is_of_script();
    Ok(match (arguments.has("--json"), text) {
        (true, _) => json::sheet(&sheet).into_bytes(),
        (false, true) => rows(&sheet).into_bytes(),
        (false, false) => sheet.as_bytes().to_vec(),
    })
}

/// What is kept, as the listing has it.
fn rows(sheet: &Sheet) -> String {
    let checkpoints = sheet
        .checkpoints()
        .map(|kept| format!("checkpoint {} {}\n", kept.process, kept.number));
    let messages = sheet
        .messages()
        .map(|position| format!("message {position}\n"));
    checkpoints.chain(messages).collect()
}
