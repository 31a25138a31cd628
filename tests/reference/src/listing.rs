//! The text of the listing program.

use std::cmp::Ordering;
use std::fmt::Write;

use crate::lines::{hold_lines, line_of_run};
use crate::sheet::kept_under;
use crate::table::{Table, MOST_BYTES};

/// "It reads at most 32,837 bytes of standard input as a table."
pub const MOST_INPUT: usize = MOST_BYTES + 1;

/// One line of text: a word and decimal fields. "Fields are decimal, one space
/// between; each line, the last too, ends with one line feed."
fn print(text: &mut String, word: &str, fields: &[u32]) {
    text.push_str(word);
    for field in fields {
        write!(text, " {field}").expect("a string takes any text");
    }
    text.push('\n');
}

/// What percent of the states are kept, as document 02, §2, rounds it: "to the
/// nearest whole percent, and an exact half goes to the even neighbour. So 1
/// state of 8 prints 12 and 3 of 8 print 38."
///
/// The value is `lower` and `remainder` of `states` parts of a percent. It is an
/// exact half when twice the remainder is `states`.
pub fn share(kept: u32, states: u32) -> u32 {
    let lower = 100 * kept / states;
    let upper = lower + 1;
    let remainder = 100 * kept % states;
    match (2 * remainder).cmp(&states) {
        Ordering::Less => lower,
        Ordering::Greater => upper,
        Ordering::Equal if lower % 2 == 1 => upper,
        Ordering::Equal => lower,
    }
}

/// The whole text for the given input. "It prints `line` and the recovery
/// line; for each process `hold`, the process and its line; for each kept
/// state `checkpoint`, process, state; for each kept message `message`,
/// position; then `share` and 100 x K divided by the sum of counts", rounded
/// by [`share`]. "On refusal it prints only `refused` and the number."
pub fn listing(bytes: &[u8]) -> String {
    let mut text = String::new();
    let table = match Table::read(&bytes[..bytes.len().min(MOST_INPUT)]) {
        Err(number) => {
            print(&mut text, "refused", &[number]);
            return text;
        }
        Ok(table) => table,
    };
    print(&mut text, "line", &line_of_run(&table));
    let lines = hold_lines(&table);
    for (p, line) in lines.iter().enumerate() {
        let mut fields = vec![p as u32];
        fields.extend_from_slice(line);
        print(&mut text, "hold", &fields);
    }
    let sheet = kept_under(&table, &lines);
    for &(process, state) in &sheet.states {
        print(&mut text, "checkpoint", &[process as u32, state]);
    }
    for &position in &sheet.messages {
        print(&mut text, "message", &[position as u32]);
    }
    let states: u32 = table.counts.iter().sum();
    let kept = sheet.states.len() as u32;
    print(&mut text, "share", &[share(kept, states)]);
    text
}
