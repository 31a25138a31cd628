//! Answers in JSON: one object on one line.

use keeper::{Checkpoint, Line, Refusal, Sheet, Table};

use crate::sets;
use crate::stand::Path;
use crate::what_if::Cost;

/// A string with its quotes.
fn string(text: &str) -> String {
    let mut quoted = "\"".to_string();
    for sign in text.chars() {
        match sign {
            '"' | '\\' => {
                quoted.push('\\');
                quoted.push(sign);
            }
            '\u{0}'..='\u{1f}' => quoted += &format!("\\u{:04x}", u32::from(sign)),
            _ => quoted.push(sign),
        }
    }
    quoted + "\""
}

fn array<T: ToString>(items: impl Iterator<Item = T>) -> String {
    let items: Vec<String> = items.map(|item| item.to_string()).collect();
    format!("[{}]", items.join(","))
}

fn checkpoint(one: Checkpoint) -> String {
    format!("{{\"process\":{},\"number\":{}}}", one.process, one.number)
}

/// The keys of a sheet, without the braces.
fn kept(sheet: &Sheet) -> String {
    format!(
        "\"checkpoints\":{},\"messages\":{}",
        array(sheet.checkpoints().map(checkpoint)),
        array(sheet.messages())
    )
}

pub fn line(line: &Line) -> String {
    format!("{{\"line\":{}}}\n", array(line.iter()))
}

/// What each set costs.
pub fn costs(costs: &[Cost]) -> String {
    let costs = costs.iter().map(|cost| {
        format!(
            "{{\"set\":{},\"line\":{},\"lost\":{},\"sum\":{}}}",
            array(sets::processes(cost.set).iter()),
            array(cost.line.iter()),
            array(cost.lost.iter()),
            cost.sum()
        )
    });
    format!("{{\"sets\":{}}}\n", array(costs))
}

/// No line, and the path that shows why.
pub fn path(path: &Path) -> String {
    format!(
        "{{\"line\":null,\"from\":{},\"to\":{},\"path\":{}}}\n",
        checkpoint(path.from),
        checkpoint(path.to),
        array(path.messages.iter())
    )
}

pub fn sheet(sheet: &Sheet) -> String {
    format!("{{{}}}\n", kept(sheet))
}

/// The rows of the listing.
pub fn listing(table: &Table) -> String {
    let sheet = table.keep_sheet();
    let lines = (0..table.processes())
        .map(|holder| sheet.line(holder).expect("the sheet has its lines"))
        .map(|line| array(line.iter()));
    // The share has a row of its own: the listing's figure, not one made here.
    let listing = table.listing();
    let share = listing.lines().find_map(|row| row.strip_prefix("share "));
    format!(
        "{{\"line\":{},\"hold\":{},{},\"share\":{}}}\n",
        array(table.recovery_line().iter()),
        array(lines),
        kept(&sheet),
        share.expect("a listing has its share")
    )
}

pub fn refused(refusal: Refusal, words: &str) -> String {
    let number = refusal.number();
    format!("{{\"refused\":{number},\"words\":{}}}\n", string(words))
}
