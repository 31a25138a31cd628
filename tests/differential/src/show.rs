//! Tables and answers for a reader.

use reference::{check_table, count, messages, processes, received, receiver, sender, sent};

/// Bytes as hexadecimal, in groups of two bytes (one number).
pub fn hex(bytes: &[u8]) -> String {
    let words: Vec<String> = bytes
        .chunks(2)
        .map(|pair| pair.iter().map(|byte| format!("{byte:02x}")).collect())
        .collect();
    words.join(" ")
}

/// The numbers of a table, as far as its bytes go, and then the bytes.
pub fn table(bytes: &[u8]) -> String {
    let n = usize::from(processes(bytes));
    let m = usize::from(messages(bytes));
    let mut text = format!(
        "table of {} bytes, check {}: N = {n}, M = {m}\n",
        bytes.len(),
        check_table(bytes)
    );
    // Of a damaged table no more than its bytes have.
    let n = n.min(bytes.len() / 2);
    let m = m.min(bytes.len() / 2);
    let counts: Vec<String> = (0..n).map(|p| count(bytes, p).to_string()).collect();
    text += &format!("  counts {}\n", counts.join(" "));
    for k in 0..m {
        text += &format!(
            "  message {k}: ({},{}) to ({},{})\n",
            sender(bytes, k),
            sent(bytes, k),
            receiver(bytes, k),
            received(bytes, k)
        );
    }
    text += &format!("  hex {}\n", hex(bytes));
    text
}
