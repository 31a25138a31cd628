//! The words of every refusal beside the calls: each part of the words with an example
//! that it tells to be refused, and one as near as can be that it leaves alone. Whoever
//! changes the words has to find examples that they fit.
#![cfg(feature = "run_table")]

mod common;

use common::{bytes, bytes_of, EXAMPLE_A};
use keeper::{check_table, Refusal};

/// What a call answers, without its bytes.
type Said = Result<(), Refusal>;

/// A part of the words; an example that is refused for it; one that is not.
type Part = (&'static str, Said, Said);

fn table(counts: &[u16], messages: &[[u16; 4]]) -> Said {
    check_table(&bytes_of(counts, messages))
}

/// A table of two processes with three checkpoints each, and messages between them
/// (sender, send number, receiver, receipt number).
fn two(messages: &[[u16; 4]]) -> Vec<u8> {
    bytes_of(&[3, 3], messages)
}

fn send(from: u16, to: u16) -> Said {
    let mut answer = [0; 100];
    keeper::send(&bytes(&EXAMPLE_A), from, to, &mut answer).map(|_| ())
}

/// A save, which a receipt of the same list has to be answered like.
fn save(table: &[u8], process: u16, list: &[u16]) -> Said {
    let mut answer = vec![0; table.len()];
    let said = keeper::save(table, process, list, &mut answer).map(|_| ());
    let received = keeper::receive(table, process, list, &mut answer).map(|_| ());
    assert_eq!(said, received);
    said
}

fn under(ceilings: &[u16]) -> Said {
    keeper::line_under(&bytes(&EXAMPLE_A), ceilings, &mut [0; 4]).map(|_| ())
}

fn stand(processes: &[u16], states: &[u16]) -> Said {
    keeper::stand_together(&bytes(&EXAMPLE_A), processes, states, &mut [0; 4]).map(|_| ())
}

fn of_set(set: u32) -> Said {
    keeper::line_of_set(&bytes(&EXAMPLE_A), set, &mut [0; 4]).map(|_| ())
}

/// The lines of that many sets, which are all empty.
fn of_sets(sets: usize) -> Said {
    let (mut scratch, mut answer) = ([0; 4], vec![0; 4 * sets]);
    keeper::lines_of_sets(&two(&[]), &vec![0; sets], &mut scratch, &mut answer).map(|_| ())
}

/// A send on a table of that many messages, from its process 0 to its process 1.
fn send_after(messages: usize) -> Said {
    let table = two(&vec![[0, 0, 1, 0]; messages]);
    keeper::send(&table, 0, 1, &mut vec![0; table.len() + 8]).map(|_| ())
}

/// A save of a process with that count.
fn save_after(count: u16) -> Said {
    keeper::save(&bytes_of(&[count], &[]), 0, &[], &mut [0; 6]).map(|_| ())
}

/// The marks of counts of 3 and 3, and two new states, are 8 bits.
fn marked(marks: usize, counts: [u16; 2]) -> Said {
    let table = bytes_of(&counts, &[]);
    keeper::marked_line(&table, &counts, &mut vec![0; marks], &mut [0; 4]).map(|_| ())
}

fn sheet(scratch: usize) -> Said {
    keeper::keep_sheet(&two(&[]), &mut vec![0; scratch], &mut [0; 100]).map(|_| ())
}

fn line(room: usize) -> Said {
    keeper::recovery_line(&bytes(&EXAMPLE_A), &mut vec![0; room]).map(|_| ())
}

/// The words of 23, with messages of one channel; example A has one that waits behind
/// one that is received.
fn channel_out_of_order() -> Vec<Part> {
    let says = |messages: &[[u16; 4]]| table(&[3, 3, 3], messages);
    let falls = says(&[[0, 1, 1, 0], [0, 0, 1, 0]]);
    vec![
        (
            "of two messages with the same sender",
            falls,
            says(&[[0, 1, 1, 0], [2, 0, 1, 0]]),
        ),
        (" and receiver", falls, says(&[[0, 1, 1, 0], [0, 0, 2, 0]])),
        (
            " the later one has a smaller send number",
            falls,
            says(&[[0, 1, 1, 0], [0, 1, 1, 0]]),
        ),
        (
            ", or is received while the earlier one waits",
            says(&[[0, 0, 1, 0], [0, 0, 1, 3]]),
            says(&[[0, 0, 1, 3], [0, 0, 1, 0]]),
        ),
        (
            ", or, where both are received,",
            says(&[[0, 0, 1, 2], [0, 0, 1, 1]]),
            check_table(&bytes(&EXAMPLE_A)),
        ),
        (
            " has a smaller receipt number",
            says(&[[0, 0, 1, 3], [0, 0, 1, 2]]),
            says(&[[0, 0, 1, 3], [0, 0, 1, 3]]),
        ),
    ]
}

fn parts(refusal: Refusal) -> Vec<Part> {
    let (example, fine) = (bytes(&EXAMPLE_A), check_table(&bytes(&EXAMPLE_A)));
    let mut longer = example.clone();
    longer.push(0);
    // Three messages that wait, of two channels, and one that is received.
    let waiting = bytes_of(
        &[3, 3, 3],
        &[[0, 0, 1, 0], [0, 0, 1, 0], [2, 0, 1, 0], [2, 0, 0, 1]],
    );
    match refusal.number() {
        1 => vec![(
            "the table has fewer than 4 bytes",
            check_table(&[1, 0, 0]),
            check_table(&[1, 0, 0, 0]),
        )],
        2 => vec![
            ("N is 0", table(&[], &[]), table(&[1], &[])),
            (" or above 32", table(&[1; 33], &[]), table(&[1; 32], &[])),
        ],
        3 => vec![(
            "M is above 4,096",
            check_table(&two(&vec![[0, 0, 1, 0]; 4_097])),
            check_table(&two(&vec![[0, 0, 1, 0]; 4_096])),
        )],
        4 => vec![(
            "the length differs from 4 + 2N + 8M",
            check_table(&longer),
            fine,
        )],
        5 => vec![
            ("a count is 0", table(&[1, 0], &[]), table(&[1, 1], &[])),
            (
                " or above 4,096",
                table(&[4_097], &[]),
                table(&[4_096], &[]),
            ),
        ],
        6 => vec![
            (
                "a sender",
                table(&[1, 1], &[[2, 0, 0, 0]]),
                table(&[1, 1], &[[1, 0, 0, 0]]),
            ),
            (
                " or receiver is N or above",
                table(&[1, 1], &[[0, 0, 2, 0]]),
                table(&[1, 1], &[[0, 0, 1, 0]]),
            ),
        ],
        7 => vec![(
            "a message has the same sender and receiver",
            table(&[1, 1], &[[1, 0, 1, 0]]),
            table(&[1, 1], &[[1, 0, 0, 0]]),
        )],
        8 => vec![(
            "a send number is not below the sender's count",
            table(&[2, 3], &[[0, 2, 1, 0]]),
            table(&[2, 3], &[[0, 1, 1, 0]]),
        )],
        9 => vec![(
            "a receipt number is above the receiver's count",
            table(&[2, 3], &[[0, 0, 1, 4]]),
            table(&[2, 3], &[[0, 0, 1, 3]]),
        )],
        23 => channel_out_of_order(),
        10 => vec![
            ("a process named in a send", send(2, 0), send(1, 0)),
            (
                ", save or receipt is N or above",
                save(&example, 2, &[]),
                save(&example, 1, &[]),
            ),
        ],
        11 => vec![("a send names one process twice", send(1, 1), send(0, 1))],
        25 => vec![("there are more than 256 sets", of_sets(257), of_sets(256))],
        12 => vec![("a set has a bit at N or above", of_set(4), of_set(3))],
        17 => vec![(
            "the list of ceilings does not have N numbers",
            under(&[0, 0, 0]),
            under(&[0, 0]),
        )],
        18 => vec![(
            "a ceiling is above its process's count",
            under(&[4, 3]),
            under(&[3, 3]),
        )],
        20 => vec![(
            "the lists of named processes and of their states are of unequal length",
            stand(&[0, 1], &[0]),
            stand(&[0], &[0]),
        )],
        21 => vec![
            (
                "a named process is N or above",
                stand(&[2], &[0]),
                stand(&[1], &[0]),
            ),
            (
                ", or not above the one before it",
                stand(&[0, 0], &[0, 0]),
                stand(&[0, 1], &[0, 0]),
            ),
        ],
        22 => vec![(
            "a named state is not below its process's count",
            stand(&[0], &[3]),
            stand(&[0], &[2]),
        )],
        13 => vec![
            (
                "the list of a save or receipt has a position of M or above",
                save(&waiting, 1, &[0, 4]),
                save(&waiting, 1, &[0]),
            ),
            (
                ", or not above the one before it",
                save(&waiting, 1, &[0, 0]),
                save(&waiting, 1, &[0, 1]),
            ),
            (
                ", or of a message not waiting",
                save(&waiting, 0, &[3]),
                save(&waiting, 0, &[]),
            ),
            (
                " for that process",
                save(&waiting, 0, &[2]),
                save(&waiting, 1, &[2]),
            ),
        ],
        24 => vec![
            (
                "the list of a save or receipt passes over an older waiting message",
                save(&waiting, 1, &[1]),
                save(&waiting, 1, &[0, 1]),
            ),
            (
                " with the same sender and receiver",
                save(&waiting, 1, &[1, 2]),
                save(&waiting, 1, &[2]),
            ),
        ],
        14 => vec![
            (
                "a send meets M = 4,096",
                send_after(4_096),
                send_after(4_095),
            ),
            (
                ", or a save meets a count of 4,096",
                save_after(4_096),
                save_after(4_095),
            ),
        ],
        19 => vec![
            (
                "the mark buffer is shorter than (sum of counts + N) / 8 bytes",
                marked(0, [3, 3]),
                marked(1, [3, 3]),
            ),
            (", rounded up", marked(1, [3, 4]), marked(2, [3, 4])),
        ],
        15 => vec![(
            "the scratch is shorter than N × N numbers",
            sheet(3),
            sheet(4),
        )],
        16 => vec![(
            "the answer buffer is shorter than the answer",
            line(3),
            line(4),
        )],
        _ => vec![],
    }
}

#[test]
fn every_part_of_the_words_has_an_example_on_each_side() {
    for &refusal in Refusal::ALL {
        let parts = parts(refusal);
        let words: String = parts.iter().map(|part| part.0).collect();
        assert_eq!(words, refusal.words(), "{}", refusal.number());
        for (part, refused, beside) in parts {
            assert_eq!(refused, Err(refusal), "{part}");
            // No table has just 4 bytes: 4 refuses those.
            let by_another =
                refusal == Refusal::TableTooShort && beside == Err(Refusal::WrongLength);
            assert!(beside == Ok(()) || by_another, "{part}: {beside:?}");
        }
    }
}
