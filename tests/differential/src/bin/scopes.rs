//! Small scopes, every table of them:
//!
//! * `scopes lines N C M`: at most N processes with at most C states and at
//!   most M messages: the lines of all sets, the recovery line and the keep
//!   sheet. The lines to expect are found by trying every line.
//! * `scopes sets N C M`: the lines of all sets in one call, in several orders and
//!   twice over, of each set alone, and of none, beside what is found by trying
//!   every line and beside the library's own line of each set; the scratch; scratches
//!   and buffers that are too short; and lists with a set that is refused.
//! * `scopes under N C M`: the lines under all lists of ceilings, from 0 to one
//!   above each count, and under lists of another length; that a lower list
//!   never has a later line; and the line of every set beside the line under
//!   the ceilings of that set.
//! * `scopes marked N C M`: the line by marking under the same lists of ceilings,
//!   beside the second implementation's and beside the library's line under
//!   them; what it leaves in the mark buffer; and mark buffers that are too short.
//! * `scopes stand N C M`: whether named states stand together, for every choice
//!   of states, at most one of each process, up to its count, beside what is found
//!   by trying every line, the second implementation's search of zigzag paths, and
//!   the library's line under the named states; and lists that are refused.
//! * `scopes listing T M`: the listings of all tables with at most T states in
//!   all and at most M messages, so with up to T processes. From T = 8 on these
//!   have each exact half of a percent that a total of 8 can have.
//! * `scopes steps N C M`: every send, every save and every receipt with any list
//!   of at most M positions, and the fall back.
//! * `scopes needs N C M DEPTH`: what some future of at most DEPTH steps
//!   needs, found by search, is what the library's keep sheet has. The steps of
//!   a future receive too.
//!
//! Every table: its messages wait, are received by any of the states, or are
//! received and not saved yet; and they stand in every order, so that tables of
//! both sides of 23 are there. On one whose channels are not in turn every call is
//! refused, with each of its lists. How many there are of either side is held
//! against a count by formula, and so is how many lists 24 refuses.
//!
//! With no words it takes the scopes of `make test`; with the word `more` some
//! larger ones after them.

use std::collections::{BTreeSet, HashMap};
use std::env;
use std::process::ExitCode;
use std::time::Instant;

use differential::compare::{number, Call};
use differential::make::all_lists;
use differential::scope::{least_renaming, next_order, put_in_turn, renamed_message, Met, Scope};
use differential::{share, show};
use keeper::archive;
use reference::lines::{
    all_hold, ceiling, is_consistent, larger, line_by_enumeration, line_to_bytes, single_holder,
    Line,
};
use reference::marking::{mark_bytes, Marking};
use reference::sheet::kept_under;
use reference::steps::{do_receive, list_is_bad};
use reference::table::{out_of_turn_in_pairs, State};
use reference::{needed_by_futures, zigzag, Message, Table};

/// What a buffer holds before a call.
const FILL: u8 = 0xA5;

/// A difference, in words.
type Failure = String;

/// The calls made, and the buffers that they write.
struct Library {
    calls: u64,
    answer: Vec<u8>,
    scratch: Vec<u16>,
}

impl Library {
    fn new() -> Library {
        Library {
            calls: 0,
            answer: vec![FILL; 256],
            scratch: vec![0; 64],
        }
    }

    /// Makes a call whose buffer ends some bytes behind the answer, and
    /// compares what it wrote and what it left.
    fn yields(
        &mut self,
        what: &dyn Fn() -> String,
        table: &[u8],
        expected: &[u8],
        call: impl Fn(&[u8], &mut [u16], &mut [u8]) -> Result<usize, keeper::Refusal>,
    ) -> Result<(), Failure> {
        let length = expected.len();
        let room = length + 3;
        self.answer[..room + 3].fill(FILL);
        let (lent, guards) = self.answer[..room + 3].split_at_mut(room);
        let got = call(table, &mut self.scratch, lent);
        self.calls += 1;
        let same = got == Ok(length)
            && lent[..length] == *expected
            && lent[length..].iter().all(|&byte| byte == FILL)
            && guards.iter().all(|&byte| byte == FILL);
        if same {
            return Ok(());
        }
        Err(format!(
            "difference in {}\n{}library:               {got:?}, answer buffer {}\nsecond implementation: {}",
            what(),
            show::table(table),
            show::hex(lent),
            show::hex(expected)
        ))
    }

    /// Makes a call on a table that 23 refuses: it writes nothing.
    fn refuses(
        &mut self,
        what: &dyn Fn() -> String,
        table: &[u8],
        call: impl Fn(&[u8], &mut [u16], &mut [u8]) -> Result<usize, keeper::Refusal>,
    ) -> Result<(), Failure> {
        self.answer.fill(FILL);
        self.scratch.fill(0xA5A5);
        let got = call(table, &mut self.scratch, &mut self.answer);
        self.calls += 1;
        let left = self.answer.iter().all(|&byte| byte == FILL)
            && self.scratch.iter().all(|&number| number == 0xA5A5);
        if number(got) == 23 && left {
            return Ok(());
        }
        Err(format!(
            "difference in {}: {got:?} in the place of 23{}\n{}",
            what(),
            if left {
                ""
            } else {
                ", and something is written"
            },
            show::table(table)
        ))
    }
}

/// All lines and the sheet, on every table of a scope.
fn lines(scope: Scope) -> Result<String, Failure> {
    let mut library = Library::new();
    let mut met = Met::default();
    scope.each_sorted(|sorted| -> Result<(), Failure> {
        // Lines do not see the order of the messages, so they are found once
        // for all orders.
        let n = sorted.processes();
        let sets: Vec<Line> = (0..=all_hold(n))
            .map(|set| line_by_enumeration(sorted, &ceiling(sorted, set)))
            .collect();
        let sets_bytes: Vec<Vec<u8>> = sets.iter().map(|line| line_to_bytes(line)).collect();
        let hold: Vec<Line> = (0..n)
            .map(|p| sets[single_holder(p) as usize].clone())
            .collect();
        let numbers: Vec<u16> = hold.iter().flatten().map(|&number| number as u16).collect();
        let mut table = sorted.clone();
        loop {
            let bytes = table.to_bytes();
            if !met.is_in_turn(&table) {
                for set in 0..=all_hold(n) {
                    library.refuses(&|| format!("line_of_set {set}"), &bytes, |table, _, answer| {
                        keeper::line_of_set(table, set, answer)
                    })?;
                }
                library.refuses(&|| "recovery_line".to_string(), &bytes, |table, _, answer| {
                    keeper::recovery_line(table, answer)
                })?;
                library.refuses(&|| "keep_sheet".to_string(), &bytes, keeper::keep_sheet)?;
                if !next_order(&mut table.messages) {
                    return Ok(());
                }
                continue;
            }
            for (set, expected) in sets_bytes.iter().enumerate() {
                library.yields(&|| format!("line_of_set {set}"), &bytes, expected, |table, _, answer| {
                    keeper::line_of_set(table, set as u32, answer)
                })?;
            }
            let last = &sets_bytes[all_hold(n) as usize];
            library.yields(&|| "recovery_line".to_string(), &bytes, last, |table, _, answer| {
                keeper::recovery_line(table, answer)
            })?;
            let sheet = kept_under(&table, &hold).to_bytes();
            library.scratch.fill(0xA5A5);
            library.yields(&|| "keep_sheet".to_string(), &bytes, &sheet, keeper::keep_sheet)?;
            let (front, rest) = library.scratch.split_at(n * n);
            if front != numbers || rest.iter().any(|&number| number != 0xA5A5) {
                return Err(format!(
                    "difference in the scratch of keep_sheet\n{}library: {:?}\nsecond implementation: {numbers:?}",
                    show::table(&bytes),
                    library.scratch
                ));
            }
            if !next_order(&mut table.messages) {
                return Ok(());
            }
        }
    })?;
    met.is_all_of(scope);
    Ok(format!("{met}, {} calls", library.calls))
}

/// What stands round a list, and in `written` before a call.
const LIST_GUARD: u16 = 0x5A5A;
const UNWRITTEN: usize = 0x5A5A_5A5A;

/// What a call for a line of at most four processes yields: the number, the
/// length written, and all of the buffer, four bytes before it and four behind
/// it included.
#[derive(Clone, Copy, Debug, PartialEq, Eq)]
struct Lined {
    number: u32,
    written: usize,
    buffer: [u8; 20],
}

impl Lined {
    /// A call that was not made yet.
    const NOTHING: Lined = Lined {
        number: 0,
        written: UNWRITTEN,
        buffer: [FILL; 20],
    };

    fn refused(number: u32) -> Lined {
        Lined {
            number,
            ..Lined::NOTHING
        }
    }

    fn answered(line: &[u32]) -> Lined {
        let mut lined = Lined::NOTHING;
        let bytes = line_to_bytes(line);
        lined.buffer[4..4 + bytes.len()].copy_from_slice(&bytes);
        lined.written = bytes.len();
        lined
    }

    /// The no of named states, which has no bytes.
    const NO: Lined = Lined {
        written: 0,
        ..Lined::NOTHING
    };

    /// The archive's line of a set.
    fn of_set(table: &[u8], set: u32, room: usize) -> Lined {
        let mut lined = Lined::NOTHING;
        let answer = &mut lined.buffer[4..4 + room];
        // SAFETY: each pointer and length is a slice of a buffer of its own.
        lined.number = unsafe {
            archive::keeper_line_of_set(
                table.as_ptr(),
                table.len(),
                set,
                answer.as_mut_ptr(),
                answer.len(),
                &mut lined.written,
            )
        };
        lined
    }

    /// The archive's line under ceilings, and whether their list and what
    /// stands round it were left alone.
    fn under(table: &[u8], ceilings: &[u16], room: usize) -> (Lined, bool) {
        let mut lined = Lined::NOTHING;
        let mut list = [LIST_GUARD; 16];
        list[4..4 + ceilings.len()].copy_from_slice(ceilings);
        let before = list;
        let lent = &mut list[4..4 + ceilings.len()];
        let answer = &mut lined.buffer[4..4 + room];
        // SAFETY: each pointer and length is a slice of a buffer of its own.
        lined.number = unsafe {
            archive::keeper_line_under(
                table.as_ptr(),
                table.len(),
                lent.as_mut_ptr(),
                lent.len(),
                answer.as_mut_ptr(),
                answer.len(),
                &mut lined.written,
            )
        };
        (lined, list == before)
    }

    /// The archive's answer to whether named states stand together, and whether
    /// both lists and what stands round them were left alone.
    fn stand(table: &[u8], processes: &[u16], states: &[u16], room: usize) -> (Lined, bool) {
        let mut lined = Lined::NOTHING;
        let mut lists = [[LIST_GUARD; 16]; 2];
        for (list, named) in lists.iter_mut().zip([processes, states]) {
            list[4..4 + named.len()].copy_from_slice(named);
        }
        let before = lists;
        let [of_processes, of_states] = &mut lists;
        let of_processes = &mut of_processes[4..4 + processes.len()];
        let of_states = &mut of_states[4..4 + states.len()];
        let answer = &mut lined.buffer[4..4 + room];
        // SAFETY: each pointer and length is a slice of a buffer of its own.
        lined.number = unsafe {
            archive::keeper_stand_together(
                table.as_ptr(),
                table.len(),
                of_processes.as_mut_ptr(),
                of_processes.len(),
                of_states.as_mut_ptr(),
                of_states.len(),
                answer.as_mut_ptr(),
                answer.len(),
                &mut lined.written,
            )
        };
        (lined, lists == before)
    }
}

/// What stands round the marks, on either side, and the most bytes that are lent:
/// four processes of eight states need five, and three are lent beyond them.
const MARK_GUARDS: usize = 4;
const MOST_MARKS: usize = 8;

/// What the call for the line by marking yields: the same, and all of the mark
/// buffer with what stands round it.
#[derive(Clone, Copy, Debug, PartialEq, Eq)]
struct Marked {
    lined: Lined,
    marks: [u8; MARK_GUARDS + MOST_MARKS + MARK_GUARDS],
}

impl Marked {
    /// What to expect of a buffer that held `fill` before: of its bytes the
    /// first are zero on success, as many as are needed.
    fn expected(lined: Lined, fill: u8, needed: usize) -> Marked {
        let mut marks = [fill; MARK_GUARDS + MOST_MARKS + MARK_GUARDS];
        if lined.number == 0 {
            marks[MARK_GUARDS..MARK_GUARDS + needed].fill(0);
        }
        Marked { lined, marks }
    }

    /// The archive's line by marking, in a mark buffer of this length, and
    /// whether the list and what stands round it were left alone.
    fn under(
        table: &[u8],
        ceilings: &[u16],
        fill: u8,
        length: usize,
        room: usize,
    ) -> (Marked, bool) {
        let mut marked = Marked {
            lined: Lined::NOTHING,
            marks: [fill; MARK_GUARDS + MOST_MARKS + MARK_GUARDS],
        };
        let mut list = [LIST_GUARD; 16];
        list[4..4 + ceilings.len()].copy_from_slice(ceilings);
        let before = list;
        let lent = &mut list[4..4 + ceilings.len()];
        let marks = &mut marked.marks[MARK_GUARDS..MARK_GUARDS + length];
        let answer = &mut marked.lined.buffer[4..4 + room];
        // SAFETY: each pointer and length is a slice of a buffer of its own.
        marked.lined.number = unsafe {
            archive::keeper_marked_line(
                table.as_ptr(),
                table.len(),
                lent.as_mut_ptr(),
                lent.len(),
                marks.as_mut_ptr(),
                marks.len(),
                answer.as_mut_ptr(),
                answer.len(),
                &mut marked.lined.written,
            )
        };
        (marked, list == before)
    }
}

/// Every list with a number from 0 to one above the count for each process.
fn all_ceilings(counts: &[u32]) -> Vec<Vec<u16>> {
    let mut all: Vec<Vec<u16>> = vec![Vec::new()];
    for &count in counts {
        all = all
            .iter()
            .flat_map(|front| (0..=count as u16 + 1).map(move |c| [&front[..], &[c]].concat()))
            .collect();
    }
    all
}

/// The lines under all ceilings, on every table of a scope.
fn under(scope: Scope) -> Result<String, Failure> {
    let mut met = Met::default();
    let mut calls: u64 = 0;
    let mut pairs: u64 = 0;
    scope.each_sorted(|sorted| -> Result<(), Failure> {
        let n = sorted.processes();
        // What to expect, found by trying every line; nothing of it depends on
        // the order of the messages.
        let mut expected: Vec<(Vec<u16>, Lined)> = Vec::new();
        let mut lines: Vec<(Line, Line)> = Vec::new();
        for list in all_ceilings(&sorted.counts) {
            let ceilings: Line = list.iter().map(|&number| number.into()).collect();
            let above = (0..n).any(|p| ceilings[p] > sorted.counts[p]);
            let lined = if above {
                Lined::refused(18)
            } else {
                let line = line_by_enumeration(sorted, &ceilings);
                let lined = Lined::answered(&line);
                lines.push((ceilings, line));
                lined
            };
            expected.push((list, lined));
        }
        // A test of what is expected, with which the library is compared below: of two
        // lists of which one is nowhere higher, its line is nowhere later.
        let at_most = |one: &Line, other: &Line| one.iter().zip(other).all(|(a, b)| a <= b);
        for (lower, earlier) in &lines {
            for (higher, later) in lines.iter().filter(|(higher, _)| at_most(lower, higher)) {
                pairs += 1;
                if !at_most(earlier, later) {
                    return Err(format!("{sorted:?}: the line under {lower:?} is {earlier:?}, and under {higher:?} {later:?}"));
                }
            }
        }
        let counts: Vec<u16> = sorted.counts.iter().map(|&count| count as u16).collect();
        for length in (0..=n + 2).filter(|&length| length != n) {
            for more in [0, u16::MAX] {
                let mut list = counts.clone();
                list.resize(length, more);
                expected.push((list, Lined::refused(17)));
                expected.push((vec![more; length], Lined::refused(17)));
            }
        }
        let sets: Vec<Vec<u16>> = (0..=all_hold(n))
            .map(|set| ceiling(sorted, set).iter().map(|&number| number as u16).collect())
            .collect();
        // Lengths of the buffer: other ones than the first for one order alone.
        let mut rooms = &[2 * n + 3, 2 * n, 2 * n - 1, 0][..];
        let mut table = sorted.clone();
        loop {
            let bytes = table.to_bytes();
            let in_turn = met.is_in_turn(&table);
            let here = if in_turn { rooms } else { &rooms[rooms.len() - 1..] };
            for (list, lined) in &expected {
                for &room in here {
                    calls += 1;
                    let wanted = match lined.number {
                        _ if !in_turn => Lined::refused(23),
                        0 if room < 2 * n => Lined::refused(16),
                        _ => *lined,
                    };
                    let (got, left) = Lined::under(&bytes, list, room);
                    if got != wanted || !left {
                        return Err(format!(
                            "difference in line_under {list:?}, room {room}\n{}library: {got:?}{}\nsecond implementation: {wanted:?}",
                            show::table(&bytes),
                            if left { "" } else { "; the list or its guards were changed" }
                        ));
                    }
                }
            }
            // The other lengths were tried on an order in turn; one out of turn has one
            // length, none before that and the longest behind it.
            if in_turn {
                rooms = &rooms[..1];
            }
            for (set, list) in sets.iter().enumerate() {
                for room in [2 * n + 3, 2 * n - 1] {
                    calls += 2;
                    let of_set = Lined::of_set(&bytes, set as u32, room);
                    let (got, left) = Lined::under(&bytes, list, room);
                    if got != of_set || !left {
                        return Err(format!(
                            "difference between line_of_set {set} and line_under {list:?}, room {room}\n{}{of_set:?}\n{got:?}",
                            show::table(&bytes)
                        ));
                    }
                }
            }
            if !next_order(&mut table.messages) {
                return Ok(());
            }
        }
    })?;
    met.is_all_of(scope);
    Ok(format!("{met}, {calls} calls, {pairs} pairs of ceilings"))
}

/// What stands round a list of sets.
const SET_GUARD: u32 = 0x5A5A_5A5A;

/// What a call for the lines of at most 33 sets of at most four processes yields:
/// the number, the length written, and all of the buffer and of the scratch, with
/// four bytes or numbers before them and at least four behind them.
#[derive(Clone, Debug, PartialEq, Eq)]
struct Asked {
    number: u32,
    written: usize,
    buffer: [u8; 276],
    scratch: [u16; 28],
}

impl Asked {
    /// A call that was not made yet.
    const NOTHING: Asked = Asked {
        number: 0,
        written: UNWRITTEN,
        buffer: [FILL; 276],
        scratch: [LIST_GUARD; 28],
    };

    fn refused(number: u32) -> Asked {
        Asked {
            number,
            ..Asked::NOTHING
        }
    }

    fn answered(bytes: &[u8], singles: &[u16]) -> Asked {
        let mut asked = Asked::NOTHING;
        asked.buffer[4..4 + bytes.len()].copy_from_slice(bytes);
        asked.scratch[4..4 + singles.len()].copy_from_slice(singles);
        asked.written = bytes.len();
        asked
    }

    /// The archive's lines of sets, and whether their list and what stands round it
    /// were left alone.
    fn of_sets(table: &[u8], sets: &[u32], numbers: usize, room: usize) -> (Asked, bool) {
        let mut asked = Asked::NOTHING;
        let mut list = [SET_GUARD; 41];
        list[4..4 + sets.len()].copy_from_slice(sets);
        let before = list;
        let lent = &mut list[4..4 + sets.len()];
        let scratch = &mut asked.scratch[4..4 + numbers];
        let answer = &mut asked.buffer[4..4 + room];
        // SAFETY: each pointer and length is a slice of a buffer of its own.
        asked.number = unsafe {
            archive::keeper_lines_of_sets(
                table.as_ptr(),
                table.len(),
                lent.as_mut_ptr(),
                lent.len(),
                scratch.as_mut_ptr(),
                scratch.len(),
                answer.as_mut_ptr(),
                answer.len(),
                &mut asked.written,
            )
        };
        (asked, list == before)
    }
}

/// The lists of sets that are tried: all in rising order, falling, twice over, each
/// twice, each alone, and none; then with a bit at N or above in the first, in the last
/// and in one between.
fn all_lists_of_sets(n: usize) -> Vec<Vec<u32>> {
    let all: Vec<u32> = (0..=all_hold(n)).collect();
    let falling: Vec<u32> = all.iter().rev().copied().collect();
    let over = [&all[..], &all[..]].concat();
    let twice = falling.iter().flat_map(|&set| [set, set]).collect();
    let mut lists = vec![all.clone(), falling, over, twice, vec![]];
    lists.extend(all.iter().map(|&set| vec![set]));
    for at in [0, 1, all.len() - 1] {
        for above in [1 << n, 1 << 31] {
            let mut bad = all.clone();
            bad[at] |= above;
            lists.push(bad);
        }
    }
    lists
}

/// The lines of all sets in one call, on every table of a scope.
fn sets(scope: Scope) -> Result<String, Failure> {
    let mut met = Met::default();
    let mut calls: u64 = 0;
    let mut several: u64 = 0;
    scope.each_sorted(|sorted| -> Result<(), Failure> {
        let n = sorted.processes();
        // What to expect, found by trying every line; nothing of it depends on the
        // order of the messages.
        let lines: Vec<Line> = (0..=all_hold(n))
            .map(|set| line_by_enumeration(sorted, &ceiling(sorted, set)))
            .collect();
        let single = |p: usize| &lines[single_holder(p) as usize];
        let singles: Vec<u16> = (0..n).flat_map(single).map(|&number| number as u16).collect();
        several += lines[1..]
            .iter()
            .filter(|&line| !(0..n).any(|p| single(p) == line))
            .count() as u64;
        let mut expected: Vec<(Vec<u32>, Asked)> = Vec::new();
        for list in all_lists_of_sets(n) {
            let asked = if list.iter().any(|&set| set > all_hold(n)) {
                Asked::refused(12)
            } else {
                let of_list = list.iter().map(|&set| line_to_bytes(&lines[set as usize]));
                Asked::answered(&of_list.collect::<Vec<_>>().concat(), &singles)
            };
            expected.push((list, asked));
        }
        // Lengths of the scratch: other ones than the first for one order alone, and so
        // with those of the buffer.
        let least = n * n;
        let mut scratches = &[least + 4, least, least - 1, 0][..];
        let mut table = sorted.clone();
        loop {
            let bytes = table.to_bytes();
            let in_turn = met.is_in_turn(&table);
            let here = if in_turn { scratches } else { &scratches[scratches.len() - 1..] };
            for (list, asked) in &expected {
                let length = 2 * n * list.len();
                let rooms = [length + 4, length, length.saturating_sub(1), 0];
                for &numbers in here {
                    for &room in if here.len() > 1 { &rooms[..] } else { &rooms[..1] } {
                        calls += 1;
                        let wanted = match asked.number {
                            _ if !in_turn => Asked::refused(23),
                            0 if numbers < least => Asked::refused(15),
                            0 if room < length => Asked::refused(16),
                            _ => asked.clone(),
                        };
                        let (got, left) = Asked::of_sets(&bytes, list, numbers, room);
                        if got != wanted || !left {
                            return Err(format!(
                                "difference in lines_of_sets {list:?}, scratch {numbers}, room {room}\n{}library: {got:?}{}\nsecond implementation: {wanted:?}",
                                show::table(&bytes),
                                if left { "" } else { "; the list or its guards were changed" }
                            ));
                        }
                    }
                }
            }
            if in_turn {
                scratches = &scratches[..1];
                let (all, asked) = &expected[0];
                for &set in all {
                    calls += 1;
                    let of_set = Lined::of_set(&bytes, set, 2 * n);
                    let at = 4 + 2 * n * set as usize;
                    let line = &asked.buffer[at..at + 2 * n];
                    if of_set.number != 0 || of_set.buffer[4..4 + 2 * n] != *line {
                        return Err(format!(
                            "difference between line_of_set {set} and lines_of_sets\n{}{of_set:?}\n{line:?}",
                            show::table(&bytes)
                        ));
                    }
                }
            }
            if !next_order(&mut table.messages) {
                return Ok(());
            }
        }
    })?;
    met.is_all_of(scope);
    Ok(format!(
        "{met}, {calls} calls, {several} lines of several holders"
    ))
}

/// What the mark buffer holds before a call, in turn: all marks, none, and some.
const FILLS: [u8; 5] = [0xFF, 0xA5, 0x00, 0x5A, 0x01];

/// The lines by marking under all ceilings, on every table of a scope.
fn marked(scope: Scope) -> Result<String, Failure> {
    let mut met = Met::default();
    let mut calls: u64 = 0;
    let mut by_rounds = [0; 16];
    scope.each_sorted(|sorted| -> Result<(), Failure> {
        let n = sorted.processes();
        let needed = mark_bytes(sorted);
        // What to expect, from the second implementation's graph; it has no
        // order of the messages.
        let mut expected: Vec<(Vec<u16>, Lined)> = Vec::new();
        for list in all_ceilings(&sorted.counts) {
            let ceilings: Line = list.iter().map(|&number| number.into()).collect();
            let above = (0..n).any(|p| ceilings[p] > sorted.counts[p]);
            let lined = if above {
                Lined::refused(18)
            } else {
                let marking = Marking::new(sorted, &ceilings);
                by_rounds[marking.rounds.len()] += 1;
                Lined::answered(marking.line())
            };
            expected.push((list, lined));
        }
        for length in (0..=n + 2).filter(|&length| length != n) {
            expected.push((vec![0; length], Lined::refused(17)));
            expected.push((vec![u16::MAX; length], Lined::refused(17)));
        }
        // Lengths of the mark buffer and of the answer's: other ones than the
        // first for one order alone.
        let mut lengths = Vec::new();
        for marks in [needed + 3, needed, needed + 1, needed - 1, 0] {
            for room in [2 * n + 3, 2 * n, 2 * n - 1, 0] {
                lengths.push((marks, room));
            }
        }
        let mut table = sorted.clone();
        loop {
            let bytes = table.to_bytes();
            let in_turn = met.is_in_turn(&table);
            let here = if in_turn { &lengths[..] } else { &lengths[lengths.len() - 1..] };
            for (list, lined) in &expected {
                for &(marks, room) in here {
                    let fill = FILLS[(calls % 5) as usize];
                    calls += 1;
                    let wanted = match lined.number {
                        _ if !in_turn => Lined::refused(23),
                        0 if marks < needed => Lined::refused(19),
                        0 if room < 2 * n => Lined::refused(16),
                        _ => *lined,
                    };
                    let wanted = Marked::expected(wanted, fill, needed);
                    let (got, left) = Marked::under(&bytes, list, fill, marks, room);
                    if got != wanted || !left {
                        return Err(format!(
                            "difference in marked_line {list:?}, {marks} bytes of marks, each {fill} before, room {room}\n{}library: {got:?}{}\nsecond implementation: {wanted:?}",
                            show::table(&bytes),
                            if left { "" } else { "; the list or its guards were changed" }
                        ));
                    }
                    // The library's other call, to the last byte of its buffer.
                    let (under, _) = Lined::under(&bytes, list, room);
                    if got.lined.number != 19 && got.lined != under {
                        return Err(format!(
                            "difference between marked_line and line_under {list:?}, room {room}\n{}{got:?}\n{under:?}",
                            show::table(&bytes)
                        ));
                    }
                }
            }
            if in_turn {
                lengths.truncate(1);
            }
            if !next_order(&mut table.messages) {
                return Ok(());
            }
        }
    })?;
    met.is_all_of(scope);
    let rounds: Vec<String> = (1..16)
        .filter(|&rounds| by_rounds[rounds] > 0)
        .map(|rounds| format!("{rounds}: {}", by_rounds[rounds]))
        .collect();
    // Two messages there and back take three rounds.
    if scope.processes >= 2 && scope.states >= 2 && scope.messages >= 2 && rounds.len() < 3 {
        return Err(format!("no three rounds are needed: {}", rounds.join(", ")));
    }
    Ok(format!(
        "{met}, {calls} calls, lists by their rounds ({})",
        rounds.join(", ")
    ))
}

/// Every choice of states, at most one of each process, with a number from 0 to
/// the count.
fn all_names(counts: &[u32]) -> Vec<Vec<State>> {
    let mut all: Vec<Vec<State>> = vec![Vec::new()];
    for (p, &count) in counts.iter().enumerate() {
        let named = |front: &Vec<State>| -> Vec<Vec<State>> {
            (0..=count)
                .map(|c| [&front[..], &[(p, c)]].concat())
                .collect()
        };
        let longer: Vec<Vec<State>> = all.iter().flat_map(named).collect();
        all.extend(longer);
    }
    all
}

/// Names of states: as they are lent, and the ceilings that they are; for names
/// that are refused, the number.
struct Named {
    named: Vec<State>,
    processes: Vec<u16>,
    states: Vec<u16>,
    ceilings: Vec<u16>,
    refusal: u32,
}

impl Named {
    /// These states under these counts, of which 22 refuses the counts themselves.
    fn new(counts: &[u32], named: Vec<State>) -> Named {
        let mut ceilings: Vec<u16> = counts.iter().map(|&count| count as u16).collect();
        for &(p, c) in &named {
            ceilings[p] = c as u16;
        }
        let at_count = named.iter().any(|&(p, c)| c == counts[p]);
        Named {
            processes: named.iter().map(|&(p, _)| p as u16).collect(),
            states: named.iter().map(|&(_, c)| c as u16).collect(),
            ceilings,
            refusal: if at_count { 22 } else { 0 },
            named,
        }
    }

    /// Lists that are refused.
    fn refused(processes: &[u16], states: &[u16], refusal: u32) -> Named {
        Named {
            named: Vec::new(),
            processes: processes.to_vec(),
            states: states.to_vec(),
            ceilings: Vec::new(),
            refusal,
        }
    }

    /// The lists that 20 and 21 refuse, made of these.
    fn spoilt(&self, n: usize, into: &mut Vec<Named>) {
        let (processes, states) = (&self.processes[..], &self.states[..]);
        let names = processes.len();
        for state in [0, u16::MAX] {
            let longer = [states, &[state]].concat();
            into.push(Named::refused(processes, &longer, 20));
            // N behind the others, with a state that 22 would refuse too.
            let beyond = [processes, &[n as u16]].concat();
            into.push(Named::refused(&beyond, &longer, 21));
            into.push(Named::refused(&beyond, states, 20));
        }
        let Some((&last, front)) = processes.split_last() else {
            return;
        };
        into.push(Named::refused(front, states, 20));
        into.push(Named::refused(processes, &states[..names - 1], 20));
        let twice = [processes, &[last]].concat();
        let states_twice = [states, &states[names - 1..]].concat();
        into.push(Named::refused(&twice, &states_twice, 21));
        if names >= 2 {
            let (mut falling, mut theirs) = (processes.to_vec(), states.to_vec());
            falling.swap(names - 2, names - 1);
            theirs.swap(names - 2, names - 1);
            into.push(Named::refused(&falling, &theirs, 21));
        }
    }

    /// Calls the archive with these names, and compares what it yields, where the
    /// buffer is long enough, and what the archive's line under them says.
    fn compare(&self, bytes: &[u8], n: usize, room: usize, lined: Lined) -> Result<(), Failure> {
        let Named {
            processes,
            states,
            ceilings,
            ..
        } = self;
        let is_yes = lined.number == 0 && lined != Lined::NO;
        let wanted = if room < 2 * n && is_yes {
            Lined::refused(16)
        } else {
            lined
        };
        let (got, left) = Lined::stand(bytes, processes, states, room);
        if got != wanted || !left {
            return Err(format!(
                "difference in stand_together {processes:?} {states:?}, room {room}\n{}library: {got:?}{}\nsecond implementation: {wanted:?}",
                show::table(bytes),
                if left { "" } else { "; a list or its guards were changed" }
            ));
        }
        if self.refusal != 0 || lined.number != 0 {
            return Ok(());
        }
        // The library's other call, to the last byte of its buffer.
        let (under, _) = Lined::under(bytes, ceilings, 2 * n);
        let at = |&p: &u16| {
            let front = 4 + 2 * usize::from(p);
            u16::from_le_bytes([under.buffer[front], under.buffer[front + 1]])
        };
        let by_line = match processes.iter().map(at).eq(states.iter().copied()) {
            true if room < 2 * n => Lined::refused(16),
            true => under,
            false => Lined::NO,
        };
        if got == by_line {
            return Ok(());
        }
        Err(format!(
            "difference between stand_together {processes:?} {states:?} and line_under {ceilings:?}, room {room}\n{}{got:?}\n{under:?}",
            show::table(bytes)
        ))
    }
}

/// Whether named states stand together, on every table of a scope.
fn stand(scope: Scope) -> Result<String, Failure> {
    let mut met = Met::default();
    let mut calls: u64 = 0;
    // Names by the messages of a shortest path between them; none is a yes.
    let mut by_length = [0; 8];
    // Under the counts of the table: every line, all names, and lists that are
    // refused.
    let mut counts: Vec<u32> = Vec::new();
    let mut lines: Vec<Line> = Vec::new();
    let mut asked: Vec<Named> = Vec::new();
    let mut spoilt: Vec<Named> = Vec::new();
    scope.each_sorted(|sorted| -> Result<(), Failure> {
        let n = sorted.processes();
        if counts != sorted.counts {
            counts.clone_from(&sorted.counts);
            lines = all_ceilings(&counts)
                .into_iter()
                .map(|list| list.into_iter().map(u32::from).collect())
                .collect();
            lines.retain(|line| line.iter().zip(&counts).all(|(at, count)| at <= count));
            asked = all_names(&counts)
                .into_iter()
                .map(|named| Named::new(&counts, named))
                .collect();
            spoilt.clear();
            asked.iter().for_each(|names| names.spoilt(n, &mut spoilt));
        }
        // What to expect, found by trying every line; nothing of it depends on
        // the order of the messages.
        let mut consistent: Vec<&Line> = lines.iter().collect();
        consistent.retain(|line| is_consistent(sorted, line));
        let mut expected: Vec<Lined> = Vec::new();
        for Named { named, refusal, .. } in &asked {
            if *refusal != 0 {
                expected.push(Lined::refused(*refusal));
                continue;
            }
            let latest = consistent
                .iter()
                .filter(|line| named.iter().all(|&(p, c)| line[p] == c))
                .fold(None, |latest: Option<Line>, line| {
                    Some(latest.map_or_else(|| line.to_vec(), |latest| larger(&latest, line)))
                });
            // A line has them exactly when no path leads from one to another or
            // to itself.
            let path = zigzag::path(sorted, named, named);
            if path.is_none() != latest.is_some() {
                return Err(format!(
                    "{sorted:?}: {named:?}: the path is {path:?}, and the line {latest:?}"
                ));
            }
            by_length[path.map_or(0, |path| path.len())] += 1;
            expected.push(latest.map_or(Lined::NO, |line| Lined::answered(&line)));
        }
        // Other lists, and other lengths of the buffer than the first, for one
        // order alone.
        let mut rooms = &[2 * n + 3, 2 * n, 2 * n - 1, 0][..];
        let mut table = sorted.clone();
        loop {
            let bytes = table.to_bytes();
            let in_turn = met.is_in_turn(&table);
            let here = if in_turn {
                rooms
            } else {
                &rooms[rooms.len() - 1..]
            };
            if in_turn && rooms.len() > 1 {
                for names in &spoilt {
                    for room in [2 * n + 3, 0] {
                        calls += 1;
                        names.compare(&bytes, n, room, Lined::refused(names.refusal))?;
                    }
                }
            }
            for (names, lined) in asked.iter().zip(&expected) {
                for &room in here {
                    calls += 1;
                    let lined = if in_turn { *lined } else { Lined::refused(23) };
                    names.compare(&bytes, n, room, lined)?;
                }
            }
            if in_turn {
                rooms = &rooms[..1];
            }
            if !next_order(&mut table.messages) {
                return Ok(());
            }
        }
    })?;
    met.is_all_of(scope);
    let lengths: Vec<String> = (1..by_length.len())
        .filter(|&length| by_length[length] > 0)
        .map(|length| format!("{length}: {}", by_length[length]))
        .collect();
    // Two messages there and back are a cycle.
    if scope.processes >= 2 && scope.states >= 2 && scope.messages >= 2 && lengths.len() < 2 {
        return Err(format!(
            "no path of two messages is met: {}",
            lengths.join(", ")
        ));
    }
    Ok(format!(
        "{met}, {calls} calls, names with a yes: {}, with a no by the messages of a path ({})",
        by_length[0],
        lengths.join(", ")
    ))
}

/// What stands round a text, on either side.
const ROUND: usize = 4;

/// The listings, on every table of a scope: with room to spare, exact, and one
/// byte short.
fn listing(scope: Scope) -> Result<String, Failure> {
    let mut buffer = vec![FILL; 2_000];
    let mut met = Met::default();
    let mut calls: u64 = 0;
    let mut shares = [0; share::ROUNDINGS.len()];
    let mut halves: BTreeSet<(u32, u32)> = BTreeSet::new();
    scope.each_sorted(|sorted| -> Result<(), Failure> {
        let total: u32 = sorted.counts.iter().sum();
        let mut table = sorted.clone();
        loop {
            let bytes = table.to_bytes();
            let in_turn = met.is_in_turn(&table);
            let text = if in_turn {
                reference::listing(&bytes)
            } else {
                "refused 23\n".to_string()
            };
            let length = text.len();
            for room in [length + 3, length, length - 1] {
                calls += 1;
                let here = &mut buffer[..ROUND + room + ROUND];
                here.fill(FILL);
                let mut written = UNWRITTEN;
                let lent = &mut here[ROUND..ROUND + room];
                // SAFETY: each pointer and length is a slice of a buffer of its own.
                let number = unsafe {
                    archive::keeper_listing(bytes.as_ptr(), bytes.len(), lent.as_mut_ptr(), room, &mut written)
                };
                let (wanted, wanted_length, wanted_text) = if room < length {
                    (16, UNWRITTEN, "")
                } else {
                    (0, length, &text[..])
                };
                let (front, rest) = here.split_at(ROUND);
                let (got, behind) = rest.split_at(wanted_text.len());
                let same = number == wanted
                    && written == wanted_length
                    && got == wanted_text.as_bytes()
                    && front.iter().chain(behind).all(|&byte| byte == FILL);
                if !same {
                    return Err(format!(
                        "difference in listing, room {room}\n{}library:               {number}, length {written}, buffer {}\nsecond implementation: {wanted}, length {wanted_length}, {wanted_text:?}",
                        show::table(&bytes),
                        here.escape_ascii()
                    ));
                }
            }
            // The share as the rule has it, and not as another program.
            if in_turn {
                let (kept, percent) = share::read(text.as_bytes()).expect("an accepted table");
                let Some(way) = share::rounding(percent, kept, total) else {
                    return Err(format!("the share of {kept} of {total} is {percent}\n{}", show::table(&bytes)));
                };
                shares[way] += 1;
                if share::HALVES.contains(&way) {
                    halves.insert((kept, total));
                }
            }
            if !next_order(&mut table.messages) {
                return Ok(());
            }
        }
    })?;
    met.is_all_of(scope);
    let of_8 = [1, 3, 5, 7].map(|kept| (kept, 8));
    if scope.total >= 8 && !of_8.iter().all(|half| halves.contains(half)) {
        return Err(format!(
            "the exact halves are {halves:?}, and some of {of_8:?} is not there"
        ));
    }
    Ok(format!(
        "{met}, {calls} calls, shares ({})",
        share::report(&shares)
    ))
}

/// Every step, on every table of a scope. A list that 13 does not catch passes over
/// a message just where its messages, received, would leave a table out of turn.
fn steps(scope: Scope) -> Result<String, Failure> {
    let mut answer = vec![FILL; 256];
    let mut met = Met::default();
    let mut calls = 0;
    let mut passed_over = 0;
    let room = answer.len();
    let mut compare = |table: &[u8], call: &Call| -> Result<u32, Failure> {
        let expected = call.expected(table);
        answer.fill(FILL);
        let got = match call {
            Call::Send { from, to, .. } => keeper::send(table, *from, *to, &mut answer),
            Call::Save { process, list, .. } => keeper::save(table, *process, list, &mut answer),
            Call::Receive { process, list, .. } => {
                keeper::receive(table, *process, list, &mut answer)
            }
            _ => keeper::fall_back(table, &mut answer),
        };
        calls += 1;
        let (number, length) = (number(got), got.unwrap_or(0));
        let same = number == expected.number
            && answer[..length] == expected.answer
            && answer[length..].iter().all(|&byte| byte == FILL);
        if same {
            return Ok(number);
        }
        Err(format!(
            "difference in {call:?}\n{}library:               {number}, {}\nsecond implementation: {}, {}",
            show::table(table),
            show::hex(&answer),
            expected.number,
            show::hex(&expected.answer)
        ))
    };
    scope.each_sorted(|sorted| -> Result<(), Failure> {
        let n = sorted.processes() as u16;
        let lists = all_lists(sorted.messages.len());
        let mut table = sorted.clone();
        loop {
            let bytes = table.to_bytes();
            let in_turn = met.is_in_turn(&table);
            let mut numbers = vec![compare(&bytes, &Call::FallBack { room })?];
            for process in 0..=n {
                for to in 0..=n {
                    let from = process;
                    numbers.push(compare(&bytes, &Call::Send { from, to, room })?);
                }
                for list in &lists {
                    let save = Call::Save {
                        process,
                        list: list.clone(),
                        room,
                    };
                    let saved = compare(&bytes, &save)?;
                    let receive = Call::Receive {
                        process,
                        list: list.clone(),
                        room,
                    };
                    let received = compare(&bytes, &receive)?;
                    numbers.extend([saved, received]);
                    if !in_turn || process == n || list_is_bad(&table, process.into(), list) {
                        continue;
                    }
                    let positions: Vec<usize> = list.iter().map(|&k| k.into()).collect();
                    let mut next = table.clone();
                    do_receive(&mut next, process.into(), &positions);
                    let refusal = if out_of_turn_in_pairs(&next.messages) { 24 } else { 0 };
                    if [saved, received] != [refusal; 2] {
                        return Err(format!(
                            "{list:?} of {process}: a save answers {saved}, a receipt {received}, and the next table is {next:?}\n{}",
                            show::table(&bytes)
                        ));
                    }
                    passed_over += u64::from(refusal == 24);
                }
            }
            if !in_turn && numbers.iter().any(|&number| number != 23) {
                return Err(format!("a step is not refused by 23: {numbers:?}\n{}", show::table(&bytes)));
            }
            if !next_order(&mut table.messages) {
                return Ok(());
            }
        }
    })?;
    met.is_all_of(scope);
    let (good, ordered) = scope.lists();
    assert_eq!(passed_over, good - ordered, "every list once");
    Ok(format!(
        "{met}, {calls} calls, of {good} lists that 13 lets pass 24 refuses {passed_over}, of saves and of receipts"
    ))
}

/// What some future needs, for a class of tables: checkpoints, and messages by
/// what stands in their entries. Two messages with equal entries have the same
/// futures, so they are needed both or not at all; the search is held to it.
struct Needed {
    states: BTreeSet<(usize, u32)>,
    messages: BTreeSet<Message>,
}

fn search(table: &Table, depth: usize) -> Needed {
    let (states, positions) = needed_by_futures(table, depth);
    let messages: BTreeSet<Message> = positions.iter().map(|&k| table.messages[k]).collect();
    for (k, message) in table.messages.iter().enumerate() {
        assert_eq!(
            positions.contains(&k),
            messages.contains(message),
            "{table:?}"
        );
    }
    Needed { states, messages }
}

/// The library's sheet against what futures need, on every table of a scope.
///
/// The search is made once for a class of tables that differ in the order of
/// their messages and the names of their processes. A future of one is a future
/// of the other when its steps are renamed too, so the needs of one are the
/// renamed needs of the other. In all orders of the messages in turn a channel has
/// the same entries one behind the other, so that futures receive the same. The
/// library writes the sheet of every table in turn.
fn needs(scope: Scope, depth: usize) -> Result<String, Failure> {
    let mut classes: HashMap<Table, Option<Needed>> = HashMap::new();
    let mut scratch = vec![0; 64];
    let mut answer = vec![0; 256];
    let mut met = Met::default();
    scope.each_sorted(|sorted| -> Result<(), Failure> {
        let (least, names) = least_renaming(sorted);
        let needed = classes
            .entry(least)
            .or_insert_with_key(|least| put_in_turn(least).map(|table| search(&table, depth)));
        let mut table = sorted.clone();
        loop {
            let bytes = table.to_bytes();
            if !met.is_in_turn(&table) {
                let got = keeper::keep_sheet(&bytes, &mut scratch, &mut answer);
                if number(got) != 23 {
                    return Err(format!("the sheet is {got:?} in the place of 23\n{}", show::table(&bytes)));
                }
                if !next_order(&mut table.messages) {
                    return Ok(());
                }
                continue;
            }
            let needed = needed.as_ref().expect("an order in turn");
            let mut expected: Vec<u16> = vec![0, 0];
            let mut states = Vec::new();
            for (p, &count) in table.counts.iter().enumerate() {
                states.extend((0..count).filter(|&c| needed.states.contains(&(names[p], c))).map(|c| (p as u16, c as u16)));
            }
            let kept = |k: &usize| needed.messages.contains(&renamed_message(&table.messages[*k], &names));
            let positions: Vec<u16> = (0..table.messages.len()).filter(kept).map(|k| k as u16).collect();
            expected[0] = states.len() as u16;
            expected[1] = positions.len() as u16;
            expected.extend(states.iter().map(|&(p, _)| p));
            expected.extend(states.iter().map(|&(_, c)| c));
            expected.extend(positions);
            let expected: Vec<u8> = expected.iter().flat_map(|number| number.to_le_bytes()).collect();
            let got = keeper::keep_sheet(&bytes, &mut scratch, &mut answer);
            if got != Ok(expected.len()) || answer[..expected.len()] != expected {
                return Err(format!(
                    "the sheet is not what futures of at most {depth} steps need\n{}library: {got:?}, answer buffer {}\nneeded, as a sheet: {}",
                    show::table(&bytes),
                    show::hex(&answer),
                    show::hex(&expected)
                ));
            }
            if !next_order(&mut table.messages) {
                return Ok(());
            }
        }
    })?;
    met.is_all_of(scope);
    let searches = classes.values().flatten().count();
    Ok(format!("{met}, {searches} searches"))
}

/// One task: its words and numbers.
fn task(words: &[&str]) -> Option<Result<String, Failure>> {
    let number = |at: usize| words.get(at).and_then(|word| word.parse::<usize>().ok());
    if let ["listing", _, _] = words {
        let (total, messages) = (number(1)?, number(2)?);
        let small = (1..=10).contains(&total) && messages <= 4;
        return small.then(|| listing(Scope::of_total(total as u32, messages)));
    }
    let (processes, states, messages) = (number(1)?, number(2)?, number(3)?);
    if processes > 4 || states > 8 || messages > 6 {
        return None;
    }
    let scope = Scope::of(processes, states as u32, messages);
    match (words[0], words.len()) {
        ("lines", 4) => Some(lines(scope)),
        ("sets", 4) => Some(sets(scope)),
        ("under", 4) => Some(under(scope)),
        ("marked", 4) => Some(marked(scope)),
        ("stand", 4) => Some(stand(scope)),
        ("steps", 4) => Some(steps(scope)),
        ("needs", 5) => Some(needs(scope, number(4)?)),
        _ => None,
    }
}

/// The scopes of `make test`.
const PART: [&str; 27] = [
    "lines 3 3 3",
    "lines 2 4 4",
    "sets 3 3 2",
    "sets 3 2 3",
    "sets 2 4 3",
    "sets 4 2 2",
    "under 3 3 2",
    "under 3 2 3",
    "under 2 4 3",
    "under 4 2 2",
    "marked 3 3 2",
    "marked 3 2 3",
    "marked 2 4 3",
    "marked 4 2 2",
    "stand 3 3 2",
    "stand 3 2 3",
    "stand 2 4 3",
    "stand 4 2 2",
    "listing 8 2",
    "listing 5 3",
    "steps 2 3 3",
    "steps 3 2 2",
    "steps 3 1 3",
    "steps 2 1 4",
    "needs 2 3 3 4",
    "needs 2 2 2 5",
    "needs 3 2 2 3",
];

/// Larger ones: some fifteen minutes.
const MORE: [&str; 19] = [
    "lines 3 3 4",
    "lines 4 2 3",
    "sets 3 3 3",
    "sets 2 4 4",
    "sets 4 2 3",
    "under 3 3 3",
    "under 2 4 4",
    "under 4 2 3",
    "marked 3 3 3",
    "marked 2 4 4",
    "stand 3 3 3",
    "stand 2 4 4",
    "stand 4 2 3",
    "listing 10 2",
    "listing 6 3",
    "steps 3 3 2",
    "needs 2 3 3 5",
    "needs 3 2 2 4",
    "needs 3 2 3 3",
];

fn main() -> ExitCode {
    let words: Vec<String> = env::args().skip(1).collect();
    let line = words.join(" ");
    let mut tasks: Vec<&str> = match line.as_str() {
        "" => PART.to_vec(),
        "more" => PART.iter().chain(&MORE).copied().collect(),
        one => vec![one],
    };
    for line in tasks.drain(..) {
        let start = Instant::now();
        let words: Vec<&str> = line.split(' ').collect();
        match task(&words) {
            Some(Ok(counts)) => println!(
                "scope {line}: {counts} agree, {:.1} s",
                start.elapsed().as_secs_f64()
            ),
            Some(Err(failure)) => {
                println!("{failure}\nFAILED in scope {line}");
                return ExitCode::FAILURE;
            }
            None => {
                eprintln!("usage: scopes [more | lines N C M | sets N C M | under N C M | marked N C M | stand N C M | listing T M | steps N C M | needs N C M DEPTH]");
                return ExitCode::from(2);
            }
        }
    }
    ExitCode::SUCCESS
}
