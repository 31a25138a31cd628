//! One call, made by the archive, by the binding and by the second
//! implementation, and everything that may differ: the returned number, the
//! length written, every byte of the answer buffer and of its guards, every
//! number of the scratch and of its guards, every byte of the mark buffer and of
//! its guards, and what may only be read. The share of a listing is also held
//! against the rule of its rounding, whether named states stand together against
//! the library's own line under them, and the lines of sets against its own line
//! of each set and its own scratch of a sheet.

use std::collections::{BTreeMap, BTreeSet};
use std::fmt;

use keeper::{archive, run_table, Refusal};
use reference::gen::Rng;
use reference::Outcome;

use crate::lend::{Element, Lent};
use crate::passes::Passes;
use crate::share::{self, ROUNDINGS};
use crate::show;

/// A call and its arguments, apart from the table. `room` is the length of the
/// answer buffer, `numbers` that of the scratch, `marks` that of the mark buffer.
#[derive(Clone, Debug, PartialEq, Eq)]
pub enum Call {
    CheckTable,
    RecoveryLine {
        room: usize,
    },
    LineOfSet {
        set: u32,
        room: usize,
    },
    LinesOfSets {
        sets: Vec<u32>,
        numbers: usize,
        room: usize,
    },
    LineUnder {
        ceilings: Vec<u16>,
        room: usize,
    },
    MarkedLine {
        ceilings: Vec<u16>,
        marks: usize,
        room: usize,
    },
    StandTogether {
        processes: Vec<u16>,
        states: Vec<u16>,
        room: usize,
    },
    Send {
        from: u16,
        to: u16,
        room: usize,
    },
    Save {
        process: u16,
        list: Vec<u16>,
        room: usize,
    },
    Receive {
        process: u16,
        list: Vec<u16>,
        room: usize,
    },
    FallBack {
        room: usize,
    },
    KeepSheet {
        numbers: usize,
        room: usize,
    },
    Listing {
        room: usize,
    },
}

/// The names of the calls, in the order of the report.
pub const NAMES: [&str; 13] = [
    "check_table",
    "recovery_line",
    "line_of_set",
    "lines_of_sets",
    "line_under",
    "marked_line",
    "stand_together",
    "send",
    "save",
    "receive",
    "fall_back",
    "keep_sheet",
    "listing",
];

/// The refusals, and the checks of each call.
const REFUSALS: &str = include_str!("../../../docs/refusals.txt");

/// The numbers of the checks that a call makes, as docs/refusals.txt has them.
pub fn checks_of(name: &str) -> Vec<u32> {
    let mut of_table: Vec<u32> = Vec::new();
    for line in REFUSALS.lines() {
        let words: Vec<&str> = line.split_whitespace().collect();
        let [first, rest @ ..] = words.as_slice() else {
            continue;
        };
        // A refusal, and then the call.
        match first.parse() {
            Ok(number) if rest.first() == Some(&"table") => of_table.push(number),
            _ => {}
        }
        if first.strip_prefix("keeper_") == Some(name) {
            let of_word = |word: &&str| match *word {
                "table" => of_table.clone(),
                number => vec![number.parse().expect("`table` or the number of a check")],
            };
            return rest.iter().flat_map(of_word).collect();
        }
    }
    panic!("docs/refusals.txt has no row for keeper_{name}");
}

impl Call {
    /// The place of the call in [`NAMES`].
    pub fn place(&self) -> usize {
        match self {
            Call::CheckTable => 0,
            Call::RecoveryLine { .. } => 1,
            Call::LineOfSet { .. } => 2,
            Call::LinesOfSets { .. } => 3,
            Call::LineUnder { .. } => 4,
            Call::MarkedLine { .. } => 5,
            Call::StandTogether { .. } => 6,
            Call::Send { .. } => 7,
            Call::Save { .. } => 8,
            Call::Receive { .. } => 9,
            Call::FallBack { .. } => 10,
            Call::KeepSheet { .. } => 11,
            Call::Listing { .. } => 12,
        }
    }

    /// The length of the answer buffer.
    fn room(&self) -> usize {
        match *self {
            Call::CheckTable => 0,
            Call::RecoveryLine { room }
            | Call::LineOfSet { room, .. }
            | Call::LinesOfSets { room, .. }
            | Call::LineUnder { room, .. }
            | Call::MarkedLine { room, .. }
            | Call::StandTogether { room, .. }
            | Call::Send { room, .. }
            | Call::Save { room, .. }
            | Call::Receive { room, .. }
            | Call::FallBack { room }
            | Call::KeepSheet { room, .. }
            | Call::Listing { room } => room,
        }
    }

    /// The same call with another answer buffer.
    pub fn with_room(&self, new: usize) -> Call {
        let mut call = self.clone();
        match &mut call {
            Call::CheckTable => {}
            Call::RecoveryLine { room }
            | Call::LineOfSet { room, .. }
            | Call::LinesOfSets { room, .. }
            | Call::LineUnder { room, .. }
            | Call::MarkedLine { room, .. }
            | Call::StandTogether { room, .. }
            | Call::Send { room, .. }
            | Call::Save { room, .. }
            | Call::Receive { room, .. }
            | Call::FallBack { room }
            | Call::KeepSheet { room, .. }
            | Call::Listing { room } => *room = new,
        }
        call
    }

    /// The length of the scratch.
    fn numbers(&self) -> usize {
        match *self {
            Call::LinesOfSets { numbers, .. } | Call::KeepSheet { numbers, .. } => numbers,
            _ => 0,
        }
    }

    /// The length of the mark buffer.
    fn marks(&self) -> usize {
        match *self {
            Call::MarkedLine { marks, .. } => marks,
            _ => 0,
        }
    }

    /// The list of a save or receipt, one of ceilings, or one of named processes.
    fn list(&self) -> &[u16] {
        match self {
            Call::Save { list, .. } | Call::Receive { list, .. } => list,
            Call::LineUnder { ceilings, .. } | Call::MarkedLine { ceilings, .. } => ceilings,
            Call::StandTogether { processes, .. } => processes,
            _ => &[],
        }
    }

    /// The list of sets.
    fn sets(&self) -> &[u32] {
        match self {
            Call::LinesOfSets { sets, .. } => sets,
            _ => &[],
        }
    }

    /// The list of the named processes' states.
    fn states(&self) -> &[u16] {
        match self {
            Call::StandTogether { states, .. } => states,
            _ => &[],
        }
    }

    /// An answer for a reader.
    fn show(&self, answer: &[u8]) -> String {
        match self {
            Call::Listing { .. } => answer.escape_ascii().to_string(),
            _ => show::hex(answer),
        }
    }

    /// What the second implementation answers.
    pub fn expected(&self, table: &[u8]) -> Outcome {
        match self {
            Call::CheckTable => Outcome::refused(reference::check_table(table)),
            Call::RecoveryLine { room } => reference::recovery_line(table, *room),
            Call::LineOfSet { set, room } => reference::line_of_set(table, *set, *room),
            Call::LinesOfSets {
                sets,
                numbers,
                room,
            } => reference::lines_of_sets(table, sets, *numbers, *room),
            Call::LineUnder { ceilings, room } => reference::line_under(table, ceilings, *room),
            Call::MarkedLine {
                ceilings,
                marks,
                room,
            } => reference::marked_line(table, ceilings, *marks, *room),
            Call::StandTogether {
                processes,
                states,
                room,
            } => reference::stand_together(table, processes, states, *room),
            Call::Send { from, to, room } => reference::send(table, *from, *to, *room),
            Call::Save {
                process,
                list,
                room,
            } => reference::save(table, *process, list, *room),
            Call::Receive {
                process,
                list,
                room,
            } => reference::receive(table, *process, list, *room),
            Call::FallBack { room } => reference::fall_back(table, *room),
            Call::KeepSheet { numbers, room } => reference::keep_sheet(table, *numbers, *room),
            Call::Listing { room } => {
                Outcome::answered(reference::listing(table).into_bytes(), *room)
            }
        }
    }

    /// What the archive answers, called directly, because the binding keeps
    /// `written` to itself; writes into what it is lent.
    fn by_archive(&self, lent: &mut Loan) -> u32 {
        let table = lent.table.slice();
        let (bytes, length) = (table.as_ptr(), table.len());
        let list = lent.list.slice();
        let (entries, of_entries) = (list.as_ptr(), list.len());
        let states = lent.states.slice();
        let (states, of_states) = (states.as_ptr(), states.len());
        let sets = lent.sets.slice();
        let (sets, of_sets) = (sets.as_ptr(), sets.len());
        let scratch = lent.scratch.slice_mut();
        let (numbers, of_numbers) = (scratch.as_mut_ptr(), scratch.len());
        let marks = lent.marks.slice_mut();
        let (marks, of_marks) = (marks.as_mut_ptr(), marks.len());
        let answer = lent.answer.slice_mut();
        let (answer, room) = (answer.as_mut_ptr(), answer.len());
        let written = lent.written.slice_mut().as_mut_ptr();
        // SAFETY: each pointer and length is a slice of a buffer of its own.
        unsafe {
            match *self {
                Call::CheckTable => archive::keeper_check_table(bytes, length),
                Call::RecoveryLine { .. } => {
                    archive::keeper_recovery_line(bytes, length, answer, room, written)
                }
                Call::LineOfSet { set, .. } => {
                    archive::keeper_line_of_set(bytes, length, set, answer, room, written)
                }
                Call::LinesOfSets { .. } => archive::keeper_lines_of_sets(
                    bytes, length, sets, of_sets, numbers, of_numbers, answer, room, written,
                ),
                Call::LineUnder { .. } => archive::keeper_line_under(
                    bytes, length, entries, of_entries, answer, room, written,
                ),
                Call::MarkedLine { .. } => archive::keeper_marked_line(
                    bytes, length, entries, of_entries, marks, of_marks, answer, room, written,
                ),
                Call::StandTogether { .. } => archive::keeper_stand_together(
                    bytes, length, entries, of_entries, states, of_states, answer, room, written,
                ),
                Call::Send { from, to, .. } => {
                    archive::keeper_send(bytes, length, from, to, answer, room, written)
                }
                Call::Save { process, .. } => archive::keeper_save(
                    bytes, length, process, entries, of_entries, answer, room, written,
                ),
                Call::Receive { process, .. } => archive::keeper_receive(
                    bytes, length, process, entries, of_entries, answer, room, written,
                ),
                Call::FallBack { .. } => {
                    archive::keeper_fall_back(bytes, length, answer, room, written)
                }
                Call::KeepSheet { .. } => archive::keeper_keep_sheet(
                    bytes, length, numbers, of_numbers, answer, room, written,
                ),
                Call::Listing { .. } => {
                    archive::keeper_listing(bytes, length, answer, room, written)
                }
            }
        }
    }

    /// What the binding answers, brought into the archive's form: its `None` for
    /// states that can't stand together is a length of 0.
    fn by_binding(&self, lent: &mut Loan) -> u32 {
        let table = lent.table.slice();
        let answer = lent.answer.slice_mut();
        let result = match *self {
            Call::CheckTable => return number(keeper::check_table(table)),
            Call::StandTogether { .. } => {
                let (processes, states) = (lent.list.slice(), lent.states.slice());
                keeper::stand_together(table, processes, states, answer)
                    .map(|length| length.unwrap_or(0))
            }
            Call::RecoveryLine { .. } => keeper::recovery_line(table, answer),
            Call::LineOfSet { set, .. } => keeper::line_of_set(table, set, answer),
            Call::LinesOfSets { .. } => {
                let (sets, scratch) = (lent.sets.slice(), lent.scratch.slice_mut());
                keeper::lines_of_sets(table, sets, scratch, answer)
            }
            Call::LineUnder { .. } => keeper::line_under(table, lent.list.slice(), answer),
            Call::MarkedLine { .. } => {
                keeper::marked_line(table, lent.list.slice(), lent.marks.slice_mut(), answer)
            }
            Call::Send { from, to, .. } => keeper::send(table, from, to, answer),
            Call::Save { process, .. } => keeper::save(table, process, lent.list.slice(), answer),
            Call::Receive { process, .. } => {
                keeper::receive(table, process, lent.list.slice(), answer)
            }
            Call::FallBack { .. } => keeper::fall_back(table, answer),
            Call::KeepSheet { .. } => keeper::keep_sheet(table, lent.scratch.slice_mut(), answer),
            Call::Listing { .. } => keeper::listing(table, answer),
        };
        if let Ok(length) = result {
            lent.written.put(&[length]);
        }
        number(result)
    }
}

/// What the library's own line under named states says of an answer to whether
/// they stand together, if anything: the latest line in which each named process
/// stands at its state at most, and each other one at its count, has them all, and
/// is the answer, or it has not, and the answer is a no.
pub fn against_line_under(
    table: &[u8],
    (processes, states): (&[u16], &[u16]),
    answer: &[u8],
) -> Option<String> {
    let n = usize::from(reference::processes(table));
    let mut ceilings: Vec<u16> = (0..n).map(|p| reference::count(table, p)).collect();
    for (&p, &state) in processes.iter().zip(states) {
        ceilings[usize::from(p)] = state;
    }
    let mut line = vec![0; 2 * n];
    let told = keeper::line_under(table, &ceilings, &mut line);
    let at =
        |&p: &u16| u16::from_le_bytes([line[2 * usize::from(p)], line[2 * usize::from(p) + 1]]);
    let holds = processes.iter().map(at).eq(states.iter().copied());
    let expected = if holds { &line[..] } else { &[] };
    if told == Ok(2 * n) && answer == expected {
        return None;
    }
    Some(format!(
        "the line under {ceilings:?} is {told:?}, {}",
        show::hex(&line)
    ))
}

/// What the library's own calls say of the lines of sets and of the scratch beside
/// them, if anything: its line of each set is the line that stands there, and its
/// scratch of a sheet, which is filled in any answer buffer, is the scratch.
pub fn against_single_calls(
    table: &[u8],
    sets: &[u32],
    answer: &[u8],
    lines: &[u16],
) -> Option<String> {
    let n = usize::from(reference::processes(table));
    let mut found: BTreeMap<u32, Vec<u8>> = BTreeMap::new();
    for (k, &set) in sets.iter().enumerate() {
        let line = found.entry(set).or_insert_with(|| {
            let mut line = vec![0; 2 * n];
            let told = keeper::line_of_set(table, set, &mut line);
            line.truncate(told.unwrap_or(0));
            line
        });
        if line.is_empty() || answer.get(2 * n * k..2 * n * (k + 1)) != Some(line) {
            return Some(format!("the line of set {set:#b} is {}", show::hex(line)));
        }
    }
    let mut scratch = vec![0; n * n];
    let told = number(keeper::keep_sheet(table, &mut scratch, &mut []));
    if told == 16 && answer.len() == 2 * n * sets.len() && lines == scratch {
        return None;
    }
    Some(format!("a sheet's scratch is {scratch:?}, under {told}"))
}

/// Whether the line of some set is that of no single holder, which has to be found
/// from several.
fn is_mixed(sets: &[u32], answer: &[u8], lines: &[u16]) -> bool {
    let n = (1..).find(|n| n * n >= lines.len()).unwrap_or(1);
    let numbers = answer.chunks_exact(2);
    let numbers: Vec<u16> = numbers
        .map(|pair| u16::from_le_bytes([pair[0], pair[1]]))
        .collect();
    let of_sets = sets.iter().zip(numbers.chunks_exact(n));
    let mut of_some = of_sets.filter(|(&set, _)| set != 0);
    of_some.any(|(_, line)| !lines.chunks_exact(n).any(|single| single == line))
}

/// The number that the archive answered, of the binding's result.
pub fn number<T>(result: Result<T, Refusal>) -> u32 {
    result.map_or_else(Refusal::number, |_| 0)
}

/// A lookup of the table reader by index.
type Lookup = fn(&[u8], usize) -> u16;

/// These lookups: the name, the library's, the second implementation's.
const LOOKUPS: [(&str, Lookup, Lookup); 5] = [
    ("count", run_table::count, reference::count),
    ("sender", run_table::sender, reference::sender),
    ("sent", run_table::sent, reference::sent),
    ("receiver", run_table::receiver, reference::receiver),
    ("received", run_table::received, reference::received),
];

/// All that a call is lent. A call that has no list, no states, no sets, no scratch,
/// no marks or no answer gets none of it; the slice is there all the same, and stays
/// as it is.
struct Loan {
    table: Lent<u8>,
    list: Lent<u16>,
    states: Lent<u16>,
    sets: Lent<u32>,
    scratch: Lent<u16>,
    marks: Lent<u8>,
    answer: Lent<u8>,
    written: Lent<usize>,
}

impl Loan {
    fn new(rng: &mut Rng, table: &[u8], call: &Call) -> Loan {
        Loan {
            table: Lent::holding(rng, table),
            list: Lent::holding(rng, call.list()),
            states: Lent::holding(rng, call.states()),
            sets: Lent::holding(rng, call.sets()),
            scratch: Lent::room(rng, call.numbers()),
            marks: Lent::room(rng, call.marks()),
            answer: Lent::room(rng, call.room()),
            written: Lent::room(rng, 1),
        }
    }

    fn copy(&self) -> Loan {
        Loan {
            table: self.table.copy(),
            list: self.list.copy(),
            states: self.states.copy(),
            sets: self.sets.copy(),
            scratch: self.scratch.copy(),
            marks: self.marks.copy(),
            answer: self.answer.copy(),
            written: self.written.copy(),
        }
    }

    /// What the loan holds after a call with this outcome.
    fn after(&self, outcome: &Outcome, writes_length: bool) -> Loan {
        let mut loan = self.copy();
        if outcome.number == 0 && writes_length {
            loan.answer.put(&outcome.answer);
            loan.written.put(&[outcome.answer.len()]);
        }
        if let Some(lines) = &outcome.lines {
            loan.scratch.put(lines);
        }
        if let Some(zeros) = outcome.marks {
            loan.marks.put(&vec![0; zeros]);
        }
        loan
    }

    /// What differs, in words.
    fn differences(&self, expected: &Loan, into: &mut Vec<String>) {
        fn add<T: Element>(what: &str, got: &Lent<T>, wanted: &Lent<T>, into: &mut Vec<String>) {
            if let Some((at, got_element, wanted_element)) = got.difference(wanted) {
                into.push(format!(
                    "the {what} (length {}) differs first at {at}: got {got_element:?}, expected {wanted_element:?}",
                    got.slice().len()
                ));
            }
        }
        add("table", &self.table, &expected.table, into);
        add("list", &self.list, &expected.list, into);
        add("list of states", &self.states, &expected.states, into);
        add("list of sets", &self.sets, &expected.sets, into);
        add("scratch", &self.scratch, &expected.scratch, into);
        add("mark buffer", &self.marks, &expected.marks, into);
        add("answer", &self.answer, &expected.answer, into);
        add("length written", &self.written, &expected.written, into);
    }
}

/// A difference between the two implementations, with all that made it.
pub struct Difference {
    made_by: String,
    table: Vec<u8>,
    call: String,
    what: Vec<String>,
    got: String,
    expected: String,
}

impl fmt::Display for Difference {
    fn fmt(&self, to: &mut fmt::Formatter<'_>) -> fmt::Result {
        writeln!(to, "difference in {}", self.call)?;
        writeln!(to, "made by: {}", self.made_by)?;
        for what in &self.what {
            writeln!(to, "  {what}")?;
        }
        write!(to, "{}", show::table(&self.table))?;
        writeln!(to, "library:               {}", self.got)?;
        writeln!(to, "second implementation: {}", self.expected)
    }
}

/// The comparisons made so far.
#[derive(Default)]
pub struct Comparison {
    /// How many calls of each name ended in each number.
    pub calls: BTreeMap<(usize, u32), u64>,
    /// How many lookups of the table reader were compared.
    pub lookups: u64,
    /// How many shares of listings were rounded in each of the ways.
    pub shares: [u64; ROUNDINGS.len()],
    /// How often named states can't stand together, and how often they can.
    pub stands: [u64; STANDS.len()],
    /// How many lists of sets were answered, of each of the kinds.
    pub lists: [u64; LISTS.len()],
    /// How many passes the lines of the tables by chance take.
    pub passes: Passes,
}

/// The two answers to whether named states stand together.
pub const STANDS: [&str; 2] = ["no", "yes"];

/// The kinds of lists of sets: some by their length, and those with a set whose line
/// is that of no single holder.
pub const LISTS: [&str; 6] = [
    "no sets",
    "one set",
    "2 to 255 sets",
    "256 sets",
    "a set twice",
    "a line of several holders",
];

impl Comparison {
    /// All calls made so far.
    pub fn total(&self) -> u64 {
        self.calls.values().sum()
    }

    /// Makes one call with guards, by the archive and by the binding. The
    /// answer of the archive, or what differed.
    pub fn call(
        &mut self,
        rng: &mut Rng,
        made_by: &str,
        table: &[u8],
        call: &Call,
    ) -> Result<Outcome, Box<Difference>> {
        let expected = call.expected(table);
        self.call_expecting(rng, made_by, table, call, expected)
    }

    /// As [`Comparison::call`], where the outcome to expect is known.
    pub fn call_expecting(
        &mut self,
        rng: &mut Rng,
        made_by: &str,
        table: &[u8],
        call: &Call,
        expected: Outcome,
    ) -> Result<Outcome, Box<Difference>> {
        let before = Loan::new(rng, table, call);
        let wanted = before.after(&expected, *call != Call::CheckTable);
        let mut got = Outcome::refused(0);
        for by_binding in [false, true] {
            let mut loan = before.copy();
            let number = if by_binding {
                call.by_binding(&mut loan)
            } else {
                call.by_archive(&mut loan)
            };
            let mut what = Vec::new();
            if number != expected.number {
                what.push(format!(
                    "the returned number differs: got {number}, expected {}",
                    expected.number
                ));
            }
            loan.differences(&wanted, &mut what);
            if !what.is_empty() {
                let path = if by_binding {
                    "the binding"
                } else {
                    "the archive"
                };
                return Err(Box::new(Difference {
                    made_by: made_by.to_string(),
                    table: table.to_vec(),
                    call: format!("{call:?}, called through {path}"),
                    what,
                    got: format!(
                        "number {number}, length written {} ({} before the call), scratch {:?}, mark buffer {}, answer buffer {}",
                        loan.written.slice()[0],
                        before.written.slice()[0],
                        loan.scratch.slice(),
                        show::hex(loan.marks.slice()),
                        call.show(loan.answer.slice())
                    ),
                    expected: format!(
                        "number {}, length written {}, scratch {:?}, mark buffer {}, answer buffer {}",
                        expected.number,
                        wanted.written.slice()[0],
                        wanted.scratch.slice(),
                        show::hex(wanted.marks.slice()),
                        call.show(wanted.answer.slice())
                    ),
                }));
            }
            if !by_binding {
                // What the archive wrote, taken out of the answer buffer.
                let length = if number == 0 && *call != Call::CheckTable {
                    loan.written.slice()[0]
                } else {
                    0
                };
                got = Outcome {
                    number,
                    answer: loan.answer.slice()[..length].to_vec(),
                    lines: expected
                        .lines
                        .as_ref()
                        .map(|lines| loan.scratch.slice()[..lines.len()].to_vec()),
                    marks: expected.marks,
                };
            }
        }
        if let (Call::Listing { .. }, Some((kept, share))) = (call, share::read(&got.answer)) {
            let n = usize::from(reference::processes(table));
            let total = (0..n).map(|p| u32::from(reference::count(table, p))).sum();
            let Some(way) = share::rounding(share, kept, total) else {
                return Err(Box::new(Difference {
                    made_by: made_by.to_string(),
                    table: table.to_vec(),
                    call: format!("{call:?}"),
                    what: vec![format!("the share of {kept} of {total} is {share}")],
                    got: call.show(&got.answer),
                    expected: "the same text".to_string(),
                }));
            };
            self.shares[way] += 1;
        }
        if let (
            0,
            Call::StandTogether {
                processes, states, ..
            },
        ) = (got.number, call)
        {
            if let Some(what) = against_line_under(table, (processes, states), &got.answer) {
                return Err(Box::new(Difference {
                    made_by: made_by.to_string(),
                    table: table.to_vec(),
                    call: format!("{call:?}"),
                    what: vec![what],
                    got: call.show(&got.answer),
                    expected: "the same answer".to_string(),
                }));
            }
            self.stands[usize::from(!got.answer.is_empty())] += 1;
        }
        if let (0, Call::LinesOfSets { sets, .. }) = (got.number, call) {
            let lines = got.lines.as_deref().unwrap_or(&[]);
            if let Some(what) = against_single_calls(table, sets, &got.answer, lines) {
                return Err(Box::new(Difference {
                    made_by: made_by.to_string(),
                    table: table.to_vec(),
                    call: format!("{call:?}"),
                    what: vec![what],
                    got: format!("scratch {lines:?}, answer {}", call.show(&got.answer)),
                    expected: "the same lines".to_string(),
                }));
            }
            let kind = match sets.len() {
                0 | 1 => sets.len(),
                2..=255 => 2,
                _ => 3,
            };
            self.lists[kind] += 1;
            let different: BTreeSet<u32> = sets.iter().copied().collect();
            self.lists[4] += u64::from(different.len() < sets.len());
            self.lists[5] += u64::from(is_mixed(sets, &got.answer, lines));
        }
        *self.calls.entry((call.place(), got.number)).or_default() += 1;
        Ok(got)
    }

    /// Compares the table reader's check and its lookups at these indices.
    pub fn lookups(
        &mut self,
        rng: &mut Rng,
        made_by: &str,
        table: &[u8],
        indices: &[usize],
    ) -> Result<(), Box<Difference>> {
        let lent = Lent::holding(rng, table);
        let before = lent.copy();
        let here = lent.slice();
        let mut what = Vec::new();
        let mut same = |name: &str, got: u32, wanted: u32| {
            self.lookups += 1;
            if got != wanted {
                what.push(format!("run_table_{name}: got {got}, expected {wanted}"));
            }
        };
        let refusal = number(run_table::check(here));
        same("check", refusal, reference::check_table(table));
        let n = run_table::processes(here);
        same("processes", n.into(), reference::processes(table).into());
        let m = run_table::messages(here);
        same("messages", m.into(), reference::messages(table).into());
        for (name, ours, theirs) in LOOKUPS {
            for &at in indices {
                let (got, wanted) = (ours(here, at), theirs(table, at));
                same(&format!("{name} at {at}"), got.into(), wanted.into());
            }
        }
        if lent.difference(&before).is_some() {
            what.push("a lookup changed the table or its guards".to_string());
        }
        if what.is_empty() {
            return Ok(());
        }
        Err(Box::new(Difference {
            made_by: made_by.to_string(),
            table: table.to_vec(),
            call: "lookups of the table reader".to_string(),
            what,
            got: "see above".to_string(),
            expected: "see above".to_string(),
        }))
    }

    /// What the numbers of the calls made, and the checks of each call, have
    /// without the other; the ways to round a share that were not met; the
    /// answers to whether named states stand together that were not met; the kinds
    /// of lists of sets that were not; and the lines that too few tables by chance
    /// had.
    pub fn strays(&self) -> Vec<String> {
        let mut strays = Vec::new();
        for (place, name) in NAMES.iter().enumerate() {
            let mut expected = checks_of(name);
            expected.push(0);
            for number in &expected {
                if !self.calls.contains_key(&(place, *number)) {
                    strays.push(format!("no {name} answered {number}"));
                }
            }
            for (number, _) in self.numbers(place) {
                if !expected.contains(&number) {
                    strays.push(format!(
                        "{name} answered {number}, which is none of its checks"
                    ));
                }
            }
        }
        for (way, times) in ROUNDINGS.iter().zip(self.shares) {
            if times == 0 {
                strays.push(format!("no share was rounded: {way}"));
            }
        }
        for (answer, times) in STANDS.iter().zip(self.stands) {
            if times == 0 {
                strays.push(format!("no named states were told {answer}"));
            }
        }
        for (kind, times) in LISTS.iter().zip(self.lists) {
            if times == 0 {
                strays.push(format!("no list of sets was answered with {kind}"));
            }
        }
        strays.extend(self.passes.strays());
        strays
    }

    /// The numbers in which calls of a name ended, and how many in each.
    fn numbers(&self, place: usize) -> impl Iterator<Item = (u32, u64)> + '_ {
        self.calls
            .range((place, 0)..=(place, u32::MAX))
            .map(|(&(_, number), &times)| (number, times))
    }

    /// The calls by name and number, a line for each name; then how often named
    /// states stand together, the lists of sets, the shares, and the passes of lines.
    pub fn report(&self) -> String {
        let mut text = String::new();
        for (place, name) in NAMES.iter().enumerate() {
            let numbers: Vec<String> = self
                .numbers(place)
                .map(|(number, times)| format!("{number}: {times}"))
                .collect();
            text += &format!("  {name:14} {}\n", numbers.join(", "));
        }
        let [no, yes] = self.stands;
        text += &format!("named states that stand together: no: {no}, yes: {yes}\n");
        let lists = LISTS.iter().zip(self.lists);
        let lists: Vec<String> = lists
            .map(|(kind, times)| format!("{kind}: {times}"))
            .collect();
        text += &format!("lists of sets: {}\n", lists.join(", "));
        text += &format!("shares of listings: {}\n", share::report(&self.shares));
        text + &format!("lines by chance, {}\n", self.passes.report())
    }
}
