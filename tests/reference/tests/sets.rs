//! The lines of many sets, document 02, §8: cases worked out by hand and the
//! wrong readings that they catch, that the line of a set is the minimum of the
//! lines of its single holders, and the call's lists, buffers and checks.

mod common;

use common::{all_at_or_below, example_a, example_d, numbers, of_counts, small_tables, table};
use reference::gen::*;
use reference::lines::{
    all_hold, hold_lines, holds, is_consistent, larger, line_by_enumeration, line_of_holders,
    line_to_bytes, single_holder, Line,
};
use reference::sets::MOST_SETS;
use reference::table::{MOST_MESSAGES, MOST_STATES};
use reference::*;

/// What the answer buffer and the scratch hold before a call.
const BYTE: u8 = 0xA5;
const NUMBER: u16 = 0xA5A5;

// ---------------------------------------------------------------------------
// Readings. Each is the whole of the call with one thing changed, written once
// more: lines of single holders by passes of the lowering rule, and all others
// as §8 has it, as their minimum.

#[derive(Clone, Copy, Debug, PartialEq, Eq)]
enum Reading {
    /// As document 02 has it.
    AsWritten,

    /// The maximum of the holders' lines.
    Maximum,
    /// The minimum goes on from one set to the next.
    MinimumGoesOn,
    /// The minimum begins at the last states, and not at the counts.
    FromLastStates,
    /// The minimum begins at zeros.
    FromZeros,
    /// The minimum is taken at the processes of the set alone.
    AtItsProcesses,
    /// The ceiling of the set, and no process put back.
    CeilingAlone,
    /// The recovery line for every set.
    RecoveryLineForAll,
    /// The empty set's line is the last states.
    EmptyLastStates,
    /// The empty set's line is zeros.
    EmptyZeros,
    /// The empty set's line is the recovery line.
    EmptyRecoveryLine,
    /// The empty set has no line in the answer.
    EmptyLeftOut,
    /// The first process of a set is left out.
    FirstLeftOut,
    /// The last process of a set is left out.
    LastLeftOut,
    /// Process 0 is left out.
    Process0LeftOut,
    /// Process 31 is left out.
    Process31LeftOut,
    /// The first process of a set alone counts.
    FirstAlone,
    /// The last process of a set alone counts.
    LastAlone,
    /// The two first processes of a set alone count.
    TwoAlone,
    /// A process whose bit is not set holds.
    OthersHold,
    /// Process p is bit N - 1 - p.
    BitsBackward,
    /// An unsaved message puts nothing back.
    UnsavedAsWaiting,
    /// A waiting message is an orphan.
    WaitingAsReceived,
    /// What holds stands one state before its last.
    OneStateLess,

    /// The line of the first set for all.
    FirstSetForAll,
    /// The line of the last set for all.
    LastSetForAll,
    /// The last set's line stands first.
    Backward,
    /// The lines stand by rising sets.
    Sorted,
    /// A set that stands twice has one line.
    RepeatedDropped,
    /// A set that stands twice in a row has one line.
    NeighboursDropped,
    /// A line begins at each 32 numbers.
    StrideOf32,
    /// All numbers of process 0 first, then those of process 1.
    ByProcess,
    /// The high byte first.
    HighByteFirst,
    /// What lies beyond the answer is set to zero.
    AnswerCleared,
    /// The length written is that of one line.
    LengthOfALine,
    /// The length written is the number of numbers.
    LengthInNumbers,
    /// The length is left as it was where there are no sets.
    NoLengthForNoSets,

    /// The scratch is left as it was.
    ScratchUnused,
    /// The scratch is left as it was where there are no sets.
    ScratchUnusedForNoSets,
    /// The scratch has the lines of processes that are in a set, and no others.
    ScratchOfMembers,
    /// The scratch has the lines of the sets.
    ScratchOfSets,
    /// Process 1's line stands first in the scratch, and process 0's last.
    ScratchFromProcess1,
    /// The first line of the scratch is the counts, and process 0's the second.
    ScratchCountsFirst,
    /// The last process's line stands first in the scratch.
    ScratchBackward,
    /// The scratch goes by places, and then by holders.
    ScratchByPlace,
    /// A line begins at each 32 numbers of the scratch.
    ScratchStrideOf32,
    /// One number beyond N x N is zero.
    ScratchBeyond,
    /// The recovery line stands behind the N lines.
    ScratchRecoveryLine,
    /// The scratch is filled under 16.
    ScratchUnder16,
    /// As far as it goes the scratch is filled under 15.
    ScratchUnder15,
    /// The scratch is filled under 12.
    ScratchUnder12,

    /// 256 sets are refused.
    Refused256,
    /// 257 sets are accepted.
    Accepted257,
    /// Any number of sets is accepted.
    AnyNumber,
    /// The number of sets is cut to 8 bits: 256 are none.
    NumberCut,
    /// No sets are refused by 25.
    NoSetsRefused,
    /// 25 comes after 12.
    After12,
    /// 25 comes after 15.
    After15,
    /// 25 comes after 16.
    After16,
    /// 12 is asked of the first set alone.
    OfTheFirst,
    /// 12 is asked of the last set alone.
    OfTheLast,
    /// 12 is asked of the sets between the first and the last alone.
    OfTheInner,
    /// 12 lets bit N pass.
    BitN,
    /// Bits at N or above are ignored.
    HighBitsIgnored,
    /// 12 refuses bit 31 of 32 processes.
    Bit31Refused,
    /// 12 refuses the empty set.
    EmptyRefused,
    /// The lines before the set that 12 refuses are written.
    LinesUntil12,
    /// 12 comes after 15.
    SetsAfterScratch,
    /// 12 comes after 16.
    SetsAfterAnswer,
    /// 15 comes after 16.
    ScratchAfterAnswer,
    /// A scratch of N x N numbers is refused.
    ScratchNeedsMore,
    /// A scratch of N numbers is enough.
    ScratchOfN,
    /// The scratch needs one line for each set.
    ScratchForSets,
    /// The scratch is measured in bytes.
    ScratchInBytes,
    /// No sets need no scratch.
    NoScratchForNoSets,
    /// The answer buffer needs room for one line.
    RoomForALine,
    /// The answer buffer needs one byte more.
    RoomForMore,
    /// The answer buffer needs room for a line where there are no sets.
    RoomForNoSets,
    /// The answer buffer needs room for 256 lines.
    RoomFor256,
    /// What fits is written under 16.
    FrontUnder16,
    /// The length is written under 16.
    LengthUnder16,
}

use Reading::*;

const WRONG: [Reading; 80] = [
    Maximum,
    MinimumGoesOn,
    FromLastStates,
    FromZeros,
    AtItsProcesses,
    CeilingAlone,
    RecoveryLineForAll,
    EmptyLastStates,
    EmptyZeros,
    EmptyRecoveryLine,
    EmptyLeftOut,
    FirstLeftOut,
    LastLeftOut,
    Process0LeftOut,
    Process31LeftOut,
    FirstAlone,
    LastAlone,
    TwoAlone,
    OthersHold,
    BitsBackward,
    UnsavedAsWaiting,
    WaitingAsReceived,
    OneStateLess,
    FirstSetForAll,
    LastSetForAll,
    Backward,
    Sorted,
    RepeatedDropped,
    NeighboursDropped,
    StrideOf32,
    ByProcess,
    HighByteFirst,
    AnswerCleared,
    LengthOfALine,
    LengthInNumbers,
    NoLengthForNoSets,
    ScratchUnused,
    ScratchUnusedForNoSets,
    ScratchOfMembers,
    ScratchOfSets,
    ScratchFromProcess1,
    ScratchCountsFirst,
    ScratchBackward,
    ScratchByPlace,
    ScratchStrideOf32,
    ScratchBeyond,
    ScratchRecoveryLine,
    ScratchUnder16,
    ScratchUnder15,
    ScratchUnder12,
    Refused256,
    Accepted257,
    AnyNumber,
    NumberCut,
    NoSetsRefused,
    After12,
    After15,
    After16,
    OfTheFirst,
    OfTheLast,
    OfTheInner,
    BitN,
    HighBitsIgnored,
    Bit31Refused,
    EmptyRefused,
    LinesUntil12,
    SetsAfterScratch,
    SetsAfterAnswer,
    ScratchAfterAnswer,
    ScratchNeedsMore,
    ScratchOfN,
    ScratchForSets,
    ScratchInBytes,
    NoScratchForNoSets,
    RoomForALine,
    RoomForMore,
    RoomForNoSets,
    RoomFor256,
    FrontUnder16,
    LengthUnder16,
];

/// The lists and lengths of a call.
#[derive(Clone, Debug, PartialEq, Eq)]
struct Lent {
    sets: Vec<u32>,
    numbers: usize,
    room: usize,
}

/// What a call yields: the number, the length written if it is, and all that
/// stands in the answer buffer and in the scratch.
#[derive(Clone, Debug, PartialEq, Eq)]
struct Told {
    number: u32,
    length: Option<usize>,
    answer: Vec<u8>,
    scratch: Vec<u16>,
}

/// A refusal, which writes nothing.
fn refused(lent: &Lent, number: u32) -> Told {
    Told {
        number,
        length: None,
        answer: vec![BYTE; lent.room],
        scratch: vec![NUMBER; lent.numbers],
    }
}

/// Success with these lines, and with these of single holders.
fn answered(lent: &Lent, lines: &[Line], singles: &[Line]) -> Told {
    let answer: Vec<u8> = lines.iter().flat_map(|line| line_to_bytes(line)).collect();
    let scratch: Vec<u16> = singles.iter().flatten().map(|&at| at as u16).collect();
    let mut told = refused(lent, 0);
    told.length = Some(answer.len());
    told.answer[..answer.len()].copy_from_slice(&answer);
    told.scratch[..scratch.len()].copy_from_slice(&scratch);
    told
}

/// Writes what there is room for.
fn put<T: Copy>(buffer: &mut [T], at: usize, items: &[T]) {
    for (place, &item) in buffer.iter_mut().skip(at).zip(items) {
        *place = item;
    }
}

/// "the place-by-place minimum".
fn smaller(one: &[u32], other: &[u32]) -> Line {
    one.iter().zip(other).map(|(&a, &b)| a.min(b)).collect()
}

impl Reading {
    /// The line under a ceiling by passes: an orphan puts its receiver back.
    fn lowered(self, table: &Table, ceiling: &[u32]) -> Line {
        let mut line = ceiling.to_vec();
        loop {
            let before = line.clone();
            for message in &table.messages {
                let takes_part = match self {
                    UnsavedAsWaiting => !message.waiting() && !table.unsaved(message),
                    WaitingAsReceived => true,
                    _ => !message.waiting(),
                };
                let received = message.received.max(1);
                if takes_part
                    && message.sent >= line[message.sender]
                    && received <= line[message.receiver]
                {
                    line[message.receiver] = received - 1;
                }
            }
            if line == before {
                return line;
            }
        }
    }

    /// The lines of single holders.
    fn singles(self, table: &Table) -> Vec<Line> {
        let less = if self == OneStateLess { 2 } else { 1 };
        let single = |p: usize| {
            let mut ceiling = table.counts.clone();
            ceiling[p] = ceiling[p].saturating_sub(less);
            self.lowered(table, &ceiling)
        };
        (0..table.processes()).map(single).collect()
    }

    /// The processes of a set that count, rising.
    fn processes(self, n: usize, set: u32) -> Vec<usize> {
        let is_in = |&p: &usize| match self {
            OthersHold => !holds(set, p),
            BitsBackward => holds(set, n - 1 - p),
            Process0LeftOut => p != 0 && holds(set, p),
            Process31LeftOut => p != 31 && holds(set, p),
            _ => holds(set, p),
        };
        let mut list: Vec<usize> = (0..n).filter(is_in).collect();
        match self {
            FirstLeftOut if !list.is_empty() => drop(list.remove(0)),
            LastLeftOut => drop(list.pop()),
            FirstAlone => list.truncate(1),
            LastAlone if !list.is_empty() => drop(list.drain(..list.len() - 1)),
            TwoAlone => list.truncate(2),
            _ => {}
        }
        list
    }

    /// The line of a set, from those of single holders and from that of the set
    /// before it.
    fn line(self, table: &Table, singles: &[Line], set: u32, before: Option<&Line>) -> Line {
        let n = table.processes();
        let last: Line = table.counts.iter().map(|count| count - 1).collect();
        let of_all = || self.lowered(table, &last);
        let zeros = vec![0; n];
        if set == 0 {
            match self {
                EmptyLastStates => return last,
                EmptyZeros => return zeros,
                EmptyRecoveryLine => return of_all(),
                _ => {}
            }
        }
        let processes = self.processes(n, set);
        match self {
            RecoveryLineForAll => return of_all(),
            CeilingAlone => {
                let at = |p: usize| if holds(set, p) { last[p] } else { last[p] + 1 };
                return (0..n).map(at).collect();
            }
            Maximum if !processes.is_empty() => {
                let lines = processes.iter().map(|&p| singles[p].clone());
                return lines.fold(zeros, |line, single| larger(&line, &single));
            }
            _ => {}
        }
        let mut line = match (self, before) {
            (MinimumGoesOn, Some(before)) => before.clone(),
            (FromLastStates, _) => last,
            (FromZeros, _) => zeros,
            _ => table.counts.clone(),
        };
        for &p in &processes {
            if self == AtItsProcesses {
                line[p] = line[p].min(singles[p][p]);
            } else {
                line = smaller(&line, &singles[p]);
            }
        }
        line
    }

    /// The number of the first check that catches, or 0.
    fn check(self, table: &Table, lent: &Lent) -> u32 {
        let n = table.processes();
        let many = lent.sets.len();
        let bad_number = match self {
            Refused256 => many >= MOST_SETS,
            Accepted257 => many > MOST_SETS + 1,
            AnyNumber => false,
            NumberCut => many % 256 > MOST_SETS,
            NoSetsRefused => many == 0 || many > MOST_SETS,
            _ => many > MOST_SETS,
        };
        let bad_set = |&set: &u32| match self {
            BitN => (n + 1..32).any(|p| holds(set, p)),
            HighBitsIgnored => false,
            Bit31Refused => (n.min(31)..32).any(|p| holds(set, p)),
            EmptyRefused => set == 0 || (n..32).any(|p| holds(set, p)),
            _ => (n..32).any(|p| holds(set, p)),
        };
        let asked = match self {
            OfTheFirst => &lent.sets[..many.min(1)],
            OfTheLast => &lent.sets[many.saturating_sub(1)..],
            OfTheInner if many > 2 => &lent.sets[1..many - 1],
            _ => &lent.sets[..],
        };
        let needed = match self {
            ScratchNeedsMore => n * n + 1,
            ScratchOfN => n,
            ScratchForSets => n * many,
            ScratchInBytes => n * n / 2,
            NoScratchForNoSets if many == 0 => 0,
            _ => n * n,
        };
        let room = match self {
            RoomForALine => 2 * n * many.min(1),
            RoomForMore => 2 * n * many + 1,
            RoomForNoSets => 2 * n * many.max(1),
            RoomFor256 => 2 * n * MOST_SETS,
            _ => 2 * n * many,
        };
        let mut checks = vec![
            (25, bad_number),
            (12, asked.iter().any(bad_set)),
            (15, lent.numbers < needed),
            (16, lent.room < room),
        ];
        match self {
            After12 => checks.swap(0, 1),
            After15 => checks[..3].rotate_left(1),
            After16 => checks.rotate_left(1),
            SetsAfterScratch => checks.swap(1, 2),
            SetsAfterAnswer => checks[1..].rotate_left(1),
            ScratchAfterAnswer => checks.swap(2, 3),
            _ => {}
        }
        let first = checks.into_iter().find(|&(_, catches)| catches);
        first.map_or(0, |(number, _)| number)
    }

    /// Writes the lines of the scratch.
    fn put_singles(self, table: &Table, lines: &[Line], lent: &Lent, scratch: &mut [u16]) {
        let n = table.processes();
        let mut singles = self.singles(table);
        let many = lent.sets.len();
        match self {
            ScratchUnused => return,
            ScratchUnusedForNoSets if many == 0 => return,
            ScratchOfSets => singles = lines.to_vec(),
            ScratchFromProcess1 => singles.rotate_left(1),
            ScratchCountsFirst => {
                singles.insert(0, table.counts.clone());
                singles.truncate(n);
            }
            ScratchBackward => singles.reverse(),
            ScratchByPlace => {
                let by_place = |p: usize| singles.iter().map(|line| line[p]).collect();
                singles = (0..n).map(by_place).collect();
            }
            ScratchRecoveryLine => {
                let all = singles
                    .iter()
                    .fold(table.counts.clone(), |a, b| smaller(&a, b));
                singles.push(all);
            }
            _ => {}
        }
        let members = lent.sets.iter().fold(0, |all, set| all | set);
        let stride = if self == ScratchStrideOf32 { 32 } else { n };
        for (p, line) in singles.iter().enumerate() {
            if self == ScratchOfMembers && !holds(members, p) {
                continue;
            }
            let line: Vec<u16> = line.iter().map(|&at| at as u16).collect();
            put(scratch, stride * p, &line);
        }
        if self == ScratchBeyond {
            put(scratch, n * n, &[0]);
        }
    }

    /// The call.
    fn told(self, table: &Table, lent: &Lent) -> Told {
        let n = table.processes();
        let number = self.check(table, lent);
        let mut told = refused(lent, number);
        let mut sets = lent.sets.clone();
        if self == NumberCut {
            sets.truncate(sets.len() % 256);
        }
        let singles = self.singles(table);
        let mut lines: Vec<Line> = Vec::new();
        for &set in &sets {
            lines.push(self.line(table, &singles, set, lines.last()));
        }
        match (self, number) {
            (ScratchUnder16, 16) | (ScratchUnder15, 15) | (ScratchUnder12, 12) => {
                self.put_singles(table, &lines, lent, &mut told.scratch);
            }
            (LengthUnder16, 16) => told.length = Some(2 * n * sets.len()),
            (FrontUnder16, 16) => {
                let bytes: Vec<u8> = lines.iter().flat_map(|line| line_to_bytes(line)).collect();
                put(&mut told.answer, 0, &bytes);
            }
            (LinesUntil12, 12) => {
                let good = sets.iter().take_while(|&&set| set >> 1 >> (n - 1) == 0);
                let bytes: Vec<u8> = lines[..good.count()]
                    .iter()
                    .flat_map(|line| line_to_bytes(line))
                    .collect();
                put(&mut told.answer, 0, &bytes);
            }
            _ => {}
        }
        if number != 0 {
            return told;
        }
        self.put_singles(table, &lines, lent, &mut told.scratch);
        let mut order: Vec<usize> = (0..sets.len()).collect();
        match self {
            FirstSetForAll => order.fill(0),
            LastSetForAll => order.fill(sets.len().saturating_sub(1)),
            Backward => order.reverse(),
            Sorted => order.sort_by_key(|&k| sets[k]),
            EmptyLeftOut => order.retain(|&k| sets[k] != 0),
            RepeatedDropped => order.retain(|&k| !sets[..k].contains(&sets[k])),
            NeighboursDropped => order.retain(|&k| k == 0 || sets[k - 1] != sets[k]),
            _ => {}
        }
        let stride = if self == StrideOf32 { 64 } else { 2 * n };
        for (place, &k) in order.iter().enumerate() {
            let mut bytes = line_to_bytes(&lines[k]);
            if self == HighByteFirst {
                bytes.chunks_exact_mut(2).for_each(|pair| pair.swap(0, 1));
            }
            if self == ByProcess {
                for (p, pair) in bytes.chunks_exact(2).enumerate() {
                    put(&mut told.answer, 2 * (p * sets.len() + place), pair);
                }
            } else {
                put(&mut told.answer, stride * place, &bytes);
            }
        }
        let length = 2 * n * order.len();
        if self == AnswerCleared && told.answer.len() > length {
            told.answer[length..].fill(0);
        }
        told.length = match self {
            LengthOfALine => Some(2 * n),
            LengthInNumbers => Some(n * order.len()),
            NoLengthForNoSets if sets.is_empty() => None,
            _ => Some(length),
        };
        told
    }
}

/// The crate's call, on the bytes of a table.
fn by_call(bytes: &[u8], lent: &Lent) -> Told {
    let outcome = lines_of_sets(bytes, &lent.sets, lent.numbers, lent.room);
    assert_eq!(outcome.marks, None);
    let mut told = refused(lent, outcome.number);
    told.length = (outcome.number == 0).then_some(outcome.answer.len());
    told.answer[..outcome.answer.len()].copy_from_slice(&outcome.answer);
    if let Some(lines) = &outcome.lines {
        told.scratch[..lines.len()].copy_from_slice(lines);
    }
    told
}

// ---------------------------------------------------------------------------
// Cases.

/// A table, what is lent, what the call yields as it was worked out by hand, and
/// the readings under which that is something else.
struct Case {
    table: Table,
    lent: Lent,
    told: Told,
    wrong: Vec<Reading>,
}

/// A case that succeeds, with buffers that are longer by some numbers and bytes.
fn case<const N: usize>(
    table: &Table,
    singles: [[u32; N]; N],
    more: (usize, usize),
    list: &[(u32, [u32; N])],
    wrong: &[Reading],
) -> Case {
    let singles: Vec<Line> = singles.iter().map(|line| line.to_vec()).collect();
    let lines: Vec<Line> = list.iter().map(|(_, line)| line.to_vec()).collect();
    let lent = Lent {
        sets: list.iter().map(|&(set, _)| set).collect(),
        numbers: N * N + more.0,
        room: 2 * N * list.len() + more.1,
    };
    let told = answered(&lent, &lines, &singles);
    Case {
        table: table.clone(),
        lent,
        told,
        wrong: wrong.to_vec(),
    }
}

/// A case that is refused.
fn no(
    table: &Table,
    sets: &[u32],
    numbers: usize,
    room: usize,
    number: u32,
    wrong: &[Reading],
) -> Case {
    let lent = Lent {
        sets: sets.to_vec(),
        numbers,
        room,
    };
    let told = refused(&lent, number);
    Case {
        table: table.clone(),
        lent,
        told,
        wrong: wrong.to_vec(),
    }
}

/// Process 2 put back to 1 by process 0, and to 0 by process 1.
fn two_put_back_one() -> Table {
    table(&[4, 4, 4], &[((0, 3), (2, 2)), ((1, 3), (2, 1))])
}

/// Of processes 3 and 4, 0 puts both back, 1 the one and 2 the other.
fn five() -> Table {
    table(
        &[4, 4, 6, 4, 4],
        &[
            ((0, 3), (3, 2)),
            ((0, 3), (4, 3)),
            ((1, 3), (3, 1)),
            ((2, 5), (4, 1)),
        ],
    )
}

/// Lines.
fn cases_of_lines() -> Vec<Case> {
    let a = [[1, 1], [3, 2]];
    let of_a = [(0, [3, 3]), (1, [1, 1]), (2, [3, 2]), (3, [1, 1])];
    let unsaved = table(&[1, 1], &[((0, 0), (1, 1)), ((1, 0), (0, 1))]);
    let waiting = table(&[1, 1], &[((0, 0), (1, 0)), ((1, 0), (0, 0))]);
    let of_two = [[3, 4, 1], [4, 3, 0], [4, 4, 3]];
    let of_five = [
        [3, 4, 6, 1, 2],
        [4, 3, 6, 0, 4],
        [4, 4, 5, 4, 0],
        [4, 4, 6, 3, 4],
        [4, 4, 6, 4, 3],
    ];
    // A chain: 0 puts 1 back, and 1 puts 2 back.
    let chain = table(&[3, 3, 3], &[((0, 2), (1, 2)), ((1, 1), (2, 1))]);
    vec![
        // Examples A to D.
        case(
            &example_a(),
            a,
            (0, 0),
            &of_a,
            &[
                Maximum,
                FromZeros,
                CeilingAlone,
                RecoveryLineForAll,
                EmptyLastStates,
                EmptyZeros,
                EmptyRecoveryLine,
                EmptyLeftOut,
                LastLeftOut,
                Process0LeftOut,
                LastAlone,
                OthersHold,
                OneStateLess,
            ],
        ),
        case(
            &table(&[1], &[]),
            [[0]],
            (0, 0),
            &[(0, [1]), (1, [0])],
            &[EmptyLastStates, EmptyZeros, OthersHold, EmptyRefused],
        ),
        case(
            &table(&[1, 4], &[]),
            [[0, 4], [1, 3]],
            (0, 0),
            &[(0, [1, 4]), (1, [0, 4]), (2, [1, 3]), (3, [0, 3])],
            &[Maximum, FromLastStates, FirstLeftOut, LastLeftOut],
        ),
        case(
            &example_d(),
            [[0, 0], [2, 1]],
            (0, 0),
            &[(3, [0, 0]), (2, [2, 1]), (1, [0, 0]), (0, [2, 2])],
            &[
                Maximum,
                AtItsProcesses,
                CeilingAlone,
                MinimumGoesOn,
                LastAlone,
                BitsBackward,
            ],
        ),
        // What is unsaved puts back whoever received it, what waits nobody.
        case(
            &unsaved,
            [[0, 0], [0, 0]],
            (0, 0),
            &[(0, [1, 1]), (1, [0, 0]), (2, [0, 0]), (3, [0, 0])],
            &[UnsavedAsWaiting, AtItsProcesses, CeilingAlone],
        ),
        case(
            &waiting,
            [[0, 1], [1, 0]],
            (0, 0),
            &[(0, [1, 1]), (1, [0, 1]), (2, [1, 0]), (3, [0, 0])],
            &[WaitingAsReceived],
        ),
        // Sets of two and three whose line is that of none of their processes.
        case(
            &two_put_back_one(),
            of_two,
            (0, 0),
            &[
                (3, [3, 3, 0]),
                (5, [3, 4, 1]),
                (6, [4, 3, 0]),
                (7, [3, 3, 0]),
            ],
            &[
                Maximum,
                FirstLeftOut,
                LastLeftOut,
                FirstAlone,
                LastAlone,
                AtItsProcesses,
                FromLastStates,
                BitsBackward,
            ],
        ),
        case(
            &five(),
            of_five,
            (0, 0),
            &[
                (0b00011, [3, 3, 6, 0, 2]),
                (0b00101, [3, 4, 5, 1, 0]),
                (0b00110, [4, 3, 5, 0, 0]),
                (0b00111, [3, 3, 5, 0, 0]),
                (0b11000, [4, 4, 6, 3, 3]),
                (0b10001, [3, 4, 6, 1, 2]),
                (0b11111, [3, 3, 5, 0, 0]),
            ],
            &[
                Maximum,
                FirstLeftOut,
                LastLeftOut,
                FirstAlone,
                LastAlone,
                TwoAlone,
                MinimumGoesOn,
            ],
        ),
        // One after the other: the line of 0 alone is the lowest.
        case(
            &chain,
            [[2, 1, 0], [3, 2, 3], [3, 3, 2]],
            (0, 0),
            &[
                (1, [2, 1, 0]),
                (2, [3, 2, 3]),
                (6, [3, 2, 2]),
                (7, [2, 1, 0]),
                (0, [3, 3, 3]),
            ],
            &[
                CeilingAlone,
                MinimumGoesOn,
                Maximum,
                LastAlone,
                RecoveryLineForAll,
            ],
        ),
    ]
}

/// 32 processes of two states: what 31 sent from its last one is received by 0
/// before state 1, and what 0 sent from its first one by 30.
fn case_of_32() -> Case {
    let table = table(&[2; 32], &[((31, 1), (0, 1)), ((0, 0), (30, 1))]);
    let mut singles = [[2; 32]; 32];
    for (p, line) in singles.iter_mut().enumerate() {
        line[p] = 1;
    }
    singles[31][0] = 0;
    singles[31][30] = 0;
    let mut of_all = [1; 32];
    of_all[0] = 0;
    of_all[30] = 0;
    let mut of_0_and_31 = singles[31];
    of_0_and_31[0] = 0;
    let mut all_but_31 = [1; 32];
    all_but_31[31] = 2;
    let list = [
        (1 << 31, singles[31]),
        (1, singles[0]),
        (u32::MAX, of_all),
        (1 << 31 | 1, of_0_and_31),
        (u32::MAX >> 1, all_but_31),
        (0, [2; 32]),
    ];
    let wrong = [
        Process31LeftOut,
        Bit31Refused,
        LastLeftOut,
        FirstLeftOut,
        BitsBackward,
    ];
    case(&table, singles, (0, 0), &list, &wrong)
}

/// Answers and the scratch.
fn cases_of_answers() -> Vec<Case> {
    let a = [[1, 1], [3, 2]];
    let d = [[0, 0], [2, 1]];
    let of_two = [[3, 4, 1], [4, 3, 0], [4, 4, 3]];
    vec![
        case(
            &example_a(),
            a,
            (3, 9),
            &[(2, [3, 2]), (0, [3, 3]), (1, [1, 1])],
            &[
                FirstSetForAll,
                LastSetForAll,
                Backward,
                Sorted,
                StrideOf32,
                ByProcess,
                HighByteFirst,
                AnswerCleared,
                LengthOfALine,
                LengthInNumbers,
                ScratchUnused,
                ScratchOfSets,
                ScratchFromProcess1,
                ScratchCountsFirst,
                ScratchBackward,
                ScratchByPlace,
                ScratchBeyond,
                ScratchRecoveryLine,
                RoomFor256,
            ],
        ),
        // Sets that stand twice, in a row and apart.
        case(
            &example_a(),
            a,
            (0, 4),
            &[(2, [3, 2]), (2, [3, 2]), (1, [1, 1])],
            &[RepeatedDropped, NeighboursDropped],
        ),
        case(
            &example_a(),
            a,
            (0, 0),
            &[(2, [3, 2]), (1, [1, 1]), (2, [3, 2]), (0, [3, 3])],
            &[RepeatedDropped, Sorted, EmptyLeftOut],
        ),
        // No sets: the scratch is filled, and the answer has no bytes.
        case(
            &example_d(),
            d,
            (0, 0),
            &[],
            &[
                ScratchUnused,
                ScratchUnusedForNoSets,
                ScratchOfMembers,
                ScratchOfSets,
                NoSetsRefused,
                RoomForNoSets,
                RoomForMore,
                NoLengthForNoSets,
                LengthOfALine,
            ],
        ),
        case(
            &example_d(),
            d,
            (1, 3),
            &[],
            &[ScratchUnusedForNoSets, RoomForNoSets, AnswerCleared],
        ),
        // One set: the lines of all processes stand in the scratch.
        case(
            &two_put_back_one(),
            of_two,
            (0, 0),
            &[(2, [4, 3, 0])],
            &[
                ScratchOfMembers,
                ScratchByPlace,
                ScratchFromProcess1,
                ScratchCountsFirst,
                ScratchStrideOf32,
                ScratchNeedsMore,
                RoomForMore,
            ],
        ),
        case(
            &two_put_back_one(),
            of_two,
            (0, 0),
            &[(0, [4, 4, 4])],
            &[ScratchOfMembers, EmptyRefused, EmptyLeftOut],
        ),
        case(
            &two_put_back_one(),
            of_two,
            (3, 0),
            &[(7, [3, 3, 0])],
            &[ScratchRecoveryLine, ScratchBeyond],
        ),
        // More sets than processes: the scratch need not grow with them.
        case(
            &example_d(),
            d,
            (0, 0),
            &[(2, [2, 1]), (1, [0, 0]), (3, [0, 0])],
            &[ScratchForSets, ScratchOfSets],
        ),
    ]
}

/// Checks.
fn cases_of_checks() -> Vec<Case> {
    let d = example_d();
    let c = table(&[1, 4], &[]);
    let many = |set: u32, times: usize| vec![set; times];
    let of_c = |times: usize| vec![(2, [1, 3]); times];
    let with = |at: usize, set: u32| {
        let mut sets = many(1, 256);
        sets[at] = set;
        sets
    };
    vec![
        // 25, from both sides.
        case(
            &c,
            [[0, 4], [1, 3]],
            (0, 0),
            &of_c(256),
            &[Refused256, NumberCut],
        ),
        case(&c, [[0, 4], [1, 3]], (0, 0), &of_c(255), &[]),
        no(&c, &many(2, 257), 4, 1_028, 25, &[Accepted257, AnyNumber]),
        no(&c, &many(0, 258), 4, 1_032, 25, &[AnyNumber, NumberCut]),
        no(&c, &many(0, 512), 4, 2_048, 25, &[AnyNumber, NumberCut]),
        // 12: the first set, the last, one between; bit N, and above it.
        no(
            &d,
            &[4, 1, 2],
            4,
            12,
            12,
            &[OfTheLast, OfTheInner, BitN, HighBitsIgnored],
        ),
        no(
            &d,
            &[1, 4, 2],
            4,
            12,
            12,
            &[OfTheFirst, OfTheLast, BitN, LinesUntil12],
        ),
        no(
            &d,
            &[1, 2, 4],
            4,
            12,
            12,
            &[OfTheFirst, OfTheInner, BitN, LinesUntil12, ScratchUnder12],
        ),
        no(&d, &[1 << 31], 4, 4, 12, &[HighBitsIgnored]),
        no(&d, &[u32::MAX], 4, 4, 12, &[HighBitsIgnored]),
        no(&d, &with(255, 8), 4, 1_024, 12, &[OfTheFirst, OfTheInner]),
        no(&d, &with(0, 8), 4, 1_024, 12, &[OfTheLast, OfTheInner]),
        // 15: one number short, and none; no sets, too.
        no(
            &d,
            &[1],
            3,
            4,
            15,
            &[ScratchOfN, ScratchForSets, ScratchInBytes, ScratchUnder15],
        ),
        no(&d, &[1], 0, 4, 15, &[]),
        no(&d, &[], 3, 0, 15, &[NoScratchForNoSets, ScratchUnder15]),
        no(&d, &[], 0, 0, 15, &[NoScratchForNoSets]),
        // 16: one byte short, one line short, and nothing lent.
        no(
            &d,
            &[1, 2],
            4,
            7,
            16,
            &[RoomForALine, ScratchUnder16, FrontUnder16, LengthUnder16],
        ),
        no(&d, &[2, 1], 4, 4, 16, &[RoomForALine, FrontUnder16]),
        no(&d, &[1], 5, 0, 16, &[ScratchUnder16, LengthUnder16]),
        // Two at once, and then three and four.
        no(&d, &many(4, 257), 4, 1_028, 25, &[After12]),
        no(&d, &many(1, 257), 3, 1_028, 25, &[After15]),
        no(&d, &many(1, 257), 4, 1_027, 25, &[After16]),
        no(&d, &[4], 3, 4, 12, &[SetsAfterScratch]),
        no(&d, &[4], 4, 3, 12, &[SetsAfterAnswer]),
        no(&d, &[1], 3, 3, 15, &[ScratchAfterAnswer]),
        no(&d, &[4], 3, 3, 12, &[SetsAfterScratch, SetsAfterAnswer]),
        no(&d, &many(1, 257), 3, 0, 25, &[After15, After16]),
        no(&d, &many(4, 257), 3, 0, 25, &[After12, After15, After16]),
    ]
}

fn cases() -> Vec<Case> {
    let mut all = cases_of_lines();
    all.push(case_of_32());
    all.extend(cases_of_answers());
    all.extend(cases_of_checks());
    all
}

/// Each case by the crate's call and by the other way.
#[test]
fn by_hand() {
    for case in cases() {
        let other = AsWritten.told(&case.table, &case.lent);
        assert_eq!(other, case.told, "{:?} {:?}", case.table, case.lent);
        let told = by_call(&case.table.to_bytes(), &case.lent);
        assert_eq!(told, case.told, "{:?} {:?}", case.table, case.lent);
    }
}

/// Under a wrong reading a case that names it yields something else.
#[test]
fn wrong_readings_are_caught() {
    let cases = cases();
    for case in &cases {
        for reading in &case.wrong {
            let told = reading.told(&case.table, &case.lent);
            assert_ne!(told, case.told, "{reading:?} {:?}", case.lent);
        }
    }
    for reading in WRONG {
        let caught = cases.iter().any(|case| case.wrong.contains(&reading));
        assert!(caught, "no case catches {reading:?}");
    }
}

// ---------------------------------------------------------------------------
// All small tables.

/// Lends just enough for these sets.
fn exact(n: usize, sets: &[u32]) -> Lent {
    Lent {
        sets: sets.to_vec(),
        numbers: n * n,
        room: 2 * n * sets.len(),
    }
}

/// The lists of sets that are tried on small tables: all in order, backward, each
/// twice, each alone, and the empty set between all.
fn lists_of_all_sets(n: usize) -> Vec<Vec<u32>> {
    let all: Vec<u32> = (0..=all_hold(n)).collect();
    let backward = all.iter().rev().copied().collect();
    let twice = all.iter().flat_map(|&set| [set, set]).collect();
    let again = [&all[..], &all[..]].concat();
    let between = all.iter().flat_map(|&set| [set, 0]).collect();
    let mut lists = vec![vec![], all.clone(), backward, twice, again, between];
    lists.extend(all.iter().map(|&set| vec![set]));
    lists
}

/// On all small tables, the lines of all sets in one call, in several orders and
/// repeated. Each is found by trying every line; it is what the single call
/// gives, and the minimum of the lines of its processes, which is consistent. The
/// scratch has those of single holders, as that of the sheet.
#[test]
fn all_sets_of_all_small_tables() {
    let (mut tables, mut mixed) = (0, 0);
    for table in small_tables() {
        let (n, bytes) = (table.processes(), table.to_bytes());
        let by_trying: Vec<Line> = (0..=all_hold(n))
            .map(|set| line_by_enumeration(&table, &reference::lines::ceiling(&table, set)))
            .collect();
        let singles: Vec<Line> = (0..n).map(|p| by_trying[1 << p].clone()).collect();
        for (set, line) in by_trying.iter().enumerate() {
            let its_own = (0..n)
                .filter(|&p| holds(set as u32, p))
                .map(|p| &singles[p]);
            let minimum = its_own.fold(table.counts.clone(), |line, one| smaller(&line, one));
            assert_eq!(&minimum, line, "{table:?} {set}");
            let alone = line_of_set(&bytes, set as u32, 2 * n).answer;
            assert_eq!(alone, line_to_bytes(line), "{table:?} {set}");
            mixed += usize::from(set > 0 && !singles.contains(line));
        }
        let sheet = keep_sheet(&bytes, n * n, 1_000).lines;
        let scratch: Vec<u16> = singles.iter().flatten().map(|&at| at as u16).collect();
        assert_eq!(sheet, Some(scratch));
        for sets in lists_of_all_sets(n) {
            let lent = exact(n, &sets);
            let lines = sets.iter().map(|&set| by_trying[set as usize].clone());
            let wanted = answered(&lent, &lines.collect::<Vec<Line>>(), &singles);
            assert_eq!(by_call(&bytes, &lent), wanted, "{table:?} {sets:?}");
        }
        tables += 1;
    }
    assert!(tables > 20_000 && mixed > 20_000, "{tables} {mixed}");
}

/// "The N lines of single holders are found once; every other line is their
/// place-by-place minimum over the set": this minimum has no orphan and is under
/// the set's ceiling, and no consistent line under it is later anywhere, whatever
/// the line. Tried with all lines, and no line found in any way but this.
#[test]
fn the_minimum_is_the_latest() {
    let mut lines = 0;
    for table in small_tables().step_by(3) {
        let n = table.processes();
        let all: Vec<Line> = all_at_or_below(&table.counts);
        let consistent: Vec<&Line> = all.iter().filter(|l| is_consistent(&table, l)).collect();
        let at_most = |line: &Line, top: &Line| line.iter().zip(top).all(|(at, top)| at <= top);
        let latest = |top: &Line| {
            let under = consistent.iter().filter(|line| at_most(line, top));
            under.fold(vec![0; n], |line, one| larger(&line, one))
        };
        let single = |p: usize| latest(&reference::lines::ceiling(&table, single_holder(p)));
        let singles: Vec<Line> = (0..n).map(single).collect();
        for set in 0..=all_hold(n) {
            let top = reference::lines::ceiling(&table, set);
            let its_own = (0..n).filter(|&p| holds(set, p)).map(|p| &singles[p]);
            let minimum = its_own.fold(table.counts.clone(), |line, one| smaller(&line, one));
            assert!(at_most(&minimum, &top) && is_consistent(&table, &minimum));
            assert_eq!(minimum, latest(&top), "{table:?} {set}");
            lines += 1;
        }
    }
    assert!(lines > 40_000, "{lines}");
}

/// The crate's call, with all lists of at most two sets and buffers on both sides
/// of the least, agrees with the other way; and each wrong reading differs
/// somewhere, but for those that need 32 processes or 256 sets.
#[test]
fn readings_on_all_small_tables() {
    let mut differs = [0; WRONG.len()];
    let mut calls = 0;
    for table in [(1, 2, 0), (2, 2, 2), (2, 3, 1), (3, 2, 1), (3, 1, 2)]
        .into_iter()
        .flat_map(|(n, c, m)| all_tables(n, c, m))
    {
        let (n, bytes) = (table.processes(), table.to_bytes());
        let mut lists: Vec<Vec<u32>> = vec![vec![]];
        for set in 0..=all_hold(n) + 1 {
            lists.push(vec![set]);
            lists.extend((0..=all_hold(n) + 1).map(|other| vec![set, other]));
        }
        lists.push((0..=all_hold(n)).collect());
        lists.push(vec![1, 1 << n, 0]);
        lists.push(vec![1 << n, 0, 1]);
        lists.push(vec![u32::MAX, 1]);
        for sets in lists {
            let least = 2 * n * sets.len();
            for room in [least.saturating_sub(1), least, least + 3] {
                for numbers in [n * n - 1, n * n, n * n + n] {
                    let lent = Lent {
                        sets: sets.clone(),
                        numbers,
                        room,
                    };
                    let told = by_call(&bytes, &lent);
                    let other = AsWritten.told(&table, &lent);
                    assert_eq!(other, told, "{table:?} {lent:?}");
                    if calls % 5 == 0 {
                        for (place, reading) in WRONG.iter().enumerate() {
                            let wrong = reading.told(&table, &lent);
                            differs[place] += usize::from(wrong != told);
                        }
                    }
                    calls += 1;
                }
            }
        }
    }
    assert!(calls > 100_000, "{calls}");
    let of_many = [Process31LeftOut, Bit31Refused, Refused256, Accepted257];
    let of_many = [
        &of_many[..],
        &[AnyNumber, NumberCut, After12, After15, After16],
    ]
    .concat();
    for (reading, times) in WRONG.iter().zip(differs) {
        assert_eq!(times == 0, of_many.contains(reading), "{reading:?}");
    }
}

// ---------------------------------------------------------------------------
// Larger tables.

/// Sets by chance: single ones, pairs, few and many processes, all, none, and one
/// that stood before.
fn some_sets(rng: &mut Rng, n: usize, many: usize) -> Vec<u32> {
    let mut sets: Vec<u32> = Vec::new();
    for _ in 0..many {
        let one = single_holder(rng.between(0, n - 1));
        let two = single_holder(rng.between(0, n - 1));
        let any = rng.next_bits() as u32 & all_hold(n);
        sets.push(match rng.between(0, 7) {
            0 => one,
            1 => one | two,
            2 => any & rng.next_bits() as u32 & rng.next_bits() as u32,
            3 => all_hold(n) & !one,
            4 => [0, all_hold(n)][rng.between(0, 1)],
            5 if !sets.is_empty() => sets[rng.between(0, sets.len() - 1)],
            _ => any,
        });
    }
    sets
}

/// Chance sets on chance tables, on dominoes and on the largest ones: each line is
/// what the single call gives, and the minimum of the lines of its processes; on
/// the smaller ones the other way to do it agrees too.
#[test]
fn with_chance_sets() {
    let mut rng = Rng::new(29);
    let (mut lines, mut mixed, mut whole) = (0, 0, 0);
    let mut agree = |rng: &mut Rng, table: &Table, many: usize, by_passes: bool| {
        let (n, bytes) = (table.processes(), table.to_bytes());
        let sets = some_sets(rng, n, many);
        let lent = Lent {
            numbers: n * n + rng.between(0, 40),
            room: 2 * n * many + rng.between(0, 40),
            sets,
        };
        let told = by_call(&bytes, &lent);
        let singles = hold_lines(table);
        let mut wanted = Vec::new();
        for &set in &lent.sets {
            let line = line_of_holders(table, set);
            let its_own = (0..n).filter(|&p| holds(set, p)).map(|p| &singles[p]);
            let minimum = its_own.fold(table.counts.clone(), |line, one| smaller(&line, one));
            assert_eq!(minimum, line, "{table:?} {set:b}");
            mixed += usize::from(set != 0 && !singles.contains(&line));
            wanted.push(line);
        }
        lines += many;
        assert_eq!(told, answered(&lent, &wanted, &singles), "{table:?}");
        if by_passes {
            assert_eq!(AsWritten.told(table, &lent), told, "{table:?}");
            whole += 1;
        }
    };
    for _ in 0..300 {
        let (n, m) = (rng.between(1, 32), rng.between(0, 120));
        let table = match rng.between(0, 2) {
            0 => history(&mut rng, n, m),
            1 => arbitrary(&mut rng, n, m, 9),
            _ => clustered(&mut rng, n, m),
        };
        let many = [1, 2, 7, 40, 255, 256][rng.between(0, 5)];
        agree(&mut rng, &table, many, true);
    }
    for order in Order::ALL {
        let ring = ring_domino(&mut rng, 7, 400, order);
        agree(&mut rng, &ring, 40, true);
    }
    for table in limit_tables(&mut rng) {
        agree(&mut rng, &table, MOST_SETS, false);
    }
    assert!(
        lines > 20_000 && mixed > 8_000 && whole == 306,
        "{lines} {mixed} {whole}"
    );
}

// ---------------------------------------------------------------------------
// Lists, buffers and checks.

/// Up to 256 sets are answered, whatever they are; more are refused by 25, also
/// where a number cut to 8 or 16 bits would be small.
#[test]
fn numbers_of_sets() {
    for n in [1, 2, 31, 32] {
        let bytes = of_counts(&vec![7; n]);
        for many in [
            0, 1, 2, 31, 32, 33, 127, 128, 254, 255, 256, 257, 258, 300, 511, 512, 65_535, 65_536,
            65_537, 65_792,
        ] {
            for set in [0, 1, all_hold(n)] {
                let mut lent = exact(n, &vec![set; many]);
                lent.room = lent.room.min(20_000);
                let told = by_call(&bytes, &lent);
                if many > 256 {
                    assert_eq!(told, refused(&lent, 25), "{n} {many}");
                    continue;
                }
                let at = |p: usize| if holds(set, p) { 6 } else { 7 };
                let line: Line = (0..n).map(at).collect();
                let single = |q: usize| (0..n).map(|p| if p == q { 6 } else { 7 }).collect();
                let singles: Vec<Line> = (0..n).map(single).collect();
                let wanted = answered(&lent, &vec![line; many], &singles);
                assert_eq!(told, wanted, "{n} {many}");
            }
        }
    }
}

/// Each bit alone, and with all below it, as the first set, the last and one in the
/// middle of three, for every N: refused by 12 where it is at N or above.
#[test]
fn bits_of_sets() {
    let mut caught = 0;
    for n in 1..=32 {
        let bytes = of_counts(&vec![2; n]);
        for bit in 0..32 {
            for set in [1 << bit, u32::MAX >> (31 - bit)] {
                for place in 0..3 {
                    let mut sets = vec![1, 0, all_hold(n)];
                    sets[place] = set;
                    let lent = exact(n, &sets);
                    let told = by_call(&bytes, &lent);
                    assert_eq!(told.number, if bit >= n { 12 } else { 0 }, "{n} {bit}");
                    if bit >= n {
                        assert_eq!(told, refused(&lent, 12));
                        caught += 1;
                    }
                }
            }
        }
    }
    assert_eq!(caught, 6 * (31 * 32 / 2));
}

/// The least scratch and the least answer buffer, from both sides, for every N.
#[test]
fn lengths_of_buffers() {
    for n in 1..=32 {
        let bytes = of_counts(&vec![3; n]);
        for many in [0, 1, 2, 3, 32, 255, 256] {
            let sets = vec![all_hold(n); many];
            let least = 2 * n * many;
            let scratches = [0, 1, n, 2 * n, n * n - 1, n * n, n * n + 1, n * n + 1_024];
            for numbers in scratches {
                let rooms = [
                    0,
                    1,
                    2 * n - 1,
                    2 * n,
                    n * many,
                    least.saturating_sub(1),
                    least,
                    least + 1,
                ];
                for room in rooms {
                    let sets = sets.clone();
                    let lent = Lent {
                        sets,
                        numbers,
                        room,
                    };
                    let told = by_call(&bytes, &lent);
                    let number = match () {
                        _ if numbers < n * n => 15,
                        _ if room < least => 16,
                        _ => 0,
                    };
                    if number != 0 {
                        assert_eq!(told, refused(&lent, number), "{n} {many} {numbers} {room}");
                        continue;
                    }
                    let length = (told.number, told.length);
                    assert_eq!(length, (0, Some(least)), "{n} {many} {numbers} {room}");
                    assert!(told.scratch[n * n..].iter().all(|&at| at == NUMBER));
                    assert!(told.scratch[..n * n].iter().all(|&at| at == 2 || at == 3));
                    assert!(told.answer[least..].iter().all(|&byte| byte == BYTE));
                }
            }
        }
    }
}

/// Every choice of the four faults, of one N after another: the first in the order
/// 25, 12, 15, 16 is the number.
#[test]
fn checks_in_order() {
    for n in [1, 2, 5, 31] {
        let bytes = of_counts(&vec![4; n]);
        for faults in 0..16 {
            let has = |fault: u32| holds(faults, fault as usize);
            let many = if has(0) { 257 } else { 256 };
            for place in [0, 100, many - 1] {
                let mut sets = vec![all_hold(n); many];
                if has(1) {
                    sets[place] = 1 << n;
                }
                let lent = Lent {
                    numbers: n * n - usize::from(has(2)),
                    room: 2 * n * many - usize::from(has(3)),
                    sets,
                };
                let told = by_call(&bytes, &lent);
                let numbers = [25, 12, 15, 16];
                let first = (0..4).find(|&fault| has(fault));
                match first.map(|fault| numbers[fault as usize]) {
                    Some(number) => assert_eq!(told, refused(&lent, number)),
                    None => assert_eq!((told.number, told.length), (0, Some(512 * n))),
                }
            }
        }
    }
}

/// A refused table answers its own number, whatever else there is.
#[test]
fn tables_before_sets() {
    let refused_tables = [
        (vec![2, 0, 5], 1),
        (numbers(&[0, 0]), 2),
        (numbers(&[33, 0]), 2),
        (numbers(&[2, 4097, 1, 1]), 3),
        (numbers(&[2, 0, 1]), 4),
        (numbers(&[2, 0, 1, 4097]), 5),
        (numbers(&[2, 1, 2, 2, 2, 0, 1, 0]), 6),
        (numbers(&[2, 1, 2, 2, 1, 0, 1, 0]), 7),
        (numbers(&[2, 1, 2, 2, 0, 2, 1, 0]), 8),
        (numbers(&[2, 1, 2, 2, 0, 1, 1, 3]), 9),
        (numbers(&[2, 2, 2, 2, 0, 1, 0, 0, 1, 1, 1, 1]), 23),
    ];
    let lists = [
        vec![],
        vec![0],
        vec![1, 3],
        vec![4],
        vec![0; 257],
        vec![4; 300],
    ];
    for (bytes, number) in refused_tables {
        for sets in &lists {
            for (scratch, room) in [(0, 0), (4, 0), (0, 4_000), (4, 4_000), (1_024, 4_000)] {
                let lent = Lent {
                    sets: sets.clone(),
                    numbers: scratch,
                    room,
                };
                assert_eq!(by_call(&bytes, &lent), refused(&lent, number));
            }
        }
    }
}

/// The most there can be: 32 counts of 4,096, as many messages, and 256 sets.
#[test]
fn the_largest_call() {
    let mut table = table(&[MOST_STATES; 32], &[]);
    let message = Message::new((0, MOST_STATES - 1), (31, 1));
    table.messages = vec![message; MOST_MESSAGES];
    let sets: Vec<u32> = (0..MOST_SETS as u32).map(|k| 1 << (k % 32)).collect();
    let told = by_call(&table.to_bytes(), &exact(32, &sets));
    assert_eq!((told.number, told.length), (0, Some(16_384)));
    for (k, line) in told.answer.chunks_exact(64).enumerate() {
        let at = |p: usize| u32::from(u16::from_le_bytes([line[2 * p], line[2 * p + 1]]));
        for p in 0..32 {
            let wanted = match (k % 32, p) {
                (0, 31) => 0,
                (q, p) if p == q => 4_095,
                _ => 4_096,
            };
            assert_eq!(at(p), wanted, "{k} {p}");
            assert_eq!(u32::from(told.scratch[32 * (k % 32) + p]), wanted);
        }
    }
}
