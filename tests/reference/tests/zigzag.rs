//! Named states that stand together, document 02, §5: cases worked out by hand
//! and the wrong readings that they catch, the figure of source document 003,
//! what holds of paths and lines on all small tables, and the call's lists,
//! buffers and checks.

mod common;

use common::{all_at_or_below, example_a, example_d, numbers, of_counts, small_tables, table};
use reference::gen::*;
use reference::lines::{is_consistent, larger, line_by_work_list, line_of_run, line_to_bytes};
use reference::steps::{do_receive, do_save, do_send};
use reference::table::State;
use reference::zigzag::*;
use reference::*;

const ROOM: usize = 40_000;

/// Named states as the two lists of a call.
fn lists(named: &[State]) -> Names {
    let processes = named.iter().map(|&(p, _)| p as u16);
    let states = named.iter().map(|&(_, number)| number as u16);
    (processes.collect(), states.collect())
}

// ---------------------------------------------------------------------------
// Readings. Each is the whole of the call with one thing changed, written once
// more: which message leads to which by joining pairs, lines by trying all.

#[derive(Clone, Copy, Debug, PartialEq, Eq)]
enum Reading {
    /// As document 02 and Definition 1 have it.
    AsWritten,

    /// The next message is sent after the first was saved: y >= r, a causal path.
    CausalPaths,
    /// The next message is sent in the same interval, and not in a later one.
    SameIntervalAlone,
    /// A receipt number r lies in interval r - 2.
    IntervalBefore,
    /// A path is one message, from the one named process to the other.
    OneMessage,
    /// A path from a state to itself is no reason for a no.
    CyclesIgnored,
    /// The first message is sent after the state that follows: y above its number.
    SentAfterTheNext,
    /// The first message is sent in the state's own interval, and not later.
    SentInItsInterval,
    /// The first message may be sent in the interval before the state.
    SentBeforeTheState,
    /// The last message is received before the state that precedes: r below its
    /// number.
    ReceivedBeforeTheOneBefore,
    /// The last message is received in the interval before the state alone.
    ReceivedJustBefore,
    /// The last message may be received in the state's own interval.
    ReceivedAfterTheState,
    /// A waiting message takes part, as if received before state 0.
    WaitingTakePart,
    /// An unsaved message takes no part, in paths and lines, as if it waited.
    UnsavedAsWaiting,
    /// An unsaved message is received in an interval after the last one.
    UnsavedAfterTheLast,
    /// Paths lead from an earlier name of the list to a later one alone.
    OneWay,
    /// Paths go through named processes alone.
    ThroughNamedProcesses,
    /// Only names that stand next to each other in the list are compared.
    NeighboursInTheList,

    /// Always a yes, with the latest line under the named states.
    NeverNo,
    /// Other processes stand at their last states at most.
    LastStatesElsewhere,
    /// Other processes stand at their counts, whatever was received.
    CountsElsewhere,
    /// Other processes stand where the recovery line has them.
    RecoveryLineElsewhere,
    /// The earliest of the lines that have the named states.
    EarliestLine,

    /// A no is refused by 16 where a line would not fit.
    NoMeets16,
    /// A no has the length of a line.
    NoHasALength,
    /// A no leaves the length as it was.
    NoLeavesTheLength,
    /// A yes is not refused by 16.
    YesFitsAlways,
    /// A yes is refused by 16 unless there is room beyond it.
    YesNeedsMore,

    /// No names are a no.
    NoNamesAreANo,
    /// No names are refused by 20.
    NoNamesRefused,
    /// Of lists of unequal length the fronts are taken.
    UnequalCut,
    /// Unequal lengths are looked at after the processes.
    UnequalAfterProcesses,
    /// Unequal lengths are looked at after the states.
    UnequalAfterStates,
    /// A process may stand twice, one after the other.
    EqualProcesses,
    /// Processes may stand in any order, each once.
    AnyOrder,
    /// A process of N is let pass; it has no states, so 22 catches it.
    ProcessN,
    /// The count may be named, as the new state.
    CountNamed,
    /// A state number of count - 1 is refused.
    LastStateRefused,
    /// State numbers are compared with the largest count.
    LargestCount,
    /// 22 is judged over the whole list before 21.
    StatesFirst,
    /// 21 and 22 are judged name by name.
    NameByName,
}

use Reading::*;

const WRONG: [Reading; 40] = [
    CausalPaths,
    SameIntervalAlone,
    IntervalBefore,
    OneMessage,
    CyclesIgnored,
    SentAfterTheNext,
    SentInItsInterval,
    SentBeforeTheState,
    ReceivedBeforeTheOneBefore,
    ReceivedJustBefore,
    ReceivedAfterTheState,
    WaitingTakePart,
    UnsavedAsWaiting,
    UnsavedAfterTheLast,
    OneWay,
    ThroughNamedProcesses,
    NeighboursInTheList,
    NeverNo,
    LastStatesElsewhere,
    CountsElsewhere,
    RecoveryLineElsewhere,
    EarliestLine,
    NoMeets16,
    NoHasALength,
    NoLeavesTheLength,
    YesFitsAlways,
    YesNeedsMore,
    NoNamesAreANo,
    NoNamesRefused,
    UnequalCut,
    UnequalAfterProcesses,
    UnequalAfterStates,
    EqualProcesses,
    AnyOrder,
    ProcessN,
    CountNamed,
    LastStateRefused,
    LargestCount,
    StatesFirst,
    NameByName,
];

/// What a call yields: the number, the length written if it is, and the line of
/// a yes.
#[derive(Clone, Debug, PartialEq, Eq)]
struct Told {
    number: u32,
    length: Option<usize>,
    line: Vec<u32>,
}

fn refused(number: u32) -> Told {
    Told {
        number,
        length: None,
        line: vec![],
    }
}

fn no() -> Told {
    Told {
        number: 0,
        length: Some(0),
        line: vec![],
    }
}

fn yes(line: &[u32]) -> Told {
    Told {
        number: 0,
        length: Some(2 * line.len()),
        line: line.to_vec(),
    }
}

impl Reading {
    /// The receipt number with which a message takes part in paths and lines.
    fn receipt(self, table: &Table, message: &Message) -> Option<u32> {
        let r = message.received;
        let unsaved = r == table.counts[message.receiver];
        match self {
            WaitingTakePart => Some(r),
            _ if r == 0 || self == UnsavedAsWaiting && unsaved => None,
            _ => Some(r),
        }
    }

    /// Whether a path leads from one named state to another or to itself.
    fn has_path(self, table: &Table, named: &[State]) -> bool {
        let is_named = |p: usize| named.iter().any(|&(process, _)| process == p);
        let mut parts: Vec<(&Message, u32)> = Vec::new();
        for message in &table.messages {
            let inner = is_named(message.sender) && is_named(message.receiver);
            if self == ThroughNamedProcesses && !inner {
                continue;
            }
            if let Some(r) = self.receipt(table, message) {
                parts.push((message, r));
            }
        }
        let m = parts.len();
        let mut leads = vec![vec![false; m]; m];
        for (k, &(first, r)) in parts.iter().enumerate() {
            for (l, &(second, _)) in parts.iter().enumerate() {
                let sent = second.sent;
                let interval = match self {
                    CausalPaths => r,
                    IntervalBefore => r.saturating_sub(2),
                    UnsavedAfterTheLast if r == table.counts[first.receiver] => r,
                    _ => r.saturating_sub(1),
                };
                let in_time = match self {
                    SameIntervalAlone => sent == interval,
                    _ => sent >= interval,
                };
                let next = second.sender == first.receiver && in_time;
                leads[k][l] = k == l || next && self != OneMessage;
            }
        }
        for via in 0..m {
            for k in 0..m {
                for l in 0..m {
                    leads[k][l] |= leads[k][via] && leads[via][l];
                }
            }
        }
        let joined = |(p, from): State, (q, to): State| {
            let begins = |&k: &usize| {
                let y = parts[k].0.sent;
                parts[k].0.sender == p
                    && match self {
                        SentAfterTheNext => y > from,
                        SentInItsInterval => y == from,
                        SentBeforeTheState => y + 1 >= from,
                        _ => y >= from,
                    }
            };
            let ends = |&l: &usize| {
                let r = parts[l].1;
                parts[l].0.receiver == q
                    && match self {
                        ReceivedBeforeTheOneBefore => r < to,
                        ReceivedJustBefore => r == to,
                        ReceivedAfterTheState => r <= to + 1,
                        _ => r <= to,
                    }
            };
            let mut firsts = (0..m).filter(begins);
            firsts.any(|k| (0..m).filter(ends).any(|l| leads[k][l]))
        };
        let compared = |one: usize, other: usize| match self {
            CyclesIgnored => one != other,
            OneWay => one <= other,
            NeighboursInTheList => one.abs_diff(other) <= 1,
            _ => true,
        };
        (0..named.len()).any(|one| {
            let mut others = (0..named.len()).filter(|&other| compared(one, other));
            others.any(|other| joined(named[one], named[other]))
        })
    }

    /// The lines that have no orphan, of all there are.
    fn consistent_lines(self, table: &Table) -> Vec<Vec<u32>> {
        let orphan = |message: &Message, line: &[u32]| {
            let before = |r: u32| r != 0 && r <= line[message.receiver];
            message.sent >= line[message.sender] && self.receipt(table, message).is_some_and(before)
        };
        let mut lines = all_at_or_below::<u32>(&table.counts);
        lines.retain(|line| !table.messages.iter().any(|message| orphan(message, line)));
        lines
    }

    /// The line of a yes. Where a reading says yes and no line has the named
    /// states, the latest below them.
    fn line(self, table: &Table, named: &[State]) -> Vec<u32> {
        let mut ceiling = table.counts.clone();
        if self == LastStatesElsewhere {
            ceiling.iter_mut().for_each(|at| *at -= 1);
        }
        if self == RecoveryLineElsewhere {
            ceiling = line_of_run(table);
        }
        for &(p, number) in named {
            ceiling[p] = number;
        }
        if [CountsElsewhere, RecoveryLineElsewhere].contains(&self) {
            return ceiling;
        }
        let below = |line: &Vec<u32>| line.iter().zip(&ceiling).all(|(at, top)| at <= top);
        let has_them = |line: &Vec<u32>| named.iter().all(|&(p, number)| line[p] == number);
        let mut lines = self.consistent_lines(table);
        lines.retain(below);
        if self == EarliestLine {
            lines.retain(has_them);
            let smaller = |one: Vec<u32>, other: Vec<u32>| {
                let pairs = one.into_iter().zip(other);
                pairs.map(|(a, b)| a.min(b)).collect()
            };
            return lines.into_iter().reduce(smaller).unwrap_or(ceiling);
        }
        if self != NeverNo && lines.iter().any(has_them) {
            lines.retain(has_them);
        }
        let latest = |one: Vec<u32>, other: Vec<u32>| larger(&one, &other);
        lines.into_iter().reduce(latest).expect("the line of zeros")
    }

    /// The number of the check that catches the lists, or 0.
    fn check(self, table: &Table, processes: &[u16], states: &[u16]) -> u32 {
        let n = table.processes();
        let unequal = processes.len() != states.len() && self != UnequalCut;
        let bad_process = |at: usize| {
            let process = usize::from(processes[at]);
            let before = at.checked_sub(1).map(|before| processes[before]);
            let outside = match self {
                ProcessN => process > n,
                _ => process >= n,
            };
            let out_of_order = match self {
                EqualProcesses => before.is_some_and(|before| processes[at] < before),
                AnyOrder => processes[..at].contains(&processes[at]),
                _ => before.is_some_and(|before| processes[at] <= before),
            };
            outside || out_of_order
        };
        let bad_state = |at: usize| {
            let process = processes.get(at).map(|&process| usize::from(process));
            let own = process.and_then(|p| table.counts.get(p));
            let count = match self {
                LargestCount => table.counts.iter().max(),
                _ => own,
            };
            let limit = match self {
                CountNamed => count.map_or(0, |count| count + 1),
                LastStateRefused => count.map_or(0, |count| count - 1),
                _ => count.copied().unwrap_or(0),
            };
            states
                .get(at)
                .is_some_and(|&number| u32::from(number) >= limit)
        };
        let names = processes.len().min(states.len());
        let mut checks = vec![
            (20, unequal),
            (21, (0..processes.len()).any(bad_process)),
            (22, (0..names).any(bad_state)),
        ];
        match self {
            UnequalAfterProcesses => checks.swap(0, 1),
            UnequalAfterStates => checks.rotate_left(1),
            StatesFirst => checks.swap(1, 2),
            NameByName => {
                checks.truncate(1);
                for at in 0..processes.len() {
                    checks.extend([(21, bad_process(at)), (22, bad_state(at))]);
                }
            }
            _ => {}
        }
        let first = checks.into_iter().find(|&(_, catches)| catches);
        first.map_or(0, |(number, _)| number)
    }

    /// The call.
    fn told(self, table: &Table, processes: &[u16], states: &[u16], room: usize) -> Told {
        let refusal = self.check(table, processes, states);
        if refusal != 0 {
            return refused(refusal);
        }
        let named: Vec<State> = processes
            .iter()
            .zip(states)
            .map(|(&p, &number)| (usize::from(p), u32::from(number)))
            .collect();
        if named.is_empty() && self == NoNamesRefused {
            return refused(20);
        }
        let needs = 2 * table.processes();
        let none = named.is_empty() && self == NoNamesAreANo;
        if none || self != NeverNo && self.has_path(table, &named) {
            return match self {
                NoMeets16 if room < needs => refused(16),
                NoHasALength => Told {
                    length: Some(needs),
                    ..no()
                },
                NoLeavesTheLength => Told {
                    length: None,
                    ..no()
                },
                _ => no(),
            };
        }
        let short = match self {
            YesFitsAlways => false,
            YesNeedsMore => room <= needs,
            _ => room < needs,
        };
        if short {
            refused(16)
        } else {
            yes(&self.line(table, &named))
        }
    }
}

/// The crate's call, on the bytes of a table.
fn by_call(table: &Table, processes: &[u16], states: &[u16], room: usize) -> Told {
    let outcome = stand_together(&table.to_bytes(), processes, states, room);
    assert_eq!((&outcome.lines, outcome.marks), (&None, None));
    let pairs = outcome.answer.chunks_exact(2);
    Told {
        number: outcome.number,
        length: (outcome.number == 0).then_some(outcome.answer.len()),
        line: pairs
            .map(|pair| u32::from(u16::from_le_bytes([pair[0], pair[1]])))
            .collect(),
    }
}

// ---------------------------------------------------------------------------
// Cases.

/// A table, the lists, the room, what the call yields as it was worked out by
/// hand, and the readings under which that is something else.
struct Case {
    table: Table,
    processes: Vec<u16>,
    states: Vec<u16>,
    room: usize,
    told: Told,
    wrong: Vec<Reading>,
}

/// A case with two lists and a room.
fn call(
    table: Table,
    (processes, states): (&[u16], &[u16]),
    room: usize,
    told: Told,
    wrong: &[Reading],
) -> Case {
    Case {
        table,
        processes: processes.to_vec(),
        states: states.to_vec(),
        room,
        told,
        wrong: wrong.to_vec(),
    }
}

/// A case with named states and room for a line.
fn case(table: Table, named: &[State], told: Told, wrong: &[Reading]) -> Case {
    let (processes, states) = lists(named);
    let room = 2 * table.processes();
    call(table, (&processes, &states), room, told, wrong)
}

/// Paths.
fn cases_of_paths() -> Vec<Case> {
    let one = |y: u32, r: u32| table(&[3, 3], &[((0, y), (1, r))]);
    // Two messages through process 1, received with r and sent on with y.
    let two = |r: u32, y: u32| table(&[2, 4, 2], &[((0, 0), (1, r)), ((1, y), (2, 1))]);
    let ends: &[State] = &[(0, 0), (2, 1)];
    vec![
        // One message, (0,1) to (1,2), and each of its four ends: a path where
        // state 1 or an earlier one of its sender is named and state 2 of its
        // receiver or a later one is. The other process stands at its count.
        case(
            one(1, 2),
            &[(0, 1), (1, 2)],
            no(),
            &[SentAfterTheNext, ReceivedBeforeTheOneBefore],
        ),
        case(
            one(1, 2),
            &[(0, 0), (1, 2)],
            no(),
            &[SentInItsInterval, ReceivedBeforeTheOneBefore],
        ),
        case(
            one(1, 1),
            &[(0, 1), (1, 2)],
            no(),
            &[SentAfterTheNext, ReceivedJustBefore],
        ),
        case(
            one(1, 2),
            &[(0, 2), (1, 2)],
            yes(&[2, 2]),
            &[SentBeforeTheState],
        ),
        case(
            one(1, 2),
            &[(0, 1), (1, 1)],
            yes(&[1, 1]),
            &[ReceivedAfterTheState],
        ),
        // The same with one name: no path ends at a process that is not named,
        // but the line of the yes may not have received what was sent after it.
        case(one(1, 2), &[(0, 1)], yes(&[1, 1]), &[CountsElsewhere]),
        case(one(1, 2), &[(0, 2)], yes(&[2, 3]), &[LastStatesElsewhere]),
        case(one(1, 2), &[(1, 2)], yes(&[3, 2]), &[LastStatesElsewhere]),
        // From the later name of the list to the earlier.
        case(
            table(&[2, 2], &[((1, 0), (0, 1))]),
            &[(0, 1), (1, 0)],
            no(),
            &[OneWay],
        ),
        // Received in interval 1 of process 1: what is sent on from there or
        // later makes a path, what was sent in interval 0 makes none. From y = 2
        // on it is a causal path.
        case(two(2, 0), ends, yes(&[0, 1, 1]), &[IntervalBefore]),
        case(two(2, 1), ends, no(), &[CausalPaths, OneMessage]),
        case(
            two(2, 2),
            ends,
            no(),
            &[SameIntervalAlone, OneMessage, ThroughNamedProcesses],
        ),
        case(two(2, 3), ends, no(), &[SameIntervalAlone]),
        // Saved at once, in interval 0.
        case(two(1, 0), ends, no(), &[CausalPaths]),
        // From the first name to the third, past the second.
        case(
            table(&[1, 1, 2], &[((0, 0), (2, 1))]),
            &[(0, 0), (1, 0), (2, 1)],
            no(),
            &[NeighboursInTheList],
        ),
        // Through a third process with the higher number, and a path of three.
        case(
            table(&[2, 2, 2], &[((0, 0), (2, 1)), ((2, 0), (1, 1))]),
            &[(0, 0), (1, 1)],
            no(),
            &[CausalPaths, OneMessage, ThroughNamedProcesses],
        ),
        case(
            table(
                &[2, 2, 2, 2],
                &[((2, 1), (3, 1)), ((1, 1), (2, 1)), ((0, 1), (1, 1))],
            ),
            &[(0, 1), (3, 1)],
            no(),
            &[SameIntervalAlone, OneMessage, ThroughNamedProcesses],
        ),
        // A state between its own messages: example D. State 1 of process 0 sent
        // what state 1 of process 1 received, and received what that process
        // sent in the same interval.
        case(
            example_d(),
            &[(0, 1)],
            no(),
            &[CyclesIgnored, CausalPaths, OneMessage, NeverNo],
        ),
        // The last two states of process 0 alike, by a later receipt.
        case(
            table(&[3, 2], &[((0, 2), (1, 1)), ((1, 1), (0, 1))]),
            &[(0, 1)],
            no(),
            &[CyclesIgnored, SameIntervalAlone],
        ),
        case(
            table(&[3, 2], &[((0, 2), (1, 1)), ((1, 1), (0, 2))]),
            &[(0, 1)],
            yes(&[1, 0]),
            &[ReceivedAfterTheState],
        ),
        // A message that waits, sent from state 0 to process 1.
        case(
            table(&[2, 2], &[((0, 0), (1, 0))]),
            &[(0, 0), (1, 0)],
            yes(&[0, 0]),
            &[WaitingTakePart],
        ),
        case(
            table(&[1, 1, 2], &[((0, 0), (1, 0)), ((1, 0), (2, 1))]),
            &[(0, 0), (2, 1)],
            yes(&[0, 1, 1]),
            &[WaitingTakePart],
        ),
        // Received and not saved, in the last interval of process 1: what it
        // sent in that interval makes a path, what it sent before makes none. It
        // keeps the new state of process 1 away.
        case(
            two(4, 3),
            ends,
            no(),
            &[CausalPaths, UnsavedAsWaiting, UnsavedAfterTheLast],
        ),
        case(two(4, 2), ends, yes(&[0, 3, 1]), &[UnsavedAsWaiting]),
        case(
            table(&[1, 1, 2], &[((0, 0), (1, 1)), ((1, 0), (2, 1))]),
            &[(0, 0), (2, 1)],
            no(),
            &[UnsavedAsWaiting, UnsavedAfterTheLast],
        ),
        // A cycle through an unsaved message.
        case(
            table(&[2, 2], &[((0, 1), (1, 2)), ((1, 1), (0, 1))]),
            &[(0, 1)],
            no(),
            &[UnsavedAsWaiting, UnsavedAfterTheLast, CyclesIgnored],
        ),
        // No named state has received it, and the new one is not named.
        case(
            table(&[1, 1], &[((0, 0), (1, 1))]),
            &[(0, 0), (1, 0)],
            yes(&[0, 0]),
            &[ReceivedAfterTheState],
        ),
        case(
            table(&[1, 1], &[((0, 0), (1, 1))]),
            &[(0, 0)],
            yes(&[0, 0]),
            &[UnsavedAsWaiting, CountsElsewhere],
        ),
    ]
}

/// Lines, answers and buffers.
fn cases_of_answers() -> Vec<Case> {
    let apart = || table(&[1, 4], &[]);
    vec![
        case(
            apart(),
            &[(0, 0)],
            yes(&[0, 4]),
            &[LastStatesElsewhere, RecoveryLineElsewhere, EarliestLine],
        ),
        case(apart(), &[(1, 2)], yes(&[1, 2]), &[LastStatesElsewhere]),
        case(apart(), &[(0, 0), (1, 2)], yes(&[0, 2]), &[]),
        // No names: the counts. The table may be one with no line between 0 0 and
        // the counts but 2 1.
        case(
            apart(),
            &[],
            yes(&[1, 4]),
            &[NoNamesAreANo, NoNamesRefused, LastStatesElsewhere],
        ),
        case(
            example_d(),
            &[],
            yes(&[2, 2]),
            &[NoNamesAreANo, NoNamesRefused, RecoveryLineElsewhere],
        ),
        // The latest of the lines that have state 1 of process 1: process 0 at
        // its new state, while the recovery line is 0 0.
        case(
            example_d(),
            &[(1, 1)],
            yes(&[2, 1]),
            &[LastStatesElsewhere, RecoveryLineElsewhere],
        ),
        // Of the processes that are not named one goes back because another does:
        // (0,1) to (1,2), (1,1) to (2,2).
        case(
            table(&[2, 3, 3], &[((0, 1), (1, 2)), ((1, 1), (2, 2))]),
            &[(0, 1)],
            yes(&[1, 1, 1]),
            &[CountsElsewhere, EarliestLine],
        ),
        // State 2 of process 0 of example A stands with nothing.
        case(example_a(), &[(0, 2)], no(), &[NeverNo, CyclesIgnored]),
        // A no whatever the room; a yes has 2N bytes.
        call(
            example_d(),
            (&[0], &[1]),
            0,
            no(),
            &[NoMeets16, NoHasALength, NoLeavesTheLength],
        ),
        call(example_d(), (&[0], &[1]), 3, no(), &[NoMeets16]),
        call(
            example_d(),
            (&[0], &[1]),
            4,
            no(),
            &[NoHasALength, NoLeavesTheLength],
        ),
        call(example_d(), (&[1], &[1]), 3, refused(16), &[YesFitsAlways]),
        call(example_d(), (&[], &[]), 0, refused(16), &[YesFitsAlways]),
        call(example_d(), (&[1], &[1]), 4, yes(&[2, 1]), &[YesNeedsMore]),
    ]
}

/// Checks.
fn cases_of_checks() -> Vec<Case> {
    let t = || table(&[2, 3, 1], &[]);
    let lists = |processes: &[u16], states: &[u16], told: Told, wrong: &[Reading]| {
        call(t(), (processes, states), 6, told, wrong)
    };
    vec![
        // 20.
        lists(&[0], &[], refused(20), &[UnequalCut]),
        lists(&[], &[0], refused(20), &[UnequalCut]),
        lists(&[0, 1], &[0], refused(20), &[UnequalCut]),
        lists(&[0, 1], &[0, 0, 0], refused(20), &[UnequalCut]),
        // 20 before 21: the process is N or above, or not above the one before.
        lists(&[3], &[], refused(20), &[UnequalAfterProcesses]),
        lists(&[1, 1], &[0], refused(20), &[UnequalAfterProcesses]),
        lists(&[1, 0], &[0, 0, 0], refused(20), &[UnequalAfterProcesses]),
        // 20 before 22.
        lists(&[0, 1], &[2], refused(20), &[UnequalAfterStates]),
        lists(&[0], &[2, 0], refused(20), &[UnequalAfterStates]),
        // 21: N, above it, equal, falling; from both sides.
        lists(&[2], &[0], yes(&[2, 3, 0]), &[LastStateRefused]),
        lists(&[3], &[0], refused(21), &[ProcessN]),
        lists(&[0, 1, 2, 3], &[0, 0, 0, 0], refused(21), &[ProcessN]),
        lists(&[65_535], &[0], refused(21), &[StatesFirst]),
        lists(&[0, 0], &[0, 0], refused(21), &[EqualProcesses]),
        lists(&[0, 0], &[0, 1], refused(21), &[EqualProcesses]),
        lists(&[0, 2, 2], &[0, 0, 0], refused(21), &[EqualProcesses]),
        lists(&[1, 0], &[0, 0], refused(21), &[AnyOrder]),
        lists(&[0, 2, 1], &[0, 0, 0], refused(21), &[AnyOrder]),
        lists(&[1, 2, 0], &[0, 0, 0], refused(21), &[AnyOrder]),
        lists(&[0, 1, 2], &[0, 0, 0], yes(&[0, 0, 0]), &[]),
        // 22: the count and above it, and the last state.
        lists(&[0], &[1], yes(&[1, 3, 1]), &[LastStateRefused]),
        lists(&[0], &[2], refused(22), &[CountNamed, LargestCount]),
        lists(&[1], &[3], refused(22), &[CountNamed]),
        lists(&[2], &[1], refused(22), &[CountNamed, LargestCount]),
        lists(&[0], &[65_535], refused(22), &[]),
        lists(&[0, 1, 2], &[1, 2, 1], refused(22), &[CountNamed]),
        // 21 before 22, also where the bad state stands before the bad process.
        lists(&[0, 3], &[2, 0], refused(21), &[StatesFirst, NameByName]),
        lists(&[0, 0], &[2, 0], refused(21), &[StatesFirst, NameByName]),
        lists(&[1, 0], &[9, 9], refused(21), &[StatesFirst, NameByName]),
        lists(&[3], &[9], refused(21), &[StatesFirst, ProcessN]),
        // 22 before 16, and before a no that would need no room.
        call(t(), (&[0], &[2]), 0, refused(22), &[CountNamed]),
        call(t(), (&[0], &[1]), 5, refused(16), &[YesFitsAlways]),
        call(
            example_d(),
            (&[0, 1], &[1, 2]),
            0,
            refused(22),
            &[CountNamed],
        ),
    ]
}

fn cases() -> Vec<Case> {
    let mut all = cases_of_paths();
    all.extend(cases_of_answers());
    all.extend(cases_of_checks());
    all
}

/// Each case by the crate's call and by the other way.
#[test]
fn by_hand() {
    for case in cases() {
        let (processes, states) = (&case.processes, &case.states);
        let other = AsWritten.told(&case.table, processes, states, case.room);
        assert_eq!(
            other, case.told,
            "{:?} {processes:?} {states:?}",
            case.table
        );
        let told = by_call(&case.table, processes, states, case.room);
        assert_eq!(told, case.told, "{:?} {processes:?} {states:?}", case.table);
    }
}

/// Under a wrong reading a case that names it yields something else.
#[test]
fn wrong_readings_are_caught() {
    let cases = cases();
    for case in &cases {
        let (processes, states) = (&case.processes, &case.states);
        for reading in &case.wrong {
            let told = reading.told(&case.table, processes, states, case.room);
            assert_ne!(
                told, case.told,
                "{reading:?} {:?} {processes:?} {states:?}",
                case.table
            );
        }
    }
    for reading in WRONG {
        let caught = cases.iter().any(|case| case.wrong.contains(&reading));
        assert!(caught, "no case catches {reading:?}");
    }
}

/// Examples A and D, with every list of names. Of A the consistent lines are
/// 0 0, 0 1, 1 1, 3 2 and 3 3, and of D 0 0, 2 1 and 2 2, so that each answer is
/// the latest of these that has the named states.
#[test]
fn names_of_the_examples() {
    let told = |table: &Table, at_0: Option<u16>, at_1: Option<u16>| {
        let named = [at_0, at_1].into_iter().enumerate();
        let named: Vec<State> = named
            .filter_map(|(p, at)| Some((p, u32::from(at?))))
            .collect();
        let (processes, states) = lists(&named);
        by_call(table, &processes, &states, 4)
    };
    let of_a: [[Option<[u32; 2]>; 4]; 4] = [
        // Process 1 unnamed, and named with 0, 1, 2; process 0 unnamed.
        [Some([3, 3]), Some([0, 0]), Some([1, 1]), Some([3, 2])],
        // Process 0 named with 0, 1, 2.
        [Some([0, 1]), Some([0, 0]), Some([0, 1]), None],
        [Some([1, 1]), None, Some([1, 1]), None],
        [None, None, None, None],
    ];
    let of_d: [[Option<[u32; 2]>; 3]; 3] = [
        [Some([2, 2]), Some([0, 0]), Some([2, 1])],
        [Some([0, 0]), Some([0, 0]), None],
        [None, None, None],
    ];
    let name = |at: usize| at.checked_sub(1).map(|number| number as u16);
    let expected = |line: Option<[u32; 2]>| line.map_or(no(), |line| yes(&line));
    for (c, row) in of_a.into_iter().enumerate() {
        for (d, line) in row.into_iter().enumerate() {
            let told = told(&example_a(), name(c), name(d));
            assert_eq!(told, expected(line), "{c} {d}");
        }
    }
    for (c, row) in of_d.into_iter().enumerate() {
        for (d, line) in row.into_iter().enumerate() {
            let told = told(&example_d(), name(c), name(d));
            assert_eq!(told, expected(line), "{c} {d}");
        }
    }
}

// ---------------------------------------------------------------------------
// Figure 1 of source document 003.

/// A run with the facts that source document 003 tells of its Figure 1, whose
/// processes p1, p2, p3 are 0, 1, 2 here and whose messages m1 to m5 stand at
/// positions 0 to 4. Section 2: with the recovery from the fault all go back to
/// their first states; from state 1 of p2 the undone m5 puts p1 back to state 1,
/// and from there the undone m4 puts p2 back to state 0. Section 4: m1 and m2
/// are a zigzag path from state 0 of p1 to state 1 of p3, in which m1 is received
/// after m2 was sent; these two states are unordered, and none of p2 stands with
/// both; m5 and m4 are a zigzag cycle of state 1 of p2; m3, m1 and m2 are one of
/// state 1 of p3. The text does not tell whether p1 saved after it received m5;
/// here it did not.
fn figure_1() -> Table {
    table(
        &[2, 2, 2],
        &[
            ((0, 0), (1, 1)),
            ((1, 0), (2, 1)),
            ((2, 1), (0, 1)),
            ((0, 1), (1, 1)),
            ((1, 1), (0, 2)),
        ],
    )
}

/// The table of the figure is what steps make, the sends in the order of their
/// numbers, and m1 received after m2 was sent.
#[test]
fn figure_1_is_a_run() {
    let mut run = Table::start(3);
    do_send(&mut run, 0, 1); // m1
    do_send(&mut run, 1, 2); // m2
    do_save(&mut run, 2, &[1]);
    do_send(&mut run, 2, 0); // m3
    do_save(&mut run, 0, &[2]);
    do_send(&mut run, 0, 1); // m4
    do_receive(&mut run, 1, &[0]);
    do_save(&mut run, 1, &[3]);
    do_send(&mut run, 1, 0); // m5
    do_receive(&mut run, 0, &[4]);
    assert_eq!(run, figure_1());
}

/// The facts of the figure, one by one.
#[test]
fn facts_of_figure_1() {
    let figure = figure_1();
    let stands = |named: &[State]| {
        let (processes, states) = lists(named);
        by_call(&figure, &processes, &states, 6)
    };
    let causal = |named: &[State]| {
        let (processes, states) = lists(named);
        CausalPaths.told(&figure, &processes, &states, 6)
    };
    // All go back to their first states.
    assert_eq!(line_of_run(&figure), [0, 0, 0]);
    // m5, undone with state 1 of p2, was received in interval 1 of p1, and m4,
    // undone with state 1 of p1, in interval 0 of p2.
    assert_eq!(figure.messages[4], Message::new((1, 1), (0, 2)));
    assert_eq!(figure.messages[3], Message::new((0, 1), (1, 1)));

    // m1 and m2: not together though no causal path joins the two states, with
    // no state of p2, the new one included, between them.
    let (c10, c31) = ((0, 0), (2, 1));
    assert!(is_path(&figure, c10, c31, &[0, 1]));
    assert_eq!(path(&figure, &[c10], &[c31]), Some(vec![0, 1]));
    assert_eq!(path(&figure, &[c31], &[c10]), None);
    assert_eq!(stands(&[c10, c31]), no());
    assert!(!CausalPaths.has_path(&figure, &[c10, c31]));
    for c in 0..2 {
        assert_eq!(stands(&[c10, (1, c), c31]), no());
    }
    for c in 0..=2 {
        assert!(!is_consistent(&figure, &[0, c, 1]));
    }

    // m5 and m4: state 1 of p2 is useless, which causal paths do not tell.
    let c21 = (1, 1);
    assert!(is_path(&figure, c21, c21, &[4, 3]));
    assert_eq!(path(&figure, &[c21], &[c21]), Some(vec![4, 3]));
    assert_eq!(stands(&[c21]), no());
    assert_ne!(causal(&[c21]), no());

    // m3, m1 and m2: so is state 1 of p3.
    assert!(is_path(&figure, c31, c31, &[2, 0, 1]));
    assert_eq!(path(&figure, &[c31], &[c31]), Some(vec![2, 0, 1]));
    assert_eq!(stands(&[c31]), no());
    assert_ne!(causal(&[c31]), no());

    // No part of these paths is one by itself, nor are they the other way round.
    for positions in [&[][..], &[0], &[1], &[1, 0]] {
        assert!(!is_path(&figure, c10, c31, positions), "{positions:?}");
    }
    for positions in [&[4][..], &[3], &[3, 4]] {
        assert!(!is_path(&figure, c21, c21, positions), "{positions:?}");
    }
    for positions in [&[2, 0][..], &[0, 1], &[2, 1], &[0, 2, 1], &[1, 0, 2]] {
        assert!(!is_path(&figure, c31, c31, positions), "{positions:?}");
    }

    // With the first states all stand, alone and together; state 1 of p1 is
    // useless too, since the domino has no stop before the start.
    for p in 0..3 {
        assert_eq!(stands(&[(p, 0)]), yes(&[0, 0, 0]));
    }
    assert_eq!(stands(&[(0, 0), (1, 0), (2, 0)]), yes(&[0, 0, 0]));
    assert_eq!(stands(&[(0, 1)]), no());
    assert_eq!(stands(&[]), yes(&[2, 2, 2]));

    // The same facts hold where p1 has saved what m5 brought.
    let mut saved = figure.clone();
    do_save(&mut saved, 0, &[]);
    assert_eq!(line_of_run(&saved), [0, 0, 0]);
    assert!(is_path(&saved, c21, c21, &[4, 3]));
    assert_eq!(path(&saved, &[c10], &[c31]), Some(vec![0, 1]));
    assert_eq!(path(&saved, &[c31], &[c31]), Some(vec![2, 0, 1]));
}

// ---------------------------------------------------------------------------
// All small tables.

/// Every choice of saved states, at most one of each process.
fn all_names(table: &Table) -> Vec<Vec<State>> {
    let mut all = vec![Vec::new()];
    for (p, &count) in table.counts.iter().enumerate() {
        let longer: Vec<Vec<State>> = all
            .iter()
            .flat_map(|named: &Vec<State>| {
                (0..count).map(move |number| [&named[..], &[(p, number)]].concat())
            })
            .collect();
        all.extend(longer);
    }
    all
}

/// The latest of the given lines that have the named states, if any has.
fn latest_with(lines: &[Vec<u32>], named: &[State]) -> Option<Vec<u32>> {
    lines
        .iter()
        .filter(|line| named.iter().all(|&(p, number)| line[p] == number))
        .cloned()
        .reduce(|one, other| larger(&one, &other))
}

/// The theorem, by trying every line: a yes exactly when some consistent line
/// has the named states, and then the answer is the latest of these, itself one
/// of them; a no exactly when a chain of messages is a path between them, and
/// the one that is found is one. The latest line under the named states and the
/// other counts, by the work list, has them all exactly then, and is the answer.
#[test]
fn with_all_names_of_all_small_tables() {
    let (mut times, mut noes) = (0, 0);
    let mut by_length = [0; 5];
    for table in small_tables() {
        let mut consistent = all_at_or_below::<u32>(&table.counts);
        consistent.retain(|line| is_consistent(&table, line));
        for named in all_names(&table) {
            let (processes, states) = lists(&named);
            let told = by_call(&table, &processes, &states, 2 * table.processes());
            let latest = latest_with(&consistent, &named);
            let expected = latest.as_deref().map_or(no(), yes);
            assert_eq!(told, expected, "{table:?} {named:?}");
            if let Some(line) = &latest {
                assert!(consistent.contains(line), "{table:?} {named:?}");
            }
            let mut ceiling = table.counts.clone();
            for &(p, number) in &named {
                ceiling[p] = number;
            }
            let under = line_by_work_list(&table, &ceiling);
            let holds = named.iter().all(|&(p, number)| under[p] == number);
            assert_eq!(latest, holds.then_some(under), "{table:?} {named:?}");
            if let Some(found) = path(&table, &named, &named) {
                let from = table.messages[found[0]].sender;
                let to = table.messages[found[found.len() - 1]].receiver;
                let at = |p: usize| *named.iter().find(|state| state.0 == p).unwrap();
                assert!(is_path(&table, at(from), at(to), &found));
                assert!(latest.is_none(), "{table:?} {named:?}");
                by_length[found.len()] += 1;
                noes += 1;
            }
            times += 1;
        }
    }
    let [none, one, more @ ..] = by_length;
    assert_eq!(none, 0);
    assert!(one > 1_000 && more[0] > 1_000, "{by_length:?}");
    assert!(times > 200_000 && noes > 50_000, "{times} {noes}");
}

/// All lists of positions of the table without one that stands twice, from one
/// on.
fn all_chains(table: &Table) -> Vec<Vec<usize>> {
    let mut all: Vec<Vec<usize>> = Vec::new();
    let mut longest: Vec<Vec<usize>> = vec![Vec::new()];
    while !longest.is_empty() {
        let longer = |chain: &Vec<usize>| {
            let others = (0..table.messages.len()).filter(|k| !chain.contains(k));
            let longer: Vec<Vec<usize>> = others.map(|k| [&chain[..], &[k]].concat()).collect();
            longer
        };
        longest = longest.iter().flat_map(longer).collect();
        all.extend(longest.iter().cloned());
    }
    all
}

/// The search finds a path from one state to another, or to itself, exactly when
/// some chain of messages is one, and finds none that is longer than needed. A
/// chain that passes a message twice can leave out what lies between, so chains
/// without such are all that need be tried. A path does not look at the order of
/// channels, and these tables are of both kinds.
#[test]
fn every_chain_of_messages() {
    let mut paths = 0;
    for table in [(2, 2, 3), (2, 3, 2), (3, 2, 2), (4, 1, 2)]
        .into_iter()
        .flat_map(|(n, c, m)| all_tables_of_both_sides(n, c, m))
    {
        let chains = all_chains(&table);
        let states: Vec<State> = (0..table.processes())
            .flat_map(|p| (0..table.counts[p]).map(move |c| (p, c)))
            .collect();
        for &from in &states {
            for &to in &states {
                let shortest = chains
                    .iter()
                    .filter(|chain| is_path(&table, from, to, chain))
                    .map(Vec::len)
                    .min();
                let found = path(&table, &[from], &[to]);
                assert_eq!(found.as_ref().map(Vec::len), shortest);
                if let Some(found) = found {
                    assert!(is_path(&table, from, to, &found), "{table:?}");
                    paths += 1;
                }
            }
        }
    }
    assert!(paths > 10_000, "{paths}");
}

/// The call on all names and the lists at the boundaries, with rooms on both
/// sides, agrees with the other way; and each wrong reading differs somewhere.
#[test]
fn readings_on_all_small_tables() {
    let mut differs = [0; WRONG.len()];
    let mut calls = 0;
    for table in [(2, 2, 2), (2, 3, 1), (3, 2, 1), (3, 1, 2)]
        .into_iter()
        .flat_map(|(n, c, m)| all_tables(n, c, m))
    {
        let mut all = boundary_names(&table);
        all.extend(all_names(&table).iter().map(|named| lists(named)));
        for (processes, states) in &all {
            let least = 2 * table.processes();
            for room in [0, least - 1, least, least + 1] {
                let told = by_call(&table, processes, states, room);
                let other = AsWritten.told(&table, processes, states, room);
                assert_eq!(other, told, "{table:?} {processes:?} {states:?} {room}");
                if room >= least - 1 {
                    for (place, reading) in WRONG.iter().enumerate() {
                        let wrong = reading.told(&table, processes, states, room);
                        differs[place] += usize::from(wrong != told);
                    }
                }
                calls += 1;
            }
        }
    }
    assert!(calls > 50_000, "{calls}");
    for (reading, times) in WRONG.iter().zip(differs) {
        assert!(times > 0, "{reading:?}");
    }
}

/// What holds of all names of small tables: fewer names stand where more do, no
/// earlier; states stand together exactly when any two of them do and each does
/// alone; and with the states of the answer's line for names the answer is the
/// same line.
#[test]
fn fewer_names_and_more() {
    let (mut yeses, mut noes) = (0, 0);
    for table in small_tables().step_by(2) {
        let told = |named: &[State]| {
            let (processes, states) = lists(named);
            by_call(&table, &processes, &states, 2 * table.processes())
        };
        for named in all_names(&table) {
            let whole = told(&named);
            let mut apart = false;
            for one in 0..named.len() {
                for other in one..named.len() {
                    let mut pair = vec![named[one]];
                    pair.extend((one < other).then_some(named[other]));
                    apart |= told(&pair) == no();
                }
                let mut fewer = named.clone();
                fewer.remove(one);
                let fewer = told(&fewer);
                if whole != no() {
                    let mut pairs = whole.line.iter().zip(&fewer.line);
                    assert!(pairs.all(|(at, later)| at <= later), "{table:?} {named:?}");
                    assert_ne!(fewer, no());
                }
            }
            assert_eq!(whole == no(), apart, "{table:?} {named:?}");
            if apart {
                noes += 1;
                continue;
            }
            let of_line: Vec<State> = (0..table.processes())
                .map(|p| (p, whole.line[p]))
                .filter(|&(p, number)| number < table.counts[p])
                .collect();
            assert_eq!(told(&of_line), whole, "{table:?} {named:?}");
            yeses += 1;
        }
    }
    assert!(yeses > 50_000 && noes > 20_000, "{yeses} {noes}");
}

// ---------------------------------------------------------------------------
// Larger tables.

/// Chance names on chance tables and on the largest ones: a yes exactly when the
/// latest line under the names, by the work list, has them all, and then that
/// line; else the path that is found is one. On the smaller ones the other way
/// to do it agrees too.
#[test]
fn with_chance_names() {
    let mut rng = Rng::new(26);
    let (mut yeses, mut noes, mut longest) = (0, 0, 0);
    let mut agree = |rng: &mut Rng, table: &Table, times: usize| {
        for _ in 0..times {
            let (processes, states) = names(rng, table);
            let named: Vec<State> = processes
                .iter()
                .zip(&states)
                .map(|(&p, &number)| (usize::from(p), u32::from(number)))
                .collect();
            let told = by_call(table, &processes, &states, 64);
            let mut ceiling = table.counts.clone();
            for &(p, number) in &named {
                ceiling[p] = number;
            }
            let under = line_by_work_list(table, &ceiling);
            if named.iter().all(|&(p, number)| under[p] == number) {
                assert_eq!(told, yes(&under));
                assert_eq!(path(table, &named, &named), None);
                yeses += 1;
            } else {
                assert_eq!(told, no());
                let found = path(table, &named, &named).expect("a path");
                let from = table.messages[found[0]].sender;
                let to = table.messages[found[found.len() - 1]].receiver;
                let at = |p: usize| *named.iter().find(|state| state.0 == p).unwrap();
                assert!(is_path(table, at(from), at(to), &found));
                longest = longest.max(found.len());
                noes += 1;
            }
            if table.messages.len() <= 12 && table.counts.iter().product::<u32>() < 200 {
                let room = rng.between(0, 2 * table.processes() + 2);
                assert_eq!(
                    by_call(table, &processes, &states, room),
                    AsWritten.told(table, &processes, &states, room),
                    "{table:?} {named:?}"
                );
            }
        }
    };
    for round in 0..3000 {
        let n = rng.between(1, 8);
        let m = rng.between(0, 40);
        let table = match round % 4 {
            0 => arbitrary(&mut rng, n, m, 9),
            1 => clustered(&mut rng, n, m),
            2 => arbitrary(&mut rng, n.min(4), m / 4, 3),
            _ => history(&mut rng, n, m),
        };
        agree(&mut rng, &table, 6);
    }
    for table in limit_tables(&mut rng) {
        agree(&mut rng, &table, 8);
    }
    for round in 0..10 {
        let n = rng.between(2, 32);
        let most = [2, 30, 4096][round % 3];
        let table = arbitrary(&mut rng, n, 4096, most);
        agree(&mut rng, &table, 4);
        let table = clustered(&mut rng, n, 4096);
        agree(&mut rng, &table, 4);
        let table = ring_domino(&mut rng, n, 4096, Order::ALL[round % 6]);
        agree(&mut rng, &table, 4);
    }
    assert!(yeses > 10_000 && noes > 4_000, "{yeses} {noes}");
    assert!(longest > 10, "{longest}");
}

/// A domino of m messages: from the last state of process 0 all of them, from
/// the latest to the earliest, are one path to state 1 of the same process, and
/// no shorter one leads there. The order in the table makes no difference.
#[test]
fn the_path_through_a_domino() {
    let mut rng = Rng::new(27);
    for order in Order::ALL {
        for m in [2, 4, 10, 100, 1000, 4096] {
            let table = domino_chain(&mut rng, m, order);
            let last = (0, m as u32 / 2);
            let found = path(&table, &[last], &[(0, 1)]).expect("a path");
            assert_eq!(found.len(), m, "{order:?}");
            assert!(is_path(&table, last, (0, 1), &found));
            // From the last state of process 1 nothing was sent.
            let found = path(&table, &[(1, m as u32 / 2)], &[(0, 1)]);
            assert_eq!(found, None);
            // Every state of process 0 from 1 on is on a cycle; the states 0 are not.
            for c in [1, m as u32 / 4 + 1, m as u32 / 2] {
                assert_eq!(by_call(&table, &[0], &[c as u16], 4), no());
            }
            assert_eq!(by_call(&table, &[0, 1], &[0, 0], 4), yes(&[0, 0]));
        }
    }
}

// ---------------------------------------------------------------------------
// The call: its lists, its buffers and its checks.

/// Each state number on both sides of the count, under counts on both sides of
/// a byte and at the limit; the other processes named or not. Without messages
/// the line is the names and the counts.
#[test]
fn state_numbers_up_to_the_last() {
    for counts in [
        vec![1],
        vec![5],
        vec![4096],
        vec![3, 1, 4096],
        vec![255, 256, 257],
        vec![2; 32],
    ] {
        let n = counts.len();
        let bytes = of_counts(&counts);
        let all: Vec<u16> = (0..n as u16).collect();
        for p in 0..n {
            let count = counts[p];
            for at in [0, count / 2, count - 1] {
                let mut line = counts.clone();
                line[p] = at;
                let alone = stand_together(&bytes, &[p as u16], &[at], 2 * n);
                assert_eq!((alone.number, alone.answer), (0, numbers(&line)));
                let mut states = vec![0; n];
                states[p] = at;
                let with_all = stand_together(&bytes, &all, &states, 2 * n);
                assert_eq!((with_all.number, with_all.answer), (0, numbers(&states)));
                let short = stand_together(&bytes, &all, &states, 2 * n - 1);
                assert_eq!(short, Outcome::refused(16));
            }
            for at in [count, count + 1, count + 256, 4096, 4097, 32_768, 65_535] {
                if at < count {
                    continue;
                }
                // The others as low and as wrong as can be.
                for others in [0, 65_535] {
                    let mut states = vec![others; n];
                    states[p] = at;
                    for room in [0, 2 * n - 1, 2 * n, ROOM] {
                        let alone = stand_together(&bytes, &[p as u16], &[at], room);
                        assert_eq!(alone, Outcome::refused(22));
                        let with_all = stand_together(&bytes, &all, &states, room);
                        assert_eq!(with_all, Outcome::refused(22));
                    }
                }
            }
        }
    }
}

/// Processes from 0 to N - 1, strictly rising, and no others: every list of at
/// most three numbers up to N + 1 and of 65,535, on three processes.
#[test]
fn lists_of_processes() {
    let bytes = of_counts(&[2, 2, 2]);
    let choices = [0, 1, 2, 3, 4, 65_535];
    let mut all: Vec<Vec<u16>> = vec![vec![]];
    let mut longest = all.clone();
    for _ in 0..3 {
        let longer = |list: &Vec<u16>| choices.map(|p| [&list[..], &[p]].concat());
        longest = longest.iter().flat_map(longer).collect();
        all.extend(longest.iter().cloned());
    }
    let good: [&[u16]; 8] = [&[], &[0], &[1], &[2], &[0, 1], &[0, 2], &[1, 2], &[0, 1, 2]];
    let mut accepted = 0;
    for list in &all {
        let told = stand_together(&bytes, list, &vec![1; list.len()], 6);
        if good.contains(&&list[..]) {
            let line: Vec<u16> = (0..3)
                .map(|p| if list.contains(&p) { 1 } else { 2 })
                .collect();
            assert_eq!((told.number, told.answer), (0, numbers(&line)));
            accepted += 1;
        } else {
            assert_eq!(told, Outcome::refused(21), "{list:?}");
        }
    }
    assert_eq!((all.len(), accepted), (1 + 6 + 36 + 216, 8));
}

/// Any two lengths that differ give 20, before 21 and 22 look at a number and
/// before 16; equal ones above N give 21, since no such list rises below N.
#[test]
fn lengths_of_the_lists() {
    let lengths = [0, 1, 2, 31, 32, 33, 255, 256, 65_535, 65_536, 65_538];
    for n in [1, 2, 32] {
        let bytes = of_counts(&vec![7; n]);
        for p in lengths {
            for s in lengths {
                for (first, at) in [(0, 0), (0, 7), (9, 0), (65_535, 65_535)] {
                    let processes: Vec<u16> = (0..p).map(|k| (first + k) as u16).collect();
                    let states = vec![at as u16; s];
                    let number = match () {
                        _ if p != s => 20,
                        _ if first + p > n && p > 0 => 21,
                        _ if at == 7 && p > 0 => 22,
                        _ => 0,
                    };
                    let told = |room| stand_together(&bytes, &processes, &states, room);
                    assert_eq!(told(ROOM).number, number, "{n} {p} {s} {first} {at}");
                    let short = if number == 0 { 16 } else { number };
                    assert_eq!(told(2 * n - 1), Outcome::refused(short));
                    assert_eq!(told(0), Outcome::refused(short));
                }
            }
        }
    }
}

/// A no fits every buffer and a yes one of 2N bytes or more, on the same table.
#[test]
fn rooms() {
    let bytes = example_a().to_bytes();
    for room in [0, 1, 2, 3, 4, 5, 64, ROOM] {
        for (processes, states) in [(vec![0], vec![2]), (vec![0, 1], vec![1, 2])] {
            let told = stand_together(&bytes, &processes, &states, room);
            assert_eq!((told.number, told.answer), (0, vec![]));
        }
        for (processes, states, line) in [
            (vec![], vec![], [3, 0, 3, 0]),
            (vec![1], vec![2], [3, 0, 2, 0]),
            (vec![0, 1], vec![1, 1], [1, 0, 1, 0]),
        ] {
            let told = stand_together(&bytes, &processes, &states, room);
            if room < 4 {
                assert_eq!(told, Outcome::refused(16));
            } else {
                assert_eq!((told.number, told.answer), (0, line.to_vec()));
            }
        }
    }
    assert_eq!(line_to_bytes(&[3, 2]), [3, 0, 2, 0]);
}

/// A refused table answers its own number, whatever else there is.
#[test]
fn tables_before_names() {
    let refused = [
        (vec![2, 0, 5], 1),
        (numbers(&[0, 0]), 2),
        (numbers(&[33, 0]), 2),
        (numbers(&[2, 4097, 1, 1]), 3),
        (numbers(&[2, 0, 1]), 4),
        (numbers(&[2, 0, 1, 4097]), 5),
        (numbers(&[2, 1, 2, 2, 2, 0, 1, 0]), 6),
        (numbers(&[2, 1, 2, 2, 1, 0, 1, 0]), 7),
        (numbers(&[2, 1, 2, 2, 0, 2, 1, 0]), 8),
        (numbers(&[2, 1, 2, 2, 0, 1, 1, 3]), 9),
    ];
    let lists: [&[u16]; 6] = [&[], &[0], &[0, 1], &[1, 0], &[9, 9], &[9, 9, 9]];
    for (bytes, number) in refused {
        for processes in lists {
            for states in lists {
                for room in [0, ROOM] {
                    let told = stand_together(&bytes, processes, states, room);
                    assert_eq!(told, Outcome::refused(number));
                }
            }
        }
    }
    for received in [0, 1, 2] {
        let accepted = numbers(&[2, 1, 2, 2, 0, 1, 1, received]);
        assert_eq!(
            stand_together(&accepted, &[0], &[], 0),
            Outcome::refused(20)
        );
        assert_eq!(
            stand_together(&accepted, &[2], &[2], 0),
            Outcome::refused(21)
        );
        assert_eq!(
            stand_together(&accepted, &[1], &[2], 0),
            Outcome::refused(22)
        );
        assert_eq!(
            stand_together(&accepted, &[1], &[0], 0),
            Outcome::refused(16)
        );
    }
}
