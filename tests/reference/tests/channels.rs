//! Channels deliver in turn, document 02, §7: cases worked out by hand and the
//! wrong readings that they catch, both ways to make check 23, and what holds of
//! steps on all small tables.

mod common;

use common::{small_tables, table};
use reference::futures::{ends, Steps};
use reference::gen::*;
use reference::steps::{do_receive, do_save, list_is_bad};
use reference::table::{out_of_turn_by_channel, out_of_turn_in_pairs, State};
use reference::*;

const ROOM: usize = 40_000;

// ---------------------------------------------------------------------------
// Readings. Each has the checks of tables and calls with one thing changed,
// written once more. The sizes are not tried here, so the table's checks begin
// with 5.

#[derive(Clone, Copy, Debug, PartialEq, Eq)]
enum Reading {
    /// As document 02 has it.
    AsWritten,
    /// A smaller send number is no fault.
    SmallerSendsAccepted,
    /// A message may be received while an earlier one waits.
    ReceivedWhileItWaitsAccepted,
    /// A smaller receipt number is no fault.
    SmallerReceiptsAccepted,
    /// Send numbers must rise, and not only not fall.
    EqualSendsRefused,
    /// Receipt numbers must rise.
    EqualReceiptsRefused,
    /// Of one channel one message may wait.
    BothWaitingRefused,
    /// Receipt numbers are compared as they stand, and 0 is the smallest.
    WaitingIsZero,
    /// What is unsaved waits, as it did before §4.
    UnsavedIsWaiting,
    /// Only neighbours in the table are compared.
    NeighboursInTheTable,
    /// Both directions between two processes are one channel.
    BothDirections,
    /// All messages to one receiver are one channel.
    OneReceiver,
    /// All messages of one sender are one channel.
    OneSender,
    /// 23 comes before 9.
    BeforeNine,
    /// 23 comes before 8.
    BeforeEight,
    /// 23 comes after the checks of the call.
    AfterTheCalls,
    /// 23 is a check of steps, and not of questions.
    OfStepsOnly,
    /// 24 is a check of saves alone.
    OfSavesOnly,
    /// 24 is a check of receipts alone.
    OfReceiptsOnly,
    /// 24 comes before 13.
    BeforeThirteen,
    /// 24 comes after 14.
    AfterFourteen,
    /// 24 comes after 16.
    AfterSixteen,
    /// An older waiting message is passed over, listed or not.
    ListedOnesToo,
    /// A younger waiting message that is not listed counts too.
    YoungerOnesToo,
    /// An older message that is received counts too.
    ReceivedOnesToo,
    /// An older waiting message of another sender counts too.
    OfAnySender,
    /// An older waiting message to another receiver counts too.
    ToAnyReceiver,
    /// Only the position just before a listed one is looked at.
    OnePositionBefore,
}

use Reading::*;

const WRONG: [Reading; 27] = [
    SmallerSendsAccepted,
    ReceivedWhileItWaitsAccepted,
    SmallerReceiptsAccepted,
    EqualSendsRefused,
    EqualReceiptsRefused,
    BothWaitingRefused,
    WaitingIsZero,
    UnsavedIsWaiting,
    NeighboursInTheTable,
    BothDirections,
    OneReceiver,
    OneSender,
    BeforeNine,
    BeforeEight,
    AfterTheCalls,
    OfStepsOnly,
    OfSavesOnly,
    OfReceiptsOnly,
    BeforeThirteen,
    AfterFourteen,
    AfterSixteen,
    ListedOnesToo,
    YoungerOnesToo,
    ReceivedOnesToo,
    OfAnySender,
    ToAnyReceiver,
    OnePositionBefore,
];

/// A call, apart from its table and answer buffer.
#[derive(Clone, Debug, PartialEq, Eq)]
enum Act {
    Check,
    Line,
    LineOf(u32),
    Under(Vec<u16>),
    /// Ceilings, and the bytes of the mark buffer.
    Marked(Vec<u16>, usize),
    Stand(Vec<u16>, Vec<u16>),
    Send(usize, usize),
    Save(usize, Vec<u16>),
    Receive(usize, Vec<u16>),
    FallBack,
    /// The numbers of the scratch.
    Keep(usize),
    List,
}

use Act::*;

/// What a call yields: its number, and of a save or receipt the table.
#[derive(Clone, Debug, PartialEq, Eq)]
enum Told {
    Number(u32),
    Table(Table),
}

impl Reading {
    /// Whether two messages are of one channel.
    fn same_channel(self, one: &Message, other: &Message) -> bool {
        let ends = |message: &Message| match self {
            BothDirections => {
                let low = message.sender.min(message.receiver);
                (low, message.sender + message.receiver - low)
            }
            OneReceiver => (0, message.receiver),
            OneSender => (message.sender, 0),
            _ => (message.sender, message.receiver),
        };
        ends(one) == ends(other)
    }

    /// Check 23.
    fn out_of_turn(self, table: &Table) -> bool {
        let waits = |message: &Message| {
            message.received == 0
                || self == UnsavedIsWaiting && message.received == table.counts[message.receiver]
        };
        let m = table.messages.len();
        for k in 0..m {
            for q in 0..k {
                let (earlier, later) = (&table.messages[q], &table.messages[k]);
                if !self.same_channel(earlier, later) || self == NeighboursInTheTable && q + 1 < k {
                    continue;
                }
                let sends = match self {
                    SmallerSendsAccepted => false,
                    EqualSendsRefused => later.sent <= earlier.sent,
                    _ => later.sent < earlier.sent,
                };
                let receipts = match (waits(earlier), waits(later)) {
                    _ if self == WaitingIsZero => later.received < earlier.received,
                    (true, true) => self == BothWaitingRefused,
                    (true, false) => self != ReceivedWhileItWaitsAccepted,
                    (false, true) => false,
                    (false, false) => match self {
                        SmallerReceiptsAccepted => false,
                        EqualReceiptsRefused => later.received <= earlier.received,
                        _ => later.received < earlier.received,
                    },
                };
                if sends || receipts {
                    return true;
                }
            }
        }
        false
    }

    /// One of the table's checks.
    fn table_check(self, table: &Table, number: u32) -> bool {
        let n = table.processes();
        let mut messages = table.messages.iter();
        match number {
            5 => table.counts.iter().any(|&count| count == 0 || count > 4096),
            6 => messages.any(|message| message.sender >= n || message.receiver >= n),
            7 => messages.any(|message| message.sender == message.receiver),
            8 => messages.any(|message| message.sent >= table.counts[message.sender]),
            9 => messages.any(|message| message.received > table.counts[message.receiver]),
            _ => self.out_of_turn(table),
        }
    }

    /// The first of the table's checks that catches, or 0.
    fn table_refusal(self, table: &Table, act: &Act) -> u32 {
        let is_step = matches!(act, Send(..) | Save(..) | Receive(..) | FallBack);
        let order: &[u32] = match self {
            BeforeNine => &[5, 6, 7, 8, 23, 9],
            BeforeEight => &[5, 6, 7, 23, 8, 9],
            AfterTheCalls => &[5, 6, 7, 8, 9],
            OfStepsOnly if !is_step => &[5, 6, 7, 8, 9],
            _ => &[5, 6, 7, 8, 9, 23],
        };
        let mut caught = order
            .iter()
            .filter(|&&number| self.table_check(table, number));
        caught.next().copied().unwrap_or(0)
    }

    /// Check 13.
    fn list_is_bad(self, table: &Table, i: usize, list: &[u16]) -> bool {
        let mut low = 0;
        for &position in list {
            let position = usize::from(position);
            if position < low || position >= table.messages.len() {
                return true;
            }
            low = position + 1;
            let message = &table.messages[position];
            if message.receiver != i || message.received != 0 {
                return true;
            }
        }
        false
    }

    /// Check 24. A position of M or above is not looked at.
    fn passes_over(self, table: &Table, list: &[u16]) -> bool {
        let m = table.messages.len();
        let listed: Vec<usize> = list
            .iter()
            .map(|&k| usize::from(k))
            .filter(|&k| k < m)
            .collect();
        for &k in &listed {
            for q in 0..m {
                let (one, other) = (&table.messages[k], &table.messages[q]);
                let same_sender = self == OfAnySender || one.sender == other.sender;
                let same_receiver = self == ToAnyReceiver || one.receiver == other.receiver;
                let older = match self {
                    YoungerOnesToo => q != k,
                    OnePositionBefore => q + 1 == k,
                    _ => q < k,
                };
                let waits = self == ReceivedOnesToo || other.received == 0;
                let excepted = self != ListedOnesToo && listed.contains(&q);
                if same_sender && same_receiver && older && waits && !excepted {
                    return true;
                }
            }
        }
        false
    }

    /// The checks of a call, each with whether it catches, in its order. A room of
    /// 0 is too short for every answer here.
    fn call_checks(self, table: &Table, act: &Act, room: usize) -> Vec<(u32, bool)> {
        let n = table.processes();
        let short = (16, room == 0);
        let ceilings = |list: &[u16]| {
            let mut pairs = list.iter().zip(&table.counts);
            let high = pairs.any(|(&at, &count)| u32::from(at) > count);
            [(17, list.len() != n), (18, high)]
        };
        match act {
            Check | List => vec![],
            Line | FallBack => vec![short],
            LineOf(set) => vec![(12, u64::from(*set) >> n != 0), short],
            Under(list) => [&ceilings(list)[..], &[short]].concat(),
            Marked(list, marks) => {
                let bits = table.counts.iter().sum::<u32>() as usize + n;
                [&ceilings(list)[..], &[(19, 8 * marks < bits), short]].concat()
            }
            Stand(processes, states) => {
                let outside = processes.iter().any(|&p| usize::from(p) >= n);
                let falls = processes.windows(2).any(|pair| pair[1] <= pair[0]);
                let mut pairs = processes.iter().zip(states);
                let high = !outside
                    && pairs.any(|(&p, &at)| u32::from(at) >= table.counts[usize::from(p)]);
                let unequal = processes.len() != states.len();
                vec![(20, unequal), (21, outside || falls), (22, high), short]
            }
            Send(j, i) => {
                let full = table.messages.len() == 4096;
                vec![(10, *j >= n || *i >= n), (11, j == i), (14, full), short]
            }
            Save(i, list) | Receive(i, list) => {
                let saves = matches!(act, Save(..));
                let unknown = *i >= n;
                let bad = (13, !unknown && self.list_is_bad(table, *i, list));
                let other_kind = self == OfSavesOnly && !saves || self == OfReceiptsOnly && saves;
                let passes = (24, !other_kind && self.passes_over(table, list));
                let full = (14, saves && !unknown && table.counts[*i] == 4096);
                let last = match self {
                    BeforeThirteen => [passes, bad, full, short],
                    AfterFourteen => [bad, full, passes, short],
                    AfterSixteen => [bad, full, short, passes],
                    _ => [bad, passes, full, short],
                };
                [&[(10, unknown)][..], &last].concat()
            }
            Keep(scratch) => vec![(15, *scratch < n * n), short],
        }
    }

    /// One call.
    fn told(self, table: &Table, act: &Act, room: usize) -> Told {
        let refusal = self.table_refusal(table, act);
        if refusal != 0 {
            return Told::Number(refusal);
        }
        let mut checks = self.call_checks(table, act, room);
        if self == AfterTheCalls {
            checks.push((23, self.out_of_turn(table)));
        }
        if let Some((number, _)) = checks.into_iter().find(|(_, caught)| *caught) {
            return Told::Number(number);
        }
        let (Save(i, list) | Receive(i, list)) = act else {
            return Told::Number(0);
        };
        let mut next = table.clone();
        for &k in list {
            next.messages[usize::from(k)].received = table.counts[*i];
        }
        next.counts[*i] += u32::from(matches!(act, Save(..)));
        Told::Table(next)
    }
}

/// One call of the crate, on the bytes of a table.
fn by_call(table: &Table, act: &Act, room: usize) -> Told {
    let bytes = table.to_bytes();
    let outcome = match act {
        Check => return Told::Number(check_table(&bytes)),
        List => {
            let text = listing(&bytes);
            let number = text.strip_prefix("refused ").map_or("0", str::trim_end);
            return Told::Number(number.parse().expect("a number"));
        }
        Line => recovery_line(&bytes, room),
        LineOf(set) => line_of_set(&bytes, *set, room),
        Under(list) => line_under(&bytes, list, room),
        Marked(list, marks) => marked_line(&bytes, list, *marks, room),
        Stand(processes, states) => stand_together(&bytes, processes, states, room),
        Send(j, i) => send(&bytes, *j as u16, *i as u16, room),
        Save(i, list) => save(&bytes, *i as u16, list, room),
        Receive(i, list) => receive(&bytes, *i as u16, list, room),
        FallBack => fall_back(&bytes, room),
        Keep(scratch) => keep_sheet(&bytes, *scratch, room),
    };
    match act {
        Save(..) | Receive(..) if outcome.number == 0 => {
            Told::Table(Table::read(&outcome.answer).expect("steps leave accepted tables"))
        }
        _ => {
            // A refusal by 23 or 24 writes nothing.
            if [23, 24].contains(&outcome.number) {
                assert_eq!(outcome, Outcome::refused(outcome.number));
            }
            Told::Number(outcome.number)
        }
    }
}

// ---------------------------------------------------------------------------
// Cases.

/// A table, a call on it, the bytes of its answer buffer, what it yields as it
/// was worked out by hand, and the readings under which that is something else.
struct Case {
    table: Table,
    act: Act,
    room: usize,
    told: Told,
    wrong: Vec<Reading>,
}

/// A case of a table's own checks.
fn checked(counts: &[u32], messages: &[(State, State)], number: u32, wrong: &[Reading]) -> Case {
    case(table(counts, messages), Check, number, wrong)
}

fn case(table: Table, act: Act, number: u32, wrong: &[Reading]) -> Case {
    Case {
        table,
        act,
        room: ROOM,
        told: Told::Number(number),
        wrong: wrong.to_vec(),
    }
}

/// A case of a save or receipt that no check catches, and of what it leaves.
fn step(table: &Table, act: Act, left: Table, wrong: &[Reading]) -> Case {
    Case {
        told: Told::Table(left),
        ..case(table.clone(), act, 0, wrong)
    }
}

/// The same, with no room for an answer.
fn without_room(case: Case) -> Case {
    Case { room: 0, ..case }
}

/// Check 23 under the counts 3 3, or 3 3 3.
fn cases_of_tables() -> Vec<Case> {
    let two = |messages: &[(State, State)], number, wrong: &[Reading]| {
        checked(&[3, 3], messages, number, wrong)
    };
    let three = |messages: &[(State, State)], number, wrong: &[Reading]| {
        checked(&[3, 3, 3], messages, number, wrong)
    };
    vec![
        // The later one's send number is smaller: both received, both waiting, and
        // one of them.
        two(
            &[((0, 1), (1, 1)), ((0, 0), (1, 1))],
            23,
            &[SmallerSendsAccepted],
        ),
        two(
            &[((0, 2), (1, 0)), ((0, 1), (1, 0))],
            23,
            &[SmallerSendsAccepted],
        ),
        two(
            &[((1, 2), (0, 1)), ((1, 0), (0, 0))],
            23,
            &[SmallerSendsAccepted],
        ),
        // It is received while the earlier one waits.
        two(
            &[((0, 0), (1, 0)), ((0, 0), (1, 1))],
            23,
            &[ReceivedWhileItWaitsAccepted, WaitingIsZero],
        ),
        two(
            &[((1, 0), (0, 0)), ((1, 2), (0, 2))],
            23,
            &[ReceivedWhileItWaitsAccepted, WaitingIsZero],
        ),
        // Its receipt number is smaller.
        two(
            &[((0, 0), (1, 2)), ((0, 0), (1, 1))],
            23,
            &[SmallerReceiptsAccepted],
        ),
        two(
            &[((1, 0), (0, 2)), ((1, 2), (0, 1))],
            23,
            &[SmallerReceiptsAccepted],
        ),
        // Equal numbers: of sends, of receipts, of both.
        two(
            &[((0, 1), (1, 1)), ((0, 1), (1, 2))],
            0,
            &[EqualSendsRefused],
        ),
        two(
            &[((0, 0), (1, 2)), ((0, 1), (1, 2))],
            0,
            &[EqualReceiptsRefused],
        ),
        two(
            &[((0, 1), (1, 1)), ((0, 1), (1, 1))],
            0,
            &[EqualSendsRefused, EqualReceiptsRefused],
        ),
        // Both rise.
        two(&[((0, 0), (1, 1)), ((0, 2), (1, 2))], 0, &[]),
        // Both wait; the earlier one is received and the later one waits.
        two(
            &[((0, 0), (1, 0)), ((0, 1), (1, 0))],
            0,
            &[BothWaitingRefused],
        ),
        two(&[((0, 0), (1, 1)), ((0, 1), (1, 0))], 0, &[WaitingIsZero]),
        two(&[((0, 0), (1, 2)), ((0, 0), (1, 0))], 0, &[WaitingIsZero]),
        // Unsaved receipts. The earlier one waits, the later one is unsaved.
        two(
            &[((0, 0), (1, 0)), ((0, 0), (1, 3))],
            23,
            &[UnsavedIsWaiting, ReceivedWhileItWaitsAccepted],
        ),
        // The earlier one is unsaved, the later one saved.
        two(
            &[((0, 0), (1, 3)), ((0, 0), (1, 2))],
            23,
            &[SmallerReceiptsAccepted],
        ),
        // Saved, then unsaved; both unsaved; unsaved, then waiting.
        two(&[((0, 0), (1, 2)), ((0, 0), (1, 3))], 0, &[]),
        two(
            &[((0, 0), (1, 3)), ((0, 0), (1, 3))],
            0,
            &[EqualReceiptsRefused],
        ),
        two(&[((0, 0), (1, 3)), ((0, 0), (1, 0))], 0, &[WaitingIsZero]),
        // The same under counts of 1, where nothing is saved.
        checked(
            &[1, 1],
            &[((0, 0), (1, 0)), ((0, 0), (1, 1))],
            23,
            &[UnsavedIsWaiting],
        ),
        checked(&[1, 1], &[((0, 0), (1, 1)), ((0, 0), (1, 0))], 0, &[]),
        // Not neighbours in the table, in each of the three ways.
        three(
            &[((0, 1), (1, 1)), ((2, 0), (1, 1)), ((0, 0), (1, 1))],
            23,
            &[NeighboursInTheTable, SmallerSendsAccepted],
        ),
        three(
            &[((0, 0), (1, 0)), ((1, 0), (0, 1)), ((0, 0), (1, 1))],
            23,
            &[NeighboursInTheTable, ReceivedWhileItWaitsAccepted],
        ),
        three(
            &[((0, 0), (1, 2)), ((0, 0), (2, 2)), ((0, 0), (1, 1))],
            23,
            &[NeighboursInTheTable, SmallerReceiptsAccepted],
        ),
        // The first and the last of six; the others are in turn.
        three(
            &[
                ((2, 0), (0, 3)),
                ((2, 0), (1, 0)),
                ((1, 2), (0, 3)),
                ((0, 0), (2, 1)),
                ((1, 2), (2, 1)),
                ((2, 2), (0, 2)),
            ],
            23,
            &[NeighboursInTheTable, SmallerReceiptsAccepted],
        ),
        // Of a channel of three the last two; and two that wait, with one of the
        // other direction between them.
        two(
            &[((0, 0), (1, 1)), ((0, 1), (1, 2)), ((0, 2), (1, 1))],
            23,
            &[SmallerReceiptsAccepted],
        ),
        two(
            &[((0, 1), (1, 0)), ((1, 0), (0, 0)), ((0, 0), (1, 0))],
            23,
            &[NeighboursInTheTable, SmallerSendsAccepted],
        ),
        // The other direction is another channel.
        two(&[((0, 2), (1, 2)), ((1, 0), (0, 1))], 0, &[BothDirections]),
        two(&[((0, 0), (1, 0)), ((1, 0), (0, 1))], 0, &[BothDirections]),
        // And so are those with the same receiver, and with the same sender.
        three(&[((0, 2), (1, 2)), ((2, 0), (1, 1))], 0, &[OneReceiver]),
        three(&[((0, 0), (1, 0)), ((2, 0), (1, 3))], 0, &[OneReceiver]),
        three(&[((0, 2), (1, 2)), ((0, 0), (2, 1))], 0, &[OneSender]),
        three(&[((0, 0), (1, 0)), ((0, 0), (2, 1))], 0, &[OneSender]),
        // 9 first: in the same two messages, and behind them.
        two(
            &[((0, 1), (1, 4)), ((0, 0), (1, 1))],
            9,
            &[BeforeNine, BeforeEight],
        ),
        two(
            &[((0, 0), (1, 0)), ((0, 0), (1, 4))],
            9,
            &[BeforeNine, BeforeEight],
        ),
        two(
            &[((0, 1), (1, 1)), ((0, 0), (1, 1)), ((1, 0), (0, 4))],
            9,
            &[BeforeNine, BeforeEight],
        ),
        // 8 first, and the checks before it.
        two(&[((0, 3), (1, 1)), ((0, 0), (1, 1))], 8, &[BeforeEight]),
        two(
            &[((0, 0), (1, 2)), ((0, 0), (1, 1)), ((1, 3), (0, 0))],
            8,
            &[BeforeEight],
        ),
        two(
            &[((0, 0), (1, 2)), ((0, 0), (1, 1)), ((1, 0), (1, 0))],
            7,
            &[],
        ),
        two(
            &[((0, 0), (1, 2)), ((0, 0), (1, 1)), ((1, 0), (2, 0))],
            6,
            &[],
        ),
        checked(&[3, 4097], &[((0, 1), (1, 2)), ((0, 0), (1, 1))], 5, &[]),
        // At the limits: the numbers have both bytes, and 4,096 is unsaved.
        checked(
            &[4096, 4096],
            &[((0, 4095), (1, 4096)), ((0, 4095), (1, 4095))],
            23,
            &[SmallerReceiptsAccepted],
        ),
        checked(
            &[4096, 4096],
            &[((0, 256), (1, 255)), ((0, 255), (1, 256))],
            23,
            &[SmallerSendsAccepted],
        ),
        checked(
            &[4096, 4096],
            &[((0, 255), (1, 256)), ((0, 256), (1, 255))],
            23,
            &[SmallerReceiptsAccepted],
        ),
        checked(
            &[4096, 4096],
            &[((0, 255), (1, 255)), ((0, 256), (1, 256))],
            0,
            &[],
        ),
    ]
}

/// A table that each call refuses with 23, whatever else is wrong with the call.
fn broken() -> Table {
    table(
        &[3, 4096],
        &[((0, 0), (1, 0)), ((1, 0), (0, 0)), ((0, 0), (1, 1))],
    )
}

/// 23 in every call, before each of the checks of the call.
fn cases_of_calls() -> Vec<Case> {
    let after = |act: Act| case(broken(), act, 23, &[AfterTheCalls]);
    let question = |act: Act| case(broken(), act, 23, &[OfStepsOnly]);
    let last = vec![2, 4095];
    vec![
        // Nothing else is wrong.
        question(Check),
        question(List),
        question(Line),
        question(LineOf(1)),
        question(Under(last.clone())),
        question(Marked(last.clone(), 513)),
        question(Stand(vec![0], vec![0])),
        question(Keep(4)),
        case(broken(), Send(0, 1), 23, &[]),
        case(broken(), Save(0, vec![1]), 23, &[]),
        case(broken(), Receive(0, vec![1]), 23, &[]),
        case(broken(), FallBack, 23, &[]),
        // 10, 11, 12, 17, 18, 20, 21, 22, 13, 24, 14, 19, 15.
        after(Send(2, 0)),
        after(Save(2, vec![])),
        after(Receive(2, vec![])),
        after(Send(0, 0)),
        after(LineOf(4)),
        after(Under(vec![0])),
        after(Under(vec![4, 0])),
        after(Stand(vec![0], vec![])),
        after(Stand(vec![2], vec![0])),
        after(Stand(vec![0], vec![3])),
        after(Save(1, vec![2])),
        after(Receive(1, vec![9])),
        after(Save(1, vec![])),
        after(Marked(last, 0)),
        after(Keep(3)),
        // 16.
        without_room(after(Line)),
        without_room(after(Send(0, 1))),
        without_room(after(Save(0, vec![1]))),
        without_room(after(Receive(0, vec![1]))),
        without_room(after(FallBack)),
        without_room(after(Keep(4))),
        // 24: the first of two that wait is passed over, in a table whose other
        // channel is out of turn.
        case(
            table(
                &[3, 3],
                &[
                    ((0, 0), (1, 0)),
                    ((0, 0), (1, 0)),
                    ((1, 0), (0, 2)),
                    ((1, 0), (0, 1)),
                ],
            ),
            Save(1, vec![1]),
            23,
            &[AfterTheCalls],
        ),
    ]
}

/// Check 24.
fn cases_of_lists() -> Vec<Case> {
    // Messages 0 and 1 wait for process 1 in one channel, 2 waits for process 0.
    let with = |count: u32, first: u32, second: u32| {
        table(
            &[2, count],
            &[
                ((0, 0), (1, first)),
                ((0, 1), (1, second)),
                ((1, 0), (0, 0)),
            ],
        )
    };
    let two = with(2, 0, 0);
    let mut all = vec![
        // The second alone.
        case(two.clone(), Save(1, vec![1]), 24, &[OfReceiptsOnly]),
        case(two.clone(), Receive(1, vec![1]), 24, &[OfSavesOnly]),
        // Both, the first alone, and none.
        step(&two, Save(1, vec![0, 1]), with(3, 2, 2), &[ListedOnesToo]),
        step(
            &two,
            Receive(1, vec![0, 1]),
            with(2, 2, 2),
            &[ListedOnesToo],
        ),
        step(&two, Save(1, vec![0]), with(3, 2, 0), &[YoungerOnesToo]),
        step(&two, Receive(1, vec![0]), with(2, 2, 0), &[YoungerOnesToo]),
        step(&two, Save(1, vec![]), with(3, 0, 0), &[]),
        step(&two, Receive(1, vec![]), two.clone(), &[]),
        // The first is received already: saved, and unsaved.
        step(
            &with(2, 1, 0),
            Save(1, vec![1]),
            with(3, 1, 2),
            &[ReceivedOnesToo],
        ),
        step(
            &with(2, 2, 0),
            Receive(1, vec![1]),
            with(2, 2, 2),
            &[ReceivedOnesToo],
        ),
        // A full process: 24 and not 14; a receipt knows no 14.
        case(
            with(4096, 0, 0),
            Save(1, vec![1]),
            24,
            &[AfterFourteen, AfterSixteen],
        ),
        case(with(4096, 0, 0), Save(1, vec![0, 1]), 14, &[ListedOnesToo]),
        case(with(4096, 0, 0), Save(1, vec![0]), 14, &[YoungerOnesToo]),
        case(with(4096, 0, 0), Save(1, vec![1, 1]), 13, &[BeforeThirteen]),
        case(with(4096, 0, 0), Receive(1, vec![1]), 24, &[OfSavesOnly]),
        step(
            &with(4096, 0, 0),
            Receive(1, vec![0, 1]),
            with(4096, 4096, 4096),
            &[],
        ),
    ];
    for of in [Save, Receive] {
        all.extend([
            // 10 before 24, and 13 before it: one twice, one of M, one that waits
            // for another process, one that was received.
            case(two.clone(), of(2, vec![1]), 10, &[]),
            case(two.clone(), of(1, vec![1, 1]), 13, &[BeforeThirteen]),
            case(two.clone(), of(1, vec![1, 0]), 13, &[]),
            case(two.clone(), of(1, vec![1, 3]), 13, &[BeforeThirteen]),
            case(two.clone(), of(1, vec![1, 2]), 13, &[BeforeThirteen]),
            case(two.clone(), of(0, vec![1]), 13, &[BeforeThirteen]),
            case(with(2, 2, 0), of(1, vec![0, 1]), 13, &[]),
            // 24 before 16; 16 where no message is passed over.
            without_room(case(two.clone(), of(1, vec![1]), 24, &[AfterSixteen])),
            without_room(case(two.clone(), of(1, vec![0]), 16, &[])),
            without_room(case(two.clone(), of(1, vec![1, 3]), 13, &[])),
        ]);
        // What the list gives to those on it: 1 under the counts 1, in a save and
        // in a receipt.
        let saves = matches!(of(0, vec![]), Save(..));
        let counts = |i: usize| {
            let mut counts = vec![1; 3];
            counts[i] += u32::from(saves);
            counts
        };
        // The older one is of another sender; or for another receiver.
        let others = |r: u32| [((2, 0), (1, 0)), ((0, 0), (1, r))];
        all.push(step(
            &table(&[1, 1, 1], &others(0)),
            of(1, vec![1]),
            table(&counts(1), &others(1)),
            &[OfAnySender],
        ));
        let others = |r: u32| [((0, 0), (2, 0)), ((0, 0), (1, r))];
        all.push(step(
            &table(&[1, 1, 1], &others(0)),
            of(1, vec![1]),
            table(&counts(1), &others(1)),
            &[ToAnyReceiver],
        ));
        // And in the other direction.
        let others = |r: u32| [((1, 0), (0, 0)), ((0, 0), (1, r))];
        all.push(step(
            &table(&[1, 1, 1], &others(0)),
            of(1, vec![1]),
            table(&counts(1), &others(1)),
            &[],
        ));
        // Messages 0, 2 and 4 of one channel, 1 and 3 of another, 5 of a third.
        let six = |taken: &[usize]| {
            let ends = [(0, 1), (2, 1), (0, 1), (2, 1), (0, 1), (0, 2)];
            let entries: Vec<(State, State)> = (0..6)
                .map(|k| ((ends[k].0, 0), (ends[k].1, u32::from(taken.contains(&k)))))
                .collect();
            entries
        };
        let passing: [&[u16]; 7] = [
            &[2],
            &[4],
            &[3],
            &[1, 2],
            &[0, 4],
            &[0, 1, 3, 4],
            &[0, 2, 3],
        ];
        for list in passing {
            let refused = table(&[1, 1, 1], &six(&[]));
            let act = of(1, list.to_vec());
            all.push(case(refused, act, 24, &[OnePositionBefore]));
        }
        let in_turn: [(&[usize], &[Reading]); 6] = [
            (&[0], &[YoungerOnesToo]),
            (&[1], &[OfAnySender]),
            (&[0, 2], &[ListedOnesToo, OfAnySender]),
            (&[0, 1, 3], &[ListedOnesToo]),
            (&[1, 3], &[OfAnySender]),
            (&[0, 1, 2, 3, 4], &[ListedOnesToo]),
        ];
        for (list, wrong) in in_turn {
            let positions = list.iter().map(|&k| k as u16).collect();
            all.push(step(
                &table(&[1, 1, 1], &six(&[])),
                of(1, positions),
                table(&counts(1), &six(list)),
                wrong,
            ));
        }
    }
    all
}

fn cases() -> Vec<Case> {
    let mut all = cases_of_tables();
    all.extend(cases_of_calls());
    all.extend(cases_of_lists());
    all
}

/// Each case by the calls of the crate, on bytes, and by the other way.
#[test]
fn by_hand() {
    for Case {
        table,
        act,
        room,
        told,
        ..
    } in cases()
    {
        assert_eq!(by_call(&table, &act, room), told, "{table:?} {act:?}");
        let other = AsWritten.told(&table, &act, room);
        assert_eq!(other, told, "{table:?} {act:?}");
    }
}

/// Under a wrong reading a case that names it yields something else.
#[test]
fn wrong_readings_are_caught() {
    let cases = cases();
    for case in &cases {
        for reading in &case.wrong {
            let told = reading.told(&case.table, &case.act, case.room);
            assert_ne!(
                told, case.told,
                "{reading:?} {:?} {:?}",
                case.table, case.act
            );
        }
    }
    for reading in WRONG {
        let caught = cases.iter().any(|case| case.wrong.contains(&reading));
        assert!(caught, "no case catches {reading:?}");
    }
}

// ---------------------------------------------------------------------------
// A run by hand.

/// A channel of three messages is received one after another, by receipts and
/// saves, and falls back so that the last two wait again.
#[test]
fn a_channel_in_turn() {
    let with = |counts: &[u32], receipts: [u32; 3]| {
        let entries = [0, 1, 1].into_iter().zip(receipts);
        let entries: Vec<(State, State)> = entries.map(|(y, r)| ((0, y), (1, r))).collect();
        table(counts, &entries).to_bytes()
    };
    let start = with(&[2, 1], [0, 0, 0]);
    assert_eq!(receive(&start, 1, &[1], ROOM), Outcome::refused(24));
    assert_eq!(receive(&start, 1, &[0, 2], ROOM), Outcome::refused(24));
    let first = receive(&start, 1, &[0], ROOM).answer;
    assert_eq!(first, with(&[2, 1], [1, 0, 0]));
    assert_eq!(save(&first, 1, &[2], ROOM), Outcome::refused(24));
    let second = save(&first, 1, &[1], ROOM).answer;
    assert_eq!(second, with(&[2, 2], [1, 1, 0]));
    let third = receive(&second, 1, &[2], ROOM).answer;
    assert_eq!(third, with(&[2, 2], [1, 1, 2]));
    // State 1 of process 1 has received message 1, sent after state 1 of process
    // 0: the line is 1 0, where messages 1 and 2 are not sent and 0 waits.
    let fallen = fall_back(&third, ROOM).answer;
    assert_eq!(fallen, table(&[2, 1], &[((0, 0), (1, 0))]).to_bytes());
    // A send goes behind: its number is the highest that the channel can have.
    let sent = send(&fallen, 0, 1, ROOM).answer;
    assert_eq!(
        sent,
        table(&[2, 1], &[((0, 0), (1, 0)), ((0, 1), (1, 0))]).to_bytes()
    );
    assert_eq!(save(&sent, 1, &[1], ROOM), Outcome::refused(24));
    assert_eq!(save(&sent, 1, &[0, 1], ROOM).number, 0);
}

/// After a fall back the earlier messages of a channel are received still, and the
/// later ones wait.
#[test]
fn a_fall_back_leaves_channels_in_turn() {
    let before = table(
        &[4, 4],
        &[
            ((0, 0), (1, 1)),
            ((0, 1), (1, 2)),
            ((0, 1), (1, 3)),
            ((0, 3), (1, 3)),
            ((0, 3), (1, 4)),
        ],
    );
    // Process 0 stands at 3, from where it sent what state 3 of process 1 has.
    let after = table(
        &[4, 3],
        &[((0, 0), (1, 1)), ((0, 1), (1, 2)), ((0, 1), (1, 0))],
    );
    let outcome = fall_back(&before.to_bytes(), ROOM);
    assert_eq!(outcome.answer, after.to_bytes());
    assert_eq!(check_table(&outcome.answer), 0);
}

// ---------------------------------------------------------------------------
// Both ways to make check 23.

/// On all tables of small scopes, from both sides, the check compares all pairs
/// or goes by channel, and the other reading of this file says the same.
#[test]
fn pairs_and_channels_agree_on_all_small_tables() {
    let (mut accepted, mut refused) = (0, 0);
    for (n, c, m) in [(2, 2, 4), (2, 3, 3), (2, 4, 2), (3, 2, 3), (4, 1, 3)] {
        for table in all_tables_of_both_sides(n, c, m) {
            let broken = out_of_turn_in_pairs(&table.messages);
            assert_eq!(out_of_turn_by_channel(&table.messages), broken, "{table:?}");
            assert_eq!(AsWritten.out_of_turn(&table), broken, "{table:?}");
            let number = check_table(&table.to_bytes());
            assert_eq!(number, if broken { 23 } else { 0 });
            accepted += usize::from(!broken);
            refused += usize::from(broken);
        }
    }
    assert!(
        accepted > 20_000 && refused > 20_000,
        "{accepted} {refused}"
    );
}

/// On chance tables of all sizes, in turn, broken in each way, shuffled, and with
/// one number moved by one.
#[test]
fn pairs_and_channels_agree_on_chance_tables() {
    let mut rng = Rng::new(32);
    let (mut accepted, mut refused) = (0, 0);
    let mut both = |table: &Table| {
        let broken = out_of_turn_in_pairs(&table.messages);
        assert_eq!(out_of_turn_by_channel(&table.messages), broken, "{table:?}");
        accepted += usize::from(!broken);
        refused += usize::from(broken);
        broken
    };
    for round in 0..20_000 {
        let n = rng.between(2, 6);
        let m = rng.between(0, 30);
        let mut table = match round % 3 {
            0 => history(&mut rng, n, m),
            1 => clustered(&mut rng, n, m),
            _ => arbitrary(&mut rng, n, m, 5),
        };
        assert!(!both(&table));
        if let Some(broken) = put_out_of_turn(&mut rng, &table, Fault::ALL[round % 3]) {
            assert!(both(&broken));
        }
        if !table.messages.is_empty() {
            let k = rng.between(0, table.messages.len() - 1);
            let message = &mut table.messages[k];
            match rng.between(0, 3) {
                0 => message.sent += 1,
                1 => message.sent = message.sent.saturating_sub(1),
                2 => message.received += 1,
                _ => message.received = message.received.saturating_sub(1),
            }
            both(&table);
        }
        rng.shuffle(&mut table.messages);
        both(&table);
    }
    assert!(
        accepted > 25_000 && refused > 25_000,
        "{accepted} {refused}"
    );
}

/// On large tables, where the check goes by channel: as they are, and with one
/// message out of turn at the front, in the middle and at the end.
#[test]
fn pairs_and_channels_agree_on_large_tables() {
    let mut rng = Rng::new(33);
    let mut tables = limit_tables(&mut rng);
    tables.push(history(&mut rng, 5, 2000));
    for most in [1, 3, 4096] {
        tables.push(arbitrary(&mut rng, 2, 4096, most));
        tables.push(arbitrary(&mut rng, 6, 4096, most));
    }
    for m in 198..=203 {
        tables.push(arbitrary(&mut rng, 3, m, 9));
    }
    for table in tables {
        assert!(!out_of_turn_in_pairs(&table.messages));
        assert_eq!(check_table(&table.to_bytes()), 0);
        for fault in Fault::ALL {
            if let Some(broken) = put_out_of_turn(&mut rng, &table, fault) {
                assert!(out_of_turn_in_pairs(&broken.messages));
                assert_eq!(check_table(&broken.to_bytes()), 23);
            }
        }
    }
    // 4,096 messages of two channels in turns, and one of them received one state
    // earlier than the one before it in its channel.
    let entries: Vec<(State, State)> = (0..4096u32)
        .map(|k| ((k as usize % 2, k / 2), (1 - k as usize % 2, k / 2 + 2)))
        .collect();
    let whole = table(&[2049, 2049], &entries);
    assert_eq!(check_table(&whole.to_bytes()), 0);
    for k in [2, 3, 4, 2047, 2048, 4094, 4095] {
        let mut equal = whole.clone();
        equal.messages[k].received -= 1;
        assert_eq!(check_table(&equal.to_bytes()), 0);
        equal.messages[k].received -= 1;
        assert_eq!(check_table(&equal.to_bytes()), 23, "{k}");
        let mut earlier = whole.clone();
        earlier.messages[k].sent -= 1;
        assert_eq!(check_table(&earlier.to_bytes()), 0);
        earlier.messages[k - 2].sent += 1;
        assert_eq!(check_table(&earlier.to_bytes()), 23, "{k}");
        let mut waiting = whole.clone();
        waiting.messages[k].received = 0;
        let last = k >= 4094;
        assert_eq!(check_table(&waiting.to_bytes()), if last { 0 } else { 23 });
    }
}

// ---------------------------------------------------------------------------
// Steps on all small tables.

/// All rising lists of positions, and some that do not rise or have a position of
/// M.
fn lists(table: &Table) -> Vec<Vec<u16>> {
    let m = table.messages.len();
    let mut all: Vec<Vec<u16>> = (0u16..1 << m)
        .map(|mask| (0..m as u16).filter(|k| mask >> k & 1 == 1).collect())
        .collect();
    all.extend([vec![m as u16], vec![0, 0]]);
    if m > 1 {
        all.push(vec![1, 0]);
        all.push(vec![1, m as u16]);
    }
    all
}

/// Steps of accepted tables give accepted tables. And 24 is what 23 asks for: of
/// the lists that 13 lets pass it refuses those whose save, or receipt, would leave
/// a table that 23 refuses, and no others.
#[test]
fn steps_give_accepted_tables() {
    let (mut steps, mut passing) = (0, 0);
    for table in small_tables() {
        let bytes = table.to_bytes();
        let n = table.processes() as u16;
        let accepted = |outcome: &Outcome| {
            assert_eq!(outcome.number, 0);
            assert_eq!(check_table(&outcome.answer), 0, "{table:?}");
        };
        accepted(&fall_back(&bytes, ROOM));
        for i in 0..n {
            for j in (0..n).filter(|&j| j != i) {
                accepted(&send(&bytes, j, i, ROOM));
                steps += 1;
            }
            for list in lists(&table) {
                let outcomes = [
                    save(&bytes, i, &list, ROOM),
                    receive(&bytes, i, &list, ROOM),
                ];
                if list_is_bad(&table, i.into(), &list) {
                    assert_eq!(outcomes, [Outcome::refused(13), Outcome::refused(13)]);
                    continue;
                }
                let positions: Vec<usize> = list.iter().map(|&k| usize::from(k)).collect();
                let mut after = [table.clone(), table.clone()];
                do_save(&mut after[0], i.into(), &positions);
                do_receive(&mut after[1], i.into(), &positions);
                for (outcome, after) in outcomes.iter().zip(&after) {
                    match check_table(&after.to_bytes()) {
                        23 => {
                            assert_eq!(*outcome, Outcome::refused(24));
                            passing += 1;
                        }
                        _ => {
                            accepted(outcome);
                            assert_eq!(outcome.answer, after.to_bytes());
                        }
                    }
                }
                steps += 2;
            }
        }
    }
    assert!(steps > 50_000 && passing > 1_000, "{steps} {passing}");
}

/// So do steps one after another: whatever a list of steps leaves, on all small
/// tables, is accepted. Futures know no upper bound, and these need none.
#[test]
fn futures_end_in_accepted_tables() {
    let mut met = 0;
    for (n, c, m, depth) in [(2, 2, 2, 3), (2, 1, 3, 3), (3, 1, 2, 2)] {
        for table in all_tables(n, c, m) {
            for end in ends(&table, depth, Steps::All) {
                assert_eq!(check_table(&end.to_bytes()), 0, "{table:?} {end:?}");
                met += 1;
            }
        }
    }
    assert!(met > 50_000, "{met}");
}

/// All calls on all small tables of both sides agree with the other way; and each
/// wrong reading that can differ there does.
#[test]
fn readings_on_all_small_tables() {
    let mut differs = [0; WRONG.len()];
    for table in [(2, 2, 2), (2, 1, 3), (2, 3, 2), (3, 1, 3)]
        .into_iter()
        .flat_map(|(n, c, m)| all_tables_of_both_sides(n, c, m))
    {
        let n = table.processes();
        let last: Vec<u16> = table.counts.iter().map(|&count| count as u16 - 1).collect();
        let mut acts = vec![
            Check,
            List,
            Line,
            LineOf(1),
            LineOf(1 << n),
            Under(last.clone()),
            Under(vec![9; n]),
            Marked(last, 4),
            Stand(vec![0], vec![]),
            Keep(n * n - 1),
            Send(0, n),
            FallBack,
        ];
        for i in 0..n {
            for list in lists(&table) {
                acts.push(Receive(i, list.clone()));
                acts.push(Save(i, list));
            }
        }
        for act in &acts {
            for room in [0, ROOM] {
                let told = by_call(&table, act, room);
                assert_eq!(AsWritten.told(&table, act, room), told, "{table:?} {act:?}");
                for (place, reading) in WRONG.iter().enumerate() {
                    differs[place] += usize::from(reading.told(&table, act, room) != told);
                }
            }
        }
    }
    for (reading, times) in WRONG.iter().zip(differs) {
        // These need a fault of 8 or 9, or 4,096 states.
        let not_here = [BeforeNine, BeforeEight, AfterFourteen].contains(reading);
        assert_eq!(times == 0, not_here, "{reading:?} {times}");
    }
}
