//! The marking procedure: cases worked out by hand and the wrong readings that
//! they catch, its line beside the other ways to find one, and the call's
//! buffers and checks.

mod common;

use std::collections::BTreeSet;

use common::{all_at_or_below, example_a, example_d, numbers, of_counts, small_tables, table};
use reference::gen::*;
use reference::lines::*;
use reference::marking::{latest_unmarked, mark_bytes, marked_roots, Graph, Marking};
use reference::table::State;
use reference::*;

// ---------------------------------------------------------------------------
// The graph and the marks of example A, written out.

/// "an edge from each state to the next of its process, new states included,
/// and from state y of a sender to state r of a receiver for each received
/// message." Message 4 waits and has no edge.
#[test]
fn the_graph_of_a() {
    let graph = Graph::new(&example_a());
    let edges: [(State, &[State]); 8] = [
        ((0, 0), &[(0, 1), (1, 2)]),
        ((0, 1), &[(0, 2)]),
        ((0, 2), &[(0, 3), (1, 2)]),
        ((0, 3), &[]),
        ((1, 0), &[(1, 1), (0, 1)]),
        ((1, 1), &[(1, 2), (0, 2)]),
        ((1, 2), &[(1, 3)]),
        ((1, 3), &[]),
    ];
    for (state, next) in edges {
        assert_eq!(graph.next(state), next, "{state:?}");
    }
    assert_eq!(graph.no_marks(), [[false; 4], [false; 4]]);
}

/// From the last states of A, in three rounds: state 2 of process 0 leads to 2
/// of process 1, which gives way to 1; that leads to 2 of process 0, which
/// gives way to 1; from there no root is reached. State 1 of neither is marked,
/// nor 0, and 2 and 3 of both are.
#[test]
fn the_marks_of_a() {
    let marking = Marking::new(&example_a(), &[2, 2]);
    assert_eq!(marking.rounds, [[2, 2], [2, 1], [1, 1]]);
    assert_eq!(marking.line(), [1, 1]);
    assert_eq!(marking.marks, [[false, false, true, true]; 2]);
    // From new states nothing is reached, and the first root set stays.
    let marking = Marking::new(&example_a(), &[3, 3]);
    assert_eq!(marking.rounds, [[3, 3]]);
    assert_eq!(marking.marks, [[false; 4]; 2]);
}

// ---------------------------------------------------------------------------
// Wrong readings. Each is the procedure with one thing changed, on a set of
// edges and with marks that grow until no edge adds one: another way than the
// crate's search.

#[derive(Clone, Copy, Debug, PartialEq, Eq)]
enum Reading {
    /// As document 02 and Figure 3 have it.
    AsWritten,
    /// "strictly reachable" read as reachable: a root is marked by itself.
    RootMarksItself,
    /// Only the states one edge away from a root are marked.
    DirectSuccessors,
    /// A waiting message is an edge to state 0 of its receiver.
    WaitingMessages,
    /// An unsaved message is no edge, as before document 02, §4.
    UnsavedMessagesLeftOut,
    /// An unsaved message is an edge to the last state, not to the new one.
    UnsavedAtTheLastState,
    /// An unsaved message is an edge from the new state of its sender.
    UnsavedFromTheNewState,
    /// No edge leads from the last state to the new one.
    NoEdgeToNewStates,
    /// No edges along a process at all.
    MessagesAlone,
    /// An edge from the state after y, as if the message were sent after it.
    SentALaterState,
    /// An edge to the state after r.
    ReceivedALaterState,
    /// An edge to the state before r, the latest that had not received.
    ReceivedAnEarlierState,
    /// Edges of messages from the receiver to the sender.
    Backwards,
    /// The root set starts at the counts.
    RootsAtTheCounts,
    /// The root set starts at the latest saved states.
    RootsAtTheLastStates,
    /// A marked root gives way by one state only, marked or not.
    OneStateBack,
    /// A marked root gives way to the earliest unmarked state.
    EarliestUnmarked,
    /// One root after another gives way: the first marked one in each round.
    OneRootARound,
    /// Marking is not repeated after the roots gave way.
    NotRepeated,
    /// Marks are taken away before each round.
    MarksCleared,
}

use Reading::*;

/// The readings that give another line for some table.
const WRONG: [Reading; 16] = [
    RootMarksItself,
    DirectSuccessors,
    WaitingMessages,
    UnsavedMessagesLeftOut,
    UnsavedAtTheLastState,
    UnsavedFromTheNewState,
    NoEdgeToNewStates,
    MessagesAlone,
    SentALaterState,
    ReceivedALaterState,
    ReceivedAnEarlierState,
    Backwards,
    RootsAtTheCounts,
    RootsAtTheLastStates,
    EarliestUnmarked,
    NotRepeated,
];

/// Those that give the same line, in other rounds.
const SLOWER: [Reading; 2] = [OneStateBack, OneRootARound];

/// The root sets of the rounds, or those up to the round behind which a marked
/// root finds no state to give way to, and `None` in the place of the next.
fn rounds(table: &Table, ceilings: &[u32], reading: Reading) -> Vec<Option<Vec<u32>>> {
    let mut edges: BTreeSet<(State, State)> = BTreeSet::new();
    for (p, &count) in table.counts.iter().enumerate() {
        let to = match reading {
            NoEdgeToNewStates => count - 1,
            MessagesAlone => 0,
            _ => count,
        };
        edges.extend((0..to).map(|c| ((p, c), (p, c + 1))));
    }
    for message in &table.messages {
        let (j, mut y) = (message.sender, message.sent);
        let (i, mut r) = (message.receiver, message.received);
        if r == 0 && reading != WaitingMessages {
            continue;
        }
        if table.unsaved(message) {
            match reading {
                UnsavedMessagesLeftOut => continue,
                UnsavedAtTheLastState => r -= 1,
                UnsavedFromTheNewState => y = table.counts[j],
                _ => {}
            }
        }
        match reading {
            SentALaterState => y += 1,
            ReceivedALaterState => r += 1,
            ReceivedAnEarlierState => r -= 1,
            _ => {}
        }
        if reading == Backwards {
            edges.insert(((i, r), (j, y)));
        } else {
            edges.insert(((j, y), (i, r)));
        }
    }
    let mut roots = match reading {
        RootsAtTheCounts => table.counts.clone(),
        RootsAtTheLastStates => table.counts.iter().map(|count| count - 1).collect(),
        _ => ceilings.to_vec(),
    };
    let mut marks: BTreeSet<State> = BTreeSet::new();
    let mut rounds = Vec::new();
    loop {
        if reading == MarksCleared {
            marks.clear();
        }
        let from: Vec<State> = roots.iter().copied().enumerate().collect();
        if reading == RootMarksItself {
            marks.extend(&from);
        }
        loop {
            let before = marks.len();
            for (one, other) in &edges {
                let goes_on = reading != DirectSuccessors && marks.contains(one);
                if goes_on || from.contains(one) {
                    marks.insert(*other);
                }
            }
            if marks.len() == before {
                break;
            }
        }
        rounds.push(Some(roots.clone()));
        let mut marked = from;
        marked.retain(|state| marks.contains(state));
        if marked.is_empty() || (reading == NotRepeated && rounds.len() == 2) {
            return rounds;
        }
        if reading == OneRootARound {
            marked.truncate(1);
        }
        for (p, root) in marked {
            let mut unmarked = (0..=table.counts[p]).filter(|&c| !marks.contains(&(p, c)));
            let back = match reading {
                OneStateBack => root.checked_sub(1),
                EarliestUnmarked => unmarked.next(),
                _ => unmarked.next_back(),
            };
            let Some(back) = back else {
                rounds.push(None);
                return rounds;
            };
            roots[p] = back;
        }
    }
}

/// The line that a reading ends with, where it ends with one.
fn line_by(table: &Table, ceilings: &[u32], reading: Reading) -> Option<Vec<u32>> {
    rounds(table, ceilings, reading).pop().expect("a round")
}

/// A case: the table, the ceilings, the root sets of all rounds as they were
/// worked out by hand, and the readings under which the line is another one.
struct Case {
    table: Table,
    ceilings: Vec<u32>,
    rounds: Vec<Vec<u32>>,
    wrong: Vec<Reading>,
}

fn case(table: Table, rounds: &[&[u32]], wrong: &[Reading]) -> Case {
    Case {
        table,
        ceilings: rounds[0].to_vec(),
        rounds: rounds.iter().map(|roots| roots.to_vec()).collect(),
        wrong: wrong.to_vec(),
    }
}

fn cases() -> Vec<Case> {
    vec![
        // No message: no edge leads from one process to another, so no root is
        // reached, wherever it stands.
        case(
            table(&[1, 4], &[]),
            &[&[1, 2]],
            &[RootMarksItself, RootsAtTheCounts, RootsAtTheLastStates],
        ),
        case(table(&[1], &[]), &[&[0]], &[RootMarksItself]),
        // One message, (0,1) to (1,2), with the root of 0 at its send and that
        // of 1 at its receipt: an edge joins them.
        case(
            table(&[3, 3], &[((0, 1), (1, 2))]),
            &[&[1, 2], &[1, 1]],
            &[
                RootMarksItself,
                ReceivedALaterState,
                ReceivedAnEarlierState,
                Backwards,
            ],
        ),
        // The root of 0 one state behind the send: sent before it, so that the
        // message is no edge of any state that is reached.
        case(
            table(&[3, 3], &[((0, 1), (1, 2))]),
            &[&[2, 3]],
            &[SentALaterState],
        ),
        // The root of 1 one state before the receipt.
        case(
            table(&[3, 3], &[((0, 1), (1, 2))]),
            &[&[1, 1]],
            &[ReceivedAnEarlierState],
        ),
        // The root of 0 before the send: the path to the root of 1 has three
        // edges, two along process 0 and the message.
        case(
            table(&[3, 3], &[((0, 2), (1, 1))]),
            &[&[0, 1], &[0, 0]],
            &[DirectSuccessors, MessagesAlone],
        ),
        // The root of 1 behind the receipt: two edges, the message and one
        // along process 1. It gives way by two states at once.
        case(
            table(&[3, 3], &[((0, 1), (1, 1))]),
            &[&[1, 2], &[1, 0]],
            &[DirectSuccessors, MessagesAlone],
        ),
        // The root of 1 is the new state, and only the edge from the last state
        // leads to it.
        case(
            table(&[2, 2], &[((0, 1), (1, 1))]),
            &[&[1, 2], &[1, 0]],
            &[NoEdgeToNewStates, DirectSuccessors, RootsAtTheCounts],
        ),
        // The message waits: no edge.
        case(
            table(&[3, 3], &[((0, 0), (1, 0))]),
            &[&[0, 2]],
            &[WaitingMessages],
        ),
        // The message is unsaved, (0,1) to (1,2): an edge to the new state, at
        // which the root of 1 stands.
        case(
            table(&[2, 2], &[((0, 1), (1, 2))]),
            &[&[1, 2], &[1, 1]],
            &[UnsavedMessagesLeftOut, UnsavedAtTheLastState, Backwards],
        ),
        // The root of 1 at its last state: the new one is marked, and no root.
        case(
            table(&[2, 2], &[((0, 1), (1, 2))]),
            &[&[1, 1]],
            &[UnsavedAtTheLastState],
        ),
        // The root of 0 behind the send.
        case(
            table(&[2, 2], &[((0, 1), (1, 2))]),
            &[&[2, 2]],
            &[SentALaterState, UnsavedFromTheNewState],
        ),
        // Counts 1 1, and a message either way, both unsaved: with 0 holding 1
        // goes back to 0, which leads to new states alone.
        case(
            table(&[1, 1], &[((0, 0), (1, 1)), ((1, 0), (0, 1))]),
            &[&[0, 1], &[0, 0]],
            &[UnsavedMessagesLeftOut, UnsavedAtTheLastState],
        ),
        // Two processes at their new states, put back one after the other: (0,1)
        // to (1,2), unsaved, and (1,1) to (2,2), unsaved too.
        case(
            table(&[2, 2, 2], &[((0, 1), (1, 2)), ((1, 1), (2, 2))]),
            &[&[1, 2, 2], &[1, 1, 2], &[1, 1, 1]],
            &[UnsavedMessagesLeftOut, NotRepeated],
        ),
        // Through a third process, where no root stands in the way: (0,0) to
        // (1,1), and (1,2) to (2,1).
        case(
            table(&[2, 3, 2], &[((0, 0), (1, 1)), ((1, 2), (2, 1))]),
            &[&[0, 3, 2], &[0, 0, 0]],
            &[DirectSuccessors, MessagesAlone, NoEdgeToNewStates],
        ),
        // Example D, three rounds: 1 of process 0 leads to 1 of process 1,
        // which gives way to 0, which leads to 1 of process 0.
        case(
            example_d(),
            &[&[1, 1], &[1, 0], &[0, 0]],
            &[NotRepeated, Backwards, RootsAtTheCounts],
        ),
        case(example_d(), &[&[1, 2], &[1, 0], &[0, 0]], &[NotRepeated]),
        case(example_d(), &[&[2, 1]], &[RootsAtTheLastStates]),
        // Example A, from the ceilings of process 0 holding: the root of 1
        // gives way from 3 to 1.
        case(
            example_a(),
            &[&[2, 3], &[2, 1], &[1, 1]],
            &[
                RootMarksItself,
                WaitingMessages,
                EarliestUnmarked,
                NotRepeated,
            ],
        ),
        // A chain through four processes, one round each: the root that gives
        // way in a round leads to the next process's root in the next one.
        case(
            table(
                &[2, 3, 3, 3],
                &[((0, 1), (1, 2)), ((1, 1), (2, 2)), ((2, 1), (3, 2))],
            ),
            &[&[1, 2, 2, 2], &[1, 1, 2, 2], &[1, 1, 1, 2], &[1, 1, 1, 1]],
            &[NotRepeated],
        ),
    ]
}

/// Each case by the crate's search, by the other way, and by the call.
#[test]
fn by_hand() {
    for Case {
        table,
        ceilings,
        rounds: by_hand,
        ..
    } in cases()
    {
        let marking = Marking::new(&table, &ceilings);
        assert_eq!(marking.rounds, by_hand, "{table:?}");
        let other: Vec<_> = rounds(&table, &ceilings, AsWritten);
        let by_hand: Vec<_> = by_hand.into_iter().map(Some).collect();
        assert_eq!(other, by_hand, "{table:?}");
        let list: Vec<u16> = ceilings.iter().map(|&at| at as u16).collect();
        let room = 2 * list.len();
        let outcome = marked_line(&table.to_bytes(), &list, mark_bytes(&table), room);
        assert_eq!(outcome.number, 0);
        assert_eq!(outcome.answer, line_to_bytes(marking.line()));
    }
}

/// Under a wrong reading a case that names it has another line, or none.
#[test]
fn wrong_readings_are_caught() {
    let cases = cases();
    for case in &cases {
        let line = case.rounds.last().cloned();
        for &reading in &case.wrong {
            let other = line_by(&case.table, &case.ceilings, reading);
            assert_ne!(other, line, "{reading:?} {:?} {line:?}", case.table);
        }
    }
    for reading in WRONG {
        let caught = cases.iter().any(|case| case.wrong.contains(&reading));
        assert!(caught, "no case catches {reading:?}");
    }
}

/// A root that gives way by one state at a time, or one root at a time, ends at
/// the same line, by other rounds: a case that has them catches both.
#[test]
fn slower_readings_have_other_rounds() {
    let mut caught = [0; SLOWER.len()];
    for case in cases() {
        let by_hand: Vec<_> = case.rounds.into_iter().map(Some).collect();
        for (place, reading) in SLOWER.into_iter().enumerate() {
            let other = rounds(&case.table, &case.ceilings, reading);
            assert_eq!(other.last(), by_hand.last());
            caught[place] += usize::from(other != by_hand);
        }
    }
    assert!(caught.iter().all(|&times| times > 0), "{caught:?}");
    // From 2 3 of example A process 1 goes back to 1 at once, and not to 2.
    let slow = rounds(&example_a(), &[2, 3], OneStateBack);
    assert_eq!(slow[1], Some(vec![2, 2]));
    // Two roots give way in one round.
    let both = table(&[1, 2, 2], &[((0, 0), (1, 1)), ((0, 0), (2, 1))]);
    let marking = Marking::new(&both, &[0, 1, 1]);
    assert_eq!(marking.rounds, [[0, 1, 1], [0, 0, 0]]);
    let slow = rounds(&both, &[0, 1, 1], OneRootARound);
    assert_eq!(slow[1], Some(vec![0, 0, 1]));
}

/// The examples B, C and D, and A under all ceilings. The lines of A were
/// worked out from its consistent lines: 0 0, 0 1, 1 1, 3 2 and 3 3.
#[test]
fn lines_of_the_examples() {
    let line = |table: &Table, ceilings: &[u32]| Marking::new(table, ceilings).line().to_vec();
    let a = example_a();
    let of_a: [[[u32; 2]; 4]; 4] = [
        [[0, 0], [0, 1], [0, 1], [0, 1]],
        [[0, 0], [1, 1], [1, 1], [1, 1]],
        [[0, 0], [1, 1], [1, 1], [1, 1]],
        [[0, 0], [1, 1], [3, 2], [3, 3]],
    ];
    for (c, row) in of_a.iter().enumerate() {
        for (d, expected) in row.iter().enumerate() {
            assert_eq!(line(&a, &[c as u32, d as u32]), expected, "{c} {d}");
        }
    }
    let b = table(&[1], &[]);
    assert_eq!(line(&b, &[0]), [0]);
    assert_eq!(line(&b, &[1]), [1]);
    let c = table(&[1, 4], &[]);
    assert_eq!(line(&c, &[0, 4]), [0, 4]);
    assert_eq!(line(&c, &[1, 3]), [1, 3]);
    let d = example_d();
    for (ceilings, expected) in [
        ([1, 1], [0, 0]),
        ([1, 2], [0, 0]),
        ([2, 1], [2, 1]),
        ([2, 2], [2, 2]),
        ([2, 0], [0, 0]),
        ([0, 2], [0, 0]),
    ] {
        assert_eq!(line(&d, &ceilings), expected, "{ceilings:?}");
    }
}

// ---------------------------------------------------------------------------
// All small tables.

/// The procedure with all marks taken away before each round.
fn rounds_with_marks_cleared(table: &Table, ceilings: &[u32]) -> Vec<Vec<u32>> {
    let graph = Graph::new(table);
    let mut roots = ceilings.to_vec();
    let mut rounds = Vec::new();
    loop {
        let mut marks = graph.no_marks();
        graph.mark(&roots, &mut marks);
        rounds.push(roots.clone());
        let marked = marked_roots(&roots, &marks);
        if marked.is_empty() {
            return rounds;
        }
        for p in marked {
            roots[p] = latest_unmarked(&marks[p]);
        }
    }
}

/// Document 02, §3: it gives "our line for all tables and ceilings". The line is
/// the one found by trying every line, and by the work list; the call answers
/// what the call for the line under ceilings does. One, two, three and
/// four rounds are among them. Marks cleared between rounds give the same rounds.
#[test]
fn under_all_ceilings_of_all_small_tables() {
    let mut by_rounds = [0; 5];
    for table in small_tables() {
        let bytes = table.to_bytes();
        let index = SendIndex::new(&table);
        let n = table.processes();
        for ceilings in all_at_or_below(&table.counts) {
            let marking = Marking::new(&table, &ceilings);
            let line = marking.line();
            let enumerated = line_by_enumeration(&table, &ceilings);
            assert_eq!(line, enumerated, "{table:?} {ceilings:?}");
            assert_eq!(line, index.latest_under(&ceilings));
            let cleared = rounds_with_marks_cleared(&table, &ceilings);
            assert_eq!(cleared, marking.rounds, "{table:?} {ceilings:?}");
            let list: Vec<u16> = ceilings.iter().map(|&at| at as u16).collect();
            let under = line_under(&bytes, &list, 2 * n);
            let marked = marked_line(&bytes, &list, mark_bytes(&table), 2 * n);
            assert_eq!((marked.number, marked.answer), (0, under.answer));
            by_rounds[marking.rounds.len()] += 1;
        }
    }
    let [none, met @ ..] = by_rounds;
    assert_eq!(none, 0);
    assert!(met.iter().all(|&times| times > 0), "{met:?}");
    assert!(met.iter().sum::<u32>() > 200_000, "{met:?}");
}

/// What a path of one edge or more leads to, from every state: the closure of
/// the edges, read off the table, joined path by path.
fn closure(table: &Table) -> BTreeSet<(State, State)> {
    let mut leads: BTreeSet<(State, State)> = BTreeSet::new();
    for (p, &count) in table.counts.iter().enumerate() {
        leads.extend((1..=count).map(|c| ((p, c - 1), (p, c))));
    }
    for message in table.messages.iter().filter(|message| message.received > 0) {
        let to = (message.receiver, message.received);
        leads.insert(((message.sender, message.sent), to));
    }
    loop {
        let joined: Vec<(State, State)> = leads
            .iter()
            .flat_map(|&(from, over)| {
                let on = leads.range((over, (0, 0))..=(over, (usize::MAX, u32::MAX)));
                on.map(move |&(_, to)| (from, to))
            })
            .filter(|pair| !leads.contains(pair))
            .collect();
        if joined.is_empty() {
            return leads;
        }
        leads.extend(joined);
    }
}

/// Round by round on all small tables, from the closure alone: a state is
/// marked after a round if and only if a root of it or of an earlier round
/// leads to it, each marked root gives way to the latest state that is not
/// marked, the others stay, and of the last roots none is marked.
#[test]
fn each_round_is_one_of_figure_3() {
    let mut gave_way = 0;
    for table in [(2, 2, 3), (2, 3, 2), (3, 2, 2)]
        .into_iter()
        .flat_map(|(n, c, m)| all_tables(n, c, m))
    {
        let leads = closure(&table);
        for ceilings in all_at_or_below(&table.counts) {
            let marking = Marking::new(&table, &ceilings);
            let rounds = &marking.rounds;
            assert_eq!(rounds[0], ceilings);
            let marked_after = |round: usize, state: State| {
                let roots = rounds[..=round].iter();
                let mut roots = roots.flat_map(|roots| roots.iter().copied().enumerate());
                roots.any(|root| leads.contains(&(root, state)))
            };
            for (round, roots) in rounds.iter().enumerate() {
                for (p, &root) in roots.iter().enumerate() {
                    let last = round + 1 == rounds.len();
                    if !marked_after(round, (p, root)) {
                        assert!(last || rounds[round + 1][p] == root);
                        continue;
                    }
                    assert!(!last, "{table:?} {ceilings:?}");
                    let unmarked = (0..=table.counts[p]).filter(|&c| !marked_after(round, (p, c)));
                    assert_eq!(Some(rounds[round + 1][p]), unmarked.max());
                    gave_way += 1;
                }
            }
            for (p, marks) in marking.marks.iter().enumerate() {
                for (c, &mark) in marks.iter().enumerate() {
                    assert_eq!(mark, marked_after(rounds.len() - 1, (p, c as u32)));
                }
            }
        }
    }
    assert!(gave_way > 1_000, "{gave_way}");
}

/// The other way to run the procedure agrees round by round, marks cleared or
/// not, and the slower readings end at the same line.
#[test]
fn readings_with_the_same_line() {
    for table in all_tables(2, 3, 2).chain(all_tables(3, 2, 1)) {
        for ceilings in all_at_or_below(&table.counts) {
            let marking = Marking::new(&table, &ceilings);
            let expected: Vec<_> = marking.rounds.iter().cloned().map(Some).collect();
            for reading in [AsWritten, MarksCleared] {
                let other = rounds(&table, &ceilings, reading);
                assert_eq!(other, expected, "{reading:?} {table:?} {ceilings:?}");
            }
            for reading in SLOWER {
                let other = line_by(&table, &ceilings, reading);
                assert_eq!(other.as_ref(), expected.last().unwrap().as_ref());
            }
        }
    }
}

// ---------------------------------------------------------------------------
// Larger tables.

/// Chance tables and ceilings, and the largest ones.
#[test]
fn under_chance_ceilings() {
    let mut rng = Rng::new(21);
    let mut most_rounds = 0;
    let mut agree = |rng: &mut Rng, table: &Table, times: usize| {
        let index = SendIndex::new(table);
        let bytes = table.to_bytes();
        for _ in 0..times {
            let list = ceilings(rng, table);
            let ceiling: Line = list.iter().copied().map(u32::from).collect();
            let marking = Marking::new(table, &ceiling);
            assert_eq!(marking.line(), index.latest_under(&ceiling));
            let outcome = marked_line(&bytes, &list, mark_bytes(table), 64);
            assert_eq!(outcome.answer, line_under(&bytes, &list, 64).answer);
            most_rounds = most_rounds.max(marking.rounds.len());
        }
    };
    for round in 0..3000 {
        let n = rng.between(1, 8);
        let m = rng.between(0, 40);
        let table = match round % 3 {
            0 => arbitrary(&mut rng, n, m, 9),
            1 => clustered(&mut rng, n, m),
            _ => history(&mut rng, n, m),
        };
        agree(&mut rng, &table, 4);
    }
    for table in limit_tables(&mut rng) {
        agree(&mut rng, &table, 6);
    }
    for round in 0..20 {
        let n = rng.between(2, 32);
        let most = [2, 30, 4096][round % 3];
        let table = arbitrary(&mut rng, n, 4096, most);
        agree(&mut rng, &table, 3);
        let table = clustered(&mut rng, n, 4096);
        agree(&mut rng, &table, 3);
        let table = ring_domino(&mut rng, n, 4096, Order::ALL[round % 6]);
        agree(&mut rng, &table, 3);
    }
    assert!(most_rounds > 100, "{most_rounds}");
}

/// A domino of m messages has m + 1 rounds from the last states: each message
/// marks a root in its turn, and the root that gave way sent the next one. The
/// order of the messages in the table makes no difference. From the new states
/// there is one round.
#[test]
fn rounds_of_dominoes() {
    let mut rng = Rng::new(22);
    for order in Order::ALL {
        for m in [0, 2, 4, 10, 100, 1000, 4096] {
            let table = domino_chain(&mut rng, m, order);
            let last: Line = table.counts.iter().map(|count| count - 1).collect();
            let marking = Marking::new(&table, &last);
            assert_eq!(marking.rounds.len(), m + 1);
            assert_eq!(marking.line(), [0, 0]);
            let marking = Marking::new(&table, &table.counts);
            assert_eq!(marking.rounds, [&table.counts[..]]);
        }
    }
}

// ---------------------------------------------------------------------------
// The call: its buffers and its checks.

const ROOM: usize = 40_000;

/// "(sum of counts + N) / 8 bytes, rounded up": the bytes to expect were worked
/// out by hand. Those of the counts alone, or rounded down, would be others, and
/// 19 with a long enough buffer is caught from both sides of each.
#[test]
fn bytes_of_the_marks() {
    let sizes: [(Vec<u16>, usize); 20] = [
        (vec![1], 1),            // 2 bits
        (vec![6], 1),            // 7 bits
        (vec![7], 1),            // 8 bits
        (vec![8], 2),            // 9 bits; the counts alone have 8
        (vec![14], 2),           // 15 bits
        (vec![15], 2),           // 16 bits
        (vec![16], 3),           // 17 bits
        (vec![4096], 513),       // 4,097 bits
        (vec![4095], 512),       // 4,096 bits
        (vec![3, 2], 1),         // 7 bits
        (vec![3, 3], 1),         // 8 bits
        (vec![3, 4], 2),         // 9 bits
        (vec![4, 3], 2),         // 9 bits
        (vec![1; 8], 2),         // 16 bits; the counts alone have 8
        (vec![2; 8], 3),         // 24 bits
        (vec![1; 31], 8),        // 62 bits
        (vec![1; 32], 8),        // 64 bits
        (vec![2; 32], 12),       // 96 bits
        (vec![4095; 32], 16384), // 131,072 bits
        (vec![4096; 32], 16388), // 131,104 bits; the counts alone have 131,072
    ];
    for (counts, bytes) in sizes {
        let table = of_counts(&counts);
        let list = vec![0; counts.len()];
        let room = 2 * counts.len();
        for long in [bytes, bytes + 1, bytes + 7, bytes + 8, 2 * bytes, ROOM] {
            let outcome = marked_line(&table, &list, long, room);
            assert_eq!(outcome.number, 0, "{counts:?} {long}");
            assert_eq!(outcome.marks, Some(bytes));
            assert_eq!(outcome.answer, vec![0; room]);
            assert_eq!(outcome.lines, None);
        }
        for short in [bytes - 1, bytes / 2, 0] {
            assert_eq!(
                marked_line(&table, &list, short, room),
                Outcome::refused(19),
                "{counts:?} {short}"
            );
        }
    }
    // Messages take no marks.
    let a = example_a().to_bytes();
    assert_eq!(marked_line(&a, &[2, 2], 1, 4).marks, Some(1));
    assert_eq!(marked_line(&a, &[2, 2], 0, 4), Outcome::refused(19));
}

/// 17, 18, 19, 16: each fault alone, and with those behind it, which catches 19
/// before 18 and 16 before 19. 16 leaves the marks as they were.
#[test]
fn order_of_the_checks() {
    let a = example_a().to_bytes();
    let good: &[u16] = &[2, 2];
    let high: &[u16] = &[2, 4];
    let long: &[u16] = &[2, 2, 2];
    let long_and_high: &[u16] = &[4, 4, 4];
    for (list, marks, room, number) in [
        (good, 1, 4, 0),
        (good, 1, 3, 16),
        (good, 1, 0, 16),
        (good, 0, 4, 19),
        (good, 0, 3, 19),
        (good, 0, 0, 19),
        (high, 1, 4, 18),
        (high, 1, 3, 18),
        (high, 0, 4, 18),
        (high, 0, 0, 18),
        (long, 1, 4, 17),
        (long, 1, 0, 17),
        (long, 0, 4, 17),
        (long_and_high, 1, 4, 17),
        (long_and_high, 0, 0, 17),
        (&[], 0, 0, 17),
        (&[4], 0, 0, 17),
    ] {
        let outcome = marked_line(&a, list, marks, room);
        if number == 0 {
            assert_eq!(outcome.answer, [1, 0, 1, 0]);
            assert_eq!((outcome.number, outcome.marks), (0, Some(1)));
        } else {
            assert_eq!(outcome, Outcome::refused(number), "{list:?} {marks} {room}");
        }
    }
}

/// A refused table answers its own number, whatever else there is.
#[test]
fn tables_before_all_else() {
    let refused = [
        (vec![2, 0, 5], 1),
        (numbers(&[0, 0]), 2),
        (numbers(&[33, 0]), 2),
        (numbers(&[2, 4097, 1, 1]), 3),
        (numbers(&[2, 0, 1]), 4),
        (numbers(&[2, 0, 1, 4097]), 5),
        (numbers(&[2, 1, 2, 2, 2, 0, 1, 0]), 6),
        (numbers(&[2, 1, 2, 2, 1, 0, 1, 0]), 7),
        (numbers(&[2, 1, 2, 2, 0, 2, 1, 0]), 8),
        (numbers(&[2, 1, 2, 2, 0, 1, 1, 3]), 9),
    ];
    for (bytes, number) in refused {
        let lists: [&[u16]; 5] = [&[], &[0], &[0, 0], &[9, 9], &[9, 9, 9]];
        for list in lists {
            for marks in [0, ROOM] {
                for room in [0, ROOM] {
                    let outcome = marked_line(&bytes, list, marks, room);
                    assert_eq!(outcome, Outcome::refused(number));
                }
            }
        }
    }
}

/// 17 and 18 are those of the line under ceilings, over lengths and numbers on
/// both sides of each boundary.
#[test]
fn lists_as_for_the_line_under_ceilings() {
    for counts in [vec![1], vec![5], vec![4096], vec![3, 1, 4096], vec![2; 32]] {
        let bytes = of_counts(&counts);
        let table = Table::read(&bytes).unwrap();
        let mut lists = boundary_ceilings(&table);
        for length in [0, 1, 31, 33, 64, 256, 65_536, 65_536 + counts.len()] {
            lists.extend([vec![0; length], vec![65_535; length]]);
        }
        for list in lists {
            for room in [0, 2 * counts.len() - 1, 2 * counts.len(), ROOM] {
                let under = line_under(&bytes, &list, room);
                let mut marked = marked_line(&bytes, &list, mark_bytes(&table), room);
                let zeros = marked.marks.take();
                assert_eq!(zeros.is_some(), under.number == 0);
                assert_eq!(marked, under);
                let short = marked_line(&bytes, &list, mark_bytes(&table) - 1, room);
                let first = [17, 18].contains(&under.number);
                let number = if first { under.number } else { 19 };
                assert_eq!(short, Outcome::refused(number));
            }
        }
    }
}
