//! The ways to find a line agree, on all small tables and on chance ones, and
//! the general claims about lines and steps hold.

mod common;

use std::collections::HashMap;

use common::{all_at_or_below, small_tables};
use reference::gen::*;
use reference::lines::*;
use reference::sheet::{kept, kept_under};
use reference::steps::{do_fall_back, do_save, do_send};
use reference::*;

/// "an orphan of a line puts its receiver back to r - 1; passes over the
/// messages go on until a pass lowers nothing."
fn line_by_lowering(table: &Table, ceiling: &[u32]) -> Line {
    let mut line = ceiling.to_vec();
    loop {
        let mut lowered = false;
        for message in &table.messages {
            if is_orphan(message, &line) {
                line[message.receiver] = message.received - 1;
                lowered = true;
            }
        }
        if !lowered {
            return line;
        }
    }
}

/// Under one ceiling: work list, lowering and (if small) enumeration agree.
fn line_agrees(table: &Table, index: &SendIndex, ceiling: &[u32], enumerate: bool) -> Line {
    let line = index.latest_under(ceiling);
    assert!(is_consistent(table, &line));
    assert_eq!(line, line_by_work_list(table, ceiling));
    let lowered = line_by_lowering(table, ceiling);
    assert_eq!(line, lowered, "{table:?} {ceiling:?}");
    if enumerate {
        let enumerated = line_by_enumeration(table, ceiling);
        assert_eq!(line, enumerated, "{table:?} {ceiling:?}");
    }
    line
}

/// All sets of holders of few processes; of many the single ones, none, all
/// and all but the last.
fn sets_of(n: usize) -> Vec<u32> {
    if n <= 4 {
        (0..1 << n).collect()
    } else {
        (0..n)
            .map(single_holder)
            .chain([0, all_hold(n), all_hold(n - 1)])
            .collect()
    }
}

/// The ways agree under the ceilings of sets.
fn lines_agree(table: &Table, enumerate: bool) {
    let n = table.processes();
    let index = SendIndex::new(table);
    for set in sets_of(n) {
        let line = line_agrees(table, &index, &ceiling(table, set), enumerate);
        if set == 0 {
            // "The line of the empty set is the counts."
            assert_eq!(line, table.counts);
        }
    }
    // "The line of zeros is always consistent".
    assert!(is_consistent(table, &vec![0; n]));
}

/// Whether the one is at or below the other in every place.
fn at_or_below(one: &[u16], other: &[u16]) -> bool {
    one.len() == other.len() && one.iter().zip(other).all(|(a, b)| a <= b)
}

/// "of line L when y >= L of j and r <= L of i", from lookups in the bytes.
fn has_orphan(bytes: &[u8], line: &[u16]) -> bool {
    (0..usize::from(messages(bytes))).any(|k| {
        let (j, i) = (sender(bytes, k), receiver(bytes, k));
        let (y, r) = (sent(bytes, k), received(bytes, k));
        r != 0 && y >= line[usize::from(j)] && r <= line[usize::from(i)]
    })
}

/// The line that a call answers.
fn line_in(outcome: Outcome) -> Vec<u16> {
    assert_eq!(outcome.number, 0);
    let pairs = outcome.answer.chunks_exact(2);
    pairs
        .map(|pair| u16::from_le_bytes([pair[0], pair[1]]))
        .collect()
}

/// All ways to find a line, under all ceilings.
#[test]
fn under_all_ceilings_of_all_small_tables() {
    let mut ceilings = 0;
    for table in small_tables() {
        let index = SendIndex::new(&table);
        for ceiling in all_at_or_below(&table.counts) {
            line_agrees(&table, &index, &ceiling, true);
            ceilings += 1;
        }
    }
    assert!(ceilings > 200_000, "{ceilings}");
}

/// "The answer is the latest consistent line at or below all ceilings.": it is
/// consistent and not above a ceiling, and no consistent line that is not above
/// a ceiling either is later at any process. All lines are tried.
#[test]
fn the_answer_is_the_latest_under_the_ceilings() {
    for table in small_tables() {
        let bytes = table.to_bytes();
        let all = all_at_or_below(&table.counts);
        let consistent: Vec<&Vec<u16>> = all
            .iter()
            .filter(|line| !has_orphan(&bytes, line))
            .collect();
        for ceiling in &all {
            let line = line_in(line_under(&bytes, ceiling, 2 * ceiling.len()));
            assert!(at_or_below(&line, ceiling));
            assert!(!has_orphan(&bytes, &line));
            for other in &consistent {
                if at_or_below(other, ceiling) {
                    assert!(at_or_below(other, &line), "{table:?} {ceiling:?}");
                }
            }
        }
    }
}

/// A lower ceiling never gives a later line, for all pairs of ceilings; under
/// the smaller of any two the line is the smaller of their lines; and a line is
/// the line under itself.
#[test]
fn lower_ceilings_give_lower_lines() {
    let smaller = |one: &[u16], other: &[u16]| -> Vec<u16> {
        let pairs = one.iter().zip(other);
        pairs.map(|(&a, &b)| a.min(b)).collect()
    };
    for table in [(2, 3, 2), (2, 2, 3), (3, 2, 2)]
        .into_iter()
        .flat_map(|(n, c, m)| all_tables(n, c, m))
    {
        let bytes = table.to_bytes();
        let all = all_at_or_below(&table.counts);
        let line_at = |ceiling: &[u16]| line_in(line_under(&bytes, ceiling, 64));
        let lines: HashMap<&[u16], Vec<u16>> = all
            .iter()
            .map(|ceiling| (&ceiling[..], line_at(ceiling)))
            .collect();
        for (low, line) in &lines {
            assert_eq!(&lines[&line[..]], line);
            for (high, other) in &lines {
                if at_or_below(low, high) {
                    assert!(at_or_below(line, other), "{table:?} {low:?} {high:?}");
                }
                let both = &lines[&smaller(low, high)[..]];
                assert_eq!(both, &smaller(line, other), "{table:?} {low:?} {high:?}");
            }
        }
    }
}

/// "A holding set becomes one kind of ceiling": the line under the counts, with
/// those of the holders lowered by one, is the line of the set.
#[test]
fn a_set_is_one_kind_of_ceiling() {
    let same = |table: &Table, sets: &[u32]| {
        let bytes = table.to_bytes();
        let n = table.processes();
        for &set in sets {
            let ceilings: Vec<u16> = (0..n)
                .map(|p| count(&bytes, p) - (set >> p & 1) as u16)
                .collect();
            for room in [2 * n, 2 * n - 1] {
                let under = line_under(&bytes, &ceilings, room);
                assert_eq!(under, line_of_set(&bytes, set, room), "{table:?} {set}");
            }
        }
        let last: Vec<u16> = (0..n).map(|p| count(&bytes, p) - 1).collect();
        assert_eq!(line_under(&bytes, &last, 64), recovery_line(&bytes, 64));
    };
    for table in small_tables() {
        same(&table, &Vec::from_iter(0..1 << table.processes()));
    }
    let mut rng = Rng::new(19);
    for round in 0..300 {
        let n = rng.between(1, 8);
        let m = rng.between(0, 60);
        let table = match round % 3 {
            0 => arbitrary(&mut rng, n, m, 9),
            1 => clustered(&mut rng, n, m),
            _ => history(&mut rng, n, m),
        };
        same(&table, &Vec::from_iter(0..1 << n));
    }
    for table in limit_tables(&mut rng) {
        same(&table, &sets_of(32));
    }
}

/// Chance ceilings on chance tables, small ones with enumeration, and on the
/// largest ones.
#[test]
fn under_chance_ceilings() {
    let mut rng = Rng::new(20);
    let agree = |rng: &mut Rng, table: &Table, times: usize, enumerate: bool| {
        let index = SendIndex::new(table);
        for _ in 0..times {
            let list = ceilings(rng, table);
            let ceiling: Line = list.iter().copied().map(u32::from).collect();
            let line = line_agrees(table, &index, &ceiling, enumerate);
            let outcome = line_under(&table.to_bytes(), &list, 64);
            assert_eq!((outcome.number, outcome.answer), (0, line_to_bytes(&line)));
        }
    };
    for round in 0..3000 {
        let n = rng.between(1, 4);
        let m = rng.between(0, 12);
        let table = match round % 3 {
            0 => arbitrary(&mut rng, n, m, 5),
            1 => clustered(&mut rng, n, m),
            _ => history(&mut rng, n, m),
        };
        let lines: u32 = table.counts.iter().map(|&count| count + 1).product();
        agree(&mut rng, &table, 4, lines < 4000);
    }
    for table in limit_tables(&mut rng) {
        agree(&mut rng, &table, 20, false);
    }
    for round in 0..20 {
        let n = rng.between(2, 32);
        let most = [2, 30, 4096][round % 3];
        let table = arbitrary(&mut rng, n, 4096, most);
        agree(&mut rng, &table, 10, false);
        let table = clustered(&mut rng, n, 4096);
        agree(&mut rng, &table, 10, false);
        let table = ring_domino(&mut rng, n, 4096, Order::ALL[round % 6]);
        agree(&mut rng, &table, 3, false);
    }
}

#[test]
fn on_all_small_tables_of_both_sides() {
    for (n, c, m) in [
        (2, 2, 4),
        (2, 3, 3),
        (2, 4, 2),
        (3, 2, 2),
        (3, 3, 1),
        (4, 2, 1),
    ] {
        for table in all_tables_of_both_sides(n, c, m) {
            lines_agree(&table, true);
        }
    }
}

#[test]
fn on_small_chance_tables() {
    let mut rng = Rng::new(3);
    for round in 0..6000 {
        let n = rng.between(1, 4);
        let m = rng.between(0, 12);
        let table = match round % 3 {
            0 => arbitrary(&mut rng, n, m, 5),
            1 => clustered(&mut rng, n, m),
            _ => history(&mut rng, n, m / 2),
        };
        let lines: u64 = table
            .counts
            .iter()
            .map(|&count| u64::from(count) + 1)
            .product();
        lines_agree(&table, lines < 4000);
    }
}

/// Every hold line of every small table, and the sheet made from enumerated
/// lines.
#[test]
fn sheets_from_enumerated_lines() {
    for table in all_tables_of_both_sides(3, 2, 2).chain(all_tables_of_both_sides(2, 3, 3)) {
        let lines: Vec<Line> = (0..table.processes())
            .map(|p| line_by_enumeration(&table, &ceiling(&table, single_holder(p))))
            .collect();
        assert_eq!(hold_lines(&table), lines);
        assert_eq!(kept(&table), kept_under(&table, &lines));
    }
}

#[test]
fn on_large_tables() {
    let mut rng = Rng::new(4);
    for table in limit_tables(&mut rng) {
        lines_agree(&table, false);
    }
    for round in 0..20 {
        let n = rng.between(2, 32);
        lines_agree(&history(&mut rng, n, 1500), false);
        lines_agree(&clustered(&mut rng, n, 4096), false);
        let most = [2, 30, 4096][round % 3];
        lines_agree(&arbitrary(&mut rng, n, 4096, most), false);
    }
}

#[test]
fn dominoes_fall_to_zero() {
    let mut rng = Rng::new(5);
    for order in Order::ALL {
        for m in [0, 2, 4, 10, 100, 1000] {
            let table = domino_chain(&mut rng, m, order);
            assert_eq!(table.messages.len(), m);
            assert_eq!(line_of_run(&table), [0, 0]);
            lines_agree(&table, m <= 10);
        }
        for n in 2..=32 {
            for m in [n, 2 * n + 1, 5 * n] {
                let table = ring_domino(&mut rng, n, m, order);
                assert_eq!(table.messages.len(), m);
                if m % n == 0 {
                    assert_eq!(line_of_run(&table), vec![0; n]);
                }
                lines_agree(&table, n == 2);
            }
        }
        // The full table: every message is an orphan in its turn.
        let full = domino_chain(&mut rng, 4096, order);
        assert_eq!(check_table(&full.to_bytes()), 0);
        assert_eq!(line_of_run(&full), [0, 0]);
        let full = ring_domino(&mut rng, 32, 4096, order);
        assert_eq!(check_table(&full.to_bytes()), 0);
        assert_eq!(line_of_run(&full), [0; 32]);
    }
}

/// How many passes of the lowering rule the recovery line takes, the last of which
/// lowers nothing. Where the chain runs against the order of passes, each pass
/// lowers one process by one message; where it runs along, a round.
#[test]
fn passes_over_dominoes() {
    let mut rng = Rng::new(29);
    let passes = |table: &Table| {
        let mut line = ceiling(table, all_hold(table.processes()));
        let mut passes = 0;
        loop {
            passes += 1;
            let before = line.clone();
            for message in &table.messages {
                if is_orphan(message, &line) {
                    line[message.receiver] = message.received - 1;
                }
            }
            if line == before {
                return passes;
            }
        }
    };
    for n in 2..=8 {
        for rounds in 1..6 {
            let against = ring_domino(&mut rng, n, n * rounds, Order::RoundsAgainst);
            assert_eq!(passes(&against), n * rounds + 1);
            let along = ring_domino(&mut rng, n, n * rounds, Order::RoundsAlong);
            assert_eq!(passes(&along), rounds + 1);
            // In the order of sending the message from process 0 is the last of its
            // round, and the chain goes on with the others in the next pass.
            let time = ring_domino(&mut rng, n, n * rounds, Order::Time);
            assert_eq!(passes(&time), 2 * rounds + 1);
        }
        let full = ring_domino(&mut rng, n, 4096 / n * n, Order::RoundsAgainst);
        assert_eq!(passes(&full), 4096 / n * n + 1);
    }
}

/// The ring domino in the order of time is what the steps make.
#[test]
fn a_domino_is_a_run() {
    let mut rng = Rng::new(6);
    for n in 2..=6 {
        for rounds in 0..5 {
            let mut table = Table::start(n);
            for _ in 0..rounds {
                for p in 1..n {
                    do_send(&mut table, p, (p + 1) % n);
                }
                let list = table.waiting_for(0);
                do_save(&mut table, 0, &list);
                do_send(&mut table, 0, 1);
                for p in 1..n {
                    let list = table.waiting_for(p);
                    do_save(&mut table, p, &list);
                }
            }
            assert_eq!(table, ring_domino(&mut rng, n, n * rounds, Order::Time));
        }
    }
}

/// "of two consistent lines the place-by-place larger is consistent too".
#[test]
fn the_larger_of_two_consistent_lines() {
    for table in all_tables_of_both_sides(2, 3, 2) {
        let mut consistent = Vec::new();
        let top = table.counts.iter().copied().max().unwrap();
        for a in 0..=top {
            for b in 0..=top {
                let line = vec![a, b][..table.processes()].to_vec();
                if is_consistent(&table, &line) {
                    consistent.push(line);
                }
            }
        }
        for one in &consistent {
            for other in &consistent {
                assert!(is_consistent(&table, &larger(one, other)));
            }
        }
    }
}

/// The fall back, told from lookups in the bytes alone.
#[test]
fn fall_back_by_lookups() {
    let mut rng = Rng::new(8);
    let mut waits_again = 0;
    for round in 0..2000 {
        let n = rng.between(1, 8);
        let m = rng.between(0, 40);
        let table = if round % 2 == 0 {
            history(&mut rng, n, m)
        } else {
            arbitrary(&mut rng, n, m, 9)
        };
        let before = table.to_bytes();
        let outcome = fall_back(&before, before.len());
        assert_eq!(outcome.number, 0, "a fall back never makes a table longer");
        let after = outcome.answer;
        assert_eq!(check_table(&after), 0);
        let line: Vec<u16> = recovery_line(&before, 64)
            .answer
            .chunks_exact(2)
            .map(|pair| u16::from_le_bytes([pair[0], pair[1]]))
            .collect();
        assert_eq!(usize::from(processes(&after)), n);
        for (p, &at) in line.iter().enumerate() {
            assert_eq!(count(&after, p), at + 1);
        }
        let mut k = 0;
        for old in 0..usize::from(messages(&before)) {
            if sent(&before, old) >= line[usize::from(sender(&before, old))] {
                continue;
            }
            assert_eq!(sender(&after, k), sender(&before, old));
            assert_eq!(sent(&after, k), sent(&before, old));
            assert_eq!(receiver(&after, k), receiver(&before, old));
            let r = received(&before, old);
            let back = r > line[usize::from(receiver(&before, old))];
            assert_eq!(received(&after, k), if back { 0 } else { r });
            // What was unsaved waits again, and nothing is unsaved any more.
            if r == count(&before, usize::from(receiver(&before, old))) {
                assert_eq!(received(&after, k), 0);
                waits_again += 1;
            }
            assert!(received(&after, k) < count(&after, usize::from(receiver(&after, k))));
            k += 1;
        }
        assert_eq!(usize::from(messages(&after)), k);
        // The line stays where the run fell back to, and a second fall back
        // changes no count.
        assert_eq!(recovery_line(&after, 64), recovery_line(&before, 64));
        let mut twice = Table::read(&after).unwrap();
        do_fall_back(&mut twice);
        assert_eq!(twice.counts, Table::read(&after).unwrap().counts);
    }
    assert!(waits_again > 200, "{waits_again}");
}

/// "to the nearest whole percent, and an exact half goes to the even
/// neighbour", by the 100 halves on the way: the share is the number of halves
/// that were passed, and one that is met exactly counts behind an odd percent.
fn share_by_halves(k: usize, sum: usize) -> usize {
    let behind = |percent: usize| {
        let half = (2 * percent + 1) * sum;
        half < 200 * k || (half == 200 * k && percent % 2 == 1)
    };
    (0..100).filter(|&percent| behind(percent)).count()
}

/// The listing says the same as the calls.
#[test]
fn listing_by_calls() {
    let mut rng = Rng::new(9);
    let mut halves = [0, 0];
    let words = |bytes: &[u8]| -> Vec<String> {
        bytes
            .chunks_exact(2)
            .map(|pair| u16::from_le_bytes([pair[0], pair[1]]).to_string())
            .collect()
    };
    for _ in 0..6000 {
        let n = rng.between(1, 32);
        let m = rng.between(0, 60);
        let bytes = arbitrary(&mut rng, n, m, 12).to_bytes();
        let mut text = format!(
            "line {}\n",
            words(&recovery_line(&bytes, 64).answer).join(" ")
        );
        for p in 0..n {
            let line = words(&line_of_set(&bytes, 1 << p, 64).answer);
            text += &format!("hold {p} {}\n", line.join(" "));
        }
        let sheet = words(&keep_sheet(&bytes, 1024, 20_000).answer);
        let k: usize = sheet[0].parse().unwrap();
        for at in 0..k {
            text += &format!("checkpoint {} {}\n", sheet[2 + at], sheet[2 + k + at]);
        }
        for position in &sheet[2 + 2 * k..] {
            text += &format!("message {position}\n");
        }
        let sum: usize = (0..n).map(|p| usize::from(count(&bytes, p))).sum();
        let share = share_by_halves(k, sum);
        text += &format!("share {share}\n");
        assert_eq!(listing(&bytes), text);
        if 2 * (100 * k).abs_diff(share * sum) == sum {
            halves[usize::from(share * sum > 100 * k)] += 1;
        }
    }
    let [down, up] = halves;
    assert!(down > 10 && up > 10, "too few exact halves: {halves:?}");
}
