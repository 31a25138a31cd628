//! The share of a listing: how it was rounded, and tables that have a chosen
//! one. By chance a table rarely has an exact half.

use reference::gen::{self, Rng};
use reference::table::{MOST_PROCESSES, MOST_STATES};
use reference::{Message, Table};

/// The ways in which a share is rounded, in the order of the report.
pub const ROUNDINGS: [&str; 5] = [
    "whole",
    "below half",
    "half to even below",
    "half to even above",
    "above half",
];

/// The place of the exact halves there.
pub const HALVES: [usize; 2] = [2, 3];

/// The place in [`ROUNDINGS`] of the way from `kept` of `total` to `share`;
/// `None` where that is not the nearest whole percent, or of two that are
/// equally near the odd one.
pub fn rounding(share: u32, kept: u32, total: u32) -> Option<usize> {
    let [share, kept, total] = [share, kept, total].map(i64::from);
    // Twice what was taken away, in parts of which `total` are a percent.
    let taken = 2 * (100 * kept - share * total);
    if taken.abs() == total && share % 2 != 0 {
        return None;
    }
    match taken {
        _ if taken.abs() > total => None,
        _ if taken == total => Some(2),
        _ if taken == -total => Some(3),
        0 => Some(0),
        1.. => Some(1),
        _ => Some(4),
    }
}

/// The shares rounded in each of [`ROUNDINGS`], in a line.
pub fn report(shares: &[u64; ROUNDINGS.len()]) -> String {
    let ways = ROUNDINGS.iter().zip(shares);
    let ways: Vec<String> = ways.map(|(way, times)| format!("{way}: {times}")).collect();
    ways.join(", ")
}

/// The number of kept states and the share in the rows of a listing; `None`
/// where it has no share as its last row.
pub fn read(listing: &[u8]) -> Option<(u32, u32)> {
    let text = std::str::from_utf8(listing).ok()?;
    let share = text.lines().last()?.strip_prefix("share ")?.parse().ok()?;
    let kept = text.lines().filter(|row| row.starts_with("checkpoint "));
    Some((kept.count() as u32, share))
}

/// The most states that are kept of n processes: those of the stairs.
pub const fn most_kept(n: usize) -> usize {
    n * (n + 1) / 2
}

/// The totals of which `kept` states are an exact half of a percent more than a
/// whole one, the largest first: 200 x K divided by them is odd.
pub fn halves(kept: usize) -> Vec<usize> {
    let odd = (1..200).step_by(2);
    odd.map(|odd| (odd, 200 * kept / odd))
        .filter(|(odd, total)| odd * total == 200 * kept)
        .map(|(_, total)| total)
        .collect()
}

/// An exact half of these kept states, and its neighbours: a state more or less
/// in the total, a state more or less that is kept.
pub fn near(kept: usize, total: usize) -> [(usize, usize); 5] {
    [
        (kept, total),
        (kept, total - 1),
        (kept, total + 1),
        (kept - 1, total),
        (kept + 1, total),
    ]
}

/// A table with so many kept states and so many states in all, or `None` where
/// no table of this kind has them.
///
/// It is a part of the stairs: process i has a message from each of the first
/// few processes before it, that of j sent at the end of j and received before
/// state j + 1. So the line of j alone puts i back to j, and i keeps a state for
/// each of its messages, and its last one. A few messages that wait are added,
/// and the names of the processes and the order of messages are by chance, but
/// that each channel is in turn.
pub fn table(rng: &mut Rng, kept: usize, total: usize) -> Option<Table> {
    let most = MOST_STATES as usize;
    let fits = |n: &usize| (*n..=most_kept(*n)).contains(&kept) && total <= most * n;
    let sizes: Vec<usize> = (1..=MOST_PROCESSES).filter(fits).collect();
    if sizes.is_empty() || kept > total {
        return None;
    }
    let n = sizes[rng.between(0, sizes.len() - 1)];
    // Which process has how many messages: process i has i places for them.
    let mut places: Vec<usize> = (0..n).flat_map(|i| vec![i; i]).collect();
    rng.shuffle(&mut places);
    let mut received = vec![0; n];
    for &i in &places[..kept - n] {
        received[i] += 1;
    }
    let mut counts: Vec<usize> = received.iter().map(|messages| messages + 1).collect();
    // The other states, to each process as many as the rest leaves over.
    let mut spare = total - kept;
    let mut order: Vec<usize> = (0..n).collect();
    rng.shuffle(&mut order);
    for (done, &p) in order.iter().enumerate() {
        let rest: usize = order[done + 1..].iter().map(|&q| most - counts[q]).sum();
        let most_here = spare.min(most - counts[p]);
        let here = rng.between(spare.saturating_sub(rest), most_here);
        counts[p] += here;
        spare -= here;
    }
    // `order` once more, as the names that the processes get.
    let mut messages = Vec::new();
    for i in 0..n {
        for j in 0..received[i] {
            let sent = (order[j], counts[j] as u32 - 1);
            messages.push(Message::new(sent, (order[i], j as u32 + 1)));
        }
    }
    for _ in 0..if n > 1 { rng.between(0, 3) } else { 0 } {
        let j = rng.between(0, n - 1);
        let i = (j + rng.between(1, n - 1)) % n;
        // Behind a message of the stairs, which was sent at the end, as late.
        let behind = j < received[i];
        let sent = if behind {
            counts[j] - 1
        } else {
            rng.between(0, counts[j] - 1)
        };
        messages.push(Message::new((order[j], sent as u32), (order[i], 0)));
    }
    rng.shuffle(&mut messages);
    gen::put_in_turn(&mut messages);
    let mut named = vec![0; n];
    for p in 0..n {
        named[order[p]] = counts[p] as u32;
    }
    Some(Table {
        counts: named,
        messages,
    })
}

/// The table with one more process that has `count` states and no messages:
/// one state more is kept.
pub fn with_another(table: &Table, count: usize) -> Table {
    let mut table = table.clone();
    table.counts.push(count as u32);
    table
}

#[cfg(test)]
mod tests {
    use super::*;
    use reference::gen::history;
    use reference::lines::hold_lines;
    use reference::sheet::kept_under;

    fn kept(table: &Table) -> usize {
        kept_under(table, &hold_lines(table)).states.len()
    }

    #[test]
    fn roundings() {
        // Eighths: on both sides of 50, each beside the percents next to it.
        for (kept, below, way) in [(1, 12, 2), (3, 37, 3), (5, 62, 2), (7, 87, 3)] {
            let found: Vec<_> = (below - 1..=below + 2)
                .map(|share| rounding(share, kept, 8))
                .collect();
            let even = |at| (way == at).then_some(way);
            assert_eq!(found, [None, even(2), even(3), None], "{kept} of 8");
        }
        // A half of a percent, and one state away from it.
        assert_eq!([0, 1].map(|share| rounding(share, 1, 200)), [Some(2), None]);
        assert_eq!([0, 1].map(|share| rounding(share, 1, 201)), [Some(1), None]);
        assert_eq!([0, 1].map(|share| rounding(share, 1, 199)), [None, Some(4)]);
        assert_eq!([1, 2].map(|share| rounding(share, 3, 200)), [None, Some(3)]);
        assert_eq!([1, 2].map(|share| rounding(share, 3, 201)), [Some(1), None]);
        assert_eq!([1, 2].map(|share| rounding(share, 3, 199)), [None, Some(4)]);
        // Whole percents.
        let all = [99, 100, 101].map(|share| rounding(share, 5, 5));
        assert_eq!(all, [None, Some(0), None]);
        assert_eq!(rounding(50, 3, 6), Some(0));
        assert_eq!(rounding(0, 528, 131_072), Some(1));
        assert_eq!(rounding(0, 656, 131_072), None);
    }

    #[test]
    fn rows_are_read() {
        let listing = b"line 0\nhold 0 0\ncheckpoint 0 0\nshare 100\n";
        assert_eq!(read(listing), Some((1, 100)));
        assert_eq!(read(b"refused 4\n"), None);
        assert_eq!(read(b""), None);
    }

    #[test]
    fn all_halves() {
        assert_eq!(halves(1), [200, 40, 8]);
        assert_eq!(halves(3), [600, 200, 120, 40, 24, 8]);
        for kept in 1..=60 {
            let mut totals = halves(kept);
            totals.reverse();
            let tried: Vec<usize> = (kept..=300 * kept)
                .filter(|total| 2 * (100 * kept % total) == *total)
                .collect();
            assert_eq!(totals, tried);
        }
    }

    #[test]
    fn tables_have_what_they_are_made_for() {
        let rng = &mut Rng::new(10);
        let most = most_kept(MOST_PROCESSES);
        assert_eq!(most, 528);
        let mut chosen = vec![(1, 1), (2, 8_192), (32, 131_072), (most, most)];
        chosen.extend([(most, 131_072), (most, 131_071), (33, 131_072)]);
        for number in 1..200 {
            let of_kept = 1 + number * 37 % most;
            chosen.push((of_kept, of_kept + number * number % (20 * of_kept)));
        }
        for (of_kept, total) in chosen {
            let table = table(rng, of_kept, total).expect("a table");
            assert_eq!(reference::check_table(&table.to_bytes()), 0);
            assert_eq!(table.counts.iter().sum::<u32>() as usize, total);
            assert_eq!(kept(&table), of_kept);
        }
        // Fewer states than are kept; more than there are; too many kept.
        for (of_kept, total) in [(2, 1), (1, 4_097), (most, 131_073), (most + 1, 1_000)] {
            assert!(table(rng, of_kept, total).is_none());
        }
    }

    #[test]
    fn another_process_keeps_one_state() {
        let rng = &mut Rng::new(11);
        for n in 1..=8 {
            let table = history(rng, n, 6 * n);
            for count in [1, 2, 4_096] {
                let more = with_another(&table, count);
                assert_eq!(kept(&more), kept(&table) + 1);
            }
        }
    }
}
