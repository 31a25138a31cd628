//! The share, as document 02, §2, rounds it.

mod common;

use common::{numbers, of_counts};
use reference::listing::share;
use reference::*;

/// So many processes without messages, with so many states in all.
fn apart_with(n: u16, states: u16) -> Vec<u8> {
    let counts: Vec<u16> = (0..n)
        .map(|p| states / n + u16::from(p < states % n))
        .collect();
    assert_eq!(counts.iter().sum::<u16>(), states);
    of_counts(&counts)
}

/// The number in the last row of the listing.
fn printed(bytes: &[u8]) -> u32 {
    let text = listing(bytes);
    let (_, last) = text.rsplit_once("\nshare ").expect("a share");
    last.strip_suffix('\n').unwrap().parse().unwrap()
}

/// "So 1 state of 8 prints 12". One process has no messages, and more than one
/// process keep more than one state, so this is the only such table.
#[test]
fn one_state_of_8() {
    assert_eq!(
        listing(&numbers(&[1, 0, 8])),
        "line 7\nhold 0 7\ncheckpoint 0 7\nshare 12\n"
    );
}

/// "and 3 of 8 print 38", without messages.
#[test]
fn three_states_of_8_apart() {
    let text = "line 0 1 4
hold 0 0 2 5
hold 1 1 1 5
hold 2 1 2 4
checkpoint 0 0
checkpoint 1 1
checkpoint 2 4
share 38
";
    assert_eq!(listing(&numbers(&[3, 0, 1, 2, 5])), text);
}

/// "and 3 of 8 print 38", with messages. Message 2 is an orphan when process 0
/// holds, and puts process 1 back to 1; nothing puts process 0 back. Message 1
/// is received in state 2, after that line, and was sent before it. Message 0
/// is received before every line. Message 3 waits.
#[test]
fn three_states_of_8_with_messages() {
    let table = [
        2, 4, 3, 5, // N, M, counts
        0, 0, 0, 1, 0, 2, 1, 4, // sends
        1, 1, 1, 2, 1, 2, 0, 0, // receipts
    ];
    let text = "line 2 1
hold 0 2 1
hold 1 3 4
checkpoint 0 2
checkpoint 1 1
checkpoint 1 4
message 1
message 3
share 38
";
    assert_eq!(listing(&numbers(&table)), text);
}

/// Kept states, all states and the share, worked out by hand: each half, and
/// its neighbours with one state more, one less, one more kept, one fewer kept.
const HALVES: [(u32, u32, u32); 54] = [
    // 12.5 goes down to 12. Its neighbours are 12.549, 12.451, 12.891, 12.109.
    (1, 8, 12),
    (2, 16, 12),
    (32, 256, 12),
    (32, 255, 13),
    (32, 257, 12),
    (33, 256, 13),
    (31, 256, 12),
    // 37.5 goes up to 38. Its neighbours are 37.634, 37.367, 37.857, 37.143.
    (3, 8, 38),
    (30, 80, 38),
    (105, 280, 38),
    (105, 279, 38),
    (105, 281, 37),
    (106, 280, 38),
    (104, 280, 37),
    // 62.5 goes down to 62. Its neighbours are 62.874, 62.130, 63.095, 61.905.
    (5, 8, 62),
    (30, 48, 62),
    (105, 168, 62),
    (105, 167, 63),
    (105, 169, 62),
    (106, 168, 63),
    (104, 168, 62),
    // 87.5 goes up to 88. Its neighbours are 87.866, 87.137, 87.917, 87.083.
    (7, 8, 88),
    (28, 32, 88),
    (210, 240, 88),
    (210, 239, 88),
    (210, 241, 87),
    (211, 240, 88),
    (209, 240, 87),
    // 0.5 goes down to 0. Its neighbours are 0.503, 0.498, 1, 0; 0.50008,
    // 0.49992, 0.516, 0.484; 0.500005, 0.499995, 0.499.
    (1, 200, 0),
    (1, 199, 1),
    (1, 201, 0),
    (2, 200, 1),
    (0, 200, 0),
    (32, 6_400, 0),
    (32, 6_399, 1),
    (32, 6_401, 0),
    (33, 6_400, 1),
    (31, 6_400, 0),
    (528, 105_600, 0),
    (528, 105_599, 1),
    (528, 105_601, 0),
    (527, 105_600, 0),
    // 99.5 goes up to 100. Its neighbours are 100, 99.005, 100, 99; 99.749,
    // 99.252, 99.75, 99.25.
    (199, 200, 100),
    (199, 199, 100),
    (199, 201, 99),
    (200, 200, 100),
    (198, 200, 99),
    (398, 400, 100),
    (398, 399, 100),
    (398, 401, 99),
    (399, 400, 100),
    (397, 400, 99),
    // 49.5 goes up to 50, and 50.5 goes down to 50.
    (99, 200, 50),
    (101, 200, 50),
];

#[test]
fn halves_and_their_neighbours() {
    let mut tables = 0;
    for (kept, states, expected) in HALVES {
        assert_eq!(share(kept, states), expected, "{kept} of {states}");
        if (1..=32).contains(&kept) {
            let bytes = apart_with(kept as u16, states as u16);
            assert_eq!(printed(&bytes), expected, "{kept} of {states}");
            tables += 1;
        }
    }
    assert_eq!(tables, 20, "tables without messages");
}

/// An odd number of states has no half. The remainders are those next to it:
/// with 2h + 1 states, h is still nearer to the lower one, and h + 1 is not.
#[test]
fn odd_numbers_of_states() {
    for (kept, states, lower, remainder, expected) in [
        (1, 3, 33, 1, 33),
        (2, 3, 66, 2, 67),
        (5, 7, 71, 3, 71),
        (2, 7, 28, 4, 29),
        (4, 9, 44, 4, 44),
        (5, 9, 55, 5, 56),
        (5, 11, 45, 5, 45),
        (6, 11, 54, 6, 55),
        (1, 201, 0, 100, 0),
        (1, 199, 0, 100, 1),
        (198, 199, 99, 99, 99),
        (200, 201, 99, 101, 100),
        (528, 105_601, 0, 52_800, 0),
        (528, 105_599, 0, 52_800, 1),
    ] {
        assert_eq!(lower * states + remainder, 100 * kept);
        assert!(2 * remainder == states - 1 || 2 * remainder == states + 1);
        assert_eq!(share(kept, states), expected, "{kept} of {states}");
    }
}

/// 0 and 100: also 0 though a state is kept, and 100 though one is not.
#[test]
fn ends() {
    assert_eq!(printed(&of_counts(&[4_096])), 0);
    assert_eq!(printed(&of_counts(&[4_096; 32])), 0);
    assert_eq!(printed(&of_counts(&[200])), 0);
    assert_eq!(printed(&of_counts(&[199])), 1);
    for n in 1..=32 {
        assert_eq!(printed(&of_counts(&vec![1; n])), 100);
    }
    // 31 of 32 is 96.875.
    assert_eq!(printed(&apart_with(31, 32)), 97);
    for states in [1, 199, 200, 201, 65_535, 65_536, 131_072] {
        assert_eq!(share(states, states), 100);
        assert_eq!(share(0, states), 0);
    }
    for states in [199, 200, 201, 65_535, 65_536, 131_072] {
        let expected = if states < 200 { 99 } else { 100 };
        assert_eq!(share(states - 1, states), expected, "{states}");
    }
}

/// §2 once more, by trying all whole percents: the nearest one, and of two that
/// are equally near the even one. Says also whether there were two.
fn nearest(kept: u32, states: u32) -> (u32, bool) {
    let distance = |percent: u32| (100 * kept).abs_diff(percent * states);
    let least = (0..=100).map(distance).min().unwrap();
    let near: Vec<u32> = (0..=100).filter(|&n| distance(n) == least).collect();
    match near[..] {
        [only] => (only, false),
        [one, other] if one % 2 == 0 && other % 2 == 1 => (one, true),
        [one, other] if one % 2 == 1 && other % 2 == 0 => (other, true),
        _ => panic!("{kept} of {states}: {near:?}"),
    }
}

#[test]
fn the_nearest_of_all_percents() {
    let (mut down, mut up) = (0, 0);
    for states in 1..=800 {
        for kept in 0..=states {
            let (percent, half) = nearest(kept, states);
            assert_eq!(share(kept, states), percent, "{kept} of {states}");
            if half && percent * states < 100 * kept {
                down += 1;
            } else if half {
                up += 1;
            }
        }
    }
    // A half is an odd number of 200ths. Of the 100 odd ones 4 are eighths,
    // which every multiple of 8 states has: 4 x 100. Of the others 16 are
    // fortieths: 16 x 20. The other 80 need a multiple of 200: 80 x 4. They
    // go down and up in turn: 0.5, 1.5, and so on.
    assert_eq!((down, up), (520, 520));
    // K is at most 528, and the sum of counts at most 131,072. Above 65,536
    // the only half is 0.5, since 1.5 takes more than 528 states there.
    for kept in 1..=528 {
        for states in 200 * kept - 1..=200 * kept + 1 {
            let (percent, half) = nearest(kept, states);
            assert_eq!(share(kept, states), percent, "{kept} of {states}");
            assert_eq!(half, states == 200 * kept);
        }
        for states in [65_535, 65_536, 65_537, 131_071, 131_072] {
            let (percent, _) = nearest(kept, states);
            assert_eq!(share(kept, states), percent, "{kept} of {states}");
        }
    }
}

/// The same of what is printed, for tables without messages.
#[test]
fn the_nearest_is_printed() {
    for n in 1..=32 {
        for states in n..=420 {
            let (percent, _) = nearest(n.into(), states.into());
            assert_eq!(printed(&apart_with(n, states)), percent, "{n} of {states}");
        }
    }
}
