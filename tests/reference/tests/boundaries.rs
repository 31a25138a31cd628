//! Limits, buffers that just fit or just do not, and the order of the checks.

mod common;

use common::numbers;
use reference::gen::{arbitrary, ceilings, history, limit_tables, staircase, Rng};
use reference::sheet::kept;
use reference::*;

const ROOM: usize = 40_000;

#[test]
fn counts() {
    for (count, number) in [(0, 5), (1, 0), (2, 0), (4096, 0), (4097, 5), (65535, 5)] {
        assert_eq!(check_table(&numbers(&[1, 0, count])), number);
        assert_eq!(check_table(&numbers(&[3, 0, 1, 1, count])), number);
        assert_eq!(check_table(&numbers(&[3, 0, count, 1, 1])), number);
    }
    // A count of 4,096 has the line 4,095.
    assert_eq!(
        recovery_line(&numbers(&[1, 0, 4096]), 2).answer,
        numbers(&[4095])
    );
    assert_eq!(
        listing(&numbers(&[1, 0, 4096])),
        "line 4095\nhold 0 4095\ncheckpoint 0 4095\nshare 0\n"
    );
    assert_eq!(listing(&numbers(&[1, 0, 4097])), "refused 5\n");
}

#[test]
fn process_numbers() {
    let with = |n: u16| {
        let mut list = vec![n, 0];
        list.extend(vec![1; usize::from(n)]);
        numbers(&list)
    };
    for (n, number) in [
        (0, 2),
        (1, 0),
        (2, 0),
        (31, 0),
        (32, 0),
        (33, 2),
        (256, 2),
        (65535, 2),
    ] {
        assert_eq!(check_table(&with(n)), number);
    }
}

#[test]
fn message_numbers() {
    let with = |m: usize| {
        let mut list = vec![2, m as u16, 1, 1];
        for _ in 0..m {
            list.extend([0, 0]);
        }
        for _ in 0..m {
            list.extend([1, 0]);
        }
        numbers(&list)
    };
    for (m, number) in [(0, 0), (1, 0), (4095, 0), (4096, 0), (4097, 3)] {
        assert_eq!(check_table(&with(m)), number);
    }
    // A send meets M = 4,096 but not M = 4,095.
    let almost = with(4095);
    let full = with(4096);
    assert_eq!(send(&almost, 0, 1, full.len()).answer, full);
    assert_eq!(send(&almost, 0, 1, full.len() - 1), Outcome::refused(16));
    assert_eq!(send(&full, 0, 1, ROOM), Outcome::refused(14));
    assert_eq!(send(&full, 0, 1, 0), Outcome::refused(14));
    assert_eq!(send(&full, 1, 1, 0), Outcome::refused(11));
    assert_eq!(send(&full, 2, 2, 0), Outcome::refused(10));
    // All waiting messages are kept.
    let sheet = keep_sheet(&full, 4, ROOM);
    assert_eq!(sheet.answer.len(), 4 + 4 * 2 + 2 * 4096);
}

#[test]
fn largest_table() {
    let mut rng = Rng::new(1);
    for table in limit_tables(&mut rng) {
        let bytes = table.to_bytes();
        assert_eq!(bytes.len(), 32_836);
        assert_eq!(check_table(&bytes), 0);
        assert!(listing(&bytes).starts_with("line "));
        let mut longer = bytes.clone();
        longer.push(0);
        assert_eq!(listing(&longer), "refused 4\n");
        longer.extend([0; 1000]);
        assert_eq!(listing(&longer), "refused 4\n");
        assert_eq!(listing(&bytes[..32_835]), "refused 4\n");
    }
}

#[test]
fn saves() {
    // Process 1 has 4,095 states, then 4,096; message 0 waits for it.
    let before = numbers(&[2, 1, 1, 4095, 0, 0, 1, 0]);
    let plain = numbers(&[2, 1, 1, 4096, 0, 0, 1, 0]);
    let taken = numbers(&[2, 1, 1, 4096, 0, 0, 1, 4095]);
    assert_eq!(save(&before, 1, &[], before.len()).answer, plain);
    assert_eq!(save(&before, 1, &[0], before.len()).answer, taken);
    assert_eq!(check_table(&taken), 0);
    assert_eq!(
        save(&before, 1, &[0], before.len() - 1),
        Outcome::refused(16)
    );
    assert_eq!(save(&plain, 1, &[], ROOM), Outcome::refused(14));
    assert_eq!(save(&plain, 1, &[0], 0), Outcome::refused(14));
    // A bad list comes before the limit, a bad process before the list.
    assert_eq!(save(&plain, 1, &[1], 0), Outcome::refused(13));
    assert_eq!(save(&plain, 2, &[1], 0), Outcome::refused(10));
    // The other process is not at the limit; nothing waits for it.
    assert_eq!(save(&plain, 0, &[], ROOM).number, 0);
    assert_eq!(save(&plain, 0, &[0], ROOM), Outcome::refused(13));
}

#[test]
fn save_lists() {
    // Messages 0, 2, 3 wait for process 1, each from another process; 1 waits for
    // process 0; 4 was received by process 1 before its state 1.
    let table = numbers(&[
        5, 5, 1, 2, 1, 1, 1, //
        0, 0, 1, 0, 2, 0, 3, 0, 4, 0, //
        1, 0, 0, 0, 1, 0, 1, 0, 1, 1,
    ]);
    assert_eq!(check_table(&table), 0);
    let good: [&[u16]; 8] = [&[], &[0], &[2], &[3], &[0, 2], &[0, 3], &[2, 3], &[0, 2, 3]];
    for list in good {
        let outcome = save(&table, 1, list, table.len());
        assert_eq!(outcome.number, 0);
        let after = outcome.answer;
        assert_eq!((count(&after, 0), count(&after, 1)), (1, 3));
        for k in 0..5 {
            let now = if list.contains(&(k as u16)) {
                2
            } else {
                received(&table, k)
            };
            assert_eq!(received(&after, k), now);
        }
    }
    let bad: [&[u16]; 12] = [
        &[1],
        &[4],
        &[5],
        &[65535],
        &[0, 0],
        &[2, 0],
        &[0, 1],
        &[0, 2, 2],
        &[0, 2, 3, 4],
        &[0, 2, 3, 5],
        &[3, 2],
        &[0, 65535],
    ];
    for list in bad {
        assert_eq!(save(&table, 1, list, ROOM), Outcome::refused(13));
        assert_eq!(save(&table, 1, list, 0), Outcome::refused(13));
        assert_eq!(save(&table, 5, list, 0), Outcome::refused(10));
    }
}

/// "Check 9 refuses only numbers above the count": from 0 to the count, one
/// above it and beyond, under the least count, the largest and between. The
/// count that matters is the receiver's.
#[test]
fn receipt_numbers() {
    for count in [1, 2, 3, 255, 256, 257, 4095, 4096] {
        for others in [1, count, 4096] {
            let with = |received: u16| {
                check_table(&numbers(&[3, 1, others, count, others, 0, 0, 1, received]))
            };
            for received in [0, 1, count / 2, count - 1, count] {
                assert_eq!(with(received), 0, "{received} under {count}");
            }
            for received in [count + 1, count + 2, count + 256, 4097, 32_768, 65_535] {
                assert_eq!(with(received), 9, "{received} under {count}");
            }
        }
    }
}

/// Process 1 has 4,096 states: a save meets 14, and a receipt does not. Message
/// 0 waits for it, 1 waits for process 0, and 2, which is from process 2, was
/// received by its state 4,095.
#[test]
fn receipts_at_the_limit() {
    let table = |received: u16| {
        numbers(&[
            3, 3, 1, 4096, 1, //
            0, 0, 1, 4095, 2, 0, //
            1, received, 0, 0, 1, 4095,
        ])
    };
    let (before, after) = (table(0), table(4096));
    assert_eq!(check_table(&table(4097)), 9);
    assert_eq!(receive(&before, 1, &[0], before.len()).answer, after);
    assert_eq!(check_table(&after), 0);
    assert_eq!(receive(&before, 1, &[], before.len()).answer, before);
    assert_eq!(save(&before, 1, &[0], ROOM), Outcome::refused(14));
    assert_eq!(save(&after, 1, &[], ROOM), Outcome::refused(14));
    // What is unsaved does not wait, so it cannot be listed again.
    assert_eq!(receive(&after, 1, &[0], ROOM), Outcome::refused(13));
    assert_eq!(save(&after, 1, &[0], ROOM), Outcome::refused(13));
    // 10, then 13, then 16; a save has 14 between the last two.
    for (process, list, number) in [(3, &[5][..], 10), (1, &[5], 13), (1, &[2], 13)] {
        for room in [0, before.len() - 1, ROOM] {
            assert_eq!(
                receive(&before, process, list, room),
                Outcome::refused(number)
            );
        }
    }
    for room in [0, before.len() - 1] {
        assert_eq!(receive(&before, 1, &[0], room), Outcome::refused(16));
        assert_eq!(receive(&before, 1, &[], room), Outcome::refused(16));
    }
}

/// 4,096 messages of one channel: those that wait are received one by one and all
/// at once, and one that is not the oldest is not received alone.
#[test]
fn receipts_of_many_messages() {
    let table = |received: &dyn Fn(usize) -> u16| {
        let mut list = vec![2, 4096, 3, 2];
        list.extend([0, 2].repeat(4096));
        list.extend((0..4096).flat_map(|k| [1, received(k)]));
        numbers(&list)
    };
    let before = table(&|_| 0);
    let all: Vec<u16> = (0..4096).collect();
    let after = receive(&before, 1, &all, before.len());
    assert_eq!((after.number, after.answer), (0, table(&|_| 2)));
    for position in [0, 1, 2047, 4095] {
        let so_far = table(&|k| if k < usize::from(position) { 2 } else { 0 });
        let after = receive(&so_far, 1, &[position], so_far.len());
        let expected = table(&|k| if k <= usize::from(position) { 2 } else { 0 });
        assert_eq!((after.number, after.answer), (0, expected));
        let alone = receive(&before, 1, &[position], ROOM).number;
        assert_eq!(alone, if position == 0 { 0 } else { 24 });
        // All but one, which is passed over unless it is the last.
        let mut others = all.clone();
        others.remove(usize::from(position));
        let outcome = receive(&before, 1, &others, ROOM).number;
        assert_eq!(outcome, if position == 4095 { 0 } else { 24 });
    }
    assert_eq!(receive(&before, 1, &[4096], ROOM), Outcome::refused(13));
    // A send meets M = 4,096, and a receipt does not.
    assert_eq!(send(&before, 0, 1, ROOM), Outcome::refused(14));
}

/// The lists of a receipt: those of a save, from both sides of each fault.
#[test]
fn receipt_lists() {
    // Messages 0, 2, 3 wait for process 1, each from another process; 1 waits for
    // process 0; 4 was received by state 1 of process 1, and 5 is unsaved there.
    let table = numbers(&[
        5, 6, 1, 2, 1, 1, 1, //
        0, 0, 1, 0, 2, 0, 3, 0, 4, 0, 4, 0, //
        1, 0, 0, 0, 1, 0, 1, 0, 1, 1, 1, 2,
    ]);
    assert_eq!(check_table(&table), 0);
    let good: [&[u16]; 8] = [&[], &[0], &[2], &[3], &[0, 2], &[0, 3], &[2, 3], &[0, 2, 3]];
    for list in good {
        let outcome = receive(&table, 1, list, table.len());
        assert_eq!(outcome.number, 0);
        let after = outcome.answer;
        assert_eq!((count(&after, 0), count(&after, 1)), (1, 2));
        for k in 0..6 {
            let now = if list.contains(&(k as u16)) {
                2
            } else {
                received(&table, k)
            };
            assert_eq!(received(&after, k), now);
            assert_eq!(receiver(&after, k), receiver(&table, k));
            assert_eq!((sender(&after, k), sent(&after, k)), {
                (sender(&table, k), sent(&table, k))
            });
        }
    }
    let bad: [&[u16]; 14] = [
        &[1],
        &[4],
        &[5],
        &[6],
        &[65535],
        &[0, 0],
        &[2, 0],
        &[0, 1],
        &[0, 2, 2],
        &[0, 2, 3, 4],
        &[0, 2, 3, 5],
        &[0, 2, 3, 6],
        &[3, 2],
        &[0, 65535],
    ];
    for list in bad {
        for room in [0, table.len(), ROOM] {
            assert_eq!(receive(&table, 1, list, room), Outcome::refused(13));
            assert_eq!(save(&table, 1, list, room), Outcome::refused(13));
            assert_eq!(receive(&table, 5, list, room), Outcome::refused(10));
        }
    }
    assert_eq!(receive(&table, 65535, &[], ROOM), Outcome::refused(10));
    assert_eq!(receive(&table, 0, &[1], ROOM).number, 0);
    assert_eq!(receive(&table, 0, &[0], ROOM), Outcome::refused(13));
}

#[test]
fn sends() {
    let table = numbers(&[3, 0, 1, 5, 4096]);
    let expect = |j: u16, y: u16, i: u16| numbers(&[3, 1, 1, 5, 4096, j, y, i, 0]);
    assert_eq!(send(&table, 0, 1, ROOM).answer, expect(0, 0, 1));
    assert_eq!(send(&table, 1, 0, ROOM).answer, expect(1, 4, 0));
    assert_eq!(send(&table, 2, 0, 18).answer, expect(2, 4095, 0));
    assert_eq!(send(&table, 2, 0, 17), Outcome::refused(16));
    assert_eq!(send(&table, 3, 0, ROOM), Outcome::refused(10));
    assert_eq!(send(&table, 0, 3, ROOM), Outcome::refused(10));
    assert_eq!(send(&table, 3, 3, ROOM), Outcome::refused(10));
    assert_eq!(send(&table, 65535, 65535, 0), Outcome::refused(10));
    assert_eq!(send(&table, 2, 2, 0), Outcome::refused(11));
}

#[test]
fn sets() {
    for n in 1..=32u16 {
        let mut list = vec![n, 0];
        list.extend(vec![7; usize::from(n)]);
        let bytes = numbers(&list);
        let room = 2 * usize::from(n);
        for p in 0..32 {
            let outcome = line_of_set(&bytes, 1 << p, room);
            if p < usize::from(n) {
                let mut line = vec![7; usize::from(n)];
                line[p] = 6;
                assert_eq!(outcome.answer, numbers(&line));
                assert_eq!(line_of_set(&bytes, 1 << p, room - 1), Outcome::refused(16));
            } else {
                assert_eq!(outcome, Outcome::refused(12));
                assert_eq!(line_of_set(&bytes, 1 << p | 1, 0), Outcome::refused(12));
            }
        }
        let all = line_of_set(&bytes, u32::MAX, room);
        assert_eq!(all.number, if n == 32 { 0 } else { 12 });
        let none = line_of_set(&bytes, 0, room);
        assert_eq!(none.answer, numbers(&vec![7; usize::from(n)]));
    }
}

/// Each ceiling from 0 to one above the count, the others at their counts. Without
/// messages the line is the ceilings themselves.
#[test]
fn ceilings_up_to_the_count() {
    for counts in [vec![1], vec![5], vec![4096], vec![3, 1, 4096], vec![2; 32]] {
        let n = counts.len();
        let bytes = numbers(&[&[n as u16, 0], &counts[..]].concat());
        for p in 0..n {
            let count = counts[p];
            let accepted = [0, 1, count / 2, count - 1, count];
            for at in accepted {
                let mut list = counts.clone();
                list[p] = at;
                let outcome = line_under(&bytes, &list, 2 * n);
                assert_eq!(outcome.number, 0, "{list:?}");
                assert_eq!(outcome.answer, numbers(&list));
                assert_eq!(line_under(&bytes, &list, 2 * n - 1), Outcome::refused(16));
            }
            for at in [count + 1, count + 2, 4097, 32_768, 65_535] {
                // The others as high, as low and as wrong as can be.
                for others in [&counts, &vec![0; n], &vec![65_535; n]] {
                    let mut list = others.clone();
                    list[p] = at;
                    for room in [2 * n, 2 * n - 1, 0] {
                        assert_eq!(line_under(&bytes, &list, room), Outcome::refused(18));
                    }
                }
            }
        }
    }
}

/// The ceiling of a process is compared with its own count, and not with that
/// of another or with the largest.
#[test]
fn each_ceiling_has_its_own_count() {
    let bytes = numbers(&[3, 0, 2, 7, 5]);
    assert_eq!(
        line_under(&bytes, &[2, 7, 5], 6).answer,
        numbers(&[2, 7, 5])
    );
    for list in [[7, 2, 5], [5, 7, 2], [2, 5, 7], [3, 0, 0], [0, 8, 0]] {
        assert_eq!(line_under(&bytes, &list, 6), Outcome::refused(18));
    }
}

/// Any length but N gives 17, before 18 looks at a ceiling and before 16.
#[test]
fn lengths_of_the_list() {
    for n in [1, 2, 3, 31, 32] {
        let bytes = numbers(&[&[n as u16, 0], &vec![7; n][..]].concat());
        let lengths = [
            0,
            n - 1,
            n,
            n + 1,
            2 * n,
            255,
            256,
            65_535,
            65_536,
            65_536 + n,
        ];
        for length in lengths {
            for at in [0, 7, 8, 65_535] {
                let list = vec![at; length];
                let number = match (length == n, at <= 7) {
                    (false, _) => 17,
                    (true, false) => 18,
                    (true, true) => 0,
                };
                assert_eq!(line_under(&bytes, &list, ROOM).number, number);
                let short = if number == 0 { 16 } else { number };
                assert_eq!(
                    line_under(&bytes, &list, 2 * n - 1),
                    Outcome::refused(short)
                );
                assert_eq!(line_under(&bytes, &list, 0), Outcome::refused(short));
            }
        }
    }
}

/// A refused table answers its own number, whatever the list and the buffer.
#[test]
fn tables_before_ceilings() {
    let refused = [
        (vec![2, 0, 5], 1),
        (numbers(&[0, 0]), 2),
        (numbers(&[33, 0]), 2),
        (numbers(&[2, 4097, 1, 1]), 3),
        (numbers(&[2, 0, 1]), 4),
        (numbers(&[2, 0, 1, 4097]), 5),
        (numbers(&[2, 1, 2, 2, 2, 0, 1, 0]), 6),
        (numbers(&[2, 1, 2, 2, 1, 0, 1, 0]), 7),
        (numbers(&[2, 1, 2, 2, 0, 2, 1, 0]), 8),
        (numbers(&[2, 1, 2, 2, 0, 1, 1, 3]), 9),
    ];
    for (bytes, number) in refused {
        let lists: [&[u16]; 5] = [&[], &[0], &[0, 0], &[9, 9], &[9, 9, 9]];
        for list in lists {
            assert_eq!(line_under(&bytes, list, 0), Outcome::refused(number));
            assert_eq!(line_under(&bytes, list, ROOM), Outcome::refused(number));
        }
    }
    for received in [0, 1, 2] {
        let accepted = numbers(&[2, 1, 2, 2, 0, 1, 1, received]);
        assert_eq!(line_under(&accepted, &[9, 9], 0), Outcome::refused(18));
    }
}

/// Each call with its buffer exact and one byte short, over many tables.
#[test]
fn buffers() {
    let mut rng = Rng::new(2);
    for round in 0..400 {
        let n = rng.between(1, 6);
        let m = rng.between(0, 30);
        let table = if round % 2 == 0 {
            history(&mut rng, n, m)
        } else {
            arbitrary(&mut rng, n, m, 6)
        };
        let bytes = table.to_bytes();
        let list = ceilings(&mut rng, &table);
        let first = vec![0; n];
        let all: Vec<u16> = (0..n as u16).collect();
        let waiting: Vec<u16> = table.waiting_for(0).iter().map(|&k| k as u16).collect();
        let calls: [&dyn Fn(usize) -> Outcome; 9] = [
            &|room| recovery_line(&bytes, room),
            &|room| line_of_set(&bytes, 1, room),
            &|room| lines_of_sets(&bytes, &[1, 0, 1], n * n, room),
            &|room| line_under(&bytes, &list, room),
            &|room| stand_together(&bytes, &all, &first, room),
            &|room| save(&bytes, 0, &[], room),
            &|room| receive(&bytes, 0, &waiting, room),
            &|room| fall_back(&bytes, room),
            &|room| send(&bytes, 0, 1, room),
        ];
        for call in &calls[..if n > 1 { 9 } else { 8 }] {
            let long = call(ROOM);
            assert_eq!(long.number, 0);
            assert_eq!(call(long.answer.len()), long);
            assert_eq!(call(long.answer.len() - 1), Outcome::refused(16));
            assert_eq!(call(0), Outcome::refused(16));
        }
        // The keep sheet: under 16 the scratch holds the lines.
        let long = keep_sheet(&bytes, n * n + 3, ROOM);
        assert_eq!(long.number, 0);
        assert_eq!(long.lines.as_ref().unwrap().len(), n * n);
        let k = usize::from(long.answer[0]) + 256 * usize::from(long.answer[1]);
        let q = usize::from(long.answer[2]) + 256 * usize::from(long.answer[3]);
        assert_eq!(long.answer.len(), 4 + 4 * k + 2 * q);
        assert_eq!(keep_sheet(&bytes, n * n, long.answer.len()), long);
        let short = keep_sheet(&bytes, n * n, long.answer.len() - 1);
        assert_eq!(
            short,
            Outcome {
                number: 16,
                answer: vec![],
                lines: long.lines.clone(),
                marks: None
            }
        );
        assert_eq!(keep_sheet(&bytes, n * n - 1, 0), Outcome::refused(15));
        assert_eq!(keep_sheet(&bytes, n * n - 1, ROOM), Outcome::refused(15));
    }
}

/// The sheet with the most states: each process keeps one state for each
/// holder up to itself.
#[test]
fn most_kept_states() {
    for n in 1..=32 {
        let table = staircase(n, 4096);
        assert_eq!(check_table(&table.to_bytes()), 0);
        assert_eq!(kept(&table).states.len(), n * (n + 1) / 2);
    }
}

/// A check covers all entries before the next begins, wherever they stand.
#[test]
fn order_of_checks() {
    // Entry 0 meets the later check, the last entry the earlier one.
    let good: [u16; 12] = [2, 2, 2, 2, 0, 0, 0, 0, 1, 0, 1, 0];
    let with = |changes: &[(usize, u16)]| {
        let mut list = good;
        for &(at, number) in changes {
            list[at] = number;
        }
        check_table(&numbers(&list))
    };
    assert_eq!(with(&[]), 0);
    assert_eq!(with(&[(9, 2)]), 0);
    assert_eq!(with(&[(9, 3)]), 9);
    assert_eq!(with(&[(11, 3)]), 9);
    assert_eq!(with(&[(9, 2), (11, 3)]), 9);
    assert_eq!(with(&[(9, 3), (7, 2)]), 8);
    assert_eq!(with(&[(5, 2), (11, 3)]), 8);
    assert_eq!(with(&[(9, 3), (6, 1)]), 7);
    assert_eq!(with(&[(9, 3), (6, 2)]), 6);
    assert_eq!(with(&[(9, 3), (2, 0)]), 5);
    assert_eq!(with(&[(5, 2), (10, 0)]), 7);
    assert_eq!(with(&[(8, 0), (6, 2)]), 6);
    assert_eq!(with(&[(8, 0), (10, 2)]), 6);
    assert_eq!(with(&[(4, 2), (8, 2)]), 6); // alike, but out of range
    assert_eq!(with(&[(4, 2), (3, 0)]), 5);
    assert_eq!(with(&[(2, 0), (1, 1)]), 4);
    assert_eq!(with(&[(2, 0), (1, 4097)]), 3);
    assert_eq!(with(&[(0, 0), (1, 4097)]), 2);
}
