//! The generators make what they promise.

use std::collections::{BTreeMap, BTreeSet, HashSet};

use reference::gen::*;
use reference::lines::{hold_lines, line_of_run};
use reference::sheet::kept;
use reference::steps::{do_receive, do_save, do_send};
use reference::*;

#[test]
fn accepted_kinds_are_accepted() {
    for seed in 0..30 {
        for kind in KINDS {
            for (n, m) in [(1, 0), (2, 0), (2, 1), (2, 9), (5, 40), (32, 300)] {
                let Some(bytes) = by_name(kind, seed, n, m) else {
                    let pairs = kind.starts_with("dominoes");
                    assert!(kind.starts_with("ring") && n == 1 || pairs && n % 2 == 1);
                    continue;
                };
                if !kind.starts_with("random") {
                    assert_eq!(check_table(&bytes), 0, "{kind} {seed} {n} {m}");
                }
                assert_eq!(by_name(kind, seed, n, m), Some(bytes), "the same again");
            }
        }
    }
    assert_eq!(by_name("other", 0, 2, 2), None);
    assert_eq!(by_name("history", 0, 33, 2), None);
    assert_eq!(by_name("history", 0, 2, 4097), None);
}

/// A table of each of these kinds often has unsaved messages, at every size; the
/// kinds that a seed has always given have none.
#[test]
fn unsaved_messages_are_where_they_belong() {
    let unsaved = |bytes: &[u8]| {
        let table = Table::read(bytes).unwrap();
        let mut messages = table.messages.iter();
        messages.any(|message| table.unsaved(message))
    };
    for kind in ["history", "arbitrary", "clustered"] {
        for (n, m) in [(2, 9), (5, 40), (32, 300)] {
            let mut times = 0;
            for seed in 0..100 {
                let saved = by_name(kind, seed, n, m).unwrap();
                assert!(!unsaved(&saved), "{kind} {seed} {n} {m}");
                let name = format!("{kind}-unsaved");
                times += usize::from(unsaved(&by_name(&name, seed, n, m).unwrap()));
            }
            assert!(times > 30, "{kind} {n} {m}: {times}");
        }
    }
    let mut rng = Rng::new(23);
    let limits = limit_tables(&mut rng);
    let with = limits.iter().filter(|table| unsaved(&table.to_bytes()));
    assert_eq!(with.count(), 2);
    // The first of them is the least case of document 02, §4, at the limit: no
    // message is kept, though each is received by a process that may hold.
    let [.., all, _] = &limits[..] else {
        panic!("two tables or more");
    };
    assert!(all.messages.iter().all(|message| all.unsaved(message)));
    let last: Vec<(usize, u32)> = (0..32).map(|p| (p, 4095)).collect();
    assert_eq!(kept(all).states, last);
    assert_eq!(kept(all).messages, [0; 0]);
}

#[test]
fn sizes_are_as_asked() {
    let mut rng = Rng::new(12);
    for _ in 0..100 {
        let n = rng.between(2, 32);
        let m = rng.between(0, 200);
        assert_eq!(arbitrary(&mut rng, n, m, 9).messages.len(), m);
        assert_eq!(clustered(&mut rng, n, m).messages.len(), m);
        assert!(history(&mut rng, n, m).messages.len() <= m);
    }
}

/// Histories, clusters and arbitrary tables are not all of the easy kind, in
/// which every line stays at its ceiling and only waiting messages are kept; of
/// unsaved messages some are kept and some are not.
#[test]
fn chance_tables_are_not_trivial() {
    let mut rng = Rng::new(17);
    let makers: [fn(&mut Rng, usize, usize) -> Table; 3] =
        [history, clustered, |rng, n, m| arbitrary(rng, n, m, 20)];
    for make in makers {
        let (mut lowered, mut apart, mut crossed) = (0, 0, 0);
        let (mut unsaved_kept, mut unsaved_not) = (0, 0);
        for _ in 0..300 {
            let n = rng.between(2, 8);
            let m = rng.between(5, 80);
            let table = make(&mut rng, n, m);
            let line = line_of_run(&table);
            let sheet = kept(&table);
            if (0..n).any(|p| line[p] + 1 < table.counts[p]) {
                lowered += 1;
            }
            if sheet.states.len() > n {
                apart += 1;
            }
            if sheet.messages.iter().any(|&k| !table.messages[k].waiting()) {
                crossed += 1;
            }
            for (k, message) in table.messages.iter().enumerate() {
                if table.unsaved(message) && sheet.messages.contains(&k) {
                    unsaved_kept += 1;
                } else if table.unsaved(message) {
                    unsaved_not += 1;
                }
            }
        }
        for times in [lowered, apart, crossed, unsaved_kept, unsaved_not] {
            assert!(
                times > 60,
                "{lowered} {apart} {crossed} {unsaved_kept} {unsaved_not}"
            );
        }
    }
}

/// Whether the send numbers of some sender fall from one position to a later one.
fn send_numbers_fall(table: &Table) -> bool {
    let mut last = vec![0; table.processes()];
    table.messages.iter().any(|message| {
        let falls = message.sent < last[message.sender];
        last[message.sender] = message.sent;
        falls
    })
}

/// They never fall in what runs write, and in rings, dominoes and stairs of any
/// order; elsewhere they mostly do once a sender has more than one channel.
#[test]
fn send_numbers_fall_where_no_run_wrote_them() {
    let mut times = BTreeMap::new();
    for kind in KINDS {
        for seed in 0..10 {
            for (n, m) in [(6, 60), (32, 300)] {
                let bytes = by_name(kind, seed, n, m).unwrap();
                if let Ok(table) = Table::read(&bytes) {
                    *times.entry(kind).or_insert(0) += usize::from(send_numbers_fall(&table));
                }
            }
        }
    }
    for (kind, times) in times {
        match kind.split('-').next() {
            Some("arbitrary" | "clustered" | "limit") => assert!(times > 5, "{kind} {times}"),
            Some("random") => {}
            _ => assert_eq!(times, 0, "{kind}"),
        }
    }
}

/// In a ring whose last round is unsaved every holder puts all back as far as the
/// chain goes; in the order of time it is what the steps make.
#[test]
fn every_holder_goes_round_an_unsaved_ring() {
    let mut rng = Rng::new(37);
    for n in 2..=32 {
        for rounds in 2..5 {
            for order in Order::ALL {
                let table = ring_unsaved(&mut rng, n, n * rounds - 1, order);
                assert_eq!(check_table(&table.to_bytes()), 0);
                assert_eq!(table.messages.len(), n * rounds - 1);
                assert_eq!(hold_lines(&table), vec![vec![0; n]; n]);
                let unsaved = table.messages.iter().filter(|one| table.unsaved(one));
                assert_eq!(unsaved.count(), n - 1);
            }
            let mut table = Table::start(n);
            for round in 1..=rounds {
                for p in 1..n {
                    do_send(&mut table, p, (p + 1) % n);
                }
                for p in 0..n {
                    let list = table.waiting_for(p);
                    if round == rounds {
                        do_receive(&mut table, p, &list);
                    } else {
                        do_save(&mut table, p, &list);
                    }
                    if p == 0 && round < rounds {
                        do_send(&mut table, 0, 1);
                    }
                }
            }
            let time = ring_unsaved(&mut rng, n, n * rounds - 1, Order::Time);
            assert_eq!(table, time);
        }
    }
    // Where the oldest messages are missing the chain ends with the last of them.
    for n in [8, 32] {
        for order in Order::ALL {
            let table = ring_unsaved(&mut rng, n, 4096, order);
            assert_eq!(table.messages.len(), 4096);
            let end = [&[1, 0][..], &vec![1; n - 2]].concat();
            assert_eq!(hold_lines(&table), vec![end; n]);
        }
    }
}

/// Dominoes beside each other fall each by itself.
#[test]
fn dominoes_fall_alone() {
    let mut rng = Rng::new(38);
    for pairs in 1..=16 {
        for order in Order::ALL {
            let n = 2 * pairs;
            let table = ring_dominoes(&mut rng, pairs, 2, 3 * n, order);
            assert_eq!(check_table(&table.to_bytes()), 0);
            assert_eq!(table.messages.len(), 3 * n);
            assert_eq!(line_of_run(&table), vec![0; n]);
            for (p, line) in hold_lines(&table).into_iter().enumerate() {
                let mut expected = table.counts.clone();
                if p % 2 == 0 {
                    expected[p..p + 2].fill(0);
                } else {
                    expected[p] -= 1;
                }
                assert_eq!(line, expected);
            }
        }
    }
}

/// The stairs keep as many states as can be, however often their messages come.
#[test]
fn repeated_stairs_keep_the_most() {
    for n in 2..=32 {
        let once = n * (n - 1) / 2;
        for m in [once, once + 1, 4096] {
            let table = staircase_repeated(n, n as u32 + 1, m);
            assert_eq!(check_table(&table.to_bytes()), 0);
            assert_eq!(table.messages.len(), m);
            assert_eq!(kept(&table).states.len(), n * (n + 1) / 2);
            assert_eq!(kept(&table).messages, [0; 0]);
        }
    }
    let most = Table::read(&by_name("staircase-repeated", 1, 32, 4096).unwrap()).unwrap();
    assert_eq!(kept(&most).states.len(), 528);
}

/// Chance ceilings are accepted, and not all of the easy kinds: those of a set,
/// those that are lines themselves, those under which all goes back to zero.
#[test]
fn chance_ceilings_are_accepted_and_not_trivial() {
    let mut rng = Rng::new(18);
    let (mut lowered, mut stayed, mut zeros, mut no_set) = (0, 0, 0, 0);
    for round in 0..900 {
        let n = rng.between(1, 8);
        let m = rng.between(0, 40);
        let table = match round % 3 {
            0 => history(&mut rng, n, m),
            1 => clustered(&mut rng, n, m),
            _ => arbitrary(&mut rng, n, m, 20),
        };
        let list = ceilings(&mut rng, &table);
        assert_eq!(list.len(), n);
        for (p, &at) in list.iter().enumerate() {
            assert!(u32::from(at) <= table.counts[p], "{list:?} {table:?}");
        }
        let outcome = line_under(&table.to_bytes(), &list, 2 * n);
        assert_eq!(outcome.number, 0);
        let bytes: Vec<u8> = list.iter().flat_map(|at| at.to_le_bytes()).collect();
        lowered += usize::from(outcome.answer != bytes);
        stayed += usize::from(outcome.answer == bytes);
        zeros += usize::from(outcome.answer.iter().all(|&byte| byte == 0));
        no_set += usize::from((0..n).any(|p| u32::from(list[p]) + 1 < table.counts[p]));
    }
    assert!(
        lowered > 300 && stayed > 200 && zeros < 500 && no_set > 500,
        "{lowered} {stayed} {zeros} {no_set}"
    );
}

#[test]
fn boundary_ceilings_are_on_both_sides() {
    let table = Table {
        counts: vec![1, 4096],
        messages: Vec::new(),
    };
    let lists = boundary_ceilings(&table);
    let expected: [(&[u16], u32); 17] = [
        (&[1, 4096], 0),
        (&[0, 4095], 0),
        (&[0, 0], 0),
        (&[0, 4096], 0),
        (&[0, 4096], 0),
        (&[2, 4096], 18),
        (&[65535, 4096], 18),
        (&[1, 0], 0),
        (&[1, 4095], 0),
        (&[1, 4097], 18),
        (&[1, 65535], 18),
        (&[], 17),
        (&[], 17),
        (&[0], 17),
        (&[65535], 17),
        (&[0, 0, 0], 17),
        (&[65535, 65535, 65535], 17),
    ];
    assert_eq!(lists, expected.map(|(list, _)| list.to_vec()));
    for (list, number) in expected {
        assert_eq!(line_under(&table.to_bytes(), list, 4).number, number);
    }
    // One process and thirty-two.
    for n in [1, 32] {
        let mut met = BTreeMap::new();
        for list in boundary_ceilings(&Table::start(n)) {
            let number = line_under(&Table::start(n).to_bytes(), &list, 64).number;
            *met.entry(number).or_insert(0) += 1;
        }
        assert_eq!(met, BTreeMap::from([(0, 3 + 2 * n), (17, 6), (18, 2 * n)]));
    }
}

/// Chance names are accepted, and not all of the easy kinds: none or one, those
/// whose line is of zeros, those of which one can't stand even alone.
#[test]
fn chance_names_are_accepted_and_not_trivial() {
    let mut rng = Rng::new(28);
    let (mut yeses, mut noes, mut later, mut apart) = (0, 0, 0, 0);
    let mut by_number = [0; 9];
    for round in 0..3000 {
        let n = rng.between(1, 8);
        let m = rng.between(0, 40);
        let table = match round % 3 {
            0 => history(&mut rng, n, m),
            1 => clustered(&mut rng, n, m),
            _ => arbitrary(&mut rng, n, m, 20),
        };
        let (processes, states) = names(&mut rng, &table);
        assert_eq!(processes.len(), states.len());
        assert!(processes.windows(2).all(|pair| pair[0] < pair[1]));
        for (&p, &at) in processes.iter().zip(&states) {
            assert!(u32::from(at) < table.counts[usize::from(p)]);
        }
        let bytes = table.to_bytes();
        let outcome = stand_together(&bytes, &processes, &states, 2 * n);
        assert_eq!(outcome.number, 0);
        by_number[processes.len()] += 1;
        if outcome.answer.is_empty() {
            noes += 1;
            let mut each = processes.iter().zip(&states);
            let alone = each.all(|(&p, &at)| {
                let outcome = stand_together(&bytes, &[p], &[at], 2 * n);
                !outcome.answer.is_empty()
            });
            apart += usize::from(alone);
        } else {
            yeses += 1;
            later += usize::from(outcome.answer.iter().any(|&byte| byte > 0));
        }
    }
    assert!(
        yeses > 1500 && noes > 600 && later > 1000 && apart > 200,
        "{yeses} {noes} {later} {apart}"
    );
    assert!(by_number.iter().all(|&times| times > 10), "{by_number:?}");
}

#[test]
fn boundary_names_are_on_both_sides() {
    let table = Table {
        counts: vec![1, 4096],
        messages: Vec::new(),
    };
    let expected: [(&[u16], &[u16], u32); 26] = [
        (&[], &[], 0),
        (&[0], &[0], 0),
        (&[0], &[0], 0),
        (&[0], &[1], 22),
        (&[0], &[2], 22),
        (&[0], &[65535], 22),
        (&[0, 0], &[0, 0], 21),
        (&[1], &[0], 0),
        (&[1], &[4095], 0),
        (&[1], &[4096], 22),
        (&[1], &[4097], 22),
        (&[1], &[65535], 22),
        (&[1, 1], &[0, 0], 21),
        (&[1, 0], &[0, 0], 21),
        (&[0, 1], &[0, 0], 0),
        (&[0, 1], &[0, 4095], 0),
        (&[0, 1], &[1, 4096], 22),
        (&[0, 2], &[0, 0], 21),
        (&[2], &[0], 21),
        (&[0, 65535], &[0, 0], 21),
        (&[65535], &[0], 21),
        (&[0, 1, 2], &[1, 4096, 0], 21),
        (&[0, 1], &[0, 0, 0], 20),
        (&[0, 1, 2], &[0, 0], 20),
        (&[0, 1], &[], 20),
        (&[], &[0, 0], 20),
    ];
    let lists = boundary_names(&table);
    assert_eq!(lists.len(), expected.len());
    for ((processes, states), (p, s, number)) in lists.iter().zip(expected) {
        assert_eq!((&processes[..], &states[..]), (p, s));
        let outcome = stand_together(&table.to_bytes(), p, s, 4);
        assert_eq!(outcome.number, number, "{p:?} {s:?}");
    }
    // One process and thirty-two.
    for n in [1, 32] {
        let mut met = BTreeMap::new();
        for (processes, states) in boundary_names(&Table::start(n)) {
            let bytes = Table::start(n).to_bytes();
            let number = stand_together(&bytes, &processes, &states, 64).number;
            *met.entry(number).or_insert(0) += 1;
        }
        let twice_or_falling = 2 * n - 1;
        assert_eq!(
            met,
            BTreeMap::from([
                (0, 3 + 2 * n),
                (20, 4),
                (21, 5 + twice_or_falling),
                (22, 1 + 3 * n)
            ])
        );
    }
}

/// Each way to break a channel's order breaks it in that way and in no other, in
/// tables of all sizes: with other channels between the two messages, with
/// unsaved receipts, and of messages that are not neighbours in their channel.
#[test]
fn channels_are_broken_in_one_way() {
    let mut rng = Rng::new(30);
    for fault in Fault::ALL {
        let (mut broken, mut not_next, mut unsaved) = (0, 0, 0);
        for round in 0..2000 {
            let n = rng.between(2, 8);
            let m = rng.between(0, 24);
            let table = match round % 3 {
                0 => history(&mut rng, n, m),
                1 => clustered(&mut rng, n, m),
                _ => arbitrary(&mut rng, n, m, 4),
            };
            let Some(now) = put_out_of_turn(&mut rng, &table, fault) else {
                let one_number = table.counts.contains(&1) && fault != Fault::Waiting;
                assert!(table.messages.len() < 2 || one_number, "{table:?}");
                continue;
            };
            broken += 1;
            assert_eq!(now.counts, table.counts);
            assert_eq!(now.messages.len(), table.messages.len());
            let mut met = [0; 3];
            for (k, later) in now.messages.iter().enumerate() {
                for (q, earlier) in now.messages[..k].iter().enumerate() {
                    if !earlier.same_channel(later) {
                        continue;
                    }
                    let waits = earlier.waiting();
                    let faults = [
                        later.sent < earlier.sent,
                        !later.waiting() && waits,
                        !later.waiting() && !waits && later.received < earlier.received,
                    ];
                    for (place, fault) in faults.into_iter().enumerate() {
                        met[place] += usize::from(fault);
                    }
                    if faults.contains(&true) {
                        not_next += usize::from(q + 1 < k);
                        unsaved += usize::from(now.unsaved(later) || now.unsaved(earlier));
                    }
                }
            }
            for (place, other) in Fault::ALL.iter().enumerate() {
                assert_eq!(met[place] > 0, *other == fault, "{now:?}");
            }
            assert_eq!(check_table(&now.to_bytes()), 23);
        }
        assert!(
            broken > 1000 && not_next > 500 && unsaved > 200,
            "{broken} {not_next} {unsaved}"
        );
    }
}

/// The kinds that are out of turn are refused by 23, where they have messages
/// enough: three rounds at least, and of every second one first an odd ring. Those
/// that come in any order are mostly refused.
#[test]
fn kinds_out_of_turn_are_refused() {
    let mut by_chance = BTreeMap::new();
    for seed in 0..30 {
        for kind in OUT_OF_TURN_KINDS {
            for (n, m) in [(2, 9), (5, 40), (7, 21), (32, 300)] {
                let bytes = by_name(kind, seed, n, m).unwrap();
                if kind.starts_with("any-order") {
                    *by_chance.entry(kind).or_insert(0) += check_table(&bytes) / 23;
                    assert!([0, 23].contains(&check_table(&bytes)), "{kind} {n}");
                    continue;
                }
                let even = kind == "domino-every-second" || n % 2 == 0;
                let in_turn = kind.ends_with("every-second") && even;
                assert_eq!(
                    check_table(&bytes),
                    if in_turn { 0 } else { 23 },
                    "{kind} {n}"
                );
                assert_eq!(by_name(kind, seed, n, m), Some(bytes), "the same again");
            }
        }
        assert_eq!(check_table(&by_name("damage-23", seed, 3, 8).unwrap()), 23);
    }
    // Of the 120 tables of each of these kinds most.
    assert!(by_chance.values().all(|&times| times > 60), "{by_chance:?}");
    assert_eq!(by_chance.len(), 6);
    assert_eq!(by_name("out-of-turn-sent", 0, 2, 1), None);
    assert_eq!(by_name("out-of-turn-other", 0, 2, 9), None);
}

/// Putting messages in turn leaves each channel its numbers and its places, and
/// what is in turn as it is.
#[test]
fn messages_are_put_in_turn() {
    let mut rng = Rng::new(31);
    for _ in 0..500 {
        let n = rng.between(2, 5);
        let m = rng.between(0, 30);
        let mut table = arbitrary(&mut rng, n, m, 5);
        let whole = table.clone();
        put_in_turn(&mut table.messages);
        assert_eq!(table, whole);
        rng.shuffle(&mut table.messages);
        let shuffled = table.clone();
        put_in_turn(&mut table.messages);
        assert_eq!(check_table(&table.to_bytes()), 0);
        let ends = |table: &Table| -> Vec<(usize, usize)> {
            let messages = table.messages.iter();
            messages.map(|one| (one.sender, one.receiver)).collect()
        };
        assert_eq!(ends(&table), ends(&shuffled));
        let numbers = |table: &Table| {
            let messages = table.messages.iter();
            let mut sends: Vec<_> = messages
                .map(|one| (one.sender, one.receiver, one.sent))
                .collect();
            let messages = table.messages.iter();
            let mut receipts: Vec<_> = messages
                .map(|one| (one.sender, one.receiver, one.received))
                .collect();
            sends.sort_unstable();
            receipts.sort_unstable();
            (sends, receipts)
        };
        assert_eq!(numbers(&table), numbers(&shuffled));
    }
}

#[test]
fn damage_meets_its_refusal() {
    let mut rng = Rng::new(13);
    let mut met = BTreeMap::new();
    let mut not_met = BTreeSet::new();
    for round in 0..3000 {
        let n = rng.between(1, 32);
        let m = rng.between(0, 20);
        let bytes = if round % 2 == 0 {
            arbitrary(&mut rng, n, m, 50).to_bytes()
        } else {
            history(&mut rng, n, m).to_bytes()
        };
        for refusal in TABLE_CHECKS {
            match damage(&mut rng, &bytes, refusal) {
                Some(broken) => {
                    assert_eq!(check_table(&broken), refusal);
                    *met.entry(refusal).or_insert(0) += 1;
                }
                None => {
                    // What takes a message to damage, and what takes two.
                    let least = if refusal == 23 { 2 } else { 1 };
                    assert!(messages(&bytes) < least);
                    not_met.insert(refusal);
                }
            }
        }
    }
    assert!(TABLE_CHECKS.iter().all(|refusal| met[refusal] > 1000));
    assert_eq!(not_met, BTreeSet::from([6, 7, 8, 9, 23]));
}

/// The receipt number of each message, and of no other, on both sides of check
/// 9: as many on each side as there are to be.
#[test]
fn boundary_receipts_are_on_both_sides() {
    let mut rng = Rng::new(25);
    for (n, m, most) in [(2, 1, 1), (3, 6, 4), (32, 40, 4096), (2, 6, 4)] {
        let table = arbitrary(&mut rng, n, m, most);
        let all = boundary_receipts(&table);
        assert_eq!(all.len(), 5 * m);
        let mut sides = BTreeMap::new();
        for (at, (bytes, refusal)) in all.iter().enumerate() {
            assert_eq!(check_table(bytes), *refusal);
            *sides.entry(*refusal).or_insert(0) += 1;
            // A message of which the channel has no other is never out of turn.
            let one = &table.messages[at / 5];
            let channel = table
                .messages
                .iter()
                .filter(|other| other.same_channel(one));
            if channel.count() == 1 {
                assert_eq!(*refusal, if at % 5 < 3 { 0 } else { 9 });
            }
            for (k, message) in table.messages.iter().enumerate() {
                let count = table.counts[message.receiver];
                let expected = match at.checked_sub(5 * k) {
                    Some(side @ 0..5) => [0, count - 1, count, count + 1, 65_535][side],
                    _ => message.received,
                };
                assert_eq!(u32::from(received(bytes, k)), expected);
            }
        }
        assert_eq!(sides[&9], 2 * m);
        assert!(sides[&0] >= m, "{sides:?}");
        // One message is never out of turn; of six between two processes some are.
        if n == 2 {
            assert_eq!(sides.contains_key(&23), m > 1, "{sides:?}");
        }
    }
}

/// Damage for 9 begins at one above the count, which is met, and the count
/// itself is no damage.
#[test]
fn damage_for_9_begins_above_the_count() {
    let mut rng = Rng::new(24);
    let mut least = 0;
    for _ in 0..400 {
        let bytes = arbitrary(&mut rng, 2, 1, 6).to_bytes();
        let broken = break_receipt_number(&mut rng, &bytes).unwrap();
        let highest = count(&broken, usize::from(receiver(&broken, 0)));
        assert!(received(&broken, 0) > highest);
        least += usize::from(received(&broken, 0) == highest + 1);
        let mut whole = broken;
        let at = whole.len() - 2;
        whole[at..].copy_from_slice(&highest.to_le_bytes());
        assert_eq!(check_table(&whole), 0);
    }
    assert!(least > 100, "{least}");
}

#[test]
fn several_damages_meet_the_first_refusal() {
    let mut rng = Rng::new(14);
    for _ in 0..5000 {
        let n = rng.between(2, 6);
        let m = rng.between(2, 12);
        let bytes = arbitrary(&mut rng, n, m, 6).to_bytes();
        // In checking order, so the first is the one to be met.
        let mut refusals = TABLE_CHECKS.to_vec();
        refusals.retain(|_| rng.chance(1, 3));
        let first = refusals.first().copied().unwrap_or(0);
        rng.shuffle(&mut refusals);
        let broken = damage_many(&mut rng, &bytes, &refusals).unwrap();
        assert_eq!(check_table(&broken), first);
    }
}

#[test]
fn any_bytes_can_be_looked_up_and_refused() {
    let mut rng = Rng::new(15);
    let mut met = BTreeMap::new();
    for round in 0..4000 {
        let bytes = if round % 4 == 0 {
            random_bytes(&mut rng, 200)
        } else {
            let n = rng.between(1, 4);
            let m = rng.between(0, 4);
            random_body(&mut rng, n, m)
        };
        let number = check_table(&bytes);
        *met.entry(number).or_insert(0) += 1;
        for k in [0, 1, 2, 100, 65_534, 65_535, 65_536, usize::MAX] {
            let fields = [
                sender(&bytes, k),
                sent(&bytes, k),
                receiver(&bytes, k),
                received(&bytes, k),
            ];
            if k >= usize::from(messages(&bytes)) {
                assert_eq!(fields, [0; 4]);
            }
            if k >= usize::from(processes(&bytes)) {
                assert_eq!(count(&bytes, k), 0);
            }
        }
        assert_eq!(recovery_line(&bytes, 64).number, number);
        assert_eq!(lines_of_sets(&bytes, &[0, 1], 1024, 128).number, number);
        let n = if number == 0 { processes(&bytes) } else { 99 };
        let zeros = vec![0; usize::from(n)];
        assert_eq!(line_under(&bytes, &zeros, 64).number, number);
        assert_eq!(stand_together(&bytes, &[], &[], 64).number, number);
        assert_eq!(keep_sheet(&bytes, 1024, 20_000).number, number);
        assert_eq!(
            listing(&bytes) == format!("refused {number}\n"),
            number != 0
        );
    }
    for number in [0, 6, 7, 8, 9, 23] {
        assert!(met[&number] > 20, "{met:?}");
    }
}

#[test]
fn truncations_are_refused() {
    let mut rng = Rng::new(16);
    let bytes = arbitrary(&mut rng, 3, 4, 5).to_bytes();
    let mut times = 0;
    for cut in truncations(&bytes) {
        assert_eq!(check_table(&cut), if cut.len() < 4 { 1 } else { 4 });
        times += 1;
    }
    assert_eq!(times, bytes.len());
}

#[test]
fn all_tables_are_all() {
    // One process: two counts. Two processes with counts 1 1 allow 4 messages,
    // which makes 1 + 4 + 16 tables; 1 2 and 2 1 allow 7, and 2 2 allow 12.
    let both: Vec<Table> = all_tables_of_both_sides(2, 2, 2).collect();
    assert_eq!(both.len(), 2 + 21 + 57 + 57 + 157);
    let different: HashSet<&Table> = both.iter().collect();
    assert_eq!(different.len(), both.len());
    // Of two messages of one channel with s send numbers and r receipt numbers,
    // waiting among them, s (s + 1) / 2 times r (r + 1) / 2 pairs are in turn: with
    // 1 and 2 numbers 3 of 4, with 1 and 3 6 of 9, with 2 and 2 9 of 16, with 2 and
    // 3 18 of 36.
    let all: Vec<Table> = all_tables(2, 2, 2).collect();
    let broken = [1 + 1, 3 + 7, 7 + 3, 18 + 18];
    let [a, b, c, d] = broken;
    assert_eq!(all.len(), 2 + (21 - a) + (57 - b) + (57 - c) + (157 - d));
    let accepted: HashSet<&Table> = all.iter().collect();
    assert_eq!(accepted.len(), all.len());
    for table in &both {
        let number = if accepted.contains(table) { 0 } else { 23 };
        assert_eq!(check_table(&table.to_bytes()), number);
    }
    // The same number by trying all numbers of two processes, one message.
    let mut tried = 0;
    for mask in 0..5u16.pow(6) {
        let digit = |at: u32| mask / 5u16.pow(at) % 5;
        let numbers = [
            2,
            1,
            digit(0),
            digit(1),
            digit(2),
            digit(3),
            digit(4),
            digit(5),
        ];
        let bytes: Vec<u8> = numbers.iter().flat_map(|x| x.to_le_bytes()).collect();
        if check_table(&bytes) == 0 {
            tried += 1;
        }
    }
    let made = all_tables(2, 4, 1)
        .filter(|table| table.processes() == 2 && table.messages.len() == 1)
        .count();
    assert_eq!(made, tried);
}
