//! The tables whose lines take many passes are what they are said to be.

use reference::gen::{domino_chain, ring_unsaved, Order, Rng};
use reference::lines::{hold_lines, line_of_run};
use reference::passes::*;
use reference::*;

fn domino(m: usize, order: Order) -> Table {
    domino_chain(&mut Rng::new(1), m, order)
}

/// Worked out by hand: with no orphan one pass; with one two; a chain of two
/// against the order of passes three, along it two.
#[test]
fn passes_by_hand() {
    let table = |messages: &[Message]| Table {
        counts: vec![3; 3],
        messages: messages.to_vec(),
    };
    let first = Message::new((0, 2), (1, 2));
    let then = Message::new((1, 1), (2, 2));
    assert_eq!(passes_of_run(&table(&[])), 1);
    assert_eq!(passes_of_run(&table(&[first])), 2);
    assert_eq!(passes_of_run(&table(&[first, then])), 3);
    assert_eq!(passes_of_run(&table(&[then, first])), 2);
    assert_eq!(passes_of_holders(&table(&[first, then])), [3, 0, 0]);
    let waiting = Message::new((0, 2), (1, 0));
    assert_eq!(passes_of_holders(&table(&[waiting])), [0, 0, 0]);
}

/// From three processes on nearly every message takes a pass of its own; by sender
/// every second one does.
#[test]
fn chains() {
    for n in 2..=7 {
        for m in [0, 1, n, 3 * n * n] {
            let falling = chain(n, m);
            assert_eq!(falling.messages.len(), m);
            assert_eq!(check_table(&falling.to_bytes()), 0, "{n} {m}");
            assert!(n > 2 || !sends_fall(&falling), "{n} {m}");
            let rising = by_sender(falling.clone());
            assert_eq!(check_table(&rising.to_bytes()), 0, "{n} {m}");
            assert!(!sends_fall(&rising), "{n} {m}");
            assert_eq!(line_of_run(&rising), line_of_run(&falling), "{n} {m}");
            if n > 2 && m > n {
                assert!(sends_fall(&falling), "{n} {m}");
                assert!(passes_of_run(&falling) + m / n > m, "{n} {m}");
                assert!(passes_of_run(&rising) > m / 2, "{n} {m}");
            }
        }
    }
}

/// Every holder puts every other process back, and down to where it was lifted.
#[test]
fn rings_of_all() {
    for order in Order::ALL {
        for n in 2..=6 {
            let ring = ring_unsaved(&mut Rng::new(3), n, 8 * n - 1, order);
            let all = lifted(ring, 5);
            assert_eq!(check_table(&all.to_bytes()), 0, "{order:?} {n}");
            assert!(!sends_fall(&all));
            assert!(!passes_of_holders(&all).contains(&0));
            for line in hold_lines(&all) {
                assert_eq!(line, vec![5; n], "{order:?} {n}");
            }
        }
    }
}

/// By sender, the last sender first, a ring takes a pass for each of its rounds, and
/// from any holder but 0 one more.
#[test]
fn rings_of_a_pass_a_round() {
    for n in 2..=32 {
        for passes in 2..=12 {
            let m = n * (passes - 1);
            let ring = ring_unsaved(&mut Rng::new(1), n, m, Order::BySenderBackward);
            assert_eq!(passes_of_run(&ring), passes, "{n}");
            let mut of_holders = vec![passes + 1; n];
            of_holders[0] = passes;
            assert_eq!(passes_of_holders(&ring), of_holders, "{n}");
        }
    }
}

/// Apart, a table has the same lines, of as many passes. Of what stands between, all
/// that is taken for a message of another sender is an orphan.
#[test]
fn apart_lines_stay() {
    let parts = [
        domino(30, Order::BySender),
        chain(4, 30),
        ring_unsaved(&mut Rng::new(2), 3, 20, Order::BySender),
    ];
    for part in parts {
        let n = part.processes();
        let mut alone = line_of_run(&part);
        let mut passes = passes_of_holders(&part);
        let all = apart(part, &[1, 3]);
        assert_eq!(check_table(&all.to_bytes()), 0);
        let places = all.messages.iter().enumerate();
        let places: Vec<usize> = places
            .filter(|(_, message)| message.sender < n)
            .map(|(place, _)| place)
            .collect();
        assert_eq!(places[..5], [0, 1, 4, 5, 8]);
        for message in all.messages.iter().filter(|message| message.sender == n) {
            assert!(all.counts[..n].iter().all(|&count| count <= message.sent));
        }
        alone.extend(&all.counts[n..]);
        alone[n..].iter_mut().for_each(|state| *state -= 1);
        passes.extend([0, 0]);
        assert_eq!(line_of_run(&all), alone);
        assert_eq!(passes_of_holders(&all), passes);
    }
}

/// Side by side nobody is put back by another part, wherever its messages stand.
#[test]
fn parts_keep_their_lines() {
    let parts = [
        falling_pair(),
        domino(30, Order::BySender),
        chain(4, 30),
        domino(5, Order::Time),
    ];
    let alone: Vec<u32> = parts.iter().flat_map(line_of_run).collect();
    let passes: Vec<usize> = parts.iter().flat_map(passes_of_holders).collect();
    let all = beside(&parts);
    assert_eq!(line_of_run(&all), alone);
    assert_eq!(passes_of_holders(&all), passes);
    assert!(sends_fall(&all) && !sends_fall(&beside(&parts[1..2])));
    for seed in 0..20 {
        let all = among(&mut Rng::new(seed), &parts);
        assert_eq!(check_table(&all.to_bytes()), 0);
        assert_eq!(line_of_run(&all), alone);
        assert_eq!(passes_of_holders(&all), passes);
    }
}
