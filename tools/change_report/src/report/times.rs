//! The section of times.

use crate::markdown::{names, quoted, table, wrapped, Set};
use crate::prover::Run;
use crate::snapshot::Snapshot;
use crate::times::Times;

pub fn section(times: &Times, before: &Snapshot, after: &Snapshot) -> String {
    let columns = [
        ("crate", Set::Left),
        ("before", Set::Right),
        ("after", Set::Right),
        ("difference", Set::Right),
    ];
    let gone = before
        .crates
        .iter()
        .filter(|krate| !after.crates.contains(krate));
    let crates = after.crates.iter().chain(gone);
    let mut rows: Vec<Vec<String>> = crates
        .filter_map(|krate| row(&quoted(krate), times, |run| run.of(krate)))
        .collect();
    rows.extend(row("total", times, Run::total));
    rows.extend(row("total by the clock", times, Run::clock));
    let text = [
        "## Times\n".to_string(),
        wrapped(&about(times), ""),
        failure(times),
        table(&columns, &rows).trim_end().to_string() + "\n",
        drift(times),
    ];
    let said: Vec<String> = text
        .into_iter()
        .filter(|part| !part.trim().is_empty())
        .collect();
    said.join("\n") + "\n"
}

/// What was measured, and on what.
fn about(times: &Times) -> String {
    let cores = match times.cores {
        1 => "one core".to_string(),
        number => format!("{number} cores"),
    };
    let only = match times.crates.as_slice() {
        [] => String::new(),
        crates => format!(
            " Only these were proved, with the crates below them: {}.",
            names(crates)
        ),
    };
    format!(
        "Seconds of a processor to prove each crate from nothing, one crate at a time, on {cores} ({}). Base and head were proved in \
         turn; the lowest time counts, and all are in brackets.{only}",
        times.kit
    )
}

fn failure(times: &Times) -> String {
    let Some((failure, run)) = times.failure() else {
        return String::new();
    };
    let what = match failure.crates.as_slice() {
        [] => "the prover names no crate".to_string(),
        crates => names(crates),
    };
    wrapped(
        &format!("**Not proved** ({run}): {what}. No further run was made."),
        "",
    )
}

/// A row of tenths of seconds, where there are some.
fn row(title: &str, times: &Times, of: impl Fn(&Run) -> Option<u64>) -> Option<Vec<String>> {
    let measured = |runs: &[Run]| runs.iter().filter_map(&of).collect::<Vec<u64>>();
    let (before, after) = (measured(&times.base), measured(&times.head));
    let difference = match (before.iter().min(), after.iter().min()) {
        (None, None) => return None,
        (Some(before), Some(after)) => difference(*before, *after),
        _ => String::new(),
    };
    Some(vec![
        title.to_string(),
        all(&before),
        all(&after),
        difference,
    ])
}

/// The lowest of several times, and all of them.
fn all(times: &[u64]) -> String {
    let Some(lowest) = times.iter().min() else {
        return "–".to_string();
    };
    let each: Vec<String> = times.iter().copied().map(seconds).collect();
    format!("{} ({})", seconds(*lowest), each.join(", "))
}

fn seconds(tenths: u64) -> String {
    format!("{}.{}", tenths / 10, tenths % 10)
}

fn difference(before: u64, after: u64) -> String {
    let sign = match after.cmp(&before) {
        std::cmp::Ordering::Less => "−",
        std::cmp::Ordering::Equal => "",
        std::cmp::Ordering::Greater => "+",
    };
    format!("{sign}{}", seconds(after.abs_diff(before)))
}

/// By how much one commit's total differs from run to run.
fn drift(times: &Times) -> String {
    let drifts = [&times.base, &times.head].into_iter().filter_map(|runs| {
        let totals: Vec<u64> = runs.iter().filter_map(Run::total).collect();
        let spread = totals.iter().max()? - totals.iter().min()?;
        (totals.len() > 1).then_some(spread)
    });
    drifts.max().map_or(String::new(), |drift| {
        let drift = seconds(drift);
        format!("The total of one commit differed by up to {drift} s from run to run.\n")
    })
}

#[cfg(test)]
mod tests {
    use super::*;
    use crate::prover::{Failure, Took};
    use crate::snapshot::tests::snapshot;

    /// A run of crates whose proofs took so much, and twice as much by the clock.
    fn run(crates: &[(&str, u64)], failed: &[&str]) -> Run {
        let took = |(name, processor): &(&str, u64)| {
            let clock = 2 * processor;
            let processor = *processor;
            (name.to_string(), Took { processor, clock })
        };
        let failure = Failure {
            crates: failed.iter().map(|name| name.to_string()).collect(),
            said: Vec::new(),
        };
        Run {
            crates: crates.iter().map(took).collect(),
            failure: (!failed.is_empty()).then_some(failure),
        }
    }

    fn times(base: Vec<Run>, head: Vec<Run>) -> Times {
        Times {
            kit: "kit 1".to_string(),
            cores: 2,
            crates: Vec::new(),
            base,
            head,
        }
    }

    fn table_and_after(text: &str) -> &str {
        &text[text.find("| crate").expect("a table")..]
    }

    #[test]
    fn the_lowest_counts_and_all_are_shown() {
        let before = snapshot(&[("crates.txt", "low:\nold: low")]);
        let after = snapshot(&[("crates.txt", "low:\nnew: low")]);
        let found = times(
            vec![
                run(&[("low", 100), ("old", 5)], &[]),
                run(&[("low", 93), ("old", 6)], &[]),
            ],
            vec![
                run(&[("low", 90), ("new", 20)], &[]),
                run(&[("low", 95), ("new", 21)], &[]),
            ],
        );
        let expected = "\
| crate | before | after | difference |
|---|--:|--:|--:|
| `low` | 9.3 (10.0, 9.3) | 9.0 (9.0, 9.5) | −0.3 |
| `new` | – | 2.0 (2.0, 2.1) |  |
| `old` | 0.5 (0.5, 0.6) | – |  |
| total | 9.9 (10.5, 9.9) | 11.0 (11.0, 11.6) | +1.1 |
| total by the clock | 19.8 (21.0, 19.8) | 22.0 (22.0, 23.2) | +2.2 |

The total of one commit differed by up to 0.6 s from run to run.

";
        assert_eq!(table_and_after(&section(&found, &before, &after)), expected);
    }

    #[test]
    fn what_failed_is_named_and_has_no_total() {
        let list = snapshot(&[("crates.txt", "low:\nhigh: low")]);
        let found = times(
            vec![run(&[("low", 10), ("high", 10)], &[])],
            vec![run(&[("low", 10)], &["high"])],
        );
        let text = section(&found, &list, &list);
        let line = "**Not proved** (head, run 1): `high`. No further run was made.\n";
        assert!(text.contains(line), "{text}");
        let expected = "\
| crate | before | after | difference |
|---|--:|--:|--:|
| `low` | 1.0 (1.0) | 1.0 (1.0) | 0.0 |
| `high` | 1.0 (1.0) | – |  |
| total | 2.0 (2.0) | – |  |
| total by the clock | 4.0 (4.0) | – |  |

";
        assert_eq!(table_and_after(&text), expected);
    }

    #[test]
    fn a_first_run_that_fails_leaves_no_table() {
        let list = snapshot(&[("crates.txt", "low:")]);
        let text = section(&times(vec![run(&[], &["low"])], vec![]), &list, &list);
        assert!(
            text.ends_with(
                "brackets.\n\n**Not proved** (base, run 1): `low`. No further run was made.\n\n"
            ),
            "{text}"
        );
    }
}
