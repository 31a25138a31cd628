//! Answers the scripts of the test programs (`run_table_cases`, `keeper_cases`,
//! `marking_cases`, `set_cases`) from this implementation: reads a script on standard input
//! and prints what the program is to print. The programs' expected outputs are
//! made so.

use std::io::{Read, Write};

use reference as keeper;

/// The bytes of the test programs' table buffer.
const SPACE: usize = 33_000;

/// The numbers of their list of ceilings.
const CEILINGS: usize = 64;

/// The bytes of their mark buffer, at most.
const MARKS: usize = 16_500;

/// The numbers for the names of states that a line has room for.
const NAMES: usize = 13;

/// The sets of their list of sets, at most.
const SETS: usize = 300;

/// The numbers of the scratch that is lent with it, at most.
const SCRATCH: usize = 1_100;

struct Bench {
    table: Vec<u8>,
    answer: Vec<u8>,
    out: String,
}

/// A list of ceilings: of those given the last goes on to the end; 0 if none is.
fn ceilings(count: usize, given: &[usize]) -> Vec<u16> {
    let mut list: Vec<u16> = given.iter().map(|&c| c as u16).collect();
    list.resize(count.min(CEILINGS), list.last().copied().unwrap_or(0));
    list
}

/// A list of sets: of those given the last goes on to the end; 0 if none is.
fn sets(count: usize, given: &[usize]) -> Vec<u32> {
    let mut list: Vec<u32> = given.iter().map(|&set| set as u32).collect();
    list.resize(count.min(SETS), list.last().copied().unwrap_or(0));
    list
}

/// The lists of named processes and of their states: the numbers given from the
/// first on, 0 for each that is not given.
fn names(processes: usize, states: usize, given: &[usize]) -> (Vec<u16>, Vec<u16>) {
    let mut list: Vec<u16> = given.iter().map(|&number| number as u16).collect();
    list.resize(NAMES, 0);
    let processes = processes.min(NAMES);
    let states = states.min(NAMES - processes);
    let of_states = list[processes..][..states].to_vec();
    list.truncate(processes);
    (list, of_states)
}

impl Bench {
    fn put(&mut self, at: usize, value: usize) {
        for (k, byte) in [value % 256, value / 256 % 256].into_iter().enumerate() {
            if at + k < SPACE {
                self.table[at + k] = byte as u8;
            }
        }
    }

    fn number(&self, at: usize) -> usize {
        let byte = |k: usize| self.table.get(k).map_or(0, |&b| usize::from(b));
        byte(at) + 256 * byte(at + 1)
    }

    fn sizes(&mut self, n: usize, m: usize, count: usize) {
        self.put(0, n);
        self.put(2, m);
        for p in 0..n {
            self.put(4 + 2 * p, count);
        }
    }

    fn message(&mut self, k: usize, numbers: &[usize]) {
        let sends = 4 + 2 * self.number(0);
        let receipts = sends + 4 * self.number(2);
        for (half, start) in [sends, receipts].into_iter().enumerate() {
            self.put(start + 4 * k, numbers[2 * half]);
            self.put(start + 4 * k + 2, numbers[2 * half + 1]);
        }
    }

    /// The bytes that the sizes give.
    fn whole(&self) -> &[u8] {
        let length = 4 + 2 * self.number(0) + 8 * self.number(2);
        &self.table[..length.min(SPACE)]
    }

    fn domino(&mut self, m: usize, backward: bool) {
        self.sizes(2, m, m / 2 + 1);
        self.put(6, m / 2);
        for k in 0..m {
            let place = if backward { m - 1 - k } else { k };
            self.message(place, &[k % 2, k / 2, 1 - k % 2, k.div_ceil(2)]);
        }
    }

    /// The numbers of an answer, or a checksum of more than 128 bytes.
    fn numbers(&mut self, bytes: &[u8]) {
        if bytes.len() > 128 {
            let sum = bytes
                .iter()
                .fold(0u64, |sum, &byte| (31 * sum + u64::from(byte)) % 1_000_003);
            self.out.push_str(&format!(" sum {sum}"));
            return;
        }
        for pair in bytes.chunks(2) {
            let high = pair.get(1).map_or(0, |&b| u16::from(b));
            self.out
                .push_str(&format!(" {}", u16::from(pair[0]) + 256 * high));
        }
    }

    /// What is printed of a call.
    fn outcome(&mut self, outcome: keeper::Outcome) {
        self.number_and_answer(&outcome);
        if let Some(lines) = &outcome.lines {
            self.out.push_str(" lines");
            self.scratch(lines);
        }
        self.end(outcome);
    }

    /// What is printed of a call with a mark buffer: of it how many of its bytes,
    /// from the front on, are 0 after the call.
    fn outcome_with_marks(&mut self, outcome: keeper::Outcome, zeros: usize) {
        self.number_and_answer(&outcome);
        self.out.push_str(&format!(" marks {zeros}"));
        self.end(outcome);
    }

    /// What is printed of the lines of sets: of the scratch what was written there,
    /// if anything was.
    fn outcome_with_scratch(&mut self, outcome: keeper::Outcome) {
        self.number_and_answer(&outcome);
        self.out.push_str(" scratch");
        self.scratch(outcome.lines.as_deref().unwrap_or(&[]));
        self.end(outcome);
    }

    /// The numbers of a scratch as those of an answer.
    fn scratch(&mut self, lines: &[u16]) {
        let bytes: Vec<u8> = lines.iter().flat_map(|l| l.to_le_bytes()).collect();
        self.numbers(&bytes);
    }

    fn number_and_answer(&mut self, outcome: &keeper::Outcome) {
        let written = if outcome.number == 0 {
            outcome.answer.len()
        } else {
            777
        };
        self.out.push_str(&format!(" {} {written}", outcome.number));
        self.numbers(&outcome.answer);
    }

    fn end(&mut self, outcome: keeper::Outcome) {
        self.out.push_str(" ok");
        if outcome.number == 0 {
            self.answer = outcome.answer;
        }
    }

    fn line(&mut self, line: &str) {
        let mut words = line.split_whitespace();
        let word = words.next().unwrap_or("");
        let a: Vec<usize> = words.filter_map(|w| w.parse().ok()).collect();
        let small: Vec<usize> = a.iter().map(|&x| x % 65_536).collect();
        match word {
            "table" => self.sizes(small[0], small[1], small[2]),
            "count" => self.put(4 + 2 * small[0], small[1]),
            "message" => self.message(small[0], &small[1..5]),
            "all" => (0..small[0]).for_each(|k| self.message(k, &small[1..5])),
            "number" => self.put(a[0], small[1]),
            "domino" => self.domino(small[0], false),
            "backward" => self.domino(small[0], true),
            "use" => {
                let answer = self.answer.clone();
                self.table[..answer.len()].copy_from_slice(&answer);
            }
            _ => {}
        }
        if word == "#" {
            self.out.push_str(line);
            self.out.push('\n');
            return;
        }
        if ![
            "check", "whole", "lookup", "recovery", "hold", "sets", "under", "marked", "stand",
            "send", "save", "deliver", "fall", "sheet",
        ]
        .contains(&word)
        {
            return;
        }
        self.out.push_str(&format!("{line} ->"));
        let whole = self.whole().to_vec();
        match word {
            "check" => {
                let number = keeper::check_table(&self.table[..a[0].min(SPACE)]);
                self.out.push_str(&format!(" {number}"));
            }
            "whole" => self
                .out
                .push_str(&format!(" {}", keeper::check_table(&whole))),
            "lookup" => {
                let table = self.table[..a[0].min(SPACE)].to_vec();
                let found = [
                    keeper::processes(&table),
                    keeper::messages(&table),
                    keeper::count(&table, a[1]),
                    keeper::sender(&table, a[2]),
                    keeper::sent(&table, a[2]),
                    keeper::receiver(&table, a[2]),
                    keeper::received(&table, a[2]),
                ];
                for number in found {
                    self.out.push_str(&format!(" {number}"));
                }
            }
            "recovery" => self.outcome(keeper::recovery_line(&whole, a[0])),
            "hold" => self.outcome(keeper::line_of_set(&whole, a[0] as u32, a[1])),
            "sets" => {
                let [count, room, numbers] = [0, 1, 2].map(|at| a.get(at).copied().unwrap_or(0));
                let list = sets(count, a.get(3..).unwrap_or(&[]));
                let outcome = keeper::lines_of_sets(&whole, &list, numbers.min(SCRATCH), room);
                self.outcome_with_scratch(outcome);
            }
            "under" => {
                let list = ceilings(a[0], &small[2..]);
                self.outcome(keeper::line_under(&whole, &list, a[1]));
            }
            "marked" => {
                let list = ceilings(a[0], &small[4..]);
                let mut marks = vec![small[3] as u8; a[2].min(MARKS)];
                let outcome = keeper::marked_line(&whole, &list, marks.len(), a[1]);
                marks[..outcome.marks.unwrap_or(0)].fill(0);
                let zeros = marks.iter().take_while(|&&byte| byte == 0).count();
                self.outcome_with_marks(outcome, zeros);
            }
            "stand" => {
                let [p, room, s] = [0, 1, 2].map(|at| a.get(at).copied().unwrap_or(0));
                let (processes, states) = names(p, s, small.get(3..).unwrap_or(&[]));
                self.outcome(keeper::stand_together(&whole, &processes, &states, room));
            }
            "send" => self.outcome(keeper::send(&whole, small[0] as u16, small[1] as u16, a[2])),
            "save" => {
                let list: Vec<u16> = small[2..].iter().map(|&k| k as u16).collect();
                self.outcome(keeper::save(&whole, small[0] as u16, &list, a[1]));
            }
            "deliver" => {
                let list: Vec<u16> = small[2..].iter().map(|&k| k as u16).collect();
                self.outcome(keeper::receive(&whole, small[0] as u16, &list, a[1]));
            }
            "fall" => self.outcome(keeper::fall_back(&whole, a[0])),
            _ => self.outcome(keeper::keep_sheet(&whole, a[0], a[1])),
        }
        self.out.push('\n');
    }
}

fn main() {
    let mut script = String::new();
    std::io::stdin()
        .read_to_string(&mut script)
        .expect("a script on standard input");
    let mut bench = Bench {
        table: vec![0; SPACE],
        answer: Vec::new(),
        out: String::new(),
    };
    script.lines().for_each(|line| bench.line(line));
    std::io::stdout()
        .write_all(bench.out.as_bytes())
        .expect("standard output");
}
