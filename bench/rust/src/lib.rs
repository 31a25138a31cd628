//! The keeper's calls in plain Rust, after the same checks of the table as the
//! archive's. Each line is found from its ceiling down by passes over the messages
//! from the last to the first; where a few of these do not settle it, by a chase
//! from sender to sender, and then by passes until one lowers nothing. The line of
//! a single holder whose rollback does not propagate is its ceiling. The line by
//! marking takes rounds of such passes over the bits of the lent buffer. Safe code
//! but for the slices that the C names take.

const MOST_PROCESSES: usize = 32;
const MOST_MESSAGES: usize = 4096;
const MOST_STATES: u16 = 4096;
const MOST_SETS: usize = 256;
const EVERYONE: u32 = u32::MAX;

type Line = [u16; MOST_PROCESSES];

fn u16_at(bytes: &[u8], at: usize) -> u16 {
    u16::from_le_bytes([bytes[at], bytes[at + 1]])
}

fn put_u16(bytes: &mut [u8], at: usize, value: u16) {
    bytes[at..at + 2].copy_from_slice(&value.to_le_bytes());
}

/// An entry: a process and the number of a state.
fn entry(bytes: &[u8; 4]) -> (usize, u16) {
    let [a, b, c, d] = *bytes;
    (
        usize::from(u16::from_le_bytes([a, b])),
        u16::from_le_bytes([c, d]),
    )
}

struct Parts<'a> {
    n: usize,
    m: usize,
    counts: &'a [u8],
    sends: &'a [[u8; 4]],
    receipts: &'a [[u8; 4]],
}

impl<'a> Parts<'a> {
    fn of(table: &'a [u8]) -> Parts<'a> {
        let n = usize::from(u16_at(table, 0));
        let m = usize::from(u16_at(table, 2));
        let (counts, messages) = table[4..].split_at(2 * n);
        let (messages, _) = messages.as_chunks::<4>();
        let (sends, receipts) = messages.split_at(m);
        Parts {
            n,
            m,
            counts,
            sends,
            receipts,
        }
    }

    fn count(&self, p: usize) -> u16 {
        u16_at(self.counts, 2 * p)
    }

    /// The messages, each its send and its receipt.
    fn messages(
        &self,
    ) -> impl DoubleEndedIterator<Item = ((usize, u16), (usize, u16))> + ExactSizeIterator + 'a
    {
        let sends = self.sends.iter().map(entry);
        let receipts = self.receipts.iter().map(entry);
        sends.zip(receipts)
    }
}

/// The checks of messages, in checking order, which is the order of this
/// enum's `<`; after them, that none catches.
#[derive(Clone, Copy, PartialEq, Eq, PartialOrd, Ord)]
enum Fault {
    UnknownProcess,
    ToItsSender,
    SendTooHigh,
    ReceiptTooHigh,
    OutOfTurn,
    None,
}

impl Fault {
    fn refusal(self) -> u32 {
        match self {
            Fault::UnknownProcess => 6,
            Fault::ToItsSender => 7,
            Fault::SendTooHigh => 8,
            Fault::ReceiptTooHigh => 9,
            Fault::OutOfTurn => 23,
            Fault::None => 0,
        }
    }
}

/// The table's checks. Of the faults of all messages the first in checking
/// order counts.
fn check(table: &[u8]) -> u32 {
    if table.len() < 4 {
        return 1;
    }
    let n = usize::from(u16_at(table, 0));
    let m = usize::from(u16_at(table, 2));
    if n == 0 || n > MOST_PROCESSES {
        return 2;
    }
    if m > MOST_MESSAGES {
        return 3;
    }
    if table.len() != 4 + 2 * n + 8 * m {
        return 4;
    }
    let parts = Parts::of(table);
    let mut counts = [0u16; MOST_PROCESSES];
    for (p, count) in counts.iter_mut().enumerate().take(n) {
        *count = parts.count(p);
    }
    if counts[..n].iter().any(|&c| c == 0 || c > MOST_STATES) {
        return 5;
    }
    // Of each channel the send number of its last message, and one less than its
    // receipt number, so that waiting is the highest.
    let mut lasts = [(0, 0); MOST_PROCESSES * MOST_PROCESSES];
    let mut fault = |((j, sent), (i, received)): ((usize, u16), (usize, u16))| {
        if j >= n || i >= n {
            Fault::UnknownProcess
        } else if j == i {
            Fault::ToItsSender
        } else if sent >= counts[j] {
            Fault::SendTooHigh
        } else if received > counts[i] {
            Fault::ReceiptTooHigh
        } else {
            let last = &mut lasts[MOST_PROCESSES * j + i];
            let now = (sent, received.wrapping_sub(1));
            let behind = now.0 < last.0 || now.1 < last.1;
            *last = now;
            if behind {
                Fault::OutOfTurn
            } else {
                Fault::None
            }
        }
    };
    let mut first = Fault::None;
    for message in parts.messages() {
        let caught = fault(message);
        if caught != Fault::None && caught < first {
            first = caught;
        }
    }
    first.refusal()
}

fn ceiling_of_set(parts: &Parts, set: u32) -> Line {
    let mut line = [0; MOST_PROCESSES];
    for (p, place) in line.iter_mut().enumerate().take(parts.n) {
        *place = parts.count(p) - (set >> p & 1) as u16;
    }
    line
}

/// Whether a rollback of each process to its last state propagates: whether a
/// message that it sent since then was received.
fn propagating(parts: &Parts) -> [bool; MOST_PROCESSES] {
    let mut propagates = [false; MOST_PROCESSES];
    for ((sender, sent), (_, received)) in parts.messages() {
        if sent >= parts.count(sender) - 1 && received != 0 {
            propagates[sender] = true;
        }
    }
    propagates
}

/// One pass: each orphan puts its receiver back. Answers whether there was one.
#[inline(never)]
fn pass(parts: &Parts, line: &mut Line) -> bool {
    let mut lowered = false;
    for ((sender, sent), (receiver, received)) in parts.messages().rev() {
        if received != 0 && sent >= line[sender] && received <= line[receiver] {
            line[receiver] = received - 1;
            lowered = true;
        }
    }
    lowered
}

/// Where the chase stands: the messages of a process from its cursor on make no
/// orphan; the processes on the stack were put back since they were looked at. A
/// cursor of 0 is that of a process without a message left.
struct Chase {
    cursor: [u16; MOST_PROCESSES],
    stack: [u8; MOST_PROCESSES],
    stacked: [bool; MOST_PROCESSES],
    height: usize,
}

impl Chase {
    /// Puts the receiver of a message back where that is an orphan, and on the stack
    /// if it has a cursor.
    fn lower_by(&mut self, line: &mut Line, receipt: &[u8; 4]) {
        let (receiver, received) = entry(receipt);
        if received == 0 || received > line[receiver] {
            return;
        }
        line[receiver] = received - 1;
        if self.cursor[receiver] != 0 && !self.stacked[receiver] {
            self.stacked[receiver] = true;
            self.stack[self.height] = receiver as u8;
            self.height += 1;
        }
    }
}

/// Behind the last message of a process among these, or 0: eight at a time, each
/// with an end of its own.
fn behind_last(sends: &[[u8; 4]], process: usize) -> usize {
    let (first, eights) = sends.as_rchunks::<8>();
    for (e, eight) in eights.iter().enumerate().rev() {
        for b in (0..8).rev() {
            if entry(&eight[b]).0 == process {
                return first.len() + 8 * e + b + 1;
            }
        }
    }
    let own = first.iter().rposition(|send| entry(send).0 == process);
    own.map_or(0, |k| k + 1)
}

/// Lowers a line by following it from sender to sender. First from the last message
/// on for all processes together, each until a message that it sent before the line;
/// then for one process after another that was put back, from its cursor on.
fn chase(parts: &Parts, line: &mut Line) {
    let mut c = Chase {
        cursor: [0; MOST_PROCESSES],
        stack: [0; MOST_PROCESSES],
        stacked: [false; MOST_PROCESSES],
        height: 0,
    };
    let mut running = parts.n;
    for (k, (send, receipt)) in parts.sends.iter().zip(parts.receipts).enumerate().rev() {
        let (sender, sent) = entry(send);
        if c.cursor[sender] != 0 {
            continue;
        }
        if sent >= line[sender] {
            c.lower_by(line, receipt);
            continue;
        }
        c.cursor[sender] = k as u16 + 1;
        running -= 1;
        if running == 0 {
            break;
        }
    }
    while c.height > 0 {
        c.height -= 1;
        let p = usize::from(c.stack[c.height]);
        c.stacked[p] = false;
        let number = line[p];
        let mut k = usize::from(c.cursor[p]);
        loop {
            k = behind_last(&parts.sends[..k], p);
            if k == 0 || entry(&parts.sends[k - 1]).1 < number {
                break;
            }
            k -= 1;
            c.lower_by(line, &parts.receipts[k]);
        }
        c.cursor[p] = k as u16;
    }
}

/// Lowers a line from its ceilings. Passes are tried while they cost no more than a
/// chase may; where they do not settle the line they are not tried for the next one
/// of a sheet.
fn settle(parts: &Parts, line: &mut Line, passes_settle: &mut bool) {
    if *passes_settle {
        for _ in 0..parts.n / 4 + 2 {
            if !pass(parts, line) {
                return;
            }
        }
        *passes_settle = false;
    }
    chase(parts, line);
    while pass(parts, line) {}
}

/// A line alone.
fn lower(parts: &Parts, mut line: Line) -> Line {
    settle(parts, &mut line, &mut true);
    line
}

fn line_of_set(parts: &Parts, set: u32) -> Line {
    lower(parts, ceiling_of_set(parts, set))
}

fn put_line(line: &[u16], answer: &mut [u8], written: &mut usize) -> u32 {
    for (place, number) in answer.chunks_exact_mut(2).zip(line) {
        place.copy_from_slice(&number.to_le_bytes());
    }
    *written = 2 * line.len();
    0
}

fn recovery_line(table: &[u8], answer: &mut [u8], written: &mut usize) -> u32 {
    let refusal = check(table);
    if refusal != 0 {
        return refusal;
    }
    let parts = Parts::of(table);
    if answer.len() < 2 * parts.n {
        return 16;
    }
    let line = line_of_set(&parts, EVERYONE);
    put_line(&line[..parts.n], answer, written)
}

/// The lines of single holders, one after another, for a sheet or for sets.
fn put_lines_of_holders(parts: &Parts, scratch: &mut [u16]) {
    let n = parts.n;
    let propagates = propagating(parts);
    let mut passes_settle = true;
    for (p, place) in scratch.chunks_exact_mut(n).take(n).enumerate() {
        let mut line = ceiling_of_set(parts, 1 << p);
        if propagates[p] {
            settle(parts, &mut line, &mut passes_settle);
        }
        place.copy_from_slice(&line[..n]);
    }
}

/// Writes the lines of sets, one after another, from those of single holders: at
/// each place the least that a process of the set has there, or the count.
#[inline(never)]
fn put_lines_of_sets(parts: &Parts, lines: &[u16], sets: &[u32], answer: &mut [u8]) {
    let n = parts.n;
    for (place, &set) in answer.chunks_exact_mut(2 * n).zip(sets) {
        let mut line = ceiling_of_set(parts, 0);
        for (holder, of_holder) in lines.chunks_exact(n).take(n).enumerate() {
            if set & (1 << holder) != 0 {
                for (least, &number) in line.iter_mut().zip(of_holder) {
                    *least = number.min(*least);
                }
            }
        }
        for (number, least) in place.chunks_exact_mut(2).zip(&line) {
            number.copy_from_slice(&least.to_le_bytes());
        }
    }
}

fn lines_of_sets(
    table: &[u8],
    sets: &[u32],
    scratch: &mut [u16],
    answer: &mut [u8],
    written: &mut usize,
) -> u32 {
    let refusal = check(table);
    if refusal != 0 {
        return refusal;
    }
    let parts = Parts::of(table);
    let n = parts.n;
    if sets.len() > MOST_SETS {
        return 25;
    }
    if sets.iter().any(|&set| u64::from(set) >> n != 0) {
        return 12;
    }
    if scratch.len() < n * n {
        return 15;
    }
    let size = 2 * n * sets.len();
    if answer.len() < size {
        return 16;
    }
    put_lines_of_holders(&parts, scratch);
    put_lines_of_sets(&parts, &scratch[..n * n], sets, answer);
    *written = size;
    0
}

fn line_under(table: &[u8], ceilings: &[u16], answer: &mut [u8], written: &mut usize) -> u32 {
    let refusal = check(table);
    if refusal != 0 {
        return refusal;
    }
    let parts = Parts::of(table);
    if ceilings.len() != parts.n {
        return 17;
    }
    if (0..parts.n).any(|p| ceilings[p] > parts.count(p)) {
        return 18;
    }
    if answer.len() < 2 * parts.n {
        return 16;
    }
    let mut line = [0; MOST_PROCESSES];
    line[..parts.n].copy_from_slice(ceilings);
    let line = lower(&parts, line);
    put_line(&line[..parts.n], answer, written)
}

fn is_marked(marks: &[u8], bit: usize) -> bool {
    marks[bit / 8] >> (bit % 8) & 1 == 1
}

/// Marks from a bit on, up to the first that is marked or to the end.
fn mark_on(marks: &mut [u8], from: usize, end: usize) {
    for bit in from..end {
        if is_marked(marks, bit) {
            return;
        }
        marks[bit / 8] |= 1 << (bit % 8);
    }
}

/// The marking procedure, from the ceilings, with no mark set: rounds of passes
/// over the messages from the last to the first. State y of process p is bit
/// `first[p] + y`.
fn last_roots(
    parts: &Parts,
    first: &[usize; MOST_PROCESSES + 1],
    mut root: Line,
    marks: &mut [u8],
) -> Line {
    for p in 0..parts.n {
        mark_on(marks, first[p] + usize::from(root[p]) + 1, first[p + 1]);
    }
    loop {
        loop {
            let mut marked = false;
            for ((sender, sent), (receiver, received)) in parts.messages().rev() {
                let to = first[receiver] + usize::from(received);
                if received == 0 || is_marked(marks, to) {
                    continue;
                }
                if sent == root[sender] || is_marked(marks, first[sender] + usize::from(sent)) {
                    mark_on(marks, to, first[receiver + 1]);
                    marked = true;
                }
            }
            if !marked {
                break;
            }
        }
        let mut replaced = false;
        for p in 0..parts.n {
            while is_marked(marks, first[p] + usize::from(root[p])) {
                root[p] -= 1;
                replaced = true;
            }
        }
        if !replaced {
            return root;
        }
    }
}

fn marked_line(
    table: &[u8],
    ceilings: &[u16],
    marks: &mut [u8],
    answer: &mut [u8],
    written: &mut usize,
) -> u32 {
    let refusal = check(table);
    if refusal != 0 {
        return refusal;
    }
    let parts = Parts::of(table);
    if ceilings.len() != parts.n {
        return 17;
    }
    if (0..parts.n).any(|p| ceilings[p] > parts.count(p)) {
        return 18;
    }
    let mut first = [0; MOST_PROCESSES + 1];
    for p in 0..parts.n {
        first[p + 1] = first[p] + usize::from(parts.count(p)) + 1;
    }
    let size = first[parts.n].div_ceil(8);
    if marks.len() < size {
        return 19;
    }
    if answer.len() < 2 * parts.n {
        return 16;
    }
    let mut root = [0; MOST_PROCESSES];
    root[..parts.n].copy_from_slice(ceilings);
    let marks = &mut marks[..size];
    marks.fill(0);
    let root = last_roots(&parts, &first, root, marks);
    marks.fill(0);
    put_line(&root[..parts.n], answer, written)
}

fn stand_together(
    table: &[u8],
    processes: &[u16],
    states: &[u16],
    answer: &mut [u8],
    written: &mut usize,
) -> u32 {
    let refusal = check(table);
    if refusal != 0 {
        return refusal;
    }
    let parts = Parts::of(table);
    if processes.len() != states.len() {
        return 20;
    }
    if processes.iter().any(|&p| usize::from(p) >= parts.n)
        || processes.windows(2).any(|two| two[0] >= two[1])
    {
        return 21;
    }
    let names = || processes.iter().map(|&p| usize::from(p)).zip(states);
    if names().any(|(p, &state)| state >= parts.count(p)) {
        return 22;
    }
    let mut line = ceiling_of_set(&parts, 0);
    for (p, &state) in names() {
        line[p] = state;
    }
    let line = lower(&parts, line);
    if names().any(|(p, &state)| line[p] != state) {
        *written = 0;
        return 0;
    }
    if answer.len() < 2 * parts.n {
        return 16;
    }
    put_line(&line[..parts.n], answer, written)
}

fn send(table: &[u8], from: u16, to: u16, answer: &mut [u8], written: &mut usize) -> u32 {
    let refusal = check(table);
    if refusal != 0 {
        return refusal;
    }
    let parts = Parts::of(table);
    if usize::from(from) >= parts.n || usize::from(to) >= parts.n {
        return 10;
    }
    if from == to {
        return 11;
    }
    if parts.m >= MOST_MESSAGES {
        return 14;
    }
    let size = table.len() + 8;
    if answer.len() < size {
        return 16;
    }
    let middle = 4 + 2 * parts.n + 4 * parts.m;
    answer[..middle].copy_from_slice(&table[..middle]);
    put_u16(answer, 2, parts.m as u16 + 1);
    put_u16(answer, middle, from);
    put_u16(answer, middle + 2, parts.count(usize::from(from)) - 1);
    answer[middle + 4..size - 4].copy_from_slice(parts.receipts.as_flattened());
    put_u16(answer, size - 4, to);
    put_u16(answer, size - 2, 0);
    *written = size;
    0
}

/// The process and the list of a save or a receipt.
fn check_list(parts: &Parts, process: u16, list: &[u16]) -> u32 {
    if usize::from(process) >= parts.n {
        return 10;
    }
    let waits = |k: usize| entry(&parts.receipts[k]) == (usize::from(process), 0);
    if list
        .iter()
        .any(|&k| usize::from(k) >= parts.m || !waits(usize::from(k)))
        || list.windows(2).any(|two| two[0] >= two[1])
    {
        return 13;
    }
    // One walk up to the last position, with the senders of which a message was
    // passed over.
    let mut passed = [false; MOST_PROCESSES];
    let mut rest = list;
    for (k, ((sender, _), (receiver, received))) in parts.messages().enumerate() {
        let [first, others @ ..] = rest else {
            break;
        };
        if k == usize::from(*first) {
            if passed[sender] {
                return 24;
            }
            rest = others;
        } else if receiver == usize::from(process) && received == 0 {
            passed[sender] = true;
        }
    }
    0
}

/// The table with another receipt number for the listed messages.
fn put_receipts(parts: &Parts, table: &[u8], list: &[u16], number: u16, answer: &mut [u8]) {
    answer[..table.len()].copy_from_slice(table);
    let receipts = &mut answer[4 + 2 * parts.n + 4 * parts.m..table.len()];
    for &k in list {
        put_u16(receipts, 4 * usize::from(k) + 2, number);
    }
}

fn save(table: &[u8], process: u16, list: &[u16], answer: &mut [u8], written: &mut usize) -> u32 {
    let refusal = check(table);
    if refusal != 0 {
        return refusal;
    }
    let parts = Parts::of(table);
    let refusal = check_list(&parts, process, list);
    if refusal != 0 {
        return refusal;
    }
    let count = parts.count(usize::from(process));
    if count >= MOST_STATES {
        return 14;
    }
    let size = table.len();
    if answer.len() < size {
        return 16;
    }
    put_receipts(&parts, table, list, count, answer);
    put_u16(answer, 4 + 2 * usize::from(process), count + 1);
    *written = size;
    0
}

fn receive(
    table: &[u8],
    process: u16,
    list: &[u16],
    answer: &mut [u8],
    written: &mut usize,
) -> u32 {
    let refusal = check(table);
    if refusal != 0 {
        return refusal;
    }
    let parts = Parts::of(table);
    let refusal = check_list(&parts, process, list);
    if refusal != 0 {
        return refusal;
    }
    let size = table.len();
    if answer.len() < size {
        return 16;
    }
    let count = parts.count(usize::from(process));
    put_receipts(&parts, table, list, count, answer);
    *written = size;
    0
}

fn fall_back(table: &[u8], answer: &mut [u8], written: &mut usize) -> u32 {
    let refusal = check(table);
    if refusal != 0 {
        return refusal;
    }
    let parts = Parts::of(table);
    let line = line_of_set(&parts, EVERYONE);
    let stays = |&((j, y), _): &((usize, u16), (usize, u16))| y < line[j];
    let left = parts.messages().filter(stays).count();
    let size = 4 + 2 * parts.n + 8 * left;
    if answer.len() < size {
        return 16;
    }
    put_u16(answer, 0, parts.n as u16);
    put_u16(answer, 2, left as u16);
    for (p, number) in line[..parts.n].iter().enumerate() {
        put_u16(answer, 4 + 2 * p, number + 1);
    }
    let (sends, receipts) = answer[4 + 2 * parts.n..size].split_at_mut(4 * left);
    let places = sends.chunks_exact_mut(4).zip(receipts.chunks_exact_mut(4));
    for (((j, y), (i, r)), (send, receipt)) in parts.messages().filter(stays).zip(places) {
        put_u16(send, 0, j as u16);
        put_u16(send, 2, y);
        put_u16(receipt, 0, i as u16);
        put_u16(receipt, 2, if r > line[i] { 0 } else { r });
    }
    *written = size;
    0
}

/// The states of process i that some line has, below the count, rising.
fn kept_states(lines: &[u16], n: usize, i: usize, count: u16) -> impl Iterator<Item = u16> + '_ {
    let next = move |from: u16| {
        let states = lines.chunks_exact(n).map(move |line| line[i]);
        states.filter(|&c| c >= from && c < count).min()
    };
    std::iter::successors(next(0), move |&c| next(c + 1))
}

/// The lowest line: at each process the least number that any line has there.
fn lowest_line(lines: &[u16], n: usize) -> Line {
    let mut lowest = [u16::MAX; MOST_PROCESSES];
    for line in lines.chunks_exact(n) {
        for (least, &number) in lowest.iter_mut().zip(line) {
            *least = number.min(*least);
        }
    }
    lowest
}

fn keep_sheet(table: &[u8], scratch: &mut [u16], answer: &mut [u8], written: &mut usize) -> u32 {
    let refusal = check(table);
    if refusal != 0 {
        return refusal;
    }
    let parts = Parts::of(table);
    let n = parts.n;
    if scratch.len() < n * n {
        return 15;
    }
    put_lines_of_holders(&parts, scratch);
    let lines = &scratch[..n * n];
    let lowest = lowest_line(lines, n);
    let is_kept = |((j, y), (i, r)): ((usize, u16), (usize, u16))| {
        r == 0 || r > lowest[i] && lines.chunks_exact(n).any(|line| line[i] < r && y < line[j])
    };
    let kept: usize = (0..n)
        .map(|i| kept_states(lines, n, i, parts.count(i)).count())
        .sum();
    let logged = parts.messages().filter(|&m| is_kept(m)).count();
    let size = 4 + 4 * kept + 2 * logged;
    if answer.len() < size {
        return 16;
    }
    put_u16(answer, 0, kept as u16);
    put_u16(answer, 2, logged as u16);
    let (processes, rest) = answer[4..size].split_at_mut(2 * kept);
    let (states, positions) = rest.split_at_mut(2 * kept);
    let mut places = processes
        .chunks_exact_mut(2)
        .zip(states.chunks_exact_mut(2));
    for i in 0..n {
        for c in kept_states(lines, n, i, parts.count(i)) {
            if let Some((process, state)) = places.next() {
                put_u16(process, 0, i as u16);
                put_u16(state, 0, c);
            }
        }
    }
    let mut places = positions.chunks_exact_mut(2);
    for (k, message) in parts.messages().enumerate() {
        if is_kept(message) {
            if let Some(place) = places.next() {
                put_u16(place, 0, k as u16);
            }
        }
    }
    *written = size;
    0
}

// ---------------------------------------------------------------------------
// The C names. Each caller lends what it says.

use std::slice::{from_raw_parts, from_raw_parts_mut};

/// # Safety
/// The pointers are to as many bytes as the lengths say.
#[no_mangle]
pub unsafe extern "C" fn rust_check_table(table: *const u8, length: usize) -> u32 {
    check(from_raw_parts(table, length))
}

/// # Safety
/// As above.
#[no_mangle]
pub unsafe extern "C" fn rust_recovery_line(
    table: *const u8,
    length: usize,
    answer: *mut u8,
    room: usize,
    written: &mut usize,
) -> u32 {
    recovery_line(
        from_raw_parts(table, length),
        from_raw_parts_mut(answer, room),
        written,
    )
}

/// # Safety
/// As above, with the numbers that the other lengths say.
#[no_mangle]
pub unsafe extern "C" fn rust_lines_of_sets(
    table: *const u8,
    length: usize,
    sets: *const u32,
    sets_length: usize,
    scratch: *mut u16,
    numbers: usize,
    answer: *mut u8,
    room: usize,
    written: &mut usize,
) -> u32 {
    lines_of_sets(
        from_raw_parts(table, length),
        from_raw_parts(sets, sets_length),
        from_raw_parts_mut(scratch, numbers),
        from_raw_parts_mut(answer, room),
        written,
    )
}

/// # Safety
/// As above.
#[no_mangle]
pub unsafe extern "C" fn rust_line_under(
    table: *const u8,
    length: usize,
    ceilings: *const u16,
    ceilings_length: usize,
    answer: *mut u8,
    room: usize,
    written: &mut usize,
) -> u32 {
    line_under(
        from_raw_parts(table, length),
        from_raw_parts(ceilings, ceilings_length),
        from_raw_parts_mut(answer, room),
        written,
    )
}

/// # Safety
/// As above.
#[no_mangle]
pub unsafe extern "C" fn rust_marked_line(
    table: *const u8,
    length: usize,
    ceilings: *const u16,
    ceilings_length: usize,
    marks: *mut u8,
    marks_length: usize,
    answer: *mut u8,
    room: usize,
    written: &mut usize,
) -> u32 {
    marked_line(
        from_raw_parts(table, length),
        from_raw_parts(ceilings, ceilings_length),
        from_raw_parts_mut(marks, marks_length),
        from_raw_parts_mut(answer, room),
        written,
    )
}

/// # Safety
/// As above.
#[no_mangle]
pub unsafe extern "C" fn rust_stand_together(
    table: *const u8,
    length: usize,
    processes: *const u16,
    processes_length: usize,
    states: *const u16,
    states_length: usize,
    answer: *mut u8,
    room: usize,
    written: &mut usize,
) -> u32 {
    stand_together(
        from_raw_parts(table, length),
        from_raw_parts(processes, processes_length),
        from_raw_parts(states, states_length),
        from_raw_parts_mut(answer, room),
        written,
    )
}

/// # Safety
/// As above.
#[no_mangle]
pub unsafe extern "C" fn rust_send(
    table: *const u8,
    length: usize,
    from: u16,
    to: u16,
    answer: *mut u8,
    room: usize,
    written: &mut usize,
) -> u32 {
    send(
        from_raw_parts(table, length),
        from,
        to,
        from_raw_parts_mut(answer, room),
        written,
    )
}

/// # Safety
/// As above.
#[no_mangle]
pub unsafe extern "C" fn rust_save(
    table: *const u8,
    length: usize,
    process: u16,
    list: *const u16,
    entries: usize,
    answer: *mut u8,
    room: usize,
    written: &mut usize,
) -> u32 {
    save(
        from_raw_parts(table, length),
        process,
        from_raw_parts(list, entries),
        from_raw_parts_mut(answer, room),
        written,
    )
}

/// # Safety
/// As above.
#[no_mangle]
pub unsafe extern "C" fn rust_receive(
    table: *const u8,
    length: usize,
    process: u16,
    list: *const u16,
    entries: usize,
    answer: *mut u8,
    room: usize,
    written: &mut usize,
) -> u32 {
    receive(
        from_raw_parts(table, length),
        process,
        from_raw_parts(list, entries),
        from_raw_parts_mut(answer, room),
        written,
    )
}

/// # Safety
/// As above.
#[no_mangle]
pub unsafe extern "C" fn rust_fall_back(
    table: *const u8,
    length: usize,
    answer: *mut u8,
    room: usize,
    written: &mut usize,
) -> u32 {
    fall_back(
        from_raw_parts(table, length),
        from_raw_parts_mut(answer, room),
        written,
    )
}

/// # Safety
/// As above.
#[no_mangle]
pub unsafe extern "C" fn rust_keep_sheet(
    table: *const u8,
    length: usize,
    scratch: *mut u16,
    numbers: usize,
    answer: *mut u8,
    room: usize,
    written: &mut usize,
) -> u32 {
    keep_sheet(
        from_raw_parts(table, length),
        from_raw_parts_mut(scratch, numbers),
        from_raw_parts_mut(answer, room),
        written,
    )
}
