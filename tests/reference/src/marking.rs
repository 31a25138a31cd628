//! The marking procedure of the source document's Figure 3, on the graph that
//! document 02, §3, gives it. It is "Defined by this graph alone": nothing here
//! knows orphans, consistency or the lines of [`crate::lines`].

use crate::table::{put, State, Table};
use crate::Outcome;

/// The graph of a table: for each process and each of its states, from 0 to
/// the new one, the states to which an edge leads. No edge leads from a new
/// state: "A send number is not below the sender's count" is refused.
pub struct Graph {
    edges: Vec<Vec<Vec<State>>>,
}

/// For each process and each of its states whether the state is marked.
pub type Marks = Vec<Vec<bool>>;

impl Graph {
    /// "Its graph has an edge from each state to the next of its process, new
    /// states included, and from state y of a sender to state r of a receiver
    /// for each received message." Of an unsaved message r is the new state.
    pub fn new(table: &Table) -> Graph {
        let mut edges: Vec<Vec<Vec<State>>> = Vec::new();
        for (p, &count) in table.counts.iter().enumerate() {
            let mut of_process: Vec<Vec<State>> = (0..count).map(|c| vec![(p, c + 1)]).collect();
            // The new state has no next one.
            of_process.push(Vec::new());
            edges.push(of_process);
        }
        for message in table.messages.iter().filter(|message| !message.waiting()) {
            let from = &mut edges[message.sender][message.sent as usize];
            from.push((message.receiver, message.received));
        }
        Graph { edges }
    }

    /// The states to which an edge leads from this one.
    pub fn next(&self, (process, number): State) -> &[State] {
        &self.edges[process][number as usize]
    }

    /// "Initially, all the CPs are unmarked".
    pub fn no_marks(&self) -> Marks {
        let states = |of_process: &Vec<Vec<State>>| vec![false; of_process.len()];
        self.edges.iter().map(states).collect()
    }

    /// "all that is strictly reachable from it is marked": a search from the
    /// states one edge away from a root. A root is marked where a path of one
    /// edge or more leads to it, and not for being a root. The search does not
    /// go on from a state that has its mark already: what that one leads to
    /// was marked with it.
    pub fn mark(&self, roots: &[u32], marks: &mut Marks) {
        let mut found: Vec<State> = Vec::new();
        for (p, &root) in roots.iter().enumerate() {
            found.extend(self.next((p, root)));
        }
        while let Some((process, number)) = found.pop() {
            let mark = &mut marks[process][number as usize];
            if !*mark {
                *mark = true;
                found.extend(self.next((process, number)));
            }
        }
    }
}

/// The roots that are marked, by their processes: "until no root is marked."
pub fn marked_roots(roots: &[u32], marks: &Marks) -> Vec<usize> {
    let marked = |&p: &usize| marks[p][roots[p] as usize];
    (0..roots.len()).filter(marked).collect()
}

/// "the latest unmarked state of its process". There is one: no edge leads to a
/// state 0, because a message with receipt number 0 waits.
pub fn latest_unmarked(marks: &[bool]) -> u32 {
    let latest = marks.iter().rposition(|&marked| !marked);
    latest.expect("no edge leads to a state 0") as u32
}

/// A run of the procedure.
pub struct Marking {
    /// The root set of each round, in the order of the rounds: the first stands
    /// at the ceilings, and of the last none is marked.
    pub rounds: Vec<Vec<u32>>,
    /// The marks after the last round.
    pub marks: Marks,
}

impl Marking {
    /// "The root set starts at the ceilings; all that is strictly reachable
    /// from it is marked; each marked root gives way to the latest unmarked
    /// state of its process, and marking is repeated, until no root is marked."
    /// Marks stay from round to round: Figure 3 takes none away.
    pub fn new(table: &Table, ceilings: &[u32]) -> Marking {
        let graph = Graph::new(table);
        let mut marks = graph.no_marks();
        let mut roots = ceilings.to_vec();
        let mut rounds = Vec::new();
        loop {
            graph.mark(&roots, &mut marks);
            rounds.push(roots.clone());
            let marked = marked_roots(&roots, &marks);
            if marked.is_empty() {
                return Marking { rounds, marks };
            }
            for p in marked {
                roots[p] = latest_unmarked(&marks[p]);
            }
        }
    }

    /// "the root set is the recovery line.": one number for each process.
    pub fn line(&self) -> &[u32] {
        self.rounds.last().expect("there is a first round")
    }
}

/// The bytes of the marks: "one bit a state in a lent buffer of (sum of counts
/// + N) / 8 bytes, rounded up".
pub fn mark_bytes(table: &Table) -> usize {
    let states: usize = table.counts.iter().map(|&count| count as usize + 1).sum();
    states.div_ceil(8)
}

/// The call for the line by marking under lent ceilings: "a call beside §1's,
/// with its checks and answer, runs it." "those bytes are zero on success": see
/// [`Outcome::marks`]. What the marks are during the call is seen by nobody, so
/// it is not in the outcome.
///
/// Checks: the table's, 17, 18, 19, 16.
pub fn marked_line(bytes: &[u8], ceilings: &[u16], marks_len: usize, answer_len: usize) -> Outcome {
    let table = match Table::read(bytes) {
        Err(number) => return Outcome::refused(number),
        Ok(table) => table,
    };
    // 17. The list of ceilings does not have N numbers.
    if ceilings.len() != table.processes() {
        return Outcome::refused(17);
    }
    // 18. A ceiling is above its process's count.
    let ceilings: Vec<u32> = ceilings.iter().map(|&number| u32::from(number)).collect();
    if ceilings
        .iter()
        .zip(&table.counts)
        .any(|(at, count)| at > count)
    {
        return Outcome::refused(18);
    }
    // 19. The mark buffer is shorter than (sum of counts + N) / 8 bytes, rounded up.
    let needed = mark_bytes(&table);
    if marks_len < needed {
        return Outcome::refused(19);
    }
    let mut answer = Vec::new();
    for &number in Marking::new(&table, &ceilings).line() {
        put(&mut answer, number as usize);
    }
    let mut outcome = Outcome::answered(answer, answer_len);
    // Under 16 the marks stay as they were.
    if outcome.number == 0 {
        outcome.marks = Some(needed);
    }
    outcome
}
