//! The lines of many sets, owned.

use std::ops::Deref;
use std::{slice, vec};

use crate::table::numbers;
use crate::{run_table, Line, Refusal};

/// The lines of many sets, of [`Table::lines_of_sets`](crate::Table::lines_of_sets):
/// a slice of them, in the order of the sets. With the feature `run_table`.
///
/// ```
/// # use keeper::{Refusal, Table};
/// # let example_a = include_bytes!("../../../tests/corpus/example_a.table").to_vec();
/// let table = Table::from_bytes(&example_a[..])?;
/// let sets = [0, 0b01, 0b10]; // nobody holds, process 0, process 1
/// let lines = table.lines_of_sets(&sets)?;
/// assert_eq!(lines.len(), 3);
/// assert_eq!(*lines[2], [3, 2]);
/// assert_eq!(lines.get(3), None);
/// // What each set costs: how far the processes are put back, all together.
/// let cost = |line: &keeper::Line| -> u16 {
///     table.counts().zip(line.iter()).map(|(count, number)| count - number).sum()
/// };
/// assert_eq!(lines.iter().map(cost).collect::<Vec<_>>(), [0, 4, 1]);
/// # Ok::<(), Refusal>(())
/// ```
#[derive(Clone, Debug, PartialEq, Eq, Hash)]
pub struct Lines {
    /// By set, in the order of the list.
    lines: Vec<Line>,
    /// The lines of single holders, by process.
    holders: Vec<Line>,
}

impl Lines {
    /// The lines of an accepted table.
    pub(crate) fn of_accepted(table: &[u8], sets: &[u32]) -> Result<Lines, Refusal> {
        let n = usize::from(run_table::processes(table));
        let mut scratch = vec![0; n * n];
        let mut answer = vec![0; 2 * n * sets.len()];
        let written = crate::lines_of_sets(table, sets, &mut scratch, &mut answer)?;
        Ok(Lines {
            lines: each(&numbers(&answer[..written]), n),
            holders: each(&scratch, n),
        })
    }

    /// The line of one process that alone holds, of which the others are made,
    /// whether or not the list has its set; `None` where there is no such process.
    ///
    /// ```
    /// # use keeper::{Refusal, Table};
    /// # let example_a = include_bytes!("../../../tests/corpus/example_a.table").to_vec();
    /// let lines = Table::from_bytes(&example_a[..])?.lines_of_sets(&[0b11])?;
    /// assert_eq!(**lines.holder(1).unwrap(), [3, 2]);
    /// assert_eq!(lines.holder(2), None);
    /// # Ok::<(), Refusal>(())
    /// ```
    pub fn holder(&self, process: u16) -> Option<&Line> {
        self.holders.get(usize::from(process))
    }
}

/// Lines that stand one after another, of `n` numbers each.
fn each(numbers: &[u16], n: usize) -> Vec<Line> {
    numbers
        .chunks_exact(n)
        .map(|line| Line(line.to_vec()))
        .collect()
}

impl Deref for Lines {
    type Target = [Line];

    fn deref(&self) -> &[Line] {
        &self.lines
    }
}

impl IntoIterator for Lines {
    type Item = Line;
    type IntoIter = vec::IntoIter<Line>;

    fn into_iter(self) -> vec::IntoIter<Line> {
        self.lines.into_iter()
    }
}

impl<'a> IntoIterator for &'a Lines {
    type Item = &'a Line;
    type IntoIter = slice::Iter<'a, Line>;

    fn into_iter(self) -> slice::Iter<'a, Line> {
        self.lines.iter()
    }
}
