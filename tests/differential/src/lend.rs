//! What a call is lent: a slice in the middle of a longer buffer. The elements
//! on both sides are guards, and what the slice holds before the call is by
//! chance, so every change that the call makes is seen.

use reference::gen::Rng;

/// The guards on either side number at least this many.
const GUARDS: usize = 32;

/// An element that guards and fills.
pub trait Element: Copy + PartialEq + std::fmt::Debug {
    /// An element by chance.
    fn any(rng: &mut Rng) -> Self;
}

impl Element for u8 {
    fn any(rng: &mut Rng) -> u8 {
        (rng.next_bits() >> 24) as u8
    }
}

impl Element for u16 {
    fn any(rng: &mut Rng) -> u16 {
        (rng.next_bits() >> 24) as u16
    }
}

impl Element for u32 {
    fn any(rng: &mut Rng) -> u32 {
        (rng.next_bits() >> 24) as u32
    }
}

impl Element for usize {
    fn any(rng: &mut Rng) -> usize {
        rng.next_bits() as usize
    }
}

/// A buffer with a slice to lend.
pub struct Lent<T> {
    all: Vec<T>,
    front: usize,
    length: usize,
}

impl<T: Element> Lent<T> {
    /// A slice of the given length, filled by chance. Its place in the buffer
    /// varies, so byte slices are lent at odd addresses too.
    pub fn room(rng: &mut Rng, length: usize) -> Lent<T> {
        let front = GUARDS + rng.between(0, 7);
        let all = (0..front + length + GUARDS).map(|_| T::any(rng)).collect();
        Lent { all, front, length }
    }

    /// A slice with these contents.
    pub fn holding(rng: &mut Rng, contents: &[T]) -> Lent<T> {
        let mut lent = Lent::room(rng, contents.len());
        lent.put(contents);
        lent
    }

    /// Overwrites the front of the slice: what an answer is expected to do.
    pub fn put(&mut self, contents: &[T]) {
        assert!(contents.len() <= self.length);
        self.all[self.front..self.front + contents.len()].copy_from_slice(contents);
    }

    /// The slice.
    pub fn slice(&self) -> &[T] {
        &self.all[self.front..self.front + self.length]
    }

    /// The slice, to write.
    pub fn slice_mut(&mut self) -> &mut [T] {
        &mut self.all[self.front..self.front + self.length]
    }

    /// The slice with the guards before it and behind it, to write.
    pub fn with_guards(&mut self) -> (&mut [T], usize) {
        (&mut self.all, self.front)
    }

    /// Another buffer with the same elements.
    pub fn copy(&self) -> Lent<T> {
        Lent {
            all: self.all.clone(),
            front: self.front,
            length: self.length,
        }
    }

    /// Where the two buffers differ first: the place in the slice (below zero
    /// or at its length and above: a guard) and the two elements.
    pub fn difference(&self, expected: &Lent<T>) -> Option<(isize, T, T)> {
        if self.all == expected.all {
            return None;
        }
        let pairs = self.all.iter().zip(&expected.all);
        let at = pairs.take_while(|(got, wanted)| got == wanted).count();
        Some((
            at as isize - self.front as isize,
            self.all[at],
            expected.all[at],
        ))
    }
}
