//! Slices to be lent to the library.

use std::fmt::Debug;

/// A slice to be lent to the library, with margins around it that must stay as they are.
pub struct Lent<T> {
    margin: usize,
    before: Vec<T>,
    after: Vec<T>,
}

impl<T: Copy + PartialEq> Lent<T> {
    /// A slice with the given length. It and the margins hold what `any` gives.
    pub fn new(length: usize, margin: usize, any: impl FnMut() -> T) -> Self {
        let before: Vec<T> = std::iter::repeat_with(any).take(length + 2 * margin).collect();
        Lent { margin, after: before.clone(), before }
    }

    /// A slice that holds the given numbers. The margins hold what `any` gives.
    pub fn around(numbers: &[T], margin: usize, any: impl FnMut() -> T) -> Self {
        let mut before: Vec<T> = std::iter::repeat_with(any).take(2 * margin).collect();
        before.splice(margin..margin, numbers.iter().copied());
        Lent { margin, after: before.clone(), before }
    }

    /// The slice.
    pub fn slice(&mut self) -> &mut [T] {
        let end = self.after.len() - self.margin;
        &mut self.after[self.margin..end]
    }

    /// The first `length` of the slice, which a call may write. All else must be as it was. The messages say what the slice is, and what it
    /// was all about.
    pub fn written(&self, length: usize, what: &str, about: &impl Debug) -> &[T] {
        let (from, to) = (self.margin, self.margin + length);
        assert!(self.after[..from] == self.before[..from], "written before the {what}: {about:?}");
        assert!(self.after[to..] == self.before[to..], "written after the {what}: {about:?}");
        &self.after[from..to]
    }
}
