//! Memory that is lent to the library.

/// Cells beside the lent ones, which must stay as they are.
const BESIDE: usize = 64;

/// Lent cells, bytes or slots, and some beside them, before and after a call.
pub struct Lent<T> {
    before: Vec<T>,
    after: Vec<T>,
}

impl<T: Copy + PartialEq> Lent<T> {
    /// So many cells, each filled by its place.
    pub fn filled(length: usize, filling: impl FnMut(usize) -> T) -> Lent<T> {
        let before: Vec<T> = (0..length + 2 * BESIDE).map(filling).collect();
        Lent { after: before.clone(), before }
    }

    /// The same memory once more, as it was left.
    pub fn again(&self) -> Lent<T> {
        Lent { before: self.after.clone(), after: self.after.clone() }
    }

    /// What the library gets.
    pub fn lend(&mut self) -> &mut [T] {
        let end = self.after.len() - BESIDE;
        &mut self.after[BESIDE..end]
    }

    /// What was lent, as it was before the call.
    pub fn before(&self) -> &[T] {
        &self.before[BESIDE..self.before.len() - BESIDE]
    }

    /// The first lent cells as they are now.
    pub fn front(&self, length: usize) -> &[T] {
        &self.after[BESIDE..][..length]
    }

    /// The first cell that changed of those past the first `written`, or beside what was lent.
    pub fn changed(&self, written: usize) -> Option<isize> {
        let kept = (0..BESIDE).chain(BESIDE + written..self.after.len());
        let at = kept.into_iter().find(|&at| self.before[at] != self.after[at])?;
        Some(at as isize - BESIDE as isize)
    }
}
