//! Memory lent to a call, between margins that the call must leave alone.

const MARGIN: usize = 8;

/// What a call answered, or how it went beyond what it was lent.
pub type Answer<T> = Result<T, &'static str>;

pub struct Lent<T> {
    whole: Vec<T>,
    before: Vec<T>,
    len: usize,
}

impl<T: Copy + PartialEq> Lent<T> {
    /// A copy of `values`, with `edge` in the margins.
    pub fn new(values: &[T], edge: T) -> Self {
        Self::followed(values, &[], edge)
    }

    /// A copy of `values`, with `behind` following it in memory.
    pub fn followed(values: &[T], behind: &[T], edge: T) -> Self {
        let mut whole = vec![edge; 2 * MARGIN + values.len() + behind.len()];
        whole[MARGIN..][..values.len()].copy_from_slice(values);
        whole[MARGIN + values.len()..][..behind.len()].copy_from_slice(behind);
        Self { before: whole.clone(), whole, len: values.len() }
    }

    pub fn len(&self) -> usize {
        self.len
    }

    pub fn as_ptr(&self) -> *const T {
        self.whole[MARGIN..].as_ptr()
    }

    pub fn as_mut_ptr(&mut self) -> *mut T {
        self.whole[MARGIN..].as_mut_ptr()
    }

    /// What the calls so far have left of memory that they may write.
    pub fn held(&self) -> Answer<&[T]> {
        let end = MARGIN + self.len;
        if self.whole[..MARGIN] != self.before[..MARGIN] || self.whole[end..] != self.before[end..] {
            return Err("memory outside a lent buffer was written");
        }
        Ok(&self.whole[MARGIN..end])
    }

    /// The same, where no other call follows.
    pub fn left(self) -> Answer<Vec<T>> {
        self.held().map(<[T]>::to_vec)
    }

    /// Other contents between two calls.
    pub fn refill(&mut self, values: &[T]) {
        self.whole[MARGIN..][..self.len].copy_from_slice(values);
    }

    /// Sees that memory lent for reading is as it was.
    pub fn unwritten(self) -> Answer<()> {
        if self.whole == self.before { Ok(()) } else { Err("memory lent for reading was written") }
    }
}
