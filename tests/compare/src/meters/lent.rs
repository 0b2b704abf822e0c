//! Arrays as they are lent to a tick, with others around them that it has no business with.

/// Places before and after.
const AROUND: usize = 4;

/// What may be lent.
pub trait Item: Copy + PartialEq {
    /// What stands around: a number that equals itself.
    const OTHER: Self;
}

impl Item for f64 {
    const OTHER: Self = 12_345.5;
}

impl Item for u8 {
    const OTHER: Self = 0x5A;
}

/// An array and what stands around it.
pub struct Lent<T> {
    items: Vec<T>,
}

impl<T: Item> Lent<T> {
    /// Takes a copy of some content.
    pub fn new(content: &[T]) -> Self {
        let around = [T::OTHER; AROUND];
        Self {
            items: [&around, content, &around].concat(),
        }
    }

    /// The content.
    pub fn content(&self) -> &[T] {
        &self.items[AROUND..self.items.len() - AROUND]
    }

    /// The content, to be written.
    pub fn content_mut(&mut self) -> &mut [T] {
        let end = self.items.len() - AROUND;
        &mut self.items[AROUND..end]
    }

    /// Whether nothing around the content was written.
    pub fn kept(&self) -> bool {
        let (before, rest) = self.items.split_at(AROUND);
        let after = &rest[rest.len() - AROUND..];
        before.iter().chain(after).all(|item| *item == T::OTHER)
    }
}
