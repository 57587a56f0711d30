//! Buffers as they are lent to the engine.

/// How many elements stand before and after what is lent between guards.
pub const GUARDS: usize = 64;

/// Without guards a buffer is a heap block of its own, so that valgrind sees what reads or writes past its ends.
pub const ALONE: usize = 0;

/// A buffer between guards that the engine must not touch.
pub struct Lent<T> {
    all: Vec<T>,
    guards: usize,
    pub length: usize,
}

impl<T: Copy + PartialEq + From<u8>> Lent<T> {
    fn mark() -> T {
        T::from(0xA5)
    }

    pub fn new(elements: &[T], guards: usize) -> Self {
        let mut all = Vec::with_capacity(elements.len() + 2 * guards);
        all.resize(guards, Self::mark());
        all.extend_from_slice(elements);
        all.resize(elements.len() + 2 * guards, Self::mark());
        Lent { all, guards, length: elements.len() }
    }

    pub fn pointer(&mut self) -> *mut T {
        self.all[self.guards..].as_mut_ptr()
    }

    /// The elements after the call, if all guards are whole.
    pub fn returned(self) -> Option<Vec<T>> {
        let (before, rest) = self.all.split_at(self.guards);
        let (elements, after) = rest.split_at(self.length);
        before.iter().chain(after).all(|element| *element == Self::mark()).then(|| elements.to_vec())
    }
}
