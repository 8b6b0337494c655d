//! Slices laid into memory, so that what a call reads or writes beside them is noticed.
use std::mem::MaybeUninit;

/// How slices are laid into memory.
#[derive(Clone, Copy, PartialEq, Eq)]
pub enum Memory {
    /// Between fences of known elements, which are looked at after the call.
    Fenced,
    /// Each in an allocation of exactly its size, for valgrind.
    Exact,
    /// The same, and slices that a call only writes are lent without a value, so that valgrind notices if one is used before it is written.
    Blank,
}

const FENCE: usize = 24;

/// One slice in memory.
pub(crate) struct Laid<T> {
    store: Vec<MaybeUninit<T>>,
    fence: usize,
    blank: bool,
}

impl<T: Copy + PartialEq> Laid<T> {
    pub(crate) fn new(values: &[T], fill: T, memory: Memory, only_written: bool) -> Laid<T> {
        let fence = if memory == Memory::Fenced { FENCE } else { 0 };
        let blank = memory == Memory::Blank && only_written;
        let mut store = Vec::with_capacity(values.len() + 2 * fence);
        store.extend(std::iter::repeat_n(MaybeUninit::new(fill), fence));
        if blank {
            // SAFETY: the elements need no value, and there is room for them. (A list of `MaybeUninit::uninit()` would do in Rust, but the compiler may
            // give it values, and then valgrind would see nothing.)
            unsafe { store.set_len(values.len()) };
        } else {
            store.extend(values.iter().map(|&value| MaybeUninit::new(value)));
        }
        store.extend(std::iter::repeat_n(MaybeUninit::new(fill), fence));
        Laid { store, fence, blank }
    }

    pub(crate) fn len(&self) -> usize {
        self.store.len() - 2 * self.fence
    }

    pub(crate) fn pointer(&mut self) -> *mut T {
        self.store[self.fence..].as_mut_ptr().cast()
    }

    /// The slice after the call. Of one that had no value, the first `written` elements.
    pub(crate) fn after(&self, values: &mut [T], fill: T, written: usize) -> Result<(), String> {
        // SAFETY: an element of a fence has a value, and so has every element of a slice that was not blank; of one that was, those that the call says
        // it has written (and if it has not, that is what valgrind is to find).
        let read = |one: &MaybeUninit<T>| unsafe { one.assume_init() };
        let end = self.store.len() - self.fence;
        let fences = self.store[..self.fence].iter().chain(&self.store[end..]);
        if fences.map(read).any(|element| element != fill) {
            return Err("something beside a slice was written".to_string());
        }
        let taken = if self.blank { written.min(self.len()) } else { self.len() };
        for (value, one) in values.iter_mut().zip(&self.store[self.fence..end]).take(taken) {
            *value = read(one);
        }
        Ok(())
    }
}
