//! The few calls of the port of `circular_buffer` on the heap: a ring that is filled once.
use kit_std::alloc::{AllocError, Global};
use kit_std::vec::Vec;

pub struct HeapCircularBuffer<T>(Vec<T>);
impl<T> HeapCircularBuffer<T> {
    pub fn with_capacity(alloc: Global, n: usize) -> Result<Self, AllocError> {
        Vec::with_capacity(alloc, n).map(HeapCircularBuffer)
    }
    pub fn push_back(&mut self, value: T) -> Option<T> {
        self.0.push(value).ok().and(None)
    }
    pub fn len(&self) -> usize {
        self.0.len()
    }
    pub fn get(&self, i: usize) -> Option<&T> {
        self.0.get(i)
    }
    pub fn get_mut(&mut self, i: usize) -> Option<&mut T> {
        self.0.get_mut(i)
    }
    pub fn make_contiguous(&mut self) -> &mut [T] {
        &mut self.0
    }
}
