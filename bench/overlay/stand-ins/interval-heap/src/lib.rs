//! Stand-in for interval-heap: only what the merge uses, by the standard library's heap.

use std::cmp::Reverse;
use std::collections::BinaryHeap;

#[derive(Debug)]
pub struct IntervalHeap<T: Ord>(BinaryHeap<Reverse<T>>);

impl<T: Ord> IntervalHeap<T> {
    pub fn with_capacity(room: usize) -> Self {
        Self(BinaryHeap::with_capacity(room))
    }

    pub fn is_empty(&self) -> bool {
        self.0.is_empty()
    }

    pub fn push(&mut self, item: T) {
        self.0.push(Reverse(item));
    }

    pub fn pop_min(&mut self) -> Option<T> {
        self.0.pop().map(|Reverse(item)| item)
    }
}
