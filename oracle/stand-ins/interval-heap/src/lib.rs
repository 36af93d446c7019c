//! Stand-in for interval-heap: only what the merge uses, by a search through a list. Of equal items the first pushed
//! comes out first; the real heap leaves that open.

#[derive(Debug)]
pub struct IntervalHeap<T>(Vec<T>);

impl<T: Ord> IntervalHeap<T> {
    pub fn with_capacity(room: usize) -> Self {
        Self(Vec::with_capacity(room))
    }

    pub fn is_empty(&self) -> bool {
        self.0.is_empty()
    }

    pub fn push(&mut self, item: T) {
        self.0.push(item);
    }

    pub fn pop_min(&mut self) -> Option<T> {
        let least = (0..self.0.len()).min_by(|&a, &b| self.0[a].cmp(&self.0[b]))?;
        Some(self.0.remove(least))
    }
}
