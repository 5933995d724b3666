//! Lent slices between guards, which no call may write to.
const SIDE: usize = 4;

/// A slice with guards in front and behind.
pub struct Guarded<T> {
    all: Vec<T>,
    guard: T,
}

impl<T: Copy + PartialEq> Guarded<T> {
    pub fn new(guard: T) -> Self {
        Guarded { all: vec![], guard }
    }

    pub fn set(&mut self, elements: &[T]) {
        self.all.clear();
        self.all.extend([self.guard; SIDE]);
        self.all.extend(elements);
        self.all.extend([self.guard; SIDE]);
    }

    pub fn slice(&mut self) -> &mut [T] {
        let end = self.all.len() - SIDE;
        &mut self.all[SIDE..end]
    }

    pub fn inside(&self) -> &[T] {
        &self.all[SIDE..self.all.len() - SIDE]
    }

    pub fn holds(&self, elements: &[T]) -> bool {
        self.inside() == elements
    }

    pub fn is_intact(&self) -> bool {
        let end = self.all.len() - SIDE;
        self.all[..SIDE].iter().chain(&self.all[end..]).all(|element| *element == self.guard)
    }
}
