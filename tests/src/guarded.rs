//! Numbers lent to a call, with others on both sides to which it must not write.

/// How many numbers stand on each side: an odd number, so that those lent start at a multiple of their own size alone.
const SIDE: usize = 17;

/// Numbers between two guards.
pub struct Guarded<T> {
    memory: Vec<T>,
    guard: T,
}

impl<T: Copy + PartialEq> Guarded<T> {
    pub fn new(numbers: &[T], guard: T) -> Guarded<T> {
        Guarded { memory: [&[guard; SIDE], numbers, &[guard; SIDE]].concat(), guard }
    }

    pub fn numbers(&self) -> &[T] {
        &self.memory[SIDE..self.memory.len() - SIDE]
    }

    pub fn numbers_mut(&mut self) -> &mut [T] {
        let end = self.memory.len() - SIDE;
        &mut self.memory[SIDE..end]
    }

    pub fn lend(&mut self) -> (*mut T, usize) {
        let numbers = self.numbers_mut();
        (numbers.as_mut_ptr(), numbers.len())
    }

    pub fn intact(&self) -> bool {
        let (left, right) = (&self.memory[..SIDE], &self.memory[self.memory.len() - SIDE..]);
        left.iter().chain(right).all(|number| *number == self.guard)
    }
}
