//! Lent memory with guards: a slice in the middle of a larger piece whose rest must not change.

const GUARDS: usize = 8;

/// A slice with guards before and behind it.
pub struct Guarded<T> {
    memory: Vec<T>,
    guard: T,
}

impl<T: Copy + PartialEq + std::fmt::Debug> Guarded<T> {
    pub fn new(content: &[T], guard: T) -> Guarded<T> {
        let mut memory = vec![guard; GUARDS];
        memory.extend_from_slice(content);
        memory.extend([guard; GUARDS]);
        Guarded { memory, guard }
    }

    /// The slice, to lend.
    pub fn lent(&mut self) -> &mut [T] {
        let end = self.memory.len() - GUARDS;
        &mut self.memory[GUARDS..end]
    }

    /// What the slice holds after the call; the guards must be as they were.
    pub fn content(&self) -> &[T] {
        let (before, rest) = self.memory.split_at(GUARDS);
        let (content, behind) = rest.split_at(rest.len() - GUARDS);
        let sound = before.iter().chain(behind).all(|word| *word == self.guard);
        assert!(sound, "a word outside the lent slice changed");
        content
    }
}
