//! Memory that is lent to a call, with guards on both sides.

use std::fmt::LowerHex;

use reference::random::Random;

/// Elements of each guard.
const GUARD: usize = 16;

/// Elements full of random values. The call sees those between the guards alone; afterwards all of
/// them are compared with what they should be.
pub struct Lent<T> {
    memory: Vec<T>,
    due: Vec<T>,
    start: usize,
    length: usize,
}

/// What memory is made of: bytes or words.
pub trait Element: Copy + PartialEq + LowerHex {
    fn from_word(word: u64) -> Self;
}

impl Element for u8 {
    fn from_word(word: u64) -> Self {
        word as u8
    }
}

impl Element for u64 {
    fn from_word(word: u64) -> Self {
        word
    }
}

impl<T: Element> Lent<T> {
    pub fn new(random: &mut Random, length: usize) -> Self {
        // Bytes need no alignment, so they begin anywhere.
        let start = GUARD + random.below(8);
        let total = start + length + GUARD;
        let memory: Vec<T> = (0..total).map(|_| T::from_word(random.word())).collect();
        Lent {
            due: memory.clone(),
            memory,
            start,
            length,
        }
    }

    /// Memory that the call may read and should leave alone.
    pub fn holding(random: &mut Random, values: &[T]) -> Self {
        let mut lent = Lent::new(random, values.len());
        lent.lend().copy_from_slice(values);
        lent.expect(values);
        lent
    }

    pub fn get(&self) -> &[T] {
        &self.memory[self.start..][..self.length]
    }

    pub fn lend(&mut self) -> &mut [T] {
        &mut self.memory[self.start..][..self.length]
    }

    pub fn lend_array<const N: usize>(&mut self) -> &mut [T; N] {
        self.lend().try_into().expect("as long as the call wants")
    }

    /// The call should leave this at the front, and all else as it is.
    pub fn expect(&mut self, front: &[T]) {
        self.due[self.start..][..front.len()].copy_from_slice(front);
    }
}

/// What can be compared after a call.
pub trait Checked {
    /// Says how it differs from what it should be.
    fn difference(&self) -> Option<String>;
}

impl<T: Element> Checked for Lent<T> {
    fn difference(&self) -> Option<String> {
        // As slices of bytes and words these compare fast; the place is needed once at most.
        if self.memory == self.due {
            return None;
        }
        let mut pairs = self.memory.iter().zip(&self.due);
        let at = pairs.position(|(found, due)| found != due)?;
        let place = at as i64 - self.start as i64;
        let [library, reference] = [&self.memory, &self.due].map(|memory| {
            let lent = &memory[self.start..][..self.length];
            let values: Vec<String> = lent.iter().map(|value| format!("{value:x}")).collect();
            values.join(" ")
        });
        Some(format!(
            "first at {place} of {} lent: {:x}, and not {:x}\nlibrary   [{library}]\n\
             reference [{reference}]",
            self.length, self.memory[at], self.due[at]
        ))
    }
}

#[cfg(test)]
mod tests {
    use super::*;

    fn lent() -> Lent<u8> {
        Lent::new(&mut Random::new(1), 4)
    }

    #[test]
    fn untouched_memory_is_as_it_should_be() {
        assert_eq!(lent().difference(), None);
        let held = Lent::holding(&mut Random::new(1), &[1_u64, 2, 3]);
        assert_eq!(held.get(), [1, 2, 3]);
        assert_eq!(held.difference(), None);
    }

    #[test]
    fn what_is_expected_must_be_written_and_nothing_else() {
        let mut lent = lent();
        let front = [!lent.get()[0], !lent.get()[1]];
        lent.expect(&front);
        assert!(lent.difference().is_some());
        lent.lend()[..2].copy_from_slice(&front);
        assert_eq!(lent.difference(), None);
        lent.lend()[3] ^= 1;
        let difference = lent.difference().expect("a byte more was written");
        assert!(difference.starts_with("first at 3 of 4 lent"));
    }

    #[test]
    fn the_guards_are_watched() {
        let mut before = lent();
        before.memory[before.start - 1] ^= 1;
        let difference = before.difference().expect("a byte before was written");
        assert!(difference.starts_with("first at -1 of 4 lent"));
        let mut behind = lent();
        behind.memory[behind.start + 4] ^= 1;
        let difference = behind.difference().expect("a byte behind was written");
        assert!(difference.starts_with("first at 4 of 4 lent"));
    }
}
