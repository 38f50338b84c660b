//! Lists that are lent to a call and compared whole afterwards.

use reference::generators::random::Random;
use std::fmt::Debug;
use std::hint::black_box;

/// How many elements stand before a lent list and how many behind it.
const GUARD: usize = 8;

/// An element of a lent list.
pub trait Element: Copy + PartialEq + Debug {
    /// The number modulo the element's width.
    fn cut(number: u64) -> Self;
}

impl Element for u8 {
    fn cut(number: u64) -> u8 {
        number as u8
    }
}

impl Element for u16 {
    fn cut(number: u64) -> u16 {
        number as u16
    }
}

impl Element for u32 {
    fn cut(number: u64) -> u32 {
        number as u32
    }
}

impl Element for u64 {
    fn cut(number: u64) -> u64 {
        number
    }
}

/// A list with a few elements before it and behind it that nobody may write.
pub struct Lent<T> {
    before: Vec<T>,
    memory: Vec<T>,
}

impl<T: Element> Lent<T> {
    /// A list of `length` elements that holds a pattern.
    pub fn patterned(random: &mut Random, length: usize) -> Lent<T> {
        let first = random.number();
        let step = random.number() | 1;
        let at = |i: usize| T::cut(first.wrapping_add(step.wrapping_mul(i as u64)) >> 7);
        let before: Vec<T> = (0..length + 2 * GUARD).map(at).collect();
        let memory = before.clone();
        Lent { before, memory }
    }

    /// A list that holds `list`, among elements of a pattern.
    pub fn holding(random: &mut Random, list: &[T]) -> Lent<T> {
        let mut lent = Lent::patterned(random, list.len());
        lent.memory[GUARD..GUARD + list.len()].copy_from_slice(list);
        lent.before.copy_from_slice(&lent.memory);
        lent
    }

    pub fn list(&self) -> &[T] {
        &self.memory[GUARD..self.memory.len() - GUARD]
    }

    pub fn list_mut(&mut self) -> &mut [T] {
        let end = self.memory.len() - GUARD;
        &mut self.memory[GUARD..end]
    }

    /// The list has `front` at its start, and everything behind it and around the list is as it was.
    pub fn holds(&self, name: &str, front: &[T]) -> Result<(), String> {
        let memory: &[T] = black_box(&self.memory);
        let behind = GUARD + front.len();
        if memory[..GUARD] == self.before[..GUARD]
            && memory[GUARD..behind] == *front
            && memory[behind..] == self.before[behind..]
        {
            return Ok(());
        }
        let mut expected = self.before.clone();
        expected[GUARD..behind].copy_from_slice(front);
        let at = (0..memory.len())
            .find(|&i| memory[i] != expected[i])
            .unwrap_or_default();
        Err(format!(
            "{name}: position {}: expected {:?}, got {:?} (the list has {} elements)",
            at as i64 - GUARD as i64,
            expected[at],
            memory[at],
            self.list().len()
        ))
    }

    /// The list and everything around it is as it was.
    pub fn untouched(&self, name: &str) -> Result<(), String> {
        self.holds(name, &[])
    }
}
