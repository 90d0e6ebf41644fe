//! Memory to lend, with a guard before and behind it. All of it is marked, so
//! that every change shows, wherever it is.

use std::fmt::Debug;

/// Numbers or bytes of each guard.
const GUARD: usize = 300;

/// What can be lent: it has marks.
pub trait Mark: Copy + PartialEq + Debug {
    fn mark(bits: u64) -> Self;
}

impl Mark for u8 {
    fn mark(bits: u64) -> u8 {
        (bits >> 24) as u8
    }
}

impl Mark for i32 {
    fn mark(bits: u64) -> i32 {
        (bits >> 16) as i32
    }
}

impl Mark for i64 {
    fn mark(bits: u64) -> i64 {
        bits as i64
    }
}

impl Mark for usize {
    fn mark(bits: u64) -> usize {
        bits as usize
    }
}

/// A lent slice and the guards around it.
#[derive(Clone)]
pub struct Lent<T> {
    memory: Vec<T>,
    start: usize,
    length: usize,
}

impl<T: Mark> Lent<T> {
    /// A lent slice full of marks, which the salt settles.
    pub fn marked(length: usize, salt: u64) -> Lent<T> {
        // An uneven guard, so that bytes start at every alignment.
        let start = GUARD + (salt % 16) as usize;
        let memory = (0..start + length + GUARD)
            .map(|index| T::mark((index as u64 ^ salt).wrapping_mul(0x9e37_79b9_7f4a_7c15)))
            .collect();
        Lent {
            memory,
            start,
            length,
        }
    }

    /// A lent slice that holds these values.
    pub fn holding(values: &[T], salt: u64) -> Lent<T> {
        Lent::cut(values, values.len(), salt)
    }

    /// Lends only the first of the values. The others stand right behind them,
    /// where a call that looks too far would find what it hopes for.
    pub fn cut(values: &[T], length: usize, salt: u64) -> Lent<T> {
        let mut lent = Lent::marked(values.len(), salt);
        lent.part_mut().copy_from_slice(values);
        lent.length = length.min(values.len());
        lent
    }

    /// The lent slice.
    pub fn part(&self) -> &[T] {
        &self.memory[self.start..self.start + self.length]
    }

    /// The lent slice, to write.
    pub fn part_mut(&mut self) -> &mut [T] {
        &mut self.memory[self.start..self.start + self.length]
    }

    /// Where the lent slice starts; the pointer may be moved over the guards. Of
    /// an empty slice it is null as often as not.
    pub fn pointer(&self) -> *const T {
        if self.null() {
            return std::ptr::null();
        }
        self.memory.as_ptr().wrapping_add(self.start)
    }

    /// As `pointer`, to write.
    pub fn pointer_mut(&mut self) -> *mut T {
        if self.null() {
            return std::ptr::null_mut();
        }
        self.memory.as_mut_ptr().wrapping_add(self.start)
    }

    fn null(&self) -> bool {
        self.length == 0 && self.start % 2 == 1
    }

    /// How long the lent slice is.
    pub fn length(&self) -> usize {
        self.length
    }

    /// In what the library's memory differs first from the wanted memory, with
    /// the guards.
    pub fn difference(&self, wanted: &Lent<T>, name: &str) -> Option<String> {
        if self.memory == wanted.memory {
            return None;
        }
        let pairs = self.memory.iter().zip(&wanted.memory);
        let place = pairs.clone().position(|(got, want)| got != want)?;
        let changed = pairs.filter(|(got, want)| got != want).count();
        let index = place as i64 - self.start as i64;
        let side = match index {
            i64::MIN..=-1 => ", before the lent memory",
            _ if place >= self.start + self.length => ", past the lent memory",
            _ => "",
        };
        let (got, want) = (self.memory[place], wanted.memory[place]);
        Some(format!(
            "{name}[{index}]{side}: library {got:?}, reference {want:?}; {changed} differ"
        ))
    }
}
