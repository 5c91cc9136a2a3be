//! Lent buffers, with junk in them.
use super::random::Xorshift;
use std::fmt::Debug;

/// Numbers on either side of what is lent, so that a store beside it is seen.
const EDGE: usize = 4;

/// How much more than its need a buffer may be lent.
const SPARE: u32 = 7;

/// How long the buffers of a call are.
#[derive(Clone, Copy, Debug)]
pub enum Room {
    /// Each has its need, or some more.
    Enough,
    /// The same, but those with their bit set are one short.
    Short(u32),
    /// Any one may be short, by any number.
    Any,
}

impl Room {
    /// A length for buffer number `which`.
    pub fn length(self, which: usize, need: usize, random: &mut Xorshift) -> usize {
        let enough = need + if random.one_in(2) { 0 } else { random.between(1, SPARE) as usize };
        match self {
            Room::Short(set) if set & (1 << which) != 0 => need.saturating_sub(1),
            Room::Any if need > 0 && random.one_in(16) => random.below(need as u32) as usize,
            _ => enough,
        }
    }
}

/// A buffer: what is lent of it is the middle of a wider row of numbers.
#[derive(Clone, Debug, PartialEq)]
pub struct Buffer<T> {
    cells: Vec<T>,
    len: usize,
}

impl<T: Copy + PartialEq + Debug> Buffer<T> {
    /// A buffer of junk: anything at all, or numbers that an entry might take for its own.
    pub fn junk(len: usize, random: &mut Xorshift, kind: fn(u32) -> T) -> Buffer<T> {
        let below = random.pick(&[u32::MAX, len as u32 + 1, 2, 1]);
        let cells = (0..len + 2 * EDGE).map(|_| kind(random.below(below))).collect();
        Buffer { cells, len }
    }

    pub fn len(&self) -> usize {
        self.len
    }

    pub fn is_empty(&self) -> bool {
        self.len == 0
    }

    pub fn lent(&mut self) -> &mut [T] {
        &mut self.cells[EDGE..EDGE + self.len]
    }

    /// The first number that is not as expected, over the whole length and the edges.
    pub fn compare(&self, name: &str, expected: &Buffer<T>) -> Result<(), String> {
        let pairs = self.cells.iter().zip(&expected.cells);
        match pairs.enumerate().find(|(_, (is, ought))| is != ought) {
            None => Ok(()),
            Some((k, (is, ought))) => {
                let at = k as i64 - EDGE as i64;
                Err(format!("{name} (length {}) holds {is:?} at {at}, expected {ought:?}", self.len))
            }
        }
    }
}
