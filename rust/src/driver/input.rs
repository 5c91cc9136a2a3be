//! An input of an entry, owned: a pattern, or what is left of one after damage.
use super::case::Case;
use super::damage::{Damage, DAMAGES};
use super::random::Xorshift;
use super::smallest;
use crate::{OriginalRow, Pattern};
use std::fmt;

#[derive(Clone, Debug, PartialEq, Eq)]
pub struct Input {
    pub size: u32,
    pub starts: Vec<u32>,
    pub rows: Vec<OriginalRow>,
}

impl Input {
    /// The pattern of these columns.
    pub fn from_columns(columns: &[Vec<u32>]) -> Input {
        let mut starts = vec![0];
        let mut rows = vec![];
        for column in columns {
            rows.extend(column.iter().copied().map(OriginalRow));
            starts.push(rows.len() as u32);
        }
        Input { size: columns.len() as u32, starts, rows }
    }

    pub fn pattern(&self) -> Pattern<'_> {
        Pattern { size: self.size, starts: &self.starts, rows: &self.rows }
    }

    /// The rows of column `c`, where the starts are well formed.
    pub fn column(&self, c: usize) -> &[OriginalRow] {
        &self.rows[self.starts[c] as usize..self.starts[c + 1] as usize]
    }

    /// The pattern in the Rust's own width.
    pub fn widened(&self) -> minilp::Columns {
        minilp::Columns {
            starts: self.starts.iter().map(|&start| start as usize).collect(),
            rows: self.rows.iter().map(|row| row.0 as usize).collect(),
        }
    }
}

impl Case for Input {
    type Damage = Damage;

    fn damages() -> Vec<Damage> {
        DAMAGES.to_vec()
    }

    fn damage(&mut self, damage: Damage, random: &mut Xorshift) {
        damage.apply(self, random);
    }

    fn matrix(&self) -> &Input {
        self
    }

    fn timed(&self) -> minilp::Columns {
        self.widened()
    }

    fn smaller(&self) -> Box<dyn Iterator<Item = Input> + '_> {
        Box::new(smallest::smaller(self))
    }
}

impl fmt::Display for Input {
    fn fmt(&self, f: &mut fmt::Formatter<'_>) -> fmt::Result {
        write!(f, "size {} entries {} starts", self.size, self.rows.len())?;
        list(f, self.starts.len(), self.starts.iter().copied())?;
        write!(f, " rows")?;
        list(f, self.rows.len(), self.rows.iter().map(|row| row.0))
    }
}

/// The numbers of a list, no more of them than the precision says.
pub fn list(f: &mut fmt::Formatter<'_>, len: usize, numbers: impl Iterator<Item = u32>) -> fmt::Result {
    let shown = f.precision().unwrap_or(len).min(len);
    for number in numbers.take(shown) {
        write!(f, " {number}")?;
    }
    match len - shown {
        0 => Ok(()),
        more => write!(f, " (and {more} more)"),
    }
}
