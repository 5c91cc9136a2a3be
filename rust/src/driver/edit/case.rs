//! What the edit is called with.
use super::damage::{damages, EditDamage};
use super::smaller::smaller;
use crate::driver::case::Case;
use crate::driver::input::{list, Input};
use crate::driver::random::Xorshift;
use crate::driver::table::MAX_SIZE;
use crate::{Column, Edit, OriginalRow};
use std::fmt;

/// An edit of a matrix, valid or damaged.
#[derive(Clone, Debug)]
pub struct EditCase {
    /// The matrix as it was.
    pub old: Input,
    pub column: Column,
    /// The rows that take the place of the column's own.
    pub rows: Vec<OriginalRow>,
    /// The column of each row, as the slice of the matching holds it before the call; what is lent behind it is junk.
    pub matching: Vec<Column>,
}

impl EditCase {
    pub fn edit(&self) -> Edit<'_> {
        Edit { column: self.column, rows: &self.rows }
    }

    /// The matrix after the edit, where the old one is well formed and has the column.
    pub fn edited(&self) -> Input {
        let c = self.column.0 as usize;
        let columns = 0..self.old.size as usize;
        let rows_of = |d: usize| if d == c { &self.rows } else { self.old.column(d) };
        let columns: Vec<Vec<u32>> = columns.map(|d| rows_of(d).iter().map(|row| row.0).collect()).collect();
        Input::from_columns(&columns)
    }

    /// As many matched rows as the matrix claims to have, within the limits, after its size has changed; new ones have these columns.
    pub fn resize_matching(&mut self, column: impl FnMut() -> Column) {
        self.matching.resize_with(self.old.size.min(MAX_SIZE + 1) as usize, column);
    }

    /// The column's row in a perfect matching.
    pub fn former_row(&self) -> u32 {
        let row = self.matching.iter().position(|&column| column == self.column);
        row.expect("every column has a row") as u32
    }
}

impl Case for EditCase {
    type Damage = EditDamage;

    fn damages() -> Vec<EditDamage> {
        damages()
    }

    fn damage(&mut self, damage: EditDamage, random: &mut Xorshift) {
        damage.apply(self, random);
    }

    fn matrix(&self) -> &Input {
        &self.old
    }

    // The Rust has no edit: it works out the edited matrix afresh.
    fn timed(&self) -> minilp::Columns {
        self.edited().widened()
    }

    fn smaller(&self) -> Box<dyn Iterator<Item = EditCase> + '_> {
        smaller(self)
    }
}

impl fmt::Display for EditCase {
    fn fmt(&self, f: &mut fmt::Formatter<'_>) -> fmt::Result {
        self.old.fmt(f)?;
        write!(f, " edited {} by {} rows", self.column.0, self.rows.len())?;
        list(f, self.rows.len(), self.rows.iter().map(|row| row.0))?;
        write!(f, " matched")?;
        list(f, self.matching.len(), self.matching.iter().map(|column| column.0))
    }
}
