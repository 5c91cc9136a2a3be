//! A matrix, edited or not.
use crate::{Edit, OriginalRow, Pattern};

#[derive(Clone, Copy)]
pub struct Matrix<'a> {
    pub pattern: Pattern<'a>,
    pub edit: Option<Edit<'a>>,
}

impl<'a> Matrix<'a> {
    pub fn size(&self) -> usize {
        self.pattern.size as usize
    }

    /// The rows of a column: a part of the pattern's, or the replacement.
    pub fn rows(&self, c: usize) -> &'a [OriginalRow] {
        match self.edit {
            Some(edit) if edit.column.0 as usize == c => edit.rows,
            _ => &self.pattern.rows[self.pattern.starts[c] as usize..self.pattern.starts[c + 1] as usize],
        }
    }
}
