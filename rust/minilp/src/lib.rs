//! minilp 0.2.2: its own files, unchanged and included from MINILP_SRC, behind functions on plain slices.
//!
//! They stand in a crate of their own since they name each other by `crate::`.
#![allow(dead_code, unused_mut, mismatched_lifetime_syntaxes)]

#[macro_use]
extern crate log;

mod helpers {
    include!(concat!(env!("MINILP_SRC"), "/helpers.rs"));
}

mod sparse {
    include!(concat!(env!("MINILP_SRC"), "/sparse.rs"));
}

mod ordering {
    include!(concat!(env!("MINILP_SRC"), "/ordering.rs"));
}

mod staged;

pub use staged::{search_once, walk_twice};

/// A pattern as the Rust takes it: starts and rows, in its own width.
pub struct Columns {
    pub starts: Vec<usize>,
    pub rows: Vec<usize>,
}

impl Columns {
    fn col(&self, c: usize) -> &[usize] {
        &self.rows[self.starts[c]..self.starts[c + 1]]
    }
}

/// The Rust's `Perm`, whose fields are its crate's own.
pub struct Permutation {
    pub new2orig: Vec<usize>,
    pub orig2new: Vec<usize>,
}

/// The Rust's `BlockDiagForm`.
pub struct BlockForm {
    pub row2col: Vec<usize>,
    pub block_cols: Vec<Vec<usize>>,
}

/// The Rust's `order_simple`. It panics on an empty column.
pub fn order_simple(size: usize, columns: &Columns) -> Permutation {
    let perm = ordering::order_simple(size, |c| columns.col(c));
    Permutation { new2orig: perm.new2orig, orig2new: perm.orig2new }
}

/// The Rust's `find_diag_matching`: the column of each row, or none.
pub fn find_diag_matching(size: usize, columns: &Columns) -> Option<Vec<usize>> {
    ordering::find_diag_matching(size, |c| columns.col(c))
}

/// The Rust's `find_block_diag_form`. It panics where there is no perfect matching.
pub fn find_block_diag_form(size: usize, columns: &Columns) -> BlockForm {
    let form = ordering::find_block_diag_form(size, |c| columns.col(c));
    BlockForm { row2col: form.row2col, block_cols: form.block_cols }
}
