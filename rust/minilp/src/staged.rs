//! The Rust under a matching of ours: a part of its work at a time, by what it is shown of the matrix meanwhile.
use crate::{ordering, Columns};
use std::cell::Cell;

/// Lists that change once: one row for each column at first, and the real ones after so many calls.
struct Staged<'a> {
    single: &'a [usize],
    calls: Cell<usize>,
    columns: &'a Columns,
}

impl<'a> Staged<'a> {
    fn new(single: &'a [usize], calls: usize, columns: &'a Columns) -> Staged<'a> {
        Staged { single, calls: Cell::new(calls), columns }
    }

    // The column has the first name among the single rows, and the second in the matrix.
    fn col(&self, name: usize, c: usize) -> &'a [usize] {
        match self.calls.get() {
            0 => self.columns.col(c),
            left => {
                self.calls.set(left - 1);
                &self.single[name..name + 1]
            }
        }
    }
}

// The row of each column.
fn inverse(row2col: &[usize]) -> Vec<usize> {
    let mut col2row = vec![0; row2col.len()];
    row2col.iter().enumerate().for_each(|(r, &c)| col2row[c] = r);
    col2row
}

/// One search of the Rust's `find_diag_matching`, from a column whose row has become free, where all others keep theirs: the column
/// of each row afterwards, or none. The Rust searches from each column in turn, and looks at its list once if its first row is
/// free. So the others come first, each shown with its own row alone, which it takes; then the lists are the real ones, and the last
/// search is the one that is asked for.
pub fn search_once(columns: &Columns, row2col: &[usize], from: usize) -> Option<Vec<usize>> {
    let size = row2col.len();
    let named: Vec<usize> = (0..size).filter(|&c| c != from).chain([from]).collect();
    let col2row = inverse(row2col);
    let single: Vec<usize> = named.iter().map(|&c| col2row[c]).collect();
    let lists = Staged::new(&single, size - 1, columns);
    let found = ordering::find_diag_matching(size, |name| lists.col(name, named[name]))?;
    Some(found.into_iter().map(|name| named[name]).collect())
}

/// The blocks of the Rust's `find_block_diag_form` under a perfect matching of ours. While it looks for one, it is shown each column
/// with its own row alone, which leaves it no choice; its two walks see the real lists.
pub fn walk_twice(columns: &Columns, row2col: &[usize]) -> Vec<Vec<usize>> {
    let size = row2col.len();
    let single = inverse(row2col);
    let lists = Staged::new(&single, size, columns);
    let form = ordering::find_block_diag_form(size, |c| lists.col(c, c));
    assert_eq!(form.row2col, row2col, "the matching that it was shown");
    form.block_cols
}
