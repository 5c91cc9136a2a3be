//! The edit of one column of a pattern that has a perfect matching.
#[cfg(not(feature = "edit-stand-in"))]
use crate::{blocks::Said, kinds::call_archive};
use crate::{BlocksAnswer, BlocksLent, Column, OriginalRow, Pattern};

#[cfg(feature = "edit-stand-in")]
pub(crate) use crate::stand_in::said;

#[cfg(not(feature = "edit-stand-in"))]
extern "C" {
    // A slice passes as pointer and length; the answer is the refusal number, 0 for acceptance.
    fn dechvorim_edit_column(
        size: u32,
        starts: *const u32,
        starts_len: usize,
        rows: *const OriginalRow,
        rows_len: usize,
        edited: Column,
        replacement: *const OriginalRow,
        replacement_len: usize,
        visited: *mut u32,
        visited_len: usize,
        cheap: *mut u32,
        cheap_len: usize,
        finished: *mut u32,
        finished_len: usize,
        col2row: *mut u32,
        col2row_len: usize,
        backstarts: *mut u32,
        backstarts_len: usize,
        backrows: *mut u32,
        backrows_len: usize,
        scol: *mut u32,
        scol_len: usize,
        sat: *mut u32,
        sat_len: usize,
        row2col: *mut Column,
        row2col_len: usize,
        hall: *mut u32,
        hall_len: usize,
        blockcols: *mut Column,
        blockcols_len: usize,
        blockstarts: *mut u32,
        blockstarts_len: usize,
        place: *mut u32,
        count: *mut u32,
    ) -> u32;
}

/// An edit: a column, and the rows that take the place of its own. Like a pattern it is checked by the entry.
#[derive(Clone, Copy, Debug)]
pub struct Edit<'a> {
    pub column: Column,
    pub rows: &'a [OriginalRow],
}

/// The block form of a pattern after the edit of one column, from a perfect matching of the pattern as it was, lent in `row2col`:
/// the column's former row becomes free, one search starts from the column, and the columns on its path move. Or the first refusal
/// of the table. Where the edited pattern has no perfect matching, that is refusal 9 at the column; the old matching is kept then,
/// and the marked columns are a Hall set of the edited pattern.
///
/// ```
/// use dechvorim::{edit_column, BlocksAnswer, BlocksLent, Column, Edit, OriginalRow, Pattern};
///
/// // Columns {0, 1}, {0, 1}, each with its own row; column 1 becomes {0}, and column 0 moves on to row 1.
/// let rows = [0, 1, 0, 1].map(OriginalRow);
/// let pattern = Pattern { size: 2, starts: &[0, 2, 4], rows: &rows };
/// let edit = Edit { column: Column(1), rows: &[OriginalRow(0)] };
/// let (mut row2col, mut hall) = ([0, 1].map(Column), [0; 2]);
/// let (mut blockcols, mut blockstarts) = ([Column(0); 2], [0; 3]);
/// let lent = BlocksLent {
///     visited: &mut [0; 2],
///     cheap: &mut [0; 2],
///     finished: &mut [0; 2],
///     col2row: &mut [0; 2],
///     backstarts: &mut [0; 3],
///     // One for each entry of the pattern as it was, and one for each column.
///     backrows: &mut [0; 6],
///     scol: &mut [0; 2],
///     sat: &mut [0; 2],
///     row2col: &mut row2col,
///     hall: &mut hall,
///     blockcols: &mut blockcols,
///     blockstarts: &mut blockstarts,
/// };
/// assert_eq!(edit_column(pattern, edit, lent), BlocksAnswer::Accepted { count: 2 });
/// assert_eq!(row2col, [1, 0].map(Column));
/// assert_eq!(blockcols, [0, 1].map(Column));
/// assert_eq!(blockstarts, [0, 1, 2]);
/// ```
pub fn edit_column(pattern: Pattern<'_>, edit: Edit<'_>, lent: BlocksLent<'_>) -> BlocksAnswer {
    BlocksAnswer::of(said(pattern, edit, lent))
}

/// The call itself.
#[cfg(not(feature = "edit-stand-in"))]
pub(crate) fn said(pattern: Pattern<'_>, edit: Edit<'_>, lent: BlocksLent<'_>) -> Said {
    let Pattern { size, starts, rows } = pattern;
    let Edit { column, rows: replacement } = edit;
    let BlocksLent { visited, cheap, finished, col2row, backstarts, backrows, .. } = lent;
    let BlocksLent { scol, sat, row2col, hall, blockcols, blockstarts, .. } = lent;
    // No place and no count is as large: one that was never written would be seen.
    let (mut place, mut count) = (u32::MAX, u32::MAX);
    // Unsafe: a call into the archive, which is handed raw slices.
    // Sound: each is a live slice, those written to are borrowed for this call alone, and the entry is proved for any input.
    let number = unsafe {
        call_archive!(dechvorim_edit_column: size,
            read [starts, rows],
            edit [column, replacement],
            lent [visited, cheap, finished, col2row, backstarts, backrows, scol, sat, row2col, hall, blockcols, blockstarts],
            written [place, count])
    };
    Said { number, place, count }
}
