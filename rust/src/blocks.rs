//! The block triangular form.
use crate::kinds::call_archive;
use crate::{Column, OriginalRow, Pattern, Refusal};

extern "C" {
    // A slice passes as pointer and length; the answer is the refusal number, 0 for acceptance.
    fn dechvorim_find_block_diag_form(
        size: u32,
        starts: *const u32,
        starts_len: usize,
        rows: *const OriginalRow,
        rows_len: usize,
        visited: *mut u32,
        visited_len: usize,
        cheap: *mut u32,
        cheap_len: usize,
        finished: *mut u32,
        finished_len: usize,
        col2row: *mut u32,
        col2row_len: usize,
        backstarts: *mut u32,
        backstarts_len: usize,
        backrows: *mut u32,
        backrows_len: usize,
        scol: *mut u32,
        scol_len: usize,
        sat: *mut u32,
        sat_len: usize,
        row2col: *mut Column,
        row2col_len: usize,
        hall: *mut u32,
        hall_len: usize,
        blockcols: *mut Column,
        blockcols_len: usize,
        blockstarts: *mut u32,
        blockstarts_len: usize,
        place: *mut u32,
        count: *mut u32,
    ) -> u32;
}

/// What the block form is lent: six workspace slices, a stack in two slices, and the four outputs. Each is of the pattern's size
/// or longer, but for `backstarts` and `blockstarts`, which take one more, and `backrows`, which takes one for each entry.
/// The edit is lent the same, but for `backrows`, which takes one for each column too, and `row2col`, which holds the old matching.
#[derive(Debug)]
pub struct BlocksLent<'a> {
    pub visited: &'a mut [u32],
    pub cheap: &'a mut [u32],
    pub finished: &'a mut [u32],
    pub col2row: &'a mut [u32],
    /// Where the columns that point to each column start in `backrows`.
    pub backstarts: &'a mut [u32],
    pub backrows: &'a mut [u32],
    /// The columns of the stack's steps.
    pub scol: &'a mut [u32],
    /// The places of the stack's steps.
    pub sat: &'a mut [u32],
    /// The column of each original row.
    pub row2col: &'a mut [Column],
    /// After refusal 9, for each column: 1 if the failed search visited it, else 0.
    pub hall: &'a mut [u32],
    /// The columns, one block after the other.
    pub blockcols: &'a mut [Column],
    /// Where each block starts in `blockcols` and where the last one ends; zeros behind that.
    pub blockstarts: &'a mut [u32],
}

/// What the block form and the edit answer.
#[derive(Clone, Copy, Debug, PartialEq, Eq)]
pub enum BlocksAnswer {
    /// There are so many blocks.
    Accepted {
        count: u32,
    },
    Refused(Refusal),
}

/// What the archive says. The count is 0 after a refusal, which only the comparison looks at.
#[derive(Clone, Copy, Debug, PartialEq, Eq)]
pub(crate) struct Said {
    pub number: u32,
    pub place: u32,
    pub count: u32,
}

impl BlocksAnswer {
    // Acceptance is 0 at 0; any other pair is passed on as it is, so that a caller would see it.
    pub(crate) fn of(said: Said) -> BlocksAnswer {
        match said {
            Said { number: 0, place: 0, count } => BlocksAnswer::Accepted { count },
            Said { number, place, .. } => BlocksAnswer::Refused(Refusal { number, place }),
        }
    }
}

/// A perfect matching, as the column of each row, and the columns in blocks: two are in the same block if each can be reached
/// from the other, where a column leads to the columns that its rows are matched to. Or the first refusal of the table. Where
/// there is no perfect matching, that is refusal 9, and the marked columns are a Hall set.
///
/// For every entry, the block of its column comes no later than the block of its row's match: the form is lower triangular.
///
/// ```
/// use dechvorim::{find_block_diag_form, BlocksAnswer, BlocksLent, Column, OriginalRow, Pattern};
///
/// // Columns {0, 1}, {0}, {1, 2}.
/// let rows = [0, 1, 0, 1, 2].map(OriginalRow);
/// let pattern = Pattern { size: 3, starts: &[0, 2, 3, 5], rows: &rows };
/// let (mut row2col, mut hall) = ([Column(0); 3], [0; 3]);
/// let (mut blockcols, mut blockstarts) = ([Column(0); 3], [0; 4]);
/// let lent = BlocksLent {
///     visited: &mut [0; 3],
///     cheap: &mut [0; 3],
///     finished: &mut [0; 3],
///     col2row: &mut [0; 3],
///     backstarts: &mut [0; 4],
///     backrows: &mut [0; 5],
///     scol: &mut [0; 3],
///     sat: &mut [0; 3],
///     row2col: &mut row2col,
///     hall: &mut hall,
///     blockcols: &mut blockcols,
///     blockstarts: &mut blockstarts,
/// };
/// assert_eq!(find_block_diag_form(pattern, lent), BlocksAnswer::Accepted { count: 3 });
/// assert_eq!(row2col, [1, 0, 2].map(Column));
/// // Column 2 leads to column 0, and column 0 to column 1. The upper order would be 1 / 0 / 2.
/// assert_eq!(blockcols, [2, 0, 1].map(Column));
/// assert_eq!(blockstarts, [0, 1, 2, 3]);
/// assert_eq!(hall, [0; 3]);
/// ```
pub fn find_block_diag_form(pattern: Pattern<'_>, lent: BlocksLent<'_>) -> BlocksAnswer {
    BlocksAnswer::of(said(pattern, lent))
}

/// The call itself.
pub(crate) fn said(pattern: Pattern<'_>, lent: BlocksLent<'_>) -> Said {
    let Pattern { size, starts, rows } = pattern;
    let BlocksLent { visited, cheap, finished, col2row, backstarts, backrows, .. } = lent;
    let BlocksLent { scol, sat, row2col, hall, blockcols, blockstarts, .. } = lent;
    // No place and no count is as large: one that was never written would be seen.
    let (mut place, mut count) = (u32::MAX, u32::MAX);
    // Unsafe: a call into the archive, which is handed raw slices.
    // Sound: each is a live slice, those written to are borrowed for this call alone, and the entry is proved for any input.
    let number = unsafe {
        call_archive!(dechvorim_find_block_diag_form: size,
            read [starts, rows],
            lent [visited, cheap, finished, col2row, backstarts, backrows, scol, sat, row2col, hall, blockcols, blockstarts],
            written [place, count])
    };
    Said { number, place, count }
}
