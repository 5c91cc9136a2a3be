//! The matching of rows to columns.
use crate::kinds::call_archive;
use crate::{Column, OriginalRow, Pattern, Refusal};

extern "C" {
    // A slice passes as pointer and length; the answer is the refusal number, 0 for acceptance.
    fn dechvorim_find_diag_matching(
        size: u32,
        starts: *const u32,
        starts_len: usize,
        rows: *const OriginalRow,
        rows_len: usize,
        visited: *mut u32,
        visited_len: usize,
        cheap: *mut u32,
        cheap_len: usize,
        scol: *mut u32,
        scol_len: usize,
        sat: *mut u32,
        sat_len: usize,
        row2col: *mut Column,
        row2col_len: usize,
        hall: *mut u32,
        hall_len: usize,
        place: *mut u32,
    ) -> u32;
}

/// What the matching is lent: two workspace slices, a stack in two slices, and the two outputs, each of the pattern's size or longer.
#[derive(Debug)]
pub struct MatchingLent<'a> {
    pub visited: &'a mut [u32],
    pub cheap: &'a mut [u32],
    /// The columns of the stack's steps.
    pub scol: &'a mut [u32],
    /// The places of the stack's steps.
    pub sat: &'a mut [u32],
    /// The column of each original row.
    pub row2col: &'a mut [Column],
    /// After refusal 9, for each column: 1 if the failed search visited it, else 0.
    pub hall: &'a mut [u32],
}

/// What the matching answers.
#[derive(Clone, Copy, Debug, PartialEq, Eq)]
pub enum MatchingAnswer {
    Accepted,
    Refused(Refusal),
}

impl MatchingAnswer {
    // Acceptance is 0 at 0; any other pair is passed on as it is, so that a caller would see it.
    fn of(number: u32, place: u32) -> MatchingAnswer {
        match (number, place) {
            (0, 0) => MatchingAnswer::Accepted,
            _ => MatchingAnswer::Refused(Refusal { number, place }),
        }
    }
}

/// A perfect matching, as the column of each row; or the first refusal of the table. Where there is none, that is refusal 9,
/// and the marked columns are a Hall set: their rows together number one less than they do.
///
/// ```
/// use dechvorim::{find_diag_matching, Column, MatchingAnswer, MatchingLent, OriginalRow, Pattern};
///
/// // Columns {0, 1}, {1, 2}, {0}. The last one takes row 0, and the others move on to rows 1 and 2.
/// let rows = [0, 1, 1, 2, 0].map(OriginalRow);
/// let pattern = Pattern { size: 3, starts: &[0, 2, 4, 5], rows: &rows };
/// let (mut row2col, mut hall) = ([Column(0); 3], [0; 3]);
/// let lent = MatchingLent {
///     visited: &mut [0; 3],
///     cheap: &mut [0; 3],
///     scol: &mut [0; 3],
///     sat: &mut [0; 3],
///     row2col: &mut row2col,
///     hall: &mut hall,
/// };
/// assert_eq!(find_diag_matching(pattern, lent), MatchingAnswer::Accepted);
/// // By row: row 0 has column 2. By column it would be 1 2 0.
/// assert_eq!(row2col, [2, 0, 1].map(Column));
/// assert_eq!(hall, [0; 3]);
/// ```
pub fn find_diag_matching(pattern: Pattern<'_>, lent: MatchingLent<'_>) -> MatchingAnswer {
    let Pattern { size, starts, rows } = pattern;
    let MatchingLent { visited, cheap, scol, sat, row2col, hall } = lent;
    // No place is as large: a place that was never written would be seen.
    let mut place = u32::MAX;
    // Unsafe: a call into the archive, which is handed raw slices.
    // Sound: each is a live slice, those written to are borrowed for this call alone, and the entry is proved for any input.
    let number = unsafe {
        call_archive!(dechvorim_find_diag_matching: size,
            read [starts, rows],
            lent [visited, cheap, scol, sat, row2col, hall],
            written [place])
    };
    MatchingAnswer::of(number, place)
}
