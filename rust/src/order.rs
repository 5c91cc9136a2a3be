//! The order of columns by length.
use crate::kinds::call_archive;
use crate::{Column, OriginalRow, Pattern, Refusal};

extern "C" {
    // A slice passes as pointer and length; the answer is the refusal number, 0 for acceptance.
    fn dechvorim_order_simple(
        size: u32,
        starts: *const u32,
        starts_len: usize,
        rows: *const OriginalRow,
        rows_len: usize,
        score2head: *mut u32,
        score2head_len: usize,
        prev: *mut u32,
        prev_len: usize,
        next: *mut u32,
        next_len: usize,
        marks: *mut u32,
        marks_len: usize,
        new2orig: *mut Column,
        new2orig_len: usize,
        orig2new: *mut u32,
        orig2new_len: usize,
        place: *mut u32,
    ) -> u32;
}

/// What the order is lent: four workspace slices and the two directions of the permutation, each of the pattern's size or longer.
#[derive(Debug)]
pub struct OrderLent<'a> {
    pub score2head: &'a mut [u32],
    pub prev: &'a mut [u32],
    pub next: &'a mut [u32],
    pub marks: &'a mut [u32],
    /// The column at each place.
    pub new2orig: &'a mut [Column],
    /// The place of each column.
    pub orig2new: &'a mut [u32],
}

/// What the order answers.
#[derive(Clone, Copy, Debug, PartialEq, Eq)]
pub enum OrderAnswer {
    Accepted,
    Refused(Refusal),
}

impl OrderAnswer {
    // Acceptance is 0 at 0; any other pair is passed on as it is, so that a caller would see it.
    fn of(number: u32, place: u32) -> OrderAnswer {
        match (number, place) {
            (0, 0) => OrderAnswer::Accepted,
            _ => OrderAnswer::Refused(Refusal { number, place }),
        }
    }
}

/// The columns by length, equal lengths by index, and the place of each; or the first refusal of the table.
///
/// ```
/// use dechvorim::{order_simple, Column, OrderAnswer, OrderLent, OriginalRow, Pattern};
///
/// // Columns {0, 1}, {0}, {1, 2}.
/// let rows = [0, 1, 0, 1, 2].map(OriginalRow);
/// let pattern = Pattern { size: 3, starts: &[0, 2, 3, 5], rows: &rows };
/// let (mut new2orig, mut orig2new) = ([Column(0); 3], [0; 3]);
/// let lent = OrderLent {
///     score2head: &mut [0; 3],
///     prev: &mut [0; 3],
///     next: &mut [0; 3],
///     marks: &mut [0; 3],
///     new2orig: &mut new2orig,
///     orig2new: &mut orig2new,
/// };
/// assert_eq!(order_simple(pattern, lent), OrderAnswer::Accepted);
/// assert_eq!(new2orig, [1, 0, 2].map(Column));
/// assert_eq!(orig2new, [1, 0, 2]);
/// ```
pub fn order_simple(pattern: Pattern<'_>, lent: OrderLent<'_>) -> OrderAnswer {
    let Pattern { size, starts, rows } = pattern;
    let OrderLent { score2head, prev, next, marks, new2orig, orig2new } = lent;
    // No place is as large: a place that was never written would be seen.
    let mut place = u32::MAX;
    // Unsafe: a call into the archive, which is handed raw slices.
    // Sound: each is a live slice, those written to are borrowed for this call alone, and the entry is proved for any input.
    let number = unsafe {
        call_archive!(dechvorim_order_simple: size,
            read [starts, rows],
            lent [score2head, prev, next, marks, new2orig, orig2new],
            written [place])
    };
    OrderAnswer::of(number, place)
}
