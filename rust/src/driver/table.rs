//! A plain reading of the table of refusals in the project's scope document, written apart from the library.
//!
//! Each line of the table is a function that gives the place where it is refused. A line may take for granted
//! that the lines before it let the input through.
use super::edit::case::EditCase;
use super::input::Input;
use crate::{OriginalRow, Refusal};

pub const MAX_SIZE: u32 = 4_096;
pub const MAX_ENTRIES: usize = 1_048_576;

/// A line of the table that was given.
pub fn given(number: u32, place: Option<u32>) -> Option<Refusal> {
    place.map(|place| Refusal { number, place })
}

fn whole(refused: bool) -> Option<u32> {
    refused.then_some(0)
}

/// 1: the size or the number of entries over the maximum.
pub fn too_large(input: &Input) -> Option<u32> {
    whole(input.size > MAX_SIZE || input.rows.len() > MAX_ENTRIES)
}

/// 2: starts not n+1 long, first not 0, decreasing, last not the number of entries.
pub fn misshapen(input: &Input) -> Option<u32> {
    let starts = &input.starts;
    whole(
        starts.len() != input.size as usize + 1
            || starts[0] != 0
            || starts.windows(2).any(|pair| pair[1] < pair[0])
            || starts[input.size as usize] as usize != input.rows.len(),
    )
}

/// 5: a buffer shorter than its need. Each is given by its length and its need.
pub fn short(buffers: &[(usize, usize)]) -> Option<u32> {
    whole(buffers.iter().any(|&(length, need)| length < need))
}

/// 3: a row not below n, at its entry position.
pub fn row_outside(input: &Input) -> Option<u32> {
    let place = input.rows.iter().position(|row| row.0 >= input.size);
    place.map(|place| place as u32)
}

/// 4: a row twice in a column, at the second occurrence.
pub fn row_twice(input: &Input) -> Option<u32> {
    (0..input.size as usize).find_map(|c| {
        let column = input.column(c);
        let again = (0..column.len()).find(|&i| column[..i].contains(&column[i]))?;
        Some(input.starts[c] + again as u32)
    })
}

/// The lines that concern every entry, in the table's order. Each buffer is given by its length and its need.
pub fn common(input: &Input, buffers: &[(usize, usize)]) -> Option<Refusal> {
    given(1, too_large(input))
        .or_else(|| given(2, misshapen(input)))
        .or_else(|| given(5, short(buffers)))
        .or_else(|| given(3, row_outside(input)))
        .or_else(|| given(4, row_twice(input)))
}

/// 8: an empty column.
pub fn empty_column(input: &Input) -> Option<u32> {
    (0..input.size).find(|&c| input.column(c as usize).is_empty())
}

/// 13: the edited column not below n.
pub fn edited_outside(case: &EditCase) -> Option<u32> {
    whole(case.column.0 >= case.old.size)
}

/// 14: a row of the replacement not below n or repeated, at its position there.
pub fn replacement_unfit(case: &EditCase) -> Option<u32> {
    let rows = &case.rows;
    let place = (0..rows.len()).find(|&i| rows[i].0 >= case.old.size || rows[..i].contains(&rows[i]));
    place.map(|place| place as u32)
}

/// 15: no perfect matching of the old matrix, at the first row whose column is not below n, used before, or lacks that row.
pub fn row_unmatched(case: &EditCase) -> Option<u32> {
    (0..case.old.size).find(|&r| {
        let column = case.matching[r as usize];
        column.0 >= case.old.size
            || case.matching[..r as usize].contains(&column)
            || !case.old.column(column.0 as usize).contains(&OriginalRow(r))
    })
}

/// 1 once more: too many entries after the edit.
pub fn too_large_edited(case: &EditCase) -> Option<u32> {
    let others = case.old.rows.len() - case.old.column(case.column.0 as usize).len();
    whole(others + case.rows.len() > MAX_ENTRIES)
}

/// The lines that concern the edit alone, in the table's order, behind the common ones and before 9.
pub fn of_edit(case: &EditCase) -> Option<Refusal> {
    given(13, edited_outside(case))
        .or_else(|| given(14, replacement_unfit(case)))
        .or_else(|| given(15, row_unmatched(case)))
        .or_else(|| given(1, too_large_edited(case)))
}

/// Whether no buffer at all has changed after this refusal of the common ones. After any other answer the needed workspace is zero.
pub fn changes_nothing(number: u32) -> bool {
    matches!(number, 1 | 2 | 5 | 3)
}
