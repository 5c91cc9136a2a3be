//! The refusals before 9.
use super::matrix::Matrix;
use super::Slip;
use crate::{BlocksLent, Column, Edit, OriginalRow, Pattern, Refusal};

const MAX_SIZE: u32 = 4_096;
const MAX_ENTRIES: usize = 1_048_576;

fn refused(number: u32, place: Option<usize>) -> Option<Refusal> {
    place.map(|place| Refusal { number, place: place as u32 })
}

fn at_zero(number: u32, refused_so: bool) -> Option<Refusal> {
    refused(number, refused_so.then_some(0))
}

/// 1, 2, 5 and 3.
pub fn early(pattern: Pattern<'_>, lent: &BlocksLent<'_>) -> Option<Refusal> {
    let Pattern { size, starts, rows } = pattern;
    at_zero(1, size > MAX_SIZE || rows.len() > MAX_ENTRIES)
        .or_else(|| at_zero(2, !are_starts(pattern)))
        .or_else(|| at_zero(5, is_short(starts.len() - 1, rows.len(), lent)))
        .or_else(|| refused(3, rows.iter().position(|row| row.0 >= size)))
}

fn are_starts(pattern: Pattern<'_>) -> bool {
    let starts = pattern.starts;
    let ends = starts.first() == Some(&0) && starts.last().map(|&end| end as usize) == Some(pattern.rows.len());
    ends && starts.len() == pattern.size as usize + 1 && starts.is_sorted()
}

fn is_short(n: usize, entries: usize, lent: &BlocksLent<'_>) -> bool {
    let columns = [&lent.row2col, &lent.blockcols].iter().any(|slice| slice.len() < n);
    let sized = [&lent.visited, &lent.cheap, &lent.finished, &lent.col2row, &lent.scol, &lent.sat, &lent.hall];
    let starts = [&lent.backstarts, &lent.blockstarts].iter().any(|slice| slice.len() < n + 1);
    let reversed = entries + n - usize::from(Slip::OneShortAccepted.is_made() && n > 0);
    columns || sized.iter().any(|slice| slice.len() < n) || starts || lent.backrows.len() < reversed
}

/// 4, 13, 14, 15 and 1 once more.
pub fn late(pattern: Pattern<'_>, edit: Edit<'_>, row2col: &[Column]) -> Option<Refusal> {
    let old = Matrix { pattern, edit: None };
    let thirteen = || at_zero(13, edit.column.0 >= pattern.size);
    let fourteen = || refused(14, unfit(edit.rows, pattern.size));
    let fifteen = || refused(15, unmatched(pattern, edit, row2col));
    let late_one = || at_zero(1, !Slip::LateOneMissing.is_made() && is_grown(&old, edit));
    let four = refused(4, repeated(pattern));
    if Slip::FourteenBeforeThirteen.is_made() {
        return four.or_else(fourteen).or_else(thirteen).or_else(fifteen).or_else(late_one);
    }
    if Slip::FifteenBeforeFourteen.is_made() {
        return four.or_else(thirteen).or_else(fifteen).or_else(fourteen).or_else(late_one);
    }
    if Slip::LateOneBeforeFifteen.is_made() {
        return four.or_else(thirteen).or_else(fourteen).or_else(late_one).or_else(fifteen);
    }
    four.or_else(thirteen).or_else(fourteen).or_else(fifteen).or_else(late_one)
}

fn is_grown(old: &Matrix<'_>, edit: Edit<'_>) -> bool {
    old.pattern.rows.len() - old.rows(edit.column.0 as usize).len() + edit.rows.len() > MAX_ENTRIES
}

// The second occurrence of a row in a column. A row is stamped with the last column that had it, plus one.
fn repeated(pattern: Pattern<'_>) -> Option<usize> {
    let mut stamps = vec![0; pattern.size as usize];
    let mut c = 0;
    (0..pattern.rows.len()).find(|&k| {
        while pattern.starts[c + 1] as usize <= k {
            c += 1;
        }
        std::mem::replace(&mut stamps[pattern.rows[k].0 as usize], c + 1) == c + 1
    })
}

fn unfit(rows: &[OriginalRow], size: u32) -> Option<usize> {
    let outside = rows.iter().position(|row| row.0 >= size);
    if Slip::FourteenInTwoPasses.is_made() && outside.is_some() {
        return outside;
    }
    let mut is_seen = vec![false; size as usize];
    rows.iter().position(|row| row.0 >= size || std::mem::replace(&mut is_seen[row.0 as usize], true))
}

fn unmatched(pattern: Pattern<'_>, edit: Edit<'_>, row2col: &[Column]) -> Option<usize> {
    let edit = Slip::FifteenOnEdited.is_made().then_some(edit);
    let matrix = Matrix { pattern, edit };
    let matching = || row2col[..matrix.size()].iter().enumerate();
    let mut is_used = vec![false; matrix.size()];
    let mut misused = |column: &Column| column.0 >= pattern.size || std::mem::replace(&mut is_used[column.0 as usize], true);
    let lacks = |r: usize, column: &Column| !matrix.rows(column.0 as usize).contains(&OriginalRow(r as u32));
    if Slip::FifteenInTwoPasses.is_made() {
        let first = matching().position(|(_, column)| misused(column));
        return first.or_else(|| matching().position(|(r, column)| lacks(r, column)));
    }
    matching().position(|(r, column)| misused(column) || lacks(r, column))
}
