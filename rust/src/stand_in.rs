//! A plain Rust edit in place of the archive's, from the rules of the project's scope document: with it the driver of the edit can be
//! tried before there is an entry. It can make mistakes on purpose, so that one sees whether the driver notices.
mod checks;
mod matrix;
mod search;
mod slips;
mod walks;

pub use slips::{slipping, Slip, SLIPS};

use crate::blocks::Said;
use crate::{BlocksLent, Column, Edit, Pattern, Refusal};
use matrix::Matrix;
use search::NO_COLUMN;

/// The same call as the archive's.
pub(crate) fn said(pattern: Pattern<'_>, edit: Edit<'_>, mut lent: BlocksLent<'_>) -> Said {
    if let Some(refused) = checks::early(pattern, &lent) {
        return refusal(refused);
    }
    let late = checks::late(pattern, edit, lent.row2col);
    let said = match late {
        Some(refused) => refusal(refused),
        None => edited(pattern, edit, &mut lent),
    };
    if !(Slip::WorkLeft.is_made() && said.number == 13) {
        clear(pattern, &mut lent);
    }
    said
}

fn refusal(refused: Refusal) -> Said {
    Said { number: refused.number, place: refused.place, count: 0 }
}

// On valid input.
fn edited(pattern: Pattern<'_>, edit: Edit<'_>, lent: &mut BlocksLent<'_>) -> Said {
    let n = pattern.size as usize;
    let old = Matrix { pattern, edit: None };
    let new = Matrix { pattern, edit: Some(edit) };
    let matching = lent.row2col[..n].to_vec();
    clear(pattern, lent);
    if !Slip::Nothing.is_made() && !search_from(&new, edit.column, lent) {
        return unmatched(edit.column, n, &matching, lent);
    }
    if Slip::FreshMatching.is_made() {
        lent.row2col[..n].fill(NO_COLUMN);
        (0..n).for_each(|c| assert!(search_from(&new, Column(c as u32), lent), "there is a matching"));
    }
    clear(pattern, lent);
    if !Slip::MarksLeft.is_made() {
        lent.hall[..n].fill(0);
    }
    let matched = lent.row2col[..n].to_vec();
    let count = match Slip::OldBlocks.is_made() || Slip::Nothing.is_made() {
        true => walks::blocks(&old, &matching, lent),
        false => walks::blocks(&new, &matched, lent),
    };
    if Slip::ColumnToRow.is_made() {
        matched.iter().enumerate().for_each(|(r, column)| lent.row2col[column.0 as usize] = Column(r as u32));
    }
    Said { number: 0, place: 0, count }
}

// Its former row, if it has one, becomes free first.
fn search_from(matrix: &Matrix<'_>, column: Column, lent: &mut BlocksLent<'_>) -> bool {
    let n = matrix.size();
    lent.row2col[..n].iter_mut().filter(|other| **other == column).for_each(|other| *other = NO_COLUMN);
    lent.visited[..n].fill(0);
    search::found(matrix, column, lent)
}

fn unmatched(column: Column, n: usize, matching: &[Column], lent: &mut BlocksLent<'_>) -> Said {
    for c in 0..n {
        lent.hall[c] = match Slip::HallOfOne.is_made() {
            true => u32::from(c == column.0 as usize),
            false => lent.visited[c],
        };
    }
    match Slip::MatchingLost.is_made() {
        true => lent.row2col[..n].fill(Column(0)),
        false => lent.row2col[..n].copy_from_slice(matching),
    }
    lent.blockcols[..n].fill(Column(0));
    lent.blockstarts[..n + 1].fill(0);
    Said { number: 9, place: column.0, count: 0 }
}

// Workspace and stack, over their needs.
fn clear(pattern: Pattern<'_>, lent: &mut BlocksLent<'_>) {
    let n = pattern.size as usize;
    let entries = match Slip::TooMuchCleared.is_made() {
        true => lent.backrows.len(),
        false => lent.backrows.len().min(pattern.rows.len() + n),
    };
    for slice in [&mut lent.visited, &mut lent.cheap, &mut lent.finished, &mut lent.col2row, &mut lent.scol, &mut lent.sat] {
        slice[..n].fill(0);
    }
    lent.backstarts[..n + 1].fill(0);
    lent.backrows[..entries].fill(0);
}
