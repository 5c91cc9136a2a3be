//! What is known of an edit's answer without its rules. It is held against what the library left, whatever the judges expect.
use super::case::EditCase;
use crate::driver::components::hold_form;
use crate::driver::form::Form;
use crate::driver::input::Input;
use crate::driver::original;
use crate::driver::patterns::lists;
use crate::driver::searches::rows_together;
use crate::{Column, OriginalRow};
use std::collections::BTreeSet;

/// The largest size for which every perfect matching is written down.
const MOST_PERMUTED: u32 = 4;

/// Every perfect matching of a small matrix: every permutation is tried.
pub fn every_matching(input: &Input) -> Vec<Vec<Column>> {
    let permutations = lists(input.size).into_iter().filter(|list| list.len() == input.size as usize);
    let matchings = permutations.map(|list| list.into_iter().map(Column).collect());
    matchings.filter(|row2col: &Vec<Column>| is_perfect(input, row2col)).collect()
}

// Whether each row's column has it, and no column has two.
fn is_perfect(input: &Input, row2col: &[Column]) -> bool {
    let columns: BTreeSet<u32> = row2col.iter().map(|column| column.0).collect();
    let has = |r: usize, column: Column| column.0 < input.size && input.column(column.0 as usize).contains(&OriginalRow(r as u32));
    columns.len() == row2col.len() && row2col.iter().enumerate().all(|(r, &column)| has(r, column))
}

// Whether there is a perfect matching, by trying, unless there is too much to try.
fn tried(edited: &Input) -> Option<bool> {
    (edited.size <= MOST_PERMUTED).then(|| !every_matching(edited).is_empty())
}

fn ensure(holds: bool, what: &str) -> Result<(), String> {
    match holds {
        true => Ok(()),
        false => Err(format!("seen from outside: {what}")),
    }
}

/// After acceptance: the Rust accepts the edited matrix too, the matching is perfect for it and one path away from the old one, and the
/// blocks are its components, in lower order, with the same rows, under this matching and under the Rust's own.
pub fn hold_accepted(case: &EditCase, form: &Form) -> Result<(), String> {
    let edited = case.edited();
    ensure(tried(&edited) != Some(false), "accepted, but no permutation is a matching")?;
    let fresh = original::matching(&edited);
    ensure(fresh.is_some(), "accepted, but the Rust finds no matching")?;
    ensure(is_perfect(&edited, &form.row2col), "the new matching is not perfect for the edited matrix")?;
    ensure(is_one_path(case, &edited, &form.row2col), "the rows that changed are not one path from the column to its former row")?;
    for row2col in [&form.row2col].into_iter().chain(&fresh) {
        hold_form(&edited, row2col, &form.blocks).map_err(|what| format!("seen from outside: {what}"))?;
        ensure(block_of_rows(form, row2col) == block_of_rows(form, &form.row2col), "a block has other rows in the Rust's matching")?;
    }
    Ok(())
}

// The number of each row's block under a matching.
fn block_of_rows(form: &Form, row2col: &[Column]) -> Vec<usize> {
    let mut block_of = vec![0; row2col.len()];
    for (k, block) in form.blocks.iter().enumerate() {
        block.iter().for_each(|column| block_of[column.0 as usize] = k);
    }
    row2col.iter().map(|column| block_of[column.0 as usize]).collect()
}

// The column takes a row of its new list, the column that had this row takes another one, and so on, until one takes the row that
// became free. No other row has another column than before.
fn is_one_path(case: &EditCase, edited: &Input, row2col: &[Column]) -> bool {
    let former = case.former_row();
    let mut path = BTreeSet::new();
    let mut column = case.column;
    loop {
        let Some(row) = row2col.iter().position(|&other| other == column) else { return false };
        if !edited.column(column.0 as usize).contains(&OriginalRow(row as u32)) || !path.insert(row) {
            return false;
        }
        if row as u32 == former {
            break;
        }
        column = case.matching[row];
    }
    let changed: BTreeSet<usize> = (0..row2col.len()).filter(|&r| row2col[r] != case.matching[r]).collect();
    // A path of one column gives it its former row back.
    changed == path || (changed.is_empty() && path.len() == 1)
}

/// After refusal 9: the Rust finds no matching of the edited matrix either, and the marks are a Hall set with the column in it.
pub fn hold_refused(case: &EditCase, marks: &[u32]) -> Result<(), String> {
    let edited = case.edited();
    ensure(tried(&edited) != Some(true), "refused, but a permutation is a matching")?;
    ensure(original::matching(&edited).is_none(), "refused, but the Rust finds a matching")?;
    ensure(marks.iter().all(|&mark| mark <= 1), "a mark is neither 0 nor 1")?;
    ensure(marks[case.column.0 as usize] == 1, "the column is not marked")?;
    let marked: Vec<bool> = marks.iter().map(|&mark| mark == 1).collect();
    let columns = marked.iter().filter(|&&marked| marked).count();
    ensure(rows_together(&edited, &marked) + 1 == columns, "the marked columns are no Hall set")
}
