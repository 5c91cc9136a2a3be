//! Valid edits: of a matrix with a perfect matching, any matching of it, any column, and rows of several sorts.
use super::case::EditCase;
use super::judge::judge_valid;
use crate::driver::compare::Kind;
use crate::driver::input::Input;
use crate::driver::matchable::{distinct_with, hidden, shuffled, KINDS, RINGS};
use crate::driver::original;
use crate::driver::patterns::distinct;
use crate::driver::random::Xorshift;
use crate::{Column, OriginalRow};

/// The kinds of pattern that have a perfect matching, or mostly.
pub fn kinds() -> [Kind; 6] {
    let [_sparse, dense, hidden, triangular, chains, bands, _crowded] = KINDS;
    [dense, hidden, triangular, chains, bands, RINGS]
}

/// A perfect matching, if there is one: the Rust's, where the columns and their lists stand in any order.
pub fn any_matching(input: &Input, random: &mut Xorshift) -> Option<Vec<Column>> {
    let named = distinct(input.size, input.size, random);
    let numbers = |c: u32| input.column(c as usize).iter().map(|row| row.0).collect::<Vec<u32>>();
    let columns: Vec<Vec<u32>> = named.iter().map(|&c| shuffled(&numbers(c), random)).collect();
    let found = original::matching(&Input::from_columns(&columns))?;
    Some(found.iter().map(|name| Column(named[name.0 as usize])).collect())
}

/// An edit of a pattern of this kind and size.
pub fn edit_of(kind: &Kind, size: u32, random: &mut Xorshift) -> EditCase {
    let (old, matching) = matched(kind, size, random);
    any_edit(old, matching, random)
}

// A few tries; then a pattern in which a matching is hidden.
fn matched(kind: &Kind, size: u32, random: &mut Xorshift) -> (Input, Vec<Column>) {
    for _ in 0..4 {
        let input = (kind.make)(size, random);
        if let Some(matching) = any_matching(&input, random) {
            return (input, matching);
        }
    }
    let input = hidden(size, random, |random| random.between(1, size.min(5)));
    let matching = any_matching(&input, random).expect("one is hidden in it");
    (input, matching)
}

/// Any edit of this matrix, which has this perfect matching. At size 0 there is no column to edit.
pub fn any_edit(old: Input, matching: Vec<Column>, random: &mut Xorshift) -> EditCase {
    let column = Column(random.below(old.size.max(1)));
    let mut case = EditCase { old, column, rows: vec![], matching };
    if case.old.size > 0 {
        case.rows = any_rows(&case, random).into_iter().map(OriginalRow).collect();
    }
    case
}

fn any_rows(case: &EditCase, random: &mut Xorshift) -> Vec<u32> {
    let size = case.old.size;
    let few = random.between(1, size.min(5));
    let numbers = |column: &[OriginalRow]| column.iter().map(|row| row.0).collect::<Vec<u32>>();
    match random.below(16) {
        0 => vec![],
        // Its own rows, or another column's, in any order.
        1 => shuffled(&numbers(case.old.column(case.column.0 as usize)), random),
        2 | 3 => shuffled(&numbers(case.old.column(random.below(size) as usize)), random),
        // Without its former row the search must go on; with it, it may not.
        4..=6 => distinct_with(case.former_row(), size, few, random),
        7 | 8 => vec![random.below(size)],
        9 => some_rows(size, random),
        _ => distinct(size, few, random),
    }
}

fn some_rows(size: u32, random: &mut Xorshift) -> Vec<u32> {
    let count = random.between(1, size);
    distinct(size, count, random)
}

/// Another edit, after this one: of the edited matrix if it was accepted, else of the same.
pub fn next_edit(case: EditCase, random: &mut Xorshift) -> EditCase {
    match judge_valid(&case) {
        Ok(Ok(form)) => any_edit(case.edited(), form.row2col, random),
        _ => any_edit(case.old, case.matching, random),
    }
}
