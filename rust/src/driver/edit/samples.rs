//! The edits whose answers are stored. None has too many entries after the edit: a line would have a million rows.
use super::case::EditCase;
use super::damage::EditDamage::{self, *};
use super::make::{any_edit, edit_of, kinds};
use super::outside::every_matching;
use crate::driver::case::Case;
use crate::driver::damage::Damage;
use crate::driver::input::Input;
use crate::driver::patterns::{every, lists};
use crate::driver::random::Xorshift;
use crate::{Column, OriginalRow};

/// Some two hundred: those of the scope document, small ones, random ones, damaged ones.
pub fn edits(seed: u64) -> Vec<EditCase> {
    let mut rng = Xorshift::new(seed);
    let mut cases = documented();
    cases.push(any_edit(Input::from_columns(&[]), vec![], &mut rng));
    cases.extend(every_edit(1));
    // Steps that have no factor in common with the number of edits of a matrix, so that column and rows vary.
    cases.extend(every_edit(2).into_iter().step_by(7));
    cases.extend(every_edit(3).into_iter().skip(5).step_by(7_507));
    cases.extend((0..50).map(|i| edit_of(&kinds()[i % 6], rng.between(3, 8), &mut rng)));
    cases.extend((0..66).map(|i| damaged(FAULTS[i % FAULTS.len()], &mut rng)));
    cases
}

/// P7 to P9: P6 edited at column 1.
fn documented() -> Vec<EditCase> {
    let old = Input::from_columns(&[vec![0, 1], vec![0, 1]]);
    let by = |rows: &[u32]| EditCase {
        old: old.clone(),
        column: Column(1),
        rows: rows.iter().copied().map(OriginalRow).collect(),
        matching: vec![Column(0), Column(1)],
    };
    vec![by(&[0]), by(&[1]), by(&[])]
}

// Every edit of a matrix of this size.
fn every_edit(size: u32) -> Vec<EditCase> {
    let mut cases = vec![];
    for old in every(size) {
        for matching in every_matching(&old) {
            for (column, rows) in (0..size).flat_map(|c| lists(size).into_iter().map(move |rows| (Column(c), rows))) {
                let rows = rows.into_iter().map(OriginalRow).collect();
                cases.push(EditCase { old: old.clone(), column, rows, matching: matching.clone() });
            }
        }
    }
    cases
}

/// Faults that leave the starts well formed, alone and together.
const FAULTS: [&[EditDamage]; 22] = [
    &[ByTaken],
    &[ByNothing],
    &[EntryGone],
    &[MatchSwapped],
    &[MatchTwice],
    &[MatchIsSize],
    &[MatchLargest],
    &[RowTwice],
    &[RowIsSize],
    &[RowLargest],
    &[ColumnIsSize],
    &[ColumnLargest],
    &[RowTwice, RowIsSize],
    &[MatchTwice, MatchIsSize],
    &[EntryGone, MatchTwice],
    &[ByNothing, MatchTwice],
    &[MatchTwice, RowTwice],
    &[RowTwice, ColumnIsSize],
    &[MatchTwice, ColumnIsSize],
    &[ColumnIsSize, OfMatrix(Damage::RowTwice)],
    &[RowTwice, OfMatrix(Damage::RowTwice)],
    &[MatchTwice, OfMatrix(Damage::RowIsSize)],
];

fn damaged(faults: &[EditDamage], rng: &mut Xorshift) -> EditCase {
    let size = rng.between(2, 6);
    let mut case = edit_of(&rng.pick(&kinds()), size, rng);
    faults.iter().for_each(|&fault| case.damage(fault, rng));
    case
}
