//! Damage to an edit: the forms that a refusal of the edit is about, and those of its matrix.
use super::case::EditCase;
use crate::driver::damage::{move_starts, Damage, DAMAGES};
use crate::driver::random::Xorshift;
use crate::{Column, OriginalRow};

/// The forms, in an order in which they can follow one another: those that need a matrix, a column and a matching in order come first.
#[derive(Clone, Copy, Debug, PartialEq, Eq, PartialOrd, Ord)]
pub enum EditDamage {
    /// The only row of another column, and of the replacement: no perfect matching is left.
    ByTaken,
    ByNothing,
    /// A column has no entry any more in the row that is matched to it.
    EntryGone,
    /// Two rows have each other's column.
    MatchSwapped,
    MatchTwice,
    MatchIsSize,
    MatchLargest,
    RowTwice,
    RowIsSize,
    RowLargest,
    ColumnIsSize,
    ColumnLargest,
    OfMatrix(Damage),
}

use EditDamage::*;

/// The edit's own.
pub const OWN: [EditDamage; 12] = [
    ByTaken,
    ByNothing,
    EntryGone,
    MatchSwapped,
    MatchTwice,
    MatchIsSize,
    MatchLargest,
    RowTwice,
    RowIsSize,
    RowLargest,
    ColumnIsSize,
    ColumnLargest,
];

/// All of them, in the order of the enum.
pub fn damages() -> Vec<EditDamage> {
    OWN.into_iter().chain(DAMAGES.iter().copied().map(OfMatrix)).collect()
}

impl EditDamage {
    /// Damages the case so, if it has what is to be damaged.
    pub fn apply(self, case: &mut EditCase, random: &mut Xorshift) {
        let size = case.old.size;
        match self {
            ByTaken => take_row(case, random),
            ByNothing => case.rows.clear(),
            EntryGone => drop_entry(case, random),
            MatchSwapped => swap_matches(case, random),
            MatchTwice => repeat_match(case, random),
            MatchIsSize => put_match(case, size, random),
            MatchLargest => put_match(case, u32::MAX, random),
            RowTwice => repeat_row(case, random),
            RowIsSize => put_row(case, size, random),
            RowLargest => put_row(case, u32::MAX, random),
            ColumnIsSize => case.column = Column(size),
            ColumnLargest => case.column = Column(u32::MAX),
            OfMatrix(damage) => damage_matrix(case, damage, random),
        }
    }
}

// Two forms together may leave a sound matrix with one column more or less. A new row is matched to some column too.
fn damage_matrix(case: &mut EditCase, damage: Damage, random: &mut Xorshift) {
    damage.apply(&mut case.old, random);
    let size = case.old.size;
    case.resize_matching(|| Column(random.below(size)));
}

// Some row of the matching, if it has one.
fn any_match(case: &EditCase, random: &mut Xorshift) -> Option<usize> {
    let rows = case.matching.len() as u32;
    (rows > 0).then(|| random.below(rows) as usize)
}

// The rows of a column become these.
fn put_column(case: &mut EditCase, c: usize, rows: Vec<OriginalRow>) {
    let (lo, hi) = (case.old.starts[c], case.old.starts[c + 1]);
    let grown = rows.len() as i32 - (hi - lo) as i32;
    case.old.rows.splice(lo as usize..hi as usize, rows);
    move_starts(&mut case.old, c, grown);
}

fn take_row(case: &mut EditCase, random: &mut Xorshift) {
    case.rows.clear();
    let Some(r) = any_match(case, random) else { return };
    let other = case.matching[r];
    if other != case.column {
        case.rows.push(OriginalRow(r as u32));
        put_column(case, other.0 as usize, vec![OriginalRow(r as u32)]);
    }
}

fn drop_entry(case: &mut EditCase, random: &mut Xorshift) {
    let Some(r) = any_match(case, random) else { return };
    let c = case.matching[r].0 as usize;
    let rows = case.old.column(c).iter().copied().filter(|row| row.0 as usize != r).collect();
    put_column(case, c, rows);
}

fn swap_matches(case: &mut EditCase, random: &mut Xorshift) {
    let (Some(r), Some(s)) = (any_match(case, random), any_match(case, random)) else { return };
    case.matching.swap(r, s);
}

fn repeat_match(case: &mut EditCase, random: &mut Xorshift) {
    let (Some(r), Some(s)) = (any_match(case, random), any_match(case, random)) else { return };
    case.matching[r] = case.matching[s];
}

fn put_match(case: &mut EditCase, column: u32, random: &mut Xorshift) {
    let Some(r) = any_match(case, random) else { return };
    case.matching[r] = Column(column);
}

// One row more, anywhere in the replacement: one that it has already, or any row twice where it has none.
fn repeat_row(case: &mut EditCase, random: &mut Xorshift) {
    if case.rows.is_empty() {
        case.rows.push(OriginalRow(random.below(case.old.size.max(1))));
    }
    let row = random.pick(&case.rows);
    insert_row(case, row, random);
}

// The row comes once, or twice: then it is refused at its first.
fn put_row(case: &mut EditCase, row: u32, random: &mut Xorshift) {
    for _ in 0..random.between(1, 2) {
        insert_row(case, OriginalRow(row), random);
    }
}

fn insert_row(case: &mut EditCase, row: OriginalRow, random: &mut Xorshift) {
    let at = random.below(case.rows.len() as u32 + 1);
    case.rows.insert(at as usize, row);
}
