//! Edits at the largest size and with the largest number of entries, and over them.
use super::case::EditCase;
use super::damage::EditDamage::{self, ByNothing, ColumnIsSize, MatchSwapped, MatchTwice, OfMatrix, RowTwice};
use super::make::{any_edit, any_matching};
use crate::driver::buffer::Room;
use crate::driver::case::Case;
use crate::driver::compare::FULL_LENGTH;
use crate::driver::damage::Damage;
use crate::driver::input::Input;
use crate::driver::matchable::hidden;
use crate::driver::patterns::distinct;
use crate::driver::random::Xorshift;
use crate::driver::run::{Done, Run};
use crate::driver::table::{MAX_ENTRIES, MAX_SIZE};
use crate::{Column, OriginalRow};

// An edit of the fullest matrix, which has so many entries less, by so many rows.
fn full(missing: usize, rows: u32, random: &mut Xorshift) -> EditCase {
    let old = hidden(MAX_SIZE, random, |_| FULL_LENGTH);
    let matching = any_matching(&old, random).expect("one is hidden in it");
    let mut case = any_edit(old, matching, random);
    case.rows = distinct(MAX_SIZE, rows, random).into_iter().map(OriginalRow).collect();
    (0..missing).for_each(|_| drop_entry(&mut case, random));
    case
}

// One entry less, in a column that is not edited and has others; it is not the one of the column's row.
fn drop_entry(case: &mut EditCase, random: &mut Xorshift) {
    let c = (case.column.0 + random.between(1, MAX_SIZE - 1)) % MAX_SIZE;
    let column = case.old.column(c as usize);
    let other = column.iter().position(|row| case.matching[row.0 as usize].0 != c).expect("it has others");
    case.old.rows.remove(case.old.starts[c as usize] as usize + other);
    case.old.starts[c as usize + 1..].iter_mut().for_each(|start| *start -= 1);
}

// One row more than a full column has, and all of them belong to as many columns that have no others: too many entries, and no
// perfect matching. Column c of those has all of their rows but the next one's; the others have rows from their own on.
fn crowded(missing: usize, random: &mut Xorshift) -> EditCase {
    let crowd = FULL_LENGTH + 1;
    let rows = |c: u32| match c < crowd {
        true => (0..crowd).filter(|&r| r != (c + 1) % crowd).collect::<Vec<u32>>(),
        false => (0..FULL_LENGTH).map(|k| (c + k) % MAX_SIZE).collect(),
    };
    let columns: Vec<Vec<u32>> = (0..MAX_SIZE).map(rows).collect();
    let old = Input::from_columns(&columns);
    assert_eq!(old.rows.len(), MAX_ENTRIES, "the fullest matrix");
    let column = Column(random.between(crowd, MAX_SIZE - 1));
    let rows = distinct(crowd, crowd, random).into_iter().map(OriginalRow).collect();
    let mut case = EditCase { old, column, rows, matching: (0..MAX_SIZE).map(Column).collect() };
    (0..missing).for_each(|_| drop_entry(&mut case, random));
    case
}

/// The fullest matrices, edited to be just as full, fuller, and less full.
pub fn full_size(run: &mut Run<EditCase>) -> Done {
    run.begin("size 4096 with 1048576 entries or one less");
    let rng = &mut run.random;
    let mut cases: Vec<EditCase> = [0, 1, FULL_LENGTH - 1, FULL_LENGTH, FULL_LENGTH + 1, MAX_SIZE].map(|rows| full(0, rows, rng)).into();
    cases.extend([FULL_LENGTH + 1, FULL_LENGTH + 2].map(|rows| full(1, rows, rng)));
    cases.extend([0, 1].map(|missing| crowded(missing, rng)));
    for case in &cases {
        run.both(case)?;
    }
    let fuller = full(0, FULL_LENGTH + 1, &mut run.random);
    for which in 0..run.buffers {
        run.case(&fuller, Room::Short(1 << which))?;
    }
    // Each of these comes before the number of entries after the edit, but for the last, with which there are not too many.
    let before: [&[EditDamage]; 6] =
        [&[ColumnIsSize], &[RowTwice], &[MatchTwice], &[MatchSwapped], &[ColumnIsSize, RowTwice, MatchTwice], &[ByNothing]];
    for damages in before {
        let mut case = fuller.clone();
        damages.iter().for_each(|&damage| case.damage(damage, &mut run.random));
        run.case(&case, Room::Enough)?;
    }
    Ok(())
}

/// A matrix that is too large before the edit, with other damage that must not come before.
pub fn over_the_limits(run: &mut Run<EditCase>) -> Done {
    run.begin("one column or one entry too many before the edit");
    let wide = hidden(MAX_SIZE + 1, &mut run.random, |_| 1);
    let matching = any_matching(&wide, &mut run.random).expect("one is hidden in it");
    let wide = any_edit(wide, matching, &mut run.random);
    let mut long = full(0, 0, &mut run.random);
    long.old.rows.push(OriginalRow(0));
    *long.old.starts.last_mut().expect("there are starts") += 1;
    for mut case in [wide, long] {
        run.both(&case)?;
        for damage in [MatchTwice, RowTwice, ColumnIsSize, OfMatrix(Damage::RowLargest), OfMatrix(Damage::StartsNone)] {
            case.damage(damage, &mut run.random);
            run.both(&case)?;
        }
    }
    Ok(())
}
