//! Damage to an input: the forms that a refusal is about.
use super::input::Input;
use super::random::Xorshift;
use super::table::MAX_SIZE;
use crate::OriginalRow;

// Says the forms once, for the enum and for the list of them all.
macro_rules! damages {
    ($($form:ident,)*) => {
        /// The forms, in an order in which they can follow one another: those that need a well-formed pattern come first.
        #[derive(Clone, Copy, Debug, PartialEq, Eq, PartialOrd, Ord)]
        pub enum Damage {
            $($form,)*
        }

        /// All of them, in that order.
        pub const DAMAGES: &[Damage] = &[$($form,)*];
    };
}

damages! {
    ColumnEmptied,
    RowTwice,
    RowIsSize,
    RowAboveSize,
    RowLargest,
    RowMissing,
    RowTooMany,
    StartFalls,
    FirstNotZero,
    LastLow,
    LastHigh,
    StartsShort,
    StartsNone,
    StartsLong,
    SizeOther,
    SizeOver,
    SizeLargest,
}

use Damage::*;

impl Damage {
    /// Damages the input so, if it has what is to be damaged.
    pub fn apply(self, input: &mut Input, random: &mut Xorshift) {
        let size = input.size;
        let last = input.starts.len().saturating_sub(1);
        match self {
            ColumnEmptied => empty_column(input, random),
            RowTwice => repeat_row(input, random),
            RowIsSize => put_row(input, size, random),
            RowAboveSize => put_row(input, size + random.between(1, 9), random),
            RowLargest => put_row(input, u32::MAX, random),
            RowMissing => drop(input.rows.pop()),
            RowTooMany => input.rows.push(OriginalRow(0)),
            StartFalls => raise_start(input, random),
            FirstNotZero => put_start(input, 0, |start| start.wrapping_add(1)),
            LastLow => put_start(input, last, |start| start.saturating_sub(1)),
            LastHigh => put_start(input, last, |start| start.wrapping_add(1)),
            StartsShort => drop(input.starts.pop()),
            StartsNone => input.starts.clear(),
            StartsLong => input.starts.push(input.starts.last().copied().unwrap_or(0)),
            SizeOther => input.size = if random.one_in(2) { size + 1 } else { size.saturating_sub(1) },
            SizeOver => input.size = MAX_SIZE + 1,
            SizeLargest => input.size = u32::MAX,
        }
    }
}

/// The starts after column c move by as much as the column grew.
pub fn move_starts(input: &mut Input, c: usize, by: i32) {
    for start in &mut input.starts[c + 1..] {
        *start = start.wrapping_add_signed(by);
    }
}

fn empty_column(input: &mut Input, random: &mut Xorshift) {
    if input.size > 0 {
        let c = random.below(input.size) as usize;
        let (lo, hi) = (input.starts[c], input.starts[c + 1]);
        input.rows.drain(lo as usize..hi as usize);
        move_starts(input, c, -((hi - lo) as i32));
    }
}

// One more entry for some column that has one, anywhere in it: a row that it has already.
fn repeat_row(input: &mut Input, random: &mut Xorshift) {
    let columns: Vec<usize> = (0..input.size as usize).filter(|&c| !input.column(c).is_empty()).collect();
    if !columns.is_empty() {
        let c = random.pick(&columns);
        let row = random.pick(input.column(c));
        let at = random.between(input.starts[c], input.starts[c + 1]);
        input.rows.insert(at as usize, row);
        move_starts(input, c, 1);
    }
}

fn put_row(input: &mut Input, row: u32, random: &mut Xorshift) {
    if !input.rows.is_empty() {
        let k = random.below(input.rows.len() as u32);
        input.rows[k as usize] = OriginalRow(row);
    }
}

fn put_start(input: &mut Input, i: usize, change: impl Fn(u32) -> u32) {
    if let Some(start) = input.starts.get_mut(i) {
        *start = change(*start);
    }
}

// A start goes above the one that follows it.
fn raise_start(input: &mut Input, random: &mut Xorshift) {
    if input.starts.len() > 1 {
        let i = random.below(input.starts.len() as u32 - 1) as usize;
        let next = input.starts[i + 1];
        input.starts[i] = random.pick(&[next.saturating_add(1), next.saturating_add(7), u32::MAX]);
    }
}
