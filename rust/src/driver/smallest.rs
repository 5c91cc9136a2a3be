//! A case that differs is made smaller as long as it still does.
use super::buffer::Room;
use super::case::Case;
use super::input::Input;
use super::random::Xorshift;
use super::run::Check;
use super::table::misshapen;
use crate::OriginalRow;
use std::ops::Range;

/// How many numbers the search for a smaller case may go through, so that it ends for large ones too.
const EFFORT: usize = 100_000_000;

/// The smallest case found from this one that still differs, and what differs there.
pub fn smallest<C: Case>(check: Check<C>, case: &C, what: String, room: Room, seed: u64) -> (C, String) {
    let (mut found, mut why) = (case.clone(), what);
    let mut effort = EFFORT;
    while let Some(next) = next_smaller(check, &found, room, seed, &mut effort) {
        (found, why) = next;
    }
    (found, why)
}

// A case smaller than this one that differs too, unless there is none or the effort is spent.
fn next_smaller<C: Case>(check: Check<C>, case: &C, room: Room, seed: u64, effort: &mut usize) -> Option<(C, String)> {
    for case in case.smaller() {
        let input = case.matrix();
        let tries = tries(input);
        *effort = effort.checked_sub(tries as usize * (1 + input.starts.len() + input.rows.len()))?;
        let what = (0..tries).find_map(|t| check(&case, room, &mut Xorshift::new(seed.wrapping_add(t))).err());
        if let Some(what) = what {
            return Some((case, what));
        }
    }
    None
}

// How many times an input is lent other junk before it counts as answered well.
fn tries(input: &Input) -> u64 {
    if input.rows.len() < 1_000 {
        8
    } else {
        1
    }
}

/// Without half of the columns or entries, without a quarter, and so on; in the end with lower rows.
pub fn smaller(input: &Input) -> impl Iterator<Item = Input> + '_ {
    let without = LEVELS.flat_map(|level| without_columns(input, level).chain(without_entries(input, level)));
    without.chain(lowered(input))
}

/// As many as halve any length.
pub const LEVELS: Range<u32> = 0..usize::BITS;

/// The parts of 0..len to leave out: at level 0 they are halves, at level 1 quarters, at the last single ones.
pub fn parts(len: usize, level: u32) -> impl Iterator<Item = Range<usize>> {
    let width = len.div_ceil(2) >> level;
    let los = (0..len).step_by(width.max(1)).filter(move |_| width > 0);
    los.map(move |lo| lo..len.min(lo + width))
}

fn without_columns(input: &Input, level: u32) -> impl Iterator<Item = Input> + '_ {
    let well_formed = misshapen(input).is_none();
    let columns = if well_formed { input.size as usize } else { input.starts.len() };
    parts(columns, level).map(move |part| match well_formed {
        true => fewer_columns(input, part),
        false => fewer_starts(input, part),
    })
}

// With the columns go as many rows, the last ones. A row that was outside stays so.
fn fewer_columns(input: &Input, part: Range<usize>) -> Input {
    let fewer = input.size - part.len() as u32;
    let renumbered = |row: &OriginalRow| match row.0 {
        r if r < fewer => Some(r),
        r if r < input.size => None,
        r => Some(r - part.len() as u32),
    };
    let kept = (0..input.size as usize).filter(|c| !part.contains(c));
    let columns: Vec<Vec<u32>> = kept.map(|c| input.column(c).iter().filter_map(renumbered).collect()).collect();
    Input::from_columns(&columns)
}

/// Where the starts are no starts, they are only numbers.
pub fn fewer_starts(input: &Input, part: Range<usize>) -> Input {
    let mut smaller = input.clone();
    smaller.size = input.size.saturating_sub(part.len() as u32);
    smaller.starts.drain(part);
    smaller
}

/// The starts after an entry move with it; others, well formed or not, stay.
pub fn without_entries(input: &Input, level: u32) -> impl Iterator<Item = Input> + '_ {
    parts(input.rows.len(), level).map(|part| {
        let moved = |start: &u32| start - ((*start as usize).clamp(part.start, part.end) - part.start) as u32;
        let starts = input.starts.iter().map(moved).collect();
        let mut rows = input.rows.clone();
        rows.drain(part.clone());
        Input { size: input.size, starts, rows }
    })
}

// One row becomes the smallest of its sort, inside or outside.
fn lowered(input: &Input) -> impl Iterator<Item = Input> + '_ {
    (0..input.rows.len()).filter_map(|k| {
        let least = if input.rows[k].0 < input.size { 0 } else { input.size };
        let mut smaller = input.clone();
        smaller.rows[k] = OriginalRow(least);
        (input.rows[k].0 > least).then_some(smaller)
    })
}
