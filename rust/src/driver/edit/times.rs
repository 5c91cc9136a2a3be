//! The times of the edit.
use super::case::EditCase;
use super::judge::judge_valid;
use super::make::any_matching;
use super::Judged;
use crate::driver::bench::{bench, benched, Timing};
use crate::driver::input::Input;
use crate::driver::matchable::{hidden, long_chain};
use crate::driver::patterns::distinct;
use crate::driver::random::Xorshift;
use crate::driver::searches::ruled_once;
use crate::{Column, OriginalRow};

pub const NOTE: &str =
    "The Rust has no edit: beside it stands its block form of the edited matrix, worked out afresh. The library's time has in it\n\
    that the old matching is copied to its place before each call. Cleared is what the block form clears. In brackets: how many\n\
    columns moved, from the fewest to the most.";

/// The library's edits beside the Rust's forms.
pub fn bench_edits(seed: u64) -> Vec<Timing> {
    let hidden = benched("five entries a column, a perfect matching hidden, five new rows for any column", five_rows);
    let chain = benched("a chain, closed by the new row of its last column", closed_chain);
    bench::<Judged, _>(&[hidden, chain], moved, minilp::find_block_diag_form, seed)
}

fn matched(old: Input, random: &mut Xorshift) -> EditCase {
    let matching = any_matching(&old, random).expect("it has a perfect matching");
    EditCase { column: Column(random.below(old.size)), rows: vec![], matching, old }
}

// One that is accepted: the Rust would panic.
fn five_rows(size: u32, random: &mut Xorshift) -> EditCase {
    let mut case = matched(hidden(size, random, |_| 5), random);
    loop {
        case.column = Column(random.below(size));
        case.rows = distinct(size, 5, random).into_iter().map(OriginalRow).collect();
        if let Ok(Ok(_)) = judge_valid(&case) {
            return case;
        }
    }
}

// The last column takes the row that none but the first has, and every column moves.
fn closed_chain(size: u32, random: &mut Xorshift) -> EditCase {
    let mut case = matched(long_chain(size, random), random);
    let first = case.old.column(0);
    case.rows = first.iter().copied().filter(|row| case.matching[row.0 as usize] == Column(0)).collect();
    case.column = Column(size - 1);
    case
}

fn moved(cases: &[EditCase]) -> String {
    let path = |case: &EditCase| ruled_once(&case.edited(), &case.matching, case.column).map_or(0, |moved| moved.path);
    let paths: Vec<usize> = cases.iter().map(path).collect();
    format!(" (moved {} to {})", paths.iter().min().unwrap_or(&0), paths.iter().max().unwrap_or(&0))
}
