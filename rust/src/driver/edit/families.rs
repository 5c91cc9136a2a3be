//! The comparison of the edit, over families of cases.
use super::case::EditCase;
use super::damage::OWN;
use super::limits::{full_size, over_the_limits};
use super::make::{any_edit, edit_of, kinds, next_edit};
use super::outside::every_matching;
use crate::driver::buffer::Room;
use crate::driver::faults::{alone, faults, in_pairs, several, shortages, Fault, Faults};
use crate::driver::input::Input;
use crate::driver::patterns::{every, lists};
use crate::driver::random::Xorshift;
use crate::driver::run::{Check, Difference, Done, Family, Run};
use crate::driver::table::MAX_SIZE;
use crate::{Column, OriginalRow};

/// Compares an edit that is lent so many buffers.
pub fn compare(check: Check<EditCase>, buffers: u32, seed: u64) -> Result<Vec<Family>, Difference> {
    let mut run = Run::new(check, buffers, seed);
    small(&mut run, 3)?;
    alone(&mut run, base, 500)?;
    in_pairs(&mut run, base, 50)?;
    many_faults(&mut run)?;
    full_size(&mut run)?;
    over_the_limits(&mut run)?;
    of_kinds(&mut run, &SIZES)?;
    sequences(&mut run)?;
    Ok(run.families)
}

/// Compares it on small valid edits only.
pub fn compare_small(check: Check<EditCase>, buffers: u32, seed: u64) -> Result<Vec<Family>, Difference> {
    let mut run = Run::new(check, buffers, seed);
    small(&mut run, 2)?;
    of_kinds(&mut run, &[("size 3 to 12", 3, 12, 3_000)])?;
    Ok(run.families)
}

fn small(run: &mut Run<EditCase>, largest: u32) -> Done {
    for size in 1..=largest {
        run.begin(&format!("every pattern of size {size}, every perfect matching, every column, every list of rows"));
        for old in every(size) {
            for matching in every_matching(&old) {
                every_edit(run, &old, &matching)?;
            }
        }
    }
    Ok(())
}

fn every_edit(run: &mut Run<EditCase>, old: &Input, matching: &[Column]) -> Done {
    for column in (0..old.size).map(Column) {
        for rows in lists(old.size) {
            let rows = rows.into_iter().map(OriginalRow).collect();
            let room = run.room();
            run.case(&EditCase { old: old.clone(), column, rows, matching: matching.to_vec() }, room)?;
        }
    }
    Ok(())
}

/// Sizes in words, from the least to the most, and how many cases of each kind.
type Sizes = (&'static str, u32, u32, u32);

const SIZES: [Sizes; 3] = [("size 1 to 60", 1, 60, 10_000), ("size 500 to 4096", 500, MAX_SIZE, 12), ("size 4096", MAX_SIZE, MAX_SIZE, 4)];

fn of_kinds(run: &mut Run<EditCase>, sizes: &[Sizes]) -> Done {
    for &(words, least, most, cases) in sizes {
        for kind in kinds() {
            run.begin(&format!("{}, {words}", kind.name));
            for _ in 0..cases {
                let size = run.random.between(least, most);
                let room = run.room();
                let case = edit_of(&kind, size, &mut run.random);
                run.case(&case, room)?;
            }
        }
    }
    Ok(())
}

// One edit after the other: where one is accepted, its matrix and its matching are the next one's.
fn sequences(run: &mut Run<EditCase>) -> Done {
    let sizes = [("1 to 60", 1, 60, 60, 400), ("500 to 1500", 500, 1_500, 3, 300), ("4096", MAX_SIZE, MAX_SIZE, 1, 100)];
    for (words, least, most, count, edits) in sizes {
        run.begin(&format!("edits in a row of one matrix, {edits} of each of {count}, size {words}"));
        for i in 0..count {
            let size = run.random.between(least, most);
            let mut case = edit_of(&kinds()[(i + 1) % 6], size, &mut run.random);
            for _ in 0..edits {
                run.case(&case, Room::Enough)?;
                case = next_edit(case, &mut run.random);
            }
        }
    }
    Ok(())
}

// Sizes from 0 on: there every column is outside.
fn base(random: &mut Xorshift) -> EditCase {
    let size = random.below(13);
    match size {
        0 => any_edit(Input::from_columns(&[]), vec![], random),
        _ => edit_of(&random.pick(&kinds()), size, random),
    }
}

fn many_faults(run: &mut Run<EditCase>) -> Done {
    let all = faults::<EditCase>(run.buffers);
    // Where the matrix is sound, the table's later lines decide.
    let own: Faults<EditCase> = OWN.into_iter().map(Fault::Damage).collect();
    let late: Faults<EditCase> = own.iter().copied().chain(shortages::<EditCase>(run.buffers)).collect();
    several(run, base, &[&all, &late, &own, &own], 30_000)
}
