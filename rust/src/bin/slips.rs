//! Has the stand-in for the edit make its mistakes, those that are named or all, and says where the comparison notices each: with all
//! judges, and, on small edits, from outside alone. Status 1 if all judges together miss one, or see one where none is made.
use dechvorim::driver::edit::{check_outside, families, Judged};
use dechvorim::driver::run::{Difference, Family};
use dechvorim::driver::verdict::{check, Verdict};
use dechvorim::stand_in::{slipping, Slip, SLIPS};
use std::process::exit;

const SEED: u64 = 19_350_103;

fn main() {
    let names: Vec<String> = std::env::args().skip(1).collect();
    let mut is_good = true;
    for slip in [None].into_iter().chain(SLIPS.iter().copied().map(Some)) {
        let name = slip.map_or("None".to_string(), |slip: Slip| format!("{slip:?}"));
        if names.is_empty() || names.contains(&name) {
            slipping(slip);
            is_good &= noticed(&name, families::compare(check::<Judged>, Judged::PLAN.count(), SEED)) == slip.is_some();
            noticed(&format!("{name}, from outside"), families::compare_small(check_outside, Judged::PLAN.count(), SEED));
        }
    }
    exit(i32::from(!is_good));
}

// Whether a difference was found; it is told.
fn noticed(name: &str, compared: Result<Vec<Family>, Difference>) -> bool {
    match &compared {
        Ok(families) => println!("{name}: nothing noticed in {} cases", families.iter().map(|family| family.cases).sum::<u64>()),
        Err(found) => println!("{name}: {found}"),
    }
    compared.is_err()
}
