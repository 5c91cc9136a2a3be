//! Compares every entry of the library, or those that are named, with its judges, over fixed families of inputs. Status 1 on the first
//! difference.
use dechvorim::driver::chosen;
use std::process::exit;

const SEED: u64 = 19_350_103;

fn main() {
    println!("seed {SEED}");
    if cfg!(feature = "edit-stand-in") {
        println!("The edit is a stand-in, not the library's.");
    }
    for entry in chosen() {
        match (entry.compare)(SEED) {
            Ok(families) => families.iter().for_each(|family| println!("{}: {family}", entry.name)),
            Err(difference) => {
                println!("{}: a difference, {difference}", entry.name);
                exit(1);
            }
        }
    }
}
