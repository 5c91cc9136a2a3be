//! Times every entry of the library, or those that are named, beside the Rust, and prints the report.
use dechvorim::driver::bench::{Timing, BATCHES, CALLS, PATTERNS};
use dechvorim::driver::chosen;

const SEED: u64 = 19_880_901;

fn main() {
    println!("# Speed beside the Rust\n");
    println!("Each entry of the library, its checks of input and all its clearing included, and the same function of the");
    println!("unchanged Rust are called in turn by one program, a release build, on the same {PATTERNS} random patterns of");
    println!("each kind (seed {SEED}). Times are microseconds a call, the median and the least of {BATCHES} interleaved");
    println!("batches of {CALLS} calls, or, where the input says so, of fewer calls on as many patterns. A ratio is the");
    println!("library's time over the Rust's. The last column is the clearing alone: what the library leaves zero behind it,");
    println!("zeroed once by the driver, in stores as wide as its compiler makes them.\n");
    println!("The Rust trusts its input and allocates its slices; the library tests every start and every row before it");
    println!("begins, and is lent all that it writes to.");
    if cfg!(feature = "edit-stand-in") {
        println!("\nThe edit is a stand-in, not the library's.");
    }
    for entry in chosen() {
        println!("\n## {}\n\n{}\n", entry.name, entry.bench_note);
        println!("| Input | Library, median | Rust, median | Ratio | Library, least | Rust, least | Ratio | Clearing, median (least) |");
        println!("|---|---|---|---|---|---|---|---|");
        (entry.bench)(SEED).iter().for_each(print_row);
    }
    println!("\nCompiler of the Rust and of the driver: {}.", env!("COMPILER_VERSION"));
}

fn print_row(timing: &Timing) {
    let Timing { words, library, original, clearing } = timing;
    let micros = |nanos: f64| nanos / 1000.0;
    println!(
        "| {words} | {:.2} | {:.2} | {:.2} | {:.2} | {:.2} | {:.2} | {:.2} ({:.2}) |",
        micros(library.median),
        micros(original.median),
        library.median / original.median,
        micros(library.least),
        micros(original.least),
        library.least / original.least,
        micros(clearing.median),
        micros(clearing.least),
    );
}
