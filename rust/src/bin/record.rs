//! Writes the stored sample of the Rust's answers, for a replay that reads only the decimal numbers. Entries may be named.
use dechvorim::driver::chosen;

const SEED: u64 = 19_580_101;

const HEADER: &str = "# Made by rust/src/bin/record.rs. Each line is a case: its kind, the pattern, then the answer and its place \
    and, where accepted, the lists that the unchanged Rust gave. An edit has behind the pattern the column, how many rows take the \
    place of its own, these rows, and the old matching; the Rust, which has no edit, was shown the edited matrix in stages. The Rust \
    checks nothing, panics on an empty column, of a matching that does not exist says only so, and has no blocks then but a panic. \
    Refusals and their places are therefore a reading of the table of refusals; and the column whose search failed, with the marks \
    of the columns that it visited, is a reading of the matching's rule in the driver's own Rust. Other refused cases have no lists. \
    Only the numbers count.";

/// What the replay has room for: in the text, in a line.
const MAX_BYTES: usize = 163_840;
const MAX_NUMBERS: usize = 65_536;
const MAX_LINE: usize = 1_000;

fn main() {
    let mut text = format!("{HEADER}\n");
    assert!(!text.contains(|c: char| c.is_ascii_digit()), "the header holds a number");
    for entry in chosen() {
        for case in (entry.record)(SEED) {
            let line = format!("{} {} {case}\n", entry.kind, entry.name);
            assert!(numbers(&line) <= MAX_LINE, "a line of {} numbers", numbers(&line));
            text += &line;
        }
    }
    assert!(text.len() < MAX_BYTES, "the record has {} bytes", text.len());
    assert!(numbers(&text) < MAX_NUMBERS, "the record has {} numbers", numbers(&text));
    print!("{text}");
}

fn numbers(text: &str) -> usize {
    text.split_whitespace().filter(|word| word.parse::<u32>().is_ok()).count()
}
