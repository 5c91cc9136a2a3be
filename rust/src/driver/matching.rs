//! The matching of rows to columns: its judges, its recorded lines, its times.
use super::bench::{bench, benched, Benched};
use super::input::Input;
use super::lent::{fill, marks, output, work, Lent, Need::Size, Plan};
use super::matchable::{hidden, long_chain, wide_band, KINDS, WIDTH};
use super::patterns::with_lengths;
use super::searches::{matchable, rows_together, ruled, Failed, MOST_TRIED};
use super::verdict::{compared, list, recorded, refused, Verdict};
use super::{original, samples, Entry};
use crate::{find_diag_matching, Column, MatchingAnswer, MatchingLent, Refusal};

pub const ENTRY: Entry = Entry {
    name: "matching",
    kind: 2,
    compare: |seed| compared::<Judged>(&KINDS, seed),
    record: |seed| recorded::<Judged>(&samples::of_kinds(&KINDS, 110, 20, seed)),
    bench_note: "Cleared are the two workspace slices, the two of the stack, and the marks. In brackets: how many of the patterns have a\n\
        perfect matching, and how many searches of each, at the least, have a path through half of the columns or more.",
    bench: |seed| bench::<Judged, _>(&kinds(), searched, minilp::find_diag_matching, seed),
};

fn lend(lent: &mut Lent) -> MatchingLent<'_> {
    let ([visited, cheap, scol, sat, hall], [row2col]) = lent.lend();
    MatchingLent { visited, cheap, scol, sat, row2col, hall }
}

/// What the judges say: the table's refusal, the Rust's matching, or the search that failed.
enum Judged {
    Refused(Refusal),
    Matched(Vec<Column>),
    Unmatched(Failed),
}

impl Verdict for Judged {
    type Case = Input;

    type Answer = MatchingAnswer;

    const PLAN: &'static Plan = &Plan {
        numbers: &[work("visited", Size), work("cheap", Size), work("scol", Size), work("sat", Size), marks("hall")],
        columns: &[output("row2col", Size)],
    };

    fn call(input: &Input, lent: &mut Lent) -> MatchingAnswer {
        find_diag_matching(input.pattern(), lend(lent))
    }

    // The table decides on damaged input.
    fn judge(input: &Input, lengths: &[usize]) -> Result<Judged, String> {
        match refused::<Judged>(input, lengths) {
            Some(refused) => Ok(Judged::Refused(refused)),
            None => Ok(judge_valid(input)?.map_or_else(Judged::Unmatched, Judged::Matched)),
        }
    }

    fn refusal(&self) -> Option<Refusal> {
        match self {
            Judged::Refused(refused) => Some(*refused),
            Judged::Matched(_) => None,
            Judged::Unmatched(failed) => Some(failed.refusal()),
        }
    }

    fn answer(&self) -> MatchingAnswer {
        self.refusal().map_or(MatchingAnswer::Accepted, MatchingAnswer::Refused)
    }

    fn fill(&self, lent: &mut Lent) {
        let MatchingLent { row2col, hall, .. } = lend(lent);
        match self {
            Judged::Refused(_) => {}
            // Acceptance clears the marks.
            Judged::Matched(matching) => {
                fill(row2col, matching.iter().copied());
                fill(hall, matching.iter().map(|_| 0));
            }
            // Refusal 9 sets the marks and leaves no matching.
            Judged::Unmatched(failed) => {
                fill(row2col, failed.visited.iter().map(|_| Column(0)));
                fill(hall, failed.marks());
            }
        }
    }

    fn lists(&self) -> String {
        match self {
            Judged::Refused(_) => String::new(),
            Judged::Matched(row2col) => list("match", row2col.iter().map(|c| c.0)),
            Judged::Unmatched(failed) => list("hall", failed.marks()),
        }
    }
}

/// On valid input the Rust decides; which search failed and what it visited are the rule's to say.
pub fn judge_valid(input: &Input) -> Result<Result<Vec<Column>, Failed>, String> {
    let original = original::matching(input);
    if input.size <= MOST_TRIED && original.is_some() != matchable(input) {
        return Err("the judges disagree: the Rust and trying all choices".to_string());
    }
    match (original, ruled(input).matching) {
        (Some(row2col), Ok(same)) if row2col == same => Ok(Ok(row2col)),
        (None, Err(failed)) => hall_set(input, &failed).map(|()| Err(failed)),
        _ => Err("the judges disagree: the Rust and the rule".to_string()),
    }
}

// The visited columns prove that there is no perfect matching, whoever named them.
fn hall_set(input: &Input, failed: &Failed) -> Result<(), String> {
    let columns = failed.visited.iter().filter(|&&visited| visited).count();
    match rows_together(input, &failed.visited) + 1 == columns {
        true => Ok(()),
        false => Err(format!("the {columns} columns visited from {:?} are no Hall set", failed.column)),
    }
}

fn kinds() -> [Benched<Input>; 4] {
    [
        benched("five entries a column", |size, random| with_lengths(size, random, |_, _| 5)),
        benched("five entries a column, a perfect matching hidden", |size, random| hidden(size, random, |_| 5)),
        benched("a chain", long_chain),
        // So many long paths make a call slow: a batch has fewer.
        Benched { words: format!("a band of {} rows, batches of 4 calls", WIDTH + 1), make: wide_band, calls: 4 },
    ]
}

// How many of these have a perfect matching, and how many searches, at least, had a path through half of the columns or more.
fn searched(inputs: &[Input]) -> String {
    let ruled: Vec<_> = inputs.iter().map(ruled).collect();
    let matched = ruled.iter().filter(|ruled| ruled.matching.is_ok()).count();
    let half = inputs[0].size as usize / 2;
    let long = ruled.iter().map(|ruled| ruled.paths.iter().filter(|&&path| path >= half).count()).min();
    format!(" (matched {matched} of {}, long paths {})", inputs.len(), long.unwrap_or(0))
}
