//! The block triangular form: its judges, its recorded lines, its times.
use super::bench::{bench, benched};
use super::compare::Kind;
use super::components::hold_form;
use super::form::{lend, numbers, Form, Formed, COLUMNS};
use super::input::Input;
use super::lent::{fill, Lent, Need::Entries, Plan};
use super::matchable::{hidden, long_chain, KINDS, RINGS};
use super::matching::judge_valid;
use super::verdict::{compared, recorded, refused, Verdict};
use super::{samples, Entry};
use crate::blocks::said;
use crate::{BlocksAnswer, Column, Refusal};

pub const ENTRY: Entry = Entry {
    name: "blocks",
    kind: 3,
    compare: |seed| compared::<Judged>(&kinds(), seed),
    record: |seed| recorded::<Judged>(&samples::of_kinds(&kinds(), 60, 12, seed)),
    bench_note: "Cleared are the six workspace slices, the two of the stack, and the marks; not counted is the clearing of the block\n\
        starts behind the last one used. In brackets: how many blocks the patterns have, from the fewest to the most.",
    bench: |seed| {
        let hidden = benched("five entries a column, a perfect matching hidden", |size, random| hidden(size, random, |_| 5));
        let chain = benched("a chain", long_chain);
        bench::<Judged, _>(&[hidden, chain], counted, minilp::find_block_diag_form, seed)
    },
};

// Those of the matching, and one more.
fn kinds() -> Vec<Kind> {
    KINDS.into_iter().chain([RINGS]).collect()
}

/// What the judges say, where a form is the Rust's.
struct Judged(Formed);

impl Verdict for Judged {
    type Case = Input;

    type Answer = (BlocksAnswer, u32);

    const PLAN: &'static Plan = &Plan { numbers: &numbers(Entries), columns: &COLUMNS };

    fn call(input: &Input, lent: &mut Lent) -> (BlocksAnswer, u32) {
        let said = said(input.pattern(), lend(lent));
        (BlocksAnswer::of(said), said.count)
    }

    // The table decides on damaged input, and the matching's judges on whether there is a matching and which; then the Rust, which
    // panics exactly where there is none. Its form is held against the components.
    fn judge(input: &Input, lengths: &[usize]) -> Result<Judged, String> {
        if let Some(refused) = refused::<Judged>(input, lengths) {
            return Ok(Judged(Formed::Refused(refused)));
        }
        match (judge_valid(input)?, Form::original(input)) {
            (Ok(row2col), Some(form)) if row2col == form.row2col => {
                let held = hold_form(input, &form.row2col, &form.blocks);
                held.map_err(|what| format!("the judges disagree: the Rust and the components: {what}"))?;
                Ok(Judged(Formed::Formed(form)))
            }
            (Err(failed), None) => Ok(Judged(Formed::Unmatched(failed))),
            _ => Err("the judges disagree: the Rust's form has another matching, or none where there is one".to_string()),
        }
    }

    fn refusal(&self) -> Option<Refusal> {
        self.0.refusal()
    }

    fn answer(&self) -> (BlocksAnswer, u32) {
        self.0.answer()
    }

    // Refusal 9 leaves no matching either.
    fn fill(&self, lent: &mut Lent) {
        self.0.fill(lend(lent));
        if let Formed::Unmatched(failed) = &self.0 {
            fill(lend(lent).row2col, failed.visited.iter().map(|_| Column(0)));
        }
    }

    fn lists(&self) -> String {
        self.0.lists()
    }

    // The library's own lists are held against the components too, as they stand in its buffers.
    fn hold(&self, input: &Input, lent: &mut Lent) -> Result<(), String> {
        let Formed::Formed(form) = &self.0 else { return Ok(()) };
        let Form { row2col, blocks } = Form::lent(lend(lent), input.size as usize, form.blocks.len());
        hold_form(input, &row2col, &blocks)
    }
}

fn counted(inputs: &[Input]) -> String {
    let counts = || inputs.iter().map(|input| Form::original(input).expect("it has a perfect matching").blocks.len());
    format!(" (blocks {} to {})", counts().min().unwrap_or(0), counts().max().unwrap_or(0))
}
