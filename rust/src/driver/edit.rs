//! The edit of one column: its judges, its recorded lines, its times.
pub mod case;
pub mod damage;
pub mod families;
pub mod judge;
pub mod limits;
pub mod make;
pub mod outside;
pub mod samples;
pub mod smaller;
pub mod times;

use super::buffer::Room;
use super::form::{lend, numbers, Form, Formed, COLUMNS};
use super::lent::{fill, Lent, Need::Edited, Plan};
use super::random::Xorshift;
use super::table;
use super::verdict::{check, recorded, refused, Verdict};
use super::Entry;
use crate::edit::said;
use crate::{BlocksAnswer, Refusal};
use case::EditCase;
use judge::judge_valid;
use outside::{hold_accepted, hold_refused};

pub const ENTRY: Entry = Entry {
    name: "edit",
    kind: 4,
    compare: |seed| families::compare(check::<Judged>, Judged::PLAN.count(), seed),
    record: |seed| recorded::<Judged>(&samples::edits(seed)),
    bench_note: times::NOTE,
    bench: times::bench_edits,
};

/// What the judges say, and whether it is a refusal that comes after the workspace was used, which a 1 does not tell.
pub struct Judged {
    formed: Formed,
    is_late: bool,
}

impl Verdict for Judged {
    type Case = EditCase;

    type Answer = (BlocksAnswer, u32);

    const PLAN: &'static Plan = &Plan { numbers: &numbers(Edited), columns: &COLUMNS };

    // The old matching is lent where the new one will be.
    fn enter(case: &EditCase, lent: &mut Lent) {
        fill(lend(lent).row2col, case.matching.iter().copied());
    }

    fn call(case: &EditCase, lent: &mut Lent) -> (BlocksAnswer, u32) {
        let said = said(case.old.pattern(), case.edit(), lend(lent));
        (BlocksAnswer::of(said), said.count)
    }

    fn judge(case: &EditCase, lengths: &[usize]) -> Result<Judged, String> {
        if let Some(refused) = refused::<Judged>(&case.old, lengths) {
            return Ok(Judged { formed: Formed::Refused(refused), is_late: false });
        }
        let formed = match table::of_edit(case) {
            Some(refused) => Formed::Refused(refused),
            None => judge_valid(case)?.map_or_else(Formed::Unmatched, Formed::Formed),
        };
        Ok(Judged { formed, is_late: true })
    }

    fn refusal(&self) -> Option<Refusal> {
        self.formed.refusal()
    }

    fn changes_nothing(&self) -> bool {
        !self.is_late && self.refusal().is_some_and(|refused| table::changes_nothing(refused.number))
    }

    fn answer(&self) -> (BlocksAnswer, u32) {
        self.formed.answer()
    }

    // After refusal 9 the old matching stays.
    fn fill(&self, lent: &mut Lent) {
        self.formed.fill(lend(lent));
    }

    fn lists(&self) -> String {
        self.formed.lists()
    }

    fn hold(&self, case: &EditCase, lent: &mut Lent) -> Result<(), String> {
        match &self.formed {
            Formed::Refused(_) => Ok(()),
            Formed::Formed(form) => held(case, lent, Some(form.blocks.len())),
            Formed::Unmatched(_) => held(case, lent, None),
        }
    }
}

// What the library left, seen from outside: after acceptance there are so many blocks.
fn held(case: &EditCase, lent: &mut Lent, blocks: Option<usize>) -> Result<(), String> {
    let size = case.old.size as usize;
    match blocks {
        Some(count) => hold_accepted(case, &Form::lent(lend(lent), size, count)),
        None => hold_refused(case, &lend(lent).hall[..size]),
    }
}

/// A call that is seen from outside alone, where it is valid: what is noticed of it without the judges.
pub fn check_outside(case: &EditCase, room: Room, random: &mut Xorshift) -> Result<u32, String> {
    let mut lent = Lent::junk(Judged::PLAN, &case.old, room, random);
    Judged::enter(case, &mut lent);
    if let Some(refused) = refused::<Judged>(&case.old, &lent.lengths()).or_else(|| table::of_edit(case)) {
        return Ok(refused.number);
    }
    match Judged::call(case, &mut lent) {
        (BlocksAnswer::Accepted { count }, _) => held(case, &mut lent, Some(count as usize)).map(|()| 0),
        (BlocksAnswer::Refused(Refusal { number: 9, .. }), _) => held(case, &mut lent, None).map(|()| 9),
        (answer, _) => Err(format!("seen from outside: {answer:?}")),
    }
}
