//! What the entries share that take a pattern and lent buffers: how a call is held against the judges, and recorded.
use super::buffer::Room;
use super::case::Case;
use super::compare::{self, Kind};
use super::input::Input;
use super::lent::{Lent, Plan};
use super::random::Xorshift;
use super::run::{Difference, Family};
use super::table;
use crate::Refusal;
use std::fmt::Debug;

/// What the judges of an entry say of a call.
pub trait Verdict: Sized {
    /// What the entry is called with.
    type Case: Case;

    /// What the entry answers.
    type Answer: PartialEq + Debug;

    /// The buffers that the entry is lent.
    const PLAN: &'static Plan;

    /// Puts into the buffers what the case lends in them, where that is more than junk.
    fn enter(_case: &Self::Case, _lent: &mut Lent) {}

    /// Calls the entry.
    fn call(case: &Self::Case, lent: &mut Lent) -> Self::Answer;

    /// What they say of this case and of buffers of these lengths, or that they disagree.
    fn judge(case: &Self::Case, lengths: &[usize]) -> Result<Self, String>;

    /// The refusal, unless the entry must accept.
    fn refusal(&self) -> Option<Refusal>;

    /// Whether no buffer at all changes.
    fn changes_nothing(&self) -> bool {
        self.refusal().is_some_and(|refused| table::changes_nothing(refused.number))
    }

    fn answer(&self) -> Self::Answer;

    /// Puts into the cleared buffers what the answer leaves in them.
    fn fill(&self, lent: &mut Lent);

    /// The lists of a recorded line, each as its name and its numbers.
    fn lists(&self) -> String;

    /// What else the entry's buffers are held to after the call, by a judge that needs to see them.
    fn hold(&self, _case: &Self::Case, _lent: &mut Lent) -> Result<(), String> {
        Ok(())
    }
}

/// The table's refusal of an input that is not valid or has no room.
pub fn refused<V: Verdict>(input: &Input, lengths: &[usize]) -> Option<Refusal> {
    table::common(input, &V::PLAN.needed(lengths, input))
}

// Every buffer afterwards.
fn after<V: Verdict>(judged: &V, mut lent: Lent, input: &Input) -> Lent {
    if !judged.changes_nothing() {
        lent.clear(input);
        judged.fill(&mut lent);
    }
    lent
}

/// One call beside its judges: the number answered, or what differs.
pub fn check<V: Verdict>(case: &V::Case, room: Room, random: &mut Xorshift) -> Result<u32, String> {
    let mut lent = Lent::junk(V::PLAN, case.matrix(), room, random);
    V::enter(case, &mut lent);
    let lengths = lent.lengths();
    let judged = V::judge(case, &lengths)?;
    let after = after(&judged, lent.clone(), case.matrix());
    let (is, ought) = (V::call(case, &mut lent), judged.answer());
    if is != ought {
        return Err(format!("with buffers of lengths {lengths:?} the answer is {is:?}, expected {ought:?}"));
    }
    lent.compare(&after)?;
    judged.hold(case, &mut lent)?;
    Ok(judged.refusal().map_or(0, |refused| refused.number))
}

/// Compares an entry with its judges over all families, then over these kinds.
pub fn compared<V: Verdict<Case = Input>>(kinds: &[Kind], seed: u64) -> Result<Vec<Family>, Difference> {
    compare::compare(check::<V>, V::PLAN.count(), kinds, seed)
}

/// The lines of the record for buffers that are long enough; none for 1 and 2, whose starts may have any length.
pub fn recorded<V: Verdict>(cases: &[V::Case]) -> Vec<String> {
    cases.iter().filter_map(line::<V>).collect()
}

fn line<V: Verdict>(case: &V::Case) -> Option<String> {
    let judged = V::judge(case, &[]).expect("the judges agree");
    let lists = judged.lists();
    match judged.refusal() {
        Some(Refusal { number: 1 | 2, .. }) => None,
        Some(Refusal { number, place }) => Some(format!("{case} answer {number} at {place}{lists}")),
        None => Some(format!("{case} answer 0 at 0{lists}")),
    }
}

/// A list of a recorded line.
pub fn list(name: &str, numbers: impl IntoIterator<Item = u32>) -> String {
    let numbers: String = numbers.into_iter().map(|number| format!(" {number}")).collect();
    format!(" {name}{numbers}")
}
