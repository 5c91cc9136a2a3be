//! The families of faults: every one alone, every two at once, and some more.
use super::buffer::Room;
use super::case::Case;
use super::patterns::distinct;
use super::random::Xorshift;
use super::run::{Done, Run};

/// A fault: damage to the input, or a buffer one short.
#[derive(Clone, Copy)]
pub enum Fault<D> {
    Damage(D),
    Short(u32),
}

/// Faults of one sort of case.
pub type Faults<C> = Vec<Fault<<C as Case>::Damage>>;

/// All faults but an entry too many, which takes a million: the family over the limits has it.
pub fn faults<C: Case>(buffers: u32) -> Faults<C> {
    C::damages().into_iter().map(Fault::Damage).chain(shortages::<C>(buffers)).collect()
}

/// Each buffer one short.
pub fn shortages<C: Case>(buffers: u32) -> Faults<C> {
    (0..buffers).map(Fault::Short).collect()
}

// The case with these faults, and the room that is left for it.
fn damaged<C: Case>(base: &C, faults: &[Fault<C::Damage>], random: &mut Xorshift) -> (C, Room) {
    let mut case = base.clone();
    let (mut damages, mut set) = (vec![], 0);
    for fault in faults {
        match *fault {
            Fault::Damage(damage) => damages.push(damage),
            Fault::Short(which) => set |= 1 << which,
        }
    }
    damages.sort();
    for damage in damages {
        case.damage(damage, random);
    }
    (case, Room::Short(set))
}

/// Makes what is damaged.
pub type Base<C> = fn(&mut Xorshift) -> C;

/// Every fault, on so many bases.
pub fn alone<C: Case>(run: &mut Run<C>, base: Base<C>, bases: u32) -> Done {
    run.begin("every fault, alone");
    for _ in 0..bases {
        let base = base(&mut run.random);
        for fault in faults::<C>(run.buffers) {
            let (case, room) = damaged(&base, &[fault], &mut run.random);
            run.case(&case, room)?;
        }
    }
    Ok(())
}

/// Every two of them, so that their order is seen.
pub fn in_pairs<C: Case>(run: &mut Run<C>, base: Base<C>, bases: u32) -> Done {
    run.begin("every two faults at once");
    let faults = faults::<C>(run.buffers);
    for _ in 0..bases {
        let base = base(&mut run.random);
        for (i, &first) in faults.iter().enumerate() {
            for &second in &faults[i..] {
                let (case, room) = damaged(&base, &[first, second], &mut run.random);
                run.case(&case, room)?;
            }
        }
    }
    Ok(())
}

/// Two to five of them, out of one of these lists.
pub fn several<C: Case>(run: &mut Run<C>, base: Base<C>, lists: &[&Faults<C>], cases: u32) -> Done {
    run.begin("two to five faults at once");
    for _ in 0..cases {
        let base = base(&mut run.random);
        let from = run.random.pick(lists);
        let count = run.random.between(2, 5);
        let chosen = distinct(from.len() as u32, count, &mut run.random);
        let chosen: Faults<C> = chosen.into_iter().map(|i| from[i as usize]).collect();
        let (case, room) = damaged(&base, &chosen, &mut run.random);
        run.case(&case, room)?;
    }
    Ok(())
}
