//! The comparison of an entry that takes a pattern and lent buffers, over families of inputs.
use super::buffer::Room;
use super::damage::Damage;
use super::faults::{alone, faults, in_pairs, several, shortages, Fault, Faults};
use super::input::Input;
use super::patterns::{every, random, with_lengths, SHAPES};
use super::random::Xorshift;
use super::run::{Check, Difference, Done, Family, Run};
use super::table::{MAX_ENTRIES, MAX_SIZE};

/// A kind of valid pattern that an entry asks for, of any size.
#[derive(Clone, Copy)]
pub struct Kind {
    pub name: &'static str,
    pub make: fn(u32, &mut Xorshift) -> Input,
}

/// Compares an entry that lends so many buffers, over all families, then over the kinds of its own.
pub fn compare(check: Check<Input>, buffers: u32, kinds: &[Kind], seed: u64) -> Result<Vec<Family>, Difference> {
    let mut run = Run::new(check, buffers, seed);
    small(&mut run)?;
    random_patterns(&mut run)?;
    alone(&mut run, base, 500)?;
    in_pairs(&mut run, base, 50)?;
    many_faults(&mut run)?;
    full_size(&mut run)?;
    over_the_limits(&mut run)?;
    of_kinds(&mut run, kinds)?;
    Ok(run.families)
}

fn small(run: &mut Run<Input>) -> Done {
    run.begin("every pattern of size 0 to 3");
    for size in 0..=3 {
        for input in every(size) {
            run.both(&input)?;
        }
    }
    Ok(())
}

fn random_patterns(run: &mut Run<Input>) -> Done {
    run.begin("random patterns of size 0 to 60");
    for _ in 0..40_000 {
        let size = run.random.below(61);
        let shape = run.random.pick(&SHAPES);
        let empties = run.random.one_in(4);
        let room = run.room();
        let input = random(size, shape, empties, &mut run.random);
        run.case(&input, room)?;
    }
    Ok(())
}

fn base(rng: &mut Xorshift) -> Input {
    let size = rng.below(13);
    let shape = rng.pick(&SHAPES);
    let empties = rng.one_in(6);
    random(size, shape, empties, rng)
}

fn many_faults(run: &mut Run<Input>) -> Done {
    let all = faults::<Input>(run.buffers);
    // Where the size and the starts are sound, the table's later lines decide.
    let rows = all.iter().filter(|fault| matches!(fault, Fault::Damage(damage) if *damage <= Damage::RowLargest));
    let rows: Faults<Input> = rows.copied().collect();
    let late: Faults<Input> = rows.iter().copied().chain(shortages::<Input>(run.buffers)).collect();
    several(run, base, &[&all, &late, &rows], 30_000)
}

/// As many rows in each column of the largest size as make up the largest number of entries.
pub const FULL_LENGTH: u32 = MAX_ENTRIES as u32 / MAX_SIZE;

fn full_size(run: &mut Run<Input>) -> Done {
    run.begin("patterns of size 4096");
    let rng = &mut run.random;
    let mut inputs = vec![
        with_lengths(MAX_SIZE, rng, |_, _| 1),
        with_lengths(MAX_SIZE, rng, |_, _| 5),
        with_lengths(MAX_SIZE, rng, |rng, _| rng.between(1, 9)),
        with_lengths(MAX_SIZE, rng, |_, c| if c % 1000 == 7 { MAX_SIZE } else { 1 + c % 3 }),
        with_lengths(MAX_SIZE, rng, |_, c| 1 + (MAX_SIZE - 1 - c) / 16),
        with_lengths(MAX_SIZE, rng, |_, c| u32::from(c + 1 < MAX_SIZE)),
    ];
    let full = with_lengths(MAX_SIZE, rng, |_, _| FULL_LENGTH);
    for fault in [Damage::RowIsSize, Damage::RowTwice] {
        let mut input = full.clone();
        // One entry less leaves room for the fault.
        input.rows.pop();
        *input.starts.last_mut().expect("there are starts") -= 1;
        fault.apply(&mut input, rng);
        inputs.push(input);
    }
    inputs.push(full);
    for input in &inputs {
        run.both(input)?;
        for which in 0..run.buffers {
            run.case(input, Room::Short(1 << which))?;
        }
    }
    Ok(())
}

fn over_the_limits(run: &mut Run<Input>) -> Done {
    run.begin("one column or one entry too many");
    let rng = &mut run.random;
    let mut longer = with_lengths(MAX_SIZE, rng, |_, c| FULL_LENGTH + u32::from(c == 9));
    let inputs = [
        with_lengths(MAX_SIZE + 1, rng, |_, _| 1),
        with_lengths(MAX_SIZE + 1, rng, |_, _| 0),
        longer.clone(),
        Input { size: 0, starts: vec![0], rows: longer.rows.clone() },
        Input { size: u32::MAX, starts: vec![], rows: vec![] },
    ];
    for input in &inputs {
        run.both(input)?;
    }
    // Three faults more, none of which may come before.
    for fault in [Damage::RowLargest, Damage::LastLow, Damage::StartsNone] {
        fault.apply(&mut longer, &mut run.random);
        run.both(&longer)?;
    }
    Ok(())
}

fn of_kinds(run: &mut Run<Input>, kinds: &[Kind]) -> Done {
    for (sizes, least, most, cases) in [("size 0 to 60", 0, 60, 10_000), ("size 4096", MAX_SIZE, MAX_SIZE, 6)] {
        for kind in kinds {
            run.begin(&format!("{}, {sizes}", kind.name));
            for _ in 0..cases {
                let size = run.random.between(least, most);
                let room = run.room();
                let input = (kind.make)(size, &mut run.random);
                run.case(&input, room)?;
            }
        }
    }
    Ok(())
}
