//! The inputs whose answers are stored.
use super::compare::Kind;
use super::damage::Damage;
use super::input::Input;
use super::patterns::{every, random, with_lengths, SHAPES};
use super::random::Xorshift;

/// The patterns of the scope document's samples P1 to P6.
fn documented() -> Vec<Input> {
    let columns: [&[&[u32]]; 6] = [
        &[],                       // P1
        &[&[]],                    // P2
        &[&[0, 1], &[1], &[0, 2]], // P3
        &[&[0, 1], &[0], &[1, 2]], // P4
        &[&[0], &[0], &[1, 2]],    // P5
        &[&[0, 1], &[0, 1]],       // P6
    ];
    columns.map(|columns| Input::from_columns(&columns.iter().map(|rows| rows.to_vec()).collect::<Vec<_>>())).to_vec()
}

// Those of the document, all up to size 2, and some of size 3.
fn small() -> Vec<Input> {
    let mut inputs = documented();
    inputs.extend((0..=2).flat_map(every));
    // A step that has no factor in common with the number of lists, so that every column varies.
    inputs.extend(every(3).skip(5).step_by(71));
    inputs
}

/// Some three hundred inputs, from the small to the large, then damaged ones.
pub fn patterns(seed: u64) -> Vec<Input> {
    let mut rng = Xorshift::new(seed);
    let mut inputs = small();
    inputs.extend((0..100).map(|_| {
        let size = rng.between(3, 30);
        with_lengths(size, &mut rng, |rng, _| rng.between(1, size.min(9)))
    }));
    inputs.extend((0..44).map(|i| random(rng.between(3, 12), SHAPES[i % 4], i % 3 == 0, &mut rng)));
    inputs.extend((0..64).map(|i| damaged(FAULTS[i % FAULTS.len()], &mut rng)));
    inputs
}

/// The small inputs, then so many of the kinds in turn, up to this size, then damaged ones: some hundred and forty and those of the kinds.
pub fn of_kinds(kinds: &[Kind], count: usize, largest: u32, seed: u64) -> Vec<Input> {
    let mut rng = Xorshift::new(seed);
    let mut inputs = small();
    inputs.extend((0..count).map(|i| (kinds[i % kinds.len()].make)(rng.between(3, largest), &mut rng)));
    inputs.extend((0..48).map(|i| damaged(FAULTS[i % FAULTS.len()], &mut rng)));
    inputs
}

/// Faults that leave the starts well formed, alone and together.
const FAULTS: [&[Damage]; 8] = [
    &[Damage::RowIsSize],
    &[Damage::RowTwice],
    &[Damage::ColumnEmptied],
    &[Damage::RowAboveSize, Damage::RowLargest],
    &[Damage::RowTwice, Damage::RowTwice],
    &[Damage::ColumnEmptied, Damage::ColumnEmptied],
    &[Damage::ColumnEmptied, Damage::RowTwice],
    &[Damage::ColumnEmptied, Damage::RowTwice, Damage::RowIsSize],
];

fn damaged(faults: &[Damage], rng: &mut Xorshift) -> Input {
    let size = rng.between(2, 9);
    let mut input = with_lengths(size, rng, |rng, _| rng.between(1, size.min(4)));
    for fault in faults {
        fault.apply(&mut input, rng);
    }
    input
}
