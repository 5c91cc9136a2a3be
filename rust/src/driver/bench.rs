//! Times, in batches that take turns.
use super::buffer::Room;
use super::case::Case;
use super::lent::Lent;
use super::random::Xorshift;
use super::verdict::{check, Verdict};
use std::hint::black_box;
use std::time::Instant;

/// How many batches of each are measured.
pub const BATCHES: usize = 101;

/// How many different patterns a batch goes through, so that none of them is learnt by heart.
pub const PATTERNS: usize = 16;

/// How many calls make a batch.
pub const CALLS: usize = 2 * PATTERNS;

/// The sizes at which each kind is timed.
const SIZES: [u32; 2] = [1_000, 4_096];

/// Nanoseconds a call: the median and the least of the batches.
#[derive(Clone, Copy, Debug)]
pub struct Times {
    pub median: f64,
    pub least: f64,
}

/// An entry beside the Rust on one kind of input, and its clearing alone.
pub struct Timing {
    pub words: String,
    pub library: Times,
    pub original: Times,
    pub clearing: Times,
}

/// A kind of case that is timed: its name in the report, how to make one of a size, and how many calls make a batch of them.
pub struct Benched<C> {
    pub words: String,
    pub make: fn(u32, &mut Xorshift) -> C,
    pub calls: usize,
}

/// A kind with the usual number of calls.
pub fn benched<C>(words: &str, make: fn(u32, &mut Xorshift) -> C) -> Benched<C> {
    Benched { words: words.to_string(), make, calls: CALLS }
}

/// The same function of the Rust.
type Original<R> = fn(usize, &minilp::Columns) -> R;

/// What the report says of some cases behind the name of their kind.
type Noted<C> = fn(&[C]) -> String;

/// Times an entry beside the Rust on cases of these kinds.
pub fn bench<V: Verdict, R>(kinds: &[Benched<V::Case>], noted: Noted<V::Case>, original: Original<R>, seed: u64) -> Vec<Timing> {
    let mut random = Xorshift::new(seed);
    let mut timings = vec![];
    for kind in kinds {
        for size in SIZES {
            let cases: Vec<V::Case> = (0..PATTERNS.min(kind.calls)).map(|_| (kind.make)(size, &mut random)).collect();
            let words = format!("size {size}, {}{}", kind.words, noted(&cases));
            let [library, original, clearing] = timed::<V, R>(&cases, kind.calls, original, &mut random);
            timings.push(Timing { words, library, original, clearing });
        }
    }
    timings
}

fn timed<V: Verdict, R>(cases: &[V::Case], calls: usize, original: Original<R>, random: &mut Xorshift) -> [Times; 3] {
    for case in cases {
        check::<V>(case, Room::Enough, random).expect("both answer the same");
    }
    let wide: Vec<minilp::Columns> = cases.iter().map(Case::timed).collect();
    let largest = cases.iter().map(Case::matrix).max_by_key(|input| input.rows.len()).expect("there are cases");
    let mut lent = Lent::junk(V::PLAN, largest, Room::Enough, random);
    let mut cleared = lent.clone();
    let mut library = |call: usize| {
        let case = black_box(&cases[call % cases.len()]);
        V::enter(case, &mut lent);
        black_box(V::call(case, &mut lent));
    };
    let mut original = |call: usize| {
        let which = call % cases.len();
        black_box(original(black_box(cases[which].matrix().size as usize), black_box(&wide[which])));
    };
    // As many stores as the library's clearing at the end.
    let mut clearing = |call: usize| black_box(&mut cleared).clear_accepted(cases[call % cases.len()].matrix());
    interleaved(calls, [&mut library, &mut original, &mut clearing])
}

/// Each task is called with the number of the call; every batch begins with the next task, so that none has the better place.
fn interleaved<const N: usize>(calls: usize, tasks: [&mut dyn FnMut(usize); N]) -> [Times; N] {
    let mut taken = [(); N].map(|_| vec![]);
    for batch in 0..BATCHES {
        for turn in 0..N {
            let which = (batch + turn) % N;
            taken[which].push(batch_time(calls, tasks[which]));
        }
    }
    taken.map(times)
}

fn batch_time(calls: usize, task: &mut dyn FnMut(usize)) -> f64 {
    let begin = Instant::now();
    for call in 0..calls {
        task(call);
    }
    begin.elapsed().as_nanos() as f64 / calls as f64
}

fn times(mut taken: Vec<f64>) -> Times {
    taken.sort_by(f64::total_cmp);
    Times { median: taken[taken.len() / 2], least: taken[0] }
}
