//! The order of columns by length: its judge, its recorded lines, its times.
use super::bench::{bench, benched};
use super::compare::Kind;
use super::damage::Damage;
use super::input::Input;
use super::lent::{fill, output, work, Lent, Need::Size, Plan};
use super::original::quietly;
use super::patterns::{random, rising, with_lengths, Shape};
use super::random::Xorshift;
use super::table::{self, given};
use super::verdict::{compared, list, recorded, refused, Verdict};
use super::{samples, Entry};
use crate::{order_simple, Column, OrderAnswer, OrderLent, Refusal};

pub const ENTRY: Entry = Entry {
    name: "order",
    kind: 1,
    compare: |seed| compared::<Judged>(&RISING, seed),
    record: |seed| recorded::<Judged>(&samples::patterns(seed)),
    bench_note: "Cleared are the four workspace slices.",
    bench: |seed| {
        let five = benched("five entries a column", |size, random| with_lengths(size, random, |_, _| 5));
        let any = benched("1 to 9 entries a column", |size, random| with_lengths(size, random, |random, _| random.between(1, 9)));
        let five_rising = benched("five entries a column, rows rising", |size, random| rising(&with_lengths(size, random, |_, _| 5)));
        let any_rising = benched("1 to 9 entries a column, rows rising", |size, random| {
            rising(&with_lengths(size, random, |random, _| random.between(1, 9)))
        });
        bench::<Judged, _>(&[five, any, five_rising, any_rising], |_| String::new(), minilp::order_simple, seed)
    },
};

/// Kinds made for the duplicate test, which looks at no mark where the rows of each column rise.
const RISING: [Kind; 3] = [
    Kind { name: "rows rising", make: all_rising },
    Kind { name: "rows rising, one of them twice", make: rising_twice },
    Kind { name: "rows rising but for two of the last column, exchanged", make: rising_but_two },
];

fn all_rising(size: u32, rng: &mut Xorshift) -> Input {
    let empties = rng.one_in(4);
    rising(&random(size, Shape::Sparse, empties, rng))
}

fn rising_twice(size: u32, rng: &mut Xorshift) -> Input {
    let mut input = all_rising(size, rng);
    Damage::RowTwice.apply(&mut input, rng);
    rising(&input)
}

fn rising_but_two(size: u32, rng: &mut Xorshift) -> Input {
    let mut input = all_rising(size, rng);
    if !input.rows.is_empty() {
        let c = (0..size as usize).filter(|&c| !input.column(c).is_empty()).last().expect("there is an entry");
        let (lo, hi) = (input.starts[c], input.starts[c + 1] - 1);
        input.rows.swap(rng.between(lo, hi) as usize, rng.between(lo, hi) as usize);
    }
    input
}

fn lend(lent: &mut Lent) -> OrderLent<'_> {
    let ([score2head, prev, next, marks, orig2new], [new2orig]) = lent.lend();
    OrderLent { score2head, prev, next, marks, new2orig, orig2new }
}

/// What the judges say: the table's refusal, or the Rust's order.
enum Judged {
    Refused(Refusal),
    Ordered(minilp::Permutation),
}

impl Verdict for Judged {
    type Case = Input;

    type Answer = OrderAnswer;

    const PLAN: &'static Plan = &Plan {
        numbers: &[work("score2head", Size), work("prev", Size), work("next", Size), work("marks", Size), output("orig2new", Size)],
        columns: &[output("new2orig", Size)],
    };

    fn call(input: &Input, lent: &mut Lent) -> OrderAnswer {
        order_simple(input.pattern(), lend(lent))
    }

    // The table decides on damaged input, the Rust on valid input, where it panics exactly on an empty column.
    fn judge(input: &Input, lengths: &[usize]) -> Result<Judged, String> {
        if let Some(refused) = refused::<Judged>(input, lengths) {
            return Ok(Judged::Refused(refused));
        }
        let order = quietly(|| minilp::order_simple(input.size as usize, &input.widened()));
        match (given(8, table::empty_column(input)), order) {
            (None, Some(order)) => Ok(Judged::Ordered(order)),
            (Some(refused), None) => Ok(Judged::Refused(refused)),
            _ => Err("the judges disagree: the table finds an empty column exactly where the Rust does not panic".to_string()),
        }
    }

    fn refusal(&self) -> Option<Refusal> {
        match self {
            Judged::Refused(refused) => Some(*refused),
            Judged::Ordered(_) => None,
        }
    }

    fn answer(&self) -> OrderAnswer {
        self.refusal().map_or(OrderAnswer::Accepted, OrderAnswer::Refused)
    }

    fn fill(&self, lent: &mut Lent) {
        if let Judged::Ordered(order) = self {
            let OrderLent { new2orig, orig2new, .. } = lend(lent);
            fill(new2orig, order.new2orig.iter().map(|&c| Column(c as u32)));
            fill(orig2new, order.orig2new.iter().map(|&place| place as u32));
        }
    }

    fn lists(&self) -> String {
        match self {
            Judged::Refused(_) => String::new(),
            Judged::Ordered(order) => {
                let of = |name, numbers: &[usize]| list(name, numbers.iter().map(|&number| number as u32));
                of("new", &order.new2orig) + &of("place", &order.orig2new)
            }
        }
    }
}
