//! Patterns: every small one, and random ones of several shapes.
use super::input::Input;
use super::random::Xorshift;

/// Every ordered list of distinct rows below `size`, the empty one included.
pub fn lists(size: u32) -> Vec<Vec<u32>> {
    let mut all = vec![vec![]];
    let mut at = 0;
    // Each list is followed, further on, by every list that has one row more at its end.
    while at < all.len() {
        for row in 0..size {
            if !all[at].contains(&row) {
                let mut longer = all[at].clone();
                longer.push(row);
                all.push(longer);
            }
        }
        at += 1;
    }
    all
}

/// Every pattern of this size.
pub fn every(size: u32) -> impl Iterator<Item = Input> {
    let lists = lists(size);
    let count = lists.len().pow(size);
    // The digits of a number, in the base of how many lists there are, choose the columns.
    (0..count).map(move |number| {
        let mut rest = number;
        let mut columns = vec![];
        for _ in 0..size {
            columns.push(lists[rest % lists.len()].clone());
            rest /= lists.len();
        }
        Input::from_columns(&columns)
    })
}

/// How long the columns of a random pattern are.
#[derive(Clone, Copy, Debug)]
pub enum Shape {
    /// One to five rows.
    Sparse,
    /// Half of the rows or more.
    Dense,
    /// Any number of rows.
    Mixed,
    /// All columns are the same list.
    Equal,
}

pub const SHAPES: [Shape; 4] = [Shape::Sparse, Shape::Dense, Shape::Mixed, Shape::Equal];

/// A list of `len` distinct rows below `size`, in any order.
pub fn distinct(size: u32, len: u32, random: &mut Xorshift) -> Vec<u32> {
    let mut rows: Vec<u32> = (0..size).collect();
    for i in 0..len {
        let j = random.between(i, size - 1);
        rows.swap(i as usize, j as usize);
    }
    rows.truncate(len as usize);
    rows
}

/// A pattern whose columns have these lengths.
pub fn with_lengths(size: u32, random: &mut Xorshift, mut length: impl FnMut(&mut Xorshift, u32) -> u32) -> Input {
    let mut columns = vec![];
    for c in 0..size {
        let len = length(random, c);
        columns.push(distinct(size, len, random));
    }
    Input::from_columns(&columns)
}

fn length(size: u32, shape: Shape, random: &mut Xorshift) -> u32 {
    match shape {
        Shape::Sparse => random.between(1, size.min(5)),
        Shape::Dense => random.between(size.div_ceil(2), size),
        Shape::Mixed | Shape::Equal => random.between(1, size),
    }
}

/// A random pattern of this size and shape; with `empties`, a column in four is empty.
pub fn random(size: u32, shape: Shape, empties: bool, random: &mut Xorshift) -> Input {
    let any = |random: &mut Xorshift| match empties && random.one_in(4) {
        true => 0,
        false => length(size, shape, random),
    };
    if let (Shape::Equal, true) = (shape, size > 0) {
        let len = any(random);
        let column = distinct(size, len, random);
        return Input::from_columns(&vec![column; size as usize]);
    }
    with_lengths(size, random, |random, _| any(random))
}

/// The same pattern with the rows of each column in rising order, as a sparse library stores them.
pub fn rising(input: &Input) -> Input {
    let columns = (0..input.size as usize).map(|c| {
        let mut rows: Vec<u32> = input.column(c).iter().map(|row| row.0).collect();
        rows.sort_unstable();
        rows
    });
    Input::from_columns(&columns.collect::<Vec<_>>())
}
