//! Patterns made for the matching: with a perfect matching, without one, and with long paths.
use super::compare::Kind;
use super::input::Input;
use super::patterns::{distinct, with_lengths};
use super::random::Xorshift;
use super::table::MAX_ENTRIES;

/// The kinds that are compared and recorded.
pub const KINDS: [Kind; 7] = [
    Kind { name: "sparse, one to five rows a column", make: sparse },
    Kind { name: "dense, half of the rows or more, as far as entries allow", make: dense },
    Kind { name: "a perfect matching hidden among one to five rows a column", make: hidden_sparse },
    Kind { name: "triangular, permuted, half of them with a gap in the diagonal", make: triangular },
    Kind { name: "chains, open, closed into a ring, or cut", make: any_chain },
    Kind { name: "bands, some of them cut", make: any_band },
    Kind { name: "some columns share one row too few", make: crowded },
];

/// A kind with many blocks of more than one column, which the others seldom have.
pub const RINGS: Kind = Kind { name: "rings of columns, each a block, with entries to later ones, permuted", make: rings };

/// The columns of a pattern, each a list of rows.
type Columns = Vec<Vec<u32>>;

// As many rows as each column can have without too many entries together: all of them, but for the largest sizes.
fn most_rows(size: u32) -> u32 {
    size.min(MAX_ENTRIES as u32 / size.max(1))
}

fn sparse(size: u32, random: &mut Xorshift) -> Input {
    with_lengths(size, random, |random, _| random.between(1, size.min(5)))
}

fn dense(size: u32, random: &mut Xorshift) -> Input {
    let most = most_rows(size);
    with_lengths(size, random, |random, _| random.between(most.div_ceil(2), most))
}

fn hidden_sparse(size: u32, random: &mut Xorshift) -> Input {
    hidden(size, random, |random| random.between(1, size.min(5)))
}

/// A random permutation gives each column a row; the others of its list are any.
pub fn hidden(size: u32, random: &mut Xorshift, mut length: impl FnMut(&mut Xorshift) -> u32) -> Input {
    let mut columns = vec![];
    for row in distinct(size, size, random) {
        let len = length(random);
        columns.push(distinct_with(row, size, len, random));
    }
    Input::from_columns(&columns)
}

/// A list of distinct rows below `size`, in any order, and this row among them.
pub fn distinct_with(row: u32, size: u32, len: u32, random: &mut Xorshift) -> Vec<u32> {
    let mut rows = distinct(size, len, random);
    if !rows.contains(&row) {
        let at = random.below(len) as usize;
        rows[at] = row;
    }
    rows
}

// Column c has rows from c on, c itself among them: the one perfect matching is the diagonal. A gap in it leaves none.
fn triangular(size: u32, random: &mut Xorshift) -> Input {
    let gap = if random.one_in(2) && size > 0 { random.below(size) } else { size };
    let most = if random.one_in(2) { 5 } else { most_rows(size) };
    let mut columns = vec![];
    for c in 0..size {
        let below = size - c;
        let len = random.between(1, below.min(most));
        let rows = distinct_with(0, below, len, random);
        columns.push(rows.into_iter().map(|row| c + row).filter(|&row| row != c || c != gap).collect());
    }
    let columns = shuffled(&columns, random);
    Input::from_columns(&renamed(columns, random))
}

// A chain as it is, or one whose lists and columns stand in any order.
fn any_chain(size: u32, random: &mut Xorshift) -> Input {
    let mut columns = chain(size);
    match (random.below(3), size) {
        (0, 2..) => columns[size as usize - 1].push(0),
        (1, 1..) => drop(columns[0].pop()),
        _ => {}
    }
    if random.one_in(2) {
        columns = columns.iter().map(|rows| shuffled(rows, random)).collect();
    }
    if random.one_in(2) {
        columns = shuffled(&columns, random);
    }
    Input::from_columns(&renamed(columns, random))
}

// Column c has rows c + 1 and c, the last one only its own. Each takes the first, so that in the end all must move.
fn chain(size: u32) -> Columns {
    (0..size).map(|c| if c + 1 < size { vec![c + 1, c] } else { vec![c] }).collect()
}

/// A chain in which the last search moves every column. The rows have any names, so that two chains differ.
pub fn long_chain(size: u32, random: &mut Xorshift) -> Input {
    Input::from_columns(&renamed(chain(size), random))
}

// Column c has rows c + width down to c. The first columns take the highest ones and leave the first rows free, far from the last
// columns. For each of these the row below a column's own is the first that leads on, so its search goes through almost every column.
fn band(size: u32, width: u32) -> Columns {
    (0..size).map(|c| (c..size.min(c + width + 1)).rev().collect()).collect()
}

/// How many rows a column of a wide band has beside its own, and how many of its searches have a long path.
pub const WIDTH: u32 = 64;

/// A wide band. The rows have any names, so that two bands differ.
pub fn wide_band(size: u32, random: &mut Xorshift) -> Input {
    Input::from_columns(&renamed(band(size, WIDTH), random))
}

// A band of any width with half of the columns or fewer beside it. Where it is cut, row 0 is in no column.
fn any_band(size: u32, random: &mut Xorshift) -> Input {
    let mut columns = band(size, random.between(0, WIDTH.min(size / 2)));
    if random.one_in(3) && size > 0 {
        columns[0].pop();
    }
    Input::from_columns(&renamed(columns, random))
}

// Rings, one after the other. A column has its own row, the next one's in its ring, and some from the ring's beginning on.
fn rings(size: u32, random: &mut Xorshift) -> Input {
    let most = if random.one_in(2) { 4 } else { size };
    let more = random.below(3);
    let (mut columns, mut lo) = (vec![], 0);
    while lo < size {
        let hi = lo + random.between(1, most.min(size - lo));
        for c in lo..hi {
            let mut rows = vec![c, if c + 1 < hi { c + 1 } else { lo }];
            rows.extend((0..more).map(|_| random.between(lo, size - 1)));
            rows.sort();
            rows.dedup();
            columns.push(shuffled(&rows, random));
        }
        lo = hi;
    }
    let columns = shuffled(&columns, random);
    Input::from_columns(&renamed(columns, random))
}

// Some columns have all their rows among one row less than they are.
fn crowded(size: u32, random: &mut Xorshift) -> Input {
    let most = if random.one_in(2) { 5 } else { most_rows(size) };
    let columns = random.between(size.min(1), size);
    let rows = distinct(size, columns.saturating_sub(1), random);
    let mut all: Columns = (0..size).map(|_| some_of(size, most, random)).collect();
    for c in distinct(size, columns, random) {
        let chosen = some_of(rows.len() as u32, most, random);
        all[c as usize] = chosen.into_iter().map(|k| rows[k as usize]).collect();
    }
    Input::from_columns(&all)
}

// At least one of the numbers below `below`, if there are any, and no more than `most`.
fn some_of(below: u32, most: u32, random: &mut Xorshift) -> Vec<u32> {
    let len = random.between(below.min(1), below.min(most));
    distinct(below, len, random)
}

/// The same in any order.
pub fn shuffled<T: Clone>(list: &[T], random: &mut Xorshift) -> Vec<T> {
    let count = list.len() as u32;
    distinct(count, count, random).into_iter().map(|k| list[k as usize].clone()).collect()
}

// The same columns under other names of the rows. A search takes the same steps.
fn renamed(columns: Columns, random: &mut Xorshift) -> Columns {
    let size = columns.len() as u32;
    let names = distinct(size, size, random);
    columns.into_iter().map(|rows| rows.into_iter().map(|row| names[row as usize]).collect()).collect()
}
