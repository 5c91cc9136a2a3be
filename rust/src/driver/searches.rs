//! A plain reading of the matching's rule in the project's scope document, written apart from the library and from the Rust:
//! recursive, and looking at each list from its beginning. It says what the Rust does not: which search failed, and what it visited.
use super::input::Input;
use crate::{Column, Refusal};
use std::collections::BTreeSet;

/// What the rule gives for a valid pattern.
pub struct Ruled {
    /// The column of each row, or the search that failed.
    pub matching: Result<Vec<Column>, Failed>,
    /// How many columns the path of each successful search has.
    pub paths: Vec<usize>,
}

/// A failed search: the column it started from, and for each column whether it was visited.
pub struct Failed {
    pub column: Column,
    pub visited: Vec<bool>,
}

impl Failed {
    /// What the table gives for it.
    pub fn refusal(&self) -> Refusal {
        Refusal { number: 9, place: self.column.0 }
    }

    /// The marks of the visited columns.
    pub fn marks(&self) -> impl Iterator<Item = u32> + '_ {
        self.visited.iter().copied().map(u32::from)
    }
}

struct Searches<'a> {
    input: &'a Input,
    row2col: Vec<Option<Column>>,
    visited: Vec<bool>,
}

impl Searches<'_> {
    // The length of the path from this column, each column on it moved to the row it was looking at; or none.
    fn search(&mut self, c: Column) -> Option<usize> {
        self.visited[c.0 as usize] = true;
        let rows = self.input.column(c.0 as usize);
        if let Some(free) = rows.iter().find(|row| self.row2col[row.0 as usize].is_none()) {
            self.row2col[free.0 as usize] = Some(c);
            return Some(1);
        }
        for row in rows {
            let owner = self.row2col[row.0 as usize].expect("no row of the column is free");
            if self.visited[owner.0 as usize] {
                continue;
            }
            if let Some(rest) = self.search(owner) {
                self.row2col[row.0 as usize] = Some(c);
                return Some(1 + rest);
            }
        }
        None
    }
}

/// The rule: a search from each column in turn.
pub fn ruled(input: &Input) -> Ruled {
    let size = input.size as usize;
    let mut searches = Searches { input, row2col: vec![None; size], visited: vec![] };
    let mut paths = vec![];
    for column in (0..input.size).map(Column) {
        searches.visited = vec![false; size];
        match searches.search(column) {
            Some(path) => paths.push(path),
            None => return Ruled { matching: Err(Failed { column, visited: searches.visited }), paths },
        }
    }
    Ruled { matching: Ok(taken(searches.row2col)), paths }
}

/// A search that found a row: the column of each row afterwards, and how many columns its path has.
pub struct Moved {
    pub row2col: Vec<Column>,
    pub path: usize,
}

/// The rule's one search, from a column whose row has become free, where the others keep the rows that are matched to them.
pub fn ruled_once(input: &Input, row2col: &[Column], from: Column) -> Result<Moved, Failed> {
    let kept = row2col.iter().map(|&column| (column != from).then_some(column)).collect();
    let mut searches = Searches { input, row2col: kept, visited: vec![false; row2col.len()] };
    match searches.search(from) {
        Some(path) => Ok(Moved { row2col: taken(searches.row2col), path }),
        None => Err(Failed { column: from, visited: searches.visited }),
    }
}

// As many columns have taken a row as there are rows: none is free.
fn taken(row2col: Vec<Option<Column>>) -> Vec<Column> {
    row2col.into_iter().map(|column| column.expect("every row is taken")).collect()
}

/// In how many rows the chosen columns have entries.
pub fn rows_together(input: &Input, chosen: &[bool]) -> usize {
    let columns = (0..input.size as usize).filter(|&c| chosen[c]);
    columns.flat_map(|c| input.column(c)).collect::<BTreeSet<_>>().len()
}

/// The largest size for which every choice of rows is tried.
pub const MOST_TRIED: u32 = 8;

/// Whether there is a perfect matching, by trying: after each column, the sets of rows that the columns so far can have.
pub fn matchable(input: &Input) -> bool {
    let mut sets = BTreeSet::from([0_u32]);
    for c in 0..input.size as usize {
        let with = |set: u32| input.column(c).iter().map(move |row| (set, 1 << row.0));
        sets = sets.into_iter().flat_map(with).filter(|(set, row)| set & row == 0).map(|(set, row)| set | row).collect();
    }
    !sets.is_empty()
}
