//! Edits that are smaller than a given one.
use super::case::EditCase;
use crate::driver::input::Input;
use crate::driver::smallest::{fewer_starts, parts, without_entries, LEVELS};
use crate::driver::table::misshapen;
use crate::{Column, OriginalRow};
use std::ops::Range;

/// Without half of the columns, entries or replacement rows, without a quarter, and so on.
pub fn smaller(case: &EditCase) -> Box<dyn Iterator<Item = EditCase> + '_> {
    Box::new(LEVELS.flat_map(move |level| {
        let columns = parts(case.old.starts.len(), level).filter_map(|part| without_columns(case, part));
        let entries = without_entries(&case.old, level).map(|old| EditCase { old, ..case.clone() });
        let rows = parts(case.rows.len(), level).map(|part| without_rows(case, part));
        columns.chain(entries).chain(rows)
    }))
}

fn without_rows(case: &EditCase, part: Range<usize>) -> EditCase {
    let mut smaller = case.clone();
    smaller.rows.drain(part);
    smaller
}

// Where the starts are no starts, they are only numbers.
fn without_columns(case: &EditCase, part: Range<usize>) -> Option<EditCase> {
    match misshapen(&case.old) {
        None => Renumbered::without(case, part).map(|renumbered| renumbered.case(case)),
        Some(_) => {
            let mut smaller = EditCase { old: fewer_starts(&case.old, part), ..case.clone() };
            smaller.resize_matching(|| Column(0));
            Some(smaller)
        }
    }
}

/// The columns and rows that stay, by their old numbers.
struct Renumbered {
    columns: Vec<usize>,
    rows: Vec<usize>,
}

impl Renumbered {
    // The edited column stays. With the others go the rows that are matched to them, if there are as many.
    fn without(case: &EditCase, part: Range<usize>) -> Option<Renumbered> {
        let size = case.old.size as usize;
        let goes = |c: usize| part.contains(&c) && c != case.column.0 as usize;
        let columns: Vec<usize> = (0..size).filter(|&c| !goes(c)).collect();
        let rows: Vec<usize> = (0..size).filter(|&r| !goes(case.matching[r].0 as usize)).collect();
        (columns.len() < size && columns.len() == rows.len()).then_some(Renumbered { columns, rows })
    }

    fn case(&self, case: &EditCase) -> EditCase {
        let size = case.old.size;
        let row = |row: &OriginalRow| number(&self.rows, row.0, size);
        let column = |column: Column| Column(number(&self.columns, column.0, size).expect("its row stays, so it does"));
        let columns = self.columns.iter().map(|&c| case.old.column(c).iter().filter_map(row).collect());
        let columns: Vec<Vec<u32>> = columns.collect();
        EditCase {
            old: Input::from_columns(&columns),
            column: column(case.column),
            rows: case.rows.iter().filter_map(row).map(OriginalRow).collect(),
            matching: self.rows.iter().map(|&r| column(case.matching[r])).collect(),
        }
    }
}

// The new number of one that stays. A number that was outside stays so.
fn number(staying: &[usize], number: u32, size: u32) -> Option<u32> {
    match number < size {
        true => staying.binary_search(&(number as usize)).ok().map(|new| new as u32),
        false => Some(number - (size - staying.len() as u32)),
    }
}
