//! The Rust, called with inputs of ours; its numbers become columns.
use super::input::Input;
use crate::Column;
use std::panic::{catch_unwind, set_hook, take_hook, AssertUnwindSafe};

/// What the Rust answers, or `None` where it panics; nothing is printed then.
pub fn quietly<T>(call: impl FnOnce() -> T) -> Option<T> {
    let hook = take_hook();
    set_hook(Box::new(|_| {}));
    let answer = catch_unwind(AssertUnwindSafe(call)).ok();
    set_hook(hook);
    answer
}

/// A list of its columns.
pub fn columns(list: &[usize]) -> Vec<Column> {
    list.iter().map(|&c| Column(c as u32)).collect()
}

fn wide(list: &[Column]) -> Vec<usize> {
    list.iter().map(|c| c.0 as usize).collect()
}

/// Its matching.
pub fn matching(input: &Input) -> Option<Vec<Column>> {
    minilp::find_diag_matching(input.size as usize, &input.widened()).map(|row2col| columns(&row2col))
}

/// One search of its matching, from this column, where the others have the rows that are matched to them.
pub fn search(input: &Input, row2col: &[Column], from: Column) -> Option<Vec<Column>> {
    minilp::search_once(&input.widened(), &wide(row2col), from.0 as usize).map(|row2col| columns(&row2col))
}

/// Its two walks under this matching.
pub fn blocks(input: &Input, row2col: &[Column]) -> Vec<Vec<Column>> {
    minilp::walk_twice(&input.widened(), &wide(row2col)).iter().map(|block| columns(block)).collect()
}
