//! What an edit must come to, by two judges: a plain reading of the rules, and the Rust, which is shown the edited matrix in stages.
use super::case::EditCase;
use crate::driver::form::Form;
use crate::driver::original;
use crate::driver::searches::{ruled_once, Failed};
use crate::driver::walks::two_walks;

/// On valid input: the form after the edit, or the search that failed, whose visited columns only the reading names.
pub fn judge_valid(case: &EditCase) -> Result<Result<Form, Failed>, String> {
    let edited = case.edited();
    let original = original::search(&edited, &case.matching, case.column);
    let row2col = match (ruled_once(&edited, &case.matching, case.column), original) {
        (Ok(moved), Some(same)) if moved.row2col == same => same,
        (Err(failed), None) => return Ok(Err(failed)),
        _ => return Err("the judges disagree: the Rust's search and the rule's".to_string()),
    };
    let blocks = two_walks(&edited, &row2col);
    match blocks == original::blocks(&edited, &row2col) {
        true => Ok(Ok(Form { row2col, blocks })),
        false => Err("the judges disagree: the Rust's two walks and the rule's".to_string()),
    }
}
