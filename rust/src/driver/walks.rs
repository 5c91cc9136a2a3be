//! A plain reading of the blocks' rule in the project's scope document, written apart from the library and from the Rust: recursive,
//! under any perfect matching.
use super::components::Graph;
use super::input::Input;
use crate::Column;

/// A walk: the columns as they are entered, and as they finish.
struct Walk<'a> {
    children: &'a [Vec<usize>],
    is_entered: Vec<bool>,
    entered: Vec<usize>,
    finished: Vec<usize>,
}

impl Walk<'_> {
    fn over(children: &[Vec<usize>]) -> Walk<'_> {
        Walk { children, is_entered: vec![false; children.len()], entered: vec![], finished: vec![] }
    }

    fn enter(&mut self, c: usize) {
        if self.is_entered[c] {
            return;
        }
        self.is_entered[c] = true;
        self.entered.push(c);
        let children = self.children;
        children[c].iter().for_each(|&d| self.enter(d));
        self.finished.push(c);
    }
}

/// The blocks of the rule.
pub fn two_walks(input: &Input, row2col: &[Column]) -> Vec<Vec<Column>> {
    let Graph { children } = Graph::of(input, row2col);
    let mut there = Walk::over(&children);
    (0..children.len()).for_each(|c| there.enter(c));
    let reversed = reversed(&children);
    let mut back = Walk::over(&reversed);
    let mut blocks = vec![];
    for c in there.finished.into_iter().rev() {
        let from = back.entered.len();
        back.enter(c);
        let block: Vec<Column> = back.entered[from..].iter().map(|&d| Column(d as u32)).collect();
        if !block.is_empty() {
            blocks.push(block);
        }
    }
    blocks
}

// Each column's list rises, since the columns are gone through as they rise.
fn reversed(children: &[Vec<usize>]) -> Vec<Vec<usize>> {
    let mut reversed = vec![vec![]; children.len()];
    for (c, children) in children.iter().enumerate() {
        children.iter().for_each(|&d| reversed[d].push(c));
    }
    reversed
}
