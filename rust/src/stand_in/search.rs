//! One search of the matching.
use super::matrix::Matrix;
use super::Slip;
use crate::{BlocksLent, Column};

/// What stands in the matching for a free row.
pub const NO_COLUMN: Column = Column(u32::MAX);

/// Searches from a column, whose visits are not marked yet. Where a free row is found, the columns on the path move.
pub fn found(matrix: &Matrix<'_>, from: Column, lent: &mut BlocksLent<'_>) -> bool {
    let mut depth = 0;
    let mut entering = Some(from);
    loop {
        if let Some(column) = entering.take() {
            (lent.scol[depth], lent.sat[depth]) = (column.0, 0);
            lent.visited[column.0 as usize] = 1;
            depth += 1;
            let free = matrix.rows(column.0 as usize).iter().position(|row| lent.row2col[row.0 as usize] == NO_COLUMN);
            if let (Some(free), false) = (free, Slip::FreeRowNotFirst.is_made()) {
                lent.sat[depth - 1] = free as u32;
                move_along(matrix, depth, lent);
                return true;
            }
        }
        if depth == 0 {
            return false;
        }
        let top = depth - 1;
        let rows = matrix.rows(lent.scol[top] as usize);
        let owner = |at: u32| lent.row2col[rows[at as usize].0 as usize];
        let leads = |at: &u32| owner(*at) == NO_COLUMN || lent.visited[owner(*at).0 as usize] == 0;
        match (lent.sat[top]..rows.len() as u32).find(leads) {
            None => depth -= 1,
            Some(at) => {
                let column = owner(at);
                lent.sat[top] = at;
                if column == NO_COLUMN {
                    move_along(matrix, depth, lent);
                    return true;
                }
                entering = Some(column);
            }
        }
    }
}

// Every column on the stack moves to the row that it is looking at.
fn move_along(matrix: &Matrix<'_>, depth: usize, lent: &mut BlocksLent<'_>) {
    for step in 0..depth {
        let c = lent.scol[step];
        let row = matrix.rows(c as usize)[lent.sat[step] as usize];
        lent.row2col[row.0 as usize] = Column(c);
    }
}
