//! A block form, found afresh or by an edit: what it holds, which buffers it is handed out in, and what the judges say of one.
use super::input::Input;
use super::lent::{fill, marks, output, work, Lent, Need, Need::Size, Need::Starts, Slot};
use super::original;
use super::searches::Failed;
use super::verdict::list;
use crate::{BlocksAnswer, BlocksLent, Column, Refusal};
use std::iter::{once, repeat_n};

/// The buffers of plain numbers. What the reversed graph needs is another matter for each entry.
pub const fn numbers(backrows: Need) -> [Slot; 10] {
    [
        work("visited", Size),
        work("cheap", Size),
        work("finished", Size),
        work("col2row", Size),
        work("backstarts", Starts),
        work("backrows", backrows),
        work("scol", Size),
        work("sat", Size),
        marks("hall"),
        output("blockstarts", Starts),
    ]
}

/// The buffers of columns.
pub const COLUMNS: [Slot; 2] = [output("row2col", Size), output("blockcols", Size)];

/// Those buffers, lent.
pub fn lend(lent: &mut Lent) -> BlocksLent<'_> {
    let (numbers, [row2col, blockcols]) = lent.lend();
    let [visited, cheap, finished, col2row, backstarts, backrows, scol, sat, hall, blockstarts] = numbers;
    BlocksLent { visited, cheap, finished, col2row, backstarts, backrows, scol, sat, row2col, hall, blockcols, blockstarts }
}

/// A matching and its blocks.
pub struct Form {
    pub row2col: Vec<Column>,
    pub blocks: Vec<Vec<Column>>,
}

impl Form {
    /// The Rust's, or none where it panics.
    pub fn original(input: &Input) -> Option<Form> {
        let form = original::quietly(|| minilp::find_block_diag_form(input.size as usize, &input.widened()))?;
        let blocks = form.block_cols.iter().map(|block| original::columns(block)).collect();
        Some(Form { row2col: original::columns(&form.row2col), blocks })
    }

    /// The form that stands in these buffers, of this size and with so many blocks.
    pub fn lent(lent: BlocksLent<'_>, size: usize, count: usize) -> Form {
        let BlocksLent { row2col, blockcols, blockstarts, .. } = lent;
        let ends = blockstarts[..count + 1].windows(2);
        let blocks = ends.map(|pair| blockcols[pair[0] as usize..pair[1] as usize].to_vec()).collect();
        Form { row2col: row2col[..size].to_vec(), blocks }
    }

    fn columns(&self) -> impl Iterator<Item = Column> + '_ {
        self.blocks.iter().flatten().copied()
    }

    // 0 and the end of each block, then zeros: as many as there are columns, and one.
    fn starts(&self) -> impl Iterator<Item = u32> + '_ {
        let ends = self.blocks.iter().scan(0, |end, block| {
            *end += block.len() as u32;
            Some(*end)
        });
        once(0).chain(ends).chain(repeat_n(0, self.row2col.len() - self.blocks.len()))
    }

    // Acceptance clears the marks.
    fn fill(&self, lent: BlocksLent<'_>) {
        fill(lent.row2col, self.row2col.iter().copied());
        fill(lent.hall, self.row2col.iter().map(|_| 0));
        fill(lent.blockcols, self.columns());
        fill(lent.blockstarts, self.starts());
    }
}

/// What the judges say: the table's refusal, a form, or the search of the matching that failed.
pub enum Formed {
    Refused(Refusal),
    Formed(Form),
    Unmatched(Failed),
}

impl Formed {
    pub fn refusal(&self) -> Option<Refusal> {
        match self {
            Formed::Refused(refused) => Some(*refused),
            Formed::Formed(_) => None,
            Formed::Unmatched(failed) => Some(failed.refusal()),
        }
    }

    /// The count stands beside the answer, since it must be 0 after a refusal, which the answer does not show.
    pub fn answer(&self) -> (BlocksAnswer, u32) {
        let count = match self {
            Formed::Formed(form) => form.blocks.len() as u32,
            Formed::Refused(_) | Formed::Unmatched(_) => 0,
        };
        (self.refusal().map_or(BlocksAnswer::Accepted { count }, BlocksAnswer::Refused), count)
    }

    /// Refusal 9 sets the marks and leaves no blocks; what it leaves of the matching is another matter for each entry.
    pub fn fill(&self, lent: BlocksLent<'_>) {
        match self {
            Formed::Refused(_) => {}
            Formed::Formed(form) => form.fill(lent),
            Formed::Unmatched(failed) => {
                let size = failed.visited.len();
                fill(lent.hall, failed.marks());
                fill(lent.blockcols, repeat_n(Column(0), size));
                fill(lent.blockstarts, repeat_n(0, size + 1));
            }
        }
    }

    pub fn lists(&self) -> String {
        match self {
            Formed::Refused(_) => String::new(),
            Formed::Formed(form) => [
                list("match", form.row2col.iter().map(|c| c.0)),
                list("count", once(form.blocks.len() as u32)),
                list("columns", form.columns().map(|c| c.0)),
                list("starts", form.starts()),
            ]
            .concat(),
            Formed::Unmatched(failed) => list("hall", failed.marks()),
        }
    }
}
