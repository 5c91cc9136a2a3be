//! The blocks once more, written apart from the library and from the Rust: which columns reach one another, found by other means
//! than two walks, and the lower order of a block form.
use super::input::Input;
use crate::Column;

/// Which columns each column leads to: those that its rows are matched to.
pub struct Graph {
    pub children: Vec<Vec<usize>>,
}

impl Graph {
    pub fn of(input: &Input, row2col: &[Column]) -> Graph {
        let children = |c: usize| input.column(c).iter().map(|row| row2col[row.0 as usize].0 as usize).collect();
        Graph { children: (0..input.size as usize).map(children).collect() }
    }
}

/// Holds a block form against both: its blocks are the components, each once, and no entry leads to an earlier block.
pub fn hold_form(input: &Input, row2col: &[Column], blocks: &[Vec<Column>]) -> Result<(), String> {
    let graph = Graph::of(input, row2col);
    let size = graph.children.len();
    let all = || blocks.iter().flatten().map(|c| c.0 as usize);
    if all().count() != size || all().any(|c| c >= size) {
        return Err("the blocks do not have every column once".to_string());
    }
    let named = named(size, blocks.iter().map(|block| block.iter().map(|c| c.0 as usize).collect()));
    if size <= MOST_CLOSED && named != closed(&graph) {
        return Err("the blocks are not the columns that reach one another".to_string());
    }
    if named != strong(&graph) {
        return Err("the blocks are not the components of one walk".to_string());
    }
    lower(&graph, blocks)
}

// For each column, the least one of its block; the blocks are then the same exactly if these names are. None has the name `size`.
fn named(size: usize, blocks: impl Iterator<Item = Vec<usize>>) -> Vec<usize> {
    let mut names = vec![size; size];
    for block in blocks {
        let least = block.iter().copied().min().unwrap_or(size);
        block.into_iter().for_each(|c| names[c] = least);
    }
    names
}

/// The largest size for which all that a column reaches is written down, a bit for each column.
const MOST_CLOSED: usize = 64;

// By Warshall's closure.
fn closed(graph: &Graph) -> Vec<usize> {
    let size = graph.children.len();
    let mut reached: Vec<u64> = (0..size).map(|c| graph.children[c].iter().fold(1 << c, |set, &d| set | 1 << d)).collect();
    for over in 0..size {
        for c in 0..size {
            if reached[c] >> over & 1 == 1 {
                reached[c] |= reached[over];
            }
        }
    }
    let mutual = |c: usize, d: usize| reached[c] >> d & 1 == 1 && reached[d] >> c & 1 == 1;
    (0..size).map(|c| (0..size).find(|&d| mutual(c, d)).expect("a column reaches itself")).collect()
}

/// Tarjan's search: one walk, in which a component ends at the column that reaches none entered before it.
struct Tarjan<'a> {
    graph: &'a Graph,
    /// When each column was entered, from 1 on, or 0.
    entered: Vec<usize>,
    /// The columns whose component has not ended.
    open: Vec<usize>,
    is_open: Vec<bool>,
    components: Vec<Vec<usize>>,
    time: usize,
}

impl Tarjan<'_> {
    // The earliest open column that is reached from here, by when it was entered.
    fn enter(&mut self, c: usize) -> usize {
        self.time += 1;
        let mine = self.time;
        self.entered[c] = mine;
        self.open.push(c);
        self.is_open[c] = true;
        let mut low = mine;
        let graph = self.graph;
        for &d in &graph.children[c] {
            if self.entered[d] == 0 {
                low = low.min(self.enter(d));
            } else if self.is_open[d] {
                low = low.min(self.entered[d]);
            }
        }
        if low == mine {
            let from = self.open.iter().rposition(|&d| d == c).expect("it is open");
            let component = self.open.split_off(from);
            component.iter().for_each(|&d| self.is_open[d] = false);
            self.components.push(component);
        }
        low
    }
}

fn strong(graph: &Graph) -> Vec<usize> {
    let size = graph.children.len();
    let (entered, is_open) = (vec![0; size], vec![false; size]);
    let mut tarjan = Tarjan { graph, entered, open: vec![], is_open, components: vec![], time: 0 };
    for c in 0..size {
        if tarjan.entered[c] == 0 {
            tarjan.enter(c);
        }
    }
    named(size, tarjan.components.into_iter())
}

// For every entry, the block of its column comes no later than the block of its row's match.
fn lower(graph: &Graph, blocks: &[Vec<Column>]) -> Result<(), String> {
    let mut block_of = vec![0; graph.children.len()];
    for (k, block) in blocks.iter().enumerate() {
        block.iter().for_each(|c| block_of[c.0 as usize] = k);
    }
    for (c, children) in graph.children.iter().enumerate() {
        if let Some(d) = children.iter().find(|&&d| block_of[d] < block_of[c]) {
            return Err(format!("the blocks are not in lower order: column {c} leads back to column {d}"));
        }
    }
    Ok(())
}
