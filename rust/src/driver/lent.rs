//! The buffers that an entry is lent: how long each must be, and what becomes of it.
use super::buffer::{Buffer, Room};
use super::input::Input;
use super::random::Xorshift;
use super::table::MAX_SIZE;
use crate::Column;

/// How much of a buffer is needed.
#[derive(Clone, Copy, Debug)]
pub enum Need {
    /// One number for each column.
    Size,
    /// One more than that, as starts have it.
    Starts,
    /// One number for each entry.
    Entries,
    /// One for each entry and one for each column, which covers the entries after an edit.
    Edited,
}

impl Need {
    // Nothing is lent for more than one column too many, whatever size an input claims: it is refused before its needs count.
    fn of(self, input: &Input) -> usize {
        let size = input.size.min(MAX_SIZE + 1) as usize;
        match self {
            Need::Size => size,
            Need::Starts => size + 1,
            Need::Entries => input.rows.len(),
            Need::Edited => input.rows.len() + size,
        }
    }
}

/// What an entry has a buffer for.
#[derive(Clone, Copy, Debug, PartialEq)]
enum Role {
    /// Workspace or stack: zero after any answer that changes something.
    Work,
    /// Marks: zero after acceptance.
    Marks,
    Output,
}

/// A buffer in an entry's plan.
#[derive(Clone, Copy, Debug)]
pub struct Slot {
    name: &'static str,
    need: Need,
    role: Role,
}

/// Workspace or stack.
pub const fn work(name: &'static str, need: Need) -> Slot {
    Slot { name, need, role: Role::Work }
}

/// Marks of a Hall set.
pub const fn marks(name: &'static str) -> Slot {
    Slot { name, need: Need::Size, role: Role::Marks }
}

pub const fn output(name: &'static str, need: Need) -> Slot {
    Slot { name, need, role: Role::Output }
}

/// All buffers of an entry: those of plain numbers, then those of columns.
#[derive(Debug)]
pub struct Plan {
    pub numbers: &'static [Slot],
    pub columns: &'static [Slot],
}

impl Plan {
    fn slots(&self) -> impl Iterator<Item = &'static Slot> {
        self.numbers.iter().chain(self.columns)
    }

    /// How many there are.
    pub fn count(&self) -> u32 {
        self.slots().count() as u32
    }

    /// Each length beside the need that it must meet.
    pub fn needed(&self, lengths: &[usize], input: &Input) -> Vec<(usize, usize)> {
        lengths.iter().copied().zip(self.slots().map(|slot| slot.need.of(input))).collect()
    }
}

/// The buffers of a plan, in its order.
#[derive(Clone, Debug)]
pub struct Lent {
    plan: &'static Plan,
    numbers: Vec<Buffer<u32>>,
    columns: Vec<Buffer<Column>>,
}

impl Lent {
    /// Buffers of junk, as long as this room says.
    pub fn junk(plan: &'static Plan, input: &Input, room: Room, random: &mut Xorshift) -> Lent {
        let lengths: Vec<usize> = plan.slots().enumerate().map(|(k, slot)| room.length(k, slot.need.of(input), random)).collect();
        let (numbers, columns) = lengths.split_at(plan.numbers.len());
        Lent {
            plan,
            numbers: numbers.iter().map(|&length| Buffer::junk(length, random, |number| number)).collect(),
            columns: columns.iter().map(|&length| Buffer::junk(length, random, Column)).collect(),
        }
    }

    pub fn lengths(&self) -> Vec<usize> {
        self.numbers.iter().map(Buffer::len).chain(self.columns.iter().map(Buffer::len)).collect()
    }

    /// What is lent of each. It is told by its caller how many there are, and allocates nothing: this is within what is timed.
    pub fn lend<const N: usize, const C: usize>(&mut self) -> ([&mut [u32]; N], [&mut [Column]; C]) {
        assert_eq!((self.numbers.len(), self.columns.len()), (N, C), "as many as the plan has");
        (all_lent(&mut self.numbers), all_lent(&mut self.columns))
    }

    /// What the table says of the workspace and the stack after a late refusal and after acceptance.
    pub fn clear(&mut self, input: &Input) {
        self.zero(input, |role| role == Role::Work);
    }

    /// All that acceptance leaves zero over its need: the same, and the marks.
    pub fn clear_accepted(&mut self, input: &Input) {
        self.zero(input, |role| role != Role::Output);
    }

    fn zero(&mut self, input: &Input, chosen: fn(Role) -> bool) {
        for (slot, buffer) in self.plan.numbers.iter().zip(&mut self.numbers) {
            if chosen(slot.role) {
                buffer.lent()[..slot.need.of(input)].fill(0);
            }
        }
    }

    /// The first number that is not as expected.
    pub fn compare(&self, expected: &Lent) -> Result<(), String> {
        for (k, slot) in self.plan.numbers.iter().enumerate() {
            self.numbers[k].compare(slot.name, &expected.numbers[k])?;
        }
        for (k, slot) in self.plan.columns.iter().enumerate() {
            self.columns[k].compare(slot.name, &expected.columns[k])?;
        }
        Ok(())
    }
}

fn all_lent<T: Copy + PartialEq + std::fmt::Debug, const N: usize>(buffers: &mut [Buffer<T>]) -> [&mut [T]; N] {
    let mut buffers = buffers.iter_mut();
    std::array::from_fn(|_| buffers.next().expect("as many as are asked for").lent())
}

/// These values at the front, the rest as it was.
pub fn fill<T>(lent: &mut [T], values: impl IntoIterator<Item = T>) {
    for (cell, value) in lent.iter_mut().zip(values) {
        *cell = value;
    }
}
