//! What an entry is called with.
use super::input::Input;
use super::random::Xorshift;
use std::fmt;

/// The input of a call, valid or damaged. It is shown as the recorded lines have it; a precision, as in `{:.9}`, is the most numbers
/// of a list that are shown.
pub trait Case: Clone + fmt::Display {
    /// The forms of damage, in an order in which they can follow one another.
    type Damage: Copy + Ord;

    /// All of them, in that order.
    fn damages() -> Vec<Self::Damage>;

    /// Damages the case so, if it has what is to be damaged.
    fn damage(&mut self, damage: Self::Damage, random: &mut Xorshift);

    /// The matrix that the entry is given, which the needs of the buffers depend on.
    fn matrix(&self) -> &Input;

    /// The matrix that the Rust is timed on, in its own width.
    fn timed(&self) -> minilp::Columns;

    /// Cases that are smaller than this one, those first that leave out most.
    fn smaller(&self) -> Box<dyn Iterator<Item = Self> + '_>;
}
