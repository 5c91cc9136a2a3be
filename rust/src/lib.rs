//! Dechvorim from Rust: safe functions over the archive of the proved library.
//!
//! An entry takes a [`Pattern`] and lent slices, checks all it is given by itself, allocates nothing, and answers with
//! an enum: accepted, or the first [`Refusal`] of the table in the project's scope document. The entries:
//! [`order_simple`], [`find_diag_matching`], [`find_block_diag_form`], [`edit_column`].

mod blocks;
#[cfg(feature = "driver")]
pub mod driver;
mod edit;
mod kinds;
mod matching;
mod order;
#[cfg(feature = "edit-stand-in")]
pub mod stand_in;

pub use blocks::{find_block_diag_form, BlocksAnswer, BlocksLent};
pub use edit::{edit_column, Edit};
pub use kinds::{Column, OriginalRow, Pattern, Refusal};
pub use matching::{find_diag_matching, MatchingAnswer, MatchingLent};
pub use order::{order_simple, OrderAnswer, OrderLent};
