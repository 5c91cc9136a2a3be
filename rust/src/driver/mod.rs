//! What the comparison, the record and the bench share; no part of the library's face.
//!
//! An entry of the library is one module here, which ends in an [`Entry`], and one line in [`ENTRIES`].
pub mod bench;
pub mod blocks;
pub mod buffer;
pub mod case;
pub mod compare;
pub mod components;
pub mod damage;
pub mod edit;
pub mod faults;
pub mod form;
pub mod input;
pub mod lent;
pub mod matchable;
pub mod matching;
pub mod order;
pub mod original;
pub mod patterns;
pub mod random;
pub mod run;
pub mod samples;
pub mod searches;
pub mod smallest;
pub mod table;
pub mod verdict;
pub mod walks;

/// What the three programs do with an entry.
pub struct Entry {
    pub name: &'static str,
    /// The first number of its recorded lines.
    pub kind: u32,
    /// Compares it with its judge, from this seed.
    pub compare: fn(u64) -> Result<Vec<run::Family>, run::Difference>,
    /// Its recorded lines, from this seed, without the kind and the name.
    pub record: fn(u64) -> Vec<String>,
    /// What the report says above its times.
    pub bench_note: &'static str,
    /// Its times beside the Rust's, from this seed.
    pub bench: fn(u64) -> Vec<bench::Timing>,
}

pub const ENTRIES: [Entry; 4] = [order::ENTRY, matching::ENTRY, blocks::ENTRY, edit::ENTRY];

/// The entries that the program's arguments name, or all of them.
pub fn chosen() -> impl Iterator<Item = Entry> {
    let names: Vec<String> = std::env::args().skip(1).collect();
    ENTRIES.into_iter().filter(move |entry| names.is_empty() || names.iter().any(|name| name == entry.name))
}
