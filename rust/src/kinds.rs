//! What all entries share: the kinds of number, a pattern, a refusal.

/// A column of the matrix. It passes to the archive as its bare number.
#[repr(transparent)]
#[derive(Clone, Copy, Debug, PartialEq, Eq, PartialOrd, Ord, Hash)]
pub struct Column(pub u32);

/// A row of the matrix in its original numbering. It passes to the archive as its bare number.
#[repr(transparent)]
#[derive(Clone, Copy, Debug, PartialEq, Eq, PartialOrd, Ord, Hash)]
pub struct OriginalRow(pub u32);

/// A square pattern: where each column starts and where the last one ends, then the rows, column by column.
/// Nothing is taken for granted about it: an entry refuses what is not a pattern.
#[derive(Clone, Copy, Debug)]
pub struct Pattern<'a> {
    pub size: u32,
    pub starts: &'a [u32],
    pub rows: &'a [OriginalRow],
}

/// A refusal of the table: its number, and the place that the table gives with it.
#[derive(Clone, Copy, Debug, PartialEq, Eq)]
pub struct Refusal {
    pub number: u32,
    pub place: u32,
}

// A call of the archive, in which every slice is said once and passes as pointer and length. An edit is a column and a slice.
macro_rules! call_archive {
    ($entry:ident: $size:expr, read [$($read:ident),*], $(edit [$edited:expr, $by:ident],)?
        lent [$($lent:ident),*], written [$($written:ident),*]) => {
        $entry(
            $size,
            $($read.as_ptr(), $read.len(),)*
            $($edited, $by.as_ptr(), $by.len(),)?
            $($lent.as_mut_ptr(), $lent.len(),)*
            $(&mut $written),*
        )
    };
}

pub(crate) use call_archive;
