//! Mistakes that the stand-in can make.
use std::cell::Cell;

// Says the slips once, for the enum and for the list of them all.
macro_rules! slips {
    ($($(#[$doc:meta])* $slip:ident,)*) => {
        #[derive(Clone, Copy, Debug, PartialEq, Eq)]
        pub enum Slip {
            $($(#[$doc])* $slip,)*
        }

        pub const SLIPS: &[Slip] = &[$(Slip::$slip,)*];
    };
}

slips! {
    /// Accepts and leaves the old matching and its blocks.
    Nothing,
    /// The blocks of the old matrix under the old matching.
    OldBlocks,
    /// A matching of the edited matrix from nothing.
    FreshMatching,
    /// 15 is tested on the edited matrix.
    FifteenOnEdited,
    /// After 9 the old matching is gone.
    MatchingLost,
    FourteenBeforeThirteen,
    FifteenBeforeFourteen,
    /// 14 looks for rows outside first, and then for repeated ones.
    FourteenInTwoPasses,
    /// 15 looks at the columns' numbers first, and then at their lists.
    FifteenInTwoPasses,
    LateOneBeforeFifteen,
    LateOneMissing,
    /// The reversed graph's slice may be one short: it would still have room.
    OneShortAccepted,
    /// Only the column itself is marked.
    HallOfOne,
    /// The search takes a free row only where it comes to it.
    FreeRowNotFirst,
    ColumnToRow,
    /// The last block comes first.
    UpperOrder,
    /// The second walk takes the children by falling column.
    FallingColumns,
    /// The block starts behind the last one used stay as they were.
    StartsLeft,
    /// Acceptance leaves the marks as they were.
    MarksLeft,
    /// 13 leaves the workspace as it was.
    WorkLeft,
    /// A workspace slice is cleared over its whole length.
    TooMuchCleared,
}

thread_local! {
    static SLIPPING: Cell<Option<Slip>> = const { Cell::new(None) };
}

/// From now on this mistake is made, or none.
pub fn slipping(slip: Option<Slip>) {
    SLIPPING.set(slip);
}

impl Slip {
    pub(super) fn is_made(self) -> bool {
        SLIPPING.get() == Some(self)
    }
}
