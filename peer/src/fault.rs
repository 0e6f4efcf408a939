//! Thirty-one slips, one of which can be planted at a time (`peer --fault N`).
//! A comparison that does not find each of them is too weak.

#[derive(Clone, Copy, Debug, PartialEq, Eq)]
pub enum Fault {
    /// No fault: the rule sheet as it stands.
    None,
    /// 1: anchors are tried 0, 1, 2, ... and not in the order of their nodes.
    CountingOrder,
    /// 2: (s − e) / 8 is rounded toward zero.
    TowardZero,
    /// 3: a grown block is tested once, at (A + L) mod F, not in its later periods.
    FirstPeriodOnly,
    /// 4: on load the tree is not held against the connections (no refusal 12).
    TreeUnchecked,
    /// 5: a drop leaves the blocks taken that went round the end of the cycle.
    WrappedBlocksStay,
    /// 6: the new estimate is not stored when the answer is tight.
    TightForgets,
    /// 7: a leading zero in a number is taken.
    LeadingZero,
    /// 8: load checks 11 before 10.
    OverlapFirst,
    /// 9: save writes zeros over the rest of the buffer.
    RestZeroed,
    /// 10: a largest interval of 3,200 is refused.
    LastIntervalRefused,
    /// 11: a refused report ends the list of reports.
    RefusedEndsList,
    /// 12: the entries beyond the reports are cleared.
    RestOfListCleared,
    /// 13: a list of reports is checked for 14 before 13.
    ShortBeforeMany,
    /// 14: of a range the smallest is not asked, and so 15 is never given.
    SmallestNotAsked,
    /// 15: 6 × 2^k is to be above the smallest, where it is to be not below it.
    SmallestLeftOut,
    /// 16: the bounds of a range are read in the other order.
    BoundsExchanged,
    /// 17: of a message max × latency is to be at most 500, where it is max × (latency + 1).
    LatencyNotCountedUp,
    /// 18: an event of another status than 0 is held to the rules.
    FailedEventHeld,
    /// 19: bytes after a message are taken.
    TrailingTaken,
    /// 20: writing a message checks 8 before 17.
    ShortBeforeForbidden,
    /// 21: load checks 18 before 10.
    FactorFirst,
    /// 22: on load a k of 9 is not sound (10 in the place of 18).
    NineUnsound,
    /// 23: load checks 18 after 11.
    FactorAfterOverlap,
    /// 24: tidy takes the connections by handle alone.
    TidiedByHandle,
    /// 25: tidy places the floor, where it is to place the present length.
    FloorPlaced,
    /// 26: a tidy that is refused with 19 moves those that found an anchor.
    PlacedStayMoved,
    /// 27: a tidy that is refused with 14 moves all the same.
    ShortListMoves,
    /// 28: the entries beyond the moves are cleared.
    RestOfMovesCleared,
    /// 29: 20 looks at twice the floor, where it is to look at twice the ceiling.
    CapOfTheFloor,
    /// 30: twice the ceiling equal to F is refused.
    HalfRefused,
    /// 31: admission checks 20 after 6.
    RoomBeforeHalf,
}

/// The faults by number, 1 first.
pub const FAULTS: [Fault; 31] = [
    Fault::CountingOrder,
    Fault::TowardZero,
    Fault::FirstPeriodOnly,
    Fault::TreeUnchecked,
    Fault::WrappedBlocksStay,
    Fault::TightForgets,
    Fault::LeadingZero,
    Fault::OverlapFirst,
    Fault::RestZeroed,
    Fault::LastIntervalRefused,
    Fault::RefusedEndsList,
    Fault::RestOfListCleared,
    Fault::ShortBeforeMany,
    Fault::SmallestNotAsked,
    Fault::SmallestLeftOut,
    Fault::BoundsExchanged,
    Fault::LatencyNotCountedUp,
    Fault::FailedEventHeld,
    Fault::TrailingTaken,
    Fault::ShortBeforeForbidden,
    Fault::FactorFirst,
    Fault::NineUnsound,
    Fault::FactorAfterOverlap,
    Fault::TidiedByHandle,
    Fault::FloorPlaced,
    Fault::PlacedStayMoved,
    Fault::ShortListMoves,
    Fault::RestOfMovesCleared,
    Fault::CapOfTheFloor,
    Fault::HalfRefused,
    Fault::RoomBeforeHalf,
];

/// The fault with this number, 1 to 31.
pub fn by_number(number: usize) -> Option<Fault> {
    FAULTS.get(number.checked_sub(1)?).copied()
}
