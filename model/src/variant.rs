//! Wrong ways to do what document 01 says, each at one place, so that a test can run one of them
//! and show that it is caught.

/// How a step is taken: as the document says, or wrongly in one respect.
#[derive(Clone, Copy, Debug, PartialEq, Eq)]
pub enum Variant {
    /// As document 01 says.
    Right,
    /// "Comparing clocks without the node: two changes at 12 would both win." Of two stamps with
    /// one clock neither is the greater, so each node keeps its own.
    ClocksWithoutNode,
    /// "Clearing a pending bit by id alone: the change made since the push is then never told."
    PendingClearedById,
    /// "Striking out only the place from which the winner came: the loser's entry stays." A state
    /// taken in (e) sets the entry at its new place and strikes nothing at the old one.
    LoserNotStruck,
    /// "Letting an empty listing permit removal: a held child may live though its entry was struck
    /// early."
    EmptyListingPermitsRemoval,
    /// "Renaming to its own place, with the entry struck early: the one entry must end live." Here
    /// it ends dead.
    OwnPlaceStruck,
    /// Step (c) leaves the holders of a held replica as they are.
    HoldersNotJoined,
    /// Step (f) is left out.
    NoResurrection,
    /// A directory made live leaves its place directory as it is.
    ResurrectionOneLevel,
    /// The version stays where only an entry changed; pending is set all the same.
    VersionKeptForEntry,
    /// Receive acknowledges and joins nothing.
    AcknowledgedWithoutJoin,
    /// Receive joins the first message of a replica, the one that makes it, and only acknowledges
    /// later ones.
    FirstMessageOnly,
    /// The new clock is now, or 1 if that is larger, whatever was seen.
    ClockIgnoresHighest,
}

impl Variant {
    /// Every variant but the right one.
    pub const WRONG: [Variant; 12] = [
        Variant::ClocksWithoutNode,
        Variant::PendingClearedById,
        Variant::LoserNotStruck,
        Variant::EmptyListingPermitsRemoval,
        Variant::OwnPlaceStruck,
        Variant::HoldersNotJoined,
        Variant::NoResurrection,
        Variant::ResurrectionOneLevel,
        Variant::VersionKeptForEntry,
        Variant::AcknowledgedWithoutJoin,
        Variant::FirstMessageOnly,
        Variant::ClockIgnoresHighest,
    ];
}
