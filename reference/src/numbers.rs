//! "When a step is turned down": the numbers. What is asked for each of them stands where it is asked: number 10 in
//! `trace`, 1 in `geometry`, 11 in `cores` with 3 and 5 of a selector write, 12 in `block`, the others in `refusals`; 5
//! and 9 of the rules called alone in `rules`. By document 02, "1 moves to the new limit" of sets, 7 and 10 have one
//! more reason each, and 11 and 12 are new.

/// The refusals that a trace file or a block can meet, each with its number. (`CountSpent` is met with lent counts
/// alone: from a fresh cache no file of 4,096 steps reaches it. `Block` is met with a block alone.)
#[derive(Clone, Copy, PartialEq, Eq, Debug)]
pub enum Refusal {
    /// "Geometry outside the limits."
    Geometry = 1,
    /// "Domain 16 or more."
    Domain = 3,
    /// "Unknown kind."
    Kind = 4,
    /// "Policy argument with a way W or higher, a fill map that is not part of the hit map, or a high bit set."
    Argument = 5,
    /// "Access or flush by a domain with an empty hit map."
    NoWays = 6,
    /// "Access or flush while any count of that domain is 4,294,967,295." By document 02, "7 covers seven counts, and
    /// also a policy change, other than a removal, whose drops would carry dropped past the largest count".
    CountSpent = 7,
    /// "Policy whose hit map shares a way with another domain's."
    SharedWay = 8,
    /// "Policy under Tree-PLRU with a node free for it and for another domain."
    SharedNode = 9,
    /// "Trace file under 8 bytes, not of its length, or with more than 4,096 steps. It comes before all others and
    /// ends the run." By document 02, "10 also covers a file naming more than 256 sets".
    TraceFile = 10,
    /// By document 02, "11, a list too long or, for these kinds, a core not in it, checked after 2 and before 3".
    Core = 11,
    /// By document 02, "12, block or answer of a wrong length, or at a step a zero byte that is not zero, checked after
    /// 1, though a block under 8 bytes is 12 before all else".
    Block = 12,
}

impl Refusal {
    pub fn number(self) -> u8 {
        self as u8
    }
}
