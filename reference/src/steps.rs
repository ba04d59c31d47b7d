//! "Steps": what a step asks for, and what it may be answered.

use crate::numbers::Refusal;

/// A step as the trace file has it: any domain number, kind and argument. By document 02, kinds 32 to 35 and 40 have "a
/// core in place of the domain" where a list of cores is lent.
#[derive(Clone, Copy, PartialEq, Eq, Debug)]
pub struct Step {
    pub domain: u8,
    pub kind: u8,
    pub argument: u64,
}

#[derive(Clone, Copy, PartialEq, Eq, Debug)]
pub enum Kind {
    Fetch,
    Load,
    Store,
    Flush,
    Policy,
}

impl Kind {
    /// "Kinds: 0 instruction fetch, 1 load, 2 store, 3 flush, 16 policy. Kinds 4 to 15 and 17 to 255 are unknown."
    /// Those that name a core are for `cores` to know.
    pub fn from_number(number: u8) -> Option<Kind> {
        match number {
            0 => Some(Kind::Fetch),
            1 => Some(Kind::Load),
            2 => Some(Kind::Store),
            3 => Some(Kind::Flush),
            16 => Some(Kind::Policy),
            4..=15 | 17..=255 => None,
        }
    }
}

#[derive(Clone, Copy, PartialEq, Eq, Debug)]
pub enum Answer {
    Hit { way: usize },
    Fill { way: usize },
    Evict { way: usize, tag: u64, dirty: bool },
    Pass,
    Flush { way: usize, dirty: bool },
    Absent,
    Policy { dropped: u32, dirty_dropped: u32 },
    Select { cs: u8, ds: u8, es: u8 },
    Refused(Refusal),
}
