//! "Geometry and tables": sets, ways and rule, and where an address falls.

use crate::numbers::Refusal;

/// "Lines have 64 bytes."
const LINE_BYTES: u64 = 64;

/// By document 02, "S goes up to 4,096". A trace file has a limit of its own, in `trace`.
const MOST_SETS: u16 = 4096;

#[derive(Clone, Copy, PartialEq, Eq, Debug)]
pub enum Rule {
    TreePlru = 0,
    Nru = 1,
    Lru = 2,
}

#[derive(Clone, Copy, PartialEq, Eq, Debug)]
pub struct Geometry {
    pub sets: usize,
    pub ways: usize,
    pub rule: Rule,
}

impl Geometry {
    /// "Sets S: a power of two, 1 to 256. Ways W: 2, 4, 8 or 16. Rule: 0 Tree-PLRU, 1 NRU." By document 02, "1 now
    /// admits rule 2", true LRU, and "1 moves to the new limit" of sets.
    pub fn new(sets: u16, ways: u8, rule: u8) -> Result<Geometry, Refusal> {
        let rule = match rule {
            0 => Rule::TreePlru,
            1 => Rule::Nru,
            2 => Rule::Lru,
            _ => return Err(Refusal::Geometry),
        };
        let sets_stand = (1..=MOST_SETS).contains(&sets) && sets.is_power_of_two();
        let ways_stand = matches!(ways, 2 | 4 | 8 | 16);
        if !sets_stand || !ways_stand {
            return Err(Refusal::Geometry);
        }
        Ok(Geometry { sets: usize::from(sets), ways: usize::from(ways), rule })
    }

    /// "Line = address / 64; set = line mod S; tag = line / S (whole division)." Answers the set and the tag: by
    /// document 02 "a set below 4,096 instead of 256".
    pub fn place(&self, address: u64) -> (usize, u64) {
        let line = address / LINE_BYTES;
        let sets = self.sets as u64;
        ((line % sets) as usize, line / sets)
    }
}
