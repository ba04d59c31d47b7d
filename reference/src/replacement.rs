//! The replacement rule in use: Tree-PLRU, NRU or true LRU, by the geometry. A word is the replacement word of one set.

use crate::geometry::{Geometry, Rule};
use crate::maps::Map;
use crate::{lru, nru, tree};

/// "Fresh: all zero, except that under NRU the low W bits of each replacement word are one", and that under LRU each
/// has an order.
pub fn fresh_word(geometry: &Geometry) -> u64 {
    match geometry.rule {
        Rule::TreePlru => 0,
        Rule::Nru => nru::fresh_word(geometry.ways),
        Rule::Lru => lru::fresh_word(geometry.ways),
    }
}

/// The word after a touch of `way` by a domain with this fill map.
pub fn touch(geometry: &Geometry, word: u64, fill_map: Map, way: usize) -> u64 {
    match geometry.rule {
        Rule::TreePlru => tree::touch(geometry.ways, word, fill_map, way),
        Rule::Nru => nru::touch(word, fill_map, way),
        Rule::Lru => lru::touch(geometry.ways, word, fill_map, way),
    }
}

/// "A word and a map give a victim and the word before its touch." The fill map is not empty: an access with an empty
/// one has passed.
pub fn victim(geometry: &Geometry, word: u64, fill_map: Map) -> (usize, u64) {
    const HOLDS: &str = "a fill map that holds a way";
    match geometry.rule {
        Rule::TreePlru => (tree::victim(geometry.ways, word, fill_map), word),
        Rule::Nru => nru::victim(word, fill_map).expect(HOLDS),
        Rule::Lru => (lru::victim(geometry.ways, word, fill_map).expect(HOLDS), word),
    }
}

/// What is a domain's own in a word: "A domain's *own* replacement bits are its free nodes, or the NRU bits of its fill
/// map", or, under LRU, the order of its fill ways.
pub fn own(geometry: &Geometry, word: u64, fill_map: Map) -> u64 {
    match geometry.rule {
        Rule::TreePlru => word & tree::free_nodes(geometry.ways, fill_map),
        Rule::Nru => word & u64::from(fill_map),
        Rule::Lru => lru::own(geometry.ways, word, fill_map),
    }
}

/// What a policy change does to the word of every set, "under the rule in use". It is made of the old and the new fill
/// map, once for all sets.
#[derive(Clone, Copy)]
pub enum HandOver {
    /// "Tree nodes free under exactly one of them become zero."
    Zero { nodes: u64 },
    /// "NRU bits of ways in exactly one of the old and new fill maps become one."
    One { bits: u64 },
    /// Under LRU, "the ways in exactly one of the old and new fill maps" move to the old end.
    Age { ways: usize, moved: Map },
}

impl HandOver {
    pub fn between(geometry: &Geometry, old: Map, new: Map) -> HandOver {
        let in_one = old ^ new;
        let free = |fill_map| tree::free_nodes(geometry.ways, fill_map);
        match geometry.rule {
            Rule::TreePlru => HandOver::Zero { nodes: free(old) ^ free(new) },
            Rule::Nru => HandOver::One { bits: u64::from(in_one) },
            Rule::Lru => HandOver::Age { ways: geometry.ways, moved: in_one },
        }
    }

    /// The word after the change.
    pub fn of(self, word: u64) -> u64 {
        match self {
            HandOver::Zero { nodes } => word & !nodes,
            HandOver::One { bits } => word | bits,
            HandOver::Age { ways, moved } => lru::to_old_end(ways, word, moved),
        }
    }
}
