//! The domains: "Each domain has a hit map, a fill map and five 32-bit counts: hits, misses, evicted, written back,
//! flushed." By document 02, "the count record gains fills and dropped, in that order at its end".

use crate::maps::{all_ways, Map};

/// "Domains 0 to 15."
pub const DOMAINS: usize = 16;

/// By document 02 the counts of a domain are seven.
pub const COUNTS: usize = 7;

#[derive(Clone, Copy, PartialEq, Eq, Debug, Default)]
pub struct Policy {
    pub hit_map: Map,
    pub fill_map: Map,
}

impl Policy {
    /// "The argument holds the hit map (low 16 bits), the fill map (next 16) and zeros."
    pub fn from_argument(argument: u64) -> Policy {
        Policy { hit_map: argument as Map, fill_map: (argument >> 16) as Map }
    }

    /// A stored policy "is read with ways of W or more left out of both maps and the fill map cut to its hit map".
    fn as_read(self, ways: usize) -> Policy {
        let hit_map = self.hit_map & all_ways(ways);
        Policy { hit_map, fill_map: self.fill_map & hit_map }
    }
}

#[derive(Clone, Copy, PartialEq, Eq, Debug, Default)]
pub struct Counts {
    pub hits: u32,
    pub misses: u32,
    pub evicted: u32,
    pub written_back: u32,
    pub flushed: u32,
    pub fills: u32,
    pub dropped: u32,
}

impl Counts {
    /// "Hits, misses, evicted, written back, flushed", then fills and dropped.
    pub fn in_order(&self) -> [u32; COUNTS] {
        [self.hits, self.misses, self.evicted, self.written_back, self.flushed, self.fills, self.dropped]
    }

    /// The record with these counts, in the same order.
    pub fn from_order(counts: [u32; COUNTS]) -> Counts {
        let [hits, misses, evicted, written_back, flushed, fills, dropped] = counts;
        Counts { hits, misses, evicted, written_back, flushed, fills, dropped }
    }
}

/// A domain's policy, as it is stored, and its counts.
#[derive(Clone, Copy, Default)]
pub struct Domain {
    pub stored: Policy,
    pub counts: Counts,
}

/// The policies and counts of all domains, and W, by which a stored policy is read.
pub struct Domains {
    ways: usize,
    table: [Domain; DOMAINS],
}

impl Domains {
    /// "All policies and counts are zero."
    pub fn fresh(ways: usize) -> Domains {
        Domains::lent(ways, [Domain::default(); DOMAINS])
    }

    /// Policies and counts that are lent: "A stored policy may hold anything", and so may a count.
    pub fn lent(ways: usize, table: [Domain; DOMAINS]) -> Domains {
        Domains { ways, table }
    }

    /// A domain's policy as it is stored.
    pub fn stored(&self, domain: usize) -> Policy {
        self.table[domain].stored
    }

    /// A domain's policy as it is read. Every use of a policy by a step is of this one.
    pub fn policy(&self, domain: usize) -> Policy {
        self.table[domain].stored.as_read(self.ways)
    }

    /// "Both maps are stored."
    pub fn store(&mut self, domain: usize, policy: Policy) {
        self.table[domain].stored = policy;
    }

    pub fn counts(&self, domain: usize) -> &Counts {
        &self.table[domain].counts
    }

    pub fn counts_mut(&mut self, domain: usize) -> &mut Counts {
        &mut self.table[domain].counts
    }
}
