//! The tables, and "Steps": access, flush and policy change.

use crate::domains::{Counts, Domains, Policy};
use crate::geometry::Geometry;
use crate::maps::{encoded, holds, only, Map};
use crate::refusals::judge;
use crate::replacement::{self, HandOver};
use crate::steps::{Answer, Kind, Step};

#[cfg(test)]
mod tests;

/// One cache and its domains. "Tags, S × W words of 64 bits, the W tags of a set side by side; valid and dirty, one
/// 16-bit map per set each; replacement, one 64-bit word per set."
pub struct Cache {
    geometry: Geometry,
    tags: Vec<u64>,
    valid: Vec<Map>,
    dirty: Vec<Map>,
    replacement: Vec<u64>,
    domains: Domains,
}

/// The four tables of a cache.
pub struct Tables {
    pub valid: Vec<Map>,
    pub dirty: Vec<Map>,
    pub replacement: Vec<u64>,
    pub tags: Vec<u64>,
}

impl Cache {
    /// "Fresh: all zero", but for what the rule puts into the replacement words. "All policies and counts are zero."
    pub fn fresh(geometry: Geometry) -> Cache {
        Cache {
            geometry,
            tags: vec![0; geometry.sets * geometry.ways],
            valid: vec![0; geometry.sets],
            dirty: vec![0; geometry.sets],
            replacement: vec![replacement::fresh_word(&geometry); geometry.sets],
            domains: Domains::fresh(geometry.ways),
        }
    }

    /// Lent domains, and lent valid and dirty maps, one of each for every set. All tags and replacement words are zero.
    pub fn lent(geometry: Geometry, valid: Vec<Map>, dirty: Vec<Map>, domains: Domains) -> Cache {
        Cache { valid, dirty, replacement: vec![0; geometry.sets], domains, ..Cache::fresh(geometry) }
    }

    /// Lent domains and tables, which are of the lengths that the geometry gives.
    pub fn of_tables(geometry: Geometry, tables: Tables, domains: Domains) -> Cache {
        let Tables { valid, dirty, replacement, tags } = tables;
        Cache { geometry, tags, valid, dirty, replacement, domains }
    }

    /// The tables and domains as they are now.
    pub fn into_tables(self) -> (Tables, Domains) {
        let Cache { tags, valid, dirty, replacement, domains, .. } = self;
        (Tables { valid, dirty, replacement, tags }, domains)
    }

    pub fn domains(&self) -> &Domains {
        &self.domains
    }

    #[cfg(test)]
    pub fn domains_mut(&mut self) -> &mut Domains {
        &mut self.domains
    }

    /// By document 02, how many are "the lines now valid in the domain's hit map", over all sets.
    pub fn held(&self, domain: usize) -> u32 {
        let hit_map = self.domains.policy(domain).hit_map;
        self.valid.iter().map(|valid| (valid & hit_map).count_ones()).sum()
    }

    /// Does one step, or turns it down: "The answer is the number alone and nothing else moves."
    pub fn step(&mut self, step: &Step) -> Answer {
        self.step_and_visits(step).0
    }

    /// Does one step, and gives beside its answer how many ways its lookup visited: 0 if it made none.
    pub fn step_and_visits(&mut self, step: &Step) -> (Answer, usize) {
        match judge(&self.geometry, &self.domains, &self.valid, step) {
            Err(refusal) => (Answer::Refused(refusal), 0),
            Ok((domain, Kind::Policy)) => (self.change_policy(domain, Policy::from_argument(step.argument)), 0),
            Ok((domain, Kind::Flush)) => self.flush(domain, step.argument),
            Ok((domain, Kind::Store)) => self.access(domain, step.argument, true),
            Ok((domain, Kind::Fetch | Kind::Load)) => self.access(domain, step.argument, false),
        }
    }

    /// "It hits the lowest way of the domain's hit map that is valid with an equal tag; the way is touched, and a
    /// store marks it dirty. Otherwise it misses. With an empty fill map it *passes*: nothing but the miss count
    /// moves." Beside the answer is the number of ways visited.
    fn access(&mut self, domain: usize, address: u64, store: bool) -> (Answer, usize) {
        let (set, tag) = self.geometry.place(address);
        let policy = self.domains.policy(domain);
        let (found, visited) = self.find(set, tag, policy.hit_map);
        if let Some(way) = found {
            self.touch(set, policy.fill_map, way);
            if store {
                self.dirty[set] |= only(way);
            }
            self.domains.counts_mut(domain).hits += 1;
            return (Answer::Hit { way }, visited);
        }
        self.domains.counts_mut(domain).misses += 1;
        if policy.fill_map == 0 {
            return (Answer::Pass, visited);
        }
        (self.fill(domain, set, tag, store), visited)
    }

    /// The lowest way of the hit map that is valid with an equal tag, and the number of ways visited. By document 02,
    /// the lookup shall "visit only the ways whose bit is set in the hitmap, lowest first, and compare no other tag. It
    /// also answers how many ways it visited: the hit map's ways up to and including the one hit, or all of them
    /// without a hit." Ways of W or more are not there, and an invalid way is visited as any other.
    fn find(&self, set: usize, tag: u64, hit_map: Map) -> (Option<usize>, usize) {
        let row = &self.tags[set * self.geometry.ways..][..self.geometry.ways];
        let valid = self.valid[set];
        let mut visited = 0;
        let found = (0..self.geometry.ways)
            .filter(|&way| holds(hit_map, way))
            .inspect(|_| visited += 1)
            .find(|&way| holds(valid, way) && row[way] == tag);
        (found, visited)
    }

    /// Else an invalid way of the fill map is filled, by document 02 the highest: "Among invalid ways [...] the highest
    /// way now wins"; "if none, the victim is evicted and its tag and dirtiness answered. The filled way is valid,
    /// dirty only for a store, and touched." Both are fills in the count that document 02 adds: each brings a line in.
    fn fill(&mut self, domain: usize, set: usize, tag: u64, store: bool) -> Answer {
        let fill_map = self.domains.policy(domain).fill_map;
        let (way, answer) = match encoded(fill_map & !self.valid[set]) {
            Some(way) => (way, Answer::Fill { way }),
            None => self.evict(domain, set, fill_map),
        };
        self.tags[set * self.geometry.ways + way] = tag;
        self.valid[set] |= only(way);
        self.dirty[set] &= !only(way);
        if store {
            self.dirty[set] |= only(way);
        }
        self.touch(set, fill_map, way);
        self.domains.counts_mut(domain).fills += 1;
        answer
    }

    /// The victim and the answer that names its line: "an evicted line [adds] one to [its] count, and a dirty evicted
    /// line one to written back too." The victim is touched when it has been filled.
    fn evict(&mut self, domain: usize, set: usize, fill_map: Map) -> (usize, Answer) {
        let (way, word) = replacement::victim(&self.geometry, self.replacement[set], fill_map);
        self.replacement[set] = word;
        let tag = self.tags[set * self.geometry.ways + way];
        let dirty = holds(self.dirty[set], way);
        let counts = self.domains.counts_mut(domain);
        counts.evicted += 1;
        counts.written_back += u32::from(dirty);
        (way, Answer::Evict { way, tag, dirty })
    }

    fn touch(&mut self, set: usize, fill_map: Map, way: usize) {
        self.replacement[set] = replacement::touch(&self.geometry, self.replacement[set], fill_map, way);
    }

    /// "A hit, found as above, is made invalid and not dirty; its tag and all replacement bits stay. The answer is its
    /// way and whether it was dirty; then flushed rises by one and, if dirty, written back too. Else the answer is
    /// *absent* and no count moves." Beside the answer is the number of ways visited.
    fn flush(&mut self, domain: usize, address: u64) -> (Answer, usize) {
        let (set, tag) = self.geometry.place(address);
        let (found, visited) = self.find(set, tag, self.domains.policy(domain).hit_map);
        let Some(way) = found else {
            return (Answer::Absent, visited);
        };
        let dirty = holds(self.dirty[set], way);
        self.valid[set] &= !only(way);
        self.dirty[set] &= !only(way);
        let counts = self.domains.counts_mut(domain);
        counts.flushed += 1;
        counts.written_back += u32::from(dirty);
        (Answer::Flush { way, dirty }, visited)
    }

    /// "Both maps are stored. Ways in exactly one of the old and new hit maps are cleaned in every set." What the
    /// replacement words hold changes hands, in every set, by the fill maps. "The answer is the number of valid lines
    /// dropped and how many of them were dirty". By document 02 these lines, dirty or not, are added to dropped; no
    /// other count moves. "Two zero maps remove the domain and zero its counts", dropped too.
    #[inline(never)] // so that the loops over the sets have the registers to themselves
    fn change_policy(&mut self, domain: usize, new: Policy) -> Answer {
        let old = self.domains.policy(domain);
        let cleaned = old.hit_map ^ new.hit_map;
        let hand_over = HandOver::between(&self.geometry, old.fill_map, new.fill_map);
        let (mut dropped, mut dirty_dropped) = (0, 0);
        for set in 0..self.geometry.sets {
            let lines = cleaned & self.valid[set];
            dropped += lines.count_ones();
            dirty_dropped += (lines & self.dirty[set]).count_ones();
            self.clean(set, cleaned);
        }
        for word in &mut self.replacement {
            *word = hand_over.of(*word);
        }
        self.domains.store(domain, new);
        let counts = self.domains.counts_mut(domain);
        if new == Policy::default() {
            *counts = Counts::default();
        } else {
            counts.dropped += dropped;
        }
        Answer::Policy { dropped, dirty_dropped }
    }

    /// Cleaned ways are "invalid, not dirty, tag zero".
    fn clean(&mut self, set: usize, cleaned: Map) {
        self.valid[set] &= !cleaned;
        self.dirty[set] &= !cleaned;
        for way in 0..self.geometry.ways {
            if holds(cleaned, way) {
                self.tags[set * self.geometry.ways + way] = 0;
            }
        }
    }
}
