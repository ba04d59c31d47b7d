//! Lent records and tables: a trace on what no trace brings about from a fresh cache, as full counts, stored policies
//! that overlap or name ways of W or more, and valid lines in ways that nobody holds.
//!
//! The file, little-endian, has sixteen records of 32 bytes, of domains 0 to 15: the hit map and the fill map as they
//! are stored (2 bytes each), and the seven counts in their order (4 bytes each). Then come 256 valid maps and 256
//! dirty maps of 2 bytes, of which the first S of each are the tables'; all tags and replacement words are zero. What
//! follows is a trace file. The text has the first line and the step lines of a listing, and then a line for each
//! domain, whichever maps it has: `domain`, number, its hit map and fill map as they are stored, and its counts. No
//! list of cores is lent: the kinds that name a core are unknown.

use std::fmt::Write;

use crate::cache::Cache;
use crate::domains::{Counts, Domain, Domains, Policy, COUNTS, DOMAINS};
use crate::listing;
use crate::maps::Map;
use crate::numbers::Refusal;
use crate::trace::{self, Form, Trace};

#[cfg(test)]
mod tests;

const MAP: usize = 2;
const COUNT: usize = 4;
const RECORD: usize = 2 * MAP + COUNT * COUNTS;
const RECORDS: usize = RECORD * DOMAINS;

/// The valid maps, or the dirty maps: one for each set that a trace file may have.
const TABLE: usize = MAP * 256;

/// What stands before the trace file.
const LENT: usize = RECORDS + 2 * TABLE;

/// Writing to a text cannot fail.
const WRITTEN: &str = "text takes every line";

/// The whole text. A file that is too short for what is lent, or longer than a trace file may be, gives the one line
/// `refused 10`, and one whose trace file is refused by 10 or by 1 the line `refused` and that number.
pub fn of_file(file: &[u8]) -> String {
    match read(file) {
        Ok((form, cache)) => of_trace(&form, cache),
        Err(refusal) => listing::of_refused(refusal),
    }
}

/// What the trace file says, and the cache that its first step gets.
fn read(file: &[u8]) -> Result<(Form, Cache), Refusal> {
    if !(LENT..=trace::LARGEST_FILE).contains(&file.len()) {
        return Err(Refusal::TraceFile);
    }
    let (lent, rest) = file.split_at(LENT);
    let Trace { geometry, form } = Trace::read(rest)?;
    let (records, tables) = lent.split_at(RECORDS);
    let (valid, dirty) = tables.split_at(TABLE);
    let table = |maps| words(maps).take(geometry.sets).collect();
    let domains = Domains::lent(geometry.ways, domains_of(records));
    Ok((form, Cache::lent(geometry, table(valid), table(dirty), domains)))
}

/// The maps that stand one after another in some bytes.
fn words(bytes: &[u8]) -> impl Iterator<Item = Map> + '_ {
    bytes.chunks_exact(MAP).map(|map| Map::from_le_bytes([map[0], map[1]]))
}

/// The domains of sixteen records.
fn domains_of(records: &[u8]) -> [Domain; DOMAINS] {
    let mut domains = [Domain::default(); DOMAINS];
    for (domain, record) in domains.iter_mut().zip(records.chunks_exact(RECORD)) {
        let (maps, counts) = record.split_at(2 * MAP);
        let mut maps = words(maps);
        let mut next_map = || maps.next().expect("two maps");
        domain.stored = Policy { hit_map: next_map(), fill_map: next_map() };
        domain.counts = Counts::from_order(counts_of(counts));
    }
    domains
}

/// The counts of a record.
fn counts_of(bytes: &[u8]) -> [u32; COUNTS] {
    let mut counts = [0; COUNTS];
    for (count, bytes) in counts.iter_mut().zip(bytes.chunks_exact(COUNT)) {
        *count = u32::from_le_bytes(bytes.try_into().expect("4 bytes"));
    }
    counts
}

fn of_trace(form: &Form, mut cache: Cache) -> String {
    let mut text = listing::of_steps(form, |step| cache.step(step));
    for domain in 0..DOMAINS {
        let Policy { hit_map, fill_map } = cache.domains().stored(domain);
        let counts = listing::of_counts(cache.domains().counts(domain));
        writeln!(text, "domain {domain} {hit_map} {fill_map} {counts}").expect(WRITTEN);
    }
    text
}
