//! The block, by document 02: "RTL testbenches call the model from C with one lent block of bytes. It holds sets (2
//! bytes), ways (1), rule (1), four zero bytes; then 16 hit maps and 16 fill maps of 2 bytes; 16 records of seven 4-byte
//! counts; then the valid, dirty, replacement and tag tables, all little-endian."
//!
//! A step reads a whole cache out of the bytes, does the step on it and writes it back: "A step on the block does to its
//! contents what the step on tables does." The numbers of the calls are 64 bits wide, so that none is cut.

use crate::cache::{Cache, Tables};
use crate::domains::{Counts, Domain, Domains, Policy, COUNTS, DOMAINS};
use crate::geometry::Geometry;
use crate::numbers::Refusal;
use crate::steps::{Answer, Step};

#[cfg(test)]
mod tests;

/// Sets, ways, rule and the four zero bytes.
const HEAD: usize = 8;

const MAP: usize = 2;
const COUNT: usize = 4;
const WORD: usize = 8;

/// "A 32-byte lent answer: word number and three fields, each of 8 bytes."
pub const ANSWER: usize = 4 * WORD;

/// The length of a block.
pub fn length(geometry: &Geometry) -> usize {
    let domains = DOMAINS * (2 * MAP + COUNTS * COUNT);
    HEAD + domains + geometry.sets * (2 * MAP + WORD + geometry.ways * WORD)
}

/// "A call makes a fresh block of given sets, ways and rule." Gives 0 or the refusal's number.
pub fn fresh(block: &mut [u8], sets: u64, ways: u64, rule: u64) -> u64 {
    match fresh_or_refusal(block, sets, ways, rule) {
        Ok(()) => 0,
        Err(refusal) => u64::from(refusal.number()),
    }
}

fn fresh_or_refusal(block: &mut [u8], sets: u64, ways: u64, rule: u64) -> Result<(), Refusal> {
    judge_head(block)?;
    // The largest number of each type is outside the limits, as is every number that the type does not have.
    let sets = u16::try_from(sets).unwrap_or(u16::MAX);
    let ways = u8::try_from(ways).unwrap_or(u8::MAX);
    let rule = u8::try_from(rule).unwrap_or(u8::MAX);
    let geometry = Geometry::new(sets, ways, rule)?;
    judge_length(&geometry, block)?;
    write(block, &geometry, Cache::fresh(geometry));
    Ok(())
}

/// "Another does one step of kinds 0 to 3 or 16 and fills a 32-byte lent answer." Gives 0 or the refusal's number. "A
/// refusal fills the answer too"; "an answer of a wrong length is not written".
pub fn step(block: &mut [u8], domain: u64, kind: u64, argument: u64, answer: &mut [u8]) -> u64 {
    let answered = step_or_refusal(block, domain, kind, argument, answer.len()).unwrap_or_else(Answer::Refused);
    if answer.len() == ANSWER {
        answer.copy_from_slice(&fields(answered).map(u64::to_le_bytes).concat());
    }
    match answered {
        Answer::Refused(refusal) => u64::from(refusal.number()),
        _ => 0,
    }
}

/// The answer of a step on the cache in the block, or a number that comes before it: "12, block or answer of a wrong
/// length, or at a step a zero byte that is not zero, checked after 1".
fn step_or_refusal(block: &mut [u8], domain: u64, kind: u64, argument: u64, room: usize) -> Result<Answer, Refusal> {
    judge_head(block)?;
    let geometry = Geometry::new(u16::from_le_bytes([block[0], block[1]]), block[2], block[3])?;
    judge_length(&geometry, block)?;
    if room != ANSWER || block[4..HEAD] != [0; 4] {
        return Err(Refusal::Block);
    }
    // 255 is no domain and no kind, as are all numbers above it. A core's kinds are unknown: no list of cores is lent.
    let domain = u8::try_from(domain).unwrap_or(u8::MAX);
    let kind = u8::try_from(kind).unwrap_or(u8::MAX);
    let mut cache = read(block, &geometry);
    let answered = cache.step(&Step { domain, kind, argument });
    if !matches!(answered, Answer::Refused(_)) {
        write(block, &geometry, cache);
    }
    Ok(answered)
}

/// "A block under 8 bytes is 12 before all else."
fn judge_head(block: &[u8]) -> Result<(), Refusal> {
    if block.len() < HEAD {
        return Err(Refusal::Block);
    }
    Ok(())
}

fn judge_length(geometry: &Geometry, block: &[u8]) -> Result<(), Refusal> {
    if block.len() != length(geometry) {
        return Err(Refusal::Block);
    }
    Ok(())
}

/// "Words run from 0 as hit, fill, evict, pass, flush, absent, policy, refused; unused fields are zero, and a refusal
/// fills the answer too, its number in the first field."
fn fields(answer: Answer) -> [u64; 4] {
    match answer {
        Answer::Hit { way } => [0, way as u64, 0, 0],
        Answer::Fill { way } => [1, way as u64, 0, 0],
        Answer::Evict { way, tag, dirty } => [2, way as u64, tag, u64::from(dirty)],
        Answer::Pass => [3, 0, 0, 0],
        Answer::Flush { way, dirty } => [4, way as u64, u64::from(dirty), 0],
        Answer::Absent => [5, 0, 0, 0],
        Answer::Policy { dropped, dirty_dropped } => [6, u64::from(dropped), u64::from(dirty_dropped), 0],
        Answer::Select { .. } => unreachable!("no list of cores is lent"),
        Answer::Refused(refusal) => [7, u64::from(refusal.number()), 0, 0],
    }
}

/// The cache in a block of the right length, whatever its bytes are from the hit maps on.
fn read(block: &[u8], geometry: &Geometry) -> Cache {
    let mut rest = &block[HEAD..];
    let hit_maps: Vec<u16> = numbers(&mut rest, DOMAINS, u16::from_le_bytes);
    let fill_maps: Vec<u16> = numbers(&mut rest, DOMAINS, u16::from_le_bytes);
    let counts: Vec<u32> = numbers(&mut rest, DOMAINS * COUNTS, u32::from_le_bytes);
    let mut table = [Domain::default(); DOMAINS];
    for (number, domain) in table.iter_mut().enumerate() {
        domain.stored = Policy { hit_map: hit_maps[number], fill_map: fill_maps[number] };
        let record = &counts[number * COUNTS..][..COUNTS];
        domain.counts = Counts::from_order(record.try_into().expect("seven counts"));
    }
    let tables = Tables {
        valid: numbers(&mut rest, geometry.sets, u16::from_le_bytes),
        dirty: numbers(&mut rest, geometry.sets, u16::from_le_bytes),
        replacement: numbers(&mut rest, geometry.sets, u64::from_le_bytes),
        tags: numbers(&mut rest, geometry.sets * geometry.ways, u64::from_le_bytes),
    };
    Cache::of_tables(*geometry, tables, Domains::lent(geometry.ways, table))
}

/// The next `many` numbers of `BYTES` bytes each, which are taken off the rest.
fn numbers<T, const BYTES: usize>(rest: &mut &[u8], many: usize, of_bytes: fn([u8; BYTES]) -> T) -> Vec<T> {
    let (taken, left) = rest.split_at(many * BYTES);
    *rest = left;
    taken.chunks_exact(BYTES).map(|bytes| of_bytes(bytes.try_into().expect("bytes of a number"))).collect()
}

/// Writes the geometry and the cache over a block of the right length.
fn write(block: &mut [u8], geometry: &Geometry, cache: Cache) {
    let (tables, domains) = cache.into_tables();
    let mut bytes = Vec::with_capacity(block.len());
    bytes.extend((geometry.sets as u16).to_le_bytes());
    bytes.extend([geometry.ways as u8, geometry.rule as u8, 0, 0, 0, 0]);
    bytes.extend((0..DOMAINS).flat_map(|domain| domains.stored(domain).hit_map.to_le_bytes()));
    bytes.extend((0..DOMAINS).flat_map(|domain| domains.stored(domain).fill_map.to_le_bytes()));
    let counts = (0..DOMAINS).flat_map(|domain| domains.counts(domain).in_order());
    bytes.extend(counts.flat_map(u32::to_le_bytes));
    bytes.extend(tables.valid.iter().chain(&tables.dirty).flat_map(|map| map.to_le_bytes()));
    bytes.extend(tables.replacement.iter().chain(&tables.tags).flat_map(|word| word.to_le_bytes()));
    block.copy_from_slice(&bytes);
}
