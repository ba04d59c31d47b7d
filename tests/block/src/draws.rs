//! What is drawn: geometries, contents of blocks, and steps.

use crate::pair::{Call, Pair};
use crate::random::Random;

pub const HEAD: usize = 8;
const HIT_MAPS: usize = 8;
const FILL_MAPS: usize = 40;
const COUNTS: usize = 72;
const TABLES: usize = 520;

/// Numbers at and beyond the limits of sets, ways, rule, domain and kind.
const LIMITS: [u64; 19] =
    [0, 1, 2, 3, 4, 8, 16, 17, 32, 40, 255, 256, 272, 4096, 8192, 65_535, 65_536, 1 << 32, 1 << 63];

#[derive(Clone, Copy)]
pub struct Geometry {
    pub sets: u64,
    pub ways: u64,
    pub rule: u64,
}

impl Geometry {
    /// Mostly of few sets, in which the lines meet again; a large one now and then.
    pub fn drawn(random: &mut Random) -> Geometry {
        let sets = 1 << if random.once_in(16) { random.below(13) } else { random.below(4) };
        Geometry { sets, ways: 2 << random.below(4), rule: random.below(3) }
    }

    pub fn length(&self) -> usize {
        TABLES + (self.sets * (12 + 8 * self.ways)) as usize
    }

    pub fn head(&self) -> [u8; HEAD] {
        let [low, high, ..] = self.sets.to_le_bytes();
        [low, high, self.ways as u8, self.rule as u8, 0, 0, 0, 0]
    }

    /// An order of the ways, as true LRU stores it.
    fn order(&self, random: &mut Random) -> u64 {
        let mut order: Vec<u64> = (0..self.ways).collect();
        for place in (1..order.len()).rev() {
            order.swap(place, random.below(place as u64 + 1) as usize);
        }
        order.iter().enumerate().map(|(place, way)| way << (4 * place)).sum()
    }
}

/// A number that is at or beyond some limit, or would stand if it were cut to 8, 16 or 32 bits.
pub fn odd_number(random: &mut Random) -> u64 {
    match random.below(4) {
        0 => random.word(),
        1 => random.one_of(&[0, 1, 2, 3, 4, 8, 16]) + random.one_of(&[1 << 8, 1 << 16, 1 << 32]),
        _ => random.one_of(&LIMITS).wrapping_add(random.below(3)).wrapping_sub(1),
    }
}

/// The length of a block that does not have its own.
pub fn wrong_length(random: &mut Random, own: usize) -> usize {
    match random.below(4) {
        0 => random.below(16) as usize,
        1 => random.below(own as u64) as usize,
        2 => own + 1 + random.below(16) as usize,
        _ => own - 1 - random.below(8) as usize,
    }
}

/// A block with a head that stands and any bytes behind it. Half of them have small tags, which addresses reach, and
/// words that a rule would write.
pub fn any_block(random: &mut Random, geometry: &Geometry) -> Vec<u8> {
    let mut block = vec![0; geometry.length()];
    random.fill(&mut block);
    block[..HEAD].copy_from_slice(&geometry.head());
    if random.once_in(2) {
        let words = TABLES + 4 * geometry.sets as usize;
        let tags = words + 8 * geometry.sets as usize;
        for word in block[words..tags].chunks_exact_mut(8) {
            let of_rule = if geometry.rule == 2 { geometry.order(random) } else { random.below(1 << geometry.ways) };
            word.copy_from_slice(&of_rule.to_le_bytes());
        }
        for tag in block[tags..].chunks_exact_mut(8) {
            tag.copy_from_slice(&random.below(3 * geometry.ways).to_le_bytes());
        }
    }
    if random.once_in(2) {
        block[HIT_MAPS..COUNTS].fill(0);
    }
    block
}

/// The ways below W that no other domain's hit map has, by a block that has its maps.
fn left_over(block: &[u8], domain: u64, ways: u64) -> u64 {
    let stored = block[HIT_MAPS..FILL_MAPS].chunks_exact(2).map(|map| u64::from(u16::from_le_bytes([map[0], map[1]])));
    let others = stored.enumerate().filter(|&(other, _)| other as u64 != domain).fold(0, |all, (_, map)| all | map);
    !others & ((1 << ways) - 1)
}

/// A policy change. Half of them ask for ways that no other domain has; a few cannot stand whatever the others have.
fn maps(random: &mut Random, block: &[u8], domain: u64, ways: u64) -> u64 {
    let below_ways = (1 << ways) - 1;
    let from = if block.len() >= TABLES && random.once_in(2) { left_over(block, domain, ways) } else { below_ways };
    let some = random.word() & from;
    let hit_map = if some == 0 || random.once_in(4) { from } else { some };
    match random.below(24) {
        0 => 0,
        1 => random.word() & 0xffff_ffff,
        2 => hit_map | 1 << (32 + random.below(32)),
        3 => hit_map | (random.word() & below_ways) << 16,
        4 => hit_map,
        5..=11 => hit_map | hit_map << 16,
        _ => hit_map | (hit_map & (random.word() | random.word())) << 16,
    }
}

/// An address whose line meets others: few tags, in few sets. Now and then any.
fn address(random: &mut Random, geometry: &Geometry) -> u64 {
    if random.once_in(32) {
        return random.word();
    }
    let set = if random.once_in(4) { geometry.sets - 1 } else { random.below(geometry.sets.min(2)) };
    let tag = random.below(geometry.ways / 2 + 3);
    64 * (tag * geometry.sets + set) + random.below(64)
}

/// A step by one of few domains; a few have odd numbers, or an answer of another length.
pub fn step(random: &mut Random, geometry: &Geometry, block: &[u8]) -> Call {
    let domain = match random.below(32) {
        0 => odd_number(random),
        1 => random.below(16),
        drawn => drawn % 3,
    };
    let kind = match random.below(32) {
        0 => odd_number(random),
        1..=5 => 16,
        6..=9 => 3,
        10..=13 => 0,
        14..=21 => 2,
        _ => 1,
    };
    let argument = if kind == 16 { maps(random, block, domain, geometry.ways) } else { address(random, geometry) };
    let room = if random.once_in(32) { random.below(65) as usize } else { 32 };
    Call::Step { domain, kind, argument, room }
}

/// Policy changes that divide the ways among domains 0 to 2, with some ways locked and some left over.
pub fn division(random: &mut Random, geometry: &Geometry) -> [Call; 3] {
    let mut hit_maps = [0; 3];
    let cuts = [random.below(geometry.ways), random.below(geometry.ways + 1)];
    for way in 0..geometry.ways {
        // By cuts, so that no tree node is shared as long as the parts are parts of the tree, or way by way.
        let owner =
            if geometry.rule == 0 { cuts.iter().filter(|&&cut| way >= cut).count() } else { random.below(4) as usize };
        if let Some(map) = hit_maps.get_mut(owner) {
            *map |= 1 << way;
        }
    }
    [0, 1, 2].map(|domain| {
        let hit_map: u64 = hit_maps[domain];
        let fill_map = if random.once_in(3) { hit_map & random.word() } else { hit_map };
        Call::Step { domain: domain as u64, kind: 16, argument: hit_map | fill_map << 16, room: 32 }
    })
}

/// Writes something into both blocks between two steps: a count that is full or close to it, most often dropped; maps
/// of any bits; or some bytes anywhere behind the head.
pub fn poke(random: &mut Random, pair: &mut Pair) {
    let domain = random.below(3) as usize;
    match random.below(4) {
        0 => {
            let count = random.below(7) as usize;
            let close = u32::MAX - random.below(3) as u32;
            pair.write(COUNTS + 28 * domain + 4 * count, &close.to_le_bytes());
        }
        1 => {
            let close = u32::MAX - random.below(6) as u32;
            pair.write(COUNTS + 28 * domain + 24, &close.to_le_bytes());
        }
        2 => {
            let from = if random.once_in(2) { HIT_MAPS } else { FILL_MAPS };
            pair.write(from + 2 * domain, &random.word().to_le_bytes()[..2]);
        }
        _ => {
            let behind = (pair.bytes().len() - HEAD) as u64;
            for _ in 0..random.below(8) {
                let place = HEAD + random.below(behind) as usize;
                pair.write(place, &[random.word() as u8]);
            }
        }
    }
}

/// Another head: one byte damaged, a zero byte that is not zero, or ways and rule that stand but are not the block's.
pub fn another_head(random: &mut Random, geometry: &Geometry) -> [u8; HEAD] {
    let mut head = geometry.head();
    match random.below(4) {
        0 => head[random.below(4) as usize] = odd_number(random) as u8,
        1 => head[4 + random.below(4) as usize] = 1 << random.below(8),
        2 => head[2] = 2 << random.below(4),
        _ => random.fill(&mut head),
    }
    head
}
