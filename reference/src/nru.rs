//! "The tree and the bits": NRU. "Bit w belongs to way w."

use crate::maps::{encoded, holds, Map};

/// "The low W bits of each replacement word are one" in a fresh cache.
pub fn fresh_word(ways: usize) -> u64 {
    (1 << ways) - 1
}

/// "Touching w clears its bit if w is in the fill map."
pub fn touch(word: u64, fill_map: Map, way: usize) -> u64 {
    if holds(fill_map, way) {
        word & !(1 << way)
    } else {
        word
    }
}

/// The victim is a way of the fill map whose bit is one; "if there is none, all bits of the fill map become one" and it
/// is one of those. By document 02, "among NRU ways whose bit is one, and for the NRU default, the highest way now
/// wins". Answers the victim and the word before the victim's touch; none of an empty fill map.
pub fn victim(word: u64, fill_map: Map) -> Option<(usize, u64)> {
    let candidates = fill_map & word as Map;
    match encoded(candidates) {
        Some(way) => Some((way, word)),
        None => Some((encoded(fill_map)?, word | u64::from(fill_map))),
    }
}

#[cfg(test)]
mod tests {
    use super::*;

    /// The default is the highest way of the fill map: neither the highest of the cache, nor way 15, nor way 0. The
    /// bits of other ways, and those above the ways, do not matter and stay.
    #[test]
    fn the_default_is_a_way_of_the_fill_map() {
        for (fill_map, way) in [(0b0000_0110, 2), (0b0111_1110, 6), (0b0000_0010, 1), (0x3ffe, 13)] {
            for word in [0, !u64::from(fill_map)] {
                assert_eq!(victim(word, fill_map), Some((way, word | u64::from(fill_map))));
            }
        }
        assert_eq!(victim(u64::MAX, 0), None);
    }

    /// Every map and every word of eight ways, by the text alone.
    #[test]
    fn the_highest_way_with_its_bit_else_the_highest() {
        for fill_map in 1..=0xff {
            let ways: Vec<usize> = (0..8).filter(|way| fill_map >> way & 1 == 1).collect();
            for word in 0..=0xff {
                let with_bit: Vec<usize> = ways.iter().copied().filter(|way| word >> way & 1 == 1).collect();
                let due = match with_bit.last() {
                    Some(&way) => (way, word),
                    None => (ways[ways.len() - 1], word | fill_map),
                };
                assert_eq!(victim(word, fill_map as Map), Some(due), "map {fill_map}, word {word}");
            }
        }
    }
}
