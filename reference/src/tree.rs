//! "The tree and the bits": Tree-PLRU.
//!
//! "Nodes 0 to W − 2; node 0 is the root, node i has children 2i + 1 (left, lower ways) and 2i + 2 (right)."
//! Counting on below the last nodes, the children are the ways themselves: number W − 1 + w is way w.

use crate::maps::{all_ways, holds, Map};

fn left_child(node: usize) -> usize {
    2 * node + 1
}

fn right_child(node: usize) -> usize {
    2 * node + 2
}

/// The ways below a node (or the one way that a number of W − 1 or more is). The nodes of one depth share the ways
/// out evenly, the lower ways to the left: one node has all of them, two have a half each, and so on.
fn ways_below(ways: usize, node: usize) -> Map {
    let depth = (node + 1).ilog2();
    let place = node + 1 - (1 << depth);
    let share = ways >> depth;
    all_ways(share) << (place * share)
}

fn left_half(ways: usize, node: usize) -> Map {
    ways_below(ways, left_child(node))
}

fn right_half(ways: usize, node: usize) -> Map {
    ways_below(ways, right_child(node))
}

/// "A node is *free* for a fill map if each of its halves holds a way of the map."
fn is_free(ways: usize, node: usize, fill_map: Map) -> bool {
    fill_map & left_half(ways, node) != 0 && fill_map & right_half(ways, node) != 0
}

/// "Another node is forced: right if only its right half holds one, else left."
fn is_forced_right(ways: usize, node: usize, fill_map: Map) -> bool {
    fill_map & left_half(ways, node) == 0 && fill_map & right_half(ways, node) != 0
}

/// "Node i is bit i of the replacement word; 0 points left, 1 right."
fn points_right(word: u64, node: usize) -> bool {
    word >> node & 1 == 1
}

/// The free nodes of a fill map, as bits of a replacement word.
pub fn free_nodes(ways: usize, fill_map: Map) -> u64 {
    (0..ways - 1).filter(|&node| is_free(ways, node, fill_map)).map(|node| 1 << node).sum()
}

/// "The victim is reached from the root by free nodes' bits and forced directions."
pub fn victim(ways: usize, word: u64, fill_map: Map) -> usize {
    let mut node = 0;
    while node < ways - 1 {
        let free = is_free(ways, node, fill_map);
        let right = if free { points_right(word, node) } else { is_forced_right(ways, node, fill_map) };
        node = if right { right_child(node) } else { left_child(node) };
    }
    node - (ways - 1)
}

/// "Touching way w sets each free node on the path to w so that it points away from w; no other bit moves." By document
/// 02, "the block's next release turns no node on a touch outside the fill map." The path is gone from the way up to
/// the root.
pub fn touch(ways: usize, word: u64, fill_map: Map, way: usize) -> u64 {
    if !holds(fill_map, way) {
        return word;
    }
    let mut word = word;
    let mut below = ways - 1 + way;
    while below > 0 {
        let node = (below - 1) / 2;
        if is_free(ways, node, fill_map) {
            let way_is_left = below == left_child(node);
            word = if way_is_left { word | 1 << node } else { word & !(1 << node) };
        }
        below = node;
    }
    word
}

#[cfg(test)]
mod tests {
    use super::*;

    /// The ways below a node by the text alone: from the root down, left the lower half, right the upper.
    fn ways_below_by_halving(ways: usize, node: usize) -> std::ops::Range<usize> {
        if node == 0 {
            return 0..ways;
        }
        let above = ways_below_by_halving(ways, (node - 1) / 2);
        let middle = (above.start + above.end) / 2;
        if node % 2 == 1 {
            above.start..middle
        } else {
            middle..above.end
        }
    }

    /// "Masked form: (word and not mask) or (mask and policy), mask being one at nodes that are not free, policy one
    /// at nodes forced right; the tree is then walked by that word's bits alone."
    fn victim_by_masked_form(ways: usize, word: u64, fill_map: Map) -> usize {
        let mask = !free_nodes(ways, fill_map) & ((1 << (ways - 1)) - 1);
        let policy: u64 =
            (0..ways - 1).filter(|&node| is_forced_right(ways, node, fill_map)).map(|node| 1 << node).sum();
        let masked = (word & !mask) | (mask & policy);
        let mut node = 0;
        while node < ways - 1 {
            node = if points_right(masked, node) { right_child(node) } else { left_child(node) };
        }
        node - (ways - 1)
    }

    #[test]
    fn ways_below_are_halves_of_halves() {
        for ways in [2, 4, 8, 16] {
            for node in 0..2 * ways - 1 {
                let by_halving = ways_below_by_halving(ways, node);
                for way in 0..16 {
                    assert_eq!(holds(ways_below(ways, node), way), by_halving.contains(&way), "{ways} {node} {way}");
                }
            }
        }
    }

    #[test]
    fn both_forms_of_the_victim_agree_and_stay_in_the_map() {
        for ways in [2, 4, 8] {
            for fill_map in 1..=all_ways(ways) {
                for word in 0..1 << (ways - 1) {
                    let way = victim(ways, word, fill_map);
                    assert!(holds(fill_map, way));
                    assert_eq!(way, victim_by_masked_form(ways, word, fill_map));
                }
            }
        }
    }

    #[test]
    fn sixteen_ways_too() {
        for fill_map in 1..=u16::MAX {
            let word = u64::from(fill_map).wrapping_mul(0x9e37_79b9_7f4a_7c15) >> 40;
            let way = victim(16, word, fill_map);
            assert!(holds(fill_map, way));
            assert_eq!(way, victim_by_masked_form(16, word, fill_map));
        }
    }

    #[test]
    fn a_touched_way_is_not_the_next_victim_while_the_map_has_another() {
        for fill_map in 1..=u16::MAX {
            let touched = victim(16, 0, fill_map);
            let next = victim(16, touch(16, 0, fill_map, touched), fill_map);
            assert_eq!(next == touched, fill_map.count_ones() == 1);
        }
    }

    /// Every map at two, four and eight ways with every word of their nodes; the empty map too, which holds no way.
    #[test]
    fn a_touch_outside_the_map_leaves_the_word() {
        for ways in [2, 4, 8] {
            for fill_map in 0..=all_ways(ways) {
                for way in (0..ways).filter(|&way| !holds(fill_map, way)) {
                    for word in (0..1 << (ways - 1)).chain([u64::MAX]) {
                        assert_eq!(touch(ways, word, fill_map, way), word, "{ways} {fill_map} {way}");
                    }
                }
            }
        }
    }

    #[test]
    fn a_touch_outside_the_map_at_sixteen_ways() {
        for fill_map in 0..=u16::MAX {
            let mixed = u64::from(fill_map).wrapping_mul(0x9e37_79b9_7f4a_7c15);
            for way in (0..16).filter(|&way| !holds(fill_map, way)) {
                for word in [0, u64::MAX, mixed] {
                    assert_eq!(touch(16, word, fill_map, way), word, "{fill_map} {way}");
                }
            }
        }
    }

    /// Of map 6, ways 1 and 2, only node 1 is free, and it is on the path to each of ways 0 to 3. Way 1 turns it right
    /// and way 2 left; ways 0 and 3, beside them, and way 4 do not turn it.
    #[test]
    fn a_free_node_is_turned_by_ways_of_the_map_alone() {
        assert_eq!(free_nodes(8, 6), 0b10);
        for word in [0, 0b10] {
            let touched = [0, 1, 2, 3, 4].map(|way| touch(8, word, 6, way));
            assert_eq!(touched, [word, 0b10, 0, word, word]);
        }
    }

    /// A way of the map, by the text alone: each free node above it points to its other half, and no other bit moves.
    #[test]
    fn a_touch_in_the_map_turns_the_free_nodes_on_its_path() {
        for ways in [2, 4, 8] {
            for fill_map in 1..=all_ways(ways) {
                for way in (0..ways).filter(|&way| holds(fill_map, way)) {
                    let turned = |word: u64, node: usize| match ways_below_by_halving(ways, node) {
                        below if !below.contains(&way) || !is_free(ways, node, fill_map) => word >> node & 1,
                        below => u64::from(way < (below.start + below.end) / 2),
                    };
                    for word in 0..1 << (ways - 1) {
                        let due: u64 = (0..ways - 1).map(|node| turned(word, node) << node).sum();
                        assert_eq!(touch(ways, word, fill_map, way), due, "{ways} {fill_map} {way} {word}");
                    }
                }
            }
        }
    }
}
