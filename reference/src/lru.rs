//! True LRU (document 02, job 1): "The replacement word holds ways in 4-bit places, place k from bit 4k up, place 0 the
//! most recent; places W and above are zero." An *order* is a word of that form; a word as it is stored may be any.

use crate::maps::{all_ways, holds, only, Map};

const PLACE_BITS: usize = 4;
const PLACE_MASK: u64 = 0xf;

/// The word with these ways in its places, from place 0 up.
fn in_places(ways: impl Iterator<Item = usize>) -> u64 {
    ways.enumerate().fold(0, |word, (place, way)| word | (way as u64) << (PLACE_BITS * place))
}

fn way_at(order: u64, place: usize) -> usize {
    (order >> (PLACE_BITS * place) & PLACE_MASK) as usize
}

/// The ways in the places below W, from place 0 up.
fn by_place(ways: usize, order: u64) -> impl Iterator<Item = usize> {
    let mut left = order;
    (0..ways).map(move |_| {
        let way = left & PLACE_MASK;
        left >>= PLACE_BITS;
        way as usize
    })
}

/// "Fresh, place k holds way W − 1 − k."
pub fn fresh_word(ways: usize) -> u64 {
    in_places((0..ways).rev())
}

/// Whether a word holds "each way exactly once" and has no "higher place not zero". W places that hold all W ways hold
/// none of them twice.
fn is_order(ways: usize, word: u64) -> bool {
    let held = by_place(ways, word).fold(0, |map, way| map | only(way));
    let higher = word.checked_shr((PLACE_BITS * ways) as u32).unwrap_or(0);
    held == all_ways(ways) && higher == 0
}

/// "A word that does not hold each way exactly once, or has a higher place not zero, is read as fresh."
fn read(ways: usize, word: u64) -> u64 {
    if is_order(ways, word) {
        word
    } else {
        fresh_word(ways)
    }
}

/// "A step, or a call of the rules alone, after which the order is as read leaves the word untouched."
fn stored(word: u64, as_read: u64, order: u64) -> u64 {
    if order == as_read {
        word
    } else {
        order
    }
}

/// An order with this way brought to place 0; the ways in lower places move up by one.
fn to_front(ways: usize, order: u64, way: usize) -> u64 {
    let place = by_place(ways, order).position(|held| held == way).expect("an order holds each way");
    let moving = u64::MAX >> (u64::BITS as usize - PLACE_BITS * (place + 1));
    order & !moving | order << PLACE_BITS & moving | way as u64
}

/// "Touching a way of the fill map brings it to place 0; touching another moves nothing."
pub fn touch(ways: usize, word: u64, fill_map: Map, way: usize) -> u64 {
    if !holds(fill_map, way) {
        return word;
    }
    let order = read(ways, word);
    stored(word, order, to_front(ways, order, way))
}

/// "The victim is the fill map's way nearest the old end"; none of an empty fill map. The word stays as it is.
pub fn victim(ways: usize, word: u64, fill_map: Map) -> Option<usize> {
    let order = read(ways, word);
    (0..ways).rev().map(|place| way_at(order, place)).find(|&way| holds(fill_map, way))
}

/// "A policy change moves the ways in exactly one of the old and new fill maps to the old end, the lowest of them
/// oldest, and leaves the rest in their order."
pub fn to_old_end(ways: usize, word: u64, moved: Map) -> u64 {
    let order = read(ways, word);
    let rest = by_place(ways, order).filter(|&way| !holds(moved, way));
    let last = (0..ways).rev().filter(|&way| holds(moved, way));
    stored(word, order, in_places(rest.chain(last)))
}

/// "Here a domain's own replacement data is the relative order of its fill ways": these alone, from place 0 up.
pub fn own(ways: usize, word: u64, fill_map: Map) -> u64 {
    in_places(by_place(ways, read(ways, word)).filter(|&way| holds(fill_map, way)))
}

#[cfg(test)]
mod tests {
    use super::*;

    /// At four ways: zero, all ones, a way twice, a way too high, place W not zero, and the last place not zero.
    const NO_ORDERS: [u64; 6] = [0, u64::MAX, 0x0122, 0x0124, 0x1_0123, 0xf000_0000_0000_0123];

    #[test]
    fn fresh_words() {
        let words = [2, 4, 8, 16].map(fresh_word);
        assert_eq!(words, [0x01, 0x0123, 0x0123_4567, 0x0123_4567_89ab_cdef]);
    }

    #[test]
    fn no_order_is_read_as_fresh() {
        for word in NO_ORDERS {
            assert_eq!(touch(4, word, 15, 2), 0x0132, "{word:x}");
            assert_eq!(victim(4, word, 15), Some(0), "{word:x}");
            assert_eq!(to_old_end(4, word, 0b1000), 0x3012, "{word:x}");
            assert_eq!(own(4, word, 0b0110), 0x12, "{word:x}");
        }
    }

    /// Touching way 3, which is in place 0 as read, leaves the word; so does moving ways that are at the old end.
    #[test]
    fn an_order_that_is_as_read_leaves_the_word() {
        for word in NO_ORDERS {
            assert_eq!(touch(4, word, 15, 3), word);
            assert_eq!(to_old_end(4, word, 0b0011), word);
            assert_eq!(to_old_end(4, word, 0), word);
        }
    }

    #[test]
    fn a_touch_outside_the_map_moves_nothing() {
        for word in [0, 0x0132, 0x0122] {
            assert_eq!(touch(4, word, 0b1011, 2), word);
        }
    }

    /// Way 0 is in the last place, and not in the map.
    #[test]
    fn a_victim_that_is_not_in_the_last_place() {
        assert_eq!(victim(4, 0x0123, 0b1010), Some(1));
        assert_eq!(victim(4, 0x0123, 0b1000), Some(3));
        assert_eq!(victim(4, 0x0123, 0), None);
    }

    /// Ways 3 and 1 move from places 1 and 2 to the old end, way 1 oldest; ways 2 and 0 stay in their order.
    #[test]
    fn a_change_that_moves_two_ways() {
        assert_eq!(to_old_end(4, 0x0132, 0b1010), 0x1302);
        assert_eq!(to_old_end(4, 0x0312, 0b1111), 0x0123);
    }

    /// Sixteen touches in turn, from the lowest way to the highest, make a fresh word; the first has moved way 0 from
    /// the last place to the first.
    #[test]
    fn sixteen_ways_fill_the_word() {
        assert_eq!(touch(16, 0, u16::MAX, 0), 0x1234_5678_9abc_def0);
        let touched = (0..16).fold(0, |word, way| touch(16, word, u16::MAX, way));
        assert_eq!(touched, fresh_word(16));
    }

    /// The ways from place 0 up, by the text alone.
    fn listed(ways: usize, word: u64) -> Vec<usize> {
        let places: Vec<usize> = (0..16).map(|place| (word >> (4 * place)) as usize % 16).collect();
        let each_once = (0..ways).all(|way| places[..ways].iter().filter(|&&held| held == way).count() == 1);
        let stands = each_once && places[ways..].iter().all(|&held| held == 0);
        if stands {
            places[..ways].to_vec()
        } else {
            (0..ways).rev().collect()
        }
    }

    /// The word that leaves a list of ways, of a word that was read as `before`.
    fn left(word: u64, before: &[usize], after: &[usize]) -> u64 {
        if before == after {
            return word;
        }
        after.iter().rev().fold(0, |word, &way| 16 * word + way as u64)
    }

    /// Every word with 0 to 4 in each of five places: all orders of four ways, and all that is wrong with a word.
    #[test]
    fn every_word_of_five_places_as_a_list() {
        for number in 0..5u64.pow(5) {
            let word = (0..5).fold(0, |word, place| 16 * word + number / 5u64.pow(place) % 5);
            let list = listed(4, word);
            for map in 0..16 {
                let (moved, rest): (Vec<usize>, Vec<usize>) = list.iter().partition(|&&way| holds(map, way));
                assert_eq!(victim(4, word, map), moved.last().copied());
                assert_eq!(own(4, word, map), left(0, &[], &moved));
                let mut last = moved.clone();
                last.sort_by(|one, other| other.cmp(one));
                assert_eq!(to_old_end(4, word, map), left(word, &list, &[rest, last].concat()));
                for way in moved {
                    let others: Vec<usize> = list.iter().copied().filter(|&other| other != way).collect();
                    assert_eq!(touch(4, word, map, way), left(word, &list, &[vec![way], others].concat()));
                }
            }
        }
    }
}
