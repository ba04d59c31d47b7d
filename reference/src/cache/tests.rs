//! States that no trace file reaches, and points that a reader of document 01 could miss.

use super::*;
use crate::geometry::Rule;
use crate::numbers::Refusal;

mod drops;

fn cache(ways: usize, rule: Rule) -> Cache {
    Cache::fresh(Geometry { sets: 1, ways, rule })
}

fn policy(hit_map: Map, fill_map: Map) -> Step {
    Step { domain: 0, kind: 16, argument: u64::from(hit_map) | u64::from(fill_map) << 16 }
}

fn store(line: u64) -> Step {
    Step { domain: 0, kind: 2, argument: line * 64 }
}

fn flush(line: u64) -> Step {
    Step { domain: 0, kind: 3, argument: line * 64 }
}

fn of_domain(domain: u8, step: Step) -> Step {
    Step { domain, ..step }
}

/// Stored maps 3 and 12 are read as 3 and 0: by the fill maps 0 and 3, only bits 0 and 1 change hands.
#[test]
fn the_old_policy_is_the_one_read() {
    let mut cache = cache(4, Rule::Nru);
    cache.domains.store(0, Policy { hit_map: 3, fill_map: 12 });
    cache.replacement[0] = 0;
    assert_eq!(cache.step(&policy(3, 3)), Answer::Policy { dropped: 0, dirty_dropped: 0 });
    assert_eq!(cache.replacement[0], 0b0011);
}

/// A way of W or more in a stored hit map is not there: refused 6.
#[test]
fn a_policy_of_high_ways_alone_is_empty() {
    let mut cache = cache(2, Rule::TreePlru);
    cache.domains.store(0, Policy { hit_map: 12, fill_map: 12 });
    assert_eq!(cache.step(&store(0)), Answer::Refused(Refusal::NoWays));
}

/// The policy change drops no line, so that a full count does not turn it down.
#[test]
fn any_full_count_turns_down_access_and_flush() {
    for full in 0..7 {
        let mut cache = cache(2, Rule::Nru);
        cache.step(&policy(3, 0));
        let mut counts = [0; 7];
        counts[full] = u32::MAX;
        *cache.domains.counts_mut(0) = Counts::from_order(counts);
        assert_eq!(cache.step(&store(0)), Answer::Refused(Refusal::CountSpent));
        assert_eq!(cache.step(&flush(0)), Answer::Refused(Refusal::CountSpent));
        assert_eq!(cache.domains.counts(0).in_order(), counts);
        assert_eq!(cache.step(&policy(1, 1)), Answer::Policy { dropped: 0, dirty_dropped: 0 });
        cache.domains.store(0, Policy::default());
        assert_eq!(cache.step(&store(0)), Answer::Refused(Refusal::NoWays));
    }
}

/// One dirty, one not: both are dropped, and nothing is written back.
#[test]
fn dropped_lines_are_answered_and_counted() {
    let mut cache = cache(4, Rule::Nru);
    cache.step(&policy(3, 3));
    cache.step(&store(5));
    cache.step(&Step { kind: 1, ..store(6) });
    assert_eq!(cache.step(&policy(12, 12)), Answer::Policy { dropped: 2, dirty_dropped: 1 });
    assert_eq!(cache.domains.counts(0).in_order(), [0, 2, 0, 0, 0, 2, 2]);
    assert_eq!((cache.valid[0], cache.dirty[0], &cache.tags[..]), (0, 0, &[0; 4][..]));
}

/// All 65,536 lines of the largest slice, every one stored to and none of its replacement words as it was fresh: one
/// change drops them and leaves all tables fresh.
#[test]
fn the_most_lines_that_a_change_drops() {
    for rule in [Rule::TreePlru, Rule::Nru, Rule::Lru] {
        let geometry = Geometry { sets: 4096, ways: 16, rule };
        let mut cache = Cache::fresh(geometry);
        cache.step(&policy(u16::MAX, u16::MAX));
        for line in 0..65_536 {
            assert_eq!(cache.step(&store(line)), Answer::Fill { way: 15 - line as usize / 4096 });
        }
        for line in 0..4096 {
            assert_eq!(cache.step(&store(line)), Answer::Hit { way: 15 });
        }
        let fresh_word = replacement::fresh_word(&geometry);
        assert!(!cache.replacement.contains(&fresh_word));
        assert_eq!(cache.step(&policy(0, 0)), Answer::Policy { dropped: 65_536, dirty_dropped: 65_536 });
        assert_eq!(cache.tags, [0; 65_536]);
        assert_eq!((cache.valid, cache.dirty), (vec![0; 4096], vec![0; 4096]));
        assert_eq!(cache.replacement, [fresh_word; 4096]);
    }
}

/// The upper eight ways change hands. Of their 32,768 lines the 16,384 in odd sets are dirty.
#[test]
fn half_of_the_lines_of_the_largest_slice() {
    let mut cache = Cache::fresh(Geometry { sets: 4096, ways: 16, rule: Rule::Nru });
    cache.step(&policy(u16::MAX, u16::MAX));
    for line in 0..65_536 {
        cache.step(&Step { kind: 1 + (line % 2) as u8, ..store(line) });
    }
    assert_eq!(cache.step(&policy(0x00ff, 0x00ff)), Answer::Policy { dropped: 32_768, dirty_dropped: 16_384 });
    assert_eq!(cache.valid, [0x00ff; 4096]);
    assert_eq!(cache.dirty, [0, 0x00ff].repeat(2048));
    assert_eq!(cache.replacement, [0xff00; 4096]);
}

#[test]
fn only_two_zero_maps_zero_the_counts() {
    let mut cache = cache(4, Rule::TreePlru);
    cache.step(&policy(3, 3));
    cache.step(&store(0));
    cache.step(&policy(3, 0));
    assert_eq!(cache.domains.counts(0).in_order(), [0, 1, 0, 0, 0, 1, 0]);
    assert_eq!(cache.step(&store(1)), Answer::Pass);
    assert_eq!(cache.step(&policy(0, 0)), Answer::Policy { dropped: 1, dirty_dropped: 1 });
    assert_eq!(cache.domains.counts(0).in_order(), [0; 7]);
    assert_eq!(cache.step(&policy(0, 0)), Answer::Policy { dropped: 0, dirty_dropped: 0 });
    assert_eq!(cache.step(&policy(0, 1)), Answer::Refused(Refusal::Argument));
}

/// A flush leaves the tag and the replacement bits, and its way is then the highest invalid one.
#[test]
fn a_flush_leaves_tag_and_replacement_bits() {
    let mut cache = cache(4, Rule::Nru);
    cache.step(&policy(15, 15));
    cache.step(&store(8));
    cache.step(&store(9));
    let (tags, word) = (cache.tags.clone(), cache.replacement[0]);
    assert_eq!(cache.step(&flush(8)), Answer::Flush { way: 3, dirty: true });
    assert_eq!((&cache.tags, cache.replacement[0]), (&tags, word));
    assert_eq!(cache.step(&flush(8)), Answer::Absent);
    assert_eq!(cache.step(&store(10)), Answer::Fill { way: 3 });
}

/// Way 1, the one filled first, is locked: hit, never filled again. Its touch moves no NRU bit, and it is not the
/// default when way 0 has not its bit.
#[test]
fn a_locked_way_is_hit_and_not_filled() {
    let mut cache = cache(2, Rule::Nru);
    cache.step(&policy(3, 3));
    assert_eq!(cache.step(&store(0)), Answer::Fill { way: 1 });
    cache.step(&policy(3, 1));
    assert_eq!(cache.replacement[0], 0b11);
    assert_eq!(cache.step(&store(1)), Answer::Fill { way: 0 });
    assert_eq!(cache.step(&store(2)), Answer::Evict { way: 0, tag: 1, dirty: true });
    assert_eq!(cache.step(&store(0)), Answer::Hit { way: 1 });
    assert_eq!(cache.replacement[0], 0b10);
}

/// Lines 3 to 0, in this order, so that line w is in way w; then ways 0 and 3 are locked, with lines 0 and 3 in them.
fn locked(rule: Rule) -> Cache {
    let mut cache = cache(4, rule);
    cache.step(&policy(0b1111, 0b1111));
    for line in (0..4).rev() {
        assert_eq!(cache.step(&Step { kind: 1, ..store(line) }), Answer::Fill { way: line as usize });
    }
    cache.step(&policy(0b1111, 0b0110));
    cache
}

/// Fetch, load and store, with every word of three bits. Under LRU none of these words is an order.
#[test]
fn a_hit_in_a_locked_way_leaves_the_word_under_every_rule() {
    for rule in [Rule::TreePlru, Rule::Nru, Rule::Lru] {
        let mut cache = locked(rule);
        for word in 0..8 {
            cache.replacement[0] = word;
            for (kind, way) in [(0, 0), (1, 3), (2, 0), (2, 3)] {
                assert_eq!(cache.step(&Step { kind, ..store(way as u64) }), Answer::Hit { way });
                assert_eq!(cache.replacement[0], word, "{rule:?}");
            }
        }
        assert_eq!(cache.dirty[0], 0b1001);
    }
}

/// Node 0 is free for ways 1 and 2, and on the path to each way. It points right at first, as way 0 was filled last.
/// The hit in way 2 turns it left and the fill of way 1 right; locked hits leave it, so that the way used longer ago is
/// evicted. If they turned it, a hit in way 0 would push out line 2, and a hit in way 3 line 4, each of them just used.
#[test]
fn a_hit_in_a_locked_way_does_not_steer() {
    for locked_line in [0, 3] {
        let mut cache = locked(Rule::TreePlru);
        assert_eq!(cache.replacement[0], 0b001);
        assert_eq!(cache.step(&store(2)), Answer::Hit { way: 2 });
        assert_eq!(cache.step(&store(locked_line)), Answer::Hit { way: locked_line as usize });
        assert_eq!(cache.replacement[0], 0b000);
        assert_eq!(cache.step(&store(4)), Answer::Evict { way: 1, tag: 1, dirty: false });
        assert_eq!(cache.step(&store(locked_line)), Answer::Hit { way: locked_line as usize });
        assert_eq!(cache.step(&store(5)), Answer::Evict { way: 2, tag: 2, dirty: true });
    }
}

/// A flushed line of a locked way is gone: the way is in no fill map, so that nothing fills it and a miss evicts. Node
/// 0 points right, to way 2, as at first in the test before.
#[test]
fn a_flushed_locked_way_stays_invalid() {
    for (line, way) in [(0, 0), (3, 3)] {
        let mut cache = locked(Rule::TreePlru);
        assert_eq!(cache.step(&store(line)), Answer::Hit { way });
        assert_eq!(cache.step(&flush(line)), Answer::Flush { way, dirty: true });
        assert_eq!(cache.step(&store(line)), Answer::Evict { way: 2, tag: 2, dirty: false });
        assert_eq!(cache.valid[0], 0b1111 & !only(way));
    }
}

/// "A way handed over with its replacement bits as the last owner left them": node 0 points right when domain 0
/// leaves, and left again for domain 1. Domain 0 fills both ways, of which way 0 is the second and turns it right.
#[test]
fn replacement_bits_are_handed_over_clean() {
    let mut cache = cache(2, Rule::TreePlru);
    cache.step(&policy(3, 3));
    cache.step(&store(0));
    cache.step(&store(1));
    assert_eq!(cache.replacement[0], 1);
    assert_eq!(cache.step(&of_domain(1, policy(3, 3))), Answer::Refused(Refusal::SharedWay));
    cache.step(&policy(0, 0));
    cache.step(&of_domain(1, policy(3, 3)));
    assert_eq!(cache.replacement[0], 0);
}

/// Under LRU, first way 2 changes hands, which is at the old end in sets 1 and 2; then ways 0 and 2; then way 0, which
/// is at the old end of every word as read: though zero is no order, it stays.
#[test]
fn an_order_is_handed_over_set_by_set() {
    let mut cache = Cache::fresh(Geometry { sets: 4, ways: 4, rule: Rule::Lru });
    assert_eq!(cache.replacement, [0x0123; 4]);
    cache.replacement = vec![0, 0x2130, 0x2301, 0x1_0123];
    cache.step(&policy(4, 4));
    assert_eq!(cache.replacement, [0x2013, 0x2130, 0x2301, 0x2013]);
    cache.replacement = vec![0; 4];
    cache.step(&policy(5, 1));
    assert_eq!(cache.replacement, [0x0213; 4]);
    cache.replacement = vec![0; 4];
    cache.step(&policy(0, 0));
    assert_eq!(cache.replacement, [0; 4]);
}

/// Way 3 is the most recent of a fresh order. Filling and hitting it leaves a word that is no order as it is.
#[test]
fn a_step_that_leaves_the_order_leaves_the_word() {
    let mut cache = cache(4, Rule::Lru);
    cache.step(&policy(15, 8));
    cache.replacement[0] = 0;
    assert_eq!(cache.step(&store(0)), Answer::Fill { way: 3 });
    assert_eq!(cache.step(&store(1)), Answer::Evict { way: 3, tag: 0, dirty: true });
    assert_eq!(cache.step(&store(1)), Answer::Hit { way: 3 });
    assert_eq!(cache.replacement[0], 0);
}

/// With lent policies that overlap, a change that shrinks and still overlaps is 8; a removal is accepted.
#[test]
fn overlapping_policies_are_read_as_they_are() {
    let mut cache = cache(4, Rule::Nru);
    cache.domains.store(0, Policy { hit_map: 7, fill_map: 7 });
    cache.domains.store(1, Policy { hit_map: 6, fill_map: 6 });
    assert_eq!(cache.step(&of_domain(1, store(3))), Answer::Fill { way: 2 });
    assert_eq!(cache.step(&policy(3, 3)), Answer::Refused(Refusal::SharedWay));
    assert_eq!(cache.step(&policy(0, 0)), Answer::Policy { dropped: 1, dirty_dropped: 1 });
}

/// The lowest number is given: 3 before 4, 5 before 8, 8 before 9.
#[test]
fn the_lowest_number_is_given() {
    let mut cache = cache(8, Rule::TreePlru);
    cache.step(&of_domain(1, policy(15, 15)));
    let refused = |cache: &mut Cache, step: Step| match cache.step(&step) {
        Answer::Refused(refusal) => refusal.number(),
        answer => panic!("{answer:?}"),
    };
    assert_eq!(refused(&mut cache, Step { domain: 16, kind: 4, argument: 0 }), 3);
    assert_eq!(refused(&mut cache, Step { domain: 15, kind: 15, argument: 0 }), 4);
    assert_eq!(refused(&mut cache, policy(1, 3)), 5);
    assert_eq!(refused(&mut cache, policy(0x101, 0)), 5);
    assert_eq!(refused(&mut cache, Step { domain: 0, kind: 16, argument: 1 << 32 }), 5);
    assert_eq!(refused(&mut cache, policy(15, 15)), 8);
    assert_eq!(refused(&mut cache, of_domain(2, flush(0))), 6);
}

/// One set of eight ways, all valid, way w with tag 10 + w.
fn filled() -> Cache {
    let mut cache = cache(8, Rule::Nru);
    cache.valid[0] = 0xff;
    cache.tags = (10..18).collect();
    cache
}

/// The hit map has ways 1, 4 and 6: its first, its middle and its last way are the first, second and third visited.
#[test]
fn a_hit_visits_the_ways_of_the_map_up_to_its_own() {
    let cache = filled();
    let hit_map = 0b0101_0010;
    assert_eq!(cache.find(0, 11, hit_map), (Some(1), 1));
    assert_eq!(cache.find(0, 14, hit_map), (Some(4), 2));
    assert_eq!(cache.find(0, 16, hit_map), (Some(6), 3));
}

#[test]
fn a_miss_visits_all_ways_of_the_map() {
    let cache = filled();
    for hit_map in 0..=0xff {
        assert_eq!(cache.find(0, 9, hit_map), (None, hit_map.count_ones() as usize), "map {hit_map}");
    }
}

/// Tag 15 is in way 5, which no map without that way visits, and a map with it and lower ones visits last.
#[test]
fn a_way_outside_the_map_is_not_visited() {
    let cache = filled();
    assert_eq!(cache.find(0, 15, 0b0101_0010), (None, 3));
    assert_eq!(cache.find(0, 15, 0b1101_1111), (None, 7));
    assert_eq!(cache.find(0, 15, 0b0010_0000), (Some(5), 1));
    assert_eq!(cache.find(0, 15, 0b1110_0110), (Some(5), 3));
}

/// Ways 1 and 4 have the tag too, but are invalid.
#[test]
fn an_invalid_way_with_an_equal_tag_is_visited_and_not_hit() {
    let mut cache = filled();
    cache.valid[0] = 0b1110_1101;
    cache.tags = vec![10, 16, 12, 13, 16, 15, 16, 17];
    assert_eq!(cache.find(0, 16, 0b0101_0010), (Some(6), 3));
    assert_eq!(cache.find(0, 16, 0b0001_0010), (None, 2));
}

#[test]
fn of_two_equal_tags_the_lower_ends_the_visits() {
    let mut cache = filled();
    cache.tags[4] = 16;
    assert_eq!(cache.find(0, 16, 0b0101_0010), (Some(4), 2));
}

/// Lent tables: tag 7 is valid in ways 2 and 5, and no other way is valid. A hit and a flush take the lower of the two,
/// under every rule, and a fill takes the highest invalid way of the fill map: 6, 4, 3 and 1, and then, of the two that
/// were flushed, 5. Way 7, which is locked, and way 0, which is in no map, are never filled.
#[test]
fn a_hit_takes_the_lowest_way_and_a_fill_the_highest() {
    for rule in [Rule::TreePlru, Rule::Nru, Rule::Lru] {
        let mut cache = cache(8, rule);
        cache.domains.store(0, Policy { hit_map: 0b1111_1110, fill_map: 0b0111_1110 });
        cache.valid[0] = 0b0010_0100;
        cache.tags = vec![0, 0, 7, 0, 0, 7, 0, 0];
        for (line, way) in [(20, 6), (21, 4), (22, 3), (23, 1)] {
            assert_eq!(cache.step_and_visits(&store(7)), (Answer::Hit { way: 2 }, 2), "{rule:?}");
            assert_eq!(cache.step_and_visits(&store(line)), (Answer::Fill { way }, 7), "{rule:?}");
        }
        assert_eq!(cache.step(&flush(7)), Answer::Flush { way: 2, dirty: true });
        assert_eq!(cache.step(&flush(7)), Answer::Flush { way: 5, dirty: false });
        assert_eq!(cache.step(&store(7)), Answer::Fill { way: 5 });
        assert_eq!(cache.valid[0], 0b0111_1010);
    }
}

/// Ways of W or more are left out, by the lookup itself and by a stored policy that is read.
#[test]
fn ways_of_w_or_more_are_not_visited() {
    let mut cache = filled();
    assert_eq!(cache.find(0, 9, 0xff52), (None, 3));
    assert_eq!(cache.find(0, 16, 0xff52), (Some(6), 3));
    assert_eq!(cache.find(0, 16, 0xff00), (None, 0));
    cache.domains.store(0, Policy { hit_map: 0xff52, fill_map: 0 });
    assert_eq!(cache.step_and_visits(&store(9)), (Answer::Pass, 3));
    assert_eq!(cache.step_and_visits(&flush(14)), (Answer::Flush { way: 4, dirty: false }, 2));
}

#[test]
fn each_map_and_each_way_of_sixteen() {
    let mut cache = cache(16, Rule::Lru);
    cache.valid[0] = u16::MAX;
    cache.tags = (0..16).collect();
    for hit_map in 0..=u16::MAX {
        let ways: Vec<usize> = (0..16).filter(|way| hit_map >> way & 1 == 1).collect();
        for way in 0..16 {
            let place = ways.iter().position(|&mapped| mapped == way);
            let due = (place.map(|_| way), place.map_or(ways.len(), |place| place + 1));
            assert_eq!(cache.find(0, way as u64, hit_map), due, "map {hit_map}, way {way}");
        }
    }
}

/// Every answer of an access or a flush has the visits of its lookup: ways 2, 5 and 6, which begin invalid. Way 6 is in
/// the hit map alone, so that way 5 is the highest to be filled.
#[test]
fn every_access_and_flush_says_what_it_visited() {
    let mut cache = cache(8, Rule::Nru);
    cache.step(&policy(0b0110_0100, 0b0010_0100));
    let mut visits = |step: Step, answer: Answer| {
        let (answered, visited) = cache.step_and_visits(&step);
        assert_eq!(answered, answer);
        visited
    };
    assert_eq!(visits(flush(1), Answer::Absent), 3);
    assert_eq!(visits(store(1), Answer::Fill { way: 5 }), 3);
    assert_eq!(visits(store(2), Answer::Fill { way: 2 }), 3);
    assert_eq!(visits(Step { kind: 0, ..store(1) }, Answer::Hit { way: 5 }), 2);
    assert_eq!(visits(Step { kind: 1, ..store(2) }, Answer::Hit { way: 2 }), 1);
    assert_eq!(visits(store(3), Answer::Evict { way: 5, tag: 1, dirty: true }), 3);
    assert_eq!(visits(flush(3), Answer::Flush { way: 5, dirty: true }), 2);
    assert_eq!(visits(flush(3), Answer::Absent), 3);
    assert_eq!(visits(policy(0b0110_0100, 0), Answer::Policy { dropped: 0, dirty_dropped: 0 }), 0);
    assert_eq!(visits(store(4), Answer::Pass), 3);
}

/// A policy change makes no lookup, nor does a step that is turned down, by whichever number.
#[test]
fn without_a_lookup_no_way_is_visited() {
    let mut cache = cache(8, Rule::TreePlru);
    assert_eq!(cache.step_and_visits(&policy(0b0101, 0b0101)).1, 0);
    cache.step(&store(0));
    let mut refused = |step: Step| match cache.step_and_visits(&step) {
        (Answer::Refused(refusal), visited) => (refusal.number(), visited),
        answer => panic!("{answer:?}"),
    };
    assert_eq!(refused(of_domain(16, store(0))), (3, 0));
    assert_eq!(refused(Step { kind: 4, ..store(0) }), (4, 0));
    assert_eq!(refused(policy(0, 1)), (5, 0));
    assert_eq!(refused(of_domain(1, store(0))), (6, 0));
    assert_eq!(refused(of_domain(1, flush(0))), (6, 0));
    assert_eq!(refused(of_domain(1, policy(0b0100, 0))), (8, 0));
    assert_eq!(refused(of_domain(1, policy(0b1010, 0b1010))), (9, 0));
    cache.domains.counts_mut(0).flushed = u32::MAX;
    assert_eq!(cache.step_and_visits(&store(0)), (Answer::Refused(Refusal::CountSpent), 0));
    assert_eq!(cache.step_and_visits(&flush(0)), (Answer::Refused(Refusal::CountSpent), 0));
}
