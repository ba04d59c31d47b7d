//! Where the lines went, by document 02: fills and drops, the balance, and the number 7 of a policy change.

use super::*;
use crate::domains::DOMAINS;

const LARGEST: u32 = u32::MAX;
const RULES: [Rule; 3] = [Rule::TreePlru, Rule::Nru, Rule::Lru];

fn load(line: u64) -> Step {
    Step { kind: 1, ..store(line) }
}

/// Fills and dropped, the two counts at the end of the record.
fn ends(cache: &Cache, domain: usize) -> [u32; 2] {
    let [.., fills, dropped] = cache.domains.counts(domain).in_order();
    [fills, dropped]
}

/// "The lines now valid in the domain's hit map", in all sets.
fn held(cache: &Cache, domain: usize) -> u32 {
    let hit_map = cache.domains.policy(domain).hit_map;
    cache.valid.iter().map(|valid| (valid & hit_map).count_ones()).sum()
}

/// "Fills equal evicted plus flushed plus dropped plus the lines now valid in the domain's hit map."
fn is_balanced(cache: &Cache, domain: usize) -> bool {
    let counts = cache.domains.counts(domain);
    counts.fills == counts.evicted + counts.flushed + counts.dropped + held(cache, domain)
}

fn accepted(dropped: u32, dirty_dropped: u32) -> Answer {
    Answer::Policy { dropped, dirty_dropped }
}

/// What a domain has stored and counted, and the tables.
type State = (Vec<(Policy, Counts)>, Vec<u64>, Vec<Map>, Vec<Map>, Vec<u64>);

fn state(cache: &Cache) -> State {
    let domains = (0..DOMAINS).map(|domain| (cache.domains.stored(domain), *cache.domains.counts(domain))).collect();
    (domains, cache.tags.clone(), cache.valid.clone(), cache.dirty.clone(), cache.replacement.clone())
}

/// The number that turns a step down, which then leaves everything as it was; 0 if the step stands.
fn number(cache: &mut Cache, step: Step) -> u8 {
    let before = state(cache);
    match cache.step(&step) {
        Answer::Refused(refusal) => {
            assert!(state(cache) == before, "{step:?}");
            refusal.number()
        }
        _ => 0,
    }
}

/// Two fills of invalid ways and an evicting one; a hit, a pass and an absent line bring none in.
#[test]
fn an_evicting_fill_is_a_fill() {
    for rule in RULES {
        let mut cache = cache(2, rule);
        cache.step(&policy(3, 3));
        for (step, fills) in [(store(0), 1), (store(1), 2), (load(1), 2), (store(2), 3), (flush(9), 3)] {
            cache.step(&step);
            assert_eq!(ends(&cache, 0), [fills, 0], "{rule:?}");
            assert!(is_balanced(&cache, 0));
        }
        assert_eq!(cache.domains.counts(0).in_order(), [1, 3, 1, 1, 0, 3, 0]);
        cache.step(&policy(3, 0));
        assert_eq!(cache.step(&store(3)), Answer::Pass);
        assert_eq!(cache.domains.counts(0).in_order(), [1, 4, 1, 1, 0, 3, 0]);
    }
}

/// Sixteen lines in four sets of four ways, those of sets 1 and 3 dirty. Two ways are given up, then all but one. Line
/// 12, the last of set 0, is in way 0, and is flushed between.
#[test]
fn drops_are_counted_in_all_sets_dirty_or_not() {
    let mut cache = Cache::fresh(Geometry { sets: 4, ways: 4, rule: Rule::Lru });
    cache.step(&policy(15, 15));
    for line in 0..16 {
        cache.step(&Step { kind: 1 + (line % 2) as u8, ..store(line) });
    }
    assert_eq!(cache.step(&policy(0b0011, 0b0011)), accepted(8, 4));
    assert_eq!(ends(&cache, 0), [16, 8]);
    assert_eq!(cache.step(&flush(12)), Answer::Flush { way: 0, dirty: false });
    assert_eq!(cache.step(&policy(0b1001, 0b1001)), accepted(4, 2));
    assert_eq!(cache.domains.counts(0).in_order(), [0, 16, 0, 0, 1, 16, 12]);
    assert_eq!(held(&cache, 0), 3);
    assert!(is_balanced(&cache, 0));
}

/// Other fill maps and equal maps clean no way: nothing is dropped.
#[test]
fn without_another_hit_map_nothing_is_dropped() {
    let mut cache = cache(4, Rule::Nru);
    cache.step(&policy(7, 7));
    cache.step(&store(0));
    cache.domains.counts_mut(0).dropped = LARGEST;
    for fill_map in [7, 0, 4, 4] {
        assert_eq!(cache.step(&policy(7, fill_map)), accepted(0, 0));
        assert_eq!(ends(&cache, 0), [1, LARGEST]);
    }
}

/// All seven counts are zeroed by a removal, which keeps no drops, and start from zero when the domain is back. The
/// line that it then loads is in way 1, which it gives up.
#[test]
fn a_removal_zeroes_seven_counts() {
    let mut cache = cache(2, Rule::Nru);
    cache.step(&policy(3, 3));
    for step in [store(0), store(1), store(2), load(2), flush(2), store(4), policy(1, 1)] {
        cache.step(&step);
    }
    assert_eq!(cache.domains.counts(0).in_order(), [1, 4, 1, 2, 1, 4, 1]);
    assert_eq!(cache.step(&policy(0, 0)), accepted(1, 1));
    assert_eq!(cache.domains.counts(0).in_order(), [0; 7]);
    cache.step(&policy(3, 3));
    assert_eq!(cache.domains.counts(0).in_order(), [0; 7]);
    cache.step(&load(0));
    assert_eq!(cache.step(&policy(1, 1)), accepted(1, 0));
    assert_eq!(cache.domains.counts(0).in_order(), [0, 1, 0, 0, 0, 1, 1]);
}

/// Way 1 goes to domain 1 and comes back: each line in it is a drop of the domain that filled it.
#[test]
fn a_way_handed_over() {
    let mut cache = cache(2, Rule::Lru);
    let two = |step| of_domain(1, step);
    cache.step(&policy(3, 3));
    cache.step(&store(0));
    cache.step(&store(1));
    assert_eq!(cache.step(&policy(1, 1)), accepted(1, 1));
    assert_eq!(cache.step(&two(policy(2, 2))), accepted(0, 0));
    assert_eq!([ends(&cache, 0), ends(&cache, 1)], [[2, 1], [0, 0]]);
    cache.step(&two(load(5)));
    cache.step(&two(load(6)));
    assert_eq!(cache.step(&two(policy(0, 0))), accepted(1, 0));
    assert_eq!(cache.step(&policy(3, 3)), accepted(0, 0));
    assert_eq!([ends(&cache, 0), ends(&cache, 1)], [[2, 1], [0, 0]]);
    assert!(is_balanced(&cache, 0) && is_balanced(&cache, 1));
}

/// Four lines in ways 0 to 3 of one set, of which a change drops the upper three.
fn four_lines(dropped: u32) -> Cache {
    let mut cache = cache(4, Rule::Nru);
    cache.step(&policy(15, 15));
    for line in 0..4 {
        cache.step(&store(line));
    }
    cache.domains.counts_mut(0).dropped = dropped;
    cache
}

/// Past the largest count is 7. Reaching it is not; then accesses and flushes are 7, and changes without drops stand.
#[test]
fn drops_up_to_the_largest_count() {
    for (dropped, due) in [(LARGEST, 7), (LARGEST - 1, 7), (LARGEST - 2, 7), (LARGEST - 3, 0), (LARGEST - 4, 0)] {
        let mut cache = four_lines(dropped);
        assert_eq!(number(&mut cache, policy(1, 1)), due, "{dropped}");
        if due == 0 {
            assert_eq!(ends(&cache, 0), [4, dropped + 3]);
        }
    }
    let mut reached = four_lines(LARGEST - 3);
    assert_eq!(reached.step(&policy(1, 0)), accepted(3, 3));
    assert_eq!(ends(&reached, 0), [4, LARGEST]);
    assert_eq!(number(&mut reached, load(0)), 7);
    assert_eq!(number(&mut reached, flush(9)), 7);
    assert_eq!(number(&mut reached, policy(2, 2)), 7);
    assert_eq!(reached.step(&policy(3, 3)), accepted(0, 0));
    assert_eq!(reached.step(&policy(1, 1)), accepted(0, 0));
    assert_eq!(ends(&reached, 0), [4, LARGEST]);
}

#[test]
fn a_removal_is_never_seven() {
    for dropped in [0, LARGEST - 3, LARGEST - 1, LARGEST] {
        let mut cache = four_lines(dropped);
        assert_eq!(cache.step(&policy(0, 0)), accepted(4, 4));
        assert_eq!(cache.domains.counts(0).in_order(), [0; 7]);
    }
}

/// Only dropped is asked, and only of the domain itself: the others may be full.
#[test]
fn other_full_counts_turn_down_no_policy_change() {
    let mut cache = four_lines(0);
    for domain in 1..DOMAINS {
        *cache.domains.counts_mut(domain) = Counts::from_order([LARGEST; 7]);
    }
    *cache.domains.counts_mut(0) = Counts { dropped: LARGEST - 3, ..Counts::from_order([LARGEST; 7]) };
    assert_eq!(cache.step(&policy(1, 1)), accepted(3, 3));
    assert_eq!(cache.domains.counts(0).in_order(), [LARGEST; 7]);
    assert_eq!(cache.step(&of_domain(5, policy(2, 2))), accepted(0, 0));
}

/// Domains 0 and 1 have a way and a line each, and domain 0 wants the way of domain 1: its own line would be dropped,
/// and its neighbour's is no drop of it. So one drop must fit, and two need not: 8, with or without either line.
#[test]
fn lines_in_ways_of_another_domain_are_no_drops() {
    for (loads, dropped, due) in [
        ([true, true], LARGEST - 2, 8),
        ([true, true], LARGEST - 1, 8),
        ([true, true], LARGEST, 7),
        ([true, false], LARGEST - 1, 8),
        ([true, false], LARGEST, 7),
        ([false, true], LARGEST - 1, 8),
        ([false, true], LARGEST, 8),
    ] {
        let mut cache = cache(2, Rule::TreePlru);
        for (domain, loads) in (0..).zip(loads) {
            cache.step(&of_domain(domain, policy(1 << domain, 1 << domain)));
            if loads {
                assert_eq!(cache.step(&of_domain(domain, load(0))), Answer::Fill { way: usize::from(domain) });
            }
        }
        cache.domains.counts_mut(0).dropped = dropped;
        assert_eq!(number(&mut cache, policy(2, 2)), due, "{loads:?}, {dropped}");
        assert_eq!(number(&mut cache, policy(3, 3)), 8, "its own line stays");
    }
}

/// Lent tables with valid lines in ways that no domain holds: who takes these ways drops them, fills or no fills.
#[test]
fn lines_in_ways_that_nobody_held_are_drops() {
    for (dropped, due) in [(0, 0), (LARGEST - 5, 0), (LARGEST - 4, 7)] {
        let mut cache = Cache::fresh(Geometry { sets: 3, ways: 4, rule: Rule::Lru });
        cache.valid = vec![0xfff6, 0x0004, 0x000f];
        cache.dirty = vec![0x0fff, 0x0002, 0x0000];
        cache.domains.counts_mut(0).dropped = dropped;
        assert_eq!(number(&mut cache, policy(0b0110, 0b0110)), due, "{dropped}");
        if due == 0 {
            assert_eq!(ends(&cache, 0), [0, dropped + 5]);
            assert_eq!(cache.valid, [0xfff0, 0, 0b1001]);
        }
    }
}

/// Lent maps that overlap: domain 0 leaves way 1 to domain 1, which has it too. The way is cleaned, and its lines are
/// drops of the change. Of a way of W or more in the other's map nothing is read.
#[test]
fn lines_in_ways_that_are_given_up_are_drops_though_another_has_them() {
    for (dropped, due) in [(7, 0), (LARGEST - 2, 0), (LARGEST - 1, 7)] {
        let mut cache = Cache::fresh(Geometry { sets: 2, ways: 2, rule: Rule::Nru });
        cache.valid = vec![0b11, 0b10];
        cache.domains.store(0, Policy { hit_map: 3, fill_map: 3 });
        cache.domains.store(1, Policy { hit_map: 0xfffe, fill_map: 2 });
        cache.domains.counts_mut(0).dropped = dropped;
        assert_eq!(number(&mut cache, policy(1, 1)), due, "{dropped}");
        if due == 0 {
            assert_eq!(ends(&cache, 0), [0, dropped + 2]);
            assert_eq!(ends(&cache, 1), [0, 0]);
            assert_eq!(cache.valid, [0b01, 0]);
        }
    }
}

/// The old hit map is the one read: a stored way of W or more is not given up.
#[test]
fn drops_are_of_the_old_map_as_read() {
    let mut cache = cache(2, Rule::Nru);
    cache.valid[0] = 0xffff;
    cache.domains.store(0, Policy { hit_map: 0xfff2, fill_map: 0 });
    cache.domains.counts_mut(0).dropped = LARGEST - 1;
    assert_eq!(number(&mut cache, policy(1, 0)), 7);
    assert_eq!(cache.step(&policy(3, 0)), accepted(1, 0));
    assert_eq!((ends(&cache, 0), cache.valid[0]), ([0, LARGEST], 0xfffe));
}

/// 5 before 7, and 7 before 8 and 9. With a count less, or where the line in way 4 stays, the next number is given.
#[test]
fn seven_comes_after_five_and_before_eight() {
    let with_dropped = |dropped| {
        let mut cache = cache(8, Rule::TreePlru);
        cache.step(&policy(0b1_0000, 0b1_0000));
        cache.step(&store(0));
        cache.step(&of_domain(1, policy(0b0110, 0b0110)));
        cache.domains.counts_mut(0).dropped = dropped;
        cache
    };
    for (step, lowest, next) in [
        (policy(0b0010, 0b1_0000_0000), 5, 5),
        (policy(0b0010, 0b0001), 5, 5),
        (Step { argument: 1 << 32, ..policy(0, 0) }, 5, 5),
        (policy(0b0010, 0b0010), 7, 8),
        (policy(0b1_0010, 0b0010), 8, 8),
        (policy(0b1001, 0b1001), 7, 9),
        (policy(0b1_1001, 0b1001), 9, 9),
        (policy(0b1000, 0), 7, 0),
        (policy(0b1_1000, 0), 0, 0),
    ] {
        assert_eq!(number(&mut with_dropped(LARGEST), step), lowest, "{step:?}");
        assert_eq!(number(&mut with_dropped(LARGEST - 1), step), next, "{step:?}");
    }
}

/// The largest slice, all of it valid, and counts that are too large by one line.
#[test]
fn the_most_lines_and_the_largest_count() {
    let full = |dropped| {
        let mut cache = Cache::fresh(Geometry { sets: 4096, ways: 16, rule: Rule::Nru });
        cache.valid = vec![0xffff; 4096];
        cache.domains.counts_mut(15).dropped = dropped;
        cache
    };
    let all = of_domain(15, policy(0xffff, 0xffff));
    for dropped in [LARGEST, LARGEST - 1, LARGEST - 65_535] {
        assert_eq!(number(&mut full(dropped), all), 7);
    }
    let mut cache = full(LARGEST - 65_536);
    assert_eq!(cache.step(&all), accepted(65_536, 0));
    assert_eq!(ends(&cache, 15), [0, LARGEST]);
}

/// Numbers that look random: each call gives one below its bound.
struct Draws(u64);

impl Draws {
    fn below(&mut self, bound: u64) -> u64 {
        self.0 = self.0.wrapping_mul(6_364_136_223_846_793_005).wrapping_add(1_442_695_040_888_963_407);
        (self.0 >> 33) % bound
    }

    /// A map of so many ways.
    fn map(&mut self, ways: usize) -> Map {
        self.below(1 << ways) as Map
    }
}

/// A step of one of four domains: mostly an access, else a flush or a policy change.
fn some_step(draws: &mut Draws, geometry: &Geometry) -> Step {
    let (domain, lines) = (draws.below(4) as u8, (geometry.ways * geometry.sets) as u64);
    let step = match draws.below(100) {
        0 => policy(0, 0),
        1..5 => {
            let hit_map = draws.map(geometry.ways) & draws.map(geometry.ways);
            policy(hit_map, hit_map & draws.map(geometry.ways))
        }
        5..10 => {
            let way = only(draws.below(geometry.ways as u64) as usize);
            policy(way, way)
        }
        10..25 => flush(draws.below(lines)),
        kind => Step { kind: (kind % 3) as u8, ..store(draws.below(lines)) },
    };
    of_domain(domain, step)
}

/// "Wanted: after any trace from fresh", and so after each of its steps, for every domain. No change is 7 there.
#[test]
fn the_balance_from_fresh() {
    let mut seen = Counts::default().in_order();
    for (rule, ways, sets) in RULES.iter().flat_map(|&rule| [(rule, 2, 1), (rule, 4, 2), (rule, 8, 4), (rule, 16, 1)]) {
        let geometry = Geometry { sets, ways, rule };
        let (mut cache, mut draws) = (Cache::fresh(geometry), Draws(ways as u64));
        for _ in 0..10_000 {
            let step = some_step(&mut draws, &geometry);
            let answer = cache.step(&step);
            assert_ne!(answer, Answer::Refused(Refusal::CountSpent));
            assert!((0..DOMAINS).all(|domain| is_balanced(&cache, domain)), "{geometry:?}, {step:?}, {answer:?}");
            for (seen, count) in seen.iter_mut().zip(cache.domains.counts(usize::from(step.domain)).in_order()) {
                *seen = count.max(*seen);
            }
        }
    }
    assert!(seen.iter().all(|&most| most > 10), "{seen:?}");
}

/// The lines of a lent cache that a change would drop, counted one by one.
fn drops_one_by_one(cache: &Cache, domain: usize, new: Policy) -> u64 {
    let has = |domain: usize, way| holds(cache.domains.policy(domain).hit_map, way);
    let mut drops = 0;
    for way in 0..cache.geometry.ways {
        let is_taken = holds(new.hit_map, way) && (0..DOMAINS).any(|other| other != domain && has(other, way));
        if has(domain, way) != holds(new.hit_map, way) && !is_taken {
            drops += cache.valid.iter().filter(|&&valid| holds(valid, way)).count() as u64;
        }
    }
    drops
}

/// Any stored maps, any valid maps, and counts around the largest less the drops: the number by a count in 64 bits.
#[test]
fn lent_states() {
    let (mut draws, mut seen) = (Draws(6), [0; 9]);
    for _ in 0..100_000 {
        let ways = 2 << draws.below(4);
        let sets = 1 << draws.below(3);
        let mut cache = Cache::fresh(Geometry { sets, ways, rule: Rule::Nru });
        cache.valid.fill_with(|| draws.map(16) | draws.map(16));
        for domain in 0..draws.below(4) as usize {
            let (hit_map, fill_map) = (draws.map(16) & draws.map(16), draws.map(16));
            cache.domains.store(domain, Policy { hit_map, fill_map });
        }
        let hit_map = draws.map(ways) & draws.map(ways);
        let new = Policy { hit_map, fill_map: hit_map & draws.map(ways) };
        let drops = drops_one_by_one(&cache, 0, new);
        let dropped = LARGEST - (drops + 1).saturating_sub(draws.below(3)) as u32;
        cache.domains.counts_mut(0).dropped = dropped;
        let is_past = u64::from(dropped) + drops > u64::from(LARGEST);
        let is_shared = (1..DOMAINS).any(|other| cache.domains.policy(other).hit_map & hit_map != 0);
        let due = if is_past && new != Policy::default() { 7 } else { 8 * u8::from(is_shared) };
        assert_eq!(number(&mut cache, policy(new.hit_map, new.fill_map)), due);
        if due == 0 {
            let kept = if new == Policy::default() { 0 } else { dropped + drops as u32 };
            assert_eq!(ends(&cache, 0), [0, kept]);
        }
        seen[usize::from(due)] += 1;
    }
    assert!([0, 7, 8].iter().all(|&due: &usize| seen[due] > 10_000), "{seen:?}");
}
