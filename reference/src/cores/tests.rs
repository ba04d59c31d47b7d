//! Lists that the lister does not lend, records that no trace file writes, and the order of the numbers.

use super::*;
use crate::domains::Policy;
use crate::geometry::{Geometry, Rule};

const KINDS_OF_CORES: [u8; 5] = [32, 33, 34, 35, 40];

fn cache(ways: usize) -> Cache {
    Cache::fresh(Geometry { sets: 1, ways, rule: Rule::TreePlru })
}

/// Domains 0 to 7 have a way of eight each.
fn shared_out() -> Cache {
    let mut cache = cache(8);
    for domain in 0..8 {
        let map = 1 << domain;
        cache.step(&Step { domain, kind: 16, argument: map | map << 16 });
    }
    cache
}

fn core(cs: u8, ds: u8, es: u8) -> Core {
    Core { cs, ds, es }
}

fn select(core: u8, argument: u64) -> Step {
    Step { domain: core, kind: SELECT, argument }
}

/// The number that turns a step down; 0 if it stands.
fn number(cache: &mut Cache, cores: &mut [Core], wanted: Step) -> u8 {
    match step(cache, cores, &wanted) {
        Answer::Refused(refusal) => refusal.number(),
        _ => 0,
    }
}

/// "A fetch uses CS, a load or flush DS, a store ES." Way w is domain w's.
#[test]
fn each_kind_by_its_selector() {
    let (mut cache, mut cores) = (shared_out(), vec![core(0, 0, 0), core(1, 2, 3)]);
    let mut through = |domain, kind| step(&mut cache, &mut cores, &Step { domain, kind, argument: 64 });
    assert_eq!(through(1, 32), Answer::Fill { way: 1 });
    assert_eq!(through(1, 33), Answer::Fill { way: 2 });
    assert_eq!(through(1, 34), Answer::Fill { way: 3 });
    assert_eq!(through(1, 35), Answer::Flush { way: 2, dirty: false });
    assert_eq!(through(1, 35), Answer::Absent);
    assert_eq!(through(0, 35), Answer::Absent);
    assert_eq!(through(3, 3), Answer::Flush { way: 3, dirty: true });
    assert_eq!(through(1, 3), Answer::Flush { way: 1, dirty: false });
}

/// Every selector of a record, and what the cache is given in place of the step.
#[test]
fn every_selector_makes_a_plain_step() {
    for selector in 0..=255 {
        let cores = [core(200, 200, 200), core(selector, 100, 101), core(100, selector, 101), core(100, 101, selector)];
        for (domain, kind, plain_kind) in [(1, 32, 0), (2, 33, 1), (3, 34, 2), (2, 35, 3)] {
            let argument = u64::MAX - u64::from(selector);
            let due = Step { domain: selector, kind: plain_kind, argument };
            assert_eq!(plain(&cores, &Step { domain, kind, argument }), Some(due));
        }
    }
}

/// Two caches and the same accesses, through cores and plain: answers, ways visited and counts are the same. The
/// selectors are written anew every sixteenth step.
#[test]
fn a_step_through_a_core_is_the_plain_step() {
    for rule in [Rule::TreePlru, Rule::Nru, Rule::Lru] {
        let geometry = Geometry { sets: 4, ways: 16, rule };
        let (mut by_cores, mut by_domains) = (Cache::fresh(geometry), Cache::fresh(geometry));
        for domain in 0..4 {
            let map = 0xf << (4 * domain);
            let policy = Step { domain, kind: 16, argument: map | map << 16 };
            assert_eq!(step(&mut by_cores, &mut [], &policy), by_domains.step(&policy));
        }
        let (mut cores, mut draw) = (fresh(), 1u64);
        for place in 0..20_000 {
            draw = draw.wrapping_mul(6_364_136_223_846_793_005).wrapping_add(1_442_695_040_888_963_407);
            let [named, a, b, c, kind, line, ..] = draw.to_be_bytes();
            let named = named % 3;
            if place % 16 == 0 {
                let [cs, ds, es] = [a % 5, b % 5, c % 5];
                let argument = u64::from_le_bytes([cs, ds, es, 0, 0, 0, 0, 0]);
                assert_eq!(step(&mut by_cores, &mut cores, &select(named, argument)), Answer::Select { cs, ds, es });
            }
            let kind = [0, 1, 1, 1, 2, 2, 2, 3][usize::from(kind % 8)];
            let Core { cs, ds, es } = cores[usize::from(named)];
            let domain = [cs, ds, es, ds][usize::from(kind)];
            let argument = 64 * u64::from(line % 32);
            let through = Step { domain: named, kind: 32 + kind, argument };
            let answer = step_and_visits(&mut by_cores, &mut cores, &through);
            assert_eq!(answer, by_domains.step_and_visits(&Step { domain, kind, argument }));
        }
        for domain in 0..16 {
            assert_eq!(by_cores.domains().counts(domain), by_domains.domains().counts(domain));
        }
        assert!(by_cores.domains().counts(3).in_order()[..6].iter().all(|&count| count > 50));
    }
}

/// Every code, with 32 fresh records and a cache without ways, so that a step that stands is a policy change or a
/// selector write alone: 11, then 3, then 4, and 6 of accesses and flushes by domain 0.
#[test]
fn every_code_with_fresh_records() {
    let (mut cache, mut cores) = (cache(4), fresh());
    for domain in 0..=255 {
        for kind in 0..=255 {
            let due = match kind {
                32..=35 if domain < 32 => 6,
                40 if domain < 32 => 0,
                32..=35 | 40 => 11,
                _ if domain >= 16 => 3,
                0..=3 => 6,
                16 => 0,
                _ => 4,
            };
            let code = Step { domain, kind, argument: 0 };
            assert_eq!(number(&mut cache, &mut cores, code), due, "kind {kind} of {domain}");
        }
    }
}

/// "Where no list is lent these kinds stay unknown": 3 for a domain of 16 or more, else 4.
#[test]
fn without_a_list() {
    let mut cache = shared_out();
    for domain in 0..=255 {
        for kind in KINDS_OF_CORES {
            let due = if domain < 16 { Refusal::Kind } else { Refusal::Domain };
            assert_eq!(cache.step(&Step { domain, kind, argument: 0 }), Answer::Refused(due));
        }
    }
}

/// An empty list is a list: no core is in it. Plain steps are as they were.
#[test]
fn an_empty_list() {
    let mut cache = shared_out();
    for domain in 0..=255 {
        for kind in KINDS_OF_CORES {
            assert_eq!(number(&mut cache, &mut [], Step { domain, kind, argument: u64::MAX }), 11);
        }
    }
    assert_eq!(step(&mut cache, &mut [], &Step { domain: 5, kind: 1, argument: 0 }), Answer::Fill { way: 5 });
    assert_eq!(number(&mut cache, &mut [], Step { domain: 16, kind: 1, argument: 0 }), 3);
    assert_eq!(number(&mut cache, &mut [], Step { domain: 15, kind: 36, argument: 0 }), 4);
}

/// Of a list of n records the last core is n − 1. At n = 32, core 31 stands and 32 is 11.
#[test]
fn lists_of_every_length() {
    for length in 1..=32 {
        let (mut cache, mut cores) = (shared_out(), vec![Core::default(); usize::from(length)]);
        for kind in KINDS_OF_CORES {
            assert_eq!(number(&mut cache, &mut cores, Step { domain: length - 1, kind, argument: 0 }), 0);
            assert_eq!(number(&mut cache, &mut cores, Step { domain: length, kind, argument: 0 }), 11);
            assert_eq!(number(&mut cache, &mut cores, Step { domain: 255, kind, argument: 0 }), 11);
        }
    }
}

/// "A list too long" is 11 for every kind, before 3 and 4, and nothing moves.
#[test]
fn a_list_too_long() {
    for length in [33, 34, 256, 257] {
        let (mut cache, mut cores) = (shared_out(), vec![core(1, 2, 3); length]);
        for domain in [0, 1, 15, 16, 31, 32, 33, 255] {
            for kind in 0..=255 {
                for argument in [0, 0x01_0101, u64::MAX] {
                    let (answer, visited) = step_and_visits(&mut cache, &mut cores, &Step { domain, kind, argument });
                    assert_eq!((answer, visited), (Answer::Refused(Refusal::Core), 0), "kind {kind} of {domain}");
                }
            }
        }
        assert_eq!(cores, vec![core(1, 2, 3); length]);
        for domain in 0..8 {
            assert_eq!(cache.domains().counts(domain).in_order(), [0; 7]);
            assert_eq!(cache.domains().policy(domain).hit_map, 1 << domain);
        }
    }
}

/// "A stored selector of 16 or more makes a step through it 3", and only through it. It may be written over.
#[test]
fn stored_selectors_of_16_or_more() {
    for selector in [16, 17, 31, 32, 128, 255] {
        let mut cache = shared_out();
        let mut numbers = |core| {
            let mut cores = [core];
            [32, 33, 34, 35, 40].map(|kind| number(&mut cache, &mut cores, Step { domain: 0, kind, argument: 0 }))
        };
        assert_eq!(numbers(core(selector, 0, 0)), [3, 0, 0, 0, 0]);
        assert_eq!(numbers(core(0, selector, 0)), [0, 3, 0, 3, 0]);
        assert_eq!(numbers(core(0, 0, selector)), [0, 0, 3, 0, 0]);
        assert_eq!(numbers(core(selector, selector, selector)), [3, 3, 3, 3, 0]);
    }
}

/// A record with such a selector and a core that is not in the list: 11 comes first. A list too long comes before all.
#[test]
fn eleven_comes_before_three() {
    let mut cache = shared_out();
    assert_eq!(number(&mut cache, &mut [core(16, 16, 16)], Step { domain: 1, kind: 33, argument: 0 }), 11);
    assert_eq!(number(&mut cache, &mut [core(16, 16, 16); 33], Step { domain: 1, kind: 33, argument: 0 }), 11);
    assert_eq!(number(&mut cache, &mut [core(16, 16, 16); 33], Step { domain: 16, kind: 1, argument: 0 }), 11);
    assert_eq!(number(&mut cache, &mut [core(16, 16, 16)], select(1, 0x10)), 11);
    assert_eq!(number(&mut cache, &mut [core(16, 16, 16)], select(1, 1 << 24)), 11);
}

/// A step through a core has the numbers of its plain step: 6 of a domain without ways, 7 of one with a full count.
#[test]
fn six_and_seven_through_a_core() {
    let (mut cache, mut cores) = (shared_out(), [core(9, 9, 9), core(7, 7, 7)]);
    cache.domains_mut().counts_mut(7).written_back = u32::MAX;
    cache.domains_mut().counts_mut(9).hits = u32::MAX;
    for kind in 32..=35 {
        assert_eq!(number(&mut cache, &mut cores, Step { domain: 0, kind, argument: 0 }), 6);
        assert_eq!(number(&mut cache, &mut cores, Step { domain: 1, kind, argument: 0 }), 7);
    }
    assert_eq!(number(&mut cache, &mut cores, select(1, 0)), 0);
    assert_eq!(number(&mut cache, &mut cores, Step { domain: 1, kind: 33, argument: 0 }), 0);
    cache.domains_mut().store(0, Policy::default());
    assert_eq!(number(&mut cache, &mut cores, Step { domain: 1, kind: 33, argument: 0 }), 6);
}

/// "From the argument's three low bytes, lowest first, in that order": CS, DS, ES. One record changes, and no other.
#[test]
fn a_write_changes_one_record() {
    let (mut cache, mut cores) = (cache(4), vec![core(4, 5, 6); 32]);
    let answer = step(&mut cache, &mut cores, &select(30, 0x03_02_01));
    assert_eq!(answer, Answer::Select { cs: 1, ds: 2, es: 3 });
    assert_eq!(cores[30], core(1, 2, 3));
    cores.remove(30);
    assert_eq!(cores, vec![core(4, 5, 6); 31]);
}

/// Each byte of the argument, with every value, the others being good: 15 stands as a selector and 16 is 3; of the
/// other bytes 0 alone stands, else 5. A bad selector beside a bad other byte is 3. What is refused leaves the record.
#[test]
fn every_byte_of_a_write() {
    let (mut cache, stored) = (cache(4), core(200, 201, 202));
    for place in 0..8 {
        for value in 0..=255u64 {
            let argument =
                if place < 3 { 0x0f_00_0f & !(0xff << (8 * place)) } else { 0x0f_00_0f } | value << (8 * place);
            let due = match (place, value) {
                (0..=2, 0..=15) | (3.., 0) => 0,
                (0..=2, _) => 3,
                _ => 5,
            };
            let mut cores = [stored];
            assert_eq!(number(&mut cache, &mut cores, select(0, argument)), due, "{argument:#x}");
            let [cs, ds, es, ..] = argument.to_le_bytes();
            assert_eq!(cores[0], if due == 0 { core(cs, ds, es) } else { stored });
            if due == 5 {
                for selectors in [0x10, 0x10_00, 0xff_00_00] {
                    let both_bad = argument & !0xff_ffff | selectors;
                    assert_eq!(number(&mut cache, &mut [stored], select(0, both_bad)), 3, "{both_bad:#x}");
                }
            }
        }
    }
}

/// A selector write makes no lookup.
#[test]
fn a_write_visits_no_way() {
    let (mut cache, mut cores) = (shared_out(), fresh());
    assert_eq!(step_and_visits(&mut cache, &mut cores, &select(0, 1)).1, 0);
    assert_eq!(step_and_visits(&mut cache, &mut cores, &select(0, 16)).1, 0);
    assert_eq!(step_and_visits(&mut cache, &mut cores, &select(32, 0)).1, 0);
    assert_eq!(step_and_visits(&mut cache, &mut cores, &Step { domain: 32, kind: 33, argument: 0 }).1, 0);
    assert_eq!(step_and_visits(&mut cache, &mut cores, &Step { domain: 0, kind: 33, argument: 0 }).1, 1);
}
