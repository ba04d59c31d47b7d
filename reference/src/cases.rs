//! Cases A to L of document 01, with what document 02 adds to them and changes in them.

use crate::geometry::Geometry;
use crate::maps::Map;
use crate::trace::Form;
use crate::{cores, listing, nru, purge, rules, slices, tree, visits};

/// (domain, kind, argument)
type Code = (u8, u8, u64);

const LOAD: u8 = 1;
const STORE: u8 = 2;
const FLUSH: u8 = 3;
const POLICY: u8 = 16;

/// A policy change of a domain to equal hit and fill maps.
fn policy(domain: u8, map: Map) -> Code {
    (domain, POLICY, u64::from(map) | u64::from(map) << 16)
}

fn file(sets: u16, ways: u8, rule: u8, steps: &[Code]) -> Vec<u8> {
    let mut file = Vec::new();
    file.extend(sets.to_le_bytes());
    file.extend([ways, rule]);
    file.extend((steps.len() as u32).to_le_bytes());
    for &(domain, kind, _) in steps {
        file.extend([domain, kind]);
    }
    for &(_, _, argument) in steps {
        file.extend(argument.to_le_bytes());
    }
    file
}

fn list(sets: u16, ways: u8, rule: u8, steps: &[Code]) -> String {
    listing::of_file(&file(sets, ways, rule, steps))
}

/// The listing of steps as calls.
fn call(sets: u16, ways: u8, rule: u8, steps: &[Code]) -> String {
    slices::of_file(&file(sets, ways, rule, steps))
}

/// By document 02, "lines 2 to 8 then read fill 1, fill 0, fill 3, evict 1 0 1, flush 0 0, refused 6, hit 1"; and the
/// line of a domain ends in its fills and drops.
const CASE_A: &str = "\
1 4 0 9
0 policy 0 0
1 policy 0 0
2 fill 1
3 fill 0
4 fill 3
5 evict 1 0 1
6 flush 0 0
7 refused 6
8 hit 1
domain 0 1 3 1 1 1 3 0
domain 1 0 1 0 0 0 1 0
";

fn steps_of_case_a() -> [Code; 9] {
    [
        policy(0, 3),
        policy(1, 12),
        (0, STORE, 0),
        (0, LOAD, 64),
        (1, LOAD, 0),
        (0, LOAD, 128),
        (0, FLUSH, 64),
        (2, LOAD, 0),
        (0, LOAD, 128),
    ]
}

#[test]
fn case_a_the_listing() {
    assert_eq!(list(1, 4, 0, &steps_of_case_a()), CASE_A);
    assert_eq!(call(1, 4, 0, &steps_of_case_a()), CASE_A);
}

/// By document 02, fills and dropped: domain 0 gives up way 1, with the dirty line in it, and takes it back; then
/// domain 1 is removed, and starts from zero when it is back. Both lines are gone: to load them again is to fill. The
/// line that domain 0 loads is the one of address 0, which was its first and so in way 1.
fn steps_that_drop() -> [Code; 11] {
    [
        policy(0, 3),
        policy(1, 12),
        (0, STORE, 0),
        (0, STORE, 64),
        (1, STORE, 0),
        policy(0, 1),
        policy(0, 3),
        policy(1, 0),
        policy(1, 8),
        (1, LOAD, 0),
        (0, LOAD, 0),
    ]
}

#[test]
fn where_the_lines_went() {
    let due = "\
1 4 0 11
0 policy 0 0
1 policy 0 0
2 fill 1
3 fill 0
4 fill 3
5 policy 1 1
6 policy 0 0
7 policy 1 1
8 policy 0 0
9 fill 3
10 fill 1
domain 0 0 3 0 0 0 3 1
domain 1 0 1 0 0 0 1 0
";
    assert_eq!(list(1, 4, 0, &steps_that_drop()), due);
}

/// The same step by step: the ways visited, the domain and its counts. The drop stays in domain 0's counts, and those
/// of domain 1 are zero after its removal. Domain 1 then has one way.
#[test]
fn where_the_lines_went_step_by_step() {
    let due = "\
0 0 0 0 0 0 0 0 0
0 1 0 0 0 0 0 0 0
2 0 0 1 0 0 0 1 0
2 0 0 2 0 0 0 2 0
2 1 0 1 0 0 0 1 0
0 0 0 2 0 0 0 2 1
0 0 0 2 0 0 0 2 1
0 1 0 0 0 0 0 0 0
0 1 0 0 0 0 0 0 0
1 1 0 1 0 0 0 1 0
2 0 0 3 0 0 0 3 1
held 2 1 0 0 0 0 0 0 0 0 0 0 0 0 0 0
";
    assert_eq!(visits::of_file(&file(1, 4, 0, &steps_that_drop())), due);
}

/// Four misses in maps of two ways; then a flush of the map's first way, a refused step and a hit in its second way.
/// Beside the ways visited are the domain and its counts. Of domain 0's three lines one was evicted and one flushed.
#[test]
fn case_a_the_ways_visited() {
    let due = "\
0 0 0 0 0 0 0 0 0
0 1 0 0 0 0 0 0 0
2 0 0 1 0 0 0 1 0
2 0 0 2 0 0 0 2 0
2 1 0 1 0 0 0 1 0
2 0 0 3 1 1 0 3 0
1 0 0 3 1 1 1 3 0
0 2 0 0 0 0 0 0 0
2 0 1 3 1 1 1 3 0
held 1 1 0 0 0 0 0 0 0 0 0 0 0 0 0 0
";
    assert_eq!(visits::of_file(&file(1, 4, 0, &steps_of_case_a())), due);
}

#[test]
fn case_b_touching_way_5_under_map_255() {
    for word in 0..1 << 7 {
        let touched = tree::touch(8, word, 255, 5);
        let others_stay = word & !0b010_0101;
        assert_eq!(touched, others_stay | 1 << 2);
    }
}

#[test]
fn case_c_map_12_has_one_free_node() {
    assert_eq!(tree::free_nodes(8, 12), 1 << 4);
}

#[test]
fn case_d_its_victim_with_a_zero_word() {
    assert_eq!(tree::victim(8, 0, 12), 2);
}

#[test]
fn case_e_its_victim_with_node_4_set() {
    assert_eq!(tree::victim(8, 1 << 4, 12), 3);
}

#[test]
fn case_f_maps_5_and_10_share_node_1() {
    assert_eq!(tree::free_nodes(8, 5) & tree::free_nodes(8, 10), 1 << 1);
    let listing = list(1, 8, 0, &[policy(0, 5), policy(1, 10)]);
    assert_eq!(listing, "1 8 0 2\n0 policy 0 0\n1 refused 9\ndomain 0 0 0 0 0 0 0 0\n");
    for rule in [1, 2] {
        let without_nodes = list(1, 8, rule, &[policy(0, 5), policy(1, 10)]);
        assert!(without_nodes.contains("\n1 policy 0 0\n"), "rule {rule}");
    }
}

#[test]
fn case_g_maps_3_and_12_are_accepted() {
    let listing = list(1, 8, 0, &[policy(0, 3), policy(1, 12)]);
    assert!(listing.starts_with("1 8 0 2\n0 policy 0 0\n1 policy 0 0\n"));
}

#[test]
fn case_h_map_1_has_no_free_node() {
    assert_eq!(tree::free_nodes(8, 1), 0);
}

/// By document 02, "Case I gives way 2, bits 1 and 0": those of ways 1 and 2 after its touch.
#[test]
fn case_i_nru_map_6_word_0() {
    let (way, word) = nru::victim(0, 6).expect("a victim");
    assert_eq!(way, 2);
    assert_eq!(nru::touch(word, 6, way), 0b010);
}

/// Case I by steps: of eight ways domain 0 fills 1 and 2, and has 3 and 4 locked, with nothing in them. When both bits
/// are zero the default is way 2, the highest of the fill map, just hit as it is: not way 0, nor way 4, the highest of
/// the hit map, nor way 7. Its touch leaves way 1 as the only way with its bit.
#[test]
fn the_nru_default_is_the_highest_way_of_the_fill_map() {
    let mut steps = vec![(0, POLICY, 0b1_1110 | 0b0_0110 << 16)];
    steps.extend([0, 64, 0, 128, 0, 64].map(|address| (0, LOAD, address)));
    let due = "\
1 8 1 7
0 policy 0 0
1 fill 2
2 fill 1
3 hit 2
4 evict 2 0 0
5 evict 1 1 0
6 evict 2 2 0
domain 0 1 5 3 0 0 5 0
";
    assert_eq!(list(1, 8, 1, &steps), due);
}

/// By document 02: "4,096 stands, 257 and 8,192 are refused 1 by a call, and a file naming 257 is refused 10."
#[test]
fn case_j_sets() {
    let by_a_call = |sets| call(sets, 8, 0, &[policy(0, 255)]);
    assert_eq!(by_a_call(4096), "4096 8 0 1\n0 policy 0 0\ndomain 0 0 0 0 0 0 0 0\n");
    assert_eq!(by_a_call(257), "257 8 0 1\n0 refused 1\n");
    assert_eq!(by_a_call(8192), "8192 8 0 1\n0 refused 1\n");
    assert_eq!(list(256, 8, 0, &[]), "256 8 0 0\n");
    for sets in [257, 512, 4096, 65_535] {
        assert_eq!(list(sets, 8, 0, &[]), "refused 10\n", "{sets} sets");
    }
    for sets in [0, 3] {
        assert_eq!(list(sets, 8, 0, &[]), "refused 1\n", "{sets} sets");
    }
}

/// A call takes thirteen numbers of sets, of which a file may name nine. 10 "comes before all others", and 1 before 3.
#[test]
fn every_number_of_sets() {
    for sets in 0..=u16::MAX {
        let stands = (0..=12).any(|power| sets == 1 << power);
        assert_eq!(Geometry::new(sets, 8, 1).is_ok(), stands, "{sets} sets");
        let called = call(sets, 8, 1, &[(0, POLICY, 0), (16, POLICY, 0)]);
        let answers = if stands { "0 policy 0 0\n1 refused 3\n" } else { "0 refused 1\n1 refused 1\n" };
        assert_eq!(called, format!("{sets} 8 1 2\n{answers}"));
        let listed = list(sets, 8, 1, &[(0, POLICY, 0), (16, POLICY, 0)]);
        let of_file = if stands { &called } else { "refused 1\n" };
        assert_eq!(listed, if sets > 256 { "refused 10\n" } else { of_file }, "{sets} sets");
        let of_bad_file = if sets > 256 { "refused 10\n" } else { "refused 1\n" };
        assert_eq!(list(sets, 5, 7, &[]), of_bad_file, "{sets} sets");
    }
}

#[test]
fn every_other_geometry() {
    for number in 0..=u8::MAX {
        assert_eq!(Geometry::new(4, number, 0).is_ok(), [2, 4, 8, 16].contains(&number), "{number} ways");
        assert_eq!(Geometry::new(4, 16, number).is_ok(), number <= 2, "rule {number}");
    }
}

#[test]
fn case_k_domains() {
    let listing = list(1, 2, 0, &[policy(15, 1), policy(16, 2)]);
    assert_eq!(listing, "1 2 0 2\n0 policy 0 0\n1 refused 3\ndomain 15 0 0 0 0 0 0 0\n");
}

#[test]
fn case_l_steps() {
    let most = list(1, 2, 0, &[(0, LOAD, 0); 4096]);
    assert_eq!(most.lines().count(), 4097);
    assert!(most.ends_with("\n4095 refused 6\n"));
    assert_eq!(list(1, 2, 0, &[(0, LOAD, 0); 4097]), "refused 10\n");
    assert_eq!(list(3, 5, 7, &[(0, LOAD, 0); 4097]), "refused 10\n");
    assert_eq!(call(1, 2, 0, &[(0, LOAD, 0); 4096]), most);
    assert_eq!(call(1, 2, 0, &[(0, LOAD, 0); 4097]), "refused 10\n");
    assert_eq!(call(3, 5, 7, &[(0, LOAD, 0); 4097]), "refused 10\n");
}

#[test]
fn every_wrong_length() {
    let whole = file(1, 2, 0, &[(0, LOAD, 0); 3]);
    for text_of in [listing::of_file, slices::of_file] {
        for length in 0..whole.len() {
            assert_eq!(text_of(&whole[..length]), "refused 10\n", "{length} bytes");
        }
        let longer = [&whole[..], &[0]].concat();
        assert_eq!(text_of(&longer), "refused 10\n");
    }
}

/// Lines 0, 256 and S: sets 0 and 256 with tag 0, and set 0 with tag 1. At 256 sets line 256 is in set 0 too.
#[test]
fn sets_above_255_are_told_apart() {
    for sets in [512, 1024, 2048, 4096] {
        let load = |line: u16| (0, LOAD, 64 * u64::from(line));
        let steps = [policy(0, 15), load(0), load(256), load(sets), load(256), load(0), load(sets - 1)];
        let fills = "1 fill 3\n2 fill 3\n3 fill 2\n4 hit 3\n5 hit 3\n6 fill 3";
        let due = format!("{sets} 4 2 7\n0 policy 0 0\n{fills}\ndomain 0 2 4 0 0 0 4 0\n");
        assert_eq!(call(sets, 4, 2, &steps), due);
    }
    let of_one_set = list(256, 4, 2, &[policy(0, 15), (0, LOAD, 0), (0, LOAD, 64 * 256)]);
    assert!(of_one_set.contains("\n1 fill 3\n2 fill 2\n"));
}

/// The last line of all addresses is in the last set, and its tag has 58 bits less those of the set.
#[test]
fn the_highest_address() {
    for power in 0..=12 {
        let geometry = Geometry::new(1 << power, 8, 0).expect("sets within the limits");
        assert_eq!(geometry.place(u64::MAX), ((1 << power) - 1, (1 << (58 - power)) - 1));
    }
}

/// Of a geometry outside the limits each step is refused by 1, whatever else would turn it down; no domain gets ways.
#[test]
fn calls_outside_the_limits() {
    let steps = [policy(0, 1), (0, LOAD, 0), (16, 99, u64::MAX)];
    for (sets, ways, rule) in [(8192, 8, 0), (0, 8, 0), (4096, 3, 0), (4096, 8, 3), (65_535, 255, 255)] {
        let refused = "0 refused 1\n1 refused 1\n2 refused 1\n";
        assert_eq!(call(sets, ways, rule, &steps), format!("{sets} {ways} {rule} 3\n{refused}"));
        assert_eq!(call(sets, ways, rule, &[]), format!("{sets} {ways} {rule} 0\n"));
    }
}

/// Four ways under LRU, of which domain 0 has the upper three. Way 3 is filled first and hit again; then way 2 is the
/// victim, and then way 1. Way 0, which is older than all of them, is not in the map.
#[test]
fn under_lru_the_victim_is_the_way_used_longest_ago() {
    let mut steps = vec![policy(0, 14)];
    steps.extend([0, 64, 128, 0, 192, 64].map(|address| (0, LOAD, address)));
    let listing = list(1, 4, 2, &steps);
    let lines: Vec<&str> = listing.lines().collect();
    let due = ["2 fill 2", "3 fill 1", "4 hit 3", "5 evict 2 1 0", "6 evict 1 2 0", "domain 0 1 5 2 0 0 5 0"];
    assert_eq!(lines[..3], ["1 4 2 7", "0 policy 0 0", "1 fill 3"]);
    assert_eq!(lines[3..], due);
}

/// The rules called alone, four ways under LRU: map 15 and word 0; then map 16, which no call takes.
const ALONE: &str = "\
fresh 291
own 291
victim 0 0
touch 0 4656
touch 1 561
touch 2 306
touch 3 0
touch 4 refused 5
change 0
conflict 0
own refused 5
victim refused 5
touch 0 refused 5
touch 1 refused 5
touch 2 refused 5
touch 3 refused 5
touch 4 refused 5
change 306
conflict 5
";

#[test]
fn the_rules_called_alone() {
    let entries = [(15, 0, 0), (16, 0, 306)];
    assert_eq!(rules::of_file(&file(1, 4, 2, &entries)), ALONE);
    assert_eq!(rules::of_file(&file(1, 4, 3, &entries)), "refused 1\n");
    assert_eq!(rules::of_file(&file(512, 4, 2, &entries)), "refused 10\n");
    assert_eq!(rules::of_file(&[]), "refused 10\n");
}

/// Maps 5 and 10 as in case F, 6 and word 0 as in case I, and no victim of an empty map. Of a zero word the NRU default
/// is the map's highest way; under LRU zero is read as fresh, in which the lowest way is the oldest.
#[test]
fn conflicts_and_victims_of_the_rules_called_alone() {
    let entries = [(5, 0, 0), (10, 0, 0), (6, 0, 0), (0, 0, 0)];
    let of_rule = |rule, word: &str| -> Vec<String> {
        let text = rules::of_file(&file(1, 8, rule, &entries));
        text.lines().filter(|line| line.starts_with(word)).map(String::from).collect()
    };
    assert_eq!(of_rule(0, "conflict"), ["conflict 0", "conflict 9", "conflict 9", "conflict 0"]);
    assert_eq!(of_rule(1, "conflict"), ["conflict 0"; 4]);
    assert_eq!(of_rule(2, "conflict"), ["conflict 0"; 4]);
    assert_eq!(of_rule(1, "victim"), ["victim 2 5", "victim 3 10", "victim 2 6", "victim refused 5"]);
    assert_eq!(of_rule(2, "victim"), ["victim 0 0", "victim 1 0", "victim 1 0", "victim refused 5"]);
}

/// Eight ways. Map 6 has one free node, which is on the paths to ways 0 to 3; then comes the empty map. Every bit of
/// both words is one. A way of the map turns that node, or clears its bit; a way outside leaves the word.
#[test]
fn touches_outside_the_map_of_the_rules_called_alone() {
    let ones = u64::MAX;
    for (rule, in_map) in [(0, [ones, ones - 0b10]), (1, [ones - 0b010, ones - 0b100])] {
        let text = rules::of_file(&file(1, 8, rule, &[(6, 0, ones), (0, 0, ones)]));
        let touches: Vec<&str> = text.lines().filter(|line| line.starts_with("touch")).collect();
        let of_map = |way: usize| if [1, 2].contains(&way) { in_map[way - 1] } else { ones };
        for way in 0..8 {
            assert_eq!(touches[way], format!("touch {way} {}", of_map(way)), "rule {rule}");
            assert_eq!(touches[9 + way], format!("touch {way} {ones}"), "rule {rule}");
        }
    }
}

/// Domain 15 has ways 9 to 11 and 13 of sixteen: four without a hit, the first two up to way 10. The fourth line that
/// it loads is in way 9, and the third in way 10. A refused step leaves the counts. A file without a step has no such
/// number, and a refused one has none either. Of four lines one is flushed.
#[test]
fn the_ways_visited_by_a_file() {
    let mut steps = vec![policy(15, 0x2e00)];
    steps.extend([0, 4096, 8192, 12_288, 12_288, 8192].map(|address| (15, LOAD, address)));
    steps.extend([(15, FLUSH, 8192), (15, 4, 0), (0, LOAD, 0)]);
    let held = |lines: u32| format!("held{} {lines}\n", " 0".repeat(15));
    let due = "\
0 15 0 0 0 0 0 0 0
4 15 0 1 0 0 0 1 0
4 15 0 2 0 0 0 2 0
4 15 0 3 0 0 0 3 0
4 15 0 4 0 0 0 4 0
1 15 1 4 0 0 0 4 0
2 15 2 4 0 0 0 4 0
2 15 2 4 0 0 1 4 0
0 15 2 4 0 0 1 4 0
0 0 0 0 0 0 0 0 0
";
    assert_eq!(visits::of_file(&file(64, 16, 2, &steps)), format!("{due}{}", held(3)));
    assert_eq!(visits::of_file(&file(64, 16, 2, &[])), held(0));
    assert_eq!(visits::of_file(&file(64, 16, 3, &steps)), "refused\n");
    assert_eq!(visits::of_file(&file(512, 16, 2, &steps)), "refused\n");
    assert_eq!(visits::of_file(&[]), "refused\n");
}

/// Cores 5, 6, 31 and 32 beside domains 0 and 1, which have ways 0 and 1, and 2 and 3, of four: core 5 begins with
/// domain 0 and is switched twice, so that its selectors differ. Core 31 then has domain 15, which has no ways.
fn steps_of_cores() -> [Code; 26] {
    [
        policy(0, 3),
        policy(1, 12),
        (5, 33, 0),
        (5, 40, 0x00_01_01),
        (5, 33, 0),
        (5, 34, 64),
        (5, 32, 0),
        (5, 35, 64),
        (5, 40, 0x01_00_00),
        (5, 35, 64),
        (5, 34, 0),
        (5, 32, 0),
        (6, 33, 128),
        (0, LOAD, 128),
        (6, 33, 192),
        (31, 33, 0),
        (32, 33, 0),
        (32, 40, 0),
        (31, 40, 0x0f_0f_0f),
        (31, 33, 0),
        (31, 40, 0x10),
        (31, 40, 0x0100_0000),
        (31, 40, 0x0100_0010),
        (31, 35, 0),
        (20, 36, 0),
        (5, 36, 0),
    ]
}

const CORES: &str = "\
1 4 0 26
0 policy 0 0
1 policy 0 0
2 fill 1
3 select 1 1 0
4 fill 3
5 fill 0
6 hit 3
7 absent
8 select 0 0 1
9 flush 0 1
10 hit 3
11 hit 1
12 fill 0
13 hit 0
14 evict 1 0 0
15 evict 0 2 0
16 refused 11
17 refused 11
18 select 15 15 15
19 refused 6
20 refused 3
21 refused 5
22 refused 3
23 refused 6
24 refused 3
25 refused 4
domain 0 2 5 2 1 1 5 0
domain 1 2 1 0 0 0 1 0
";

#[test]
fn cores_that_are_switched() {
    assert_eq!(list(1, 4, 0, &steps_of_cores()), CORES);
}

/// By a call without a list, kinds 32 to 35 and 40 are unknown: 3 for a domain of 16 or more, else 4.
#[test]
fn without_a_list_of_cores() {
    let due = |&(domain, kind, _): &Code| match (kind, domain) {
        (POLICY, _) => "policy 0 0",
        (LOAD, _) => "fill 1",
        (_, 16..) => "refused 3",
        _ => "refused 4",
    };
    let lines: Vec<String> =
        (0..).zip(&steps_of_cores()).map(|(place, step)| format!("{place} {}\n", due(step))).collect();
    let counts = "domain 0 0 1 0 0 0 1 0\ndomain 1 0 0 0 0 0 0 0\n";
    assert_eq!(call(1, 4, 0, &steps_of_cores()), format!("1 4 0 26\n{}{counts}", lines.concat()));
}

/// The ways visited, the domain, 65535 for a selector write and for core 32, and the counts of a domain below 16. Of
/// domain 0's five lines two were evicted and one flushed.
const VISITS_OF_CORES: &str = "\
0 0 0 0 0 0 0 0 0
0 1 0 0 0 0 0 0 0
2 0 0 1 0 0 0 1 0
0 65535
2 1 0 1 0 0 0 1 0
2 0 0 2 0 0 0 2 0
2 1 1 1 0 0 0 1 0
2 1 1 1 0 0 0 1 0
0 65535
1 0 0 2 0 1 1 2 0
2 1 2 1 0 0 0 1 0
2 0 1 2 0 1 1 2 0
2 0 1 3 0 1 1 3 0
1 0 2 3 0 1 1 3 0
2 0 2 4 1 1 1 4 0
2 0 2 5 2 1 1 5 0
0 65535
0 65535
0 65535
0 15 0 0 0 0 0 0 0
0 65535
0 65535
0 65535
0 15 0 0 0 0 0 0 0
0 20
0 5 0 0 0 0 0 0 0
held 2 1 0 0 0 0 0 0 0 0 0 0 0 0 0 0
";

#[test]
fn the_ways_visited_through_cores() {
    assert_eq!(visits::of_file(&file(1, 4, 0, &steps_of_cores())), VISITS_OF_CORES);
}

/// The places of the steps that each domain's struck-out list does not have. The geometry does not matter, unless 10
/// refuses the file.
#[test]
fn the_struck_out_lists() {
    let steps = steps_of_cores();
    for domain in 0..16 {
        let struck: &[usize] = match domain {
            0 => &[4, 6, 7, 10, 19, 23],
            1 => &[2, 5, 9, 11, 12, 13, 14, 15, 19, 23],
            15 => &[2, 4, 5, 6, 7, 9, 10, 11, 12, 13, 14, 15],
            _ => &[2, 4, 5, 6, 7, 9, 10, 11, 12, 13, 14, 15, 19, 23],
        };
        let kept = steps.iter().enumerate().filter(|(place, _)| !struck.contains(place));
        let due: String = kept.map(|(_, (named, kind, argument))| format!("{named} {kind} {argument}\n")).collect();
        assert_eq!(purge::of_file(domain, &file(1, 4, 0, &steps)), due, "domain {domain}");
        assert_eq!(purge::of_file(domain, &file(3, 5, 7, &steps)), due, "domain {domain}");
        for refused in [file(257, 4, 0, &steps), file(1, 4, 0, &[(0, LOAD, 0); 4097]), vec![0; 7]] {
            assert_eq!(purge::of_file(domain, &refused), "");
        }
    }
}

/// The struck-out list of a domain, read from its text.
fn struck_out(domain: u8, steps: &[Code]) -> Vec<Code> {
    let text = purge::of_file(domain, &file(1, 4, 0, steps));
    let number = |word: &str| word.parse::<u64>().expect("a number");
    let code = |numbers: Vec<u64>| (numbers[0] as u8, numbers[1] as u8, numbers[2]);
    text.lines().map(|line| code(line.split(' ').map(number).collect())).collect()
}

/// Case A without the loads of domains 1 and 2: the answers to domain 0 are the same, and so is its line.
#[test]
fn case_a_the_struck_out_run() {
    let text = "0 16 196611\n1 16 786444\n0 2 0\n0 1 64\n0 1 128\n0 3 64\n0 1 128\n";
    assert_eq!(purge::of_file(0, &file(1, 4, 0, &steps_of_case_a())), text);
    let due = "\
1 4 0 7
0 policy 0 0
1 policy 0 0
2 fill 1
3 fill 0
4 evict 1 0 1
5 flush 0 0
6 hit 1
domain 0 1 3 1 1 1 3 0
domain 1 0 0 0 0 0 0 0
";
    assert_eq!(list(1, 4, 0, &struck_out(0, &steps_of_case_a())), due);
}

/// The cores without what belongs to domains 0 and 15: the answers to domain 1, steps 4, 6, 7 and 10 before, are the
/// same, and so is its line.
#[test]
fn the_struck_out_run_of_cores() {
    let due = "\
1 4 0 16
0 policy 0 0
1 policy 0 0
2 select 1 1 0
3 fill 3
4 hit 3
5 absent
6 select 0 0 1
7 hit 3
8 refused 11
9 refused 11
10 select 15 15 15
11 refused 3
12 refused 5
13 refused 3
14 refused 3
15 refused 4
domain 0 0 0 0 0 0 0 0
domain 1 2 1 0 0 0 1 0
";
    assert_eq!(list(1, 4, 0, &struck_out(1, &steps_of_cores())), due);
}

/// 1 comes before 11: with a geometry outside the limits each call is refused by 1, whatever list is lent.
#[test]
fn one_comes_before_eleven() {
    let steps = [(0, LOAD, 0), (0, 33, 0), (32, 33, 0), (32, 40, u64::MAX), (16, 99, 0)];
    for length in [0, 1, 32, 33] {
        let mut lent = vec![cores::Core::default(); length];
        let form = Form::read(&file(3, 4, 0, &steps)).expect("a file that has the form");
        let text = listing::of_calls(&form, Some(&mut lent));
        assert_eq!(text, "3 4 0 5\n0 refused 1\n1 refused 1\n2 refused 1\n3 refused 1\n4 refused 1\n");
    }
    let mut lent = vec![cores::Core::default(); 33];
    let form = Form::read(&file(4, 4, 0, &steps)).expect("a file that has the form");
    let text = listing::of_calls(&form, Some(&mut lent));
    assert_eq!(text, "4 4 0 5\n0 refused 11\n1 refused 11\n2 refused 11\n3 refused 11\n4 refused 11\n");
}

/// n is a number of 32 bits: 10 × n in 32 bits would make 3 + 2^31 steps look like 3.
#[test]
fn a_number_of_steps_that_wraps() {
    let mut wraps = file(1, 2, 0, &[(0, LOAD, 0); 3]);
    wraps[7] = 0x80;
    assert_eq!(listing::of_file(&wraps), "refused 10\n");
}
