//! Files with lent records and tables, and what is written about them.

use super::*;

const LARGEST: u32 = u32::MAX;

/// (domain, kind, argument)
type Code = (u8, u8, u64);

/// A policy change of a domain to these maps.
fn policy(domain: u8, hit_map: Map, fill_map: Map) -> Code {
    (domain, 16, u64::from(hit_map) | u64::from(fill_map) << 16)
}

fn load(domain: u8, line: u64) -> Code {
    (domain, 1, 64 * line)
}

/// What is lent before a trace: records and tables, at first all zero.
struct Lent {
    records: [(Map, Map, [u32; COUNTS]); DOMAINS],
    valid: [Map; 256],
    dirty: [Map; 256],
}

impl Lent {
    fn zero() -> Lent {
        Lent { records: [(0, 0, [0; COUNTS]); DOMAINS], valid: [0; 256], dirty: [0; 256] }
    }

    fn bytes(&self) -> Vec<u8> {
        let of_record = |(hit_map, fill_map, counts): &(Map, Map, [u32; COUNTS])| {
            let maps = [hit_map.to_le_bytes(), fill_map.to_le_bytes()].concat();
            [maps, counts.iter().flat_map(|count| count.to_le_bytes()).collect()].concat()
        };
        let records = self.records.iter().flat_map(of_record);
        records.chain(self.valid.iter().chain(&self.dirty).flat_map(|map| map.to_le_bytes())).collect()
    }

    /// The text of these steps.
    fn text(&self, sets: u16, ways: u8, rule: u8, steps: &[Code]) -> String {
        of_file(&[self.bytes(), trace_file(sets, ways, rule, steps)].concat())
    }

    /// Its lines but the first, up to the lines of the domains.
    fn answers(&self, sets: u16, ways: u8, rule: u8, steps: &[Code]) -> Vec<String> {
        let text = self.text(sets, ways, rule, steps);
        assert_eq!(text.lines().count(), 1 + steps.len() + DOMAINS);
        text.lines().skip(1).take(steps.len()).map(String::from).collect()
    }
}

fn trace_file(sets: u16, ways: u8, rule: u8, steps: &[Code]) -> Vec<u8> {
    let mut file = [&sets.to_le_bytes()[..], &[ways, rule], &(steps.len() as u32).to_le_bytes()].concat();
    file.extend(steps.iter().flat_map(|&(domain, kind, _)| [domain, kind]));
    file.extend(steps.iter().flat_map(|&(_, _, argument)| argument.to_le_bytes()));
    file
}

#[test]
fn lengths() {
    assert_eq!([RECORD, RECORDS, TABLE, LENT], [32, 512, 512, 1536]);
    assert_eq!(Lent::zero().bytes().len(), LENT);
}

/// 10 of a file without all that is lent, or with a wrong trace file behind it; and 1 of its geometry.
#[test]
fn refused_files() {
    let whole = [Lent::zero().bytes(), trace_file(1, 2, 0, &[load(0, 0)])].concat();
    for length in 0..whole.len() {
        assert_eq!(of_file(&whole[..length]), "refused 10\n", "{length} bytes");
    }
    assert_eq!(of_file(&[&whole[..], &[0]].concat()), "refused 10\n");
    let refused = |sets, ways, rule| Lent::zero().text(sets, ways, rule, &[]);
    for (sets, ways, rule) in [(0, 2, 0), (3, 2, 0), (1, 3, 0), (1, 2, 3)] {
        assert_eq!(refused(sets, ways, rule), "refused 1\n");
    }
    assert_eq!(refused(257, 2, 0), "refused 10\n");
    assert_eq!(refused(512, 3, 3), "refused 10\n");
    assert_eq!(Lent::zero().text(1, 2, 0, &[load(0, 0); 3943]), "refused 10\n");
    assert!(Lent::zero().text(1, 2, 0, &[load(0, 0); 3942]).starts_with("1 2 0 3942\n0 refused 6\n"));
    assert_eq!(of_file(&trace_file(1, 2, 0, &[])), "refused 10\n");
}

/// Case A on zeros, which are a fresh cache under Tree-PLRU: its listing, with the ways of document 02, but for the
/// lines of the domains.
#[test]
fn case_a_on_zeros() {
    let steps = [
        policy(0, 3, 3),
        policy(1, 12, 12),
        (0, 2, 0),
        load(0, 1),
        load(1, 0),
        load(0, 2),
        (0, 3, 64),
        load(2, 0),
        load(0, 2),
    ];
    let answers = "\
1 4 0 9
0 policy 0 0
1 policy 0 0
2 fill 1
3 fill 0
4 fill 3
5 evict 1 0 1
6 flush 0 0
7 refused 6
8 hit 1
domain 0 3 3 1 3 1 1 1 3 0
domain 1 12 12 0 1 0 0 0 1 0
";
    let others: String = (2..16).map(|domain| format!("domain {domain} 0 0 0 0 0 0 0 0 0\n")).collect();
    assert_eq!(Lent::zero().text(1, 4, 0, &steps), format!("{answers}{others}"));
}

/// Every record comes back as it was lent, whatever it holds, and maps of domains without ways too.
#[test]
fn records_without_a_step() {
    let mut lent = Lent::zero();
    for (place, record) in (0u32..).zip(&mut lent.records) {
        let count = |number: u32| LARGEST - 0x0102_0304 * place - number;
        let maps = [0xfffe, 0x0304].map(|map: u16| map.rotate_left(place));
        *record = (maps[0], maps[1], [0, 1, 2, 3, 4, 5, 6].map(count));
    }
    lent.valid = [0xffff; 256];
    let text = lent.text(256, 2, 2, &[]);
    let mut lines = text.lines();
    assert_eq!(lines.next(), Some("256 2 2 0"));
    for (domain, (hit_map, fill_map, counts)) in lent.records.iter().enumerate() {
        let counts = counts.map(|count| count.to_string()).join(" ");
        assert_eq!(lines.next(), Some(&format!("domain {domain} {hit_map} {fill_map} {counts}")[..]));
    }
    assert_eq!(lines.next(), None);
    assert!(text.contains("\ndomain 1 65533 1544 4278058235 "));
}

/// Set s is lent the valid map with way s alone, and the dirty map with way 0; the maps of other sets are ignored.
#[test]
fn the_tables_of_the_sets() {
    let mut lent = Lent::zero();
    lent.records[9].0 = 0xffff;
    lent.valid = [0xffff; 256];
    for (set, valid) in lent.valid.iter_mut().take(8).enumerate() {
        *valid = 1 << set;
    }
    lent.dirty = [1; 256];
    let steps: Vec<Code> = (0..8).map(|set| load(9, set)).chain([policy(9, 0xfffc, 0), policy(9, 0, 0)]).collect();
    let hits: Vec<String> = (0..8).map(|set| format!("{set} hit {set}")).collect();
    let answers = lent.answers(8, 16, 0, &steps);
    assert_eq!(answers[..8], hits);
    assert_eq!(answers[8..], ["8 policy 2 1", "9 policy 6 0"]);
    lent.valid[8..].fill(0);
    lent.dirty[8..].fill(0xffff);
    assert_eq!(lent.answers(8, 16, 0, &steps), answers);
}

/// All tags and replacement words are zero, and way 0, the lowest, is hit. Under Tree-PLRU the root then points right;
/// under NRU no way has its bit, so that the highest is the victim, and then the next; under LRU zero is read as fresh.
/// Ways 1 and 3 are dirty, of which each rule evicts one.
#[test]
fn tags_and_replacement_words_are_zero() {
    let mut lent = Lent::zero();
    lent.records[0] = (15, 15, [0; COUNTS]);
    lent.valid[0] = 15;
    lent.dirty[0] = 0b1010;
    let steps = [load(0, 0), load(0, 5), load(0, 6)];
    assert_eq!(lent.answers(1, 4, 0, &steps), ["0 hit 0", "1 evict 2 0 0", "2 evict 1 0 1"]);
    assert_eq!(lent.answers(1, 4, 1, &steps), ["0 hit 0", "1 evict 3 0 1", "2 evict 2 0 0"]);
    assert_eq!(lent.answers(1, 4, 2, &steps), ["0 hit 0", "1 evict 1 0 1", "2 evict 2 0 0"]);
}

/// The kinds that name a core: no list is lent.
#[test]
fn kinds_of_cores_are_unknown() {
    let steps = [(0, 32, 0), (0, 35, 0), (15, 40, 0), (16, 33, 0), (31, 40, 0)];
    let due = ["0 refused 4", "1 refused 4", "2 refused 4", "3 refused 3", "4 refused 3"];
    assert_eq!(Lent::zero().answers(1, 2, 0, &steps), due);
}

/// Each of the seven counts of a record turns down accesses and flushes of its domain; a removal ends that.
#[test]
fn full_counts() {
    for full in 0..COUNTS {
        let mut lent = Lent::zero();
        lent.records[1] = (1, 1, [LARGEST - 1; COUNTS]);
        lent.records[1].2[full] = LARGEST;
        let steps = [load(1, 0), (1, 3, 0), load(0, 0), policy(1, 0, 0), policy(1, 1, 1), load(1, 0)];
        let due = ["0 refused 7", "1 refused 7", "2 refused 6", "3 policy 0 0", "4 policy 0 0", "5 fill 0"];
        assert_eq!(lent.answers(1, 2, 0, &steps), due);
        let text = lent.text(1, 2, 0, &steps);
        assert!(text.contains("\ndomain 1 1 1 0 1 0 0 0 1 0\n"));
    }
}

/// A change gives up way 1 with two lines in it, where two, one or none fit; then a change to both ways drops none.
#[test]
fn drops_and_the_largest_count() {
    let refused = "0 refused 7";
    for (dropped, due, after) in
        [(LARGEST - 2, "0 policy 2 1", LARGEST), (LARGEST - 1, refused, LARGEST - 1), (LARGEST, refused, LARGEST)]
    {
        let mut lent = Lent::zero();
        lent.records[3] = (3, 3, [9, 8, 7, 6, 5, 4, dropped]);
        lent.valid[..2].fill(3);
        lent.dirty[1] = 2;
        let steps = [policy(3, 1, 0), policy(3, 3, 1)];
        assert_eq!(lent.answers(2, 2, 1, &steps), [due, "1 policy 0 0"]);
        let text = lent.text(2, 2, 1, &steps);
        assert!(text.contains(&format!("\ndomain 3 3 1 9 8 7 6 5 4 {after}\n")), "{text}");
    }
}

/// Domains 0 and 1 have a way and a line each: the neighbour's line is no drop of a change to its way, which is 8.
#[test]
fn a_neighbours_lines() {
    let mut lent = Lent::zero();
    lent.records[0] = (1, 1, [0, 1, 0, 0, 0, 1, LARGEST - 1]);
    lent.records[1] = (2, 2, [0, 1, 0, 0, 0, 1, 0]);
    lent.valid[0] = 3;
    assert_eq!(lent.answers(1, 2, 0, &[policy(0, 2, 2), policy(0, 3, 1)]), ["0 refused 8", "1 refused 8"]);
    lent.records[0].2[6] = LARGEST;
    assert_eq!(lent.answers(1, 2, 0, &[policy(0, 2, 2), policy(0, 3, 1)]), ["0 refused 7", "1 refused 8"]);
}

/// Stored maps overlap: domain 0 leaves way 1, which domain 1 has too, and the line in it is a drop of domain 0.
#[test]
fn overlapping_maps() {
    let mut lent = Lent::zero();
    lent.records[0] = (3, 3, [0; COUNTS]);
    lent.records[1] = (2, 2, [0; COUNTS]);
    lent.valid[0] = 2;
    let text = lent.text(1, 2, 0, &[policy(0, 1, 1), load(1, 0)]);
    let due = "1 2 0 2\n0 policy 1 0\n1 fill 1\ndomain 0 1 1 0 0 0 0 0 0 1\ndomain 1 2 2 0 1 0 0 0 1 0\ndomain 2 0 0 ";
    assert!(text.starts_with(due), "{text}");
}
