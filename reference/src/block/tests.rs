//! Blocks, and what steps make of them.

use super::*;

mod refused;

const FETCH: u64 = 0;
const LOAD: u64 = 1;
const STORE: u64 = 2;
const FLUSH: u64 = 3;
const POLICY: u64 = 16;

/// The argument of a policy change.
fn maps(hit_map: u64, fill_map: u64) -> u64 {
    hit_map | fill_map << 16
}

/// A fresh block. Before it was made it held other bytes.
fn made(sets: u64, ways: u64, rule: u64) -> Vec<u8> {
    let mut block = vec![0xa5; (520 + sets * (12 + 8 * ways)) as usize];
    assert_eq!(fresh(&mut block, sets, ways, rule), 0);
    block
}

/// The returned number, the word and the three fields of a step.
fn done(block: &mut [u8], domain: u64, kind: u64, argument: u64) -> (u64, [u64; 4]) {
    let mut answer = [0xa5; ANSWER];
    let number = step(block, domain, kind, argument, &mut answer);
    let fields = [0, 8, 16, 24].map(|from| u64::from_le_bytes(answer[from..from + 8].try_into().expect("8 bytes")));
    (number, fields)
}

/// The places of a block that are not zero, each with its byte.
fn nonzero(block: &[u8]) -> Vec<(usize, u8)> {
    block.iter().copied().enumerate().filter(|&(_, byte)| byte != 0).collect()
}

/// The lengths, and S × (12 + 8 × W) behind 520 bytes.
#[test]
fn lengths() {
    for (sets, ways, bytes) in [(1, 2, 548), (1, 4, 564), (1, 16, 660), (256, 8, 19_976), (4096, 16, 573_960)] {
        let geometry = Geometry::new(sets, ways, 0).expect("a geometry");
        assert_eq!(length(&geometry), bytes);
    }
}

/// All zero but the head and the replacement words.
#[test]
fn fresh_blocks() {
    assert_eq!(nonzero(&made(1, 4, 0)), [(0, 1), (2, 4)]);
    assert_eq!(nonzero(&made(2, 4, 1)), [(0, 2), (2, 4), (3, 1), (528, 0x0f), (536, 0x0f)]);
    assert_eq!(nonzero(&made(1, 4, 2)), [(0, 1), (2, 4), (3, 2), (524, 0x23), (525, 0x01)]);
    assert_eq!(nonzero(&made(1, 16, 1)), [(0, 1), (2, 16), (3, 1), (524, 0xff), (525, 0xff)]);
    let lru = made(1, 16, 2);
    assert_eq!(lru[524..532], [0xef, 0xcd, 0xab, 0x89, 0x67, 0x45, 0x23, 0x01]);
    let large = made(4096, 16, 1);
    assert_eq!(nonzero(&large)[..3], [(1, 16), (2, 16), (3, 1)]);
    assert_eq!(nonzero(&large).len(), 3 + 2 * 4096);
}

/// Case A, step by step: document 01 has its listing, and document 02 the ways in it. Behind each step's answer are the
/// nodes: the touch of way 0 turns node 1 to the right, and that of way 1 back. At the end all are zero again.
#[test]
fn case_a() {
    let mut block = made(1, 4, 0);
    let steps = [
        (0, POLICY, maps(3, 3), [6, 0, 0, 0], 0b000),
        (1, POLICY, maps(12, 12), [6, 0, 0, 0], 0b000),
        (0, STORE, 0, [1, 1, 0, 0], 0b000),
        (0, LOAD, 64, [1, 0, 0, 0], 0b010),
        (1, LOAD, 0, [1, 3, 0, 0], 0b010),
        (0, LOAD, 128, [2, 1, 0, 1], 0b000),
        (0, FLUSH, 64, [4, 0, 0, 0], 0b000),
        (2, LOAD, 0, [7, 6, 0, 0], 0b000),
        (0, LOAD, 128, [0, 1, 0, 0], 0b000),
    ];
    for (domain, kind, argument, fields, nodes) in steps {
        let number = if fields[0] == 7 { 6 } else { 0 };
        assert_eq!(done(&mut block, domain, kind, argument), (number, fields));
        assert_eq!(block[524..532], [nodes, 0, 0, 0, 0, 0, 0, 0]);
    }
    let counts = |domain: usize| [0, 4, 8, 12, 16, 20, 24].map(|count| block[72 + 28 * domain + count]);
    assert_eq!((counts(0), counts(1), counts(2)), ([1, 3, 1, 1, 1, 3, 0], [0, 1, 0, 0, 0, 1, 0], [0; 7]));
    assert_eq!((block[8], block[10], block[40], block[42]), (3, 12, 3, 12));
    assert_eq!((block[520], block[522]), (0b1010, 0), "valid and dirty");
    assert_eq!([0, 8, 16, 24].map(|way| block[532 + way]), [1, 2, 0, 0], "tags: the flush left that of way 0");
}

/// The bytes that each step changes, by hand: two sets of two ways, the parts of the tables at 520, 524, 528 and 544.
#[test]
fn layout() {
    let mut block = made(2, 2, 0);
    assert_eq!(block.len(), 576);
    let mut changed = |domain, kind, argument| {
        let before = block.clone();
        assert_eq!(done(&mut block, domain, kind, argument).0, 0);
        let places = (0..block.len()).filter(|&place| block[place] != before[place]);
        places.map(|place| (place, block[place])).collect::<Vec<_>>()
    };
    assert_eq!(changed(15, POLICY, maps(3, 2)), [(38, 3), (70, 2)]);
    // Set 1, tag 0x0001_0203_0405_0607: miss and fills of domain 15, valid, dirty, and the tag of way 1 in its row.
    let line = 2 * 0x0001_0203_0405_0607 + 1;
    let tag = [(568, 7), (569, 6), (570, 5), (571, 4), (572, 3), (573, 2), (574, 1)];
    let counts_and_maps = [(72 + 420 + 4, 1), (72 + 420 + 20, 1), (522, 2), (526, 2)];
    assert_eq!(changed(15, STORE, 64 * line), [&counts_and_maps[..], &tag].concat());
    assert_eq!(changed(15, POLICY, maps(3, 3)), [(70, 3)]);
    // Two lines of the other set, with tags 0 and 1: way 1 is filled, whose touch leaves node 0 as it is, and then way
    // 0, whose touch points node 0 of that set's word to the right.
    assert_eq!(changed(15, FETCH, 0), [(496, 2), (512, 2), (520, 2)]);
    assert_eq!(changed(15, FETCH, 64 * 2), [(496, 3), (512, 3), (520, 3), (528, 1), (544, 1)]);
    assert_eq!(changed(15, FLUSH, 64 * line), [(72 + 420 + 12, 1), (72 + 420 + 16, 1), (522, 0), (526, 0)]);
    assert_eq!(changed(15, FLUSH, 64 * line), [], "absent");
    assert_eq!(changed(15, POLICY, maps(1, 1)).last(), Some(&(574, 0)), "cleaned: tag zero");
}

/// Each word, with the fields that it has.
#[test]
fn words() {
    let evict = Answer::Evict { way: 15, tag: u64::MAX >> 6, dirty: true };
    assert_eq!(fields(evict), [2, 15, 0x03ff_ffff_ffff_ffff, 1]);
    assert_eq!(fields(Answer::Hit { way: 9 }), [0, 9, 0, 0]);
    assert_eq!(fields(Answer::Fill { way: 9 }), [1, 9, 0, 0]);
    assert_eq!(fields(Answer::Pass), [3, 0, 0, 0]);
    assert_eq!(fields(Answer::Flush { way: 3, dirty: true }), [4, 3, 1, 0]);
    assert_eq!(fields(Answer::Absent), [5, 0, 0, 0]);
    assert_eq!(fields(Answer::Policy { dropped: 65_536, dirty_dropped: 7 }), [6, 65_536, 7, 0]);
    assert_eq!(fields(Answer::Refused(Refusal::Block)), [7, 12, 0, 0]);
}

/// Any bytes from the hit maps on are read: what a step does not name stays as it is lent.
#[test]
fn any_bytes() {
    for (rule, ways) in [(0, 2), (1, 4), (2, 8), (0, 16)] {
        let mut block = made(4, ways, rule);
        for (place, byte) in block.iter_mut().enumerate().skip(8) {
            *byte = (place * 37 % 251) as u8;
        }
        let lent = block.clone();
        let geometry = Geometry::new(4, ways as u8, rule as u8).expect("a geometry");
        write(&mut block, &geometry, read(&lent, &geometry));
        assert_eq!(block, lent);
        let (number, fields) = done(&mut block, 3, POLICY, 0);
        assert_eq!((number, fields[0]), (0, 6));
        assert_eq!([&block[14..16], &block[46..48], &block[156..184]].concat(), [0; 32], "the domain is removed");
        assert_eq!((&block[..14], &block[16..46]), (&lent[..14], &lent[16..46]));
        assert_eq!((&block[48..156], &block[184..520]), (&lent[48..156], &lent[184..520]));
    }
}
