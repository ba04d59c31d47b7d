//! Calls that are turned down: by which number, in which order, and that nothing moves but an answer of 32 bytes.

use super::*;

/// A step that is turned down, and its number.
fn refused(block: &mut [u8], domain: u64, kind: u64, argument: u64) -> u64 {
    let before = block.to_vec();
    let (number, fields) = done(block, domain, kind, argument);
    assert_eq!(fields, [7, number, 0, 0]);
    assert_eq!(block, before, "{domain} {kind} {argument}");
    number
}

/// A fresh call that is turned down, and its number.
fn no_fresh(bytes: usize, sets: u64, ways: u64, rule: u64) -> u64 {
    let mut block = vec![0x5a; bytes];
    let number = fresh(&mut block, sets, ways, rule);
    assert!(number != 0 && block == vec![0x5a; bytes], "{bytes} {sets} {ways} {rule}");
    number
}

/// "A block under 8 bytes is 12 before all else", then 1, then 12. No number is cut.
#[test]
fn fresh_calls() {
    for bytes in 0..8 {
        assert_eq!((no_fresh(bytes, 3, 3, 3), no_fresh(bytes, 1, 4, 0)), (12, 12));
    }
    for bytes in [8, 9, 519, 520, 563, 565, 4096] {
        assert_eq!((no_fresh(bytes, 3, 4, 0), no_fresh(bytes, 1, 4, 0)), (1, 12));
    }
    for sets in [0, 3, 257, 4095, 4097, 8192, 65_535, 65_536, 65_537, 1 << 32 | 1, u64::MAX] {
        assert_eq!(no_fresh(564, sets, 4, 0), 1, "{sets} sets");
    }
    for ways in [0, 1, 3, 5, 6, 7, 9, 15, 17, 32, 255, 256, 260, 1 << 32 | 4, u64::MAX] {
        assert_eq!(no_fresh(564, 1, ways, 0), 1, "{ways} ways");
    }
    for rule in [3, 4, 255, 256, 1 << 32, u64::MAX] {
        assert_eq!(no_fresh(564, 1, 4, rule), 1, "rule {rule}");
    }
    assert_eq!((no_fresh(564, 1, 8, 0), no_fresh(564, 2, 4, 0), no_fresh(564, 4096, 16, 2)), (12, 12, 12));
}

/// The geometry in the head, and the lengths: 12, 1, 12, 3.
#[test]
fn heads_and_lengths() {
    let whole = made(1, 4, 0);
    for bytes in 0..8 {
        assert_eq!(refused(&mut whole[..bytes].to_vec(), 16, 4, 0), 12, "{bytes} bytes");
        assert_eq!(refused(&mut vec![0xff; bytes], 16, 4, 0), 12, "{bytes} bytes");
    }
    for bytes in (8..564).chain([565, 600, 1000]) {
        let mut block = whole.clone();
        block.resize(bytes, 0);
        assert_eq!(refused(&mut block, 16, 4, 0), 12, "{bytes} bytes");
        block[2] = 3;
        assert_eq!(refused(&mut block, 16, 4, 0), 1, "{bytes} bytes, 3 ways");
    }
    for (place, byte) in [(0, 0), (0, 3), (1, 1), (1, 0x20), (2, 0), (2, 5), (2, 32), (3, 3), (3, 255)] {
        let mut block = whole.clone();
        block[place] = byte;
        block[7] = 1;
        assert_eq!(refused(&mut block, 16, 4, 0), 1, "byte {place} is {byte}");
    }
}

/// "At a step a zero byte that is not zero." A fresh call does not ask for them.
#[test]
fn zero_bytes() {
    for place in 4..8 {
        for byte in [1, 0x80, 0xff] {
            let mut block = made(1, 4, 0);
            block[place] = byte;
            assert_eq!(refused(&mut block, 0, LOAD, 0), 12);
            assert_eq!(refused(&mut block, 16, 4, 0), 12);
            assert_eq!(fresh(&mut block, 1, 4, 0), 0);
            assert_eq!(block, made(1, 4, 0));
        }
    }
}

/// "An answer of a wrong length is not written", and the step is not done; 1 comes before it, and 3 after it.
#[test]
fn answer_lengths() {
    for bytes in [0, 1, 8, 31, 33, 64] {
        for (place, byte, domain, number) in [(2, 4, 0, 12), (2, 4, 16, 12), (2, 5, 0, 1), (7, 1, 0, 12)] {
            let mut block = made(1, 4, 0);
            block[place] = byte;
            let (before, mut answer) = (block.clone(), vec![0xa5; bytes]);
            assert_eq!(step(&mut block, domain, POLICY, maps(1, 1), &mut answer), number, "{bytes} bytes");
            assert_eq!((block, answer), (before, vec![0xa5; bytes]));
        }
    }
    let (mut block, mut answer) = (made(1, 4, 0), [0xa5; 32]);
    assert_eq!(step(&mut block, 0, POLICY, maps(1, 1), &mut answer), 0);
    assert_eq!(answer[..9], [6, 0, 0, 0, 0, 0, 0, 0, 0]);
    assert_eq!(step(&mut block[..7], 0, POLICY, maps(1, 1), &mut answer[..31]), 12);
    assert_eq!(step(&mut [], 0, POLICY, maps(1, 1), &mut []), 12);
    assert_eq!(answer[..9], [6, 0, 0, 0, 0, 0, 0, 0, 0]);
}

/// 3 before 4, whichever kind; and "every other kind is 4": core kinds, quotes and commits, and numbers above a byte.
#[test]
fn domains_and_kinds() {
    let mut block = made(1, 4, 0);
    for domain in [16, 17, 255, 256, 257, 1 << 32, u64::MAX] {
        for kind in [LOAD, POLICY, 4, 272, u64::MAX] {
            assert_eq!(refused(&mut block, domain, kind, u64::MAX), 3, "domain {domain}, kind {kind}");
        }
    }
    for kind in (4..16).chain(17..=272).chain([1 << 16 | 1, 1 << 32, 1 << 32 | 16, u64::MAX]) {
        assert_eq!(refused(&mut block, 15, kind, 0), 4, "kind {kind}");
    }
}

/// 5 to 9, and that the lowest is given.
#[test]
fn from_the_state() {
    let mut block = made(1, 4, 0);
    for argument in [maps(16, 0), maps(1, 2), maps(0, 1), maps(0x8001, 1), 1 << 32, maps(1, 1) | 1 << 63] {
        assert_eq!(refused(&mut block, 0, POLICY, argument), 5, "{argument:#x}");
    }
    assert_eq!(refused(&mut block, 0, LOAD, u64::MAX), 6);
    assert_eq!(done(&mut block, 0, POLICY, maps(0b0101, 0b0101)).0, 0);
    assert_eq!(refused(&mut block, 1, POLICY, maps(0b0100, 0)), 8);
    assert_eq!(refused(&mut block, 1, POLICY, maps(0b1010, 0b1010)), 9);
    assert_eq!(refused(&mut block, 1, POLICY, maps(0b1110, 0b1010)), 8, "8 before 9");
    assert_eq!(done(&mut block, 1, POLICY, maps(0b1010, 0b0010)).0, 0);
}

/// 7 of every count, for an access and a flush; 6 before it.
#[test]
fn full_counts() {
    for count in 0..7 {
        let mut block = made(1, 4, 0);
        assert_eq!(done(&mut block, 2, POLICY, maps(3, 0)).0, 0);
        let place = 72 + 2 * 28 + 4 * count;
        block[place..place + 4].copy_from_slice(&[0xff; 4]);
        for kind in [FETCH, LOAD, STORE, FLUSH] {
            assert_eq!(refused(&mut block, 2, kind, 0), 7, "count {count}, kind {kind}");
        }
        block[12] = 0xf0;
        assert_eq!(refused(&mut block, 2, LOAD, 0), 6, "ways of W or more are not there");
    }
}

/// 7 of a policy change "whose drops would carry dropped past the largest count"; a removal is none. 8 comes after it.
#[test]
fn full_drops() {
    let mut block = made(1, 4, 1);
    assert_eq!(done(&mut block, 2, POLICY, maps(3, 3)).0, 0);
    assert_eq!((done(&mut block, 2, LOAD, 0).0, done(&mut block, 2, LOAD, 64).0), (0, 0));
    let dropped = 72 + 2 * 28 + 24;
    block[dropped..dropped + 4].copy_from_slice(&[0xfe, 0xff, 0xff, 0xff]);
    assert_eq!(done(&mut block, 1, POLICY, maps(8, 8)).0, 0);
    assert_eq!(refused(&mut block, 2, POLICY, maps(4, 4)), 7);
    assert_eq!(refused(&mut block, 2, POLICY, maps(12, 12)), 7, "7 before 8");
    assert_eq!(refused(&mut block, 2, POLICY, maps(9, 9)), 8, "one drop fits");
    let mut removed = block.clone();
    assert_eq!(done(&mut removed, 2, POLICY, 0), (0, [6, 2, 0, 0]));
    assert_eq!(done(&mut block, 2, POLICY, maps(1, 1)), (0, [6, 1, 0, 0]));
    assert_eq!(block[dropped..dropped + 4], [0xff; 4]);
}
