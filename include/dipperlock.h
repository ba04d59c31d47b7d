/*
 * NAME
 *
 *     dipperlock.h - a proved model of one partitioned set-associative cache, in one lent block of bytes
 *
 * SYNOPSIS
 *
 *     #include <dipperlock.h>
 *
 *     uint64_t dipperlock_fresh(uint8_t *block, size_t block_bytes, uint64_t sets, uint64_t ways, uint64_t rule);
 *     uint64_t dipperlock_step(uint8_t *block, size_t block_bytes, uint64_t domain, uint64_t kind, uint64_t argument,
 *                              uint8_t *answer, size_t answer_bytes);
 *
 *     cc -std=c99 bench.c $(pkg-config --cflags --libs dipperlock)
 *
 * DESCRIPTION
 *
 *     The caller lends a block of DIPPERLOCK_BLOCK_BYTES(sets, ways) bytes. dipperlock_fresh makes it a fresh cache,
 *     and each dipperlock_step does one step on it and fills an answer of DIPPERLOCK_ANSWER_BYTES bytes. These two are
 *     all that the library exports for a caller; what else stands below is read from the bytes, here in the header.
 *
 *     dipperlock_fresh makes a fresh cache of the given sets, ways and rule: all bytes are zero but the head and the
 *     replacement words, in which under NRU the low W bits are one, and under true LRU place k holds way W - 1 - k.
 *     What the block held before does not matter.
 *
 *     dipperlock_step does one step by a domain, 0 to 15. Its kind says what it is:
 *
 *         DIPPERLOCK_FETCH    0   an instruction fetch from the address that is the argument
 *         DIPPERLOCK_LOAD     1   a load
 *         DIPPERLOCK_STORE    2   a store
 *         DIPPERLOCK_FLUSH    3   the line of the address, if the domain holds it, is made invalid
 *         DIPPERLOCK_POLICY  16   the domain gets new maps; the argument is dipperlock_maps(hit map, fill map)
 *
 *     Lines have 64 bytes: line = address / 64, set = line mod S, tag = line / S. A map has bit w for way w.
 *
 *     The numbers are 64 bits wide so that C cuts none: 65,537 sets are refused by 1, domain 256 by 3, kind 272 by 4.
 *
 * RETURN VALUE
 *
 *     Both calls return 0, or the number of the refusal. A refused call leaves the block as it is.
 *
 *          1  DIPPERLOCK_BAD_GEOMETRY  sets that are no power of two from 1 to 4,096, ways other than 2, 4, 8 and 16,
 *                                      or a rule above 2; at a step, those in the head of the block
 *         12  DIPPERLOCK_BAD_BLOCK     a block under 8 bytes or not of its length; at a step also an answer that does
 *                                      not have 32 bytes, or a byte from 4 to 7 of the block that is not zero
 *
 *     and dipperlock_step also
 *
 *          3  DIPPERLOCK_BAD_DOMAIN    domain 16 or more
 *          4  DIPPERLOCK_BAD_KIND      any kind but the five above
 *          5  DIPPERLOCK_BAD_MAPS      policy: a way of W or more, a fill map that is not part of the hit map, or an
 *                                      argument of 2 to the power 32 or more
 *          6  DIPPERLOCK_NO_WAYS       access or flush: the domain's hit map is empty
 *          7  DIPPERLOCK_COUNT_FULL    access or flush: a count of the domain is 4,294,967,295; policy, other than a
 *                                      removal: its drops would carry the count of dropped lines past that
 *          8  DIPPERLOCK_SHARED_WAY    policy: the hit map shares a way with another domain's
 *          9  DIPPERLOCK_SHARED_NODE   policy under Tree-PLRU: a tree node is free for it and for another domain
 *
 *     If several hold, a block under 8 bytes is 12 before all else; then the order is 1, 12, 3, 4, 5, 6, 7, 8, 9.
 *
 * THE ANSWER
 *
 *     Four numbers of 8 bytes, little-endian: a word and three fields. dipperlock_field reads them. Fields that a word
 *     does not have are zero.
 *
 *         DIPPERLOCK_HIT      0  way              the line was there
 *         DIPPERLOCK_FILL     1  way              a miss; the highest invalid way of the fill map was filled
 *         DIPPERLOCK_EVICT    2  way, tag, dirty  a miss; this way was filled, and these were its line's tag and mark
 *         DIPPERLOCK_PASS     3                   a miss of a domain with an empty fill map: nothing was filled
 *         DIPPERLOCK_FLUSHED  4  way, dirty       the line was made invalid; whether it was dirty
 *         DIPPERLOCK_ABSENT   5                   a flush found no line
 *         DIPPERLOCK_CHANGED  6  dropped, dirty   policy accepted; the valid lines dropped, how many were dirty
 *         DIPPERLOCK_REFUSED  7  number           the number that is returned too
 *
 *     An answer of 32 bytes is filled by every call, whatever the number. An answer of another length is not written.
 *
 * THE BLOCK
 *
 *     All little-endian and without gaps, from byte 0; S is the sets and W the ways:
 *
 *         0            sets (2 bytes), ways (1), rule (1), four zero bytes
 *         8            16 hit maps of 2 bytes, of domains 0 to 15
 *         40           16 fill maps of 2 bytes
 *         72           16 records of seven 4-byte counts: hits, misses, evicted, written back, flushed, fills, dropped
 *         520          valid, S maps of 2 bytes
 *         520 + 2 S    dirty, S maps of 2 bytes
 *         520 + 4 S    replacement, S words of 8 bytes
 *         520 + 12 S   tags, S x W words of 8 bytes, the W tags of a set side by side
 *
 *     From byte 8 on a block may hold any bytes: a testbench may write maps, counts and tables as it likes. Stored
 *     maps are read with ways of W or more left out and the fill map cut to the hit map. A block is a value: copy it
 *     with memcpy to go back to it later, compare two with memcmp, write it to a file.
 *
 * NOTES
 *
 *     No alignment is needed, of block or answer. They must not overlap. One of no bytes may have a null pointer.
 *
 *     The library keeps no state but the block. Calls on different blocks and answers may run at the same time; those
 *     on one block must take turns.
 *
 *     Valgrind's memcheck may tell "Use of uninitialised value of size 8" of a policy change under true LRU that keeps
 *     the fill map: a value is worked out ahead and not used. No byte of block or answer depends on it, nor the number
 *     returned. valgrind --suppressions=PREFIX/share/dipperlock/dipperlock.supp holds that one report back.
 *
 * EXAMPLE
 *
 *     uint8_t block[DIPPERLOCK_BLOCK_BYTES(1, 4)], answer[DIPPERLOCK_ANSWER_BYTES];
 *
 *     dipperlock_fresh(block, sizeof block, 1, 4, DIPPERLOCK_TREE_PLRU);
 *     dipperlock_step(block, sizeof block, 0, DIPPERLOCK_POLICY, dipperlock_maps(0x3, 0x3), answer, sizeof answer);
 *     dipperlock_step(block, sizeof block, 0, DIPPERLOCK_STORE, 0x40, answer, sizeof answer);
 *     printf("%s %d\n", dipperlock_word_name(dipperlock_field(answer, 0)), (int)dipperlock_field(answer, 1));
 *
 *     prints "fill 1".
 */

#ifndef DIPPERLOCK_H
#define DIPPERLOCK_H

#include <stddef.h>
#include <stdint.h>

#ifdef __cplusplus
extern "C" {
#endif

/* The length of a block. It is a constant where its arguments are. */
#define DIPPERLOCK_BLOCK_BYTES(sets, ways) ((size_t)520 + (size_t)(sets) * ((size_t)12 + (size_t)8 * (size_t)(ways)))

/* The length of an answer. */
#define DIPPERLOCK_ANSWER_BYTES 32

enum dipperlock_rule { DIPPERLOCK_TREE_PLRU = 0, DIPPERLOCK_NRU = 1, DIPPERLOCK_LRU = 2 };

enum dipperlock_kind {
    DIPPERLOCK_FETCH = 0,
    DIPPERLOCK_LOAD = 1,
    DIPPERLOCK_STORE = 2,
    DIPPERLOCK_FLUSH = 3,
    DIPPERLOCK_POLICY = 16
};

enum dipperlock_word {
    DIPPERLOCK_HIT = 0,
    DIPPERLOCK_FILL = 1,
    DIPPERLOCK_EVICT = 2,
    DIPPERLOCK_PASS = 3,
    DIPPERLOCK_FLUSHED = 4,
    DIPPERLOCK_ABSENT = 5,
    DIPPERLOCK_CHANGED = 6,
    DIPPERLOCK_REFUSED = 7
};

enum dipperlock_refusal {
    DIPPERLOCK_BAD_GEOMETRY = 1,
    DIPPERLOCK_BAD_DOMAIN = 3,
    DIPPERLOCK_BAD_KIND = 4,
    DIPPERLOCK_BAD_MAPS = 5,
    DIPPERLOCK_NO_WAYS = 6,
    DIPPERLOCK_COUNT_FULL = 7,
    DIPPERLOCK_SHARED_WAY = 8,
    DIPPERLOCK_SHARED_NODE = 9,
    DIPPERLOCK_BAD_BLOCK = 12
};

/* The counts of a domain, in their order in the block and on the domain line of a listing. */
enum dipperlock_which_count {
    DIPPERLOCK_HITS = 0,
    DIPPERLOCK_MISSES = 1,
    DIPPERLOCK_EVICTED = 2,
    DIPPERLOCK_WRITTEN_BACK = 3,
    DIPPERLOCK_LINES_FLUSHED = 4,
    DIPPERLOCK_FILLS = 5,
    DIPPERLOCK_DROPPED = 6
};

/* Makes a fresh block. */
uint64_t dipperlock_fresh(uint8_t *block, size_t block_bytes, uint64_t sets, uint64_t ways, uint64_t rule);

/* Does one step on a block. */
uint64_t dipperlock_step(uint8_t *block, size_t block_bytes, uint64_t domain, uint64_t kind, uint64_t argument,
                         uint8_t *answer, size_t answer_bytes);

/* The argument of a policy change. A map above 16 bits is not cut: the argument is then one that is refused by 5. */
static inline uint64_t dipperlock_maps(uint64_t hit_map, uint64_t fill_map) {
    return (hit_map | fill_map) >> 16 == 0 ? hit_map | fill_map << 16 : UINT64_MAX;
}

/* The number in some bytes, lowest byte first, whatever the order of the machine. */
static inline uint64_t dipperlock_read(const uint8_t *from, size_t bytes) {
    uint64_t number = 0;
    while (bytes > 0) {
        bytes -= 1;
        number = number << 8 | from[bytes];
    }
    return number;
}

/* The word (i = 0) of an answer, or a field of it (i = 1 to 3). */
static inline uint64_t dipperlock_field(const uint8_t *answer, size_t i) {
    return dipperlock_read(answer + 8 * i, 8);
}

/* How many fields a word has. */
static inline size_t dipperlock_word_fields(uint64_t word) {
    switch (word) {
    case DIPPERLOCK_HIT:
    case DIPPERLOCK_FILL:
    case DIPPERLOCK_REFUSED:
        return 1;
    case DIPPERLOCK_FLUSHED:
    case DIPPERLOCK_CHANGED:
        return 2;
    case DIPPERLOCK_EVICT:
        return 3;
    default:
        return 0;
    }
}

/* A word as a listing prints it, or "?" for a number that is no word. */
static inline const char *dipperlock_word_name(uint64_t word) {
    switch (word) {
    case DIPPERLOCK_HIT:
        return "hit";
    case DIPPERLOCK_FILL:
        return "fill";
    case DIPPERLOCK_EVICT:
        return "evict";
    case DIPPERLOCK_PASS:
        return "pass";
    case DIPPERLOCK_FLUSHED:
        return "flush";
    case DIPPERLOCK_ABSENT:
        return "absent";
    case DIPPERLOCK_CHANGED:
        return "policy";
    case DIPPERLOCK_REFUSED:
        return "refused";
    default:
        return "?";
    }
}

/* The hit map of a domain, 0 to 15, as it is stored in a block. */
static inline uint16_t dipperlock_hit_map(const uint8_t *block, size_t domain) {
    return (uint16_t)dipperlock_read(block + 8 + 2 * domain, 2);
}

/* The fill map of a domain, as it is stored. */
static inline uint16_t dipperlock_fill_map(const uint8_t *block, size_t domain) {
    return (uint16_t)dipperlock_read(block + 40 + 2 * domain, 2);
}

/* A count of a domain: DIPPERLOCK_HITS to DIPPERLOCK_DROPPED. */
static inline uint32_t dipperlock_count(const uint8_t *block, size_t domain, size_t which) {
    return (uint32_t)dipperlock_read(block + 72 + 28 * domain + 4 * which, 4);
}

#ifdef __cplusplus
}
#endif

#endif
