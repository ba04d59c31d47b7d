/* Random, damaged and short blocks, answers of every length from 0 to 64, and numbers at and beyond their limits.
 *
 *     damage [CALLS [SEED]]
 *
 * Of every call it is checked that nothing beside the lent bytes moved; that a refused call left the block as it was;
 * that an answer of another length than 32 is untouched, and one of 32 is filled, agrees with the number returned and
 * has zero in its unused fields; that the numbers 1, 12, 3 and 4 are given where they must be, in this order, and
 * nowhere else; that a fresh block is one; and that a step left the head and the other domains' maps and counts. What
 * a step answers, and what it does to its own domain and the tables, is for tests/block to compare.
 *
 * After every call the block and the answer are written to /dev/null. That is for memcheck, which tells of a byte given
 * to the kernel that is not initialised; without it nothing comes of it.
 *
 * Draws are made one to a statement where their order counts, so that a seed means the same with every compiler. */
#define _DEFAULT_SOURCE
#include <dipperlock.h>

#include <fcntl.h>
#include <inttypes.h>

#include "lent.h"

enum { MOST_SETS = 4096, MOST_WAYS = 16, MOST_ANSWER = 64, LONGER = 64, NUMBERS = 13, WORDS = 8, RUN = 64 };

static uint64_t state;
static uint64_t calls, wanted, fresh_numbers[NUMBERS], step_numbers[NUMBERS], step_words[WORDS];
static uint8_t *before; /* the block as it was lent */
static int nowhere;     /* /dev/null */

/* A number from 0 to below `limit`: splitmix64. */
static uint64_t below(uint64_t limit) {
    uint64_t z = state += UINT64_C(0x9e3779b97f4a7c15);
    z = (z ^ z >> 30) * UINT64_C(0xbf58476d1ce4e5b9);
    z = (z ^ z >> 27) * UINT64_C(0x94d049bb133111eb);
    return (z ^ z >> 31) % limit;
}

static uint64_t any(void) {
    uint64_t high = below(UINT64_C(1) << 32);
    return high << 32 | below(UINT64_C(1) << 32);
}

static void need(int stands, const char *what) {
    if (stands) return;
    printf("call %" PRIu64 ": %s\n", calls, what);
    exit(1);
}

/* A number that is outside some limit, or just inside it. */
static uint64_t odd_number(void) {
    static const uint64_t limits[] = {0,    2,    4,     15,    16,    32,                40,
                                      128,  255,  256,   257,   272,   UINT64_C(1) << 32, UINT64_C(1) << 48,
                                      4096, 8192, 65535, 65536, 65537, UINT64_C(1) << 63};
    uint64_t limit = limits[below(sizeof limits / sizeof limits[0])];
    return below(4) == 0 ? any() : limit + below(3) - 1;
}

static int within_limits(uint64_t sets, uint64_t ways, uint64_t rule) {
    return sets >= 1 && sets <= MOST_SETS && (sets & (sets - 1)) == 0 &&
           (ways == 2 || ways == 4 || ways == 8 || ways == 16) && rule <= 2;
}

/* The number that a block's head and length give, or 0. */
static uint64_t number_of_block(const struct lent *block, uint64_t sets, uint64_t ways, uint64_t rule) {
    if (block->length < 8) return DIPPERLOCK_BAD_BLOCK;
    if (!within_limits(sets, ways, rule)) return DIPPERLOCK_BAD_GEOMETRY;
    return block->length == DIPPERLOCK_BLOCK_BYTES(sets, ways) ? 0 : DIPPERLOCK_BAD_BLOCK;
}

/* The number that a step must be refused by before its domain's state is looked at, or 0. */
static uint64_t number_of_step(const struct lent *block, uint64_t domain, uint64_t kind, size_t answer_bytes) {
    const uint8_t *head = block->bytes;
    if (block->length < 8) return DIPPERLOCK_BAD_BLOCK;
    uint64_t number = number_of_block(block, (uint64_t)(head[0] + 256 * head[1]), head[2], head[3]);
    if (number != 0) return number;
    if (answer_bytes != DIPPERLOCK_ANSWER_BYTES || (head[4] | head[5] | head[6] | head[7]) != 0)
        return DIPPERLOCK_BAD_BLOCK;
    if (domain > 15) return DIPPERLOCK_BAD_DOMAIN;
    return kind <= 3 || kind == 16 ? 0 : DIPPERLOCK_BAD_KIND;
}

static int same(const uint8_t *one, const uint8_t *other, size_t length) {
    return length == 0 || memcmp(one, other, length) == 0;
}

static void remember(const struct lent *block) {
    if (block->length != 0) memcpy(before, block->bytes, block->length);
}

/* Hands all bytes to the kernel, so that memcheck looks whether each is initialised. */
static void show_to_memcheck(const struct lent *lent) {
    if (lent->length == 0) return;
    need(write(nowhere, lent->bytes, lent->length) == (ssize_t)lent->length, "/dev/null took less");
}

/* A fresh block to the byte. */
static void check_fresh(const uint8_t *block, size_t sets, size_t ways, size_t rule) {
    uint64_t order = 0;
    for (size_t place = 0; place < ways; place++) order |= (uint64_t)(ways - 1 - place) << 4 * place;
    uint64_t word = rule == DIPPERLOCK_TREE_PLRU ? 0 : rule == DIPPERLOCK_NRU ? (UINT64_C(1) << ways) - 1 : order;
    size_t words = 520 + 4 * sets, tags = 520 + 12 * sets;
    need(dipperlock_read(block, 8) == (sets | ways << 16 | rule << 24), "the head of a fresh block");
    for (size_t i = 8; i < words; i++) need(block[i] == 0, "a byte of a fresh block before the replacement words");
    for (size_t i = words; i < tags; i += 8) need(dipperlock_read(block + i, 8) == word, "a fresh replacement word");
    for (size_t i = tags; i < tags + 8 * sets * ways; i++) need(block[i] == 0, "a tag of a fresh block");
}

static void call_fresh(struct lent *block, uint64_t sets, uint64_t ways, uint64_t rule) {
    uint64_t must = number_of_block(block, sets, ways, rule);
    remember(block);
    uint64_t number = dipperlock_fresh(block->bytes, block->length, sets, ways, rule);
    calls += 1;
    need(number == must, "the number of a fresh call");
    need(!surroundings_moved(block), "bytes beside the block moved");
    show_to_memcheck(block);
    if (number == 0) check_fresh(block->bytes, (size_t)sets, (size_t)ways, (size_t)rule);
    else need(same(block->bytes, before, block->length), "a refused fresh call moved the block");
    fresh_numbers[number] += 1;
}

/* What a step that was not refused may answer, and what it may not have moved. */
static void check_done(const struct lent *block, const uint8_t *answer, uint64_t domain, uint64_t kind) {
    const uint8_t *now = block->bytes;
    uint64_t word = dipperlock_field(answer, 0), first = dipperlock_field(answer, 1), ways = now[2];
    uint64_t lines = dipperlock_read(now, 2) * ways;
    if (kind == DIPPERLOCK_POLICY) need(word == DIPPERLOCK_CHANGED, "the word of a policy change");
    else if (kind == DIPPERLOCK_FLUSH) need(word == DIPPERLOCK_FLUSHED || word == DIPPERLOCK_ABSENT, "a flush's word");
    else need(word <= DIPPERLOCK_PASS, "the word of an access");
    if (word == DIPPERLOCK_CHANGED) need(first <= lines && dipperlock_field(answer, 2) <= first, "lines dropped");
    else need(first < ways, "a way");
    if (word == DIPPERLOCK_FLUSHED) need(dipperlock_field(answer, 2) <= 1, "whether a flushed line was dirty");
    if (word == DIPPERLOCK_EVICT) need(dipperlock_field(answer, 3) <= 1, "whether an evicted line was dirty");
    need(same(now, before, 8), "a step moved the head");
    for (size_t other = 0; other < 16; other++) {
        if (other == domain) continue;
        need(same(now + 8 + 2 * other, before + 8 + 2 * other, 2), "a step moved another domain's hit map");
        need(same(now + 40 + 2 * other, before + 40 + 2 * other, 2), "a step moved another domain's fill map");
        need(same(now + 72 + 28 * other, before + 72 + 28 * other, 28), "a step moved another domain's counts");
    }
}

/* The answer of a step: its length, its word and its fields, beside the number returned. */
static void check_answer(const struct lent *answer, uint64_t number) {
    if (answer->length != DIPPERLOCK_ANSWER_BYTES) {
        for (size_t i = 0; i < answer->length; i++)
            need(answer->bytes[i] == PATTERN, "an answer of another length was written");
        return;
    }
    uint64_t word = dipperlock_field(answer->bytes, 0);
    need(word < WORDS, "a word that there is not");
    need((word == DIPPERLOCK_REFUSED) == (number != 0), "word and number do not agree");
    if (number != 0) need(dipperlock_field(answer->bytes, 1) == number, "the answer has another number");
    for (size_t i = dipperlock_word_fields(word) + 1; i <= 3; i++)
        need(dipperlock_field(answer->bytes, i) == 0, "an unused field is not zero");
    step_words[word] += 1;
}

/* Whether a number is one of those that the domains' state, or the argument, can give to a step of this kind. */
static int may_refuse(uint64_t kind, uint64_t number) {
    if (kind == DIPPERLOCK_POLICY) return number == 5 || number == 7 || number == 8 || number == 9;
    return number == 6 || number == 7;
}

static void call_step(struct lent *block, struct room room, uint64_t domain, uint64_t kind, uint64_t argument) {
    size_t answer_bytes = below(4) == 0 ? (size_t)below(MOST_ANSWER + 1) : DIPPERLOCK_ANSWER_BYTES;
    struct lent answer = lend(room, answer_bytes, (enum placement)below(PLACEMENTS));
    if (answer_bytes != 0) memset(answer.bytes, PATTERN, answer_bytes);
    uint64_t must = number_of_step(block, domain, kind, answer_bytes);
    remember(block);
    uint64_t number =
        dipperlock_step(block->bytes, block->length, domain, kind, argument, answer.bytes, answer.length);
    calls += 1;
    if (must != 0) need(number == must, "the number of a step");
    else need(number == 0 || may_refuse(kind, number), "the number of a step whose block and kind stand");
    need(!surroundings_moved(block), "bytes beside the block moved");
    need(!surroundings_moved(&answer), "bytes beside the answer moved");
    show_to_memcheck(block);
    show_to_memcheck(&answer);
    check_answer(&answer, number);
    if (number == 0) check_done(block, answer.bytes, domain, kind);
    else need(same(block->bytes, before, block->length), "a refused step moved the block");
    step_numbers[number] += 1;
    give_back(&answer);
}

/* A policy change: mostly of a few ways, and mostly with a fill map that is part of the hit map. */
static uint64_t random_maps(void) {
    uint64_t hit_map = any() & any();
    hit_map &= below(4) == 0 ? 0xffff : below(2) == 0 ? 0xff : 0xf;
    return dipperlock_maps(hit_map, below(8) == 0 ? any() & 0xffff : hit_map & (any() | any()));
}

/* A step that mostly stands, of few domains and few lines, so that they meet again. */
static void random_step(struct lent *block, struct room room) {
    static const uint64_t kinds[] = {DIPPERLOCK_FETCH, DIPPERLOCK_LOAD,  DIPPERLOCK_STORE, DIPPERLOCK_LOAD,
                                     DIPPERLOCK_STORE, DIPPERLOCK_FLUSH, DIPPERLOCK_FLUSH, DIPPERLOCK_POLICY};
    uint64_t domain = below(16) == 0 ? odd_number() : below(below(8) == 0 ? 16 : 3);
    uint64_t kind = below(16) == 0 ? odd_number() : kinds[below(8)];
    uint64_t argument = below(16) == 0 ? any() : 32 * below(48);
    if (kind == DIPPERLOCK_POLICY && below(16) != 0) argument = random_maps();
    call_step(block, room, domain, kind, argument);
}

/* Damage behind the head: maps, a count that is full or close to it, everything, or a few bytes. */
static void damage(struct lent *block) {
    uint8_t *bytes = block->bytes;
    size_t length = block->length;
    if (length < 520) return;
    switch (below(6)) {
    case 0:
        for (size_t i = 8; i < 72; i++) bytes[i] = (uint8_t)any();
        break;
    case 1: {
        uint8_t *count = bytes + 72 + 4 * below(112);
        memset(count, 0xff, 4);
        count[0] -= (uint8_t)below(3);
        break;
    }
    case 2:
        for (size_t i = 8; i < length; i++) bytes[i] = (uint8_t)any();
        break;
    default:
        for (uint64_t many = below(16); many > 0; many--) {
            uint8_t *place = bytes + 8 + below(length - 8);
            *place = (uint8_t)any();
        }
    }
}

/* A step on a block whose head is damaged, or is another one that stands, and is then put back. */
static void step_with_another_head(struct lent *block, struct room answer_room) {
    uint8_t head[8];
    if (block->length < 8) return;
    memcpy(head, block->bytes, 8);
    uint8_t *place = block->bytes + below(8);
    switch (below(3)) {
    case 0:
        *place = (uint8_t)odd_number();
        break;
    case 1:
        block->bytes[2] = (uint8_t)(2 << below(4));
        break;
    default:
        *place ^= (uint8_t)(1 << below(8));
    }
    random_step(block, answer_room);
    memcpy(block->bytes, head, 8);
}

/* The length of a block that is lent: mostly its own, else one that is not. */
static size_t some_length(size_t own) {
    switch (below(12)) {
    case 0:
        return (size_t)below(16);
    case 1:
        return (size_t)below(own + 1);
    case 2:
        return own + 1 + (size_t)below(LONGER);
    case 3:
        return own - 1 - (size_t)below(8);
    default:
        return own;
    }
}

/* Calls that make a block fresh, some of them refused. */
static void make_fresh(struct lent *block, uint64_t sets, uint64_t ways, uint64_t rule) {
    if (below(4) == 0) call_fresh(block, odd_number(), ways, rule);
    if (below(4) == 0) call_fresh(block, sets, odd_number(), rule);
    if (below(4) == 0) call_fresh(block, sets, ways, odd_number());
    call_fresh(block, sets, ways, rule);
}

/* One block of random bytes, made fresh or given a head alone, and some steps with damage between them. */
static void run(struct room block_room, struct room answer_room) {
    int large = below(64) == 0;
    uint64_t sets = UINT64_C(1) << below(large ? 13 : 3);
    uint64_t ways = UINT64_C(2) << below(4);
    uint64_t rule = below(3);
    size_t own = DIPPERLOCK_BLOCK_BYTES(sets, ways), length = some_length(own);
    struct lent block = lend(block_room, length, (enum placement)below(PLACEMENTS));
    for (size_t i = 0; i < length; i++) block.bytes[i] = (uint8_t)any();
    if (below(8) == 0) random_step(&block, answer_room);
    if (below(4) != 0) make_fresh(&block, sets, ways, rule);
    if (length >= 8) {
        const uint8_t head[8] = {(uint8_t)sets, (uint8_t)(sets >> 8), (uint8_t)ways, (uint8_t)rule, 0, 0, 0, 0};
        memcpy(block.bytes, head, 8);
    }
    for (uint64_t domain = 0; domain < 3; domain++) call_step(&block, answer_room, domain, 16, random_maps());
    for (uint64_t steps = below(large || length != own ? 4 : RUN); steps > 0 && calls < wanted; steps--) {
        if (below(16) == 0) damage(&block);
        if (below(16) == 0) step_with_another_head(&block, answer_room);
        random_step(&block, answer_room);
    }
    give_back(&block);
}

static void tell(const char *what, const uint64_t *met, size_t many) {
    printf("%s", what);
    for (size_t i = 0; i < many; i++)
        if (met[i] != 0) printf("  %zu: %" PRIu64, i, met[i]);
    printf("\n");
}

int main(int arguments, char **words) {
    wanted = arguments > 1 ? strtoull(words[1], NULL, 10) : 200000;
    state = arguments > 2 ? strtoull(words[2], NULL, 10) : 1;
    size_t most = DIPPERLOCK_BLOCK_BYTES(MOST_SETS, MOST_WAYS) + LONGER;
    struct room block_room = make_room(most), answer_room = make_room(MOST_ANSWER);
    before = (uint8_t *)malloc(most);
    nowhere = open("/dev/null", O_WRONLY);
    if (before == NULL || nowhere < 0) return 3;
    while (calls < wanted) run(block_room, answer_room);
    free(before);
    printf("%" PRIu64 " calls; none moved what it may not\n", calls);
    tell("fresh, by number returned: ", fresh_numbers, NUMBERS);
    tell("steps, by number returned: ", step_numbers, NUMBERS);
    tell("steps, by word answered:   ", step_words, WORDS);
    return 0;
}
