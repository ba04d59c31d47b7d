/* The header alone: it may be included twice, is clean in C and in C++, and its readers read the bytes that it says.
 * No library is needed. Ends with status 0, or names the line that fails. */
#include <dipperlock.h>
#include <dipperlock.h>

#include <stdio.h>
#include <string.h>

static int failures = 0;

#define CHECK(stands)                                                  \
    do {                                                               \
        if (!(stands)) {                                               \
            printf("%s:%d: %s\n", __FILE__, __LINE__, #stands);        \
            failures += 1;                                             \
        }                                                              \
    } while (0)

/* Constants where their arguments are: they can be the length of an array. */
static uint8_t smallest[DIPPERLOCK_BLOCK_BYTES(1, 2)];
static uint8_t answer[DIPPERLOCK_ANSWER_BYTES];

static void lengths(void) {
    unsigned char sets = 255;
    CHECK(sizeof smallest == 548);
    CHECK(sizeof answer == 32);
    CHECK(DIPPERLOCK_BLOCK_BYTES(1, 4) == 564);
    CHECK(DIPPERLOCK_BLOCK_BYTES(4096, 16) == 573960);
    CHECK(DIPPERLOCK_BLOCK_BYTES(sets + 1, 2 + 6) == 19976);
}

static void words(void) {
    static const char *const names[] = {"hit", "fill", "evict", "pass", "flush", "absent", "policy", "refused", "?"};
    static const size_t fields[] = {1, 1, 3, 0, 2, 0, 2, 1, 0};
    for (uint64_t word = 0; word <= 8; word++) {
        CHECK(strcmp(dipperlock_word_name(word), names[word]) == 0);
        CHECK(dipperlock_word_fields(word) == fields[word]);
    }
    CHECK(strcmp(dipperlock_word_name(UINT64_C(1) << 32), "?") == 0);
    CHECK(dipperlock_word_fields(UINT64_MAX) == 0);
}

static void readers(void) {
    for (size_t i = 0; i < sizeof answer; i++) answer[i] = (uint8_t)(i + 0x81);
    CHECK(dipperlock_field(answer, 0) == UINT64_C(0x8887868584838281));
    CHECK(dipperlock_field(answer, 3) == UINT64_C(0xa09f9e9d9c9b9a99));
    for (size_t i = 0; i < sizeof smallest; i++) smallest[i] = (uint8_t)(i % 251);
    CHECK(dipperlock_hit_map(smallest, 0) == 0x0908 && dipperlock_hit_map(smallest, 15) == 0x2726);
    CHECK(dipperlock_fill_map(smallest, 0) == 0x2928 && dipperlock_fill_map(smallest, 15) == 0x4746);
    CHECK(dipperlock_count(smallest, 0, DIPPERLOCK_HITS) == UINT32_C(0x4b4a4948));
    CHECK(dipperlock_count(smallest, 1, DIPPERLOCK_DROPPED) == UINT32_C(0x7f7e7d7c));
    CHECK(dipperlock_count(smallest, 15, DIPPERLOCK_DROPPED) == UINT32_C(0x11100f0e));
}

static void maps(void) {
    CHECK(dipperlock_maps(0, 0) == 0);
    CHECK(dipperlock_maps(0x1234, 0x5678) == 0x56781234);
    CHECK(dipperlock_maps(0xffff, 0xffff) == 0xffffffff);
    CHECK(dipperlock_maps(0x10000, 0) >> 32 != 0);
    CHECK(dipperlock_maps(0, UINT64_C(1) << 48) >> 32 != 0);
}

int main(void) {
    lengths();
    words();
    readers();
    maps();
    return failures == 0 ? 0 : 1;
}
