/* Case A of the specification, through the block: prints its listing, as ./dipperlock list examples/case-a.txt does.
 *
 *     tools/clib
 *     export PKG_CONFIG_PATH=target/c/lib/pkgconfig
 *     cc -std=c99 examples/c/case_a.c $(pkg-config --cflags --libs dipperlock) -o case_a && ./case_a
 */
#include <dipperlock.h>
#include <inttypes.h>
#include <stdio.h>

enum { SETS = 1, WAYS = 4, RULE = DIPPERLOCK_TREE_PLRU, STEPS = 9 };

static uint8_t block[DIPPERLOCK_BLOCK_BYTES(SETS, WAYS)];

static void step(int place, uint64_t domain, uint64_t kind, uint64_t argument) {
    uint8_t answer[DIPPERLOCK_ANSWER_BYTES];
    dipperlock_step(block, sizeof block, domain, kind, argument, answer, sizeof answer);
    uint64_t word = dipperlock_field(answer, 0);
    printf("%d %s", place, dipperlock_word_name(word));
    for (size_t i = 1; i <= dipperlock_word_fields(word); i++) printf(" %" PRIu64, dipperlock_field(answer, i));
    printf("\n");
}

int main(void) {
    if (dipperlock_fresh(block, sizeof block, SETS, WAYS, RULE) != 0) return 1;
    printf("%d %d %d %d\n", SETS, WAYS, RULE, STEPS);
    step(0, 0, DIPPERLOCK_POLICY, dipperlock_maps(0x3, 0x3));
    step(1, 1, DIPPERLOCK_POLICY, dipperlock_maps(0xc, 0xc));
    step(2, 0, DIPPERLOCK_STORE, 0x0);
    step(3, 0, DIPPERLOCK_LOAD, 0x40);
    step(4, 1, DIPPERLOCK_LOAD, 0x0); /* domain 0 holds this line, in way 1: domain 1 does not hit there */
    step(5, 0, DIPPERLOCK_LOAD, 0x80);
    step(6, 0, DIPPERLOCK_FLUSH, 0x40);
    step(7, 2, DIPPERLOCK_LOAD, 0x0); /* domain 2 has no ways */
    step(8, 0, DIPPERLOCK_LOAD, 0x80);
    for (size_t domain = 0; domain < 16; domain++) {
        if (dipperlock_hit_map(block, domain) == 0) continue;
        printf("domain %zu", domain);
        for (size_t i = DIPPERLOCK_HITS; i <= DIPPERLOCK_DROPPED; i++)
            printf(" %" PRIu32, dipperlock_count(block, domain, i));
        printf("\n");
    }
    return 0;
}
