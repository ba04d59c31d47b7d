/*
 * Does the steps of a file on a block in C, and writes their listing. tools/count-block builds it, and runs it under
 * callgrind.
 *
 *     count_block [N] < FILE
 *
 * The file has the form of a trace file, but up to 4,096 sets and 65,538 steps. The block is made fresh N times, once
 * if no N is given, and then the steps are done. The listing is the one that target/bin/slices writes of the file,
 * which makes the same steps by calls of cache::step. The exit status is 0, or 3 for a file that has not the form.
 */

#include <inttypes.h>
#include <stdio.h>
#include <stdlib.h>

#include "dipperlock.h"

enum { HEADER = 8, CODE = 2, ARGUMENT = 8, MOST_STEPS = 65538, DOMAINS = 16, COUNTS = 7 };

static uint8_t file[HEADER + (CODE + ARGUMENT) * MOST_STEPS + 1];

struct cache {
    uint8_t *block;
    size_t bytes;
};

/* Ends with status 3. */
static void fail(const char *what) {
    fprintf(stderr, "count_block: %s\n", what);
    exit(3);
}

/* A block of the file's geometry, made fresh so many times. */
static struct cache open_cache(unsigned long times) {
    uint64_t sets = dipperlock_read(file, 2);
    struct cache cache = {NULL, DIPPERLOCK_BLOCK_BYTES(sets, file[2])};
    cache.block = malloc(cache.bytes);
    if (cache.block == NULL)
        fail("no memory");
    for (unsigned long i = 0; i < times; i++) {
        if (dipperlock_fresh(cache.block, cache.bytes, sets, file[2], file[3]) != 0)
            fail("no geometry of the model");
    }
    return cache;
}

/* Does step i of n, and writes its line. */
static void take(struct cache cache, size_t n, size_t i) {
    const uint8_t *code = file + HEADER + CODE * i;
    uint64_t argument = dipperlock_read(file + HEADER + CODE * n + ARGUMENT * i, ARGUMENT);
    uint8_t answer[DIPPERLOCK_ANSWER_BYTES];
    dipperlock_step(cache.block, cache.bytes, code[0], code[1], argument, answer, sizeof answer);
    uint64_t word = dipperlock_field(answer, 0);
    printf("%zu %s", i, dipperlock_word_name(word));
    for (size_t field = 1; field <= dipperlock_word_fields(word); field++)
        printf(" %" PRIu64, dipperlock_field(answer, field));
    printf("\n");
}

/* Writes the line of a domain that has ways. */
static void show_domain(const uint8_t *block, size_t domain) {
    if (dipperlock_hit_map(block, domain) == 0)
        return;
    printf("domain %zu", domain);
    for (size_t which = 0; which < COUNTS; which++)
        printf(" %" PRIu32, dipperlock_count(block, domain, which));
    printf("\n");
}

int main(int argc, char **argv) {
    size_t length = fread(file, 1, sizeof file, stdin);
    size_t n = (size_t)dipperlock_read(file + 4, 4);
    if (length < HEADER || n > MOST_STEPS || length != HEADER + (CODE + ARGUMENT) * n)
        fail("standard input has not the form of a trace file");
    struct cache cache = open_cache(argc > 1 ? strtoul(argv[1], NULL, 10) : 1);
    printf("%" PRIu64 " %d %d %zu\n", dipperlock_read(file, 2), file[2], file[3], n);
    for (size_t i = 0; i < n; i++)
        take(cache, n, i);
    for (size_t domain = 0; domain < DOMAINS; domain++)
        show_domain(cache.block, domain);
    free(cache.block);
    return 0;
}
