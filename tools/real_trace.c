/*
 * Feeds the data accesses of a running program to the model, at several geometries at once. tools/real-trace builds and
 * runs it.
 *
 *     valgrind --tool=lackey --trace-mem=yes --log-fd=9 PROGRAM 9>&1 >/dev/null | real_trace 64x8 256x8
 *
 * Each argument is a geometry, sets and ways. Each has a block of its own under true LRU, in which domain 0 has every
 * way in both maps. Standard input has lackey's lines. At the end this prints "accesses N" and then, for each geometry,
 * "64x8 misses N". The exit status is 0, 2 for wrong arguments, or 3 if a line or a step is not as it must be.
 *
 * Counted as cachegrind counts, so that the two can be compared:
 *  - an instruction fetch, "I", is not fed;
 *  - a load, " L", a store, " S", and a modify, " M", are one access each. Cachegrind has a modify among its reads, and
 *    not among its writes: of one /bin/true lackey (3.19) told 27,916 loads, 10,266 stores and 1,504 modifies, and
 *    cachegrind 29,420 reads and 10,266 writes. Here a modify is a store: the write behind its read always hits, so
 *    that one step has the same misses and leaves the same order;
 *  - an access that reaches into the next line is a step on each of the two, and at most one miss;
 *  - of an access longer than a line, as fxsave makes it, the first 64 bytes count.
 */

#include <inttypes.h>
#include <stdio.h>
#include <stdlib.h>
#include <string.h>

#include "dipperlock.h"

enum { LINE_BYTES = 64, MOST_GEOMETRIES = 64 };

struct cache {
    const char *name;
    uint8_t *block;
    size_t bytes;
    uint64_t misses;
};

static struct cache caches[MOST_GEOMETRIES];
static size_t cache_count;

/* Says what is wrong, and ends with status 3. */
static void fail(const char *what, const char *of) {
    fprintf(stderr, "real_trace: %s: %s\n", what, of);
    exit(3);
}

/* One step on a cache: the word of its answer. No step of this program is ever refused. */
static uint64_t step(struct cache *cache, uint64_t kind, uint64_t argument) {
    uint8_t answer[DIPPERLOCK_ANSWER_BYTES];
    if (dipperlock_step(cache->block, cache->bytes, 0, kind, argument, answer, sizeof answer) != 0)
        fail("the model refused a step", cache->name);
    return dipperlock_field(answer, 0);
}

/* A fresh cache with every way in the maps of domain 0, or 0 if there is no such geometry. */
static int open_cache(const char *name) {
    struct cache *cache = &caches[cache_count];
    unsigned long sets, ways;
    char rest;
    if (cache_count == MOST_GEOMETRIES || sscanf(name, "%5lux%2lu%c", &sets, &ways, &rest) != 2)
        return 0;
    cache->name = name;
    cache->bytes = DIPPERLOCK_BLOCK_BYTES(sets, ways);
    cache->block = malloc(cache->bytes);
    if (cache->block == NULL)
        fail("no memory", name);
    if (dipperlock_fresh(cache->block, cache->bytes, sets, ways, DIPPERLOCK_LRU) != 0)
        return 0;
    uint64_t all = ((uint64_t)1 << ways) - 1;
    step(cache, DIPPERLOCK_POLICY, dipperlock_maps(all, all));
    cache_count += 1;
    return 1;
}

static int missed(struct cache *cache, uint64_t kind, uint64_t address) {
    return step(cache, kind, address) != DIPPERLOCK_HIT;
}

/* One access to every cache. Both lines of one that straddles are stepped, for the order that they leave. */
static void feed(uint64_t kind, uint64_t address, uint64_t size) {
    uint64_t last = address + (size > LINE_BYTES ? LINE_BYTES : size) - 1;
    for (size_t i = 0; i < cache_count; i++) {
        int miss = missed(&caches[i], kind, address);
        if (address / LINE_BYTES != last / LINE_BYTES)
            miss |= missed(&caches[i], kind, last);
        caches[i].misses += (uint64_t)miss;
    }
}

/* Reads a line of lackey's: 1 if it was a data access, which is then fed. Valgrind's own lines are passed over. */
static int read_line(const char *line) {
    if (line[0] != ' ' || line[1] == '\0' || strchr("LSM", line[1]) == NULL || line[2] != ' ')
        return 0;
    char *end;
    uint64_t address = strtoull(line + 3, &end, 16);
    if (end == line + 3 || *end != ',')
        fail("a line that is not lackey's", line);
    uint64_t size = strtoull(end + 1, &end, 10);
    if (size == 0 || *end != '\n')
        fail("a line that is not lackey's", line);
    feed(line[1] == 'L' ? DIPPERLOCK_LOAD : DIPPERLOCK_STORE, address, size);
    return 1;
}

int main(int argc, char **argv) {
    for (int i = 1; i < argc; i++) {
        if (!open_cache(argv[i])) {
            fprintf(stderr, "real_trace: no geometry of the model: %s\n", argv[i]);
            return 2;
        }
    }
    uint64_t accesses = 0;
    char line[256];
    int begins = 1; /* what is read next begins a line: those of valgrind's own may be longer than 255 */
    while (fgets(line, sizeof line, stdin) != NULL) {
        if (begins)
            accesses += (uint64_t)read_line(line);
        begins = strchr(line, '\n') != NULL;
    }
    if (ferror(stdin))
        fail("cannot read", "standard input");
    printf("accesses %" PRIu64 "\n", accesses);
    for (size_t i = 0; i < cache_count; i++) {
        printf("%s misses %" PRIu64 "\n", caches[i].name, caches[i].misses);
        free(caches[i].block);
    }
    return 0;
}
