/* Lent bytes whose surroundings are watched. A sanitizer sees only what it compiled, and the library is compiled
 * already: so bytes are lent not only from the heap, but also right before or right after a page that nobody may
 * touch, with a known pattern on the other side. */
#ifndef LENT_H
#define LENT_H

#include <stdint.h>
#include <stdio.h>
#include <stdlib.h>
#include <string.h>
#include <sys/mman.h>
#include <unistd.h>

enum { PATTERN = 0xc3, WATCHED = 256 };

enum placement { ON_THE_HEAP, BEFORE_A_GUARD, AFTER_A_GUARD, PLACEMENTS };

/* Room between two pages that may not be touched. */
struct room {
    uint8_t *first;
    size_t bytes;
};

struct lent {
    uint8_t *bytes; /* null, or not, where there are none */
    size_t length;
    uint8_t *watched;
    enum placement placement;
};

static struct room make_room(size_t most) {
    size_t page = (size_t)sysconf(_SC_PAGESIZE);
    size_t bytes = (most + WATCHED + page - 1) / page * page;
    uint8_t *all = (uint8_t *)mmap(NULL, bytes + 2 * page, PROT_NONE, MAP_PRIVATE | MAP_ANONYMOUS, -1, 0);
    if (all == MAP_FAILED || mprotect(all + page, bytes, PROT_READ | PROT_WRITE) != 0) {
        perror("no room for guarded bytes");
        exit(3);
    }
    return (struct room){all + page, bytes};
}

/* Lends `length` bytes. On the heap they are exactly so many, so that a sanitizer sees its own code go beyond them. */
static struct lent lend(struct room room, size_t length, enum placement placement) {
    struct lent lent = {NULL, length, NULL, placement};
    if (placement == ON_THE_HEAP) {
        lent.bytes = length == 0 ? NULL : (uint8_t *)malloc(length);
        if (length != 0 && lent.bytes == NULL) {
            perror("no heap");
            exit(3);
        }
    } else if (placement == BEFORE_A_GUARD) {
        lent.bytes = room.first + room.bytes - length;
        lent.watched = lent.bytes - WATCHED;
    } else {
        lent.bytes = room.first;
        lent.watched = lent.bytes + length;
    }
    if (lent.watched != NULL) memset(lent.watched, PATTERN, WATCHED);
    return lent;
}

/* Whether the pattern beside the bytes is as it was. */
static int surroundings_moved(const struct lent *lent) {
    for (size_t i = 0; lent->watched != NULL && i < WATCHED; i++)
        if (lent->watched[i] != PATTERN) return 1;
    return 0;
}

static void give_back(struct lent *lent) {
    if (lent->placement == ON_THE_HEAP) free(lent->bytes);
}

#endif
