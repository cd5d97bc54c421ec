#include "lent.h"

#include <sanitizer/asan_interface.h>
#include <stdio.h>
#include <stdlib.h>
#include <string.h>
#include <sys/mman.h>
#include <unistd.h>

#include "numbers.h"

/* The most bytes of a block, and how many bytes around it are looked at. */
enum { MOST = 1 << 18, AROUND = 64 };

/* Where a part lies now: on the heap, or in its own pages. */
typedef struct {
    uint8_t *pages, *heap, *at, *remembered;
    size_t bytes;
    uint8_t before[AROUND], after[AROUND];
} block;

static block blocks[PARTS];

static void must(int done, const char *what) {
    if (!done) {
        perror(what);
        exit(2);
    }
}

/* Pages that can be written between two that can't be touched. */
static uint8_t *guarded_pages(void) {
    const size_t page = (size_t)sysconf(_SC_PAGESIZE);
    uint8_t *all = (uint8_t *)mmap(NULL, MOST + 2 * page, PROT_NONE, MAP_PRIVATE | MAP_ANONYMOUS, -1, 0);
    must(all != MAP_FAILED, "mmap");
    must(mprotect(all + page, MOST, PROT_READ | PROT_WRITE) == 0, "mprotect");
    return all + page;
}

/* Has AddressSanitizer watch what stands around a block on the heap, or look away. */
static void watch_around(const block *b, int watch) {
    if (b->heap == NULL)
        return;
    if (watch) {
        ASAN_POISON_MEMORY_REGION(b->heap, AROUND);
        ASAN_POISON_MEMORY_REGION(b->at + b->bytes, AROUND);
    } else {
        ASAN_UNPOISON_MEMORY_REGION(b->heap, b->bytes + 2 * AROUND);
    }
}

/* A block on the heap, with any bytes around it. */
static uint8_t *on_the_heap(block *b) {
    b->heap = (uint8_t *)malloc(b->bytes + 2 * AROUND);
    must(b->heap != NULL, "malloc");
    fill(b->heap, b->bytes + 2 * AROUND);
    b->at = b->heap + AROUND;
    watch_around(b, 1);
    return b->at;
}

void *lend(part which, size_t bytes) {
    block *b = &blocks[which];
    if (b->pages == NULL) {
        b->pages = guarded_pages();
        b->remembered = (uint8_t *)malloc(MOST);
        must(b->remembered != NULL, "malloc");
    }
    must(bytes <= MOST, "a block that is too long");
    watch_around(b, 0);
    free(b->heap);
    b->heap = NULL;
    b->bytes = bytes;
    switch (below(3)) {
    case 0: b->at = bytes > 0 || one_in(2) ? on_the_heap(b) : NULL; break;
    case 1: b->at = b->pages; break;
    default: b->at = b->pages + MOST - bytes; break;
    }
    if (bytes > 0)
        fill(b->at, bytes);
    return b->at;
}

void *lent_at(part which) {
    return blocks[which].at;
}

size_t lent_bytes(part which) {
    return blocks[which].bytes;
}

static int in_pages(const block *b) {
    return b->heap == NULL && b->at != NULL;
}

void lent_read_only(part which, int read_only) {
    if (in_pages(&blocks[which]))
        must(mprotect(blocks[which].pages, MOST, read_only ? PROT_READ : PROT_READ | PROT_WRITE) == 0, "mprotect");
}

/* How many bytes stand before the block and behind it, as far as they are looked at. */
static size_t room_before(const block *b) {
    const size_t room = in_pages(b) ? (size_t)(b->at - b->pages) : b->at != NULL ? AROUND : 0;
    return room < AROUND ? room : AROUND;
}

static size_t room_after(const block *b) {
    const size_t room = in_pages(b) ? (size_t)(b->pages + MOST - b->at) - b->bytes : b->at != NULL ? AROUND : 0;
    return room < AROUND ? room : AROUND;
}

void lent_remember(part which) {
    block *b = &blocks[which];
    if (b->bytes > 0)
        memcpy(b->remembered, b->at, b->bytes);
    if (b->at != NULL) {
        watch_around(b, 0);
        memcpy(b->before, b->at - room_before(b), room_before(b));
        memcpy(b->after, b->at + b->bytes, room_after(b));
        watch_around(b, 1);
    }
}

int lent_stays(part which, size_t from) {
    const block *b = &blocks[which];
    if (b->at == NULL)
        return 1;
    watch_around(b, 0);
    const int stays = (from >= b->bytes || memcmp(b->at + from, b->remembered + from, b->bytes - from) == 0)
        && memcmp(b->before, b->at - room_before(b), room_before(b)) == 0
        && memcmp(b->after, b->at + b->bytes, room_after(b)) == 0;
    watch_around(b, 1);
    return stays;
}
