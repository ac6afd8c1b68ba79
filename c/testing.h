/* What the C tests share: bytes lent as a careful caller lends them, and checks
 * that are counted.
 *
 * Bytes are lent twice: in a heap buffer of exactly their length, for the
 * address sanitizer, and right before a page that nobody may read. The sanitizer
 * does not see what the archive's own code reads; the page stops it.
 *
 * A test includes this first: it asks the system for mmap and its flags.
 */
#ifndef TESTING_H
#define TESTING_H

#define _DEFAULT_SOURCE
#include <stddef.h>
#include <stdint.h>
#include <stdio.h>
#include <stdlib.h>
#include <string.h>
#include <sys/mman.h>
#include <unistd.h>

static unsigned long checks_made;
static unsigned long checks_failed;

/* Where in a test a check stands. */
struct source {
    const char *file;
    int line;
};

#define HERE ((struct source){__FILE__, __LINE__})

/* Bytes, wherever they lie. */
struct slice {
    const uint8_t *bytes;
    size_t length;
};

/* The most that can be lent before the guard. */
enum { LONGEST_LENT = 1 << 18 };

static inline void give_up(const char *reason)
{
    fprintf(stderr, "test: %s\n", reason);
    exit(2);
}

/* malloc(0) may be null, which tracksaddle.h forbids: empty bytes lie at the end
 * of one byte that is not theirs. */
static inline size_t not_its_own(struct slice slice)
{
    return slice.length == 0 ? 1 : 0;
}

/* A copy in a heap buffer of exactly its length, for free_heap_copy to free. */
static inline struct slice copy_to_the_heap(struct slice original)
{
    size_t before = not_its_own(original);
    uint8_t *allocation = malloc(original.length + before);
    if (allocation == NULL) {
        give_up("out of memory");
    }
    memcpy(allocation + before, original.bytes, original.length);
    return (struct slice){allocation + before, original.length};
}

static inline void free_heap_copy(struct slice copy)
{
    free((void *)(copy.bytes - not_its_own(copy)));
}

/* The end of pages that may be written, before one that may not be touched. */
static inline uint8_t *map_guarded_pages(void)
{
    size_t page_size = (size_t)sysconf(_SC_PAGESIZE);
    size_t pages = (LONGEST_LENT + page_size - 1) / page_size;
    uint8_t *start = mmap(NULL, (pages + 1) * page_size, PROT_READ | PROT_WRITE,
                          MAP_PRIVATE | MAP_ANONYMOUS, -1, 0);
    uint8_t *guard = start + pages * page_size;
    if (start == MAP_FAILED || mprotect(guard, page_size, PROT_NONE) != 0) {
        give_up("no guarded pages");
    }
    return guard;
}

/* A copy that ends where nothing may be read any more. The next copy replaces
 * it. */
static inline struct slice copy_before_the_guard(struct slice original)
{
    static uint8_t *guard;
    if (guard == NULL) {
        guard = map_guarded_pages();
    }
    if (original.length > LONGEST_LENT) {
        give_up("more bytes than can be lent before the guard");
    }
    return (struct slice){
        memcpy(guard - original.length, original.bytes, original.length),
        original.length};
}

static inline void check_unchanged(struct source source, struct slice lent,
                                   struct slice original)
{
    checks_made++;
    if (memcmp(lent.bytes, original.bytes, original.length) != 0) {
        checks_failed++;
        printf("%s:%d: the lent bytes were changed\n", source.file, source.line);
    }
}

/* The test's last line, and its exit status. */
static inline int conclude(const char *test)
{
    printf("%s: %lu checks, %lu failed\n", test, checks_made, checks_failed);
    return checks_failed == 0 ? 0 : 1;
}

#endif
