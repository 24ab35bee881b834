/*
 * What the C tests stand on: checks that name their file and line, buffers with nothing readable beside them, and
 * little-endian numbers.
 */
#ifndef CHECK_H
#define CHECK_H

#ifndef _DEFAULT_SOURCE
#define _DEFAULT_SOURCE
#endif

#include <signal.h>
#include <stdbool.h>
#include <stdint.h>
#include <stdio.h>
#include <stdlib.h>
#include <string.h>
#include <sys/mman.h>
#include <unistd.h>

/* ---- checks */

static struct {
    const char *name; /* of the test that runs */
    const char *file; /* and of the call that it made last */
    int line;
    int failures;
} running;

/* Begins the line of a failed check. Who only asks whether one fails (STOP_AT_FIRST) has heard enough. */
static inline void report(const char *file, int line, const char *what) {
    printf("%s:%d: %s: %s", file, line, running.name, what);
    if (running.file != NULL)
        printf(" (last call %s:%d)", running.file, running.line);
    running.failures++;
    if (getenv("STOP_AT_FIRST") != NULL)
        exit(1);
}

static inline void check_at(const char *file, int line, const char *fact, bool holds) {
    if (!holds) {
        report(file, line, fact);
        printf("\n");
    }
}

static inline void check_equal_at(const char *file, int line, const char *fact, uint64_t seen, uint64_t due) {
    if (seen != due) {
        report(file, line, fact);
        printf(": is %lld, not %lld\n", (long long)seen, (long long)due);
    }
}

#define CHECK(fact)         check_at(__FILE__, __LINE__, #fact, (fact))
#define CHECK_EQ(seen, due) check_equal_at(__FILE__, __LINE__, #seen " == " #due, (uint64_t)(seen), (uint64_t)(due))
#define COUNT_OF(array)     (sizeof(array) / sizeof((array)[0]))
#define MADE_HERE(call)     (running.file = __FILE__, running.line = __LINE__, call)

/* ---- buffers */

/*
 * Where a buffer lies. Between guard pages, any access before its begin or after its end faults, in the archive too:
 * only one side is that close, so each test runs with both. On the heap, for the run with the address sanitizer: that
 * sees what the C code here touches, and what the archive has memset touch, but not the archive's own loads and stores.
 */
enum placement { AFTER_GUARD, BEFORE_GUARD, ON_HEAP };

static enum placement placement;

static inline size_t in_pages(size_t bytes) {
    size_t page = (size_t)sysconf(_SC_PAGESIZE);
    return (bytes + page - 1) / page * page;
}

/* How far a buffer begins after its first guard page's begin. */
static inline size_t guarded_offset(size_t bytes) {
    return in_pages(1) + (placement == BEFORE_GUARD ? in_pages(bytes) - bytes : 0);
}

/* A buffer of that many bytes, all 0. */
static inline uint8_t *lend(size_t bytes) {
    uint8_t *base;
    if (placement == ON_HEAP) {
        base = (uint8_t *)malloc(bytes);
        return base == NULL ? NULL : (uint8_t *)memset(base, 0, bytes);
    }
    base = (uint8_t *)mmap(NULL, in_pages(bytes) + 2 * in_pages(1), PROT_NONE, MAP_PRIVATE | MAP_ANONYMOUS, -1, 0);
    if (base == MAP_FAILED)
        abort();
    if (bytes > 0 && mprotect(base + in_pages(1), in_pages(bytes), PROT_READ | PROT_WRITE) != 0)
        abort();
    return base + guarded_offset(bytes);
}

static inline void give_back(uint8_t *buffer, size_t bytes) {
    if (placement == ON_HEAP)
        free(buffer);
    else
        munmap(buffer - guarded_offset(bytes), in_pages(bytes) + 2 * in_pages(1));
}

/* Whether a buffer may be written to. On the heap that can't be forbidden. */
static inline void allow_writes(uint8_t *buffer, size_t bytes, bool allowed) {
    uint8_t *pages = buffer - guarded_offset(bytes) + in_pages(1);
    if (placement != ON_HEAP && mprotect(pages, in_pages(bytes), allowed ? PROT_READ | PROT_WRITE : PROT_READ) != 0)
        abort();
}

/* Whether pages may be reached at all: where they begin and how long they are is in whole ones. */
static inline void forbid(uint8_t *pages, size_t bytes, bool forbidden) {
    if (mprotect(pages, bytes, forbidden ? PROT_NONE : PROT_READ | PROT_WRITE) != 0)
        abort();
}

/* ---- little-endian numbers */

static inline void put(uint8_t *at, unsigned bytes, uint64_t value) {
    for (unsigned i = 0; i < bytes; i++)
        at[i] = (uint8_t)(value >> (8 * i));
}

static inline uint64_t get(const uint8_t *at, unsigned bytes) {
    uint64_t value = 0;
    for (unsigned i = 0; i < bytes; i++)
        value |= (uint64_t)at[i] << (8 * i);
    return value;
}

#endif
