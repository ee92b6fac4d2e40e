/* Memory to lend: flush against a page that no access may touch, at its end or at its start, and in two views of the same
 * bytes, one to write and one only to read. What a call may not touch beside it in its own pages is closed too, as far as
 * valgrind or the address sanitizer watches. */
#ifndef LEND_H
#define LEND_H

#ifndef _GNU_SOURCE
#define _GNU_SOURCE
#endif
#include <stdint.h>
#include <stdio.h>
#include <stdlib.h>
#include <string.h>
#include <sys/mman.h>
#include <unistd.h>

#if __has_include(<valgrind/memcheck.h>)
#include <valgrind/memcheck.h>
#else
#define VALGRIND_MAKE_MEM_NOACCESS(at, n) ((void)(at), (void)(n))
#define VALGRIND_MAKE_MEM_DEFINED(at, n) ((void)(at), (void)(n))
#define VALGRIND_MAKE_MEM_UNDEFINED(at, n) ((void)(at), (void)(n))
#define VALGRIND_CHECK_MEM_IS_DEFINED(at, n) 0
#endif

#if defined(__SANITIZE_ADDRESS__)
#define POISON 1
#elif defined(__has_feature)
#if __has_feature(address_sanitizer)
#define POISON 1
#endif
#endif
#ifdef POISON
#include <sanitizer/asan_interface.h>
#else
#define ASAN_POISON_MEMORY_REGION(at, n) ((void)(at), (void)(n))
#define ASAN_UNPOISON_MEMORY_REGION(at, n) ((void)(at), (void)(n))
#endif

enum { PAGE = 4096, SIDE = 256 };

/* `size` bytes, a multiple of PAGE, at `write` and at `read`. */
struct memory {
    uint8_t *write, *read;
    size_t size;
};

/* A part of such a memory as lent: `length` bytes at `write` and at `read`. */
struct lent {
    uint8_t *write, *read;
    size_t length;
    struct memory *of;
};

static void must(int holds, const char *what)
{
    if (!holds) {
        printf("%s\n", what);
        fflush(stdout);
        abort();
    }
}

static uint8_t *view(int file, size_t size, int protection)
{
    uint8_t *all = mmap(NULL, size + 2 * PAGE, PROT_NONE, MAP_PRIVATE | MAP_ANONYMOUS | MAP_NORESERVE, -1, 0);
    must(all != MAP_FAILED, "no memory");
    must(mmap(all + PAGE, size, protection, MAP_SHARED | MAP_FIXED, file, 0) != MAP_FAILED, "no memory");
    return all + PAGE;
}

static struct memory memory_of(size_t bytes)
{
    struct memory m = {NULL, NULL, (bytes + PAGE - 1) / PAGE * PAGE};
    int file = memfd_create("lent", 0);
    must(file >= 0 && ftruncate(file, (off_t)m.size) == 0, "no memory");
    m.write = view(file, m.size, PROT_READ | PROT_WRITE);
    m.read = view(file, m.size, PROT_READ);
    close(file);
    return m;
}

/* Up to SIDE bytes on each side of the lent ones, where they lie in the memory: as they are seen by `use`. */
static void each_side(struct lent l, void (*use)(uint8_t *at, size_t n))
{
    size_t front = (size_t)(l.write - l.of->write), back = l.of->size - front - l.length;
    size_t before = front < SIDE ? front : SIDE, after = back < SIDE ? back : SIDE;
    for (int seen = 0; seen < 2; seen++) {
        uint8_t *at = seen ? l.read : l.write;
        if (before > 0)
            use(at - before, before);
        if (after > 0)
            use(at + l.length, after);
    }
}

static void close_bytes(uint8_t *at, size_t n)
{
    VALGRIND_MAKE_MEM_NOACCESS(at, n);
    ASAN_POISON_MEMORY_REGION(at, n);
}

static void open_bytes(uint8_t *at, size_t n)
{
    ASAN_UNPOISON_MEMORY_REGION(at, n);
    VALGRIND_MAKE_MEM_DEFINED(at, n);
}

/* Lends so many bytes, at the memory's end or at its start. The bytes are as they were. */
static struct lent lend(struct memory *m, size_t length, int at_end)
{
    must(length <= m->size, "more lent than there is");
    size_t front = at_end ? m->size - length : 0;
    struct lent l = {m->write + front, m->read + front, length, m};
    each_side(l, close_bytes);
    return l;
}

/* After the call. */
static void give_back(struct lent l)
{
    each_side(l, open_bytes);
}

#endif
