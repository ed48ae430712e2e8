/* Gives each part of memory of MIN_SIZE bytes or more pages of its own, and lets it begin at a place of its first page that two variables
   say: the part k, counted from 0, begins PLACES_FIRST + k * PLACES_STEP bytes behind the start of a page, modulo the size of a page. Such a
   part is never given back. For LD_PRELOAD, by `places`. */
#define _GNU_SOURCE
#include <errno.h>
#include <stdint.h>
#include <stdlib.h>
#include <string.h>
#include <sys/mman.h>

#define PAGE 4096ul
#define MIN_SIZE 128
#define ROOM (512ul << 20)

void *__libc_malloc(size_t);
void *__libc_calloc(size_t, size_t);
void *__libc_realloc(void *, size_t);
void *__libc_memalign(size_t, size_t);
void __libc_free(void *);

static uintptr_t start, next;
static unsigned long first, step, parts;

static unsigned long number(const char *name)
{
    const char *text = getenv(name);
    return text ? strtoul(text, 0, 10) : 0;
}

static void *part(size_t size)
{
    if (!start) {
        void *room = mmap(0, ROOM, PROT_READ | PROT_WRITE, MAP_PRIVATE | MAP_ANONYMOUS | MAP_NORESERVE, -1, 0);
        if (room == MAP_FAILED)
            abort();
        start = next = (uintptr_t)room;
        first = number("PLACES_FIRST");
        step = number("PLACES_STEP");
    }
    uintptr_t page = (next + PAGE - 1) / PAGE * PAGE;
    uintptr_t place = page + (first + step * parts++) % PAGE;
    next = place + size;
    if (next > start + ROOM)
        abort();
    return (void *)place;
}

static int is_part(void *p)
{
    return start && (uintptr_t)p >= start && (uintptr_t)p < start + ROOM;
}

void *malloc(size_t size)
{
    return size < MIN_SIZE ? __libc_malloc(size) : part(size);
}

void *calloc(size_t count, size_t size)
{
    /* A part is fresh memory, so it is zero. */
    return size && count >= MIN_SIZE / size + 1 ? part(count * size) : __libc_calloc(count, size);
}

void free(void *p)
{
    if (!is_part(p))
        __libc_free(p);
}

void *realloc(void *p, size_t size)
{
    if (!is_part(p))
        return __libc_realloc(p, size);
    void *q = malloc(size);
    if (q)
        memcpy(q, p, size);
    return q;
}

int posix_memalign(void **p, size_t alignment, size_t size)
{
    *p = size < MIN_SIZE ? __libc_memalign(alignment, size) : part(size + alignment);
    if (size >= MIN_SIZE)
        *p = (void *)(((uintptr_t)*p + alignment - 1) / alignment * alignment);
    return *p ? 0 : ENOMEM;
}

void *aligned_alloc(size_t alignment, size_t size)
{
    void *p;
    return posix_memalign(&p, alignment, size) ? 0 : p;
}
