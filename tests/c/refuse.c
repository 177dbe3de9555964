/* Makes one allocation of a program fail: the one whose number, from 1, is in REFUSE (0: none). When the program ends,
   the number of its allocations goes to file descriptor 3. It is loaded by LD_PRELOAD, or, with WRAPPED, linked
   into a program that has an allocator of its own (--wrap=malloc --wrap=realloc --wrap=free), where it does nothing
   without REFUSE or MOST. With MOST it is the most bytes that were allocated at once that go there. */
#define _GNU_SOURCE
#include <dlfcn.h>
#include <errno.h>
#include <malloc.h>
#include <stddef.h>
#include <stdio.h>
#include <stdlib.h>
#include <unistd.h>

static long allocations;

/* Whether this allocation is the one that fails. */
static int fails_now(void)
{
    static long failing = -1;
    if (failing < 0) {
        const char *number = getenv("REFUSE");
        failing = number ? atol(number) : 0;
    }
    if (++allocations != failing)
        return 0;
    errno = ENOMEM;
    return 1;
}

#ifdef WRAPPED

void *__real_malloc(size_t size);
void *__real_realloc(void *block, size_t size);
void __real_free(void *block);

/* The bytes that are allocated now, and the most that were at once. */
static long held, most;

/* What glibc's malloc takes for a block, whichever allocator this is. */
static long taken_by(void *block)
{
    long size = block ? ((long)malloc_usable_size(block) + 8 + 15) / 16 * 16 : 0;
    return block && size < 32 ? 32 : size;
}

/* Counts a block in place of one that took `before` bytes. */
static void *counted(void *block, long before)
{
    held += taken_by(block) - before;
    if (held > most)
        most = held;
    return block;
}

void *__wrap_malloc(size_t size)
{
    return fails_now() ? NULL : counted(__real_malloc(size), 0);
}

void *__wrap_realloc(void *block, size_t size)
{
    if (fails_now())
        return NULL;
    long before = taken_by(block);
    /* it may be copied, and is then there twice */
    if (held + (long)size > most)
        most = held + (long)size;
    void *moved = __real_realloc(block, size);
    return moved ? counted(moved, before) : NULL;
}

void __wrap_free(void *block)
{
    held -= taken_by(block);
    __real_free(block);
}

#else

/* The next function of this name after this one. */
static void *next_of(const char *name)
{
    void *function = dlsym(RTLD_NEXT, name);
    if (!function)
        _exit(127);
    return function;
}

void *malloc(size_t size)
{
    static void *(*granted)(size_t);
    if (!granted)
        *(void **)&granted = next_of("malloc");
    return fails_now() ? NULL : granted(size);
}

void *calloc(size_t count, size_t size)
{
    static void *(*granted)(size_t, size_t);
    if (!granted)
        *(void **)&granted = next_of("calloc");
    return fails_now() ? NULL : granted(count, size);
}

void *realloc(void *block, size_t size)
{
    static void *(*granted)(void *, size_t);
    if (!granted)
        *(void **)&granted = next_of("realloc");
    return fails_now() ? NULL : granted(block, size);
}

void *aligned_alloc(size_t alignment, size_t size)
{
    static void *(*granted)(size_t, size_t);
    if (!granted)
        *(void **)&granted = next_of("aligned_alloc");
    return fails_now() ? NULL : granted(alignment, size);
}

int posix_memalign(void **block, size_t alignment, size_t size)
{
    static int (*granted)(void **, size_t, size_t);
    if (!granted)
        *(void **)&granted = next_of("posix_memalign");
    return fails_now() ? ENOMEM : granted(block, alignment, size);
}

#endif

__attribute__((destructor)) static void say_allocations(void)
{
    long said = allocations;
#ifdef WRAPPED
    if (getenv("MOST"))
        said = most;
    else if (!getenv("REFUSE"))
        return;
#endif
    char text[32];
    int length = snprintf(text, sizeof text, "%ld\n", said);
    if (length > 0 && write(3, text, (size_t)length) < 0)
        _exit(127);
}
