/*
 * The heap of the library on arm64: the three functions by which proved code allocates, as src/heap.rt of the
 * toolchain's crate `libc` declares them. The toolchain has them compiled only for x86-64.
 */
#include <stdbool.h>
#include <stddef.h>
#include <stdlib.h>

/* Whether there is a block, and where it is. The pointer is never null. */
struct tried {
    bool ok;
    void *p;
};

static char nothing;

static struct tried tried(void *p) {
    struct tried result = {p != NULL, p != NULL ? p : &nothing};
    return result;
}

/* Of no bytes there is a block of `align` bytes, so that it has an address of its own. malloc aligns each to 16. */
struct tried rattle_alloc(size_t size, size_t align) {
    return tried(malloc(size > 0 ? size : align));
}

/* The first `kept` bytes are as they were. If it fails, the block is as it was. */
struct tried rattle_realloc(void *p, size_t kept, size_t size, size_t align) {
    (void)kept;
    return tried(realloc(p, size > 0 ? size : align));
}

void rattle_dealloc(void *p) {
    free(p);
}
