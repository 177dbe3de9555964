/*
 * Counts allocations. The linker's --wrap leads each call of malloc, calloc and realloc of the program here, from
 * Rust's allocator as from the library. The program has one thread.
 */
#include <stddef.h>
#include <stdint.h>

void *__real_malloc(size_t size);
void *__real_calloc(size_t count, size_t size);
void *__real_realloc(void *block, size_t size);

static uint64_t requests;

uint64_t requests_for_memory(void) {
    return requests;
}

void *__wrap_malloc(size_t size) {
    requests++;
    return __real_malloc(size);
}

void *__wrap_calloc(size_t count, size_t size) {
    requests++;
    return __real_calloc(count, size);
}

void *__wrap_realloc(void *block, size_t size) {
    requests++;
    return __real_realloc(block, size);
}
