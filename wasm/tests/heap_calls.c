/* The heap for heap.mjs: a place is 0 where there is no memory. */
#include <stdint.h>

#define EXPORT(name) __asm__(".export_name " #name ", " #name);

struct tried {
    uint64_t ok;
    uint64_t place;
};

struct tried rattle_alloc(uint64_t bytes, uint64_t align);
struct tried rattle_realloc(void *p, uint64_t kept, uint64_t bytes, uint64_t align);
void rattle_dealloc(void *p);

EXPORT(take)
uint64_t take(uint64_t bytes) {
    struct tried tried = rattle_alloc(bytes, 8);
    return tried.ok ? tried.place : 0;
}

EXPORT(change)
uint64_t change(uint64_t place, uint64_t kept, uint64_t bytes) {
    struct tried tried = rattle_realloc((void *)place, kept, bytes, 8);
    return tried.ok ? tried.place : 0;
}

EXPORT(give)
void give(uint64_t place) {
    rattle_dealloc((void *)place);
}
