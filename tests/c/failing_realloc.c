/*
 * A realloc that fails once, for examples: the FAILS-th time that it is called, a number in the environment.
 *
 * A program is linked with it and with -Wl,--wrap=realloc, so its own allocations and those of the library are counted.
 */
#include <stddef.h>
#include <stdlib.h>

void *__real_realloc(void *bytes, size_t size);
void *__wrap_realloc(void *bytes, size_t size);

void *__wrap_realloc(void *bytes, size_t size) {
    static unsigned long calls;
    const char *fails = getenv("FAILS");

    return fails != NULL && ++calls == strtoul(fails, NULL, 10) ? NULL : __real_realloc(bytes, size);
}
