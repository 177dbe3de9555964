/*
 * The arguments, the environment and errno, as src/c.rt of the toolchain's crate `os` declares them for programs. The
 * toolchain has these functions compiled only for x86-64.
 */
#include <errno.h>
#include <stdint.h>
#include <stdlib.h>
#include <string.h>
#include <sys/types.h>

extern char **environ;

static size_t argument_count;
static char **arguments;

/* glibc calls it with what main gets, before main. */
__attribute__((constructor)) static void keep_arguments(int count, char **values) {
    argument_count = (size_t)count;
    arguments = values;
}

/* Puts a text at the start of a buffer; its length, or -2 where it does not fit, and then the buffer is full. */
static ssize_t put(const char *text, uint8_t *buffer, size_t room) {
    size_t length = strlen(text);
    if (length > room) {
        memcpy(buffer, text, room);
        return -2;
    }
    memcpy(buffer, text, length);
    return (ssize_t)length;
}

size_t rattle_arg_count(void) {
    return argument_count;
}

/* -1 where there is no such argument. */
ssize_t rattle_arg(size_t index, uint8_t *buffer, size_t room) {
    return index < argument_count ? put(arguments[index], buffer, room) : -1;
}

/* The value of a variable, whose name ends with a 0; -1 where there is none. */
ssize_t rattle_env(const uint8_t *name, uint8_t *buffer, size_t room) {
    const char *value = getenv((const char *)name);
    return value != NULL ? put(value, buffer, room) : -1;
}

/* An entry of the environment, as "NAME=value"; -1 past the last one. */
ssize_t rattle_env_at(size_t index, uint8_t *buffer, size_t room) {
    size_t place = 0;
    while (environ != NULL && environ[place] != NULL) {
        if (place == index) {
            return put(environ[place], buffer, room);
        }
        place++;
    }
    return -1;
}

int32_t rattle_errno(void) {
    return errno;
}

void rattle_set_errno(int32_t error) {
    errno = error;
}
