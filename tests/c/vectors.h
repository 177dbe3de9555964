/*
 * What test_vectors.c and test_messages.c share: bytes that grow, the names of the schemas, and the lines that are
 * checked and counted. Before it is included, PROGRAM is the name of the program, and the library's header is there.
 */
#include <stdio.h>
#include <stdlib.h>
#include <string.h>

/* Bytes that grow. */
struct buffer {
    uint8_t *bytes;
    size_t length, room;
};

static char *schema_names[JOURNAL_SCHEMAS];

static void fail(const char *why) {
    fprintf(stderr, PROGRAM ": %s\n", why);
    exit(2);
}

static void reserve(struct buffer *buffer, size_t room) {
    if (buffer->bytes == NULL || room > buffer->room) {
        buffer->room = 2 * room + 1;
        buffer->bytes = (uint8_t *)realloc(buffer->bytes, buffer->room);
        if (buffer->bytes == NULL) {
            fail("out of memory");
        }
    }
}

static uint32_t schema_of(const char *name) {
    for (uint32_t schema = 0; name != NULL && schema < JOURNAL_SCHEMAS; schema++) {
        if (strcmp(name, schema_names[schema]) == 0) {
            return schema;
        }
    }
    fail("a line names no schema");
    return 0;
}

/* Reads the names of the schemas from a file, one a line, in the order of their numbers. */
static void read_schemas(const char *path) {
    FILE *file = fopen(path, "r");
    size_t room;

    if (file == NULL) {
        fail("the names of the schemas cannot be read");
    }
    for (uint32_t schema = 0; schema < JOURNAL_SCHEMAS; schema++) {
        room = 0;
        if (getline(&schema_names[schema], &room, file) < 0) {
            fail("there are too few names of schemas");
        }
        schema_names[schema][strcspn(schema_names[schema], "\n")] = '\0';
    }
    fclose(file);
}

/*
 * Checks the lines on the standard input, and prints 'N passed, M failed' at the end. check_line returns 1 if a line
 * passed, 0 if it failed, and -1 if it is not checked; of one that failed what was found is shown, and then dropped.
 */
static int check_lines(int count, char **arguments, int (*check_line)(char *line), struct buffer *found) {
    long passed = 0, failed = 0;
    char *line = NULL;
    size_t room = 0;

    if (count != 2) {
        fail("usage: " PROGRAM " SCHEMAS");
    }
    read_schemas(arguments[1]);
    while (getline(&line, &room, stdin) >= 0) {
        line[strcspn(line, "\n")] = '\0';
        switch (check_line(line)) {
        case 1:
            passed++;
            break;
        case 0:
            failed++;
            printf("failed: %.300s: %.*s\n", line, (int)(found->length < 300 ? found->length : 300),
                   (char *)found->bytes);
            break;
        }
    }
    for (uint32_t schema = 0; schema < JOURNAL_SCHEMAS; schema++) {
        free(schema_names[schema]);
    }
    free(line);
    free(found->bytes);
    printf("%ld passed, %ld failed\n", passed, failed);
    return failed > 0;
}
