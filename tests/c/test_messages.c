/*
 * Checks the structs of pendratsoa_messages.h by the test vectors on the standard input: test_messages SCHEMAS < LINES
 *
 * SCHEMAS is a file with the names of the schemas, one per line, in the order of their numbers. The payload of each
 * line of the kinds `payload`, `record`, `fields` and `json` is read into its struct, and that is written as the
 * canonical payload; a malformed one has to be rejected. The struct of a record is printed too, by the names of its
 * members. The frame of a message is written from the struct at each version, and is that of journal_frame; without
 * room nothing is written. The arena begins with nothing, and grows by what it lacks. The last line is 'N passed, M
 * failed'.
 */
#define _POSIX_C_SOURCE 200809L
#include <pendratsoa_messages.h>

#define PROGRAM "test_messages"
#include "vectors.h"

/* A record as it is printed. */
static struct buffer printed;

static void print_words(const char *words) {
    reserve(&printed, printed.length + strlen(words));
    memcpy(printed.bytes + printed.length, words, strlen(words));
    printed.length += strlen(words);
}

static void print_number(uint64_t number) {
    char text[32];

    snprintf(text, sizeof text, "%llu", (unsigned long long)number);
    print_words(text);
}

static void print_signed(int32_t number) {
    char text[32];

    snprintf(text, sizeof text, "%ld", (long)number);
    print_words(text);
}

static void print_flag(bool flag) { print_words(flag ? "true" : "false"); }

/* Texts and bytes of the vectors hold nothing that is written otherwise. */
static void print_text(struct journal_slice slice) {
    print_words("\"");
    reserve(&printed, printed.length + slice.length);
    if (slice.length > 0) {
        memcpy(printed.bytes + printed.length, slice.at, slice.length);
    }
    printed.length += slice.length;
    print_words("\"");
}

static void print_bytes(struct journal_slice slice) {
    char text[8];

    print_words("b\"");
    for (size_t i = 0; i < slice.length; i++) {
        snprintf(text, sizeof text, slice.at[i] < 0x20 || slice.at[i] > 0x7E ? "\\x%02x" : "%c", slice.at[i]);
        print_words(text);
    }
    print_words("\"");
}

#include "records.h"

#define PRINT_RECORD(name, schema) \
    case JOURNAL_SCHEMA_##schema: \
        print_##name(&record->name); \
        return;
#define READ_RECORD(name, schema) \
    case JOURNAL_SCHEMA_##schema: \
        return journal_read_##name(payload, length, &record->name, arena);
#define WRITE_RECORD(name, schema) \
    case JOURNAL_SCHEMA_##schema: \
        return journal_write_##name(&record->name, arena, out, room);

static void print_record(uint32_t schema, const union journal_record *record) {
    switch (schema) { JOURNAL_EACH_RECORD_(PRINT_RECORD) }
}

static int64_t read_record(uint32_t schema, const uint8_t *payload, size_t length, union journal_record *record,
                           struct journal_arena *arena) {
    switch (schema) { JOURNAL_EACH_RECORD_(READ_RECORD) }
    return JOURNAL_UNKNOWN_SCHEMA;
}

static int64_t write_record(uint32_t schema, const union journal_record *record, struct journal_arena *arena,
                            uint8_t *out, size_t room) {
    switch (schema) { JOURNAL_EACH_RECORD_(WRITE_RECORD) }
    return JOURNAL_UNKNOWN_SCHEMA;
}

/* Reads a record into its struct, with an arena that has nothing, and gets what it lacks at most twice. */
static int64_t read_growing(uint32_t schema, const struct buffer *payload, union journal_record *record,
                            struct journal_arena *arena) {
    size_t size = 0;

    for (int tries = 0;; tries++) {
        int64_t result;

        *arena = journal_arena_of(size == 0 ? NULL : malloc(size), size);
        result = read_record(schema, payload->bytes, payload->length, record, arena);
        if (result != JOURNAL_NO_ROOM || tries == 2) {
            return result;
        }
        size += arena->lacking;
        free(arena->memory);
    }
}

/* The payload of a record, in an arena of its own; NULL if that cannot be written. */
static uint8_t *written(uint32_t schema, const union journal_record *record, int64_t *length) {
    struct journal_arena arena = journal_arena_of(NULL, 0);
    uint8_t *out = NULL;

    *length = write_record(schema, record, &arena, NULL, 0);
    if (*length == JOURNAL_NO_ROOM) {
        arena = journal_arena_of(malloc(arena.lacking), arena.lacking);
        *length = write_record(schema, record, &arena, NULL, 0);
    }
    if (*length >= 0) {
        out = (uint8_t *)malloc((size_t)*length + 1);
        if (out == NULL || write_record(schema, record, &arena, out, (size_t)*length) != *length) {
            *length = -1;
        }
    }
    free(arena.memory);
    return out;
}

/* The code of the type whose messages have a schema from the last version on, or -1. */
static int code_of(uint32_t schema) {
    for (int code = 0; code < 0x10000; code++) {
        if (journal_schema(JOURNAL_LAST_VERSION, (uint16_t)code) == (int64_t)schema) {
            return code;
        }
    }
    return -1;
}

/* Whether the frame of a message at a version is that of its canonical payload. The arena begins with nothing. */
static int is_framed(uint32_t version, uint16_t code, const union journal_record *record, const uint8_t *payload,
                     size_t length) {
    struct journal_arena arena = journal_arena_of(NULL, 0);
    int64_t wanted_length = journal_frame(version, code, payload, length, NULL, 0), found = -1;
    size_t room = wanted_length < 0 ? 0 : (size_t)wanted_length;
    uint8_t *wanted = (uint8_t *)malloc(room + 1), *out = (uint8_t *)malloc(room + 1);
    int is_same;

    if (wanted == NULL || out == NULL) {
        fail("out of memory");
    }
    memset(out, 0x5A, room + 1);
    for (int tries = 0; tries < 2; tries++) {
        size_t size = arena.left + arena.lacking;

        free(arena.memory);
        arena = journal_arena_of(size == 0 ? NULL : malloc(size), size);
        /* with a byte too little nothing is written */
        found = journal_frame_message(version, code, record, &arena, out, room == 0 ? 0 : room - 1);
        if (found != JOURNAL_NO_ROOM) {
            break;
        }
    }
    is_same = found == wanted_length && out[0] == 0x5A && out[room] == 0x5A && arena.lacking == 0;
    found = journal_frame_message(version, code, record, &arena, out, room);
    journal_frame(version, code, payload, length, wanted, room);
    is_same = is_same && found == wanted_length && memcmp(out, wanted, room) == 0 && out[room] == 0x5A;
    free(arena.memory);
    free(wanted);
    free(out);
    return is_same;
}

/* Whether the frames of a record are those of its payload at all versions, and an error at another one. */
static int has_frames(uint32_t schema, const union journal_record *record, const uint8_t *payload, size_t length) {
    struct journal_arena arena = journal_arena_of(NULL, 0);
    static int codes[JOURNAL_SCHEMAS];
    int code = codes[schema] == 0 ? code_of(schema) : codes[schema] - 1, is_same = 1;

    codes[schema] = code + 1;
    if (code < 0) {
        return 1;
    }
    for (uint32_t version = JOURNAL_FIRST_VERSION; version <= JOURNAL_LAST_VERSION; version++) {
        is_same = is_same && is_framed(version, (uint16_t)code, record, payload, length);
    }
    return is_same &&
           journal_frame_message(4, (uint16_t)code, record, &arena, NULL, 0) == JOURNAL_UNKNOWN_VERSION &&
           journal_frame_message(8, 0x7FFF, record, &arena, NULL, 0) == JOURNAL_UNKNOWN_TYPE;
}

/* Whether a payload is read and written as the canonical payload of its schema, and as what is expected of a line. */
static int is_right(uint32_t schema, const char *kind, const struct buffer *payload, const char *expected) {
    union journal_record record;
    struct journal_arena arena;
    int64_t length, canonical = journal_canonical(schema, payload->bytes, payload->length, NULL, 0);
    int64_t result = read_growing(schema, payload, &record, &arena);
    uint8_t *out = NULL, *wanted = (uint8_t *)malloc(canonical < 0 ? 1 : (size_t)canonical + 1);
    int is_malformed = strcmp(expected, "malformed") == 0, is_same = 0;

    if (wanted == NULL) {
        fail("out of memory");
    }
    if (result == 0 && canonical >= 0) {
        journal_canonical(schema, payload->bytes, payload->length, wanted, (size_t)canonical);
        out = written(schema, &record, &length);
        is_same = length == canonical && memcmp(out, wanted, (size_t)length) == 0 &&
                  has_frames(schema, &record, wanted, (size_t)canonical);
        printed.length = 0;
        print_record(schema, &record);
        if (strcmp(kind, "record") == 0) {
            is_same =
                is_same && printed.length == strlen(expected) && memcmp(printed.bytes, expected, printed.length) == 0;
        }
    }
    free(out);
    free(wanted);
    free(arena.memory);
    return is_malformed ? result == JOURNAL_MALFORMED && canonical == JOURNAL_MALFORMED : is_same;
}

/* The kinds of lines that have one payload and its record, and those that have something else. */
static const char *const kinds[] = {"payload", "record", "fields", "json", NULL};
static const char *const others[] = {"merge", "frame", "stream", "compare", "read", NULL};

static int is_one_of(const char *kind, const char *const *names) {
    while (kind != NULL && *names != NULL && strcmp(kind, *names) != 0) {
        names++;
    }
    return kind != NULL && *names != NULL;
}

/* Checks a line: 1 if it passed, 0 if it failed, and -1 if it is not checked. One of no kind fails. */
static int check_line(char *line) {
    char *expected = strstr(line, " = "), *word;
    const char *kind;
    struct buffer payload = {NULL, 0, 0};
    uint32_t schema;
    unsigned byte;
    int passed;

    if (line[0] == '#' || line[0] == '\0') {
        return -1;
    }
    printed.length = 0;
    if (expected != NULL) {
        *expected = '\0';
        expected += strlen(" = ");
    }
    kind = strtok(line, " ");
    if (is_one_of(kind, others)) {
        return -1;
    }
    if (expected == NULL || !is_one_of(kind, kinds)) {
        print_words("no such kind of line, or no result");
        return 0;
    }
    schema = schema_of(strtok(NULL, " "));
    word = strtok(NULL, " ");
    reserve(&payload, strlen(word) / 2);
    for (; sscanf(word, "%2x", &byte) == 1; word += 2) {
        payload.bytes[payload.length++] = (uint8_t)byte;
    }
    passed = is_right(schema, kind, &payload, expected);
    free(payload.bytes);
    return passed;
}

int main(int count, char **arguments) {
    return check_lines(count, arguments, check_line, &printed);
}
