/*
 * What test_vectors.c, test_packages.c and test_numberings.c share: lines of words, and what their calls return as
 * words. Before it is included, PROGRAM is the name of the program, and the library's header is there.
 */
#include <inttypes.h>

#include "vectors.h"

/* What the line's input gives, as the line's expected result is written. */
static struct buffer found;
/* What the last call wrote. */
static struct buffer written;

static void append(struct buffer *buffer, const void *bytes, size_t length) {
    reserve(buffer, buffer->length + length + 1);
    if (length > 0) {
        memcpy(buffer->bytes + buffer->length, bytes, length);
    }
    buffer->length += length;
}

static void append_text(struct buffer *buffer, const char *text) {
    append(buffer, text, strlen(text));
}

/* Bytes as hex digits, and none as a dash. */
static void append_hex(struct buffer *buffer, const uint8_t *bytes, size_t length) {
    char digits[3];

    if (length == 0) {
        append_text(buffer, "-");
    }
    for (size_t i = 0; i < length; i++) {
        snprintf(digits, sizeof digits, "%02x", bytes[i]);
        append(buffer, digits, 2);
    }
}

/* Appends the bytes that a word of a line means. */
static void append_word(struct buffer *buffer, const char *word) {
    unsigned byte;
    uint8_t value;

    if (strcmp(word, "-") == 0) {
        return;
    }
    for (; sscanf(word, "%2x", &byte) == 1; word += 2) {
        value = (uint8_t)byte;
        append(buffer, &value, 1);
    }
}

/* The bytes of the line's next word. */
static struct buffer next_bytes(void) {
    struct buffer buffer = {NULL, 0, 0};
    const char *word = strtok(NULL, " ");

    if (word == NULL) {
        fail("a line has too few words");
    }
    append(&buffer, NULL, 0);
    append_word(&buffer, word);
    return buffer;
}

static const char *next_word(void) {
    const char *word = strtok(NULL, " ");

    if (word == NULL) {
        fail("a line has too few words");
    }
    return word;
}

static uint32_t next_schema(void) { return schema_of(next_word()); }

static uint32_t next_version(void) {
    return (uint32_t)strtoul(next_word(), NULL, 10);
}

/* Makes a call that writes into `written`, and again if there was too little room. Its value is the call's result. */
#define WRITTEN(call) (is_whole(call) ? last_result : (call))

static int64_t last_result;

/* Whether a call with this result is an error or had room for what it wrote. Otherwise there is room for it now. */
static int is_whole(int64_t result) {
    size_t had = written.room;

    last_result = result;
    written.length = result < 0 ? 0 : (size_t)result;
    reserve(&written, written.length);
    return written.length <= had;
}

/* What was written, as hex digits, or the error. */
static void say_written(int64_t length) {
    if (JOURNAL_KIND_OF_ERROR(length) == JOURNAL_MALFORMED) {
        append_text(&found, "malformed");
    } else if (length < 0) {
        append_text(&found, "refused");
    } else {
        append_hex(&found, written.bytes, written.length);
    }
}

/* Appends an item to a listing. */
static inline void list_item(struct buffer *listing, const struct journal_item *item) {
    char text[64];
    int64_t length;

    if (item->kind == JOURNAL_ITEM_UNKNOWN_CODE) {
        snprintf(text, sizeof text, "unknown %#" PRIx64 ", ", item->code);
    } else if (item->kind == JOURNAL_ITEM_SKIPPED) {
        snprintf(text, sizeof text, "skipped %#" PRIx64 " %" PRIu64 ", ", item->code,
                 item->size - item->payload);
    } else {
        length = WRITTEN(journal_type_name((uint16_t)item->code, written.bytes, written.room));
        append(listing, written.bytes, length < 0 ? 0 : (size_t)length);
        snprintf(text, sizeof text, " %" PRIu64 "%s, ", item->size - item->payload,
                 item->requested_ack ? " ack" : "");
    }
    append_text(listing, text);
}

/* What checks the lines of a kind; null of a kind that C has nothing for. */
struct kind_of_line {
    const char *kind;
    void (*check)(void);
};

/* Checks a line: 1 if it passed, 0 if it failed, and -1 if it is not checked. One of no kind fails. */
static int check_words(char *line, const struct kind_of_line *kinds, size_t count) {
    char *expected = strstr(line, " = ");
    const char *kind;

    if (line[0] == '#' || line[0] == '\0') {
        return -1;
    }
    found.length = 0;
    append(&found, NULL, 0);
    if (expected == NULL) {
        append_text(&found, "no result in the line");
        return 0;
    }
    *expected = '\0';
    expected += strlen(" = ");
    kind = strtok(line, " ");
    for (size_t i = 0; kind != NULL && i < count; i++) {
        if (strcmp(kind, kinds[i].kind) != 0) {
            continue;
        }
        if (kinds[i].check == NULL) {
            return -1;
        }
        kinds[i].check();
        return found.length == strlen(expected) && memcmp(found.bytes, expected, found.length) == 0;
    }
    append_text(&found, "no such kind of line");
    return 0;
}
