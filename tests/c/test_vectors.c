/*
 * Checks the test vectors on the standard input by the calls of pendratsoa.h: test_vectors SCHEMAS < LINES
 *
 * SCHEMAS is a file with the names of the schemas, one per line, in the order of their numbers. conformance/README.md
 * specifies a line; a line of the kind `record` has no call, and one of no kind fails. Each stream is also read byte by
 * byte, each JSON is read as the canonical payload, and fields are written as the payload again. The last line is
 * 'N passed, M failed'.
 */
#define _POSIX_C_SOURCE 200809L
#include <pendratsoa_reader.h>

#define PROGRAM "test_vectors"
#include "words.h"

static uint16_t next_type(void) {
    const char *name = next_word();
    int64_t code = journal_type_code((const uint8_t *)name, strlen(name));

    if (code < 0) {
        fail("a line names no type");
    }
    return (uint16_t)code;
}

static void payload(void) {
    uint32_t schema = next_schema();
    struct buffer data = next_bytes();
    int64_t length = WRITTEN(journal_canonical(schema, data.bytes, data.length, written.bytes, written.room));

    if (journal_is_well_formed(schema, data.bytes, data.length) != (length >= 0)) {
        append_text(&found, "well-formed and refused, or neither: ");
    }
    say_written(length);
    free(data.bytes);
}

static void merge(void) {
    uint32_t schema = next_schema();
    struct buffer merged = next_bytes(), more = {NULL, 0, 0};
    int64_t length = WRITTEN(journal_canonical(schema, merged.bytes, merged.length, written.bytes, written.room));

    for (const char *word; length >= 0 && (word = strtok(NULL, " ")) != NULL;) {
        merged.length = 0;
        append(&merged, written.bytes, written.length);
        more.length = 0;
        append_word(&more, word);
        length = WRITTEN(journal_merge(schema, merged.bytes, merged.length, more.bytes, more.length, written.bytes,
                                       written.room));
    }
    say_written(length);
    free(merged.bytes);
    free(more.bytes);
}

static void frame(void) {
    uint16_t code = next_type();
    uint32_t version = next_version();
    struct buffer data = next_bytes();

    say_written(WRITTEN(journal_frame(version, code, data.bytes, data.length, written.bytes, written.room)));
    free(data.bytes);
}

/* Whether the fields of a payload are written as the payload. */
static int is_written_again(uint32_t schema, const struct buffer *payload, const struct journal_field *table,
                            size_t count) {
    struct journal_writing writing = {99, 99};
    int64_t length = WRITTEN(journal_payload_of_fields(schema, table, count, payload->bytes, payload->length, &writing,
                                                       JOURNAL_WRITING_NUMBERS, written.bytes, written.room));

    return length == (int64_t)payload->length && writing.kind == JOURNAL_WRITTEN && writing.index == 0 &&
           (length == 0 || memcmp(written.bytes, payload->bytes, (size_t)length) == 0);
}

/* The fields of a payload, six numbers each; in a table of exactly their count, and before in one of no room. */
static void fields(void) {
    uint32_t schema = next_schema();
    struct buffer data = next_bytes();
    int64_t count = journal_fields(schema, data.bytes, data.length, NULL, 0);
    struct journal_field *table = calloc(data.length + 1, sizeof *table);
    char text[160];

    if (table == NULL) {
        fail("out of memory");
    }
    if (count == JOURNAL_NOT_CANONICAL) {
        append_text(&found, "not_canonical");
    } else if (count < 0) {
        say_written(count);
    } else if ((uint64_t)count > data.length ||
               journal_fields(schema, data.bytes, data.length, table, (size_t)count) != count) {
        append_text(&found, "more entries than bytes, or another count");
    } else if (count == 0) {
        append_text(&found, "-");
    }
    for (int64_t i = 0; i < count; i++) {
        snprintf(text, sizeof text,
                 "%s%" PRIu64 " %" PRIu64 " %" PRIu64 " %" PRIu64 " %" PRIu64 " %" PRIu64, i == 0 ? "" : ", ",
                 table[i].level, table[i].number, table[i].kind, table[i].value, table[i].offset, table[i].length);
        append_text(&found, text);
    }
    if (count >= 0 && !is_written_again(schema, &data, table, (size_t)count)) {
        append_text(&found, ", which are written as another payload");
    }
    free(table);
    free(data.bytes);
}

/* Appends the listing of the whole items at the beginning of a stream, and drops them. */
static void list_items(struct buffer *listing, uint32_t version, struct buffer *stream) {
    struct journal_item item;
    size_t begin = 0;

    while (journal_next(version, stream->bytes + begin, stream->length - begin, &item, JOURNAL_ITEM_NUMBERS) == 0) {
        list_item(listing, &item);
        begin += (size_t)item.size;
    }
    stream->length -= begin;
    memmove(stream->bytes, stream->bytes + begin, stream->length);
}

static void list_rest(struct buffer *listing, const struct buffer *stream) {
    char text[32];

    snprintf(text, sizeof text, "rest %zu", stream->length);
    append_text(listing, text);
}

static void stream(void) {
    uint32_t version = next_version();
    struct buffer chunks = {NULL, 0, 0}, bytes = {NULL, 0, 0}, chunk = {NULL, 0, 0}, listing = {NULL, 0, 0};

    append(&chunks, NULL, 0);
    append(&bytes, NULL, 0);
    for (const char *word; (word = strtok(NULL, " ")) != NULL;) {
        chunk.length = 0;
        append_word(&chunk, word);
        append(&chunks, chunk.bytes, chunk.length);
        list_items(&found, version, &chunks);
        for (size_t i = 0; i < chunk.length; i++) {
            append(&bytes, chunk.bytes + i, 1);
            list_items(&listing, version, &bytes);
        }
    }
    list_rest(&found, &chunks);
    list_rest(&listing, &bytes);
    if (found.length != listing.length || memcmp(found.bytes, listing.bytes, found.length) != 0) {
        append_text(&found, ", and other items byte by byte");
    }
    free(chunks.bytes);
    free(bytes.bytes);
    free(chunk.bytes);
    free(listing.bytes);
}

static void compare(void) {
    uint16_t code = next_type();
    struct buffer first = next_bytes(), second = next_bytes();

    for (uint32_t ignored = 0; ignored < 2; ignored++) {
        int64_t same = journal_header_eq(code, first.bytes, first.length, second.bytes, second.length, ignored);

        append_text(&found, same == 1 ? "same " : same == 0 ? "other " : "refused ");
    }
    if (JOURNAL_KIND_OF_ERROR(journal_header_eq(code, first.bytes, first.length, second.bytes, second.length, 0)) ==
        JOURNAL_MALFORMED) {
        found.length = 0;
    }
    say_written(WRITTEN(journal_difference(code, first.bytes, first.length, second.bytes, second.length, written.bytes,
                                           written.room)));
    free(first.bytes);
    free(second.bytes);
}

static void json(void) {
    uint32_t schema = next_schema();
    struct buffer data = next_bytes(), canonical = {NULL, 0, 0};
    int64_t length = WRITTEN(journal_canonical(schema, data.bytes, data.length, written.bytes, written.room));
    struct journal_reading reading;

    append(&canonical, written.bytes, length < 0 ? 0 : (size_t)length);
    length = WRITTEN(journal_json(schema, data.bytes, data.length, written.bytes, written.room));
    append(&found, written.bytes, length < 0 ? 0 : (size_t)length);
    length = WRITTEN(journal_payload_of_json(schema, found.bytes, found.length, &reading, JOURNAL_READ_NUMBERS,
                                             written.bytes, written.room));
    if (length != (int64_t)canonical.length || reading.kind != JOURNAL_READ ||
        memcmp(written.bytes, canonical.bytes, canonical.length) != 0) {
        append_text(&found, ", which is read as another payload");
    }
    free(data.bytes);
    free(canonical.bytes);
}

/* A JSON text: the payload that it is read as, or why it is not, and where. */
static void read_json(void) {
    uint32_t schema = next_schema();
    struct buffer text = next_bytes();
    struct journal_reading reading = {0, 0};
    char offset[32];
    int64_t length = WRITTEN(journal_payload_of_json(schema, text.bytes, text.length, &reading, JOURNAL_READ_NUMBERS,
                                                     written.bytes, written.room));

    if (length < 0 || reading.kind == JOURNAL_READ || reading.kind > JOURNAL_JSON_TOO_DEEP) {
        say_written(length);
    } else {
        append_text(&found, journal_reading_name(reading.kind));
        if (reading.kind == JOURNAL_JSON_NOT_JSON) {
            snprintf(offset, sizeof offset, " %" PRIu64, reading.offset);
            append_text(&found, offset);
        } else if (length > 0) {
            append_text(&found, " ");
            append(&found, written.bytes, (size_t)length);
        }
    }
    free(text.bytes);
}

/* What is said of an item, the one at this index of the replay, after the item. */
static void say_mismatch(const struct journal_mismatch *mismatch, size_t at) {
    static const char *const kinds[] = {"same", "recorded_ended", "replayed_ended", "other_type", "other_command",
                                        "malformed recorded", "malformed replayed"};
    const int is_malformed = mismatch->kind >= JOURNAL_VERDICT_BAD_RECORDED;
    char text[128];

    snprintf(text, sizeof text, "%s %" PRIu64 " %zu", kinds[mismatch->kind], mismatch->index, at);
    append_text(&found, text);
    if (!is_malformed && mismatch->recorded_size == 0) {
        snprintf(text, sizeof text, " - %" PRIu64, mismatch->replayed_offset);
        append_text(&found, text);
    } else if (!is_malformed) {
        snprintf(text, sizeof text, " %" PRIu64 " %" PRIu64, mismatch->recorded_offset, mismatch->replayed_offset);
        append_text(&found, text);
    }
}

/* A replay in chunks, whose items are checked as they come. */
static void replay_lines(void) {
    const uint32_t version = next_version();
    const int are_ignored = strcmp(next_word(), "ignored") == 0;
    struct buffer recorded = next_bytes(), chunk = {NULL, 0, 0};
    struct journal_replay replay = {version, are_ignored ? JOURNAL_REPLAY_IGNORE_PAYLOADS : 0, 0, 0, 0, 0};
    struct journal_reader reader = journal_reader_of(version, UINT32_MAX);
    struct journal_reader_item item;
    struct journal_mismatch mismatch;
    char text[64];
    size_t at = 0;

    for (const char *word; (word = strtok(NULL, " ")) != NULL;) {
        chunk.length = 0;
        append_word(&chunk, word);
        if (journal_reader_feed(&reader, chunk.bytes, chunk.length) < 0) {
            fail("malloc");
        }
        for (; journal_reader_next(&reader, &item) == 1; at++) {
            if (journal_replay_check((uint16_t)item.item.code, recorded.bytes, recorded.length, item.payload,
                                     item.payload_length, &replay, JOURNAL_REPLAY_NUMBERS, &mismatch,
                                     JOURNAL_MISMATCH_NUMBERS) != 0) {
                say_mismatch(&mismatch, at);
            }
        }
    }
    if (journal_replay_finish(recorded.bytes, recorded.length, &replay, JOURNAL_REPLAY_NUMBERS, &mismatch,
                              JOURNAL_MISMATCH_NUMBERS) != 0) {
        snprintf(text, sizeof text, "replayed_ended %" PRIu64, mismatch.index);
        append_text(&found, mismatch.kind == JOURNAL_VERDICT_REPLAYED_ENDED ? text : "another verdict");
    } else if (replay.has_said == 0) {
        snprintf(text, sizeof text, "same %" PRIu64, replay.index);
        append_text(&found, text);
    }
    journal_reader_free(&reader);
    free(chunk.bytes);
    free(recorded.bytes);
}

static const struct kind_of_line kinds[] = {{"payload", payload}, {"merge", merge},        {"frame", frame},
                                            {"stream", stream},   {"compare", compare},    {"json", json},
                                            {"read", read_json},  {"fields", fields},      {"replay", replay_lines},
                                            {"record", NULL}};

static int check_line(char *line) { return check_words(line, kinds, sizeof kinds / sizeof *kinds); }

int main(int count, char **arguments) {
    return check_lines(count, arguments, check_line, &found);
}
