/*
 * Checks pendratsoa_reader.h: test_reader VERSION STREAM..
 *
 * Each stream is read in chunks of every length up to 40, by each of the two ways in. The items and their offsets are
 * those of journal_next over the whole stream, and so are the trailing bytes, with their header. Every third allocation
 * fails, after which the same bytes are given again. Within a limit that is one byte less than a payload has, the
 * reader ends at the first such message, and the error stays. What the stream ends with is looked at after each chunk,
 * and for each beginning of an item, also as a recording. The last line is 'N passed, M failed'.
 */
#include <stdio.h>
#include <stdlib.h>
#include <string.h>

/* An allocation: every third one fails while `is_failing`. */
static int is_failing, allocations;

static void *failing_realloc(void *bytes, size_t size) {
    return is_failing && ++allocations % 3 == 0 ? NULL : realloc(bytes, size);
}

#define realloc failing_realloc
#include <pendratsoa_reader.h>
#undef realloc

static long passed, failed;

static void outcome(const char *name, const char *path, size_t chunk, int is_right) {
    passed += is_right;
    failed += !is_right;
    if (!is_right) {
        printf("failed: %s, %s in chunks of %zu\n", name, path, chunk);
    }
}

/* Gives a chunk to a reader, as a copy or into its room, again after an allocation that failed. */
static int give(struct journal_reader *reader, const uint8_t *chunk, size_t length, int is_copied) {
    for (int tries = 0; tries < 2; tries++) {
        const size_t pending = journal_reader_pending(reader);
        const uint64_t offset = reader->offset;
        uint8_t *room = NULL;

        if (is_copied && journal_reader_feed(reader, chunk, length) == 0) {
            return 1;
        }
        if (!is_copied && (room = journal_reader_room(reader, length)) != NULL) {
            memcpy(room, chunk, length);
            journal_reader_came(reader, length);
            return 1;
        }
        if (journal_reader_pending(reader) != pending || reader->offset != offset) {
            return 0;
        }
    }
    return 0;
}

/* Whether the header of a reader is that of the bytes which are pending, and is there if they have one. */
static int has_header(const struct journal_reader *reader, const uint8_t *pending, size_t length) {
    uint16_t code = 0xABCD;
    uint32_t size = 0x12345678;
    const int is_there = journal_reader_header(reader, &code, &size);
    const uint64_t wanted_code = length < 8 ? 0xABCD : (uint64_t)pending[0] * 256 + pending[1];
    uint64_t wanted_size = length < 8 ? 0x12345678 : 0;

    for (size_t at = 4; length >= 8 && at < 8; at++) {
        wanted_size = wanted_size * 256 + pending[at];
    }
    return is_there == (length >= 8) && code == wanted_code && size == wanted_size;
}

/* Whether a stream ends with these pending bytes, at this offset, and with the code and the length that they have. */
static int has_rest(const struct journal_reader *reader, uint64_t offset, const uint8_t *pending, size_t length) {
    const struct journal_reader_rest rest = journal_reader_finish(reader);
    const uint64_t code = length < 2 ? 0 : (uint64_t)pending[0] * 256 + pending[1];
    uint64_t announced = 0;

    for (size_t at = 4; length >= 8 && at < 8; at++) {
        announced = announced * 256 + pending[at];
    }
    if (rest.offset != offset || rest.size != length || (rest.bytes == NULL) != (length == 0) ||
        (length > 0 && memcmp(rest.bytes, pending, length) != 0)) {
        return 0;
    }
    return rest.has_code == (length >= 2) && rest.code == code && rest.has_length == (length >= 8) &&
           rest.length == announced;
}

/* Whether the items of a stream in chunks are those of the whole, within a limit. */
static int reads(uint32_t version, uint32_t limit, const uint8_t *stream, size_t length, size_t chunk, int is_copied) {
    struct journal_reader reader = journal_reader_of(version, limit);
    struct journal_reader_item found;
    struct journal_item item;
    size_t begin = 0;
    int64_t result = 0, wanted;
    int is_right = 1;

    for (size_t at = 0; is_right && result >= 0 && at < length; at += chunk) {
        is_right = give(&reader, stream + at, length - at < chunk ? length - at : chunk, is_copied);
        while (is_right && (result = journal_reader_next(&reader, &found)) == 1) {
            wanted = journal_next(version, stream + begin, length - begin, &item, JOURNAL_ITEM_NUMBERS);
            is_right = wanted == 0 && memcmp(&item, &found.item, sizeof item) == 0 && found.offset == begin &&
                       memcmp(found.bytes, stream + begin, (size_t)item.size) == 0 &&
                       found.payload == found.bytes + item.payload &&
                       found.payload_length == item.size - item.payload && found.payload_length <= limit;
            begin += (size_t)item.size;
        }
        is_right = is_right && has_header(&reader, stream + begin, journal_reader_pending(&reader)) &&
                   has_rest(&reader, begin, stream + begin, journal_reader_pending(&reader));
    }
    wanted = journal_next_within(version, limit, stream + begin, length - begin, &item, JOURNAL_ITEM_NUMBERS);
    is_right = is_right && wanted != 0 && reader.offset == begin;
    if (wanted < 0) {
        is_right = is_right && result == JOURNAL_TOO_LONG &&
                   journal_reader_next(&reader, &found) == JOURNAL_TOO_LONG;
    } else {
        is_right = is_right && result == 0 && journal_reader_pending(&reader) == length - begin;
    }
    journal_reader_free(&reader);
    return is_right && reader.memory.bytes == NULL;
}

/* The length of the longest payload of a stream. */
static uint32_t longest(uint32_t version, const uint8_t *stream, size_t length) {
    struct journal_item item;
    uint64_t found = 0;

    for (size_t begin = 0;
         journal_next(version, stream + begin, length - begin, &item, JOURNAL_ITEM_NUMBERS) == 0;
         begin += (size_t)item.size) {
        found = item.size - item.payload > found ? item.size - item.payload : found;
    }
    return (uint32_t)found;
}

static void check_stream(uint32_t version, const char *path) {
    static uint8_t stream[1 << 20];
    FILE *file = fopen(path, "rb");
    size_t length = file == NULL ? 0 : fread(stream, 1, sizeof stream, file);
    uint32_t most = longest(version, stream, length);

    outcome("the stream is there, and not too long", path, 0, length > 0 && length < sizeof stream);
    if (file != NULL) {
        fclose(file);
    }
    for (size_t chunk = 1; chunk <= 40; chunk++) {
        for (int round = 0; round < 2; round++) {
            is_failing = round;
            outcome("copied", path, chunk, reads(version, UINT32_MAX, stream, length, chunk, 1));
            outcome("in its room", path, chunk, reads(version, UINT32_MAX, stream, length, chunk, 0));
            outcome("within its longest payload", path, chunk, reads(version, most, stream, length, chunk, 1));
            if (most > 0) {
                outcome("within less", path, chunk, reads(version, most - 1, stream, length, chunk, 0));
            }
        }
    }
}

/* Memory grows to what is asked, and to twice as much as it had at least; a failed allocation changes nothing. */
static void check_memory(void) {
    struct journal_memory memory = {NULL, 0};
    int is_right;

    is_failing = 0;
    is_right = journal_memory_grow(&memory, 10) && memory.size == 10 && journal_memory_grow(&memory, 5);

    memory.bytes[9] = 7;
    is_right = is_right && memory.size == 10 && journal_memory_grow(&memory, 11) && memory.size == 20;
    is_right = is_right && journal_memory_grow(&memory, 100) && memory.size == 100 && memory.bytes[9] == 7;
    is_failing = 1;
    allocations = 2;
    is_right = is_right && !journal_memory_grow(&memory, 101) && memory.size == 100 && memory.bytes[9] == 7;
    is_failing = 0;
    journal_memory_free(&memory);
    outcome("memory", "-", 0, is_right && memory.bytes == NULL && memory.size == 0);
}

/* A call is made again if it has more bytes than the memory, which grows; an allocation that fails is its error. */
static void check_memory_for(void) {
    static const int64_t enough[] = {JOURNAL_MALFORMED, 0, 1, 10};
    struct journal_memory memory = {NULL, 0};
    int64_t result = 10;
    int is_right = journal_memory_grow_for(&memory, &result) && memory.size == 10 && result == 10;

    for (size_t i = 0; i < sizeof enough / sizeof enough[0]; i++) {
        result = enough[i];
        is_right = is_right && !journal_memory_grow_for(&memory, &result) && memory.size == 10 && result == enough[i];
    }
    is_failing = 1;
    allocations = 2;
    result = 11;
    is_right = is_right && !journal_memory_grow_for(&memory, &result) && memory.size == 10;
    outcome("memory for a call", "-", 0, is_right && result == JOURNAL_OUT_OF_MEMORY);
    is_failing = 0;
    journal_memory_free(&memory);
}

/* The text of a difference, which is written once there is memory for it. */
static void check_call(void) {
    static const uint8_t first[] = {0x0A, 1, 'a'}, second[] = {0x0A, 1, 'b'};
    static const char wanted[] = "\n   key: 'a' != 'b'";
    struct journal_memory memory = {NULL, 0};
    int64_t length;

    do {
        length = journal_difference(JOURNAL_TYPE_SET_STATE_COMMAND, first, sizeof first, second, sizeof second,
                                    memory.bytes, memory.size);
    } while (journal_memory_grow_for(&memory, &length));
    outcome("a call that is made again", "-", 0, length == (int64_t)strlen(wanted) &&
            memcmp(memory.bytes, wanted, (size_t)length) == 0);
    journal_memory_free(&memory);
}

/* Each beginning of an item is the rest of a stream that ends there, after an item and without one. */
static void check_rest(void) {
    static const uint8_t stream[] = {0x00, 0x03, 0,    0,    0,    0,    0,    0,   0x04,
                                     0x03, 0xFF, 0xFF, 0x80, 0x01, 0x02, 0x03, 0x0A};
    const size_t first = 8;

    for (size_t length = 0; length <= sizeof stream; length++) {
        struct journal_reader reader = journal_reader_of(8, UINT32_MAX);
        struct journal_reader_item item;
        const size_t begin = length < first ? 0 : first;
        int is_right = journal_reader_feed(&reader, stream, length) == 0;

        while (journal_reader_next(&reader, &item) == 1) {
        }
        is_right = is_right && has_rest(&reader, begin, stream + begin, length - begin);
        journal_reader_free(&reader);
        outcome("the rest", "-", length, is_right && has_rest(&reader, begin, NULL, 0));
        outcome("the rest of a recording", "-", length, journal_recorded_rest(8, stream, length) == length - begin);
    }
    outcome("the rest of no recording", "-", 0, journal_recorded_rest(8, NULL, 0) == 0);
    outcome("all at no version", "-", 0, journal_recorded_rest(4, stream, sizeof stream) == sizeof stream);
}

/* A code is that of a command, of a notification or of neither, whatever the name of its type is. */
static void check_codes(void) {
    int is_right = 1;

    for (uint32_t code = 0; code <= UINT16_MAX; code++) {
        const uint32_t upper = code >> 10;

        is_right = is_right && journal_is_command((uint16_t)code) == (upper >= 1 && upper < 32) &&
                   journal_is_notification((uint16_t)code) == (upper >= 32 && upper < 63);
    }
    outcome("the kind of each code", "-", 0, is_right);
    outcome("a command", "-", 0, journal_is_command(JOURNAL_TYPE_SET_STATE_COMMAND));
    outcome("a notification", "-", 0, journal_is_notification(JOURNAL_TYPE_SIGNAL_NOTIFICATION));
    outcome("neither a command", "-", 0, !journal_is_command(JOURNAL_TYPE_GET_STATE_EPHEMERAL_COMMAND));
    outcome("nor a notification", "-", 0, !journal_is_notification(JOURNAL_TYPE_GET_STATE_EPHEMERAL_NOTIFICATION));
}

/* Each error has a text of its own; a number that is none has that of its kind. */
static void check_texts(void) {
    static const int64_t errors[] = {
        JOURNAL_MALFORMED, JOURNAL_OUT_OF_MEMORY, JOURNAL_NO_ROOM, JOURNAL_TOO_LONG, JOURNAL_UNKNOWN, JOURNAL_NO_ID,
        JOURNAL_NO_RESULT, JOURNAL_NOT_CANONICAL, JOURNAL_MALFORMED_SECOND, JOURNAL_UNKNOWN_VERSION,
        JOURNAL_UNKNOWN_SCHEMA, JOURNAL_UNKNOWN_TYPE, JOURNAL_UNKNOWN_OPTION,
    };
    const size_t count = sizeof errors / sizeof errors[0];
    int is_right = strcmp(journal_error_text(JOURNAL_MALFORMED), "malformed payload") == 0;

    for (size_t i = 0; i < count; i++) {
        for (size_t j = 0; j < i; j++) {
            is_right = is_right && strcmp(journal_error_text(errors[i]), journal_error_text(errors[j])) != 0;
        }
    }
    outcome("texts of errors", "-", 0, is_right);
    outcome("a later error of a kind", "-", 0, strcmp(journal_error_text(-84 - 1), "unknown") == 0);
    outcome("no kind", "-", 0, strcmp(journal_error_text(-16), "unknown error") == 0);
    outcome("no error", "-", 0, strcmp(journal_error_text(0), "no error") == 0);
}

/* The kinds have the names of their constants, which the cases of packages read too; any other number is unknown. */
static void check_names(void) {
    static const char *const verdicts[] = {"same",            "recorded_ended", "replayed_ended", "type_mismatch",
                                           "header_mismatch", "bad_recorded",   "bad_replayed",   "unknown"};
    int is_right = 1;

    for (uint64_t kind = JOURNAL_VERDICT_SAME; kind <= JOURNAL_VERDICT_BAD_REPLAYED + 1; kind++) {
        is_right = is_right && strcmp(journal_verdict_name(kind), verdicts[kind]) == 0;
    }
    outcome("the kinds of verdicts", "-", 0, is_right);
    outcome("a JSON text that is read", "-", 0, strcmp(journal_reading_name(JOURNAL_READ), "read") == 0);
    outcome("a table that is written", "-", 0, strcmp(journal_writing_name(JOURNAL_WRITTEN), "written") == 0);
    outcome("one that is not", "-", 0,
            strcmp(journal_writing_name(JOURNAL_ENTRY_OUT_OF_BOUNDS), "out_of_bounds") == 0);
    outcome("the name of a signal", "-", 0, strcmp(journal_id_name(JOURNAL_SIGNAL_NAME), "signal_name") == 0);
    outcome("a failure", "-", 0, strcmp(journal_result_name(JOURNAL_RESULT_FAILURE), "failure") == 0);
    outcome("any number", "-", 0, strcmp(journal_reading_name(UINT64_MAX), "unknown") == 0 &&
            strcmp(journal_writing_name(UINT64_MAX), "unknown") == 0 &&
            strcmp(journal_id_name(UINT64_MAX), "unknown") == 0 &&
            strcmp(journal_result_name(UINT64_MAX), "unknown") == 0);
}

int main(int count, char **words) {
    for (int i = 2; i < count; i++) {
        check_stream((uint32_t)strtoul(words[1], NULL, 10), words[i]);
    }
    check_memory();
    check_memory_for();
    check_call();
    check_rest();
    check_codes();
    check_texts();
    check_names();
    printf("%ld passed, %ld failed\n", passed, failed);
    return failed != 0;
}
