/*
 * Checks the cases of conformance/packages.cases on the standard input, as far as C has what they are of:
 * test_packages SCHEMAS < LINES
 *
 * SCHEMAS is a file with the names of the schemas, one per line, in the order of their numbers. conformance/README.md
 * specifies a line. Streams are read by pendratsoa_reader.h, records by pendratsoa_messages.h. C has no call for the
 * lines of the kinds `as` and `message`, no loop over a source for `not_strict`, and no text for those of the kinds
 * `text` and `name`; a line of no kind fails. An arena names a field by its record and its number, so a path is looked
 * up here. The last line is 'N passed, M failed'.
 */
#define _POSIX_C_SOURCE 200809L
#include <pendratsoa_messages.h>
#include <pendratsoa_reader.h>

#include <stdarg.h>

#define PROGRAM "test_packages"
#include "words.h"

/* Appends a text to what was found. */
static void say(const char *format, ...) {
    char text[256];
    va_list arguments;

    va_start(arguments, format);
    vsnprintf(text, sizeof text, format, arguments);
    va_end(arguments);
    append_text(&found, text);
}

/* Appends the name of a type, or a dash if no type has the code. */
static void say_name(uint64_t code) {
    int64_t length = WRITTEN(journal_type_name((uint16_t)code, written.bytes, written.room));

    if (length < 0) {
        say("-");
    } else {
        append(&found, written.bytes, (size_t)length);
    }
}

/*
 * Streams.
 */

/* How a stream ends. */
static void say_end(const struct journal_reader *reader, int64_t result) {
    const struct journal_reader_rest rest = journal_reader_finish(reader);

    if (result == JOURNAL_TOO_LONG) {
        say("too_long %" PRIu64 " ", rest.offset);
        say_name(rest.code);
        say(" %" PRIu32, rest.length);
    } else if (result < 0) {
        say("%s", journal_error_text(result));
    } else if (rest.size == 0) {
        say("whole");
    } else {
        say("incomplete %" PRIu64 " %zu ", rest.offset, rest.size);
        if (rest.has_code) {
            say_name(rest.code);
        } else {
            say("-");
        }
    }
}

/* The items of a stream in these chunks, and how it ends: what came is in them, or is left. */
static void say_stream(uint32_t version, uint32_t limit, const struct buffer *chunks, size_t count) {
    struct journal_reader reader = journal_reader_of(version, limit);
    struct journal_reader_item item;
    size_t items = 0, came = 0;
    int64_t result = 0;

    for (size_t i = 0; result >= 0 && i < count; i++) {
        came += chunks[i].length;
        if (journal_reader_feed(&reader, chunks[i].bytes, chunks[i].length) < 0) {
            fail("out of memory");
        }
        for (; (result = journal_reader_next(&reader, &item)) == 1; items++) {
            say("%" PRIu64 " ", item.offset);
            list_item(&found, &item.item);
        }
    }
    if (result < 0 && journal_reader_next(&reader, &item) != result) {
        say("another error at once");
    }
    if (journal_reader_finish(&reader).offset + journal_reader_pending(&reader) != came) {
        say("bytes that are lost");
    }
    if (items > 0) {
        /* a comma and a space come after the last item */
        found.length -= 2;
        say("; ");
    }
    say_end(&reader, result);
    journal_reader_free(&reader);
}

#define CHUNKS 8

static void items(void) {
    const uint32_t version = next_version();
    const char *limit = next_word();
    const uint32_t most = strcmp(limit, "-") == 0 ? UINT32_MAX : (uint32_t)strtoul(limit, NULL, 10);
    struct buffer chunks[CHUNKS] = {{NULL, 0, 0}}, whole = {NULL, 0, 0};
    struct buffer *bytes;
    size_t count = 0, first;

    append(&whole, NULL, 0);
    for (const char *word; (word = strtok(NULL, " ")) != NULL; count++) {
        if (count == CHUNKS) {
            fail("a line has too many chunks");
        }
        append(&chunks[count], NULL, 0);
        append_word(&chunks[count], word);
        append(&whole, chunks[count].bytes, chunks[count].length);
    }
    bytes = (struct buffer *)calloc(whole.length + 1, sizeof *bytes);
    if (bytes == NULL) {
        fail("out of memory");
    }
    for (size_t i = 0; i < whole.length; i++) {
        bytes[i].bytes = whole.bytes + i;
        bytes[i].length = 1;
    }
    say_stream(version, most, chunks, count);
    first = found.length;
    for (int way = 0; way < 2; way++) {
        say_stream(version, most, way == 0 ? &whole : bytes, way == 0 ? 1 : whole.length);
        if (found.length == 2 * first && memcmp(found.bytes, found.bytes + first, first) == 0) {
            found.length = first;
        } else {
            say(", and other items in other chunks");
        }
    }
    for (size_t i = 0; i < count; i++) {
        free(chunks[i].bytes);
    }
    free(bytes);
    free(whole.bytes);
}

/* A reader of the items of a stream that is there as a whole. */
static struct journal_reader reader_of_next(uint32_t version) {
    struct journal_reader reader = journal_reader_of(version, UINT32_MAX);
    struct buffer stream = next_bytes();

    if (journal_reader_feed(&reader, stream.bytes, stream.length) < 0) {
        fail("out of memory");
    }
    free(stream.bytes);
    return reader;
}

/* What a call returns that reads the payload of a message. */
static int64_t read_by(const char *call, uint32_t version, const struct journal_reader_item *item) {
    const uint16_t code = (uint16_t)item->item.code;
    const int64_t schema = journal_schema(version, code);
    struct journal_notification notification;

    if (strcmp(call, "frame") == 0) {
        return WRITTEN(journal_frame(version, code, item->payload, item->payload_length, written.bytes, written.room));
    }
    if (strcmp(call, "notification") == 0) {
        return WRITTEN(journal_notification(code, item->payload, item->payload_length, &notification,
                                            JOURNAL_NOTIFICATION_NUMBERS, written.bytes, written.room));
    }
    if (schema < 0) {
        return schema;
    }
    if (strcmp(call, "json") == 0) {
        return WRITTEN(journal_json((uint32_t)schema, item->payload, item->payload_length, written.bytes,
                                    written.room));
    }
    if (strcmp(call, "canonical") == 0) {
        return WRITTEN(journal_canonical((uint32_t)schema, item->payload, item->payload_length, written.bytes,
                                         written.room));
    }
    if (journal_fields((uint32_t)schema, item->payload, item->payload_length, NULL, 0) == JOURNAL_MALFORMED) {
        return JOURNAL_MALFORMED;
    }
    return 0;
}

static void read_messages(void) {
    const char *call = next_word();
    const uint32_t version = next_version();
    struct journal_reader reader = reader_of_next(version);
    struct journal_reader_item item;

    while (journal_reader_next(&reader, &item) == 1) {
        const int is_message = item.item.kind == JOURNAL_ITEM_MESSAGE;
        const int64_t result = is_message ? read_by(call, version, &item) : 0;
        const char *error = result == JOURNAL_MALFORMED   ? "malformed"
                            : result == JOURNAL_NO_ID     ? "no_id"
                            : result == JOURNAL_NO_RESULT ? "no_result"
                                                          : NULL;

        say(found.length > 0 ? ", " : "");
        if (!is_message || (result == JOURNAL_UNKNOWN_TYPE && strcmp(call, "record") == 0)) {
            say("none");
        } else if (error != NULL) {
            say("%s ", error);
            say_name(item.item.code);
            say(" %" PRIu64, item.offset);
        } else {
            say(JOURNAL_KIND_OF_ERROR(result) == JOURNAL_UNKNOWN ? "unknown" : result < 0 ? "refused" : "ok");
        }
    }
    journal_reader_free(&reader);
}

/*
 * Replays.
 */

static void compare(void) {
    const uint32_t version = next_version();
    const uint32_t is_ignored = strcmp(next_word(), "yes") == 0;
    struct buffer recorded = next_bytes(), replayed = next_bytes();
    struct journal_verdict verdict = {0, 0};
    int64_t length = WRITTEN(journal_verdict(version, recorded.bytes, recorded.length, replayed.bytes, replayed.length,
                                             is_ignored, &verdict, JOURNAL_VERDICT_NUMBERS, written.bytes,
                                             written.room));

    say("%s %" PRIu64, length < 0 ? journal_error_text(length) : journal_verdict_name(verdict.kind), verdict.index);
    free(recorded.bytes);
    free(replayed.bytes);
}

/* A replay of the next words. */
static struct journal_replay next_replay(uint32_t version) {
    struct journal_replay replay = {version, 0, 0, 0, 0, 0};
    const char *ignored = next_word();

    replay.options = strcmp(ignored, "yes") == 0   ? JOURNAL_REPLAY_IGNORE_PAYLOADS
                     : strcmp(ignored, "ids") == 0 ? JOURNAL_REPLAY_IGNORE_IDS
                                                   : 0;
    return replay;
}

static int64_t check_item(const struct buffer *recorded, const struct journal_reader_item *item,
                          struct journal_replay *replay, struct journal_mismatch *mismatch) {
    return journal_replay_check((uint16_t)item->item.code, recorded->bytes, recorded->length, item->payload,
                                item->payload_length, replay, JOURNAL_REPLAY_NUMBERS, mismatch,
                                JOURNAL_MISMATCH_NUMBERS);
}

static int64_t finish(const struct buffer *recorded, const struct journal_replay *replay,
                      struct journal_mismatch *mismatch) {
    return journal_replay_finish(recorded->bytes, recorded->length, replay, JOURNAL_REPLAY_NUMBERS, mismatch,
                                 JOURNAL_MISMATCH_NUMBERS);
}

/* The changed fields of the mismatch of an item. */
static void say_fields(const struct buffer *recorded, const struct journal_reader_item *item,
                       const struct journal_mismatch *mismatch) {
    const uint8_t *first = recorded->bytes + mismatch->recorded_offset + 8;
    struct journal_changed_field field;

    for (uint32_t index = 0;; index++) {
        int64_t length = WRITTEN(journal_changed_field((uint16_t)item->item.code, index, first,
                                                       (size_t)mismatch->recorded_size - 8, item->payload,
                                                       item->payload_length, &field, JOURNAL_CHANGED_FIELD_NUMBERS,
                                                       written.bytes, written.room));

        if (length <= 0) {
            return;
        }
        say(" ");
        append(&found, written.bytes, (size_t)field.name_length);
        say(" ");
        append_hex(&found, written.bytes + field.name_length, (size_t)field.first_length);
        say(" ");
        append_hex(&found, written.bytes + field.name_length + field.first_length, (size_t)field.second_length);
    }
}

/* Where a replay leaves its recording; no item if that is its end. */
static void say_mismatch(const struct buffer *recorded, const struct journal_reader_item *item,
                         const struct journal_replay *replay, const struct journal_mismatch *mismatch) {
    say("%s %" PRIu64, journal_verdict_name(mismatch->kind), mismatch->index);
    if (mismatch->recorded_size == 0) {
        say(" -");
    } else {
        say(" %" PRIu64, mismatch->recorded_offset);
    }
    say(" %" PRIu64 " ", mismatch->replayed_offset);
    if (mismatch->kind != JOURNAL_VERDICT_TYPE_MISMATCH && mismatch->kind != JOURNAL_VERDICT_HEADER_MISMATCH) {
        say("-");
        return;
    }
    say_written(WRITTEN(journal_replay_text((uint16_t)item->item.code, recorded->bytes, recorded->length,
                                            item->payload, item->payload_length, replay, JOURNAL_REPLAY_NUMBERS,
                                            written.bytes, written.room)));
    if (mismatch->kind == JOURNAL_VERDICT_HEADER_MISMATCH) {
        say_fields(recorded, item, mismatch);
    }
}

static void mismatch(void) {
    const uint32_t version = next_version();
    struct journal_replay replay = next_replay(version);
    struct buffer recorded = next_bytes();
    struct journal_reader reader = reader_of_next(version);
    struct journal_reader_item item;
    struct journal_mismatch said;

    while (journal_reader_next(&reader, &item) == 1) {
        if (check_item(&recorded, &item, &replay, &said) != 0) {
            say_mismatch(&recorded, &item, &replay, &said);
        }
    }
    if (finish(&recorded, &replay, &said) != 0) {
        say_mismatch(&recorded, &item, &replay, &said);
    }
    if (found.length == 0) {
        say("none");
    }
    journal_reader_free(&reader);
    free(recorded.bytes);
}

/* How many commands were the same, and which command comes next. */
static void say_expected(const struct buffer *recorded, const struct journal_replay *replay) {
    struct journal_command command;

    say(" %" PRIu64, replay->index);
    if (journal_replay_expected(recorded->bytes, recorded->length, replay, JOURNAL_REPLAY_NUMBERS, &command,
                                JOURNAL_COMMAND_NUMBERS) != 0) {
        say(" %" PRIu64 " ", command.offset);
        say_name(command.code);
    }
}

static void replay(void) {
    const uint32_t version = next_version();
    struct journal_replay checked = next_replay(version);
    struct buffer recorded = next_bytes();
    struct journal_reader reader = reader_of_next(version);
    struct journal_reader_item item;
    struct journal_mismatch said;

    say("none");
    say_expected(&recorded, &checked);
    while (journal_reader_next(&reader, &item) == 1) {
        say(", %s", check_item(&recorded, &item, &checked, &said) == 0 ? "none" : journal_verdict_name(said.kind));
        say_expected(&recorded, &checked);
    }
    if (finish(&recorded, &checked, &said) == 0) {
        say("; none");
    } else {
        say("; %s %" PRIu64, journal_verdict_name(said.kind), said.index);
    }
    journal_reader_free(&reader);
    free(recorded.bytes);
}

/* How many bytes of a recording follow its last whole item. */
static void rest(void) {
    const uint32_t version = next_version();
    struct buffer recorded = next_bytes();

    say("%zu", journal_recorded_rest(version, recorded.bytes, recorded.length));
    free(recorded.bytes);
}

/*
 * Records.
 */

/* The words of the fields of a record, as name=word. */
#define WORDS 8
static char *words[WORDS];
static size_t word_count;
/* The bytes that the record points to. */
static struct buffer held[2 * WORDS];
static size_t held_count;
/* The path to the first number that its field cannot hold. */
static const char *out_of_range;

/* The word of a field, or null. */
static const char *word_of(const char *name) {
    const size_t length = strlen(name);

    for (size_t i = 0; i < word_count; i++) {
        if (strncmp(words[i], name, length) == 0 && words[i][length] == '=') {
            return words[i] + length + 1;
        }
    }
    return NULL;
}

static struct journal_slice slice_of(const char *word) {
    struct buffer *buffer = &held[held_count++];
    struct journal_slice slice;

    buffer->length = 0;
    append(buffer, NULL, 0);
    append_word(buffer, word);
    slice.at = buffer->bytes;
    slice.length = buffer->length;
    return slice;
}

static struct journal_slice bytes_of(const char *name) {
    const char *word = word_of(name);

    return slice_of(word == NULL ? "-" : word);
}

/* The number of a field, which is at most this. */
static uint64_t number_of(const char *name, const char *path, uint64_t most) {
    const char *word = word_of(name);
    char text[32];
    uint64_t number;

    if (word == NULL) {
        return 0;
    }
    number = strtoull(word, NULL, 10);
    /* a greater one is written otherwise than it is read */
    snprintf(text, sizeof text, "%" PRIu64, number);
    if ((strcmp(text, word) != 0 || number > most) && out_of_range == NULL) {
        out_of_range = path;
    }
    return number;
}

static uint32_t u32_of(const char *name) { return (uint32_t)number_of(name, name, UINT32_MAX); }

static int32_t enum_of(const char *name) {
    const char *word = word_of(name);
    const int64_t number = word == NULL ? 0 : strtoll(word, NULL, 10);

    if ((number < INT32_MIN || number > INT32_MAX) && out_of_range == NULL) {
        out_of_range = name;
    }
    return (int32_t)number;
}

static struct journal_StartMessage start_of_words(void) {
    struct journal_StartMessage record;

    memset(&record, 0, sizeof record);
    record.id = bytes_of("id");
    record.debug_id = bytes_of("debug_id");
    record.known_entries = u32_of("known_entries");
    record.partial_state = word_of("partial_state") != NULL;
    record.duration_since_last_stored_entry =
        number_of("duration_since_last_stored_entry", "duration_since_last_stored_entry", UINT64_MAX);
    record.has_scope = word_of("scope") != NULL;
    record.scope = bytes_of("scope");
    return record;
}

static struct journal_ErrorMessage error_of_words(void) {
    struct journal_ErrorMessage record;

    memset(&record, 0, sizeof record);
    record.code = u32_of("code");
    record.has_related_command_index = word_of("related_command_index") != NULL;
    record.related_command_index = u32_of("related_command_index");
    record.behavior = enum_of("behavior");
    return record;
}

/* The headers of the record of the line's fields. */
static struct journal_Header headers[WORDS];

static struct journal_InputCommandMessage input_of_words(void) {
    struct journal_InputCommandMessage record;
    char pairs[256] = "", *rest = pairs, *pair, *value;

    memset(&record, 0, sizeof record);
    snprintf(pairs, sizeof pairs, "%s", word_of("headers") == NULL ? "" : word_of("headers"));
    while ((pair = strtok_r(rest, ",", &rest)) != NULL) {
        value = strchr(pair, ':');
        *value++ = '\0';
        headers[record.headers_count].key = slice_of(pair);
        headers[record.headers_count].value = slice_of(value);
        record.headers_count++;
    }
    record.headers = headers;
    record.has_value = word_of("value") != NULL;
    record.value.content = bytes_of("value");
    return record;
}

static struct journal_SendSignalCommandMessage signal_of_words(void) {
    struct journal_SendSignalCommandMessage record;

    memset(&record, 0, sizeof record);
    record.target_invocation_id = bytes_of("target_invocation_id");
    record.signal_id_case = word_of("idx") != NULL    ? JOURNAL_SEND_SIGNAL_COMMAND_SIGNAL_ID_IDX
                            : word_of("name") != NULL ? JOURNAL_SEND_SIGNAL_COMMAND_SIGNAL_ID_NAME
                                                      : JOURNAL_SEND_SIGNAL_COMMAND_SIGNAL_ID_ABSENT;
    record.signal_id.idx = u32_of("idx");
    record.signal_id.name = bytes_of("name");
    record.result_case = word_of("void") != NULL      ? JOURNAL_SEND_SIGNAL_COMMAND_RESULT_VOID
                         : word_of("value") != NULL   ? JOURNAL_SEND_SIGNAL_COMMAND_RESULT_VALUE
                         : word_of("failure") != NULL ? JOURNAL_SEND_SIGNAL_COMMAND_RESULT_FAILURE
                                                      : JOURNAL_SEND_SIGNAL_COMMAND_RESULT_ABSENT;
    record.result.value.content = bytes_of("value");
    record.result.failure.code = (uint32_t)number_of("failure", "failure.code", UINT32_MAX);
    record.entry_name = bytes_of("entry_name");
    return record;
}

/* The path to the field of a record that is rejected, whose index in a list an arena does not have. */
static const char *path_of(const struct journal_arena *arena) {
    static const struct {
        uint32_t schema, number;
        const char *path;
    } paths[] = {{JOURNAL_SCHEMA_START, 2, "debug_id"},
                 {JOURNAL_SCHEMA_HEADER, 1, "headers[1].key"},
                 {JOURNAL_SCHEMA_HEADER, 2, "headers[0].value"},
                 {JOURNAL_SCHEMA_SEND_SIGNAL_COMMAND, 3, "name"}};

    for (size_t i = 0; i < sizeof paths / sizeof *paths; i++) {
        if (arena->rejected_schema == paths[i].schema && arena->rejected_number == paths[i].number) {
            return paths[i].path;
        }
    }
    return "another field";
}

/* The arenas of these lines need no more. */
static uint8_t memory[1 << 16];

static void encode(void) {
    const uint32_t version = next_version();
    const uint32_t schema = next_schema();
    struct journal_arena arena = journal_arena_of(memory, sizeof memory);
    int64_t length = JOURNAL_UNKNOWN_SCHEMA;

    out_of_range = NULL;
    held_count = 0;
    for (word_count = 0; (words[word_count] = strtok(NULL, " ")) != NULL; word_count++) {
        if (word_count + 1 == WORDS) {
            fail("a line has too many fields");
        }
    }
    if (schema == JOURNAL_SCHEMA_START) {
        const struct journal_StartMessage record = start_of_words();

        length = WRITTEN(journal_frame_StartMessage(version, &record, &arena, written.bytes, written.room));
    } else if (schema == JOURNAL_SCHEMA_ERROR) {
        const struct journal_ErrorMessage record = error_of_words();

        length = WRITTEN(journal_frame_ErrorMessage(version, &record, &arena, written.bytes, written.room));
    } else if (schema == JOURNAL_SCHEMA_INPUT_COMMAND) {
        const struct journal_InputCommandMessage record = input_of_words();

        length = WRITTEN(journal_frame_InputCommandMessage(version, &record, &arena, written.bytes, written.room));
    } else if (schema == JOURNAL_SCHEMA_SEND_SIGNAL_COMMAND) {
        const struct journal_SendSignalCommandMessage record = signal_of_words();

        length = WRITTEN(journal_frame_SendSignalCommandMessage(version, &record, &arena, written.bytes, written.room));
    }
    if (out_of_range != NULL) {
        say("out_of_range %s", out_of_range);
    } else if (length == JOURNAL_MALFORMED && arena.rejected_kind == JOURNAL_ENTRY_NOT_UTF8) {
        say("not_utf8 %s", path_of(&arena));
    } else if (length == JOURNAL_UNKNOWN_VERSION) {
        say("unknown");
    } else {
        say_written(length);
    }
}

/* Says a field, after the ones before it. */
static void say_field(const char *name) { say("%s%s=", found.length > 0 ? ", " : "", name); }

static void say_bytes(const char *name, bool is_there, struct journal_slice slice) {
    if (is_there) {
        say_field(name);
        append_hex(&found, slice.at, slice.length);
    }
}

static void say_number(const char *name, bool is_there, uint64_t number) {
    if (is_there) {
        say_field(name);
        say("%" PRIu64, number);
    }
}

static void say_start(const struct journal_StartMessage *record) {
    say_bytes("id", record->id.length > 0, record->id);
    say_bytes("debug_id", record->debug_id.length > 0, record->debug_id);
    say_number("known_entries", record->known_entries != 0, record->known_entries);
    if (record->partial_state) {
        say_field("partial_state");
        say("true");
    }
    say_number("duration_since_last_stored_entry", record->duration_since_last_stored_entry != 0,
               record->duration_since_last_stored_entry);
    say_bytes("scope", record->has_scope, record->scope);
}

static void say_error(const struct journal_ErrorMessage *record) {
    say_number("code", record->code != 0, record->code);
    say_number("related_command_index", record->has_related_command_index, record->related_command_index);
    if (record->behavior != 0) {
        say_field("behavior");
        say("%" PRId32, record->behavior);
    }
}

static void say_input(const struct journal_InputCommandMessage *record) {
    for (size_t i = 0; i < record->headers_count; i++) {
        say(i == 0 ? "headers=" : ",");
        append_hex(&found, record->headers[i].key.at, record->headers[i].key.length);
        say(":");
        append_hex(&found, record->headers[i].value.at, record->headers[i].value.length);
    }
    say_bytes("value", record->has_value, record->value.content);
}

static void say_signal(const struct journal_SendSignalCommandMessage *record) {
    const struct journal_slice nothing = {NULL, 0};

    say_bytes("target_invocation_id", record->target_invocation_id.length > 0, record->target_invocation_id);
    say_number("idx", record->signal_id_case == JOURNAL_SEND_SIGNAL_COMMAND_SIGNAL_ID_IDX, record->signal_id.idx);
    say_bytes("name", record->signal_id_case == JOURNAL_SEND_SIGNAL_COMMAND_SIGNAL_ID_NAME, record->signal_id.name);
    say_bytes("void", record->result_case == JOURNAL_SEND_SIGNAL_COMMAND_RESULT_VOID, nothing);
    say_bytes("value", record->result_case == JOURNAL_SEND_SIGNAL_COMMAND_RESULT_VALUE, record->result.value.content);
    say_number("failure", record->result_case == JOURNAL_SEND_SIGNAL_COMMAND_RESULT_FAILURE,
               record->result.failure.code);
    say_bytes("entry_name", record->entry_name.length > 0, record->entry_name);
}

static void decode(void) {
    const uint32_t schema = next_schema();
    struct buffer payload = next_bytes();
    struct journal_arena arena = journal_arena_of(memory, sizeof memory);
    int64_t result = JOURNAL_UNKNOWN_SCHEMA;

    if (schema == JOURNAL_SCHEMA_START) {
        struct journal_StartMessage record;

        result = journal_read_StartMessage(payload.bytes, payload.length, &record, &arena);
        say_start(&record);
    } else if (schema == JOURNAL_SCHEMA_ERROR) {
        struct journal_ErrorMessage record;

        result = journal_read_ErrorMessage(payload.bytes, payload.length, &record, &arena);
        say_error(&record);
    } else if (schema == JOURNAL_SCHEMA_INPUT_COMMAND) {
        struct journal_InputCommandMessage record;

        result = journal_read_InputCommandMessage(payload.bytes, payload.length, &record, &arena);
        say_input(&record);
    } else if (schema == JOURNAL_SCHEMA_SEND_SIGNAL_COMMAND) {
        struct journal_SendSignalCommandMessage record;

        result = journal_read_SendSignalCommandMessage(payload.bytes, payload.length, &record, &arena);
        say_signal(&record);
    }
    if (found.length == 0) {
        say(result == JOURNAL_MALFORMED ? "malformed" : result < 0 ? journal_error_text(result) : "-");
    }
    free(payload.bytes);
}

/*
 * JSON and numbers.
 */

static void json(void) {
    const uint32_t version = next_version();
    const char *name = next_word();
    struct buffer text = next_bytes();
    struct journal_reading reading = {0, 0};
    const int64_t code = journal_type_code((const uint8_t *)name, strlen(name));
    const int64_t schema = code < 0 ? code : journal_schema(version, (uint16_t)code);
    int64_t length;

    if (schema < 0) {
        say(JOURNAL_KIND_OF_ERROR(schema) == JOURNAL_UNKNOWN ? "unknown" : "refused");
        free(text.bytes);
        return;
    }
    length = WRITTEN(journal_payload_of_json((uint32_t)schema, text.bytes, text.length, &reading, JOURNAL_READ_NUMBERS,
                                             written.bytes, written.room));
    if (length < 0 || reading.kind == JOURNAL_READ || reading.kind > JOURNAL_JSON_TOO_DEEP) {
        say_written(length);
    } else if (reading.kind == JOURNAL_JSON_NOT_JSON) {
        say("%s %" PRIu64, journal_reading_name(reading.kind), reading.offset);
    } else {
        say("%s%s", journal_reading_name(reading.kind), length > 0 ? " " : "");
        append(&found, written.bytes, (size_t)length);
    }
    free(text.bytes);
}

/* The number of the next word, and whether it is at most this. */
static uint64_t next_number(uint64_t most, bool *is_in) {
    const char *word = next_word();
    const uint64_t number = strtoull(word, NULL, 10);
    char text[32];

    snprintf(text, sizeof text, "%" PRIu64, number);
    *is_in = strcmp(text, word) == 0 && number <= most;
    return number;
}

/* A message of a type with a payload: the header of its type, and the payload. */
static void new_message(void) {
    bool is_version, is_code;
    const uint64_t version = next_number(UINT32_MAX, &is_version);
    const uint64_t code = next_number(UINT16_MAX, &is_code);
    struct buffer payload = next_bytes(), message = {NULL, 0, 0};
    struct journal_item item;
    uint8_t header[8];
    int64_t result = JOURNAL_UNKNOWN;

    if (is_version && is_code) {
        result = journal_header((uint32_t)version, (uint16_t)code, (uint32_t)payload.length, header, sizeof header);
    }
    if (result < 0) {
        say(JOURNAL_KIND_OF_ERROR(result) == JOURNAL_UNKNOWN ? "unknown" : "refused");
    } else {
        append(&message, header, sizeof header);
        append(&message, payload.bytes, payload.length);
        if (journal_next((uint32_t)version, message.bytes, message.length, &item, JOURNAL_ITEM_NUMBERS) == 0 &&
            item.size == message.length) {
            list_item(&found, &item);
        }
        append_hex(&found, message.bytes, message.length);
    }
    free(payload.bytes);
    free(message.bytes);
}

static void number(void) {
    const char *what = next_word();
    const bool is_code = strcmp(what, "code") == 0, is_version = strcmp(what, "version") == 0;
    struct journal_item item;
    bool is_in;
    const uint64_t given = next_number(is_code ? UINT16_MAX : UINT32_MAX, &is_in);
    int64_t result = JOURNAL_UNKNOWN;

    if (is_in && is_version) {
        result = journal_next((uint32_t)given, NULL, 0, &item, JOURNAL_ITEM_NUMBERS);
    } else if (is_in && is_code) {
        result = journal_type_name((uint16_t)given, NULL, 0);
    } else if (is_in) {
        result = journal_is_well_formed((uint32_t)given, NULL, 0);
    }
    say(JOURNAL_KIND_OF_ERROR(result) == JOURNAL_UNKNOWN ? "unknown" : result < 0 ? "refused" : "known");
}

static void limit(void) {
    bool is_in;
    const uint64_t given = next_number(UINT32_MAX, &is_in);
    struct journal_reader reader = journal_reader_of(8, (uint32_t)given);
    struct journal_reader_item item;

    say(!is_in ? "out_of_range" : journal_reader_next(&reader, &item) == 0 ? "ok" : "refused");
}

static const struct kind_of_line kinds[] = {{"items", items},       {"read", read_messages}, {"compare", compare},
                                            {"mismatch", mismatch}, {"replay", replay},      {"encode", encode},
                                            {"decode", decode},     {"json", json},          {"number", number},
                                            {"limit", limit},       {"rest", rest},          {"new", new_message},
                                            {"as", NULL},           {"message", NULL},       {"not_strict", NULL},
                                            {"text", NULL},         {"name", NULL}};

static int check_line(char *line) { return check_words(line, kinds, sizeof kinds / sizeof *kinds); }

int main(int count, char **arguments) {
    const int status = check_lines(count, arguments, check_line, &found);

    for (size_t i = 0; i < 2 * WORDS; i++) {
        free(held[i].bytes);
    }
    free(written.bytes);
    return status;
}
