/*
 * Reads each constant of pendratsoa.h by its name, and compares it with literal results of the library: constants
 *
 * It prints the name of each constant that agrees with what the library returns, and a line that begins with 'wrong: '
 * for each other; then its status is 1. scripts/checks/c.sh looks that no constant of the header is missing.
 *
 * It is linked with the static library and --wrap of malloc and realloc, so that an allocation can fail.
 */
#include <pendratsoa.h>

#include <stdio.h>
#include <stdlib.h>
#include <string.h>

#include "numbers.h"

#define COUNT(array) (sizeof(array) / sizeof *(array))

/* A constant is the number that is expected. */
#define IS(constant, expected) is(#constant, (long long)(constant), (long long)(expected))
/* The field of a struct is the expected number; it prints nothing then. */
#define FIELD(field, expected) field_is(#field, field, expected)
/* The code of a type that has this name, and the number of its schema. */
#define TYPE(name, text) \
    IS(JOURNAL_TYPE_##name, journal_type_code((const uint8_t *)text, sizeof text - 1)); \
    IS(JOURNAL_SCHEMA_##name, journal_schema(9, JOURNAL_TYPE_##name));
#define OTHER(name, number) IS(JOURNAL_SCHEMA_##name, number);

/* The command that sets "a" to nothing, the same of "b", a call, and a command that is malformed. */
#define SET_A 0x04, 0x03, 0, 0, 0, 0, 0, 3, 0x0A, 1, 'a'
#define SET_B 0x04, 0x03, 0, 0, 0, 0, 0, 3, 0x0A, 1, 'b'
#define CALL 0x04, 0x0D, 0, 0, 0, 0, 0, 0
#define BAD 0x04, 0x03, 0, 0, 0, 0, 0, 1, 0x07
/* Nine commands: an index that is not a kind of a verdict. */
#define NINE SET_A, SET_A, SET_A, SET_A, SET_A, SET_A, SET_A, SET_A, SET_A

void *__real_malloc(size_t size);
void *__real_realloc(void *block, size_t size);

static int refuses, failed;

void *__wrap_malloc(size_t size) {
    return refuses ? NULL : __real_malloc(size);
}

void *__wrap_realloc(void *block, size_t size) {
    return refuses ? NULL : __real_realloc(block, size);
}

static void is(const char *name, long long found, long long expected) {
    if (found == expected) {
        puts(name);
    } else {
        printf("wrong: %s: %lld is not %lld\n", name, found, expected);
        failed = 1;
    }
}

static void field_is(const char *name, uint64_t found, uint64_t expected) {
    if (found != expected) {
        printf("wrong: %s: %llu is not %llu\n", name, (unsigned long long)found, (unsigned long long)expected);
        failed = 1;
    }
}

static void refusals(void) {
    const uint8_t cut[] = {0x12}, headers[] = {0x22, 6, 0x12, 1, 'v', 0x0A, 1, 'k'};
    const uint8_t input[] = {0x04, 0, 0, 0, 0, 0, 0, 0};
    const uint8_t no_id[] = {0x22, 0}, no_result[] = {0x08, 1}, default_name[] = {0x0A, 0};
    struct journal_item item;
    struct journal_notification found;
    const struct journal_replay replay = {8, 4, 0, 0, 0, 0};
    struct journal_mismatch mismatch;
    int64_t unknown = journal_schema(4, 0x0400);

    IS(JOURNAL_MALFORMED, journal_canonical(13, cut, sizeof cut, NULL, 0));
    refuses = 1;
    IS(JOURNAL_OUT_OF_MEMORY, journal_canonical(33, headers, sizeof headers, NULL, 0));
    refuses = 0;
    IS(JOURNAL_NO_ROOM, journal_next(8, input, sizeof input, &item, 5));
    /* no case of less than 4 GiB shows it */
    IS(JOURNAL_TOO_LONG, -4);
    IS(JOURNAL_MALFORMED_SECOND, journal_merge(13, NULL, 0, cut, sizeof cut, NULL, 0));
    IS(JOURNAL_UNKNOWN_VERSION, unknown);
    IS(JOURNAL_UNKNOWN_SCHEMA, journal_is_well_formed(0xFFFFFFFF, NULL, 0));
    IS(JOURNAL_UNKNOWN_TYPE, journal_type_code(NULL, 0));
    IS(JOURNAL_UNKNOWN_OPTION, journal_replay_finish(NULL, 0, &replay, 6, &mismatch, 6));
    IS(JOURNAL_UNKNOWN, JOURNAL_KIND_OF_ERROR(unknown));
    is("JOURNAL_KIND_OF_ERROR", JOURNAL_KIND_OF_ERROR(JOURNAL_UNKNOWN_TYPE) == JOURNAL_UNKNOWN &&
       JOURNAL_KIND_OF_ERROR(JOURNAL_UNKNOWN_SCHEMA) == JOURNAL_UNKNOWN &&
       JOURNAL_KIND_OF_ERROR(JOURNAL_MALFORMED_SECOND) == JOURNAL_MALFORMED &&
       JOURNAL_KIND_OF_ERROR(JOURNAL_MALFORMED) == JOURNAL_MALFORMED && JOURNAL_KIND_OF_ERROR(15) == 15, 1);
    IS(JOURNAL_NO_ID, journal_notification(0x8002, no_id, sizeof no_id, &found, 4, NULL, 0));
    IS(JOURNAL_NO_RESULT, journal_notification(0x8002, no_result, sizeof no_result, &found, 4, NULL, 0));
    IS(JOURNAL_NOT_CANONICAL, journal_fields(33, default_name, sizeof default_name, NULL, 0));
}

static void numbers_of_the_protocol(void) {
    uint8_t version[16];
    int64_t length = journal_library_version(version, sizeof version);
    size_t named = strlen(JOURNAL_LIBRARY_VERSION);
    uint32_t first = 0, last, schemas = 0;

    while (journal_schema(first, 0) < 0) {
        first++;
    }
    last = first;
    while (journal_schema(last + 1, 0) >= 0) {
        last++;
    }
    while (journal_is_well_formed(schemas, NULL, 0) == 1) {
        schemas++;
    }
    IS(JOURNAL_FIRST_VERSION, first);
    IS(JOURNAL_LAST_VERSION, last);
    IS(JOURNAL_SCHEMAS, schemas);
    is("JOURNAL_LIBRARY_VERSION", length == (int64_t)named && memcmp(version, JOURNAL_LIBRARY_VERSION, named) == 0, 1);
}

static void items(void) {
    /* completion 1 with the value "x", which requests an acknowledgement; a message of an unknown type */
    const uint8_t proposal[] = {0, 5, 0x80, 0, 0, 0, 0, 5, 0x08, 1, 0x72, 1, 'x'};
    const uint8_t unknown[] = {0, 8, 0, 0, 0, 0, 0, 2, 0, 3};
    struct { struct journal_item item; uint64_t after; } found = {{0, 0, 0, 0, 0, 0}, 99};
    struct journal_item item;
    size_t room = 0;

    while (journal_next(8, proposal, sizeof proposal, &found.item, room) != 0) {
        room++;
    }
    IS(JOURNAL_ITEM_NUMBERS, room);
    item = found.item;
    FIELD(item.kind, 0);
    FIELD(item.word, 0x0005800000000000 + sizeof proposal - 8);
    FIELD(item.code, 5);
    FIELD(item.requested_ack, 1);
    FIELD(item.size, sizeof proposal);
    FIELD(item.payload, 8);
    IS(JOURNAL_ITEM_MESSAGE, item.kind);
    journal_next(8, unknown, sizeof unknown, &found.item, 7);
    IS(JOURNAL_ITEM_UNKNOWN_CODE, found.item.kind);
    journal_next(9, unknown, sizeof unknown, &found.item, 7);
    IS(JOURNAL_ITEM_SKIPPED, found.item.kind);
    FIELD(found.after, 99);
}

static void notifications(void) {
    const uint8_t completion[] = {0x08, 9, 0x22, 0}, signal[] = {0x10, 17, 0x2A, 3, 0x0A, 1, 'x'};
    const uint8_t named[] = {0x1A, 4, 's', 't', 'o', 'p', 0x82, 1, 3, 'i', 'n', 'v'};
    const uint8_t failure[] = {0x08, 9, 0x32, 2, 0x08, 5}, keys[] = {0x08, 9, 0x8A, 1, 3, 0x0A, 1, 'k'};
    struct { struct journal_notification notification; uint64_t after; } found = {{0, 0, 0, 0}, 99};
    struct journal_notification *notification = &found.notification;
    size_t room = 0;

    while (journal_notification(0x8002, completion, sizeof completion, notification, room, NULL, 0) < 0) {
        room++;
    }
    IS(JOURNAL_NOTIFICATION_NUMBERS, room);
    IS(JOURNAL_COMPLETION_ID, notification->id);
    IS(JOURNAL_RESULT_VOID, notification->result);
    FIELD(notification->number, 9);
    journal_notification(0xFBFF, signal, sizeof signal, notification, 5, NULL, 0);
    IS(JOURNAL_SIGNAL_ID, notification->id);
    IS(JOURNAL_RESULT_VALUE, notification->result);
    FIELD(notification->number, 17);
    journal_notification(0xFBFF, named, sizeof named, notification, 5, NULL, 0);
    IS(JOURNAL_SIGNAL_NAME, notification->id);
    IS(JOURNAL_RESULT_INVOCATION_ID, notification->result);
    FIELD(notification->id, 2);
    FIELD(notification->number, 0);
    FIELD(notification->name_length, 4);
    FIELD(notification->result, 3);
    journal_notification(0x8002, failure, sizeof failure, notification, 5, NULL, 0);
    IS(JOURNAL_RESULT_FAILURE, notification->result);
    journal_notification(0x8002, keys, sizeof keys, notification, 5, NULL, 0);
    IS(JOURNAL_RESULT_STATE_KEYS, notification->result);
    FIELD(found.after, 99);
}

static void verdicts(void) {
    const uint8_t nine[] = {NINE}, set_a[] = {NINE, SET_A}, set_b[] = {NINE, SET_B}, call[] = {NINE, CALL};
    const uint8_t bad[] = {NINE, BAD};
#define ROW(kind, recorded, replayed) {#kind, recorded, replayed, {sizeof recorded, sizeof replayed}, kind}
    const struct { const char *name; const uint8_t *recorded, *replayed; size_t lengths[2]; uint64_t kind; } rows[] = {
        ROW(JOURNAL_VERDICT_SAME, nine, nine),
        ROW(JOURNAL_VERDICT_RECORDED_ENDED, nine, set_a),
        ROW(JOURNAL_VERDICT_REPLAYED_ENDED, set_a, nine),
        ROW(JOURNAL_VERDICT_TYPE_MISMATCH, set_a, call),
        ROW(JOURNAL_VERDICT_HEADER_MISMATCH, set_a, set_b),
        ROW(JOURNAL_VERDICT_BAD_RECORDED, bad, set_a),
        ROW(JOURNAL_VERDICT_BAD_REPLAYED, set_a, bad),
    };
#undef ROW
    struct { struct journal_verdict verdict; uint64_t after; } found = {{0, 0}, 99};
    size_t room = 0;

    while (journal_verdict(8, NULL, 0, NULL, 0, 0, &found.verdict, room, NULL, 0) < 0) {
        room++;
    }
    IS(JOURNAL_VERDICT_NUMBERS, room);
    for (size_t i = 0; i < COUNT(rows); i++) {
        journal_verdict(8, rows[i].recorded, rows[i].lengths[0], rows[i].replayed, rows[i].lengths[1], 0,
                        &found.verdict, 3, NULL, 0);
        is(rows[i].name, (long long)rows[i].kind, (long long)found.verdict.kind);
        FIELD(found.verdict.kind, i);
        FIELD(found.verdict.index, 9);
    }
    FIELD(found.after, 99);
}

static void replays(void) {
    const uint8_t recorded[] = {NINE, SET_A}, other[] = {0x0A, 1, 'b'};
    struct { struct journal_replay replay; uint64_t after; } place = {
        {8, JOURNAL_REPLAY_IGNORE_PAYLOADS, 9, 88, 72, 0}, 77
    };
    struct { struct journal_mismatch mismatch; uint64_t after; } found = {{0, 0, 0, 0, 0, 0}, 77};
    struct { struct journal_command command; uint64_t after; } next = {{0, 0, 0}, 77};
    struct { struct journal_changed_field field; uint64_t after; } changed = {{0, 0, 0}, 77};
    size_t room = 0;

    IS(JOURNAL_REPLAY_IGNORE_PAYLOADS, 1);
    IS(JOURNAL_REPLAY_IGNORE_IDS, 2);
    while (journal_replay_expected(recorded, sizeof recorded, &place.replay, room, &next.command, 4) < 0) {
        room++;
    }
    IS(JOURNAL_REPLAY_NUMBERS, room);
    room = 0;
    while (journal_replay_expected(recorded, sizeof recorded, &place.replay, 7, &next.command, room) < 0) {
        room++;
    }
    IS(JOURNAL_COMMAND_NUMBERS, room);
    FIELD(next.command.offset, 99);
    FIELD(next.command.code, JOURNAL_TYPE_SET_STATE_COMMAND);
    FIELD(next.command.size, 11);
    room = 0;
    while (journal_replay_finish(recorded, sizeof recorded, &place.replay, 7, &found.mismatch, room) < 0) {
        room++;
    }
    IS(JOURNAL_MISMATCH_NUMBERS, room);
    journal_replay_check(JOURNAL_TYPE_SET_STATE_COMMAND, recorded, sizeof recorded, other, sizeof other, &place.replay,
                         7, &found.mismatch, 7);
    FIELD(place.replay.version, 8);
    FIELD(place.replay.options, 1);
    FIELD(place.replay.index, 9);
    FIELD(place.replay.recorded_offset, 88);
    FIELD(place.replay.replayed_offset, 72);
    FIELD(place.replay.has_said, 1);
    FIELD(found.mismatch.kind, JOURNAL_VERDICT_HEADER_MISMATCH);
    FIELD(found.mismatch.index, 9);
    FIELD(found.mismatch.replayed_offset, 72);
    FIELD(found.mismatch.recorded_offset, 99);
    FIELD(found.mismatch.recorded_code, JOURNAL_TYPE_SET_STATE_COMMAND);
    FIELD(found.mismatch.recorded_size, 11);
    room = 0;
    while (journal_changed_field(0x0402, 0, NULL, 0, other, sizeof other, &changed.field, room, NULL, 0) < 0) {
        room++;
    }
    IS(JOURNAL_CHANGED_FIELD_NUMBERS, room);
    FIELD(changed.field.name_length, 3);
    FIELD(changed.field.first_length, 2);
    FIELD(changed.field.second_length, 3);
    FIELD(place.after + found.after + next.after + changed.after, 4 * 77);
}

static void readings(void) {
    static const struct { const char *name, *text; uint32_t schema; uint64_t kind, offset; } rows[] = {
        {"JOURNAL_READ", "{\"serviceName\": \"s\"}", 33, JOURNAL_READ, 0},
        {"JOURNAL_JSON_NOT_JSON", "{\"serviceName\": s}", 33, JOURNAL_JSON_NOT_JSON, 16},
        {"JOURNAL_JSON_UNKNOWN_MEMBER", "{\"service\": \"s\"}", 33, JOURNAL_JSON_UNKNOWN_MEMBER, 0},
        {"JOURNAL_JSON_REPEATED_MEMBER", "{\"key\": \"\", \"key\": \"\"}", 33, JOURNAL_JSON_REPEATED_MEMBER, 0},
        {"JOURNAL_JSON_SEVERAL_MEMBERS", "{\"value\": \"\", \"failure\": {}}", 15, JOURNAL_JSON_SEVERAL_MEMBERS, 0},
        {"JOURNAL_JSON_WRONG_KIND", "{\"headers\": {}}", 33, JOURNAL_JSON_WRONG_KIND, 0},
        {"JOURNAL_JSON_OUT_OF_RANGE", "{\"resultCompletionId\": 1.5}", 33, JOURNAL_JSON_OUT_OF_RANGE, 0},
        {"JOURNAL_JSON_NOT_BASE64", "{\"parameter\": \"a\"}", 33, JOURNAL_JSON_NOT_BASE64, 0},
    };
    struct { struct journal_reading reading; uint64_t after; } found = {{0, 0}, 99};
    char deep[4096] = "";
    size_t room = 0;

    while (journal_payload_of_json(33, (const uint8_t *)"{}", 2, &found.reading, room, NULL, 0) < 0) {
        room++;
    }
    IS(JOURNAL_READ_NUMBERS, room);
    for (size_t i = 0; i < COUNT(rows); i++) {
        journal_payload_of_json(rows[i].schema, (const uint8_t *)rows[i].text, strlen(rows[i].text),
                                &found.reading, 3, NULL, 0);
        is(rows[i].name, (long long)rows[i].kind, (long long)found.reading.kind);
        FIELD(found.reading.kind, i);
        FIELD(found.reading.offset, rows[i].offset);
    }
    for (int level = 0; level <= 101; level++) {
        strcat(deep, "{\"nestedFutures\":[");
    }
    for (int level = 0; level <= 101; level++) {
        strcat(deep, "]}");
    }
    journal_payload_of_json(7, (const uint8_t *)deep, strlen(deep), &found.reading, 3, NULL, 0);
    IS(JOURNAL_JSON_TOO_DEEP, found.reading.kind);
    FIELD(found.after, 99);
}

/* The entry of a field of the message itself in a table of eight. The last of them has no field. */
static const struct journal_field *field_of(const struct journal_field *table, uint64_t number) {
    size_t i = 0;

    while (i < 7 && (table[i].level != 0 || table[i].number != number)) {
        i++;
    }
    return &table[i];
}

/* The fields of a StartMessage: bytes, a number, a state with a key, and a bool; and of others an enum, a text and
   numbers of 32 bits. */
static void fields(void) {
    const uint8_t start[] = {0x0A, 1, 'i', 0x22, 3, 0x0A, 1, 'k', 0x28, 1, 0x40, 9};
    const uint8_t future[] = {0x0A, 1, 7, 0x1A, 1, 's', 0x28, 1};
    const uint8_t entry[] = {0x0A, 1, 'k'};
    struct journal_field table[8] = {{9, 9, 9, 9, 9, 9}};
    const struct journal_field *state;

    FIELD((uint64_t)journal_fields(10, start, sizeof start, table, 8), 5);
    IS(JOURNAL_FIELD_BYTES, field_of(table, FIELD_START_ID)->kind);
    IS(JOURNAL_FIELD_BOOL, field_of(table, FIELD_START_PARTIAL_STATE)->kind);
    IS(JOURNAL_FIELD_UINT64, field_of(table, FIELD_START_DURATION_SINCE_LAST_STORED_ENTRY)->kind);
    FIELD(field_of(table, FIELD_START_DURATION_SINCE_LAST_STORED_ENTRY)->value, 9);
    state = field_of(table, FIELD_START_STATE_MAP);
    IS(JOURNAL_FIELD_MESSAGE, state->kind);
    FIELD(state->level, 0);
    FIELD(state->kind, 7);
    FIELD(state->value, JOURNAL_SCHEMA_STATE_ENTRY);
    FIELD(state->length, sizeof entry);
    FIELD((uint64_t)memcmp(start + state->offset, entry, sizeof entry), 0);
    FIELD(state[1].level, 1);
    /* an entry begins after so many numbers as a struct has */
    IS(JOURNAL_FIELD_NUMBERS, ((const uint64_t *)state)[6] == 1 ? 6 : 0);
    FIELD((uint64_t)journal_fields(7, future, sizeof future, table, 8), 3);
    IS(JOURNAL_FIELD_UINT32, field_of(table, FIELD_FUTURE_WAITING_COMPLETIONS)->kind);
    IS(JOURNAL_FIELD_STRING, field_of(table, FIELD_FUTURE_WAITING_NAMED_SIGNALS)->kind);
    IS(JOURNAL_FIELD_ENUM, field_of(table, FIELD_FUTURE_COMBINATOR_TYPE)->kind);
}

/* Tables of two fields. Only in the first table may the second field come. */
static void writings(void) {
#define A_HEADER {0, FIELD_CALL_COMMAND_HEADERS, 7, 4, 0, 0}
#define ITS_KEY(level, kind, offset, length) {level, FIELD_HEADER_KEY, kind, 0, offset, length}
#define KEY {0, FIELD_CALL_COMMAND_KEY, 5, 0, 0, 1}
#define ROW(name, schema, ...) {#name, schema, {__VA_ARGS__}, name}
    static const struct { const char *name; uint32_t schema; struct journal_field fields[2]; uint64_t kind; } rows[] = {
        ROW(JOURNAL_WRITTEN, 33, A_HEADER, ITS_KEY(1, 5, 0, 1)),
        ROW(JOURNAL_ENTRY_UNKNOWN_FIELD, 33, A_HEADER, {0, 1u << 29, 5, 0, 0, 1}),
        ROW(JOURNAL_ENTRY_OUT_OF_ORDER, 33, KEY, KEY),
        ROW(JOURNAL_ENTRY_SEVERAL_MEMBERS, 15, {0, FIELD_PROPOSE_RUN_COMPLETION_VALUE, 6, 0, 0, 1},
            {0, FIELD_PROPOSE_RUN_COMPLETION_FAILURE, 7, 2, 0, 0}),
        ROW(JOURNAL_ENTRY_WRONG_KIND, 33, A_HEADER, ITS_KEY(1, 6, 0, 1)),
        ROW(JOURNAL_ENTRY_OUT_OF_RANGE, 7, {0, FIELD_FUTURE_NESTED_FUTURES, 7, 7, 0, 0},
            {1, FIELD_FUTURE_COMBINATOR_TYPE, 4, 1u << 31, 0, 0}),
        ROW(JOURNAL_ENTRY_NOT_UTF8, 33, A_HEADER, ITS_KEY(1, 5, 1, 1)),
        ROW(JOURNAL_ENTRY_OUT_OF_BOUNDS, 33, A_HEADER, ITS_KEY(1, 5, 1, 2)),
        ROW(JOURNAL_ENTRY_WRONG_LEVEL, 33, A_HEADER, ITS_KEY(2, 5, 0, 1)),
    };
    static const struct journal_field twice[] = {
        {0, FIELD_PROPOSE_RUN_COMPLETION_VALUE, 6, 0, 0, 1}, {0, FIELD_PROPOSE_RUN_COMPLETION_VALUE, 6, 0, 0, 1}
    };
    const uint8_t bytes[] = {'k', 0xFF};
    struct { struct journal_writing writing; uint64_t after; } found = {{0, 0}, 99};
    struct journal_field deep[101];
    size_t room = 0;

    while (journal_payload_of_fields(33, NULL, 0, NULL, 0, &found.writing, room, NULL, 0) < 0) {
        room++;
    }
    IS(JOURNAL_WRITING_NUMBERS, room);
    for (size_t i = 0; i < COUNT(rows); i++) {
        journal_payload_of_fields(rows[i].schema, rows[i].fields, 2, bytes, sizeof bytes, &found.writing, 3, NULL, 0);
        is(rows[i].name, (long long)rows[i].kind, (long long)found.writing.kind);
        FIELD(found.writing.kind, i);
        FIELD(found.writing.index, i > 0);
    }
    for (size_t i = 0; i < COUNT(deep); i++) {
        deep[i] = (struct journal_field){i, FIELD_FUTURE_NESTED_FUTURES, 7, 7, 0, 0};
    }
    journal_payload_of_fields(7, deep, COUNT(deep), NULL, 0, &found.writing, 3, NULL, 0);
    IS(JOURNAL_ENTRY_TOO_DEEP, found.writing.kind);
    FIELD(found.writing.index, 100);
    /* one member of a oneof twice is two members of it, and not out of order */
    journal_payload_of_fields(15, twice, COUNT(twice), bytes, sizeof bytes, &found.writing, 3, NULL, 0);
    IS(JOURNAL_ENTRY_SEVERAL_MEMBERS, found.writing.kind);
    FIELD(found.writing.index, 1);
    FIELD(found.after, 99);
}

/* A set whose Value has its content at 17: the table of each direction has one entry. */
static void numberings(void) {
    static const char set[] =
        "\n\042\"\030\n\005Value\022\017\n\007content\030\021 \001(\014b\006proto3";
    const uint8_t *bytes = (const uint8_t *)set, *renames = (const uint8_t *)"Value";
    struct { struct journal_renumbering entry; uint64_t after; } read = {{0, 0, 0, 0, 0}, 99}, written = {{0}, 99};
    struct { struct journal_list list; uint64_t after; } found = {{9}, 99};
    size_t room = 0;

    FIELD((uint64_t)journal_numbering(JOURNAL_NUMBERING_READING, bytes, sizeof set - 1, NULL, 0, &read.entry, 1), 1);
    journal_numbering(JOURNAL_NUMBERING_WRITING, bytes, sizeof set - 1, NULL, 0, &written.entry, 1);
    IS(JOURNAL_NUMBERING_READING, read.entry.number == 17 && read.entry.renumbered == FIELD_VALUE_CONTENT ? 0 : -1);
    IS(JOURNAL_NUMBERING_WRITING, written.entry.number == FIELD_VALUE_CONTENT && written.entry.renumbered == 17);
    /* the struct ends where what is after it begins */
    IS(JOURNAL_RENUMBERING_NUMBERS, &read.after - &read.entry.schema);
    FIELD(read.entry.schema, JOURNAL_SCHEMA_VALUE);
    FIELD(read.entry.group, 1);
    FIELD(read.entry.nested, 0);
    while (journal_numbering_text(bytes, sizeof set - 1, NULL, 0, &found.list, room, NULL, 0) < 0) {
        room++;
    }
    IS(JOURNAL_LIST_NUMBERS, room);
    IS(JOURNAL_LIST_LISTED, found.list.kind);
    journal_numbering_text(bytes, 1, NULL, 0, &found.list, 2, NULL, 0);
    IS(JOURNAL_LIST_NO_SET, found.list.kind);
    journal_numbering_text(bytes, sizeof set - 1, renames, 5, &found.list, 2, NULL, 0);
    IS(JOURNAL_LIST_NO_RENAME, found.list.kind);
    FIELD(read.after + written.after + found.after, 3 * 99);
}

static void types(void) {
    EACH_TYPE(TYPE)
}

/* The schemas of no type, or of one at earlier versions. */
static void other_schemas(void) {
    EACH_OTHER_SCHEMA(OTHER)
}

int main(void) {
    refusals();
    numbers_of_the_protocol();
    items();
    notifications();
    verdicts();
    replays();
    readings();
    fields();
    writings();
    numberings();
    types();
    other_schemas();
    return failed;
}
