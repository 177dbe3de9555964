/*
 * Makes adversarial calls of the library for C: hostile_calls [--heap] SEED COUNT [THREADS]
 *
 * Each call is handed random slices and numbers, among them slices of no length that are null. A slice ends at a page
 * that nothing may touch, or begins after one, and has guard bytes at its other side. A call is made again with room of
 * every size from none to what is needed, with too few numbers and with too many, with tables of several sizes, and
 * with each of its allocations failing in turn. After each call
 *
 * - what is read is unchanged, and so are the guards and what is to be written, except for the bytes of the result
 *   or the entries of the table where there is room;
 * - the result is one that the header lists, and the same whatever the room;
 * - a failed allocation is JOURNAL_OUT_OF_MEMORY, and a call without a failed one never returns that; a call that does
 *   not list it allocates nothing, nor does journal_canonical or journal_frame of a canonical payload, or
 *   journal_header_eq of two commands with the same bytes;
 * - no memory is held.
 *
 * Every fourth case is made on purpose, in turn for each kind of result of each call: each error that it lists but
 * JOURNAL_TOO_LONG, each kind of item, id with result and verdict, and the rest of what it returns. In 10,000 calls and
 * more, whatever the seed, each kind has to have been returned; one that was not is named.
 *
 * Each thread makes the same calls, COUNT at least, and has to have the same results. With --heap the slices are blocks
 * of malloc of exactly their length, for valgrind to watch.
 *
 * It is linked with the static library and --wrap of malloc, realloc and free; scripts/checks/c.sh does so.
 */
#define _GNU_SOURCE
#include <pendratsoa.h>

#include <inttypes.h>
#include <pthread.h>
#include <signal.h>
#include <stdio.h>
#include <stdlib.h>
#include <string.h>
#include <sys/mman.h>
#include <unistd.h>

#define GUARD 64
#define MOST_INPUT 8192
#define REGION (1 << 18)
#define POOL 8
#define POOLED 120
#define MOST_NAMED 256

void *__real_malloc(size_t size);
void *__real_realloc(void *block, size_t size);
void __real_free(void *block);

/* The allocations of the call that a thread makes, the one of them that is to fail (0: none), whether it did, and the
   blocks that are held. */
static __thread struct { long allocations, failing, held; int has_failed; } heap;

static int fails_now(void) {
    heap.allocations++;
    if (heap.allocations != heap.failing) {
        return 0;
    }
    heap.has_failed = 1;
    return 1;
}

void *__wrap_malloc(size_t size) {
    void *block = fails_now() ? NULL : __real_malloc(size);
    heap.held += block != NULL;
    return block;
}

void *__wrap_realloc(void *block, size_t size) {
    void *moved = fails_now() ? NULL : __real_realloc(block, size);
    heap.held += !block && moved;
    return moved;
}

void __wrap_free(void *block) {
    heap.held -= block != NULL;
    __real_free(block);
}

/* The most kinds of results that are not errors: an id of each kind with a result of each kind. */
#define KINDS 15

/* Bytes that are made up, before they are handed over. */
struct source {
    uint8_t bytes[MOST_INPUT];
    size_t length;
};

/* A slice that is handed over: its first byte, or null, and its guards. Byte i of these, and of what is to be written,
   is salt + 31 i. */
struct slice {
    uint8_t *at;
    size_t length;
    uint8_t *guard;
    size_t guards;
    uint8_t salt;
    uint8_t *block;
};

enum place { FIRST, SECOND, THIRD, GIVEN, NUMBERS, OUT, PLACES };

struct request {
    int call;
    uint32_t version;
    uint16_t code;
    uint32_t schema;
    uint32_t payload_length;
    uint32_t limit;
    uint32_t index;
    uint32_t direction;
    uint32_t ignore_payloads;
    uint64_t given[JOURNAL_REPLAY_NUMBERS];
    size_t given_room;
    struct source source[3];
};

#include "calls.h"
#include "numbers.h"

#define BIT(error) (1u << (error))

/* Which error a negative result is; ERRORS if it is none that the header lists. */
static enum error error_of(int64_t result) {
    int error = 1;

    while (error < ERRORS && error_numbers[error] != result) {
        error++;
    }
    return (enum error)error;
}

/* A thread's work. */
struct work {
    uint64_t seed;
    long count;
    int on_heap;
    uint64_t random;
    long calls;
    long cases;
    uint64_t digest;
    long turn;
    long results[CALLS][ERRORS];
    long kinds[CALLS][KINDS];
    uint8_t *regions[PLACES];
    struct slice slices[PLACES];
    uint64_t numbers[JOURNAL_ITEM_NUMBERS];
    uint64_t given[JOURNAL_REPLAY_NUMBERS];
    uint8_t written[REGION];
    uint8_t table[REGION];
    uint16_t codes[MOST_NAMED];
    size_t named;
    struct { uint8_t length, bytes[POOLED]; } pool[JOURNAL_SCHEMAS][POOL];
};

static void fail(const char *why) {
    perror(why);
    exit(2);
}

static void wrong(const struct work *work, const struct request *request, const char *what, int64_t result) {
    flockfile(stdout);
    printf("wrong: %s: %s: result %" PRId64 ", room %zu, numbers %zu, version %" PRIu32 ", code 0x%04x, ",
           listed[request->call].name, what, result, work->slices[OUT].length, work->slices[NUMBERS].length / 8,
           request->version, request->code);
    printf("schema %" PRIu32 ", flag %" PRIu32 ", allocation %ld failing; seed %" PRIu64 ", case %ld\n",
           request->schema, request->ignore_payloads, heap.failing, work->seed, work->cases);
    for (int i = 0; i < listed[request->call].inputs; i++) {
        printf("  input %d:", i);
        for (size_t k = 0; k < request->source[i].length; k++) {
            printf(" %02x", request->source[i].bytes[k]);
        }
        putchar('\n');
    }
    fflush(stdout);
    exit(1);
}

/* The call that a thread makes. */
static __thread const struct request *made;
static __thread const struct work *maker;

static void touched(int signal) {
    (void)signal;
    if (made) {
        wrong(maker, made, "it touches what it was not handed", 0);
    }
    _exit(3);
}

/* Random numbers: splitmix64. */
static uint64_t any(struct work *work) {
    uint64_t number = work->random += UINT64_C(0x9E3779B97F4A7C15);
    number = (number ^ number >> 30) * UINT64_C(0xBF58476D1CE4E5B9);
    number = (number ^ number >> 27) * UINT64_C(0x94D049BB133111EB);
    return number ^ number >> 31;
}

static uint32_t below(struct work *work, uint32_t bound) {
    return (uint32_t)((any(work) >> 32) * bound >> 32);
}

static int one_of(struct work *work, uint32_t count) {
    return below(work, count) == 0;
}

/* Takes bytes into the digest. */
static void digest(struct work *work, const void *bytes, size_t length) {
    const uint8_t *at = bytes;
    for (size_t i = 0; i < length; i++) {
        work->digest = (work->digest ^ at[i]) * UINT64_C(0x100000001B3);
    }
}

/* Bytes to be read. */

static void put(struct source *source, const void *bytes, size_t length) {
    if (length > MOST_INPUT - source->length) {
        length = MOST_INPUT - source->length;
    }
    memcpy(source->bytes + source->length, bytes, length);
    source->length += length;
}

static void put_byte(struct source *source, uint8_t byte) {
    put(source, &byte, 1);
}

static void put_varint(struct source *source, uint64_t number) {
    for (; number > 0x7F; number >>= 7) {
        put_byte(source, (uint8_t)(number | 0x80));
    }
    put_byte(source, (uint8_t)number);
}

static void put_any(struct work *work, struct source *source, size_t length) {
    while (length-- > 0) {
        put_byte(source, (uint8_t)any(work));
    }
}

static uint64_t any_number(struct work *work) {
    uint64_t number = any(work);
    return one_of(work, 2) ? number % 20 : number >> below(work, 64);
}

/* Records of any fields, which may hold others. */
static void put_records(struct work *work, struct source *source, int depth) {
    for (uint32_t count = below(work, 4); count > 0; count--) {
        uint64_t field = 1 + below(work, one_of(work, 8) ? 40 : 16);
        struct source content;
        size_t room = MOST_INPUT - source->length;

        switch (below(work, 16)) {
        default:
            put_varint(source, field * 8 + 2);
            content.length = 0;
            if (depth > 0 && one_of(work, 2)) {
                put_records(work, &content, depth - 1);
            } else if (one_of(work, 4)) {
                put_any(work, &content, below(work, 12));
            } else {
                put(&content, "t\xc3\xa9xt of a field", below(work, 16));
            }
            if (content.length > room) {
                content.length = room;
            }
            put_varint(source, content.length);
            put(source, content.bytes, content.length);
            break;
        case 8: case 9: case 10: case 11: case 12: case 13:
            put_varint(source, field * 8);
            put_varint(source, any_number(work));
            break;
        case 14:
            put_varint(source, field * 8 + below(work, 8));
            put_any(work, source, below(work, 9));
            break;
        case 15:
            put_varint(source, field * 8 + 5);
            put_any(work, source, 4);
            break;
        }
    }
}

/* A payload for a schema: any bytes, any records, or what was well-formed before, twice, changed or cut. */
static void put_payload(struct work *work, struct source *source, uint32_t schema) {
    size_t begin = source->length;
    uint32_t pick = below(work, 12);

    if (pick == 0) {
        put_any(work, source, below(work, 40));
    } else if (pick < 5 || schema >= JOURNAL_SCHEMAS) {
        put_records(work, source, 3);
    } else {
        for (uint32_t count = pick < 8 ? 1 : below(work, one_of(work, 40) ? 60 : 4); count > 0; count--) {
            uint32_t place = below(work, POOL);
            put(source, work->pool[schema][place].bytes, work->pool[schema][place].length);
        }
    }
    if (source->length > begin && one_of(work, 8)) {
        source->bytes[begin + below(work, (uint32_t)(source->length - begin))] = (uint8_t)any(work);
    }
    if (source->length > begin && one_of(work, 16)) {
        source->length -= below(work, (uint32_t)(source->length - begin)) + 1;
    }
}

/* A text for a schema: the JSON of a payload, as it is, changed, cut or with another one after it, or any bytes. */
static void put_json(struct work *work, struct source *source, uint32_t schema) {
    struct source payload;
    int64_t length;

    payload.length = 0;
    put_payload(work, &payload, schema);
    length = journal_json(schema, payload.bytes, payload.length, source->bytes, MOST_INPUT);
    source->length = length < 0 || length > MOST_INPUT ? 0 : (size_t)length;
    if (source->length == 0) {
        put_any(work, source, below(work, 20));
        return;
    }
    for (uint32_t count = below(work, 4); count > 0; count--) {
        static const char bytes[] = "{}[]:,\"\\0123456789-.eEntfaz \xFF";
        source->bytes[below(work, (uint32_t)source->length)] = (uint8_t)bytes[below(work, sizeof bytes)];
    }
    if (one_of(work, 8)) {
        source->length -= below(work, (uint32_t)source->length);
    }
    if (one_of(work, 16)) {
        put(source, source->bytes, source->length);
    }
}

/* A table for a schema, and what its entries point to: the fields of a canonical payload, as they are, with some other
   numbers, or with two entries exchanged; or any numbers. */
static void put_table(struct work *work, struct source *bytes, struct source *table, uint32_t schema) {
    struct journal_field fields[MOST_INPUT / sizeof(struct journal_field)], moved;
    uint64_t *numbers = (uint64_t *)(void *)fields;
    const size_t most = sizeof fields / sizeof *fields;
    struct source payload;
    int64_t length, entries;
    uint32_t count, place;

    payload.length = 0;
    put_payload(work, &payload, schema);
    length = journal_canonical(schema, payload.bytes, payload.length, bytes->bytes, MOST_INPUT);
    bytes->length = length < 0 || length > MOST_INPUT ? 0 : (size_t)length;
    entries = journal_fields(schema, bytes->bytes, bytes->length, fields, most);
    count = entries < 0 ? 0 : (uint64_t)entries < most ? (uint32_t)entries : (uint32_t)most;
    if (count == 0) {
        put_any(work, table, below(work, 4) * sizeof *fields);
        return;
    }
    for (uint32_t changes = below(work, 3); changes > 0; changes--) {
        numbers[below(work, count * JOURNAL_FIELD_NUMBERS)] = any_number(work);
    }
    if (one_of(work, 6)) {
        place = below(work, count);
        moved = fields[0];
        fields[0] = fields[place];
        fields[place] = moved;
    }
    put(table, fields, count * sizeof *fields);
}

/* A descriptor set with other field numbers, one line per field: a call with a header, a Body, which is a Value by a
   rename, an output with a member of a oneof that only it has, and a future. */
#define A_SET \
    "\n\316\002" \
    "\n\001a" \
    "\022\001t" \
    "\"[" \
    "\n\022CallCommandMessage" \
    "\022\032\n\007headers\030\t \003(\0132\t.t.Header" \
    "\022\034\n\024result_completion_id\030\003 \001(\r" \
    "\022\013\n\003key\030\001 \001(\t" \
    "\"$" \
    "\n\006Header" \
    "\022\013\n\003key\030\006 \001(\t" \
    "\022\r\n\005value\030\005 \001(\t" \
    "\"\027" \
    "\n\004Body" \
    "\022\017\n\007content\030\021 \001(\014" \
    "\"X" \
    "\n\024OutputCommandMessage" \
    "\022\030\n\005value\030\005 \001(\0132\007.t.BodyH\000" \
    "\022\014\n\004name\030\010 \001(\t" \
    "\022\016\n\004text\030\003 \001(\tH\000" \
    "B\010\n\006result" \
    "\"H" \
    "\n\006Future" \
    "\022!\n\016nested_futures\030\002 \003(\0132\t.t.Future" \
    "\022\033\n\023waiting_completions\030\007 \003(\r" \
    "b\006proto3"
#define A_RENAME "Body=Value"

/* A descriptor set: with some other bytes, cut or twice, or as it is. */
static void put_set(struct work *work, struct source *source) {
    put(source, A_SET, sizeof A_SET - 1);
    for (uint32_t changes = one_of(work, 2) ? 0 : below(work, 4); changes > 0; changes--) {
        source->bytes[below(work, (uint32_t)source->length)] = (uint8_t)any(work);
    }
    if (one_of(work, 8)) {
        source->length -= below(work, (uint32_t)source->length);
    }
    if (one_of(work, 16)) {
        put(source, source->bytes, source->length);
    }
}

/* Lines of renames, most of which are of that set. */
static void put_renames(struct work *work, struct source *source) {
    static const char *const lines[] = {A_RENAME, A_RENAME "\n", "Future=Header\r\n", "t.Future=future\n", "\n",
                                        "=Value\n", "Body=\n", "No=Value\n", "Body=No\n", "\xFF"};
    for (uint32_t count = below(work, 3); count > 0; count--) {
        const char *line = lines[one_of(work, 2) ? 0 : below(work, sizeof lines / sizeof *lines)];
        put(source, line, strlen(line));
    }
}

/* The table of a direction of that set. */
static void put_numbering(struct source *table, uint32_t direction) {
    struct journal_renumbering entries[16];
    const int64_t count = journal_numbering(direction, (const uint8_t *)A_SET, sizeof A_SET - 1,
                                            (const uint8_t *)A_RENAME, sizeof A_RENAME - 1, entries, 16);

    table->length = 0;
    put(table, entries, count < 0 || count > 16 ? 0 : (size_t)count * sizeof *entries);
}

/* The same, or with some other numbers and two entries exchanged; or any numbers. */
static void put_renumberings(struct work *work, struct source *table, uint32_t direction) {
    struct journal_renumbering entries[16], moved;
    uint64_t *numbers = (uint64_t *)(void *)entries;
    uint32_t count, place;

    put_numbering(table, direction);
    count = (uint32_t)(table->length / sizeof *entries);
    memcpy(entries, table->bytes, table->length);
    if (one_of(work, 8)) {
        count = below(work, 8);
        for (uint32_t i = 0; i < count * JOURNAL_RENUMBERING_NUMBERS; i++) {
            numbers[i] = one_of(work, 8) ? any_number(work) : below(work, 4);
        }
    }
    if (count > 0 && one_of(work, 2)) {
        for (uint32_t changes = below(work, 3); changes > 0; changes--) {
            numbers[below(work, count * JOURNAL_RENUMBERING_NUMBERS)] = any_number(work);
        }
        place = below(work, count);
        moved = entries[0];
        entries[0] = entries[place];
        entries[place] = moved;
    }
    table->length = 0;
    put(table, entries, count * sizeof *entries);
}

static uint16_t any_code(struct work *work) {
    return one_of(work, 6) ? (uint16_t)any(work) : work->codes[below(work, (uint32_t)work->named)];
}

static uint32_t any_version(struct work *work) {
    if (one_of(work, 8)) {
        return one_of(work, 2) ? (uint32_t)any(work) : below(work, 13);
    }
    return JOURNAL_FIRST_VERSION + below(work, JOURNAL_LAST_VERSION - JOURNAL_FIRST_VERSION + 1);
}

/* The schema of a code's payloads from version 7 on, or one that there is not. */
static uint32_t schema_of(uint16_t code) {
    int64_t schema = journal_schema(JOURNAL_LAST_VERSION, code);
    return schema < 0 ? JOURNAL_SCHEMAS : (uint32_t)schema;
}

/* Frames; the last may be cut. Most are commands where journals are compared. */
static void put_stream(struct work *work, struct source *source, int of_commands) {
    for (uint32_t count = below(work, 6); count > 0; count--) {
        uint16_t code = any_code(work);
        struct source payload;
        uint8_t header[8];

        while (of_commands && (code < 0x400 || code >= 0x8000) && !one_of(work, 8)) {
            code = any_code(work);
        }
        payload.length = 0;
        put_payload(work, &payload, schema_of(code));
        for (int i = 0; i < 4; i++) {
            header[4 + i] = (uint8_t)(payload.length >> (24 - 8 * i));
        }
        header[0] = (uint8_t)(code >> 8);
        header[1] = (uint8_t)code;
        header[2] = one_of(work, 4) ? (uint8_t)any(work) : 0;
        header[3] = one_of(work, 4) ? (uint8_t)any(work) : 0;
        if (one_of(work, 32)) {
            header[4 + below(work, 4)] = (uint8_t)any(work);
        }
        put(source, header, sizeof header);
        put(source, payload.bytes, payload.length);
    }
    if (source->length > 0 && one_of(work, 6)) {
        source->length -= below(work, (uint32_t)source->length);
    }
}

/* Slices. */

static uint8_t pattern(const struct slice *slice, size_t i) {
    return (uint8_t)(slice->salt + 31 * i);
}

/* Hands over a slice of a length, filled by its pattern. */
static void place(struct work *work, enum place which, size_t length) {
    struct slice *slice = &work->slices[which];

    slice->length = length;
    slice->salt = (uint8_t)any(work);
    slice->block = NULL;
    slice->guards = 0;
    slice->guard = NULL;
    if (length == 0 && one_of(work, 2)) {
        slice->at = NULL;
        return;
    }
    if (work->on_heap) {
        slice->at = slice->block = __real_malloc(length);
        if (!slice->at) {
            fail("malloc");
        }
    } else if (one_of(work, 2)) {
        slice->at = work->regions[which];
        slice->guard = slice->at + length;
        slice->guards = GUARD;
    } else {
        slice->at = work->regions[which] + REGION - length;
        slice->guard = slice->at - GUARD;
        slice->guards = GUARD;
    }
    for (size_t i = 0; i < slice->guards; i++) {
        slice->guard[i] = pattern(slice, i);
    }
    for (size_t i = 0; i < length; i++) {
        slice->at[i] = pattern(slice, i);
    }
}

/* Whether the guards of a slice are intact, and its bytes from one on. */
static int stands(const struct slice *slice, size_t from) {
    for (size_t i = 0; i < slice->guards; i++) {
        if (slice->guard[i] != pattern(slice, i)) {
            return 0;
        }
    }
    for (size_t i = from; i < slice->length; i++) {
        if (slice->at[i] != pattern(slice, i)) {
            return 0;
        }
    }
    return 1;
}

/* Which of its kinds the result of a call is, if it is not an error. */
static int kind_of(int call, int64_t result, const uint64_t *numbers) {
    switch (call) {
    case NEXT: case NEXT_WITHIN: return result > 0 ? JOURNAL_ITEM_SKIPPED + 1 : (int)numbers[0];
    case IS_WELL_FORMED: case HEADER_EQ: return (int)result;
    /* the first number is the kind of its id, and the last that of its result */
    case NOTIFICATION: return (int)(5 * numbers[0] + numbers[3]);
    case VERDICT: case PAYLOAD_OF_JSON: case PAYLOAD_OF_FIELDS: case NUMBERING_TEXT: return (int)numbers[0];
    case CHANGED_FIELD: return result > 0;
    case REPLAY_CHECK: case REPLAY_EXPECTED: case REPLAY_FINISH: return (int)result;
    default: return 0;
    }
}

/* How many numbers a call writes that returns this: none where it says that there is nothing. */
static size_t numbers_written(int call, int64_t result) {
    switch (call) {
    case NEXT: case NEXT_WITHIN: return result > 0 ? 0 : listed[call].numbers;
    case CHANGED_FIELD: case REPLAY_CHECK: case REPLAY_EXPECTED: case REPLAY_FINISH:
        return result == 0 ? 0 : listed[call].numbers;
    default: return listed[call].numbers;
    }
}

/* Whether what was written is as long as the payload, or as its frame: then it is a copy if it ends with that. */
static int may_be_copy(const struct request *request, size_t written) {
    size_t length = request->source[0].length;

    if (request->call == FRAME) {
        int is_flattened = request->code == JOURNAL_TYPE_SUSPENSION && request->version < 7;
        return written == length + 8 && !is_flattened;
    }
    return request->call == CANONICAL && written > 0 && written == length;
}

/* Whether it has found that two commands with the same bytes are the same. */
static int has_same_bytes(const struct request *request, int64_t result) {
    const struct source *first = &request->source[0], *second = &request->source[1];

    return request->call == HEADER_EQ && result == 1 && first->length == second->length &&
           memcmp(first->bytes, second->bytes, first->length) == 0;
}

/* Makes a call with so much room, looks at all that the header says of any call, and keeps what was written. */
static int64_t called(struct work *work, const struct request *request, size_t room, size_t numbers_room,
                      long failing) {
    int call = request->call;
    size_t written = 0, numbers = 0;
    int64_t result;

    for (int i = 0; i < 2; i++) {
        place(work, FIRST + i, request->source[i].length);
        if (request->source[i].length > 0) {
            memcpy(work->slices[FIRST + i].at, request->source[i].bytes, request->source[i].length);
        }
    }
    place(work, GIVEN, listed[call].given > 0 ? 8 * request->given_room : 0);
    if (work->slices[GIVEN].length > 0) {
        memcpy(work->slices[GIVEN].at, request->given, work->slices[GIVEN].length);
    }
    place(work, NUMBERS, 8 * numbers_room);
    place(work, OUT, room);
    heap.allocations = 0;
    heap.failing = failing;
    heap.has_failed = 0;
    heap.held = 0;
    maker = work;
    made = request;
    result = make(request, work->slices);
    made = NULL;
    work->calls++;

    if (result >= 0) {
        written = listed[call].writes && (uint64_t)result <= room ? (size_t)result : 0;
        numbers = numbers_written(call, result);
        if (listed[call].entry > 0) {
            size_t fit = numbers_room / listed[call].entry;
            numbers = listed[call].entry * ((uint64_t)result < fit ? (size_t)result : fit);
        }
    } else if (error_of(result) == ERRORS || !(listed[call].errors & BIT(error_of(result)))) {
        wrong(work, request, "an error that the header does not list", result);
    } else {
        work->results[call][error_of(result)]++;
    }
    if (heap.held != 0) {
        wrong(work, request, "memory is held after the call", result);
    }
    /* a JSON text whose short table cannot be allocated is read without it */
    if (heap.has_failed ? result != JOURNAL_OUT_OF_MEMORY && call != PAYLOAD_OF_JSON
                        : result == JOURNAL_OUT_OF_MEMORY) {
        wrong(work, request, "an allocation failed and the result is another, or the other way round", result);
    }
    if (heap.allocations > 0 && !(listed[call].errors & BIT(OUT_OF_MEMORY))) {
        wrong(work, request, "it allocates", result);
    }
    if (heap.allocations > 0 &&
        (has_same_bytes(request, result) ||
         (may_be_copy(request, written) &&
          memcmp(work->slices[OUT].at + (written - request->source[0].length), request->source[0].bytes,
                 request->source[0].length) == 0))) {
        wrong(work, request, "it allocates for a canonical payload, or for the same bytes", result);
    }
    for (int i = 0; i < 2; i++) {
        const struct slice *slice = &work->slices[FIRST + i];
        if (!stands(slice, slice->length) ||
            (slice->length > 0 && memcmp(slice->at, request->source[i].bytes, slice->length) != 0)) {
            wrong(work, request, "what is only read was written", result);
        }
    }
    if (!stands(&work->slices[GIVEN], work->slices[GIVEN].length) ||
        (work->slices[GIVEN].length > 0 && (result < 0 || !listed[call].changes) &&
         memcmp(work->slices[GIVEN].at, request->given, work->slices[GIVEN].length) != 0)) {
        wrong(work, request, "what was given was written", result);
    }
    if (8 * numbers > work->slices[NUMBERS].length || !stands(&work->slices[NUMBERS], 8 * numbers)) {
        wrong(work, request, "numbers that are not the result's were written", result);
    }
    if (!stands(&work->slices[OUT], written)) {
        wrong(work, request, "bytes that are not the result's were written", result);
    }
    if (listed[call].changes && result >= 0) {
        memcpy(work->given, work->slices[GIVEN].at, sizeof work->given);
        digest(work, work->given, sizeof work->given);
    }
    if (numbers > 0) {
        memcpy(listed[call].entry > 0 ? (void *)work->table : work->numbers, work->slices[NUMBERS].at, 8 * numbers);
        digest(work, work->slices[NUMBERS].at, 8 * numbers);
    }
    if (result >= 0) {
        int kind = kind_of(call, result, work->numbers);
        if (kind < 0 || kind >= listed[call].kinds) {
            wrong(work, request, "a result of no kind that the header lists", result);
        }
        work->kinds[call][kind]++;
    }
    if (written > 0) {
        memcpy(work->written, work->slices[OUT].at, written);
        digest(work, work->written, written);
    }
    digest(work, &result, sizeof result);
    for (int i = 0; i < PLACES; i++) {
        if (work->slices[i].block) {
            __real_free(work->slices[i].block);
        }
    }
    return result;
}

/* Makes a call as `called` does, which has to have the same result, the same numbers, and the same bytes where there
   is room for them. */
static void again(struct work *work, const struct request *request, int64_t result, size_t room, size_t numbers_room) {
    static __thread uint8_t bytes[REGION];
    uint64_t numbers[JOURNAL_ITEM_NUMBERS], given[JOURNAL_REPLAY_NUMBERS];
    size_t length = listed[request->call].writes && result > 0 && result <= REGION ? (size_t)result : 0;

    memcpy(numbers, work->numbers, sizeof numbers);
    memcpy(given, work->given, sizeof given);
    memcpy(bytes, work->written, length);
    if (called(work, request, room, numbers_room, 0) != result) {
        wrong(work, request, "another result than before", result);
    }
    if (memcmp(numbers, work->numbers, sizeof numbers) != 0 || memcmp(given, work->given, sizeof given) != 0 ||
        memcmp(bytes, work->written, length) != 0) {
        wrong(work, request, "the same result with other numbers or bytes", result);
    }
}

/* Makes a call that writes a table again, with room for any number of its entries: the result is the same, and so are
   the entries that fit. */
static void again_with_tables(struct work *work, const struct request *request, int64_t result) {
    static __thread uint8_t entries[REGION];
    size_t entry = listed[request->call].entry, count = (size_t)result;

    for (int turn = 0; turn < 6; turn++) {
        size_t room = turn == 0 ? count : turn == 1 ? count + 3 : below(work, (uint32_t)count + 1);
        size_t fit = room < count ? room : count;

        int64_t again = called(work, request, 0, entry * room, 0);

        /* the items end at the room, and the first call may have ended there */
        if (request->call == ITEMS ? again < (int64_t)fit || again > (int64_t)room : again != result) {
            wrong(work, request, "another result than before", result);
        }
        if (turn == 0) {
            memcpy(entries, work->table, 8 * entry * count);
        } else if (memcmp(entries, work->table, 8 * entry * fit) != 0) {
            wrong(work, request, "other entries in a table of another size", result);
        }
    }
}

/* Compares the items of a table with those that one call each finds. */
static void one_by_one(struct work *work, const struct request *request, int64_t result) {
    const struct journal_item *items = (const void *)work->table;
    size_t offset = 0;

    for (int64_t i = 0; i < result; i++) {
        struct journal_item item;

        if (journal_next_within(request->version, request->limit, request->source[0].bytes + offset,
                                request->source[0].length - offset, &item, JOURNAL_ITEM_NUMBERS) != 0 ||
            memcmp(&item, &items[i], sizeof item) != 0) {
            wrong(work, request, "an item that another call does not find", result);
            return;
        }
        offset += (size_t)item.size;
    }
}

/* Any numbers of a replay, most of which a replay of its recording may have. */
static void give_replay(struct work *work, struct request *request) {
    struct journal_item item;
    uint64_t offset = 0;

    request->given_room = one_of(work, 16) ? below(work, 2 * JOURNAL_REPLAY_NUMBERS) : JOURNAL_REPLAY_NUMBERS;
    if (request->given_room > JOURNAL_REPLAY_NUMBERS) {
        request->given_room = JOURNAL_REPLAY_NUMBERS;
    }
    for (uint32_t items = below(work, 3); items > 0; items--) {
        const size_t length = request->source[0].length - (size_t)offset;

        if (journal_next(request->version, request->source[0].bytes + offset, length, &item,
                         JOURNAL_ITEM_NUMBERS) != 0) {
            break;
        }
        offset += item.size;
    }
    request->given[0] = request->version;
    request->given[1] = one_of(work, 16) ? any_number(work) : below(work, 4);
    request->given[2] = any_number(work);
    request->given[3] = one_of(work, 8) ? any_number(work) : offset;
    request->given[4] = any_number(work);
    request->given[5] = one_of(work, 8) ? any_number(work) : 0;
}

/* Writes the payload or the stream of a request at the numbers of a table, where it can be. */
static void renumber(const struct request *request, struct source *source, const struct source *table) {
    struct source written;
    const size_t count = table->length / sizeof(struct journal_renumbering);
    const void *entries = table->bytes;
    const int64_t length = request->call == RENUMBER
        ? journal_renumber(request->schema, entries, count, source->bytes, source->length, written.bytes, MOST_INPUT)
        : journal_renumber_stream(request->version, entries, count, source->bytes, source->length, written.bytes,
                                  MOST_INPUT);

    if (length >= 0 && length <= MOST_INPUT) {
        written.length = (size_t)length;
        *source = written;
    }
}

/* A payload or a stream with a table: at the protocol's numbers, or at those of the set. */
static void put_renumbered(struct work *work, struct request *request) {
    static const uint32_t schemas[] = {JOURNAL_SCHEMA_VALUE, JOURNAL_SCHEMA_HEADER, JOURNAL_SCHEMA_FUTURE,
                                       JOURNAL_SCHEMA_OUTPUT_COMMAND, JOURNAL_SCHEMA_CALL_COMMAND};
    struct source *first = &request->source[0], *table = &request->source[1];

    if (!one_of(work, 8)) {
        request->schema = schemas[below(work, sizeof schemas / sizeof *schemas)];
    }
    if (request->call == RENUMBER) {
        put_payload(work, first, request->schema);
    } else {
        put_stream(work, first, 0);
    }
    put_renumberings(work, table, JOURNAL_NUMBERING_WRITING);
    if (one_of(work, 2)) {
        renumber(request, first, table);
        put_renumberings(work, table, JOURNAL_NUMBERING_READING);
    }
}

static void make_request(struct work *work, struct request *request) {
    request->call = (int)below(work, CALLS);
    request->version = any_version(work);
    request->code = any_code(work);
    request->schema = below(work, one_of(work, 16) ? 70 : JOURNAL_SCHEMAS);
    if (one_of(work, 64)) {
        request->schema = (uint32_t)any(work);
    }
    request->payload_length = (uint32_t)any(work);
    request->limit = one_of(work, 2) ? UINT32_MAX : below(work, 40);
    request->index = one_of(work, 8) ? (uint32_t)any(work) : below(work, 3);
    request->direction = one_of(work, 8) ? (uint32_t)any(work) : below(work, 2);
    request->ignore_payloads = one_of(work, 2) ? 0 : (uint32_t)any(work) % 3;
    request->source[0].length = request->source[1].length = request->source[2].length = 0;
    switch (request->call) {
    case TYPE_CODE:
        if (one_of(work, 2)) {
            int64_t length = journal_type_name(request->code, request->source[0].bytes, MOST_INPUT);
            request->source[0].length = length < 0 ? 0 : (size_t)length;
        } else {
            put_any(work, &request->source[0], below(work, 30));
        }
        break;
    case NEXT:
    case NEXT_WITHIN:
        put_stream(work, &request->source[0], 0);
        break;
    case VERDICT:
        put_stream(work, &request->source[0], 1);
        if (one_of(work, 2)) {
            request->source[1] = request->source[0];
        } else {
            put_stream(work, &request->source[1], 1);
        }
        break;
    case REPLAY_CHECK:
    case REPLAY_TEXT:
    case REPLAY_EXPECTED:
    case REPLAY_FINISH:
        put_stream(work, &request->source[0], 1);
        give_replay(work, request);
        break;
    case HEADER_EQ:
    case DIFFERENCE:
    case CHANGED_FIELD:
    case NOTIFICATION:
        /* most codes are of no notification */
        while (request->call == NOTIFICATION && request->code < 0x8000 && !one_of(work, 8)) {
            request->code = any_code(work);
        }
        request->schema = schema_of(request->code);
        put_payload(work, &request->source[0], request->schema);
        break;
    case FRAME:
        put_payload(work, &request->source[0], schema_of(request->code));
        break;
    case PAYLOAD_OF_JSON:
        put_json(work, &request->source[0], request->schema);
        break;
    case PAYLOAD_OF_FIELDS:
        put_table(work, &request->source[0], &request->source[1], request->schema);
        break;
    case NUMBERING:
    case NUMBERING_TEXT:
        put_set(work, &request->source[0]);
        put_renames(work, &request->source[1]);
        break;
    case RENUMBER:
    case RENUMBER_STREAM:
        put_renumbered(work, request);
        break;
    default:
        if (listed[request->call].inputs > 0) {
            put_payload(work, &request->source[0], request->schema);
        }
        break;
    }
    if (request->call == REPLAY_CHECK || request->call == REPLAY_TEXT) {
        request->schema = schema_of(request->code);
    }
    if (listed[request->call].inputs > 1 && request->source[1].length == 0 && request->call != VERDICT &&
        request->call != PAYLOAD_OF_FIELDS && request->call < NUMBERING) {
        put_payload(work, &request->source[1], request->schema);
    }
}

/* Cases that are made for a kind of result. */

static void put_text(struct source *source, const char *text, size_t length) {
    source->length = 0;
    put(source, text, length);
}

/* Literal bytes, which may hold zeros. */
#define PUT(source, text) put_text(source, text, sizeof(text) - 1)

#define SET_STATE_COMMAND JOURNAL_TYPE_SET_STATE_COMMAND
#define CALL_COMMAND JOURNAL_TYPE_CALL_COMMAND
#define CALL_SCHEMA JOURNAL_SCHEMA_CALL_COMMAND
#define A_CALL "\x22\x06\x0A\x01k\x12\x01v"
#define NO_PAYLOAD "\x07"

/* Appends a message of a payload, which are literal bytes, to a stream. */
#define PUT_MESSAGE(stream, code, payload) put_message(stream, code, payload, sizeof(payload) - 1)
static void put_message(struct source *stream, uint16_t code, const char *payload, size_t length) {
    const uint8_t header[8] = {(uint8_t)(code >> 8), (uint8_t)code, 0, 0, 0, 0, 0, (uint8_t)length};
    put(stream, header, sizeof header);
    put(stream, payload, length);
}

/* Two journals whose verdict is of a kind, after commands that are the same. */
static void put_journals(struct work *work, struct source *sources, int kind) {
    struct source *recorded = &sources[0], *replayed = &sources[1];

    recorded->length = replayed->length = 0;
    for (uint32_t count = below(work, 3); count > 0; count--) {
        PUT_MESSAGE(recorded, CALL_COMMAND, A_CALL);
    }
    *replayed = *recorded;
    if (kind == JOURNAL_VERDICT_BAD_RECORDED) {
        PUT_MESSAGE(recorded, SET_STATE_COMMAND, NO_PAYLOAD);
    } else if (kind != JOURNAL_VERDICT_RECORDED_ENDED) {
        PUT_MESSAGE(recorded, SET_STATE_COMMAND, "\x0A\x01k");
    }
    switch (kind) {
    case JOURNAL_VERDICT_REPLAYED_ENDED: break;
    case JOURNAL_VERDICT_TYPE_MISMATCH: PUT_MESSAGE(replayed, CALL_COMMAND, A_CALL); break;
    case JOURNAL_VERDICT_HEADER_MISMATCH: PUT_MESSAGE(replayed, SET_STATE_COMMAND, "\x0A\x01l"); break;
    case JOURNAL_VERDICT_BAD_REPLAYED: PUT_MESSAGE(replayed, SET_STATE_COMMAND, NO_PAYLOAD); break;
    default: PUT_MESSAGE(replayed, SET_STATE_COMMAND, "\x0A\x01k"); break;
    }
}

/* A recording and the numbers of a replay, of whose next item this is said. */
static void put_replay(struct work *work, struct request *request, int kind) {
    struct source *recorded = &request->source[0], *payload = &request->source[1];
    const int is_malformed = kind == JOURNAL_VERDICT_BAD_RECORDED;
    const uint64_t before = below(work, 3);
    uint64_t last = 0;

    recorded->length = 0;
    for (uint64_t count = before; count > 0; count--) {
        last = recorded->length;
        PUT_MESSAGE(recorded, CALL_COMMAND, A_CALL);
    }
    request->given_room = JOURNAL_REPLAY_NUMBERS;
    request->given[0] = request->version;
    request->given[1] = below(work, 4);
    request->given[2] = before;
    request->given[3] = last;
    request->given[4] = recorded->length;
    request->given[5] = 0;
    if (is_malformed) {
        PUT_MESSAGE(recorded, SET_STATE_COMMAND, NO_PAYLOAD);
    } else if (kind != JOURNAL_VERDICT_RECORDED_ENDED) {
        PUT_MESSAGE(recorded, SET_STATE_COMMAND, "\x0A\x01k");
    }
    request->code = kind == JOURNAL_VERDICT_TYPE_MISMATCH ? CALL_COMMAND : SET_STATE_COMMAND;
    switch (kind) {
    case JOURNAL_VERDICT_HEADER_MISMATCH: PUT(payload, "\x0A\x01l"); break;
    case JOURNAL_VERDICT_BAD_REPLAYED: PUT(payload, NO_PAYLOAD); break;
    default: PUT(payload, "\x0A\x01k"); break;
    }
}

/* A notification with an id and a result of these kinds, or without where there is no such kind. */
static void put_notification(struct source *source, int id, int result) {
#define BYTES(text) {text, sizeof(text) - 1}
    static const struct { const char *bytes; size_t length; }
        ids[] = {BYTES("\x08\x01"), BYTES("\x10\x11"), BYTES("\x1A\x04stop")},
        results[] = {BYTES("\x22\x00"), BYTES("\x2A\x03\x0A\x01x"), BYTES("\x32\x02\x08\x05"),
                     BYTES("\x82\x01\x03inv"), BYTES("\x8A\x01\x03\x0A\x01k")};
    source->length = 0;
    if (id < 3) {
        put(source, ids[id].bytes, ids[id].length);
    }
    if (result < 5) {
        put(source, results[result].bytes, results[result].length);
    }
}

#define PROPOSAL_SCHEMA JOURNAL_SCHEMA_PROPOSE_RUN_COMPLETION
#define FUTURE_SCHEMA JOURNAL_SCHEMA_FUTURE

/* A text that is read as this kind for the schema of the request, which is set where a call has no such text. */
static void put_text_of(struct request *request, int kind) {
    static const char *const texts[] = {
        "{\"headers\": [{\"key\": \"k\"}]}", "{\"headers\": [{\"key\": \"k\"}]", "{\"headers\": [{\"k\": \"k\"}]}",
        "{\"serviceName\": \"\", \"service_name\": \"\"}", "{\"value\": \"\", \"failure\": {}}",
        "{\"headers\": [null]}", "{\"resultCompletionId\": 4294967296}", "{\"parameter\": \"=\"}",
    };
    struct source *source = &request->source[0];

    source->length = 0;
    if (kind == JOURNAL_JSON_SEVERAL_MEMBERS) {
        request->schema = PROPOSAL_SCHEMA;
    }
    if (kind < JOURNAL_JSON_TOO_DEEP) {
        put(source, texts[kind], strlen(texts[kind]));
        return;
    }
    request->schema = FUTURE_SCHEMA;
    for (int level = 0; level <= 101; level++) {
        put(source, "{\"nestedFutures\":[", 18);
    }
    for (int level = 0; level <= 101; level++) {
        put(source, "]}", 2);
    }
}

static void put_field(struct source *table, uint64_t level, uint64_t number, uint64_t kind, uint64_t value,
                      uint64_t offset, uint64_t length) {
    const struct journal_field field = {level, number, kind, value, offset, length};
    put(table, &field, sizeof field);
}

/* A table that is written as this kind for the schema of the request, which is set where the fields are of another
   one. What it points to is a call and a byte that is not UTF-8. */
static void put_table_of(struct request *request, int kind) {
    struct source *table = &request->source[1];

    PUT(&request->source[0], A_CALL "\xFF");
    table->length = 0;
    switch (kind) {
    case JOURNAL_ENTRY_SEVERAL_MEMBERS:
        request->schema = PROPOSAL_SCHEMA;
        put_field(table, 0, FIELD_PROPOSE_RUN_COMPLETION_VALUE, JOURNAL_FIELD_BYTES, 0, 0, 1);
        put_field(table, 0, FIELD_PROPOSE_RUN_COMPLETION_FAILURE, JOURNAL_FIELD_MESSAGE, JOURNAL_SCHEMA_FAILURE, 0, 0);
        return;
    case JOURNAL_ENTRY_OUT_OF_RANGE:
        request->schema = FUTURE_SCHEMA;
        put_field(table, 0, FIELD_FUTURE_WAITING_COMPLETIONS, JOURNAL_FIELD_UINT32, (uint64_t)UINT32_MAX + 1, 0, 0);
        return;
    case JOURNAL_ENTRY_TOO_DEEP:
        request->schema = FUTURE_SCHEMA;
        for (uint64_t level = 0; level <= 100; level++) {
            put_field(table, level, FIELD_FUTURE_NESTED_FUTURES, JOURNAL_FIELD_MESSAGE, FUTURE_SCHEMA, 0, 0);
        }
        return;
    case JOURNAL_ENTRY_OUT_OF_ORDER:
        put_field(table, 0, FIELD_CALL_COMMAND_KEY, JOURNAL_FIELD_STRING, 0, 0, 0);
        put_field(table, 0, FIELD_CALL_COMMAND_KEY, JOURNAL_FIELD_STRING, 0, 0, 0);
        return;
    default:
        put_field(table, 0, FIELD_CALL_COMMAND_HEADERS, JOURNAL_FIELD_MESSAGE, JOURNAL_SCHEMA_HEADER, 0, 0);
        break;
    }
    switch (kind) {
    case JOURNAL_ENTRY_UNKNOWN_FIELD: put_field(table, 1, UINT64_C(1) << 29, JOURNAL_FIELD_STRING, 0, 0, 0); break;
    case JOURNAL_ENTRY_WRONG_KIND: put_field(table, 1, FIELD_HEADER_KEY, JOURNAL_FIELD_BYTES, 0, 0, 0); break;
    case JOURNAL_ENTRY_NOT_UTF8:
        put_field(table, 1, FIELD_HEADER_KEY, JOURNAL_FIELD_STRING, 0, sizeof A_CALL - 1, 1);
        break;
    case JOURNAL_ENTRY_OUT_OF_BOUNDS:
        put_field(table, 1, FIELD_HEADER_KEY, JOURNAL_FIELD_STRING, 0, sizeof A_CALL, 1);
        break;
    case JOURNAL_ENTRY_WRONG_LEVEL: put_field(table, 2, FIELD_HEADER_KEY, JOURNAL_FIELD_STRING, 0, 0, 0); break;
    default: put_field(table, 1, FIELD_HEADER_KEY, JOURNAL_FIELD_STRING, 0, sizeof A_CALL - 2, 1); break;
    }
}

#define A_LONG_NAME "a name of a signal that makes the payload long"

/* A table of futures that are nested, with so many names in the last one that the lengths of the messages are measured
   before they are written. */
static void put_measured_table(struct request *request) {
    struct source *table = &request->source[1];

    PUT(&request->source[0], A_LONG_NAME);
    request->schema = FUTURE_SCHEMA;
    table->length = 0;
    for (uint64_t level = 0; level < 8; level++) {
        put_field(table, level, FIELD_FUTURE_NESTED_FUTURES, JOURNAL_FIELD_MESSAGE, FUTURE_SCHEMA, 0, 0);
    }
    for (int names = 0; names < 150; names++) {
        put_field(table, 8, FIELD_FUTURE_WAITING_NAMED_SIGNALS, JOURNAL_FIELD_STRING, 0, 0,
                  sizeof A_LONG_NAME - 1);
    }
}

/* Changes a request so that its result is of a kind, or this error if there is one. What is looked at after what the
   error is about may be wrong too. */
static void make_wanted(struct work *work, struct request *request, int kind, enum error error) {
    struct source *first = &request->source[0], *second = &request->source[1];
    int call = request->call;

    request->version = JOURNAL_FIRST_VERSION + below(work, JOURNAL_LAST_VERSION - JOURNAL_FIRST_VERSION + 1);
    request->schema = CALL_SCHEMA;
    request->limit = UINT32_MAX;
    request->code = call == NOTIFICATION ? (uint16_t)(0x8000 + below(work, 0x7C00)) : CALL_COMMAND;
    first->length = second->length = 0;
    if (listed[call].inputs > 0) {
        PUT(first, A_CALL);
    }
    switch (call) {
    case TYPE_CODE:
        PUT(first, "CallCommand");
        break;
    case NEXT:
    case NEXT_WITHIN:
        first->length = 0;
        if (kind == JOURNAL_ITEM_MESSAGE) {
            put_message(first, CALL_COMMAND, A_CALL, sizeof A_CALL - 1);
        } else {
            put_message(first, 8, A_CALL, sizeof A_CALL - 1);
            request->version = kind == JOURNAL_ITEM_SKIPPED ? 9 : 5 + below(work, 4);
        }
        first->length = kind > JOURNAL_ITEM_SKIPPED ? below(work, 8) : first->length;
        break;
    case NOTIFICATION:
        put_notification(first, error == NO_ID ? 3 : kind / 5, error == NO_RESULT ? 5 : kind % 5);
        break;
    case VERDICT:
        put_journals(work, request->source, error == OUT_OF_MEMORY ? JOURNAL_VERDICT_HEADER_MISMATCH : kind);
        break;
    case REPLAY_CHECK: case REPLAY_TEXT: {
        static const int kinds[] = {JOURNAL_VERDICT_RECORDED_ENDED, JOURNAL_VERDICT_TYPE_MISMATCH,
                                    JOURNAL_VERDICT_HEADER_MISMATCH, JOURNAL_VERDICT_BAD_RECORDED,
                                    JOURNAL_VERDICT_BAD_REPLAYED};
        put_replay(work, request, error == OUT_OF_MEMORY      ? JOURNAL_VERDICT_HEADER_MISMATCH
                                  : error == MALFORMED        ? JOURNAL_VERDICT_BAD_RECORDED
                                  : error == MALFORMED_SECOND ? JOURNAL_VERDICT_BAD_REPLAYED
                                  : kind == 0                 ? JOURNAL_VERDICT_SAME
                                                              : kinds[below(work, 5)]);
        break;
    }
    case REPLAY_EXPECTED: case REPLAY_FINISH:
        put_replay(work, request, kind == 0 ? JOURNAL_VERDICT_RECORDED_ENDED : JOURNAL_VERDICT_SAME);
        second->length = 0;
        break;
    case MERGE: case HEADER_EQ: case DIFFERENCE: case CHANGED_FIELD:
        PUT(second, A_CALL);
        break;
    case PAYLOAD_OF_JSON:
        put_text_of(request, kind);
        break;
    case PAYLOAD_OF_FIELDS:
        if (kind == 0 && one_of(work, 2)) {
            put_measured_table(request);
        } else {
            put_table_of(request, kind);
        }
        break;
    case NUMBERING: case NUMBERING_TEXT:
        request->direction = error == UNKNOWN_OPTION ? 2 + (uint32_t)any(work) % (UINT32_MAX - 2) : below(work, 2);
        PUT(first, A_SET);
        PUT(second, A_RENAME);
        if (kind == JOURNAL_LIST_NO_SET) {
            put_byte(first, 0x07);
        } else if (kind == JOURNAL_LIST_NO_RENAME) {
            PUT(second, "Body=No");
        }
        break;
    case RENUMBER_STREAM:
        first->length = 0;
        PUT_MESSAGE(first, CALL_COMMAND, A_CALL);
        if (error == MALFORMED) {
            PUT_MESSAGE(first, CALL_COMMAND, NO_PAYLOAD);
        }
        /* fall through */
    case RENUMBER:
        put_numbering(second, JOURNAL_NUMBERING_WRITING);
        break;
    default:
        break;
    }
    if (listed[call].given > 0) {
        request->given[0] = error == UNKNOWN_VERSION ? JOURNAL_LAST_VERSION + 1 + (any(work) >> below(work, 64) << 3)
                                                     : request->version;
        request->given[1] = error == UNKNOWN_OPTION ? 4 + any_number(work) % (UINT64_MAX - 4) : request->given[1];
        request->given_room = error == NO_ROOM ? below(work, JOURNAL_REPLAY_NUMBERS) : request->given_room;
        return;
    }
    if (error == MALFORMED || (call == IS_WELL_FORMED && !error && kind == 0)) {
        put_byte(first, 0x07);
    }
    if (error == NOT_CANONICAL || (error == OUT_OF_MEMORY && (call == CANONICAL || call == FRAME))) {
        PUT(first, "\x0A\x00");
    }
    if (error == MALFORMED_SECOND ||
        (error == MALFORMED && listed[call].inputs > 1 && call < NUMBERING && one_of(work, 2))) {
        put_byte(second, 0x07);
    }
    if ((call == HEADER_EQ && !error && kind == 0) || (call == CHANGED_FIELD && (error == OUT_OF_MEMORY || kind > 0))) {
        PUT(first, "\x0A\x01s");
    }
    if (call == CHANGED_FIELD) {
        request->index = 0;
    }
    if (error == UNKNOWN_VERSION) {
        request->version = one_of(work, 2) ? below(work, JOURNAL_FIRST_VERSION)
                                           : JOURNAL_LAST_VERSION + 1 + below(work, 300);
    }
    if (error == UNKNOWN_SCHEMA) {
        request->schema = JOURNAL_SCHEMAS + below(work, 300);
    }
    if (error == UNKNOWN_TYPE || (error == UNKNOWN_VERSION && one_of(work, 2))) {
        request->code = call == NOTIFICATION ? CALL_COMMAND
                      : call == HEADER_EQ || call == DIFFERENCE || call == CHANGED_FIELD
                          ? JOURNAL_TYPE_SIGNAL_NOTIFICATION
                          : 0x0004;
        if (call == TYPE_CODE) {
            PUT(first, "callCommand");
        }
    }
}

/* The next kind of a result in turn, which is made on purpose: of a call, and an error if there is one. */
static void next_turn(struct work *work, struct request *request, enum error *error) {
    for (;;) {
        long turn = work->turn++ % (CALLS * (KINDS + ERRORS));
        int kind = (int)(turn % (KINDS + ERRORS));

        request->call = (int)(turn / (KINDS + ERRORS));
        *error = (enum error)(kind < KINDS ? 0 : kind - KINDS);
        if (kind < KINDS ? kind < listed[request->call].kinds
                         : *error != TOO_LONG && (listed[request->call].errors & BIT(*error)) != 0) {
            make_wanted(work, request, kind < KINDS ? kind : 0, *error);
            return;
        }
    }
}

/* Room for a result, or none where no region is so long. */
static size_t room_for(int64_t result) {
    return result <= REGION - GUARD ? (size_t)result : 0;
}

/* Makes a call in all ways. */
static void try_case(struct work *work, struct request *request) {
    int call;
    size_t numbers, room;
    int64_t result;
    enum error error = NO_ERROR;

    /* the calls that make a request have all the memory that there is */
    heap.failing = 0;
    make_request(work, request);
    if (work->cases % 4 == 0) {
        next_turn(work, request, &error);
    }
    call = request->call;
    /* other tables are called again with the room that they need; items end at the room */
    numbers = call == ITEMS ? listed[call].entry * below(work, 20) : listed[call].numbers;
    room = listed[call].writes ? 1024 : 0;
    work->cases++;
    result = called(work, request, room, numbers, 0);
    if (listed[call].writes && result > 0 && result <= REGION - GUARD) {
        size_t needed = (size_t)result;
        if (needed > room) {
            called(work, request, needed, numbers, 0);
        }
        for (size_t less = needed <= 24 ? 0 : needed - 1; less < needed + 2; less++) {
            again(work, request, result, less, numbers);
        }
        again(work, request, result, below(work, (uint32_t)needed), numbers);
        again(work, request, result, 0, numbers);
    }
    if (call == ITEMS && result >= 0) {
        one_by_one(work, request, result);
    }
    if (listed[call].entry > 0 && result >= 0) {
        again_with_tables(work, request, result);
    }
    if (listed[call].numbers > 0) {
        int64_t refused = called(work, request, room, below(work, (uint32_t)numbers), 0);
        if (refused != JOURNAL_NO_ROOM && (result >= 0 || refused != result)) {
            wrong(work, request, "too few numbers are taken", refused);
        }
        if (result >= 0) {
            again(work, request, result, listed[call].writes ? room_for(result) : 0, numbers + 1 + below(work, 4));
        }
    }
    if ((listed[call].errors & BIT(OUT_OF_MEMORY)) && (error == OUT_OF_MEMORY || one_of(work, 4))) {
        long failing = 0;
        do {
            int64_t with_less;
            failing++;
            with_less = called(work, request, room, numbers, failing);
            if (with_less != JOURNAL_OUT_OF_MEMORY && with_less != result) {
                wrong(work, request, "after a failed allocation the result is another", with_less);
            }
        } while (failing < 100 && heap.has_failed);
        if (result >= 0) {
            again(work, request, result, listed[call].writes ? room_for(result) : 0, numbers);
        }
    }
    if (call == IS_WELL_FORMED && result == 1 && request->source[0].length <= POOLED) {
        uint32_t slot = below(work, POOL);
        work->pool[request->schema][slot].length = (uint8_t)request->source[0].length;
        memcpy(work->pool[request->schema][slot].bytes, request->source[0].bytes, request->source[0].length);
    }
}

/* Bytes that have a page before them and one after that nothing may touch. */
static uint8_t *region(void) {
    size_t page = (size_t)sysconf(_SC_PAGESIZE);
    uint8_t *first = mmap(NULL, REGION + 2 * page, PROT_NONE, MAP_PRIVATE | MAP_ANONYMOUS, -1, 0);
    if (first == MAP_FAILED || mprotect(first + page, REGION, PROT_READ | PROT_WRITE) != 0) {
        fail("mmap");
    }
    return first + page;
}

static void *run(void *argument) {
    struct work *work = argument;
    struct request *request = __real_malloc(sizeof *request);

    if (!request) {
        fail("malloc");
    }
    for (int i = 0; i < PLACES; i++) {
        work->regions[i] = region();
    }
    for (uint32_t code = 0; code <= 0xFFFF && work->named < MOST_NAMED; code++) {
        if (journal_schema(JOURNAL_LAST_VERSION, (uint16_t)code) >= 0) {
            work->codes[work->named++] = (uint16_t)code;
        }
    }
    while (work->calls < work->count) {
        try_case(work, request);
    }
    __real_free(request);
    return NULL;
}

int main(int argc, char **argv) {
    int on_heap = argc > 1 && strcmp(argv[1], "--heap") == 0;
    long threads, failed = 0, memory = 0;
    struct work *works;
    pthread_t *started;

    argv += on_heap;
    argc -= on_heap;
    if (argc < 3 || argc > 4) {
        fputs("usage: hostile_calls [--heap] SEED COUNT [THREADS]\n", stderr);
        return 2;
    }
    signal(SIGSEGV, touched);
    signal(SIGBUS, touched);
    threads = argc > 3 ? atol(argv[3]) : 1;
    works = calloc((size_t)threads, sizeof *works);
    started = calloc((size_t)threads, sizeof *started);
    if (!works || !started) {
        fail("calloc");
    }
    for (long i = 0; i < threads; i++) {
        works[i].seed = works[i].random = strtoull(argv[1], NULL, 10);
        works[i].count = atol(argv[2]);
        works[i].on_heap = on_heap;
        works[i].digest = UINT64_C(0xCBF29CE484222325);
        if (pthread_create(&started[i], NULL, run, &works[i]) != 0) {
            fail("pthread_create");
        }
    }
    for (long i = 0; i < threads; i++) {
        pthread_join(started[i], NULL);
        if (works[i].digest != works[0].digest) {
            printf("wrong: thread %ld has other results than the first\n", i);
            failed++;
        }
    }
    for (int call = 0; call < CALLS; call++) {
        memory += works[0].results[call][OUT_OF_MEMORY];
        for (int error = 1; works[0].count >= 10000 && error < ERRORS; error++) {
            if (error != TOO_LONG && listed[call].errors >> error & 1 && works[0].results[call][error] == 0) {
                printf("wrong: %s never returned %" PRId64 "\n", listed[call].name, error_numbers[error]);
                failed++;
            }
        }
        for (int kind = 0; works[0].count >= 10000 && kind < listed[call].kinds; kind++) {
            if (works[0].kinds[call][kind] == 0) {
                printf("wrong: %s never had a result of kind %d\n", listed[call].name, kind);
                failed++;
            }
        }
    }
    printf("%ld calls of %d in %ld threads, %ld with a failed allocation, results %016" PRIx64 "\n",
           works[0].calls, CALLS, threads, memory, works[0].digest);
    free(works);
    free(started);
    return failed > 0;
}
