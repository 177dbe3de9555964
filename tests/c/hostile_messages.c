/*
 * Makes adversarial calls of pendratsoa_messages.h: hostile_messages SCHEMAS SEED COUNT < LINES
 *
 * SCHEMAS is as for test_messages. The lines are test vectors; their payloads are taken. Of each case, until COUNT
 * calls are made,
 *
 * - a payload, of a vector, damaged or of random bytes, is read with arenas of every size that is too small, and of one
 *   that is enough, at any alignment. The result is that of journal_canonical, or JOURNAL_NO_ROOM with a size that is
 *   enough then; a record that is not read is empty, and its arena as it was. What is read is written, with arenas of
 *   every size that is too small, as the canonical payload.
 * - a record of random members, some with texts that are not UTF-8 and some nested too deep, is written. It is rejected
 *   by the reason and the field that a look at it gives, or written, and then read as the same record.
 *
 * All memory is in blocks of malloc of exactly the length that is given, for sanitizers to watch. Whatever the seed, in
 * 100,000 calls and more each result has to have been there: records of all schemas that are read and rejected, arenas
 * that are too small, both reasons. The last line has the counts.
 */
#define _POSIX_C_SOURCE 200809L
#include <pendratsoa_messages.h>

#include <stdio.h>
#include <stdlib.h>

#include "members.h"

#define MOST_PAYLOAD 4096
#define POOL 40000

struct pooled {
    uint32_t schema;
    size_t length;
    uint8_t *bytes;
};

static struct pooled pool[POOL];
static size_t pooled;
static uint64_t seed, state;
static long calls, cases, lacking, not_utf8, too_deep, records_read[JOURNAL_SCHEMAS], records_malformed;

static void fail(const char *why) {
    printf("wrong: %s; seed %llu, case %ld\n", why, (unsigned long long)seed, cases);
    exit(1);
}

static void check(bool is_right, const char *what) {
    if (!is_right) {
        fail(what);
    }
}

static void *block(size_t size) {
    void *made = malloc(size);

    if (made == NULL && size > 0) {
        fail("out of memory");
    }
    return made;
}

/* Random numbers: splitmix64. */
static uint64_t any(void) {
    uint64_t number = state += UINT64_C(0x9E3779B97F4A7C15);

    number = (number ^ number >> 30) * UINT64_C(0xBF58476D1CE4E5B9);
    number = (number ^ number >> 27) * UINT64_C(0x94D049BB133111EB);
    return number ^ number >> 31;
}

static size_t below(size_t bound) { return (size_t)(any() % bound); }

/* An arena of a size, which begins at an address of any alignment; its block is to be freed. */
static struct journal_arena arena_of(size_t size, size_t shift, uint8_t **made) {
    *made = (uint8_t *)block(size + shift);
    return journal_arena_of(size + shift == 0 ? NULL : *made + shift, size);
}

static bool is_empty(const union journal_record *record) {
    const uint8_t *bytes = (const uint8_t *)record;

    for (size_t i = 0; i < sizeof *record; i++) {
        if (bytes[i] != 0) {
            return false;
        }
    }
    return true;
}

/* The size of the value of a member, or of an element of one. */
static size_t size_of(const struct member *member) {
    switch (member->kind) {
    case JOURNAL_FIELD_UINT32:
    case JOURNAL_FIELD_ENUM:
        return sizeof(uint32_t);
    case JOURNAL_FIELD_UINT64:
        return sizeof(uint64_t);
    case JOURNAL_FIELD_BOOL:
        return sizeof(bool);
    case JOURNAL_FIELD_MESSAGE:
        return all_records[member->schema].size;
    default:
        return sizeof(struct journal_slice);
    }
}

/* Whether two records of a schema are the same, member by member. */
static bool are_same(uint32_t schema, const uint8_t *first, const uint8_t *second) {
    const struct member *member = &all_members[all_records[schema].first];

    for (size_t left = all_records[schema].count; left > 0; left--, member++) {
        const uint8_t *one = first + member->offset, *other = second + member->offset;
        size_t count = 1, other_count = 1, size = size_of(member);
        uint32_t number, other_number;

        if (member->shape == MEMBER) {
            memcpy(&number, first + member->presence, sizeof number);
            memcpy(&other_number, second + member->presence, sizeof other_number);
            if (number != other_number) {
                return false;
            }
            count = number == member->number;
        } else if (member->shape == OPTIONAL) {
            if (first[member->presence] != second[member->presence]) {
                return false;
            }
            count = first[member->presence];
        } else if (member->shape == REPEATED) {
            memcpy(&count, first + member->presence, sizeof count);
            memcpy(&other_count, second + member->presence, sizeof other_count);
            if (count != other_count) {
                return false;
            }
            memcpy(&one, first + member->offset, sizeof one);
            memcpy(&other, second + member->offset, sizeof other);
        }
        for (size_t i = 0; i < count; i++, one += size, other += size) {
            if (member->kind == JOURNAL_FIELD_MESSAGE) {
                if (!are_same(member->schema, one, other)) {
                    return false;
                }
            } else if (member->kind == JOURNAL_FIELD_STRING || member->kind == JOURNAL_FIELD_BYTES) {
                const struct journal_slice *slice = (const struct journal_slice *)(const void *)one;
                const struct journal_slice *another = (const struct journal_slice *)(const void *)other;

                if (slice->length != another->length ||
                    (slice->length > 0 && memcmp(slice->at, another->at, slice->length) != 0)) {
                    return false;
                }
            } else if (memcmp(one, other, size) != 0) {
                return false;
            }
        }
    }
    return true;
}

/* Writes a record where it needs an arena, with sizes that are too small and with one that is enough. */
static int64_t written_in(uint32_t schema, const union journal_record *record, size_t needed,
                          struct journal_arena *last) {
    size_t shift = below(16), step = needed < 800 ? 1 + below(needed / 8 + 1) : 1 + below(needed / 4);
    struct journal_arena arena;
    uint8_t *made;
    int64_t result;

    for (size_t size = 0; size + 14 < needed; size += step) {
        arena = arena_of(size, shift, &made);
        check(journal_write_record(schema, record, &arena, NULL, 0) == JOURNAL_NO_ROOM, "a small arena is enough");
        check(arena.left == size && arena.lacking > 0, "the arena after a record that is not written");
        calls++;
        lacking++;
        free(made);
    }
    arena = arena_of(needed, shift, &made);
    result = journal_write_record(schema, record, &arena, NULL, 0);
    calls++;
    check(arena.left == needed && result != JOURNAL_NO_ROOM, "the arena after a record that is written");
    free(made);
    *last = arena;
    return result;
}

/* Writes a record, with an arena of no bytes where that is enough, and with room of every kind. Returns the length, and
   puts the payload where there is one. */
static int64_t written(uint32_t schema, const union journal_record *record, uint8_t **payload,
                       struct journal_arena *last) {
    struct journal_arena arena = journal_arena_of(NULL, 0);
    uint8_t *made = NULL, *out;
    int64_t result;

    result = journal_write_record(schema, record, &arena, NULL, 0);
    calls++;
    *payload = NULL;
    if (result == JOURNAL_NO_ROOM) {
        /* what is not used for alignment depends on the address */
        arena.lacking += 7;
        made = (uint8_t *)block(arena.lacking);
        result = written_in(schema, record, arena.lacking, &arena);
        arena.memory = made;
    }
    *last = arena;
    if (result >= 0) {
        out = (uint8_t *)block((size_t)result + 1);
        memset(out, 0x5A, (size_t)result + 1);
        if (result > 0) {
            check(journal_write_record(schema, record, &arena, out, (size_t)result - 1) == result && out[0] == 0x5A,
                  "a payload where there is no room");
            calls++;
        }
        check(journal_write_record(schema, record, &arena, out, (size_t)result) == result && out[result] == 0x5A,
              "a payload written");
        calls++;
        *payload = out;
    }
    free(made);
    return result;
}

/* Reads a payload, with arenas of sizes that are too small and of one that is enough, and writes what is read. */
static void read_and_write(uint32_t schema, const uint8_t *payload, size_t length) {
    int64_t canonical = journal_canonical(schema, payload, length, NULL, 0), result;
    uint8_t *wanted = (uint8_t *)block(canonical < 0 ? 1 : (size_t)canonical + 1), *made, *again;
    size_t size = 0, shift = below(16), enough = 0, step;
    struct journal_arena arena, last;
    union journal_record record;
    int tries = 0;

    if (canonical >= 0) {
        journal_canonical(schema, payload, length, wanted, (size_t)canonical);
    }
    for (;;) {
        memset(&record, 0, sizeof record);
        arena = arena_of(size, shift, &made);
        result = journal_read_record(schema, payload, length, &record, &arena);
        calls++;
        if (result != JOURNAL_NO_ROOM) {
            break;
        }
        check(is_empty(&record) && arena.left == size && arena.lacking > 0, "a record that is not read");
        size += arena.lacking;
        lacking++;
        free(made);
        check(++tries < 3, "an arena that lacks more than it says");
    }
    check(result < 0 ? result == canonical && is_empty(&record) : canonical >= 0, "the result of reading");
    if (result < 0) {
        records_malformed++;
        free(made);
        free(wanted);
        return;
    }
    records_read[schema]++;
    /* whatever fits in less is read too, and nothing else */
    step = size < 600 ? 1 + below(8) : 1 + below(size / 8);
    for (size_t smaller = 0; smaller < size; smaller += step) {
        union journal_record small;
        struct journal_arena little;
        uint8_t *little_made;

        memset(&small, 0, sizeof small);
        little = arena_of(smaller, shift, &little_made);
        result = journal_read_record(schema, payload, length, &small, &little);
        calls++;
        if (result == 0) {
            check(are_same(schema, (const uint8_t *)&small, (const uint8_t *)&record), "another record in less memory");
            enough = enough == 0 ? smaller : enough;
        } else {
            check(result == JOURNAL_NO_ROOM && is_empty(&small) && little.left == smaller && enough == 0,
                  "a record in too little memory");
            lacking++;
        }
        free(little_made);
    }
    result = written(schema, &record, &again, &last);
    check(result == canonical && (again == NULL || memcmp(again, wanted, (size_t)result) == 0), "what is written");
    free(again);
    free(made);
    free(wanted);
}

/* A payload of the pool, as it is, damaged or of other bytes. */
static void damaged_payload(void) {
    const struct pooled *from = &pool[below(pooled)], *other = &pool[below(pooled)];
    uint32_t schema = from->schema;
    uint8_t bytes[2 * MOST_PAYLOAD], *payload;
    size_t length = from->length;

    memcpy(bytes, from->bytes, length);
    switch (below(8)) {
    case 0:
        schema = (uint32_t)below(JOURNAL_SCHEMAS);
        break;
    case 1:
        length = below(24);
        for (size_t i = 0; i < length; i++) {
            bytes[i] = (uint8_t)any();
        }
        break;
    case 2:
        length = below(length + 1);
        break;
    case 3:
        memcpy(bytes + length, other->bytes, other->length);
        length += other->length;
        break;
    case 4:
        memmove(bytes + length, bytes, length);
        length += length;
        break;
    case 5:
        for (size_t changes = 1 + below(3); length > 0 && changes > 0; changes--) {
            bytes[below(length)] = (uint8_t)any();
        }
        break;
    case 6:
        if (length > 0) {
            bytes[below(length)] ^= (uint8_t)(1u << below(8));
        }
        break;
    default:
        break;
    }
    payload = (uint8_t *)block(length);
    memcpy(length == 0 ? bytes : payload, bytes, length);
    read_and_write(schema, payload, length);
    free(payload);
}

/* The memory of a record that is made. */
static struct {
    uint8_t bytes[1 << 17];
    size_t used;
} given;

static uint8_t *take(size_t size) {
    uint8_t *taken = given.bytes + given.used;

    check(size <= sizeof given.bytes - given.used, "too much is made");
    given.used += (size + 15) / 16 * 16;
    return taken;
}

/* What a look at a record that is made finds first: why it may not be, and where. */
static struct { uint32_t kind, schema, number; } wrong;

/* Whether all texts that are made are UTF-8: those of a chain, where one would come before it is too deep. */
static bool has_right_texts;

static void is_wrong(uint32_t kind, uint32_t schema, uint32_t number) {
    if (wrong.kind == 0) {
        wrong.kind = kind;
        wrong.schema = schema;
        wrong.number = number;
    }
}

static void make_record(uint32_t schema, uint8_t *record, size_t level, size_t chain);

static void make_value(uint32_t schema, const struct member *member, uint8_t *place, size_t level,
                       size_t chain) {
    static const char *const texts[] = {
        "", "a", "key", "t\xC3\xA9xt", "\xF0\x9F\x98\x80", "a longer text than the others"};
    uint64_t number = any() >> below(64);
    struct journal_slice slice;
    uint8_t *made;

    switch (member->kind) {
    case JOURNAL_FIELD_UINT32:
    case JOURNAL_FIELD_ENUM:
        memcpy(place, &number, sizeof(uint32_t));
        break;
    case JOURNAL_FIELD_UINT64:
        memcpy(place, &number, sizeof number);
        break;
    case JOURNAL_FIELD_BOOL:
        *(bool *)(void *)place = (number & 1) != 0;
        break;
    case JOURNAL_FIELD_MESSAGE:
        if (level == JOURNAL_LEVELS_) {
            is_wrong(JOURNAL_ENTRY_TOO_DEEP, schema, member->number);
        }
        make_record(member->schema, place, level + 1, chain);
        break;
    default:
        slice = journal_text(texts[below(sizeof texts / sizeof *texts)]);
        if (below(3) == 0) {
            /* any bytes; in a text characters, and here and there 0xFF, which no UTF-8 has; nothing may be null */
            bool is_text = true;

            slice.length = below(12);
            made = take(slice.length);
            slice.at = slice.length == 0 ? NULL : made;
            for (size_t i = 0; i < slice.length; i++) {
                made[i] = member->kind == JOURNAL_FIELD_BYTES  ? (uint8_t)any()
                          : !has_right_texts && below(40) == 0 ? 0xFF
                                                               : 'x';
                is_text = is_text && made[i] != 0xFF;
            }
            if (member->kind == JOURNAL_FIELD_STRING && !is_text) {
                is_wrong(JOURNAL_ENTRY_NOT_UTF8, schema, member->number);
            }
        }
        memcpy(place, &slice, sizeof slice);
    }
}

/* Makes a record of random members; of futures a chain of this many more. */
static void make_record(uint32_t schema, uint8_t *record, size_t level, size_t chain) {
    const struct member *member = &all_members[all_records[schema].first];
    size_t left = all_records[schema].count;
    uint32_t chosen = 0, case_place = UINT32_MAX;

    for (; left > 0; left--, member++) {
        bool is_chain =
            member->shape == REPEATED && member->kind == JOURNAL_FIELD_MESSAGE && member->schema == schema;
        size_t count, size = size_of(member);
        uint8_t *elements;

        switch (member->shape) {
        case REPEATED:
            count = is_chain ? chain > 0 : below(4) * below(2);
            elements = count == 0 ? NULL : take(count * size);
            if (count > 0) {
                memset(elements, 0, count * size);
            }
            memcpy(record + member->offset, &elements, sizeof elements);
            memcpy(record + member->presence, &count, sizeof count);
            for (size_t i = 0; i < count; i++) {
                make_value(schema, member, elements + i * size, level, is_chain ? chain - 1 : chain);
            }
            break;
        case OPTIONAL:
            *(bool *)(void *)(record + member->presence) =
                below(2) == 0 || (chain > 0 && member->kind == JOURNAL_FIELD_MESSAGE);
            if (record[member->presence]) {
                make_value(schema, member, record + member->offset, level, chain);
            }
            break;
        case MEMBER:
            /* the members of a oneof are next to each other, and one of them or none is chosen at the first */
            if (case_place != member->presence) {
                size_t members = 0;

                case_place = member->presence;
                while (members < left && member[members].shape == MEMBER &&
                       member[members].presence == case_place) {
                    members++;
                }
                chosen = below(4) == 0 ? 0 : member[below(members)].number;
                memcpy(record + member->presence, &chosen, sizeof chosen);
            }
            if (chosen == member->number) {
                make_value(schema, member, record + member->offset, level, chain);
            }
            break;
        default:
            if (below(4) > 0) {
                make_value(schema, member, record + member->offset, level, chain);
            }
        }
    }
}

/* A record of random members, written and read. */
static void made_record(void) {
    uint32_t schema = (uint32_t)below(JOURNAL_SCHEMAS);
    union journal_record record, again;
    struct journal_arena arena, last;
    uint8_t *payload, *made;
    size_t size = 0, chain = below(8) == 0 ? 99 + below(5) : below(4);
    int64_t length, result;

    if (chain > 4 || below(8) == 0) {
        schema = below(2) == 0 ? JOURNAL_SCHEMA_FUTURE : JOURNAL_SCHEMA_AWAITING_ON;
    }
    has_right_texts = chain > 4;
    memset(&record, 0, sizeof record);
    memset(&wrong, 0, sizeof wrong);
    given.used = 0;
    make_record(schema, (uint8_t *)&record, 0, chain);
    length = written(schema, &record, &payload, &last);
    if (wrong.kind != 0) {
        check(length == JOURNAL_MALFORMED, "a record that is wrong");
        check(last.rejected_kind == wrong.kind && last.rejected_schema == wrong.schema &&
                  last.rejected_number == wrong.number,
              "why and where a record is wrong");
        not_utf8 += wrong.kind == JOURNAL_ENTRY_NOT_UTF8;
        too_deep += wrong.kind == JOURNAL_ENTRY_TOO_DEEP;
        free(payload);
        return;
    }
    check(length >= 0, "a record that is right");
    for (int tries = 0;; tries++) {
        memset(&again, 0, sizeof again);
        arena = arena_of(size, below(16), &made);
        result = journal_read_record(schema, payload, (size_t)length, &again, &arena);
        calls++;
        if (result == 0) {
            break;
        }
        check(result == JOURNAL_NO_ROOM && tries < 2, "a record that was written");
        size += arena.lacking + 7;
        free(made);
    }
    check(are_same(schema, (const uint8_t *)&record, (const uint8_t *)&again), "another record than was written");
    free(made);
    free(payload);
}

/* Puts the payload of a line into the pool. */
static void put(char *line, char **names) {
    char *kind = strtok(line, " \n"), *name = strtok(NULL, " \n"), *digits = strtok(NULL, " \n");
    uint8_t bytes[MOST_PAYLOAD];
    size_t length = 0;
    unsigned byte;

    if (digits == NULL || pooled == POOL || kind[0] == '#' || strlen(digits) > 2 * sizeof bytes) {
        return;
    }
    for (uint32_t schema = 0; schema < JOURNAL_SCHEMAS; schema++) {
        if (strcmp(name, names[schema]) == 0) {
            for (; sscanf(digits, "%2x", &byte) == 1; digits += 2) {
                bytes[length++] = (uint8_t)byte;
            }
            pool[pooled].schema = schema;
            pool[pooled].length = length;
            pool[pooled].bytes = (uint8_t *)block(length + 1);
            memcpy(pool[pooled].bytes, bytes, length);
            pooled++;
            return;
        }
    }
}

static void read_lines(const char *path) {
    char *names[JOURNAL_SCHEMAS], *line = NULL;
    FILE *file = fopen(path, "r");
    size_t room = 0;

    check(file != NULL, "the names of the schemas cannot be read");
    for (uint32_t schema = 0; schema < JOURNAL_SCHEMAS; schema++) {
        names[schema] = NULL;
        check(getline(&names[schema], (room = 0, &room), file) > 0, "there are too few names of schemas");
        names[schema][strcspn(names[schema], "\n")] = '\0';
    }
    fclose(file);
    room = 0;
    while (getline(&line, &room, stdin) >= 0) {
        put(line, names);
    }
    for (uint32_t schema = 0; schema < JOURNAL_SCHEMAS; schema++) {
        free(names[schema]);
    }
    free(line);
    check(pooled > 0, "there are no payloads");
}

int main(int count, char **words) {
    long wanted = count == 4 ? strtol(words[3], NULL, 10) : 0, read = 0;

    check(wanted > 0, "usage: hostile_messages SCHEMAS SEED COUNT");
    seed = state = strtoull(words[2], NULL, 10);
    read_lines(words[1]);
    for (; calls < wanted; cases++) {
        if (cases % 3 == 0) {
            made_record();
        } else {
            damaged_payload();
        }
    }
    for (uint32_t schema = 0; schema < JOURNAL_SCHEMAS; schema++) {
        check(wanted < 100000 || records_read[schema] > 0, "there is a schema of which nothing was read");
        read += records_read[schema];
    }
    check(wanted < 100000 || (records_malformed > 0 && lacking > 0 && not_utf8 > 0 && too_deep > 0),
          "a result was not there");
    for (size_t i = 0; i < pooled; i++) {
        free(pool[i].bytes);
    }
    printf("%ld calls: %ld records read, %ld malformed, %ld arenas too small, %ld texts not UTF-8, %ld too deep\n",
           calls, read, records_malformed, lacking, not_utf8, too_deep);
    return 0;
}
