/*
 * Checks the cases of conformance/numberings.cases on the standard input: test_numberings SCHEMAS < LINES
 *
 * SCHEMAS is a file with the names of the schemas, one per line, in the order of their numbers. conformance/README.md
 * specifies a line. Each call is made without room, with one too little, with exactly enough and with one more, in
 * memory of that size. A line of no kind fails. The last line is 'N passed, M failed'.
 */
#define _POSIX_C_SOURCE 200809L
#include <pendratsoa.h>

#define PROGRAM "test_numberings"
#include "words.h"

/* The directions are JOURNAL_NUMBERING_READING and JOURNAL_NUMBERING_WRITING. */
#define DIRECTIONS 2

struct table {
    struct journal_renumbering *entries;
    size_t count;
};

/* A numbering that a line defines. */
struct numbering {
    char name[16];
    struct table tables[DIRECTIONS];
};

#define NUMBERINGS 8
static struct numbering numberings[NUMBERINGS];
static size_t numbering_count;

/*
 * Calls in each room.
 */

/* What a call is made with: the members that it takes. */
struct asked {
    uint32_t number;      /* a direction, a schema or a version */
    struct table table;
    struct buffer bytes;  /* a set, a payload or a stream */
    struct buffer renames;
    uint64_t kind;        /* of a text, which is the same in each room */
};

/* A call that writes bytes, all of them or none, or a table, whose first entries it writes. */
struct call {
    int64_t (*made)(const struct asked *asked, void *out, size_t room);
    size_t size; /* of an entry of the table, and 1 of bytes */
};

static int64_t numbering_of(const struct asked *asked, void *out, size_t room) {
    return journal_numbering(asked->number, asked->bytes.bytes, asked->bytes.length, asked->renames.bytes,
                             asked->renames.length, (struct journal_renumbering *)out, room);
}

static int64_t text_of(const struct asked *asked, void *out, size_t room) {
    struct journal_list list = {UINT64_MAX};
    const int64_t length =
        journal_numbering_text(asked->bytes.bytes, asked->bytes.length, asked->renames.bytes, asked->renames.length,
                               &list, JOURNAL_LIST_NUMBERS, (uint8_t *)out, room);

    if (list.kind != asked->kind) {
        append_text(&found, "another kind in another room, ");
    }
    return length;
}

static int64_t payload_of(const struct asked *asked, void *out, size_t room) {
    return journal_renumber(asked->number, asked->table.entries, asked->table.count, asked->bytes.bytes,
                            asked->bytes.length, (uint8_t *)out, room);
}

static int64_t stream_of(const struct asked *asked, void *out, size_t room) {
    return journal_renumber_stream(asked->number, asked->table.entries, asked->table.count, asked->bytes.bytes,
                                   asked->bytes.length, (uint8_t *)out, room);
}

static const struct call numbering_call = {numbering_of, sizeof(struct journal_renumbering)};
static const struct call text_call = {text_of, 1};
static const struct call payload_call = {payload_of, 1};
static const struct call stream_call = {stream_of, 1};

/* What each byte of memory is before a call. */
#define UNTOUCHED 0xa5

/* Memory of exactly this size. */
static uint8_t *untouched(size_t size) {
    uint8_t *bytes = (uint8_t *)malloc(size);

    if (bytes == NULL && size > 0) {
        fail("out of memory");
    }
    if (size > 0) {
        memset(bytes, UNTOUCHED, size);
    }
    return bytes;
}

static int is_untouched(const uint8_t *bytes, size_t size) {
    for (size_t i = 0; i < size; i++) {
        if (bytes[i] != UNTOUCHED) {
            return 0;
        }
    }
    return 1;
}

/* How many entries or bytes a call with this result has to write in a room. */
static size_t count_in(const struct call *call, int64_t result, size_t room) {
    const size_t count = result < 0 ? 0 : (size_t)result;

    return count <= room ? count : call->size == 1 ? 0 : room;
}

/* Makes a call in a room: whether it has the result, writes the beginning of what was written, and no more. */
static int is_right_in(const struct call *call, const struct asked *asked, int64_t result, size_t room) {
    uint8_t *out = untouched(room * call->size);
    const int is_same = call->made(asked, out, room) == result;
    const size_t length = count_in(call, result, room) * call->size;
    int is_right;

    if (written.length == 0) {
        append(&written, out, length);
    }
    is_right = is_same && (length == 0 || memcmp(written.bytes, out, length) == 0) &&
               is_untouched(out + length, room * call->size - length);
    free(out);
    return is_right;
}

/* The result of a call in each room; `written` is what it wrote. After an error it writes nothing in any room. */
static int64_t result_of(const struct call *call, const struct asked *asked) {
    const int64_t result = call->made(asked, NULL, 0);
    const size_t enough = result < 0 ? asked->bytes.length : (size_t)result;
    int is_right;

    written.length = 0;
    append(&written, NULL, 0);
    /* the first one of these writes all */
    is_right = is_right_in(call, asked, result, enough + 1) && is_right_in(call, asked, result, enough);
    if (!is_right || (enough > 0 && !is_right_in(call, asked, result, enough - 1)) ||
        !is_right_in(call, asked, result, 0)) {
        append_text(&found, "other things in another room, ");
    }
    return result;
}

/*
 * Sets.
 */

/* The numbering of this name, or null. */
static const struct numbering *numbering_named(const char *name) {
    for (size_t i = 0; i < numbering_count; i++) {
        if (strcmp(numberings[i].name, name) == 0) {
            return &numberings[i];
        }
    }
    return NULL;
}

/* Whether a table has the field of an entry, with its two numbers in each other's place. */
static int has_inverse(const struct table *table, const struct journal_renumbering *entry) {
    for (size_t i = 0; i < table->count; i++) {
        const struct journal_renumbering *other = &table->entries[i];

        if (other->schema == entry->schema && other->number == entry->renumbered &&
            other->renumbered == entry->number && other->nested == entry->nested) {
            return 1;
        }
    }
    return 0;
}

/* Whether the tables of both directions have the same fields. */
static int are_inverse(const struct table *tables) {
    int is_so = tables[0].count == tables[1].count;

    for (size_t i = 0; is_so && i < tables[0].count; i++) {
        is_so = has_inverse(&tables[1], &tables[0].entries[i]) && has_inverse(&tables[0], &tables[1].entries[i]);
    }
    return is_so;
}

/* The tables of a set, with a kind of its text. */
static void make_tables(struct asked *asked, struct table *tables) {
    const int64_t wanted = asked->kind == JOURNAL_LIST_LISTED ? 0 : JOURNAL_MALFORMED;

    for (uint32_t direction = 0; direction < DIRECTIONS; direction++) {
        struct table *table = &tables[direction];
        int64_t count;

        asked->number = direction;
        count = result_of(&numbering_call, asked);
        if ((count < 0 ? count : 0) != wanted) {
            append_text(&found, "a table and a reason why not, or neither, ");
        }
        table->count = count < 0 ? 0 : (size_t)count;
        table->entries = (struct journal_renumbering *)(void *)untouched(written.length);
        if (written.length > 0) {
            memcpy(table->entries, written.bytes, written.length);
        }
    }
    asked->number = DIRECTIONS;
    if (result_of(&numbering_call, asked) != JOURNAL_UNKNOWN_OPTION) {
        append_text(&found, "a table of another direction, ");
    }
}

/* The kind of the text of a set, which is written without room for the text, and not without room for itself. */
static uint64_t kind_of_text(const struct asked *asked) {
    struct journal_list list = {UINT64_MAX};
    const int64_t refused = journal_numbering_text(asked->bytes.bytes, asked->bytes.length, asked->renames.bytes,
                                                   asked->renames.length, &list, 0, NULL, 0);

    if (refused != JOURNAL_NO_ROOM || list.kind != UINT64_MAX) {
        append_text(&found, "a kind without room for it, ");
    }
    journal_numbering_text(asked->bytes.bytes, asked->bytes.length, asked->renames.bytes, asked->renames.length, &list,
                           JOURNAL_LIST_NUMBERS, NULL, 0);
    return list.kind;
}

/* What the text of a set says: only of a rejected one is it in the line. */
static void say_text(const struct asked *asked) {
    const int64_t length = result_of(&text_call, asked);

    if (length <= 0) {
        append_text(&found, length == 0 ? "no text" : journal_error_text(length));
    } else if (asked->kind == JOURNAL_LIST_LISTED) {
        append_text(&found, "ok");
    } else {
        append_text(&found, asked->kind == JOURNAL_LIST_NO_SET      ? "no_set "
                            : asked->kind == JOURNAL_LIST_NO_RENAME ? "no_rename "
                                                                    : "unknown kind ");
        append_hex(&found, written.bytes, written.length);
    }
}

static void set(void) {
    const char *name = next_word();
    struct numbering *numbering = &numberings[numbering_count];
    struct asked asked;

    if (numbering_count == NUMBERINGS || strlen(name) >= sizeof numbering->name) {
        fail("there are too many sets, or a name is too long");
    }
    memset(&asked, 0, sizeof asked);
    asked.renames = next_bytes();
    asked.bytes = next_bytes();
    asked.kind = kind_of_text(&asked);
    make_tables(&asked, numbering->tables);
    if (!are_inverse(numbering->tables)) {
        append_text(&found, "other fields in the other direction, ");
    }
    say_text(&asked);
    if (strcmp(name, "-") == 0) {
        free(numbering->tables[0].entries);
        free(numbering->tables[1].entries);
    } else {
        memcpy(numbering->name, name, strlen(name) + 1);
        numbering_count++;
    }
    free(asked.renames.bytes);
    free(asked.bytes.bytes);
}

/*
 * Payloads and streams.
 */

/* What a call gives in a direction of the numbering that the next word names. */
static void say_renumbered(uint32_t direction, const struct call *call, uint32_t (*next_number)(void)) {
    const struct numbering *numbering = numbering_named(next_word());
    struct asked asked;
    int64_t length;

    if (numbering == NULL) {
        append_text(&found, "no numbering");
        return;
    }
    memset(&asked, 0, sizeof asked);
    asked.table = numbering->tables[direction];
    asked.number = next_number();
    asked.bytes = next_bytes();
    length = result_of(call, &asked);
    if (length == JOURNAL_UNKNOWN_VERSION) {
        append_text(&found, "unknown");
    } else {
        say_written(length);
    }
    free(asked.bytes.bytes);
}

static void read_payload(void) { say_renumbered(JOURNAL_NUMBERING_READING, &payload_call, next_schema); }

static void write_payload(void) { say_renumbered(JOURNAL_NUMBERING_WRITING, &payload_call, next_schema); }

static void stream(void) {
    const char *way = next_word();
    const uint32_t direction = strcmp(way, "read") == 0    ? JOURNAL_NUMBERING_READING
                               : strcmp(way, "write") == 0 ? JOURNAL_NUMBERING_WRITING
                                                           : DIRECTIONS;

    if (direction == DIRECTIONS) {
        append_text(&found, "no direction");
        return;
    }
    say_renumbered(direction, &stream_call, next_version);
}

static const struct kind_of_line kinds[] = {
    {"set", set}, {"read", read_payload}, {"write", write_payload}, {"stream", stream}};

static int check_line(char *line) { return check_words(line, kinds, sizeof kinds / sizeof *kinds); }

int main(int count, char **arguments) {
    const int status = check_lines(count, arguments, check_line, &found);

    for (size_t i = 0; i < numbering_count; i++) {
        free(numberings[i].tables[0].entries);
        free(numberings[i].tables[1].entries);
    }
    free(written.bytes);
    return status;
}
