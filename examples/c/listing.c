/*
 * Lists the stream that comes on the standard input, in chunks of 4 KiB: listing [VERSION]
 *
 * A line is an item: the name of its type and the length of its payload, and " ack" if its header requests an
 * acknowledgement; after a call also the names of its service and its handler. The last line counts the trailing bytes.
 * VERSION is from 5 to 9; the default is 8. The status is 0 after a complete listing, 1 if the input, the output or an
 * allocation fails, and 2 if the arguments are wrong.
 *
 *   cc -std=c99 listing.c $(pkg-config --cflags --libs pendratsoa) -o listing
 */
#include <stdio.h>

#include <pendratsoa_messages.h>
#include <pendratsoa_reader.h>

/* How many bytes one read takes at most. */
#define CHUNK 4096

/* The memory of arenas, which is used again for each call. */
static struct journal_memory memory;

/* Prints a text between quotes: other bytes than printable ASCII as \x and two digits. */
static void print_text(struct journal_slice text) {
    fputs(" \"", stdout);
    for (size_t i = 0; i < text.length; i++) {
        const uint8_t byte = text.at[i];

        if (byte < ' ' || byte > '~' || byte == '"' || byte == '\\') {
            printf("\\x%02x", byte);
        } else {
            putchar(byte);
        }
    }
    putchar('"');
}

/* Prints the names of a call, by the result of reading it, or that it is malformed. Returns 0, or an error. */
static int64_t print_names(int64_t result, struct journal_slice service, struct journal_slice handler) {
    switch (result) {
    case 0:
        print_text(service);
        print_text(handler);
        return 0;
    case JOURNAL_MALFORMED:
        fputs(" malformed", stdout);
        return 0;
    case JOURNAL_NO_ROOM:
        return JOURNAL_OUT_OF_MEMORY;
    default:
        return result;
    }
}

/* Prints the names of the service and the handler of a call. Returns 0, or an error. */
static int64_t print_call(const struct journal_reader_item *item) {
    struct journal_CallCommandMessage call;
    struct journal_arena arena;
    int64_t result;

    do {
        arena = journal_arena_of(memory.bytes, memory.size);
        result = journal_read_CallCommandMessage(item->payload, item->payload_length, &call, &arena);
    } while (result == JOURNAL_NO_ROOM && journal_memory_grow(&memory, memory.size + arena.lacking));
    return print_names(result, call.service_name, call.handler_name);
}

/* The same of a one-way call. */
static int64_t print_one_way_call(const struct journal_reader_item *item) {
    struct journal_OneWayCallCommandMessage call;
    struct journal_arena arena;
    int64_t result;

    do {
        arena = journal_arena_of(memory.bytes, memory.size);
        result = journal_read_OneWayCallCommandMessage(item->payload, item->payload_length, &call, &arena);
    } while (result == JOURNAL_NO_ROOM && journal_memory_grow(&memory, memory.size + arena.lacking));
    return print_names(result, call.service_name, call.handler_name);
}

/* Prints the line of a message. Returns 0, or an error. */
static int64_t print_message(const struct journal_reader_item *item) {
    uint8_t name[64];
    const int64_t length = journal_type_name((uint16_t)item->item.code, name, sizeof name);
    int64_t error = 0;

    if (length < 0 || length > (int64_t)sizeof name) {
        return JOURNAL_UNKNOWN_TYPE;
    }
    printf("%.*s %zu", (int)length, (const char *)name, item->payload_length);
    if (item->item.requested_ack) {
        fputs(" ack", stdout);
    }
    if (item->item.code == JOURNAL_TYPE_CALL_COMMAND) {
        error = print_call(item);
    } else if (item->item.code == JOURNAL_TYPE_ONE_WAY_CALL_COMMAND) {
        error = print_one_way_call(item);
    }
    putchar('\n');
    return error;
}

/* Prints the line of an item. Returns 0, or an error. */
static int64_t print_item(const struct journal_reader_item *item) {
    switch (item->item.kind) {
    case JOURNAL_ITEM_UNKNOWN_CODE:
        printf("unknown 0x%x\n", (unsigned)item->item.code);
        return 0;
    case JOURNAL_ITEM_SKIPPED:
        printf("skipped 0x%x %zu\n", (unsigned)item->item.code, item->payload_length);
        return 0;
    default:
        return print_message(item);
    }
}

/* Lists the standard input. Returns 0, or an error. */
static int64_t list(struct journal_reader *reader) {
    struct journal_reader_item item;
    int64_t result = 0;
    size_t count;

    do {
        uint8_t *room = journal_reader_room(reader, CHUNK);

        if (room == NULL) {
            return JOURNAL_OUT_OF_MEMORY;
        }
        count = fread(room, 1, CHUNK, stdin);
        journal_reader_came(reader, count);
        while (result == 0 && journal_reader_next(reader, &item) == 1) {
            result = print_item(&item);
        }
    } while (result == 0 && count > 0);
    return result;
}

int main(int argc, char **argv) {
    struct journal_reader reader = journal_reader_of(8, UINT32_MAX);
    const char *failure = NULL;
    int64_t result;

    if (argc == 2 && argv[1][0] >= '5' && argv[1][0] <= '9' && argv[1][1] == '\0') {
        reader.version = (uint32_t)(argv[1][0] - '0');
    } else if (argc != 1) {
        fputs("usage: listing [5..9]\n", stderr);
        return 2;
    }
    result = list(&reader);
    if (result < 0) {
        failure = journal_error_text(result);
    } else if (ferror(stdin)) {
        failure = "input failed";
    } else {
        printf("rest %zu\n", journal_reader_pending(&reader));
        if (fflush(stdout) != 0 || ferror(stdout)) {
            failure = "output failed";
        }
    }
    journal_reader_free(&reader);
    journal_memory_free(&memory);
    if (failure != NULL) {
        fprintf(stderr, "listing: %s\n", failure);
        return 1;
    }
    return 0;
}
