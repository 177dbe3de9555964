/*
 * Copies the stream on the standard input to the standard output, with the value of each state that is set replaced:
 * messages VALUE [VERSION] < STREAM > STREAM
 *
 * On the standard error it prints one line per state that is set and per call: the key, and the length of the value
 * before; the names of the service and the handler, and the number of headers. Other items are copied as they are, and
 * so are the bytes after the last item. A message that is written anew has only the fields of its type: unknown fields
 * and the ignored bits of its header are lost. The stream is read in chunks. VERSION is from 5 to 9; the default is 8.
 * The status is 0 after a complete stream, 1 if something fails or a message is malformed, and 2 if the arguments are
 * wrong.
 *
 *   cc -std=c99 messages.c $(pkg-config --cflags --libs pendratsoa) -o messages
 */
#include <stdio.h>

#include <pendratsoa_messages.h>
#include <pendratsoa_reader.h>

/* How many bytes one read takes at most. */
#define CHUNK 65536

/* What is used again for each message: the memory of arenas, and a frame that is written. */
static struct journal_memory memory, out;

/* Prints a slice between quotes: other bytes than printable ASCII as \x and two digits. */
static void print(struct journal_slice slice) {
    fputs(" \"", stderr);
    for (size_t i = 0; i < slice.length; i++) {
        const uint8_t byte = slice.at[i];

        if (byte < ' ' || byte > '~' || byte == '"' || byte == '\\') {
            fprintf(stderr, "\\x%02x", byte);
        } else {
            fputc(byte, stderr);
        }
    }
    fputc('"', stderr);
}

/*
 * Whether a call has to be repeated that returned this, for which there is more room now: of the arena, or for a frame.
 * If an allocation fails, the result becomes JOURNAL_OUT_OF_MEMORY.
 */
static bool has_more_room(int64_t *result, size_t lacking) {
    if (*result != JOURNAL_NO_ROOM) {
        return journal_memory_grow_for(&out, result);
    }
    if (journal_memory_grow(&memory, memory.size + lacking)) {
        return true;
    }
    *result = JOURNAL_OUT_OF_MEMORY;
    return false;
}

/* Prints what a call says. Returns 0, or an error. */
static int64_t print_call(const struct journal_reader_item *item) {
    struct journal_CallCommandMessage call;
    struct journal_arena arena;
    int64_t result;

    do {
        arena = journal_arena_of(memory.bytes, memory.size);
        result = journal_read_CallCommandMessage(item->payload, item->payload_length, &call, &arena);
    } while (has_more_room(&result, arena.lacking));
    if (result == 0) {
        fprintf(stderr, "call");
        print(call.service_name);
        print(call.handler_name);
        fprintf(stderr, ", %lu headers\n", (unsigned long)call.headers_count);
    }
    return result;
}

/* Puts the frame of a state that is set, with another value, into `out`. Returns its length, or an error. */
static int64_t set_value(uint32_t version, const struct journal_reader_item *item, const char *value) {
    struct journal_SetStateCommandMessage command;
    struct journal_slice before = {NULL, 0};
    struct journal_arena arena;
    int64_t result;

    do {
        arena = journal_arena_of(memory.bytes, memory.size);
        result = journal_read_SetStateCommandMessage(item->payload, item->payload_length, &command, &arena);
        if (result == 0) {
            before = command.value.content;
            command.has_value = true;
            command.value.content = journal_text(value);
            result = journal_frame_SetStateCommandMessage(version, &command, &arena, out.bytes, out.size);
        }
    } while (has_more_room(&result, arena.lacking));
    if (result >= 0) {
        fprintf(stderr, "state");
        print(command.key);
        fprintf(stderr, ", %lu bytes\n", (unsigned long)before.length);
    }
    return result;
}

/* Writes an item, or the one that takes its place if it sets a state. Returns 0, or an error. */
static int64_t copy_item(uint32_t version, const struct journal_reader_item *item, const char *value) {
    const uint8_t *bytes = item->bytes;
    int64_t length = (int64_t)item->item.size;

    if (item->item.kind == JOURNAL_ITEM_MESSAGE && item->item.code == JOURNAL_TYPE_SET_STATE_COMMAND) {
        length = set_value(version, item, value);
        bytes = out.bytes;
    } else if (item->item.kind == JOURNAL_ITEM_MESSAGE && item->item.code == JOURNAL_TYPE_CALL_COMMAND) {
        const int64_t error = print_call(item);

        length = error < 0 ? error : length;
    }
    if (length > 0) {
        fwrite(bytes, 1, (size_t)length, stdout);
    }
    return length < 0 ? length : 0;
}

/* Reads a chunk of the input. Returns its length: 0 at the end, or where there is no memory. */
static size_t read_chunk(struct journal_reader *reader) {
    uint8_t *room = journal_reader_room(reader, CHUNK);
    size_t count = room == NULL ? 0 : fread(room, 1, CHUNK, stdin);

    journal_reader_came(reader, count);
    return count;
}

/* Copies the items of the standard input. Returns 0, or the error of an item, which it prints. */
static int64_t copy_items(struct journal_reader *reader, const char *value) {
    struct journal_reader_item item;
    int64_t result = 0;

    while (result == 0 && read_chunk(reader) > 0) {
        while (result == 0 && (result = journal_reader_next(reader, &item)) == 1) {
            result = copy_item(reader->version, &item, value);
            if (result < 0) {
                fprintf(stderr, "messages: the item at %llu: %s\n", (unsigned long long)item.offset,
                        journal_error_text(result));
            }
        }
    }
    return result;
}

/* Copies the standard input. Returns the status. */
static int copy(struct journal_reader *reader, const char *value) {
    struct journal_reader_rest rest;

    if (copy_items(reader, value) < 0) {
        return 1;
    }
    rest = journal_reader_finish(reader);
    if (rest.size > 0) {
        fwrite(rest.bytes, 1, rest.size, stdout);
    }
    if (!feof(stdin) || fflush(stdout) != 0 || ferror(stdout)) {
        fprintf(stderr, "messages: the input or the output failed\n");
        return 1;
    }
    return 0;
}

int main(int count, char **words) {
    const uint32_t version = count == 3 ? (uint32_t)strtoul(words[2], NULL, 10) : 8;
    struct journal_reader reader = journal_reader_of(version, UINT32_MAX);
    int status;

    if (count < 2 || count > 3 || version < JOURNAL_FIRST_VERSION || version > JOURNAL_LAST_VERSION) {
        fprintf(stderr, "usage: messages VALUE [5..9]\n");
        return 2;
    }
    status = copy(&reader, words[1]);
    journal_reader_free(&reader);
    journal_memory_free(&memory);
    journal_memory_free(&out);
    return status;
}
