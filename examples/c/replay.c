/*
 * Checks the replay that comes on the standard input by a recording: replay RECORDING [5..9]
 *
 * It prints each command that is the same. Where the replay leaves the recording it prints how, where both are, which
 * command the recording has next, the text that the SDKs report, and the fields that differ. The status is 0 if both
 * are the same, 1 if they differ, and 2 if either cannot be read: a file, a message of more than a mebibyte, a stream
 * or a recording that ends within an item, a command that is malformed.
 *
 *   cc -std=c99 replay.c $(pkg-config --cflags --libs pendratsoa) -o replay
 */
#include <inttypes.h>
#include <stdio.h>
#include <stdlib.h>

#include <pendratsoa_reader.h>

#define CHUNK 4096
#define LIMIT 1048576

/* The recording, how far its replay came, and memory for texts. */
static struct journal_memory recorded, text;
static size_t length;
static struct journal_replay replay;

/* Prints the name of a type, and the offset of a command of it. */
static void print_command(const char *what, uint64_t code, uint64_t offset) {
    uint8_t name[64];
    const int64_t size = journal_type_name((uint16_t)code, name, sizeof name);
    const bool is_there = size >= 0 && size <= (int64_t)sizeof name;

    printf("%s %.*s at offset %" PRIu64 "\n", what, is_there ? (int)size : 0, (const char *)name, offset);
}

/* Prints bytes after a text. They may be more than a precision of printf can be. */
static void print_bytes(const char *before, const uint8_t *bytes, uint64_t size) {
    fputs(before, stdout);
    fwrite(bytes, 1, (size_t)size, stdout);
}

/* Prints the text of a mismatch of two commands, and the fields in which they differ. Returns 1, or an error. */
static int64_t print_text(const struct journal_mismatch *found, uint16_t code, const uint8_t *payload, size_t size) {
    struct journal_changed_field field;
    int64_t needed;

    do {
        needed = journal_replay_text(code, recorded.bytes, length, payload, size, &replay, JOURNAL_REPLAY_NUMBERS,
                                     text.bytes, text.size);
    } while (journal_memory_grow_for(&text, &needed));
    if (needed > 0) {
        print_bytes("", text.bytes, (uint64_t)needed);
        putchar('\n');
    }
    /* no field is longer than the text, which has all of them */
    for (uint32_t index = 0; needed > 0 && found->kind == JOURNAL_VERDICT_HEADER_MISMATCH; index++) {
        needed = journal_changed_field(code, index, recorded.bytes + found->recorded_offset + 8,
                                       (size_t)found->recorded_size - 8, payload, size, &field,
                                       JOURNAL_CHANGED_FIELD_NUMBERS, text.bytes, text.size);
        if (needed > 0) {
            const uint8_t *first = text.bytes + field.name_length;

            print_bytes("field ", text.bytes, field.name_length);
            print_bytes(": recorded ", first, field.first_length);
            print_bytes(", replayed ", first + field.first_length, field.second_length);
            putchar('\n');
        }
    }
    return needed < 0 ? needed : 1;
}

/* Prints a mismatch, and what the recording has next. Returns the status. */
static int print_mismatch(const struct journal_mismatch *found) {
    printf("%s, command %" PRIu64 ", recorded at offset ", journal_verdict_name(found->kind), found->index);
    found->recorded_size > 0 ? printf("%" PRIu64, found->recorded_offset) : printf("-");
    printf(", replayed at offset %" PRIu64 "\n", found->replayed_offset);
    if (found->kind != JOURNAL_VERDICT_RECORDED_ENDED) {
        print_command("next", found->recorded_code, found->recorded_offset);
    }
    return found->kind > JOURNAL_VERDICT_HEADER_MISMATCH ? 2 : 1;
}

/* Prints why the replay cannot be read to its end, by the item in which that is. */
static void print_end(const struct journal_reader *reader, int64_t result) {
    const struct journal_reader_rest rest = journal_reader_finish(reader);

    fprintf(stderr, "replay: offset %" PRIu64, rest.offset);
    if (rest.has_code) {
        fprintf(stderr, ": type 0x%04x", (unsigned)rest.code);
    }
    if (rest.has_length) {
        fprintf(stderr, ", %" PRIu32 " bytes", rest.length);
    }
    fprintf(stderr, ": %s\n", result < 0 ? "too long" : ferror(stdin) ? "the input failed" : "the stream ended here");
}

/* Prints what is left of the recording at the end of the replay. Returns the status, or an error. */
static int64_t print_rest(void) {
    struct journal_mismatch found;
    const int64_t result = journal_replay_finish(recorded.bytes, length, &replay, JOURNAL_REPLAY_NUMBERS, &found,
                                                 JOURNAL_MISMATCH_NUMBERS);
    const size_t rest = journal_recorded_rest((uint32_t)replay.version, recorded.bytes, length);

    if (result != 0) {
        return result == 1 ? print_mismatch(&found) : result;
    }
    if (rest > 0) {
        fprintf(stderr, "replay: the recording ends within an item, after %zu bytes of it\n", rest);
        return 2;
    }
    printf("same, %" PRIu64 " commands\n", replay.index);
    return 0;
}

/* Reads the recording. Returns whether it could be read to its end. */
static bool read_recording(const char *path) {
    FILE *file = fopen(path, "rb");
    bool is_read;

    while (file && !feof(file) && !ferror(file) && journal_memory_grow(&recorded, length + CHUNK)) {
        length += fread(recorded.bytes + length, 1, CHUNK, file);
    }
    is_read = file && feof(file);
    if (file) {
        fclose(file);
    }
    return is_read;
}

/* Checks an item, and prints what is said of it. Returns 0 if the replay goes on, a status, or an error. */
static int64_t check_item(const struct journal_reader_item *item) {
    const uint64_t index = replay.index;
    const uint16_t code = (uint16_t)item->item.code;
    struct journal_mismatch found;
    int64_t result = journal_replay_check(code, recorded.bytes, length, item->payload, item->payload_length, &replay,
                                          JOURNAL_REPLAY_NUMBERS, &found, JOURNAL_MISMATCH_NUMBERS);

    if (result == 0 && replay.index > index) {
        print_command("same", code, item->offset);
    } else if (result == 1 && (result = print_mismatch(&found)) == 1) {
        result = print_text(&found, code, item->payload, item->payload_length);
    }
    return result;
}

/* Checks the items of the standard input. Returns 0 at its end, a status, or an error. */
static int64_t check_items(struct journal_reader *reader) {
    struct journal_reader_item item;
    int64_t result = 0;
    size_t count = 1;

    while (result == 0 && count > 0) {
        uint8_t *room = journal_reader_room(reader, CHUNK);

        if (room == NULL) {
            return JOURNAL_OUT_OF_MEMORY;
        }
        count = fread(room, 1, CHUNK, stdin);
        journal_reader_came(reader, count);
        while (result == 0 && (result = journal_reader_next(reader, &item)) == 1) {
            result = check_item(&item);
        }
    }
    return result;
}

/* Checks the standard input, and prints how it ends. Returns the status. */
static int check(struct journal_reader *reader) {
    int64_t result = check_items(reader);

    if (result == JOURNAL_TOO_LONG || (result == 0 && (ferror(stdin) || journal_reader_pending(reader) > 0))) {
        print_end(reader, result);
        return 2;
    }
    if (result == 0) {
        result = print_rest();
    }
    if (result < 0) {
        fprintf(stderr, "replay: %s\n", journal_error_text(result));
        return 2;
    }
    return (int)result;
}

int main(int argc, char **argv) {
    struct journal_reader reader = journal_reader_of(argc > 2 ? (uint32_t)atoi(argv[2]) : 8, LIMIT);
    int status = 2;

    replay.version = reader.version;
    if (argc < 2 || !read_recording(argv[1])) {
        fputs("replay: the recording cannot be read\n", stderr);
    } else {
        status = check(&reader);
    }
    if (fflush(stdout) != 0 || ferror(stdout)) {
        fputs("replay: the output failed\n", stderr);
        status = 2;
    }
    journal_reader_free(&reader);
    journal_memory_free(&recorded);
    journal_memory_free(&text);
    return status;
}
