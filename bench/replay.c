/*
 * Checks a replay by its recording, item by item, and prints the verdict: replay RECORDED REPLAYED
 *
 * It is what bench/journals.sh --replay measures. The recording is mapped into memory; of the replay a chunk is there.
 */
#include <fcntl.h>
#include <inttypes.h>
#include <stdio.h>
#include <sys/mman.h>
#include <sys/stat.h>

#include <pendratsoa_reader.h>

#define CHUNK 65536

/* The bytes of a file, and how many they are; null if there are none. */
static const uint8_t *bytes_of(const char *path, size_t *length) {
    const int file = open(path, O_RDONLY);
    struct stat found;
    void *bytes;

    if (file < 0 || fstat(file, &found) != 0) {
        return NULL;
    }
    *length = (size_t)found.st_size;
    bytes = mmap(NULL, *length, PROT_READ, MAP_PRIVATE, file, 0);
    return bytes == MAP_FAILED ? NULL : bytes;
}

int main(int argc, char **argv) {
    size_t length = 0;
    const uint8_t *recorded = argc == 3 ? bytes_of(argv[1], &length) : NULL;
    FILE *file = argc == 3 ? fopen(argv[2], "rb") : NULL;
    struct journal_reader reader = journal_reader_of(8, UINT32_MAX);
    struct journal_replay replay = {8, 0, 0, 0, 0, 0};
    struct journal_reader_item item;
    struct journal_mismatch found;
    int64_t result = !recorded || !file;
    size_t count = 1;

    while (result == 0 && count > 0) {
        uint8_t *room = journal_reader_room(&reader, CHUNK);

        result = room ? 0 : JOURNAL_OUT_OF_MEMORY;
        count = room ? fread(room, 1, CHUNK, file) : 0;
        journal_reader_came(&reader, count);
        while (result == 0 && (result = journal_reader_next(&reader, &item)) == 1) {
            result = journal_replay_check((uint16_t)item.item.code, recorded, length, item.payload,
                                          item.payload_length, &replay, JOURNAL_REPLAY_NUMBERS, &found,
                                          JOURNAL_MISMATCH_NUMBERS);
        }
    }
    if (result == 0) {
        result = journal_replay_finish(recorded, length, &replay, JOURNAL_REPLAY_NUMBERS, &found,
                                       JOURNAL_MISMATCH_NUMBERS);
    }
    if (result != 0) {
        printf("not the same: %" PRId64 "\n", result);
        return 1;
    }
    printf("same, %" PRIu64 " commands\n", replay.index);
    return 0;
}
