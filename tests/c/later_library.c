/*
 * What the structs of pendratsoa_messages.h do of a library that is later than their header: later_library
 *
 * It stands in for the library: a payload has the fields that `tables` lists, and the header does not know all of them.
 * Each is to be JOURNAL_UNKNOWN, and the record empty then. It prints nothing where all is right.
 */
#include <pendratsoa_messages.h>

#include <stdio.h>

/* A field of another number; one that is deeper than its message; one that is deeper than a text. */
static const struct journal_field tables[][2] = {
    {{0, 1, JOURNAL_FIELD_BYTES, 0, 0, 1}, {0, 99, JOURNAL_FIELD_UINT32, 7, 0, 0}},
    {{0, 3, JOURNAL_FIELD_MESSAGE, 1, 0, 1}, {2, 1, JOURNAL_FIELD_BYTES, 0, 0, 1}},
    {{0, 1, JOURNAL_FIELD_BYTES, 0, 0, 1}, {1, 1, JOURNAL_FIELD_BYTES, 0, 0, 1}},
};

static size_t chosen;

int64_t journal_fields(uint32_t schema, const uint8_t *payload, size_t payload_length, struct journal_field *fields,
                       size_t room) {
    (void)schema, (void)payload, (void)payload_length;
    for (size_t i = 0; i < 2 && i < room; i++) {
        fields[i] = tables[chosen][i];
    }
    return 2;
}

int64_t journal_canonical(uint32_t schema, const uint8_t *payload, size_t payload_length, uint8_t *out, size_t room) {
    (void)schema, (void)payload, (void)payload_length, (void)out, (void)room;
    return JOURNAL_MALFORMED;
}

int64_t journal_payload_of_fields(uint32_t schema, const struct journal_field *fields, size_t count,
                                  const uint8_t *bytes, size_t length, struct journal_writing *writing,
                                  size_t writing_room, uint8_t *out, size_t room) {
    (void)schema, (void)fields, (void)count, (void)bytes, (void)length, (void)writing, (void)writing_room, (void)out;
    return (int64_t)room;
}

int main(void) {
    const uint8_t payload[] = {'x'};
    uint64_t memory[64];
    int failed = 0;

    for (; chosen < sizeof tables / sizeof *tables; chosen++) {
        struct journal_arena arena = journal_arena_of(memory, sizeof memory);
        struct journal_SetStateCommandMessage record;
        int64_t result = journal_read_SetStateCommandMessage(payload, sizeof payload, &record, &arena);

        if (result != JOURNAL_UNKNOWN || arena.left != sizeof memory || record.has_value || record.key.length != 0) {
            printf("table %lu: %ld\n", (unsigned long)chosen, (long)result);
            failed = 1;
        }
    }
    return failed;
}
