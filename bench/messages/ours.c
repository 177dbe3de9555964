/* The structs of pendratsoa_messages.h, in an arena that is used again. */
#include <pendratsoa_messages.h>

#include <stdio.h>
#include <stdlib.h>

#include "sides.h"

static uint8_t *memory;
static size_t size;

/* What was kept, with its arena's memory. */
static union journal_record *kept;
static const struct message *given;
static size_t kept_count;
static struct journal_arena kept_arena;

static void failed(const char *what, int64_t result) {
    fprintf(stderr, "ours: %s: %ld\n", what, (long)result);
    exit(1);
}

/* Reads a record, with more memory where it needs that. */
static void read_record(const struct message *message, union journal_record *record, struct journal_arena *arena) {
    int64_t result = journal_read_record(message->schema, message->payload, message->length, record, arena);

    if (result != 0) {
        failed("a payload cannot be read", result);
    }
}

static uint64_t decode(const struct message *messages, size_t count) {
    uint64_t sum = 0;

    if (memory == NULL) {
        size = 4 << 20;
        memory = malloc(size);
    }
    for (size_t i = 0; i < count; i++) {
        const struct message *one = &messages[i];
        struct journal_arena arena = journal_arena_of(memory, size);

        switch (one->schema) {
        case JOURNAL_SCHEMA_SET_STATE_COMMAND: {
            struct journal_SetStateCommandMessage record;

            if (journal_read_SetStateCommandMessage(one->payload, one->length, &record, &arena) != 0) {
                failed("a payload cannot be read", 0);
            }
            sum += record.key.length + record.value.content.length;
            break;
        }
        case JOURNAL_SCHEMA_CALL_COMMAND: {
            struct journal_CallCommandMessage record;

            if (journal_read_CallCommandMessage(one->payload, one->length, &record, &arena) != 0) {
                failed("a payload cannot be read", 0);
            }
            sum += record.service_name.length + record.parameter.length;
            break;
        }
        case JOURNAL_SCHEMA_CALL_COMPLETION_NOTIFICATION: {
            struct journal_CallCompletionNotificationMessage record;

            if (journal_read_CallCompletionNotificationMessage(one->payload, one->length, &record, &arena) != 0) {
                failed("a payload cannot be read", 0);
            }
            sum += record.completion_id;
            if (record.result_case == JOURNAL_CALL_COMPLETION_NOTIFICATION_RESULT_VALUE) {
                sum += record.result.value.content.length;
            }
            break;
        }
        case JOURNAL_SCHEMA_START: {
            struct journal_StartMessage record;

            if (journal_read_StartMessage(one->payload, one->length, &record, &arena) != 0) {
                failed("a payload cannot be read", 0);
            }
            sum += record.id.length + record.state_map_count;
            break;
        }
        default: {
            union journal_record record;

            memset(&record, 0, sizeof record);
            read_record(one, &record, &arena);
            sum++;
        }
        }
    }
    return sum;
}

static void keep(const struct message *messages, size_t count) {
    size_t room = 64 << 20;

    if (kept_arena.memory == NULL) {
        kept_arena.memory = malloc(room);
    }
    kept_arena.left = room;
    kept = calloc(count, sizeof *kept);
    given = messages;
    kept_count = count;
    for (size_t i = 0; i < count; i++) {
        read_record(&messages[i], &kept[i], &kept_arena);
    }
}

static size_t encode(uint8_t *out, size_t room) {
    size_t length = 0;

    for (size_t i = 0; i < kept_count; i++) {
        int64_t written = journal_write_record(given[i].schema, &kept[i], &kept_arena, out + length, room - length);

        if (written < 0) {
            failed("a record cannot be written", written);
        }
        length += (size_t)written;
    }
    return length;
}

const struct side ours = {"pendratsoa", decode, keep, encode};
