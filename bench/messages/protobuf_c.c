/* protobuf-c: a message is unpacked into memory of malloc, and freed. */
#include <stdio.h>
#include <stdlib.h>
#include <string.h>

#include "descriptors_c.h"
#include "sides.h"

static ProtobufCMessage **kept;
static size_t kept_count;

static ProtobufCMessage *unpacked(const struct message *one) {
    ProtobufCMessage *found = protobuf_c_message_unpack(descriptors[one->schema], NULL, one->length, one->payload);

    if (found == NULL) {
        fprintf(stderr, "protobuf-c: a payload cannot be read\n");
        exit(1);
    }
    return found;
}

static uint64_t decode(const struct message *messages, size_t count) {
    uint64_t sum = 0;

    for (size_t i = 0; i < count; i++) {
        const struct message *one = &messages[i];
        ProtobufCMessage *found = unpacked(one);

        if (one->schema == SET_STATE_COMMAND) {
            const Pendratsoa__Journal__SetStateCommandMessage *record = (const void *)found;

            sum += record->key.len + (record->value == NULL ? 0 : record->value->content.len);
        } else if (one->schema == CALL_COMMAND) {
            const Pendratsoa__Journal__CallCommandMessage *record = (const void *)found;

            sum += strlen(record->service_name) + record->parameter.len;
        } else if (one->schema == CALL_COMPLETION) {
            const Pendratsoa__Journal__CallCompletionNotificationMessage *record = (const void *)found;

            sum += record->completion_id;
            if (record->result_case == PENDRATSOA__JOURNAL__CALL_COMPLETION_NOTIFICATION_MESSAGE__RESULT_VALUE) {
                sum += record->value->content.len;
            }
        } else if (one->schema == START) {
            const Pendratsoa__Journal__StartMessage *record = (const void *)found;

            sum += record->id.len + record->n_state_map;
        } else {
            sum++;
        }
        protobuf_c_message_free_unpacked(found, NULL);
    }
    return sum;
}

static void keep(const struct message *messages, size_t count) {
    kept = calloc(count, sizeof *kept);
    kept_count = count;
    for (size_t i = 0; i < count; i++) {
        kept[i] = unpacked(&messages[i]);
    }
}

static size_t encode(uint8_t *out, size_t room) {
    size_t length = 0;

    for (size_t i = 0; i < kept_count; i++) {
        /* it packs without looking for room, so that the size has to be known */
        size_t needed = protobuf_c_message_get_packed_size(kept[i]);

        if (needed > room - length) {
            exit(1);
        }
        length += protobuf_c_message_pack(kept[i], out + length);
    }
    return length;
}

const struct side protobuf_c = {"protobuf-c", decode, keep, encode};
