/*
 * A library in place of the proved one: a later one, which returns what this package does not know, and one that fails
 * as the proved one hardly ever does. test/later_library.js is run over an addon that is built with it. Calls that are
 * not here are those of refusing_library.c, which is generated.
 */
#include <pendratsoa.h>

#include <string.h>

/* How many bytes `journal_merge` returns, whatever room it has. */
#define MERGED 100000

/* How many entries the table of a numbering has. */
#define RENUMBERED 1000

int64_t journal_library_version(uint8_t *out, size_t room) {
    if (room >= 5) {
        memcpy(out, "0.9.0", 5);
    }
    return 5;
}

/* The error whose number is the code with a minus sign. */
int64_t journal_schema(uint32_t version, uint16_t code) {
    (void)version;
    return -(int64_t)code;
}

/* A text of two to the power of the code bytes; nothing of it is written. */
int64_t journal_type_name(uint16_t code, uint8_t *out, size_t room) {
    (void)out;
    (void)room;
    return (int64_t)1 << code;
}

/* Eight bytes are an item of the kind that the first of them is. */
int64_t journal_next(uint32_t version, const uint8_t *bytes, size_t length, struct journal_item *item,
                     size_t item_room) {
    (void)version;
    if (item_room < JOURNAL_ITEM_NUMBERS) {
        return JOURNAL_NO_ROOM;
    }
    if (length < 8) {
        return 8 - (int64_t)length;
    }
    memset(item, 0, sizeof *item);
    item->kind = bytes[0];
    item->size = 8;
    item->payload = 8;
    return 0;
}

int64_t journal_next_within(uint32_t version, uint32_t limit, const uint8_t *bytes, size_t length,
                            struct journal_item *item, size_t item_room) {
    (void)limit;
    return journal_next(version, bytes, length, item, item_room);
}

int64_t journal_items(uint32_t version, uint32_t limit, const uint8_t *bytes, size_t length,
                      struct journal_item *items, size_t room) {
    size_t count = 0;

    (void)limit;
    while (count < room && journal_next(version, bytes, length, &items[count], JOURNAL_ITEM_NUMBERS) == 0) {
        bytes += items[count].size;
        length -= (size_t)items[count].size;
        count++;
    }
    return (int64_t)count;
}

int64_t journal_header(uint32_t version, uint16_t code, uint32_t payload_length, uint8_t *out, size_t room) {
    (void)version;
    (void)code;
    (void)payload_length;
    (void)out;
    (void)room;
    return JOURNAL_NO_ROOM;
}

int64_t journal_frame(uint32_t version, uint16_t code, const uint8_t *payload, size_t payload_length, uint8_t *out,
                      size_t room) {
    (void)version;
    (void)code;
    (void)payload;
    (void)payload_length;
    (void)out;
    (void)room;
    return JOURNAL_TOO_LONG;
}

/* More than there is memory for. */
int64_t journal_canonical(uint32_t schema, const uint8_t *payload, size_t payload_length, uint8_t *out, size_t room) {
    (void)schema;
    (void)payload;
    (void)payload_length;
    (void)out;
    (void)room;
    return INT64_MAX;
}

/* First it seems to have 70000 bytes, and then it has more. */
int64_t journal_merge(uint32_t schema, const uint8_t *first, size_t first_length, const uint8_t *second,
                      size_t second_length, uint8_t *out, size_t room) {
    (void)schema;
    (void)first;
    (void)first_length;
    (void)second;
    (void)second_length;
    if (room < 70000) {
        return 70000;
    }
    if (room >= MERGED) {
        memset(out, 7, MERGED);
    }
    return MERGED;
}

/* A text of the kind that its first byte is. */
int64_t journal_payload_of_json(uint32_t schema, const uint8_t *json, size_t json_length,
                                struct journal_reading *reading, size_t reading_room, uint8_t *out, size_t room) {
    (void)schema;
    (void)out;
    (void)room;
    if (reading_room < JOURNAL_READ_NUMBERS) {
        return JOURNAL_NO_ROOM;
    }
    if (json_length == 0) {
        return JOURNAL_TOO_LONG;
    }
    reading->kind = json[0];
    reading->offset = 0;
    return 0;
}

/* One field, of a number that no record has. */
int64_t journal_fields(uint32_t schema, const uint8_t *payload, size_t payload_length, struct journal_field *fields,
                       size_t room) {
    (void)schema;
    (void)payload;
    (void)payload_length;
    if (room >= 1) {
        memset(fields, 0, sizeof *fields);
        fields->number = 9999;
    }
    return 1;
}

/* A table is rejected as the kind that the first byte is. */
int64_t journal_payload_of_fields(uint32_t schema, const struct journal_field *fields, size_t count,
                                  const uint8_t *bytes, size_t length, struct journal_writing *writing,
                                  size_t writing_room, uint8_t *out, size_t room) {
    (void)schema;
    (void)fields;
    (void)count;
    (void)out;
    (void)room;
    if (writing_room < JOURNAL_WRITING_NUMBERS) {
        return JOURNAL_NO_ROOM;
    }
    writing->kind = length > 0 ? bytes[0] : JOURNAL_WRITTEN;
    writing->index = 0;
    return 0;
}

/* The four numbers are the first bytes of the payload. */
int64_t journal_notification(uint16_t code, const uint8_t *payload, size_t payload_length,
                             struct journal_notification *notification, size_t notification_room, uint8_t *out,
                             size_t room) {
    uint64_t *numbers = (uint64_t *)(void *)notification;

    (void)code;
    (void)out;
    (void)room;
    for (size_t i = 0; i < notification_room && i < payload_length; i++) {
        numbers[i] = payload[i];
    }
    return 0;
}

/* A text of the kind that its first byte is. */
int64_t journal_numbering_text(const uint8_t *set, size_t set_length, const uint8_t *renames, size_t renames_length,
                               struct journal_list *list, size_t list_room, uint8_t *out, size_t room) {
    (void)renames;
    (void)renames_length;
    (void)out;
    (void)room;
    if (list_room < JOURNAL_LIST_NUMBERS) {
        return JOURNAL_NO_ROOM;
    }
    list->kind = set_length > 0 ? set[0] : JOURNAL_LIST_LISTED;
    return 0;
}

/* A thousand fields, each of which has its index as its number. */
int64_t journal_numbering(uint32_t direction, const uint8_t *set, size_t set_length, const uint8_t *renames,
                          size_t renames_length, struct journal_renumbering *renumberings, size_t room) {
    (void)direction;
    (void)set;
    (void)set_length;
    (void)renames;
    (void)renames_length;
    for (size_t i = 0; i < room && i < RENUMBERED; i++) {
        memset(&renumberings[i], 0, sizeof renumberings[i]);
        renumberings[i].number = i;
    }
    return RENUMBERED;
}

/* A payload that has as many bytes as the table has entries, if their numbers are their indices. */
int64_t journal_renumber(uint32_t schema, const struct journal_renumbering *renumberings, size_t count,
                         const uint8_t *payload, size_t payload_length, uint8_t *out, size_t room) {
    (void)schema;
    (void)payload;
    (void)payload_length;
    for (size_t i = 0; i < count; i++) {
        if (renumberings[i].number != i) {
            return JOURNAL_MALFORMED;
        }
    }
    if (room >= count) {
        memset(out, 7, count);
    }
    return (int64_t)count;
}

/* A verdict of the kind that the recorded journal has as its first byte. */
int64_t journal_verdict(uint32_t version, const uint8_t *recorded, size_t recorded_length, const uint8_t *replayed,
                        size_t replayed_length, uint32_t ignore_payloads, struct journal_verdict *verdict,
                        size_t verdict_room, uint8_t *out, size_t room) {
    (void)version;
    (void)replayed;
    (void)replayed_length;
    (void)ignore_payloads;
    (void)out;
    (void)room;
    if (verdict_room < JOURNAL_VERDICT_NUMBERS) {
        return JOURNAL_NO_ROOM;
    }
    verdict->kind = recorded_length > 0 ? recorded[0] : JOURNAL_VERDICT_SAME;
    verdict->index = 0;
    return 0;
}
