/*
 * pendratsoa: the items of a stream that comes in chunks, for C99 and C++, over the calls of pendratsoa.h.
 *
 * A journal_reader keeps the bytes of a stream that are in no complete item yet. Chunks of any length go in, and items
 * come out, each with its offset. All functions are static inline, and their memory is from malloc.
 *
 *     struct journal_reader reader = journal_reader_of(8, 1048576);
 *     struct journal_reader_item item;
 *     struct journal_reader_rest rest;
 *     int64_t result = 0;
 *
 *     while (result == 0 && (count = fread(chunk, 1, sizeof chunk, stdin)) > 0 &&
 *            (result = journal_reader_feed(&reader, chunk, count)) == 0) {
 *         while ((result = journal_reader_next(&reader, &item)) == 1) {
 *             .. item.item, item.payload, item.offset ..
 *         }
 *     }
 *     rest = journal_reader_finish(&reader);
 *     if (result < 0) {
 *         .. an error of the item at rest.offset: journal_error_text(result) ..
 *     } else if (rest.size > 0) {
 *         .. the stream ended within the item at rest.offset, after rest.size bytes: rest.has_code, rest.code ..
 *     }
 *     journal_reader_free(&reader);
 *
 * A journal_memory is memory that grows, for arenas of pendratsoa_messages.h and for what a call writes:
 *
 *     struct journal_memory memory = {NULL, 0};
 *
 *     do {
 *         length = journal_json(schema, payload, payload_length, memory.bytes, memory.size);
 *     } while (journal_memory_grow_for(&memory, &length));
 */
#ifndef PENDRATSOA_READER_H
#define PENDRATSOA_READER_H

#include <stdbool.h>
#include <stddef.h>
#include <stdint.h>
#include <stdlib.h>
#include <string.h>

#include "pendratsoa.h"

#ifdef __cplusplus
extern "C" {
#endif

/*
 * Memory that grows.
 */

/* Memory from malloc. One whose bytes are all 0 has none yet. */
struct journal_memory {
    uint8_t *bytes; /* where it begins; null if it has none */
    size_t size;    /* how many bytes it has */
};

/*
 * Makes memory at least `size` bytes large, and at least twice as large as it was if it grows. It keeps what it holds;
 * slices that point into it do not stay. Returns false, and changes nothing, if an allocation fails.
 */
static inline bool journal_memory_grow(struct journal_memory *memory, size_t size) {
    size_t wanted = size;
    uint8_t *bytes;

    if (size <= memory->size) {
        return true;
    }
    if (size > PTRDIFF_MAX) {
        return false;
    }
    if (memory->size <= PTRDIFF_MAX / 2 && wanted < 2 * memory->size) {
        wanted = 2 * memory->size;
    }
    bytes = (uint8_t *)realloc(memory->bytes, wanted);
    if (bytes == NULL) {
        return false;
    }
    memory->bytes = bytes;
    memory->size = wanted;
    return true;
}

/*
 * Makes memory large enough for a call that writes bytes into it, by its result. Returns true if it was too small, and
 * the call is to be made again; false if the bytes are written, or the result is an error. If an allocation fails, the
 * result becomes JOURNAL_OUT_OF_MEMORY, and the memory stays as it is.
 */
static inline bool journal_memory_grow_for(struct journal_memory *memory, int64_t *result) {
    if (*result < 0 || (uint64_t)*result <= memory->size) {
        return false;
    }
    if (journal_memory_grow(memory, (size_t)*result)) {
        return true;
    }
    *result = JOURNAL_OUT_OF_MEMORY;
    return false;
}

/* Gives the memory back. */
static inline void journal_memory_free(struct journal_memory *memory) {
    free(memory->bytes);
    memory->bytes = NULL;
    memory->size = 0;
}

/*
 * Kinds of types.
 */

/*
 * Whether a code is that of a command: from 0x0400 to below 0x8000. This goes by the code, and not by the name of the
 * type: GetStateEphemeralCommand (0x0200) is neither a command nor a notification. A custom entry counts by its code
 * too, as 0x0415, which has no name: it is a command here, and no replay compares it.
 */
static inline bool journal_is_command(uint16_t code) {
    return code >= 0x0400 && code < 0x8000;
}

/*
 * Whether a code is that of a notification: from 0x8000 to below 0xFC00. This goes by the code, and not by the name of
 * the type: GetStateEphemeralNotification (0x0300) is neither. A custom entry counts by its code too.
 */
static inline bool journal_is_notification(uint16_t code) {
    return code >= 0x8000 && code < 0xFC00;
}

/*
 * Items of a stream.
 */

/* An item of a stream, and where it is. */
struct journal_reader_item {
    struct journal_item item; /* what it is */
    uint64_t offset;          /* where it begins in the stream, in bytes */
    const uint8_t *bytes;     /* its bytes, header and payload; they stay until the next feed, room or free */
    const uint8_t *payload;   /* those of its payload */
    size_t payload_length;    /* how many these are */
};

/* What is at the end of a stream after its last item: the beginning of an item that is not whole, or nothing. */
struct journal_reader_rest {
    uint64_t offset;      /* where it begins in the stream, in bytes */
    const uint8_t *bytes; /* its bytes that came; they stay until the next feed, room or free; null if there are none */
    size_t size;          /* how many these are; 0 if the stream ended after an item */
    bool has_code;        /* whether the code of its type came, which is its first two bytes */
    uint16_t code;        /* this code, or 0 */
    bool has_length;      /* whether the length of its payload came, which is in its first eight bytes */
    uint32_t length;      /* this length in bytes, or 0 */
};

/* A reader of a stream. journal_reader_of makes one. */
struct journal_reader {
    uint32_t version;             /* the version of the protocol, from 5 to 9 */
    uint32_t limit;               /* the greatest length of a payload, in bytes; 4,294,967,295: none */
    struct journal_memory memory; /* what is pending, and room after it */
    size_t begin;                 /* where the pending bytes begin in it */
    size_t end;                   /* where they end */
    uint64_t offset;              /* where they begin in the stream: the bytes of all items that were returned */
};

/* Returns a reader before the first byte. It has no memory yet. */
static inline struct journal_reader journal_reader_of(uint32_t version, uint32_t limit) {
    struct journal_reader reader = {version, limit, {NULL, 0}, 0, 0, 0};

    return reader;
}

/* The number of bytes received and not yet returned in an item: at the end of a stream the trailing ones. */
static inline size_t journal_reader_pending(const struct journal_reader *reader) {
    return reader->end - reader->begin;
}

/*
 * What the header says that the pending bytes begin with: the code of its type, and the length of its payload in bytes.
 * After journal_reader_next it is that of an item which is too long, or at the end of a stream not whole. Returns
 * false, and writes nothing, if less than a header is pending; journal_reader_finish has the code from two bytes on.
 */
static inline bool journal_reader_header(const struct journal_reader *reader, uint16_t *code, uint32_t *length) {
    const uint8_t *header;

    if (journal_reader_pending(reader) < 8) {
        return false;
    }
    header = reader->memory.bytes + reader->begin;
    *code = (uint16_t)(header[0] << 8 | header[1]);
    *length = (uint32_t)header[4] << 24 | (uint32_t)header[5] << 16 | (uint32_t)header[6] << 8 | header[7];
    return true;
}

/*
 * What the stream ended with, if all of it was given, and every item taken: the trailing bytes, and as much of their
 * header as came. After JOURNAL_TOO_LONG they are what came from the header of the item that is too long on. It changes
 * nothing: more of the stream may come after it.
 */
static inline struct journal_reader_rest journal_reader_finish(const struct journal_reader *reader) {
    struct journal_reader_rest rest = {reader->offset, NULL, journal_reader_pending(reader), false, 0, false, 0};

    if (rest.size > 0) {
        rest.bytes = reader->memory.bytes + reader->begin;
    }
    if (rest.size >= 2) {
        rest.has_code = true;
        rest.code = (uint16_t)(rest.bytes[0] << 8 | rest.bytes[1]);
    }
    rest.has_length = journal_reader_header(reader, &rest.code, &rest.length);
    return rest;
}

/*
 * Room for `count` bytes, into which a chunk of the stream may be read; journal_reader_came takes how many were. The
 * pending bytes are moved to the front where that makes room. Returns null, and loses nothing, if an allocation fails.
 */
static inline uint8_t *journal_reader_room(struct journal_reader *reader, size_t count) {
    const size_t pending = journal_reader_pending(reader);

    /* of no bytes the room is not null either */
    count = count > 0 ? count : 1;
    if (count > reader->memory.size - reader->end) {
        if (pending > 0 && reader->begin > 0) {
            memmove(reader->memory.bytes, reader->memory.bytes + reader->begin, pending);
        }
        reader->begin = 0;
        reader->end = pending;
        if (count > SIZE_MAX - pending || !journal_memory_grow(&reader->memory, pending + count)) {
            return NULL;
        }
    }
    return reader->memory.bytes + reader->end;
}

/* Says that this many bytes of the stream are in the room that was returned last, from its beginning. */
static inline void journal_reader_came(struct journal_reader *reader, size_t count) {
    reader->end += count;
}

/* Appends a copy of a chunk of the stream. Returns 0, or JOURNAL_OUT_OF_MEMORY, which loses nothing. */
static inline int64_t journal_reader_feed(struct journal_reader *reader, const uint8_t *chunk, size_t length) {
    if (length > 0) {
        uint8_t *room = journal_reader_room(reader, length);

        if (room == NULL) {
            return JOURNAL_OUT_OF_MEMORY;
        }
        memcpy(room, chunk, length);
        journal_reader_came(reader, length);
    }
    return 0;
}

/*
 * Takes the next item. Returns 1 if one is there, and 0 if no whole one is there yet.
 *
 * Its errors are those of journal_next_within: JOURNAL_UNKNOWN_VERSION, JOURNAL_TOO_LONG as soon as the header is there
 * of an item whose payload has more than the limit. Nothing is taken then: the item begins at reader->offset,
 * journal_reader_header has its code and its length, and journal_reader_finish the bytes from its header on.
 */
static inline int64_t journal_reader_next(struct journal_reader *reader, struct journal_reader_item *found) {
    const size_t pending = journal_reader_pending(reader);
    const uint8_t *bytes = pending > 0 ? reader->memory.bytes + reader->begin : NULL;
    const int64_t missing = journal_next_within(reader->version, reader->limit, bytes, pending, &found->item,
                                                JOURNAL_ITEM_NUMBERS);

    if (missing != 0) {
        return missing < 0 ? missing : 0;
    }
    found->offset = reader->offset;
    found->bytes = bytes;
    found->payload = bytes + found->item.payload;
    found->payload_length = (size_t)(found->item.size - found->item.payload);
    reader->begin += (size_t)found->item.size;
    reader->offset += found->item.size;
    return 1;
}

/* Gives the memory of a reader back. What was pending is lost. */
static inline void journal_reader_free(struct journal_reader *reader) {
    journal_memory_free(&reader->memory);
    reader->begin = 0;
    reader->end = 0;
}

/*
 * Recordings.
 */

/*
 * How many bytes of a recording follow its last whole item: 0 of a whole recording, and all if there is no such
 * version. No replay compares them. So if there are some, a replay without a mismatch is the same only up to them, and
 * JOURNAL_VERDICT_RECORDED_ENDED may only mean that the recording was cut. It copies nothing and does not allocate.
 */
static inline size_t journal_recorded_rest(uint32_t version, const uint8_t *recorded, size_t recorded_length) {
    struct journal_item item;
    size_t rest = recorded_length;

    while (rest > 0 && journal_next(version, recorded + (recorded_length - rest), rest, &item,
                                    JOURNAL_ITEM_NUMBERS) == 0) {
        rest -= (size_t)item.size;
    }
    return rest;
}

#ifdef __cplusplus
}
#endif

#endif
