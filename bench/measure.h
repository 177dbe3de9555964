/*
 * The calls of the static library bench_ffi: the work of the library several times over. They are for the comparison
 * and the measurement of this folder, and no part of the library that is installed.
 *
 * Slices and errors are those of include/pendratsoa.h.
 */
#ifndef MEASURE_H
#define MEASURE_H

#include "../include/pendratsoa.h"

/*
 * Reads a stream of a version from 5 to 9, which comes in chunks of this many bytes (0: in one chunk), and writes a
 * word for each item: the word of the message's header, or the unknown code in bits 48 to 63. At version 9 a message of
 * an unknown type is skipped with its payload, and its word has the payload's length in bits 0 to 31. Returns the
 * number of items; JOURNAL_NO_ROOM if there is room for fewer words. The stream is copied once, and then read `rounds`
 * times over by a new decoder each (0 counts as 1); the words are those of the last.
 */
int64_t measure_items(uint32_t version, const uint8_t *stream, size_t stream_length, size_t chunk_size, size_t rounds,
                      uint64_t *words, size_t words_room);

/*
 * As measure_items, but the items are borrowed from the stream, and nothing of it is copied.
 */
int64_t measure_item_refs(uint32_t version, const uint8_t *stream, size_t stream_length, size_t rounds, uint64_t *words,
                          size_t words_room);

/*
 * As measure_items, but decodes every message of a named type to its record and writes nothing. Returns the number of
 * these messages; JOURNAL_MALFORMED where a payload is not well-formed for its type.
 */
int64_t measure_messages(uint32_t version, const uint8_t *stream, size_t stream_length, size_t chunk_size,
                         size_t rounds);

/*
 * Decodes each command of a stream of a version from 5 to 9 twice, and compares the two `rounds` times (0: not at all),
 * with their payloads where `ignore_payloads` is 0. Returns the number of comparisons that hold, which are all:
 * `rounds` for each command.
 */
int64_t measure_compare(uint32_t version, const uint8_t *stream, size_t stream_length, uint32_t ignore_payloads,
                        size_t rounds);

/* As journal_frame. The payload is decoded once and the message encoded `rounds` times (0 counts as 1). */
int64_t measure_frame(uint32_t version, uint16_t code, const uint8_t *payload, size_t payload_length, size_t rounds,
                      uint8_t *out, size_t room);

/* As measure_frame, but each frame is a buffer of its own with one allocation, as a Vec is. */
int64_t measure_frame_vec(uint32_t version, uint16_t code, const uint8_t *payload, size_t payload_length, size_t rounds,
                          uint8_t *out, size_t room);

/*
 * As measure_frame, but all rounds append the frame to one buffer, which is cleared before each: only the first
 * allocates.
 */
int64_t measure_frame_into(uint32_t version, uint16_t code, const uint8_t *payload, size_t payload_length,
                           size_t rounds, uint8_t *out, size_t room);

/* As measure_frame_into, but the buffer's spare room is initialized, so that no byte is written twice. */
int64_t measure_frame_spare(uint32_t version, uint16_t code, const uint8_t *payload, size_t payload_length,
                            size_t rounds, uint8_t *out, size_t room);

/* As measure_frame, but the frames of all rounds share the blocks of one buffer, and the last 1,024 are held. */
int64_t measure_frame_shared(uint32_t version, uint16_t code, const uint8_t *payload, size_t payload_length,
                             size_t rounds, uint8_t *out, size_t room);

/*
 * As measure_frame, but all rounds append the frame to one list of chunks, which is cleared before each: long bytes are
 * shared with the message, and all else is in one buffer. The chunks of the last round are joined.
 */
int64_t measure_frame_chunks(uint32_t version, uint16_t code, const uint8_t *payload, size_t payload_length,
                             size_t rounds, uint8_t *out, size_t room);

/* As journal_is_well_formed, but `rounds` times over (0 counts as 1): compared with as many calls, it shows what one
 * costs. */
int64_t measure_well_formed(uint32_t schema, const uint8_t *payload, size_t payload_length, size_t rounds);

/*
 * Checks a payload and reads all of its fields, of all levels, `rounds` times over (0 counts as 1). Returns the sum of
 * what they hold, modulo 2^32: numbers, and the lengths of texts and bytes. JOURNAL_NOT_CANONICAL if it is not
 * canonical for the schema.
 */
int64_t measure_fields(uint32_t schema, const uint8_t *payload, size_t payload_length, size_t rounds);

#endif
