/*
 * The three sides that bench/messages.sh measures: the structs of pendratsoa_messages.h, protobuf-c and the classes of
 * libprotobuf. A message is a schema and its canonical payload.
 */
#ifndef SIDES_H
#define SIDES_H

#include <stddef.h>
#include <stdint.h>

#ifdef __cplusplus
extern "C" {
#endif

struct message {
    uint32_t schema;
    const uint8_t *payload;
    size_t length;
};

/* Work on all messages of a list. `decode` reads each, and two fields of those that `what_is_read` names, and
   returns the sum of what was read. `keep` reads them all and keeps them, `encode` writes each that is kept, after each
   other into `out`, and returns how many bytes they take. */
struct side {
    const char *name;
    uint64_t (*decode)(const struct message *messages, size_t count);
    void (*keep)(const struct message *messages, size_t count);
    size_t (*encode)(uint8_t *out, size_t room);
};

extern const struct side ours, protobuf_c, libprotobuf, libprotobuf_reused;

#ifdef __cplusplus
}
#endif

#endif
