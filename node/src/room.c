#include "room.h"

#include <pendratsoa.h>

/*
 * What a room begins with; lib/room.js has the same. After it are as many entries as there is room for, as many bytes
 * that they have, and the payload that is written.
 */
struct room {
    /* What a call is given: a schema, and how many entries and bytes. */
    uint32_t schema;
    uint32_t count;
    uint32_t size;
    /* How many entries, and how many bytes of them and of a written payload, there is room for. */
    uint32_t entries_room;
    uint32_t bytes_room;
    uint32_t out_room;
    /* What a call returned. */
    int64_t returned;
    struct journal_writing writing;
    struct journal_field entries[];
};

static uint8_t *bytes_of(struct room *room) {
    return (uint8_t *)&room->entries[room->entries_room];
}

/* The room whose function is called. It is the data of the function, which has its buffer as a property. */
static struct room *room_of(napi_env env, napi_callback_info info, size_t *count, napi_value *values) {
    void *data = NULL;

    return succeeded(env, napi_get_cb_info(env, info, count, values, NULL, &data)) ? data : NULL;
}

static void read_payload(struct room *room, const uint8_t *payload, size_t length) {
    room->returned = journal_fields(room->schema, payload, length, room->entries, room->entries_room);
}

/* Reads the payload that is in the bytes of a room. */
static napi_value read_own(napi_env env, napi_callback_info info) {
    struct room *room = room_of(env, info, NULL, NULL);

    if (room != NULL && room->size > room->bytes_room) {
        /* not what an earlier call returned */
        room->returned = JOURNAL_NO_ROOM;
    } else if (room != NULL) {
        read_payload(room, bytes_of(room), room->size);
    }
    return NULL;
}

/* Reads the payload that is given. */
static napi_value read_given(napi_env env, napi_callback_info info) {
    static const enum parameter PARAMETERS[] = {PAYLOAD, NO_PARAMETER};
    struct arguments arguments = {0};
    size_t count = 1;
    napi_value payload = NULL;
    struct room *room = room_of(env, info, &count, &payload);

    if (room != NULL && read_arguments(env, &payload, PARAMETERS, &arguments) == READ) {
        read_payload(room, arguments.first.bytes, arguments.first.length);
    }
    return NULL;
}

/* Writes the payload of the entries. */
static napi_value write_payload(napi_env env, napi_callback_info info) {
    struct room *room = room_of(env, info, NULL, NULL);

    if (room != NULL && (room->count > room->entries_room || room->size > room->bytes_room)) {
        room->returned = JOURNAL_NO_ROOM;
    } else if (room != NULL) {
        uint8_t *bytes = bytes_of(room);

        room->returned = journal_payload_of_fields(room->schema, room->entries, room->count, bytes, room->size,
                                                   &room->writing, JOURNAL_WRITING_NUMBERS, bytes + room->bytes_room,
                                                   room->out_room);
    }
    return NULL;
}

/* Sets a function of a room. As long as there is the function, there is the buffer. */
static bool set_function(napi_env env, napi_value functions, const char *name, napi_callback call, napi_value buffer,
                         struct room *room) {
    napi_value function = NULL;

    return succeeded(env, napi_create_function(env, name, NAPI_AUTO_LENGTH, call, room, &function)) &&
           succeeded(env, napi_set_named_property(env, function, "buffer", buffer)) &&
           succeeded(env, napi_set_named_property(env, functions, name, function));
}

napi_value room_functions(napi_env env, napi_callback_info info) {
    napi_value values[3];
    size_t count = 3;
    size_t all = 0;
    size_t fixed = 0;
    uint32_t entries = 0;
    uint32_t size = 0;
    void *data = NULL;
    struct room *room = NULL;
    napi_value functions = NULL;

    if (!succeeded(env, napi_get_cb_info(env, info, &count, values, NULL, NULL)) ||
        !succeeded(env, napi_get_arraybuffer_info(env, values[0], &data, &all)) ||
        !succeeded(env, napi_get_value_uint32(env, values[1], &entries)) ||
        !succeeded(env, napi_get_value_uint32(env, values[2], &size))) {
        return NULL;
    }
    fixed = sizeof *room + entries * sizeof room->entries[0] + size;
    if (fixed > all || all - fixed > UINT32_MAX) {
        (void)succeeded(env, napi_throw_range_error(env, NULL, "no room for a record"));
        return NULL;
    }
    room = data;
    room->entries_room = entries;
    room->bytes_room = size;
    room->out_room = (uint32_t)(all - fixed);
    if (!succeeded(env, napi_create_object(env, &functions)) ||
        !set_function(env, functions, "readOwn", read_own, values[0], room) ||
        !set_function(env, functions, "read", read_given, values[0], room) ||
        !set_function(env, functions, "write", write_payload, values[0], room)) {
        return NULL;
    }
    return functions;
}
