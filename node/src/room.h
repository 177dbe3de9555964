/*
 * The room of a record: an ArrayBuffer with what the two calls that read and write records are given and return.
 * Only lib/room.js has it, so it is never detached.
 */
#ifndef ROOM_H
#define ROOM_H

#include "arguments.h"

/* The function room(buffer, entries, size), which returns the functions of a room: readOwn, read and write. */
napi_value room_functions(napi_env env, napi_callback_info info);

#endif
