/*
 * The calls of pendratsoa.h as functions of JavaScript, with the same parameters in the same order: numbers, a
 * Uint8Array for a slice of bytes, a BigUint64Array for one of numbers, a boolean for a flag. Each returns what the
 * call returns. What is friendlier is in the folder lib.
 */
#include <pendratsoa.h>

#include "arguments.h"
#include "room.h"

/* A function: its name, what makes the call, and its parameters. */
struct function {
    const char *name;
    int64_t (*call)(const struct arguments *arguments);
    enum parameter parameters[MOST_PARAMETERS];
};

#include "calls.h"

/* The length of a chunk, by which its kind is checked before it is copied. */
static int64_t chunk_length(const struct arguments *arguments) {
    return (int64_t)arguments->first.length;
}

/* All functions. Node-API takes a pointer to each as its data, and nothing writes to them. */
static const struct function FUNCTIONS[] = {
    CALLS
    {"chunkLength", chunk_length, {CHUNK}},
};

/* Runs the function that `info` has as its data. */
static napi_value run(napi_env env, napi_callback_info info) {
    napi_value values[MOST_PARAMETERS];
    size_t count = MOST_PARAMETERS;
    void *data = NULL;
    const struct function *function = NULL;
    struct arguments arguments = {0};
    int64_t returned = 0;
    napi_value result = NULL;

    /* values that are not given are undefined */
    if (!succeeded(env, napi_get_cb_info(env, info, &count, values, NULL, &data))) {
        return NULL;
    }
    function = data;
    switch (read_arguments(env, values, function->parameters, &arguments)) {
    case READ:
        returned = function->call(&arguments);
        break;
    case THROWN:
        return NULL;
    case UNKNOWN_VERSION:
        returned = JOURNAL_UNKNOWN_VERSION;
        break;
    case UNKNOWN_SCHEMA:
        returned = JOURNAL_UNKNOWN_SCHEMA;
        break;
    case UNKNOWN_CODE:
        returned = JOURNAL_UNKNOWN_TYPE;
        break;
    case LENGTH_TOO_LONG:
        returned = JOURNAL_TOO_LONG;
        break;
    }
    return succeeded(env, napi_create_int64(env, returned, &result)) ? result : NULL;
}

/* Sets the function that makes the functions of a room. */
static bool set_room(napi_env env, napi_value exports) {
    napi_value function = NULL;

    return succeeded(env, napi_create_function(env, "room", NAPI_AUTO_LENGTH, room_functions, NULL, &function)) &&
           succeeded(env, napi_set_named_property(env, exports, "room", function));
}

NAPI_MODULE_INIT() {
    for (size_t i = 0; i < sizeof FUNCTIONS / sizeof FUNCTIONS[0]; i++) {
        napi_value function = NULL;

        if (!succeeded(env, napi_create_function(env, FUNCTIONS[i].name, NAPI_AUTO_LENGTH, run,
                                                 (void *)(uintptr_t)&FUNCTIONS[i], &function)) ||
            !succeeded(env, napi_set_named_property(env, exports, FUNCTIONS[i].name, function))) {
            return NULL;
        }
    }
    return set_room(env, exports) ? exports : NULL;
}
