/*
 * The arguments of a call, read from the values of JavaScript: the one layer between Node-API and the calls of
 * pendratsoa.h. It keeps nothing, neither between calls nor between the environments (the main thread and workers) that
 * load the addon.
 */
#ifndef ARGUMENTS_H
#define ARGUMENTS_H

#include <stdbool.h>
#include <stddef.h>
#include <stdint.h>

#define NAPI_VERSION 8
#include <node_api.h>

/* What a function may take. The value 0 ends a list of parameters. */
enum parameter {
    NO_PARAMETER,
    VERSION,
    CODE,
    SCHEMA,
    PAYLOAD_LENGTH,
    LIMIT,
    INDEX,
    DIRECTION,
    NAME,
    CHUNK,
    BYTES,
    PAYLOAD,
    JSON,
    FIRST,
    SECOND,
    RECORDED,
    REPLAYED,
    SET,
    RENAMES,
    STREAM,
    IGNORE_PAYLOADS,
    REPLAY,
    FIELDS,
    NUMBERS,
    OUT
};

/* The most parameters of one function, and the end of the list. */
#define MOST_PARAMETERS 7

/* Bytes of a Uint8Array. They stay where they are while the function runs, since no JavaScript runs meanwhile. */
struct slice {
    uint8_t *bytes;
    size_t length;
};

/* The arguments of a call; those that are not its parameters are 0. `third` is also the only slice, of a stream. */
struct arguments {
    uint32_t version;
    uint32_t schema;
    uint32_t payload_length;
    uint32_t limit;
    uint32_t index;
    uint32_t direction;
    uint32_t ignore_payloads;
    uint16_t code;
    struct slice first;
    struct slice second;
    struct slice third;
    uint64_t *fields;
    size_t fields_count;
    uint64_t *replay;
    size_t replay_room;
    uint64_t *numbers;
    size_t numbers_room;
    struct slice out;
};

/* What became of reading arguments. */
enum reading {
    /* All are read. */
    READ,
    /* One has another kind than it needs; an exception is pending. */
    THROWN,
    /* A number does not fit its parameter: it is that of no version, schema or code. */
    UNKNOWN_VERSION,
    UNKNOWN_SCHEMA,
    UNKNOWN_CODE,
    /* A payload's length does not fit a header. */
    LENGTH_TOO_LONG
};

/* Whether a call of Node-API succeeded; if not, an exception is pending afterwards. */
bool succeeded(napi_env env, napi_status status);

/* Reads the values that a function was called with, by its parameters. */
enum reading read_arguments(napi_env env, const napi_value *values, const enum parameter *parameters,
                            struct arguments *arguments);

#endif
