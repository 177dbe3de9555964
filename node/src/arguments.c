#include "arguments.h"

#include <stdio.h>

/* The names of the parameters, as index.d.ts has them. */
static const char *const NAMES[] = {
    [VERSION] = "version",
    [CODE] = "code",
    [SCHEMA] = "schema",
    [PAYLOAD_LENGTH] = "payloadLength",
    [LIMIT] = "maxMessageSize",
    [INDEX] = "index",
    [DIRECTION] = "direction",
    [NAME] = "name",
    [CHUNK] = "chunk",
    [BYTES] = "bytes",
    [PAYLOAD] = "payload",
    [JSON] = "json",
    [FIRST] = "first",
    [SECOND] = "second",
    [RECORDED] = "recorded",
    [REPLAYED] = "replayed",
    [SET] = "set",
    [RENAMES] = "renames",
    [STREAM] = "stream",
    [IGNORE_PAYLOADS] = "ignorePayloads",
    [REPLAY] = "replay",
    [FIELDS] = "fields",
    [NUMBERS] = "numbers",
    [OUT] = "out",
};

/* What a value is, in words, by its napi_valuetype. */
static const char *const KINDS[] = {
    [napi_undefined] = "undefined",
    [napi_null] = "null",
    [napi_boolean] = "a boolean",
    [napi_number] = "a number",
    [napi_string] = "a string",
    [napi_symbol] = "a symbol",
    [napi_object] = "an object",
    [napi_function] = "a function",
    [napi_external] = "an external value",
    [napi_bigint] = "a bigint",
};

bool succeeded(napi_env env, napi_status status) {
    const napi_extended_error_info *error = NULL;
    const char *message = "a call of Node-API failed";
    bool is_pending = false;

    if (status == napi_ok) {
        return true;
    }
    /* the information is that of the call before, so it is read first */
    if (napi_get_last_error_info(env, &error) == napi_ok && error != NULL && error->error_message != NULL) {
        message = error->error_message;
    }
    if (napi_is_exception_pending(env, &is_pending) == napi_ok && !is_pending) {
        /* if this fails as well there is nothing left to do */
        (void)napi_throw_error(env, NULL, message);
    }
    return false;
}

/* Throws a TypeError that tells what an argument is and what it has to be. */
static enum reading wrong_kind(napi_env env, enum parameter parameter, const char *is, const char *has_to_be) {
    char text[128];

    (void)snprintf(text, sizeof text, "%s is %s, and has to be %s", NAMES[parameter], is, has_to_be);
    (void)succeeded(env, napi_throw_type_error(env, "ERR_INVALID_ARG_TYPE", text));
    return THROWN;
}

/* The same by the kind that the value has. */
static enum reading wrong_value(napi_env env, enum parameter parameter, napi_value value, const char *has_to_be) {
    napi_valuetype type = napi_undefined;

    if (!succeeded(env, napi_typeof(env, value, &type))) {
        return THROWN;
    }
    return wrong_kind(env, parameter, KINDS[type], has_to_be);
}

static enum reading read_number(napi_env env, enum parameter parameter, napi_value value, double *number) {
    napi_status status = napi_get_value_double(env, value, number);

    if (status == napi_number_expected) {
        return wrong_value(env, parameter, value, "a number");
    }
    return succeeded(env, status) ? READ : THROWN;
}

/*
 * Reads the number of a version, a schema or a code. What is not a whole number up to the greatest is that of none, and
 * `unknown` says of what.
 */
static enum reading read_identifier(napi_env env, enum parameter parameter, napi_value value, uint32_t greatest,
                                    enum reading unknown, uint32_t *identifier) {
    double number = 0;
    enum reading reading = read_number(env, parameter, value, &number);

    if (reading != READ) {
        return reading;
    }
    /* the comparisons are false for NaN */
    if (!(number >= 0 && number <= greatest)) {
        return unknown;
    }
    *identifier = (uint32_t)number;
    return *identifier == number ? READ : unknown;
}

static enum reading read_length(napi_env env, enum parameter parameter, napi_value value, uint32_t *length) {
    char text[128];
    double number = 0;
    enum reading reading = read_number(env, parameter, value, &number);

    if (reading != READ) {
        return reading;
    }
    if (number > UINT32_MAX) {
        return LENGTH_TOO_LONG;
    }
    if (number >= 0) {
        *length = (uint32_t)number;
        if (*length == number) {
            return READ;
        }
    }
    (void)snprintf(text, sizeof text, "%s is negative, or no whole number of bytes", NAMES[parameter]);
    (void)succeeded(env, napi_throw_range_error(env, "ERR_OUT_OF_RANGE", text));
    return THROWN;
}

static enum reading read_flag(napi_env env, enum parameter parameter, napi_value value, uint32_t *flag) {
    bool is_set = false;
    napi_status status = napi_get_value_bool(env, value, &is_set);

    if (status == napi_boolean_expected) {
        return wrong_value(env, parameter, value, "a boolean");
    }
    if (!succeeded(env, status)) {
        return THROWN;
    }
    *flag = is_set ? 1 : 0;
    return READ;
}

/*
 * Reads the bytes of a Uint8Array. One over shared memory is not taken, since another thread may change it while a call
 * reads it, nor one whose buffer is detached, since it would seem to be empty.
 */
static enum reading read_bytes(napi_env env, enum parameter parameter, napi_value value, struct slice *slice) {
    /* a text is encoded before it comes here */
    const char *has_to_be = parameter == JSON ? "a string or a Uint8Array" : "a Uint8Array";
    bool is_own = false;
    bool is_detached = false;
    void *bytes = NULL;
    napi_typedarray_type type = napi_uint8_array;
    napi_value buffer = NULL;
    napi_status status = napi_get_typedarray_info(env, value, &type, &slice->length, &bytes, &buffer, NULL);

    if (status == napi_invalid_arg) {
        return wrong_value(env, parameter, value, has_to_be);
    }
    if (!succeeded(env, status)) {
        return THROWN;
    }
    if (type != napi_uint8_array) {
        return wrong_kind(env, parameter, "another typed array", has_to_be);
    }
    if (!succeeded(env, napi_is_arraybuffer(env, buffer, &is_own))) {
        return THROWN;
    }
    if (!is_own) {
        return wrong_kind(env, parameter, "a view on shared memory", "a copy of it");
    }
    /* a view on a detached buffer has no elements */
    if (slice->length == 0 && !succeeded(env, napi_is_detached_arraybuffer(env, buffer, &is_detached))) {
        return THROWN;
    }
    if (is_detached) {
        return wrong_kind(env, parameter, "a view on a detached buffer", has_to_be);
    }
    slice->bytes = bytes;
    return READ;
}

/*
 * Reads an array of numbers of 64 bits, which the folder lib made. Node-API tells the type of a typed array by eleven
 * calls, which take as long as all else of an array, so this looks only whether its elements are within the buffer.
 */
static enum reading read_numbers(napi_env env, enum parameter parameter, napi_value value, uint64_t **numbers,
                                 size_t *count) {
    void *elements = NULL;
    size_t offset = 0;
    size_t size = 0;
    napi_value buffer = NULL;
    napi_status status = napi_get_typedarray_info(env, value, NULL, count, &elements, &buffer, &offset);

    if (status == napi_ok) {
        status = napi_get_arraybuffer_info(env, buffer, NULL, &size);
    }
    if (status == napi_invalid_arg) {
        return wrong_value(env, parameter, value, "a BigUint64Array");
    }
    if (!succeeded(env, status)) {
        return THROWN;
    }
    if (offset % sizeof **numbers != 0 || offset > size || *count > (size - offset) / sizeof **numbers) {
        return wrong_kind(env, parameter, "another typed array", "a BigUint64Array");
    }
    *numbers = elements;
    return READ;
}

static enum reading read_argument(napi_env env, enum parameter parameter, napi_value value,
                                  struct arguments *arguments) {
    uint32_t code = 0;
    enum reading reading = READ;

    switch (parameter) {
    case VERSION:
        return read_identifier(env, parameter, value, UINT32_MAX, UNKNOWN_VERSION, &arguments->version);
    case SCHEMA:
        return read_identifier(env, parameter, value, UINT32_MAX, UNKNOWN_SCHEMA, &arguments->schema);
    case CODE:
        reading = read_identifier(env, parameter, value, UINT16_MAX, UNKNOWN_CODE, &code);
        arguments->code = (uint16_t)code;
        return reading;
    case PAYLOAD_LENGTH:
        return read_length(env, parameter, value, &arguments->payload_length);
    case LIMIT:
        return read_length(env, parameter, value, &arguments->limit);
    case INDEX:
        return read_length(env, parameter, value, &arguments->index);
    case DIRECTION:
        return read_length(env, parameter, value, &arguments->direction);
    case NAME:
    case CHUNK:
    case BYTES:
    case PAYLOAD:
    case JSON:
    case FIRST:
    case RECORDED:
    case SET:
        return read_bytes(env, parameter, value, &arguments->first);
    case SECOND:
    case REPLAYED:
    case RENAMES:
        return read_bytes(env, parameter, value, &arguments->second);
    case STREAM:
        return read_bytes(env, parameter, value, &arguments->third);
    case IGNORE_PAYLOADS:
        return read_flag(env, parameter, value, &arguments->ignore_payloads);
    case REPLAY:
        return read_numbers(env, parameter, value, &arguments->replay, &arguments->replay_room);
    case FIELDS:
        return read_numbers(env, parameter, value, &arguments->fields, &arguments->fields_count);
    case NUMBERS:
        return read_numbers(env, parameter, value, &arguments->numbers, &arguments->numbers_room);
    case OUT:
        return read_bytes(env, parameter, value, &arguments->out);
    case NO_PARAMETER:
        break;
    }
    return READ;
}

enum reading read_arguments(napi_env env, const napi_value *values, const enum parameter *parameters,
                            struct arguments *arguments) {
    enum reading result = READ;

    for (size_t i = 0; parameters[i] != NO_PARAMETER; i++) {
        enum reading reading = read_argument(env, parameters[i], values[i], arguments);

        if (reading == THROWN) {
            return THROWN;
        }
        /* a wrong kind in a later argument is said before a number that does not fit */
        if (result == READ) {
            result = reading;
        }
    }
    return result;
}
