/* cepage from Node: run(script, fuel, trace, url, boundary, out) gives [status, written]. The script, the two texts and the
 * room for the transcript are Uint8Arrays.
 */
#define NAPI_VERSION 8
#include "cepage.h"
#include <node_api.h>

enum { SCRIPT, FUEL, TRACE, URL, BOUNDARY, OUT, ARGUMENTS };

struct bytes {
    uint8_t *at;
    size_t length;
};

/* Bytes of an array. One of no bytes may have no address, and the call wants one. */
static bool get_bytes(napi_env env, napi_value value, struct bytes *bytes) {
    static uint8_t nothing[1];
    void *at = NULL;
    bool is_buffer = false;
    if (napi_is_buffer(env, value, &is_buffer) != napi_ok || !is_buffer ||
        napi_get_buffer_info(env, value, &at, &bytes->length) != napi_ok) {
        return false;
    }
    bytes->at = bytes->length > 0 ? at : nothing;
    return true;
}

static napi_value pair(napi_env env, uint8_t status, size_t written) {
    napi_value result, first, second;
    if (napi_create_array_with_length(env, 2, &result) != napi_ok ||
        napi_create_uint32(env, status, &first) != napi_ok ||
        napi_create_double(env, (double)written, &second) != napi_ok ||
        napi_set_element(env, result, 0, first) != napi_ok ||
        napi_set_element(env, result, 1, second) != napi_ok) {
        return NULL;
    }
    return result;
}

static napi_value run(napi_env env, napi_callback_info info) {
    napi_value given[ARGUMENTS];
    size_t count = ARGUMENTS, written = 0;
    struct bytes script, url, boundary, out;
    uint32_t fuel;
    bool trace;
    if (napi_get_cb_info(env, info, &count, given, NULL, NULL) != napi_ok || count != ARGUMENTS ||
        !get_bytes(env, given[SCRIPT], &script) ||
        napi_get_value_uint32(env, given[FUEL], &fuel) != napi_ok ||
        napi_get_value_bool(env, given[TRACE], &trace) != napi_ok ||
        !get_bytes(env, given[URL], &url) ||
        !get_bytes(env, given[BOUNDARY], &boundary) ||
        !get_bytes(env, given[OUT], &out)) {
        napi_throw_type_error(env, NULL, "run(script, fuel, trace, url, boundary, out)");
        return NULL;
    }
    uint8_t status = cepage_run(script.at, script.length, fuel, trace, url.at, url.length, boundary.at, boundary.length,
                                out.at, out.length, &written);
    return pair(env, status, written);
}

NAPI_MODULE_INIT() {
    napi_value call;
    if (napi_create_function(env, "run", NAPI_AUTO_LENGTH, run, NULL, &call) != napi_ok ||
        napi_set_named_property(env, exports, "run", call) != napi_ok) {
        return NULL;
    }
    return exports;
}
