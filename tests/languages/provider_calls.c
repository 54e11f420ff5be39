// The functions of the provider's module as a core of OpenSSL calls them, with a core of this program: what OpenSSL's
// own calls keep from a provider, and functions that only later OpenSSLs call. See tests/languages/provider.
// usage: provider_calls MODULE    the module's path

#define SUMS_HASH_UNCHECKED // no length here is refused
#include "library.h"
#include <dlfcn.h>
#include <malloc.h>
#include <openssl/core_dispatch.h>
#include <openssl/core_names.h>
#include <openssl/err.h>
#include <openssl/params.h>
#include <openssl/proverr.h>
#include <stdarg.h>

// squeezing came with OpenSSL 3.3, and copying into a context with 3.5
enum { SQUEEZE = 14, COPY = 15 };

// ---- a core, which keeps the last fault that it was told

static struct {
    int number; // of faults
    uint32_t reason;
    char text[200];
} told;

static void new_error(const OSSL_CORE_HANDLE *core) {
    (void)core;
    told.number++;
}

static void set_place(const OSSL_CORE_HANDLE *core, const char *file, int line, const char *function) {
    (void)core;
    judged("the place of a fault", 0, file && line > 0 && function);
}

static void set_reason(const OSSL_CORE_HANDLE *core, uint32_t reason, const char *format, va_list values) {
    (void)core;
    told.reason = reason;
    vsnprintf(told.text, sizeof told.text, format, values);
}

typedef void (*call)(void);

static const OSSL_DISPATCH core_calls[] = {
    {OSSL_FUNC_CORE_NEW_ERROR, (call)new_error},
    {OSSL_FUNC_CORE_SET_ERROR_DEBUG, (call)set_place},
    {OSSL_FUNC_CORE_VSET_ERROR, (call)set_reason},
    {999, NULL}, // of a core to come
    {0, NULL},
};

// refused: a call answers 0 and tells one fault of this reason, with a text of ours
#define REFUSED(fault, call)                                                                       \
    {                                                                                              \
        int before = told.number, answer = call;                                                   \
        int is_told = told.number == before + 1 && told.reason == ERR_PACK(ERR_LIB_PROV, 0, fault); \
        judged(#call, 0, answer == 0 && is_told && strncmp(told.text, "sums: ", 6) == 0);          \
    }
#define DONE(call) judged(#call, 0, (call) == 1)

// ---- what the module offers

static const OSSL_DISPATCH *provider_calls;
static void *provider;

static call found(const OSSL_DISPATCH *calls, int number) {
    while (calls->function_id && calls->function_id != number) calls++;
    return calls->function;
}

// The calls of an algorithm, by its first name.
static const OSSL_DISPATCH *offered(int operation, const char *name) {
    int no_cache = 2;
    size_t length = strlen(name);
    OSSL_FUNC_provider_query_operation_fn *query = (void *)found(provider_calls, OSSL_FUNC_PROVIDER_QUERY_OPERATION);
    const OSSL_ALGORITHM *each = query(provider, operation, &no_cache);
    judged("no_cache", 0, no_cache == 0);
    while (strncmp(each->algorithm_names, name, length) != 0 || !strchr(":", each->algorithm_names[length])) each++;
    judged(name, 0, strcmp(each->property_definition, "provider=sums") == 0);
    return each->implementation;
}

// The calls of a digest or a MAC, as far as both have them.
static struct {
    OSSL_FUNC_digest_newctx_fn *make;
    OSSL_FUNC_digest_freectx_fn *end;
    OSSL_FUNC_digest_dupctx_fn *duplicate;
    void (*copy)(void *to, void *from);
    OSSL_FUNC_digest_init_fn *begin;
    OSSL_FUNC_mac_init_fn *begin_keyed;
    OSSL_FUNC_digest_update_fn *update;
    OSSL_FUNC_digest_final_fn *final, *squeeze;
    OSSL_FUNC_digest_set_ctx_params_fn *set;
    OSSL_FUNC_digest_get_ctx_params_fn *get;
    OSSL_FUNC_digest_get_params_fn *facts;
} calls;

static void *begun_digest(const char *name) {
    const OSSL_DISPATCH *of = offered(OSSL_OP_DIGEST, name);
    calls.make = (void *)found(of, OSSL_FUNC_DIGEST_NEWCTX);
    calls.end = (void *)found(of, OSSL_FUNC_DIGEST_FREECTX);
    calls.duplicate = (void *)found(of, OSSL_FUNC_DIGEST_DUPCTX);
    calls.copy = (void *)found(of, COPY);
    calls.begin = (void *)found(of, OSSL_FUNC_DIGEST_INIT);
    calls.update = (void *)found(of, OSSL_FUNC_DIGEST_UPDATE);
    calls.final = (void *)found(of, OSSL_FUNC_DIGEST_FINAL);
    calls.squeeze = (void *)found(of, SQUEEZE);
    calls.set = (void *)found(of, OSSL_FUNC_DIGEST_SET_CTX_PARAMS);
    calls.get = (void *)found(of, OSSL_FUNC_DIGEST_GET_CTX_PARAMS);
    calls.facts = (void *)found(of, OSSL_FUNC_DIGEST_GET_PARAMS);
    return calls.make(provider);
}

static void *begun_mac(const char *name) {
    const OSSL_DISPATCH *of = offered(OSSL_OP_MAC, name);
    calls.make = (void *)found(of, OSSL_FUNC_MAC_NEWCTX);
    calls.end = (void *)found(of, OSSL_FUNC_MAC_FREECTX);
    calls.duplicate = (void *)found(of, OSSL_FUNC_MAC_DUPCTX);
    calls.begin_keyed = (void *)found(of, OSSL_FUNC_MAC_INIT);
    calls.update = (void *)found(of, OSSL_FUNC_MAC_UPDATE);
    calls.final = (void *)found(of, OSSL_FUNC_MAC_FINAL);
    calls.set = (void *)found(of, OSSL_FUNC_MAC_SET_CTX_PARAMS);
    calls.get = (void *)found(of, OSSL_FUNC_MAC_GET_CTX_PARAMS);
    return calls.make(provider);
}

#define NUMBER(name, value) (OSSL_PARAM[]){OSSL_PARAM_construct_size_t(name, &(size_t){value}), OSSL_PARAM_END}

static uint8_t data[3000], got[5000], want[5000];
static size_t count;

// ---- digests

// A context in no state, or at its end, takes nothing; what is refused changes nothing.
static void stages(const char *name, size_t size) {
    void *context = begun_digest(name);
    REFUSED(PROV_R_INVALID_STATE, calls.update(context, data, 1))
    REFUSED(PROV_R_INVALID_STATE, calls.final(context, got, &count, sizeof got))
    judged("bytes that were written", 0, count == 0);
    DONE(calls.begin(context, NULL));
    DONE(calls.update(context, NULL, 0));
    DONE(calls.update(context, data, sizeof data));
    REFUSED(PROV_R_OUTPUT_BUFFER_TOO_SMALL, calls.final(context, got, &count, size - 1))
    DONE(calls.final(context, want, &count, size));
    judged("bytes that were written", 0, count == size);
    REFUSED(PROV_R_INVALID_STATE, calls.update(context, data, 1))
    DONE(calls.final(context, got, &count, sizeof got));
    same("a digest that is asked for again", 0, got, want, size);
    void *other = calls.duplicate(context);
    calls.end(context);
    DONE(calls.final(other, got, &count, sizeof got));
    same("the digest of a copy", 0, got, want, size);
    void *third = calls.make(provider);
    calls.copy(third, other);
    calls.end(other);
    DONE(calls.final(third, got, &count, sizeof got));
    same("the digest of a copy in place", 0, got, want, size);
    DONE(calls.begin(third, NULL));
    DONE(calls.update(third, data, sizeof data));
    DONE(calls.final(third, got, &count, sizeof got));
    same("the digest after another beginning", 0, got, want, size);
    calls.end(third);
    calls.end(NULL);
}

// The length of an output is that of its message alone.
static void next_length(void) {
    void *context = begun_digest("BLAKE3");
    DONE(calls.begin(context, NULL));
    DONE(calls.set(context, NUMBER("xoflen", 100)));
    DONE(calls.final(context, got, &count, 100));
    judged("the length that was set", 0, count == 100);
    DONE(calls.begin(context, NULL));
    DONE(calls.final(context, got, &count, sizeof got));
    judged("the length of the next message", 0, count == 32);
    calls.end(context);
}

static void squeezes(void) {
    void *context = begun_digest("BLAKE3"), *other;
    sums_blake3(want, sizeof want, 0, data, sizeof data);
    REFUSED(PROV_R_INVALID_STATE, calls.squeeze(context, got, &count, 1))
    DONE(calls.begin(context, NULL));
    DONE(calls.update(context, data, sizeof data));
    DONE(calls.squeeze(context, got, &count, 1));
    DONE(calls.squeeze(context, got + 1, &count, 0));
    DONE(calls.squeeze(context, got + 1, &count, 2000));
    other = calls.duplicate(context);
    DONE(calls.squeeze(other, got + 2001, &count, sizeof got - 2001));
    judged("bytes that were written", 0, count == sizeof got - 2001);
    same("squeezed", 0, got, want, sizeof want);
    REFUSED(PROV_R_INVALID_STATE, calls.update(context, data, 1))
    REFUSED(PROV_R_INVALID_STATE, calls.final(context, got, &count, sizeof got))
    // the next message is squeezed from its first byte on
    DONE(calls.begin(context, NULL));
    DONE(calls.update(context, data, sizeof data));
    DONE(calls.squeeze(context, got, &count, 100));
    same("squeezed from the next message", 0, got, want, 100);
    // a digest was written, and then nothing can be squeezed
    DONE(calls.begin(context, NULL));
    DONE(calls.final(context, got, &count, sizeof got));
    REFUSED(PROV_R_INVALID_STATE, calls.squeeze(context, got, &count, 1))
    // nor can it from a message whose beginning was refused
    DONE(calls.begin(context, NULL));
    DONE(calls.update(context, data, 1));
    REFUSED(PROV_R_FAILED_TO_GET_PARAMETER,
            calls.begin(context, (OSSL_PARAM[]){OSSL_PARAM_construct_utf8_string("xoflen", "1", 1), OSSL_PARAM_END}))
    REFUSED(PROV_R_INVALID_STATE, calls.squeeze(context, got, &count, 1))
    calls.end(context);
    calls.end(other);
}

// A state that something else has written into, at the end of its context: what the library refuses is told.
static void overwritten(void) {
    void *context = begun_digest("SHA2-256");
    DONE(calls.begin(context, NULL));
    memset((uint8_t *)context + malloc_usable_size(context) - sizeof(sums_sha256_state), 0, sizeof(sums_sha256_state));
    REFUSED(PROV_R_INVALID_STATE, calls.update(context, data, 1))
    REFUSED(PROV_R_INVALID_STATE, calls.final(context, got, &count, sizeof got))
    judged("bytes that were written", 0, count == 0);
    calls.end(context);
}

// A number is told in as many bytes as there are for it, if they are enough.
static void told_numbers(void) {
    uint8_t narrow[16];
    void *context = begun_digest("BLAKE3");
    DONE(calls.begin(context, NUMBER("xoflen", 200)));
    const struct {
        unsigned type;
        size_t room;
        int is_told;
    } rows[] = {
        {OSSL_PARAM_UNSIGNED_INTEGER, 1, 1}, {OSSL_PARAM_UNSIGNED_INTEGER, 16, 1}, {OSSL_PARAM_INTEGER, 2, 1},
        {OSSL_PARAM_INTEGER, 1, 0}, {OSSL_PARAM_UNSIGNED_INTEGER, 0, 0}, {OSSL_PARAM_UTF8_STRING, 16, 0},
    };
    for (size_t i = 0; i < sizeof rows / sizeof *rows; i++) {
        OSSL_PARAM params[] = {{"size", rows[i].type, narrow, rows[i].room, 0}, OSSL_PARAM_END};
        memset(narrow, 0xff, sizeof narrow);
        if (!rows[i].is_told) {
            REFUSED(PROV_R_FAILED_TO_SET_PARAMETER, calls.get(context, params))
            continue;
        }
        DONE(calls.get(context, params));
        judged("a number that is told", 0, narrow[0] == 200 && params[0].return_size == rows[i].room);
        for (size_t k = 1; k < sizeof narrow; k++) judged("behind it", k, narrow[k] == (k < rows[i].room ? 0 : 0xff));
    }
    OSSL_PARAM unwritten[] = {{"size", OSSL_PARAM_UNSIGNED_INTEGER, NULL, 0, 0}, OSSL_PARAM_END};
    DONE(calls.get(context, unwritten));
    judged("the room that a number wants", 0, unwritten[0].return_size == sizeof(size_t));
    DONE(calls.facts(unwritten));
    DONE(calls.facts(NULL));
    calls.end(context);
}

// ---- MACs

static void macs(void) {
    void *context = begun_mac("BLAKE2BMAC"), *other = calls.duplicate(context);
    REFUSED(PROV_R_NO_KEY_SET, calls.begin_keyed(context, NULL, 0, NULL))
    REFUSED(PROV_R_INVALID_STATE, calls.update(context, data, 1))
    DONE(calls.begin_keyed(context, data, 64, NUMBER("size", 20)));
    REFUSED(PROV_R_INVALID_KEY_LENGTH, calls.begin_keyed(context, data, 65, NULL))
    REFUSED(PROV_R_INVALID_STATE, calls.final(context, got, &count, sizeof got))
    DONE(calls.begin_keyed(context, NULL, 0, NULL));
    DONE(calls.update(context, data, sizeof data));
    calls.end(other);
    other = calls.duplicate(context);
    calls.end(context);
    DONE(calls.final(other, got, &count, sizeof got));
    judged("the size that was kept", 0, count == 20);
    sums_blake2b(want, 20, data, sizeof data, data, 64);
    same("BLAKE2BMAC", 0, got, want, 20);
    calls.end(other);
    calls.end(NULL);
}

// ---- the module

// A core that lacks something gets no provider.
static void refuses_less(OSSL_provider_init_fn *init) {
    for (int i = 0; i < 3; i++) {
        OSSL_DISPATCH some[3] = {core_calls[i == 0], core_calls[i == 2 ? 1 : 2], {0, NULL}};
        judged("a core that lacks a call", 0, init(NULL, some, &provider_calls, &provider) == 0);
    }
}

int main(int words_count, char **words) {
    void *module = words_count == 2 ? dlopen(words[1], RTLD_NOW | RTLD_LOCAL) : NULL;
    OSSL_provider_init_fn *init = module ? (OSSL_provider_init_fn *)dlsym(module, "OSSL_provider_init") : NULL;
    if (!init) {
        printf("%s\n", words_count == 2 ? dlerror() : "name a module");
        return 2;
    }
    for (size_t i = 0; i < sizeof data; i++) data[i] = i % 251;
    refuses_less(init);
    DONE(init(NULL, core_calls, &provider_calls, &provider));
    stages("SHA2-256", 32);
    stages("SHA2-512", 64);
    stages("BLAKE2B-512", 64);
    stages("BLAKE2S-256", 32);
    stages("BLAKE3", 32);
    stages("BLAKE3-256", 32);
    next_length();
    squeezes();
    overwritten();
    told_numbers();
    macs();
    OSSL_FUNC_provider_teardown_fn *teardown = (void *)found(provider_calls, OSSL_FUNC_PROVIDER_TEARDOWN);
    teardown(provider);
    judged("dlclose", 0, dlclose(module) == 0);
    return ends("calls of the module");
}
