// Counts the calls of the library by which a program's messages get their bytes, for LD_PRELOAD. When the program ends,
// a line with its name and, for each hash, the calls and their bytes is added to the file that COUNTS names. See
// tests/languages/provider.

#define _GNU_SOURCE
#include <dlfcn.h>
#include <errno.h>
#include <stdatomic.h>
#include <stdint.h>
#include <stdio.h>
#include <stdlib.h>

typedef uint32_t update(void *state, const uint8_t *piece, size_t length);

struct count {
    const char *hash, *call;
    atomic_ulong calls, bytes;
};

// Counts a call, which the library then answers.
static uint32_t counted(struct count *count, void *state, const uint8_t *piece, size_t length) {
    void *library = dlopen("libsums_hash.so.1", RTLD_NOW | RTLD_NOLOAD);
    update *call = library ? (update *)dlsym(library, count->call) : NULL;
    if (!call) abort();
    dlclose(library);
    atomic_fetch_add(&count->calls, 1);
    atomic_fetch_add(&count->bytes, length);
    return call(state, piece, length);
}

#define COUNTED(name)                                                                              \
    static struct count name = {#name, "sums_" #name "_update", 0, 0};                             \
    uint32_t sums_##name##_update(void *state, const uint8_t *piece, size_t length) {              \
        return counted(&name, state, piece, length);                                               \
    }

COUNTED(sha256)
COUNTED(sha512)
COUNTED(blake2b)
COUNTED(blake2s)
COUNTED(blake3)

__attribute__((destructor)) static void tell(void) {
    static struct count *const counts[] = {&sha256, &sha512, &blake2b, &blake2s, &blake3};
    char line[1000];
    int length = snprintf(line, sizeof line, "%s", program_invocation_short_name), begun = length;
    for (size_t i = 0; i < sizeof counts / sizeof *counts; i++)
        if (counts[i]->calls > 0)
            length += snprintf(line + length, sizeof line - length, " %s %lu %lu", counts[i]->hash, counts[i]->calls,
                               counts[i]->bytes);
    FILE *file = length > begun ? fopen(getenv("COUNTS"), "a") : NULL;
    if (!file) return;
    fprintf(file, "%s\n", line);
    fclose(file);
}
