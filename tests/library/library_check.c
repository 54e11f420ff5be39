// Checks lists, and writes lines, by the calls on lists, with the words of `sums check` and `sums hash` and their
// answers: tests/program/lists.py and tests/program/random_lists.py try it as they try the program. SHORT in the
// environment is the most bytes of a piece of a list. See tests/library/library.
// usage: library_check check [-a HASH] [--summary] [LIST]
//        library_check hash -a HASH [-l BYTES] [--tag] [--] FILE..
#define SUMS_HASH_UNCHECKED // no length here is refused
#include <errno.h>
#include <fcntl.h>
#include <stdio.h>
#include <stdlib.h>
#include <string.h>
#include <sums_hash.h>
#include <unistd.h>

// ---- The digest of a file

typedef union {
    sums_sha256_state sha256;
    sums_sha512_state sha512;
    sums_blake2b_state blake2b;
    sums_blake2s_state blake2s;
    sums_blake3_state blake3;
} hasher;

static const char *const names[] = {"", "sha256", "sha512", "blake2b", "blake2s", "blake3"};
static const size_t longest[] = {0, 32, 64, 64, 32, 32};

static void begin(hasher *h, uint32_t hash, size_t len) {
    switch (hash) {
    case SUMS_SHA256: sums_sha256_init(&h->sha256); break;
    case SUMS_SHA512: sums_sha512_init(&h->sha512); break;
    case SUMS_BLAKE2B: sums_blake2b_init(&h->blake2b, len, NULL, 0); break;
    case SUMS_BLAKE2S: sums_blake2s_init(&h->blake2s, len, NULL, 0); break;
    default: sums_blake3_init(&h->blake3);
    }
}

static void add(hasher *h, uint32_t hash, const uint8_t *piece, size_t len) {
    switch (hash) {
    case SUMS_SHA256: sums_sha256_update(&h->sha256, piece, len); break;
    case SUMS_SHA512: sums_sha512_update(&h->sha512, piece, len); break;
    case SUMS_BLAKE2B: sums_blake2b_update(&h->blake2b, piece, len); break;
    case SUMS_BLAKE2S: sums_blake2s_update(&h->blake2s, piece, len); break;
    default: sums_blake3_update(&h->blake3, piece, len);
    }
}

static void finish(hasher *h, uint32_t hash, uint8_t *out, size_t len) {
    switch (hash) {
    case SUMS_SHA256: sums_sha256_finish(&h->sha256, out); break;
    case SUMS_SHA512: sums_sha512_finish(&h->sha512, out); break;
    case SUMS_BLAKE2B: sums_blake2b_finish(&h->blake2b, out, len); break;
    case SUMS_BLAKE2S: sums_blake2s_finish(&h->blake2s, out, len); break;
    default: sums_blake3_output(&h->blake3, 0, out, len);
    }
}

// Writes the digest of a file: SUMS_VERDICT_OK, or why there is none.
static uint32_t digest_of(const char *name, uint32_t hash, uint8_t *out, size_t len) {
    static uint8_t piece[65536];
    hasher h = {0};
    ssize_t count;
    int file = open(name, O_RDONLY | O_CLOEXEC);
    if (file < 0) return errno == ENOENT ? SUMS_VERDICT_MISSING : SUMS_VERDICT_UNREADABLE;
    begin(&h, hash, len);
    while ((count = read(file, piece, sizeof piece)) > 0) add(&h, hash, piece, (size_t)count);
    close(file);
    if (count < 0) return SUMS_VERDICT_UNREADABLE;
    finish(&h, hash, out, len);
    return SUMS_VERDICT_OK;
}

// ---- A list

enum { MALFORMED = SUMS_VERDICT_TOO_LONG + 1, SKIPPED, OUTCOMES };

// How many lines had each verdict, were malformed or were skipped.
static unsigned long counts[OUTCOMES];
static int lacks_hash;

static uint32_t verdict_of(const sums_list_entry *line) {
    static char name[sizeof line->name + 1];
    uint8_t digest[64] = {0};
    memcpy(name, line->name, line->name_len);
    name[line->name_len] = 0;
    uint32_t verdict = digest_of(name, line->hash, digest, line->digest_len);
    int differs = verdict == SUMS_VERDICT_OK && memcmp(digest, line->digest, line->digest_len);
    return differs ? SUMS_VERDICT_FAILED : verdict;
}

// Prints what the list says of an entry: the library writes exactly as many bytes as it has said.
static void report(const sums_list_entry *line, uint32_t verdict) {
    size_t len = sums_list_report_length(verdict, line->name, line->name_len);
    uint8_t *out = calloc(len, 1);
    if (!out || sums_list_report(out, len, verdict, line->name, line->name_len) != SUMS_OK) abort();
    fwrite(out, 1, len, stdout);
    free(out);
}

static void judge(const sums_list_entry *line) {
    uint32_t verdict;
    switch (line->kind) {
    case SUMS_LINE_NONE: return;
    case SUMS_LINE_SKIPPED: counts[SKIPPED]++; return;
    case SUMS_LINE_UNTAGGED: lacks_hash = 1; // fall through
    case SUMS_LINE_MALFORMED:
        counts[MALFORMED]++;
        printf("line %llu: MALFORMED\n", (unsigned long long)line->number);
        return;
    }
    verdict = verdict_of(line);
    counts[verdict]++;
    report(line, verdict);
}

// Reads some bytes of the list, which come in memory of their own, so that a sanitizer sees where they end.
static void take(sums_list_state *state, sums_list_entry *line, const uint8_t *bytes, size_t len) {
    uint8_t *piece = malloc(len);
    if (!piece) abort();
    memcpy(piece, bytes, len);
    for (size_t at = 0; at < len; at += line->taken) {
        if (sums_list_read(state, line, piece + at, len - at) != SUMS_OK) abort();
        judge(line);
    }
    free(piece);
}

// What `sums check` says of a list behind its report.
static void hint(const char *list, uint32_t hash) {
    unsigned long failed = counts[SUMS_VERDICT_FAILED], missing = counts[SUMS_VERDICT_MISSING];
    const char *text = NULL;
    if (lacks_hash) text = "digests of another length than those of -a";
    else if (counts[MALFORMED] && !failed && !missing && !counts[SUMS_VERDICT_OK] && !counts[SUMS_VERDICT_UNREADABLE])
        text = "no line is an entry";
    else if (!counts[SUMS_VERDICT_OK] && !counts[SUMS_VERDICT_UNREADABLE] && !counts[MALFORMED])
        text = !failed ? missing ? "all MISSING, names count from the current folder" : "no entries"
            : missing || !hash ? NULL : "all FAILED, untagged lines may need another -a";
    if (text) fprintf(stderr, "sums: %s: %s\n", list, text);
}

static void summarize(void) {
    static const char *const texts[OUTCOMES] = {
        [SUMS_VERDICT_OK] = "OK", [SUMS_VERDICT_FAILED] = "failed", [SUMS_VERDICT_MISSING] = "missing",
        [SUMS_VERDICT_UNREADABLE] = "unreadable", [SUMS_VERDICT_TOO_LONG] = "too long", [MALFORMED] = "malformed",
        [SKIPPED] = "skipped"};
    for (int i = SUMS_VERDICT_OK; i < OUTCOMES; i++)
        fprintf(stderr, "%s%lu %s", i == SUMS_VERDICT_OK ? "sums: " : ", ", counts[i], texts[i]);
    fputc('\n', stderr);
}

static int check(uint32_t hash, int wants_summary, const char *list) {
    static sums_list_state state;
    static sums_list_entry line;
    static uint8_t bytes[65536];
    const char *most = getenv("SHORT");
    size_t size = most ? strtoul(most, NULL, 10) : sizeof bytes;
    ssize_t count;
    int file = strcmp(list, "-") ? open(list, O_RDONLY | O_CLOEXEC) : 0;
    if (file < 0 || sums_list_init(&state, hash) != SUMS_OK) return 2;
    while ((count = read(file, bytes, size)) > 0) take(&state, &line, bytes, (size_t)count);
    if (count < 0 || sums_list_end(&state, &line) != SUMS_OK) return 2;
    judge(&line);
    fflush(stdout);
    if (wants_summary) summarize();
    hint(list, hash);
    for (int i = SUMS_VERDICT_FAILED; i < SKIPPED; i++)
        if (counts[i]) return 1;
    return 0;
}

// ---- Lines

static int print_line(uint32_t hash, size_t digest_len, uint32_t is_tagged, const char *name) {
    uint8_t digest[64] = {0};
    const uint8_t *bytes = (const uint8_t *)name;
    size_t len = sums_list_line_length(hash, is_tagged, digest_len, bytes, strlen(name));
    uint8_t *out = calloc(len, 1);
    if (!out || !len || digest_of(name, hash, digest, digest_len) != SUMS_VERDICT_OK) return 1;
    if (sums_list_line(out, len, hash, is_tagged, digest, digest_len, bytes, strlen(name)) != SUMS_OK) return 1;
    int is_written = fwrite(out, 1, len, stdout) == len;
    free(out);
    return !is_written;
}

static uint32_t numbered(const char *name) {
    uint32_t hash = SUMS_BLAKE3;
    while (hash && strcmp(name, names[hash])) hash--;
    return hash;
}

int main(int argc, char **argv) {
    uint32_t hash = SUMS_ANY, is_tagged = 0;
    int at = 2, wants_summary = 0, result = 0;
    size_t digest_len = 0;
    for (; at < argc && argv[at][0] == '-' && argv[at][1]; at++) {
        if (!strcmp(argv[at], "--") && ++at) break;
        else if (!strcmp(argv[at], "--summary")) wants_summary = 1;
        else if (!strcmp(argv[at], "--tag")) is_tagged = 1;
        else if (!strcmp(argv[at], "-l") && at + 1 < argc) digest_len = strtoul(argv[++at], NULL, 10);
        else if (!strcmp(argv[at], "-a") && at + 1 < argc) hash = numbered(argv[++at]);
        else return 2;
    }
    if (argc > 1 && !strcmp(argv[1], "check")) return check(hash, wants_summary, at < argc ? argv[at] : "-");
    for (; at < argc; at++) result |= print_line(hash, digest_len ? digest_len : longest[hash], is_tagged, argv[at]);
    return result;
}
