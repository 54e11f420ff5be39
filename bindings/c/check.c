/* Checks the files of a list of SHA-256 digests, such as SHA256SUMS beside a download:
 * cc check.c -o check $(pkg-config --cflags --libs sums_hash) && ./check SHA256SUMS
 * SPDX-License-Identifier: MIT OR Apache-2.0 */
#include <errno.h>
#include <stdio.h>
#include <string.h>
#include <sums_hash.h>

/* Writes the digest of a file, or says why there is none. */
static uint32_t digest_of(const char *name, uint8_t digest[32]) {
    static uint8_t piece[65536];
    sums_sha256_state state = {0};
    size_t count;
    FILE *file = fopen(name, "rb");
    if (!file) return errno == ENOENT ? SUMS_VERDICT_MISSING : SUMS_VERDICT_UNREADABLE;
    sums_sha256_init(&state);
    while ((count = fread(piece, 1, sizeof piece, file)) > 0)
        if (sums_sha256_update(&state, piece, count) != SUMS_OK) break;
    int is_whole = count == 0 && !ferror(file) && sums_sha256_finish(&state, digest) == SUMS_OK;
    fclose(file);
    return is_whole ? SUMS_VERDICT_OK : SUMS_VERDICT_UNREADABLE;
}

/* Prints the line of a report; whether the line of the list is right. */
static int is_right(const sums_list_entry *line) {
    static uint8_t report[2 * 65536 + 16];
    static char name[65536 + 1];
    uint8_t digest[32] = {0};
    if (line->kind == SUMS_LINE_NONE || line->kind == SUMS_LINE_SKIPPED) return 1;
    if (line->kind != SUMS_LINE_ENTRY || line->hash != SUMS_SHA256) {
        printf("line %llu: no digest by SHA-256\n", (unsigned long long)line->number);
        return 0;
    }
    /* a name has no NUL; whether it may lead out of this folder is for the program to judge */
    memcpy(name, line->name, line->name_len);
    name[line->name_len] = 0;
    uint32_t verdict = digest_of(name, digest);
    if (verdict == SUMS_VERDICT_OK && memcmp(digest, line->digest, 32) != 0) verdict = SUMS_VERDICT_FAILED;
    size_t length = sums_list_report_length(verdict, line->name, line->name_len);
    if (sums_list_report(report, length, verdict, line->name, line->name_len) != SUMS_OK) return 0;
    fwrite(report, 1, length, stdout);
    return verdict == SUMS_VERDICT_OK;
}

int main(int argc, char **argv) {
    static sums_list_state state;
    static sums_list_entry line;
    uint8_t piece[4096];
    size_t count;
    int all_are_right = 1, has_entries = 0;
    FILE *list = argc == 2 ? fopen(argv[1], "rb") : NULL;
    if (!list) {
        fprintf(stderr, "usage: check LIST, a file of SHA-256 digests that can be read\n");
        return 2;
    }
    if (sums_list_init(&state, SUMS_SHA256) != SUMS_OK) return 2;
    while ((count = fread(piece, 1, sizeof piece, list)) > 0)
        for (size_t at = 0; at < count; at += (size_t)line.taken) {
            if (sums_list_read(&state, &line, piece + at, count - at) != SUMS_OK) return 2;
            all_are_right &= is_right(&line);
            has_entries |= line.kind == SUMS_LINE_ENTRY;
        }
    if (ferror(list) || sums_list_end(&state, &line) != SUMS_OK) return 2;
    all_are_right &= is_right(&line);
    has_entries |= line.kind == SUMS_LINE_ENTRY;
    /* nothing was checked by a list that is empty, as after a download that has failed */
    if (all_are_right && !has_entries) fprintf(stderr, "%s: no entries\n", argv[1]);
    return all_are_right && has_entries ? 0 : 1;
}
