/* The lines of a list, many in one call: a call of C costs Go about as much as the library needs for a line.
 * SPDX-License-Identifier: MIT OR Apache-2.0 */
#include <string.h>

#include "library.h"

/* What is told of a line that is not skipped. The digest follows, and then the name. */
typedef struct {
    uint64_t number;
    uint32_t kind, hash, digest_len, name_len;
} sums_list_head;

/* The most bytes of a line that is told, in words. */
enum { SUMS_LIST_MOST = (sizeof(sums_list_head) + 64 + 65536 + 7) / 8 * 8 };

/* How far a call has come: the bytes that it has read, those that it has written, and the lines that it has skipped. */
typedef struct {
    size_t taken, used;
    uint64_t skipped;
    uint32_t status;
} sums_list_progress;

static inline void sums_list_tell(const sums_list_entry *entry, uint8_t *room, sums_list_progress *progress) {
    if (entry->kind == SUMS_LINE_SKIPPED) progress->skipped++;
    if (entry->kind == SUMS_LINE_SKIPPED || entry->kind == SUMS_LINE_NONE) return;
    int is_entry = entry->kind == SUMS_LINE_ENTRY;
    sums_list_head head = {entry->number, entry->kind, 0, 0, 0};
    uint8_t *at = room + progress->used;
    if (is_entry) {
        head.hash = entry->hash;
        head.digest_len = entry->digest_len;
        head.name_len = entry->name_len;
        memcpy(at + sizeof head, entry->digest, head.digest_len);
        memcpy(at + sizeof head + head.digest_len, entry->name, head.name_len);
    }
    memcpy(at, &head, sizeof head);
    progress->used += (sizeof head + head.digest_len + head.name_len + 7) / 8 * 8;
}

/* Reads lines of a piece, as long as the room takes one more. */
static inline sums_list_progress sums_list_lines(uint64_t *state, uint64_t *entry, const uint8_t *piece, size_t piece_len,
                                                 uint64_t *room, size_t room_len) {
    sums_list_progress progress = {0, 0, 0, SUMS_OK};
    sums_list_entry *line = (sums_list_entry *)entry;
    while (progress.taken < piece_len && room_len - progress.used >= SUMS_LIST_MOST) {
        progress.status = sums_list_read((sums_list_state *)state, line, piece + progress.taken, piece_len - progress.taken);
        if (progress.status != SUMS_OK) break;
        progress.taken += line->taken;
        sums_list_tell(line, (uint8_t *)room, &progress);
    }
    return progress;
}

/* Reads the last line, if no LF ended it. */
static inline sums_list_progress sums_list_last(uint64_t *state, uint64_t *entry, uint64_t *room) {
    sums_list_progress progress = {0, 0, 0, SUMS_OK};
    progress.status = sums_list_end((sums_list_state *)state, (sums_list_entry *)entry);
    if (progress.status == SUMS_OK) sums_list_tell((sums_list_entry *)entry, (uint8_t *)room, &progress);
    return progress;
}
