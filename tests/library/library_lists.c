// The calls on lists: each cut of a list gives the same lines, what is written is what FORMAT says and is read back,
// and what is refused changes nothing, whatever the states and lines hold. library_check.c tries what lines mean. See
// tests/library/library.

#include "library.h"

enum { LIMIT = 65536 };

static uint8_t *out_area, *state_area, *line_area, *piece_area;

static uint32_t below(uint32_t bound) {
    static uint64_t seed = 88172645463325252u;
    seed ^= seed << 13;
    seed ^= seed >> 7;
    seed ^= seed << 17;
    return (uint32_t)(seed >> 32) % bound;
}

static void any_bytes(void *memory, size_t count) {
    for (size_t i = 0; i < count; i++) ((uint8_t *)memory)[i] = (uint8_t)below(256);
}

// An output of so many bytes, which a call must leave as it is, or write.
static uint8_t *output(size_t count) {
    uint8_t *bytes = at_edge(out_area, count, 1);
    memset(bytes, 0x5a, count);
    return bytes;
}

static void untouched(const char *what, const uint8_t *bytes, size_t count) {
    size_t i = 0;
    while (i < count && bytes[i] == 0x5a) i++;
    judged(what, i, i == count);
}

// Some bytes in memory that ends where a page ends that no call may touch.
static const uint8_t *at_end(const uint8_t *bytes, size_t count) {
    return count ? memcpy(at_edge(piece_area, count, 1), bytes, count) : NULL;
}

// ---- Lists that are cut

// What was said of lines: their numbers, kinds and entries, one after another.
struct told {
    size_t length;
    uint8_t bytes[4096];
};

static void tell(struct told *told, const void *bytes, size_t count) {
    if (told->length + count > sizeof told->bytes) exit(2);
    memcpy(told->bytes + told->length, bytes, count);
    told->length += count;
}

static void tell_line(struct told *told, const sums_list_entry *line) {
    if (line->kind == SUMS_LINE_NONE) return;
    tell(told, &line->number, sizeof line->number);
    tell(told, &line->kind, sizeof line->kind);
    if (line->kind != SUMS_LINE_ENTRY) return;
    tell(told, &line->hash, sizeof line->hash);
    tell(told, line->digest, line->digest_len);
    tell(told, line->name, line->name_len);
}

// Reads a piece, of which a line takes the bytes up to its LF, or else all are taken.
static void read_piece(sums_list_state *state, sums_list_entry *line, struct told *told, const uint8_t *piece,
                       size_t length) {
    for (size_t at = 0; at < length; at += line->taken) {
        size_t rest = length - at;
        const uint8_t *bytes = at_end(piece + at, rest), *lf = memchr(bytes, '\n', rest);
        status("read", sums_list_read(state, line, bytes, rest), SUMS_OK);
        judged("a line has ended", at, (line->kind != SUMS_LINE_NONE) == (lf != NULL));
        judged("bytes taken", at, line->taken == (lf ? (size_t)(lf - bytes) + 1 : rest));
        if (line->taken == 0 || line->taken > rest) exit(2);
        tell_line(told, line);
    }
}

// Reads a list that is cut at two places, and is for BLAKE2b.
static void read_cut(struct told *told, const uint8_t *list, size_t first, size_t second, size_t length) {
    sums_list_state *state = (void *)at_edge(state_area, sizeof *state, 1);
    sums_list_entry *line = (void *)at_edge(line_area, sizeof *line, 1);
    told->length = 0;
    status("init", sums_list_init(state, SUMS_BLAKE2B), SUMS_OK);
    read_piece(state, line, told, list, first);
    read_piece(state, line, told, list + first, second - first);
    status("read of no bytes", sums_list_read(state, line, NULL, 0), SUMS_OK);
    judged("no bytes end no line", first, line->kind == SUMS_LINE_NONE && line->taken == 0);
    read_piece(state, line, told, list + second, length - second);
    status("end", sums_list_end(state, line), SUMS_OK);
    tell_line(told, line);
    status("end after the end", sums_list_end(state, line), SUMS_OK);
    judged("nothing is begun after the end", length, line->kind == SUMS_LINE_NONE);
}

// A list with lines of each kind, with LF, CR and escapes at both sides of each cut, whose last line has no LF.
static void cuts(void) {
    static const char list[] =
        "# a comment\r\n\n\\2e  a\\\\b\\n\\r\n2e  a\r\r\nnone\n\\\\\n2E *x\r\n"
        "BLAKE2b-8 (abc.txt) = 2e\n"
        "BLAKE2s (c) = 508c5e8c327c14e2e1a72ba34eeb452f37458b209ed63a294d999b4c86675982\n"
        "\nBLAKE2b-16 (c) = 2e\n \\\n2e  \xc3\xa9";
    static const uint32_t kinds[] = {SUMS_LINE_SKIPPED, SUMS_LINE_SKIPPED, SUMS_LINE_ENTRY, SUMS_LINE_ENTRY,
                                     SUMS_LINE_MALFORMED, SUMS_LINE_MALFORMED, SUMS_LINE_ENTRY, SUMS_LINE_ENTRY,
                                     SUMS_LINE_ENTRY, SUMS_LINE_SKIPPED, SUMS_LINE_MALFORMED, SUMS_LINE_MALFORMED,
                                     SUMS_LINE_ENTRY};
    static struct told whole, cut;
    const uint8_t *bytes = (const uint8_t *)list;
    size_t length = sizeof list - 1, at = 0;
    read_cut(&whole, bytes, 0, length, length);
    for (uint64_t number = 1; number <= sizeof kinds / sizeof *kinds; number++) {
        same("number of a line", number, whole.bytes + at, &number, 8);
        same("kind of a line", number, whole.bytes + at + 8, &kinds[number - 1], 4);
        at += 12;
        if (kinds[number - 1] != SUMS_LINE_ENTRY) continue;
        static const char *const names[] = {[3] = "a\\b\n\r", [4] = "a\r", [7] = "x", [8] = "abc.txt", [9] = "c",
                                            [13] = "\xc3\xa9"};
        size_t digest_len = number == 9 ? 32 : 1, name_len = strlen(names[number]);
        uint32_t hash = number == 9 ? SUMS_BLAKE2S : SUMS_BLAKE2B;
        same("hash", number, whole.bytes + at, &hash, 4);
        judged("digest", number, whole.bytes[at + 4] == (number == 9 ? 0x50 : 0x2e));
        same("name", number, whole.bytes + at + 4 + digest_len, names[number], name_len);
        at += 4 + digest_len + name_len;
    }
    judged("no other line", length, at == whole.length);
    for (size_t first = 0; first <= length; first++)
        for (size_t second = first; second <= length; second++) {
            read_cut(&cut, bytes, first, second, length);
            judged("lines of a list in three pieces", first, cut.length == whole.length);
            same("a list in three pieces", first, cut.bytes, whole.bytes, whole.length);
        }
}

// ---- What is written

static const size_t longest[] = {0, 32, 64, 64, 32, 32};
static const char *const labels[] = {"", "SHA256", "SHA512", "BLAKE2b", "BLAKE2s", "BLAKE3"};

static int has_digests(uint32_t hash, size_t len) {
    if (hash < SUMS_SHA256 || hash > SUMS_BLAKE3 || !len || len > longest[hash]) return 0;
    return hash == SUMS_BLAKE2B || hash == SUMS_BLAKE2S || len == longest[hash];
}

static size_t put(uint8_t *out, size_t at, const void *bytes, size_t count) {
    memcpy(out + at, bytes, count);
    return at + count;
}

static size_t put_escaped(uint8_t *out, size_t at, const uint8_t *name, size_t name_len) {
    for (size_t i = 0; i < name_len; i++) {
        const char *escape = name[i] == '\\' ? "\\\\" : name[i] == '\n' ? "\\n" : name[i] == '\r' ? "\\r" : NULL;
        at = escape ? put(out, at, escape, 2) : put(out, at, name + i, 1);
    }
    return at;
}

// The line of an entry as docs/FORMAT.md has it.
static size_t put_line(uint8_t *out, uint32_t hash, int is_tagged, const uint8_t *digest, size_t digest_len,
                       const uint8_t *name, size_t name_len) {
    char digits[129] = "", label[16];
    int is_escaped = 0;
    for (size_t i = 0; i < name_len; i++) is_escaped |= name[i] == '\\' || name[i] == '\n' || name[i] == '\r';
    for (size_t i = 0; i < digest_len; i++) sprintf(digits + 2 * i, "%02x", digest[i]);
    size_t at = put(out, 0, "\\", is_escaped);
    if (!is_tagged) {
        at = put(out, at, digits, 2 * digest_len);
        at = put(out, at, "  ", 2);
        return put(out, put_escaped(out, at, name, name_len), "\n", 1);
    }
    if (digest_len == longest[hash]) sprintf(label, "%s", labels[hash]);
    else sprintf(label, "%s-%zu", labels[hash], 8 * digest_len);
    at = put(out, at, label, strlen(label));
    at = put(out, at, " (", 2);
    at = put_escaped(out, at, name, name_len);
    at = put(out, at, ") = ", 4);
    at = put(out, at, digits, 2 * digest_len);
    return put(out, at, "\n", 1);
}

// Reads a line, whatever the hash of the list, if it is tagged.
static void is_read_back(const uint8_t *bytes, size_t length, uint32_t hash, int is_tagged, const uint8_t *digest,
                         size_t digest_len, const uint8_t *name, size_t name_len) {
    sums_list_state *state = (void *)at_edge(state_area, sizeof *state, 1);
    sums_list_entry *line = (void *)at_edge(line_area, sizeof *line, 1);
    status("init", sums_list_init(state, is_tagged ? below(6) : hash), SUMS_OK);
    status("read", sums_list_read(state, line, bytes, length), SUMS_OK);
    judged("an entry", length, line->kind == SUMS_LINE_ENTRY && line->taken == length && line->number == 1);
    judged("its hash", length, line->hash == hash && line->digest_len == digest_len && line->name_len == name_len);
    same("its digest", length, line->digest, digest, digest_len);
    same("its name", length, line->name, name, name_len);
}

static void written(uint32_t hash, uint32_t is_tagged, size_t digest_len, const void *name, size_t name_len) {
    static uint8_t want[2 * LIMIT + 300], digest[64];
    any_bytes(digest, sizeof digest);
    size_t length = put_line(want, hash, is_tagged != 0, digest, digest_len, name, name_len);
    const uint8_t *bytes = at_end(name, name_len);
    judged("length of a line", name_len, sums_list_line_length(hash, is_tagged, digest_len, bytes, name_len) == length);
    uint8_t *out = output(length);
    status("line", sums_list_line(out, length, hash, is_tagged, digest, digest_len, bytes, name_len), SUMS_OK);
    same("line", name_len, out, want, length);
    is_read_back(want, length, hash, is_tagged != 0, digest, digest_len, name, name_len);
    size_t wrong[] = {0, 1, length - 1, length + 1, length + 65536};
    for (size_t i = 0; i < sizeof wrong / sizeof *wrong; i++) {
        out = output(wrong[i]);
        status("line of another length",
               sums_list_line(out, wrong[i], hash, is_tagged, digest, digest_len, bytes, name_len), SUMS_OUTPUT_LENGTH);
        untouched("line of another length", out, wrong[i]);
    }
}

// A line that is refused, whatever the room for it.
static void not_written(uint32_t want, uint32_t hash, uint32_t is_tagged, size_t digest_len, const void *name,
                        size_t name_len) {
    static const uint8_t digest[80];
    const uint8_t *bytes = at_end(name, name_len);
    judged("length of no line", name_len, sums_list_line_length(hash, is_tagged, digest_len, bytes, name_len) == 0);
    for (size_t room = 0; room < 200; room += room < 4 ? 1 : 50) {
        uint8_t *out = output(room);
        status("no line", sums_list_line(out, room, hash, is_tagged, digest, digest_len, bytes, name_len), want);
        untouched("no line", out, room);
    }
}

// Each hash and number about it, with a digest of each length about those that it has.
static void lines_of_hashes(void) {
    static const uint32_t hashes[] = {0, 1, 2, 3, 4, 5, 6, 7, 256, 257, 65537, UINT32_MAX};
    static const uint32_t tags[] = {0, 1, 2, 256, UINT32_MAX};
    for (size_t i = 0; i < sizeof hashes / sizeof *hashes; i++)
        for (size_t t = 0; t < sizeof tags / sizeof *tags; t++)
            for (size_t len = 0; len <= 66; len++)
                if (hashes[i] < 1 || hashes[i] > 5) not_written(SUMS_NO_HASH, hashes[i], tags[t], len, "", 0);
                else if (has_digests(hashes[i], len)) written(hashes[i], tags[t], len, "a b", 3);
                else not_written(SUMS_DIGEST_LENGTH, hashes[i], tags[t], len, "", 0);
    for (uint32_t hash = 1; hash <= 5; hash++)
        judged("a digest of more bytes than are", hash,
               !sums_list_line_length(hash, 1, SIZE_MAX, (const uint8_t *)"a", 1) &&
                   !sums_list_line_length(hash, 0, (UINT64_C(1) << 32) + 32, (const uint8_t *)"a", 1));
}

static const struct name {
    const char *bytes;
    size_t length;
} some_names[] = {{"a", 1}, {" ", 1}, {"\\", 1}, {"\n", 1}, {"\r", 1}, {"a\\n\r\nb", 6}, {"a) = b", 6}, {"#", 1},
                  {"\xc3\xa9\xe2\x82\xac\xf0\x9f\x98\x80", 9}, {"\xf4\x8f\xbf\xbf", 4}, {"\xed\x9f\xbf", 3},
                  {"\x7f\x01", 2}},
  no_names[] = {{"", 0}, {"\0", 1}, {"a\0", 2}, {"a\0b", 3}};
// What is not UTF-8: bytes that stand alone, torn, too long, of a surrogate, and past U+10FFFF.
static const struct name no_utf8[] = {{"\x80", 1}, {"a\xff", 2}, {"\xc3", 1}, {"a\xe2\x82", 3}, {"\xf0\x9f\x98", 3},
                                      {"\xc0\xaf", 2}, {"\xe0\x80\xaf", 3}, {"\xed\xa0\x80", 3},
                                      {"\xf4\x90\x80\x80", 4}, {"\xf8\x88\x80\x80\x80", 5}, {"\xc3\xa9\xa9", 3}};
#define EACH(names) size_t n = 0; n < sizeof names / sizeof *names; n++

static void lines_of_names(void) {
    for (uint32_t hash = 1; hash <= 5; hash++)
        for (uint32_t is_tagged = 0; is_tagged < 2; is_tagged++) {
            for (EACH(some_names)) written(hash, is_tagged, longest[hash], some_names[n].bytes, some_names[n].length);
            for (EACH(no_names))
                not_written(SUMS_NO_LINE, hash, is_tagged, longest[hash], no_names[n].bytes, no_names[n].length);
            for (EACH(no_utf8))
                not_written(SUMS_NO_LINE, hash, is_tagged, longest[hash], no_utf8[n].bytes, no_utf8[n].length);
        }
}

// Names of plain bytes and of escapes, whose line is as long as a line may be, and one byte longer.
static void longest_lines(void) {
    static uint8_t plain[LIMIT + 4], escapes[LIMIT + 4];
    memset(plain, 'n', sizeof plain);
    memset(escapes, '\\', sizeof escapes);
    for (uint32_t hash = 1; hash <= 5; hash++)
        for (size_t len = 1; len <= 64; len++)
            for (uint32_t is_tagged = 0; is_tagged < 2; is_tagged++) {
                if (!has_digests(hash, len) || (len % 8 && len != 1)) continue;
                static uint8_t line[400];
                size_t around = put_line(line, hash, is_tagged, plain, len, plain, 1) - 2, most = LIMIT - around;
                written(hash, is_tagged, len, plain, most);
                not_written(SUMS_NO_LINE, hash, is_tagged, len, plain, most + 1);
                written(hash, is_tagged, len, escapes, (most - 1) / 2);
                not_written(SUMS_NO_LINE, hash, is_tagged, len, escapes, (most - 1) / 2 + 1);
                not_written(SUMS_NO_LINE, hash, is_tagged, len, escapes, sizeof escapes);
            }
}

// ---- Reports

static void reported(uint32_t verdict, const char *text, const void *name, size_t name_len) {
    static uint8_t want[2 * LIMIT + 20];
    size_t length = put_escaped(want, 0, name, name_len);
    length = put(want, length, text, strlen(text));
    const uint8_t *bytes = at_end(name, name_len);
    judged("length of a report", name_len, sums_list_report_length(verdict, bytes, name_len) == length);
    uint8_t *out = output(length);
    status("report", sums_list_report(out, length, verdict, bytes, name_len), SUMS_OK);
    same("report", name_len, out, want, length);
    size_t wrong[] = {0, length - 1, length + 1, length + 65536};
    for (size_t i = 0; i < sizeof wrong / sizeof *wrong; i++) {
        out = output(wrong[i]);
        status("report of another length", sums_list_report(out, wrong[i], verdict, bytes, name_len),
               SUMS_OUTPUT_LENGTH);
        untouched("report of another length", out, wrong[i]);
    }
}

static void not_reported(uint32_t want, uint32_t verdict, const void *name, size_t name_len) {
    const uint8_t *bytes = at_end(name, name_len);
    judged("length of no report", name_len, sums_list_report_length(verdict, bytes, name_len) == 0);
    for (size_t room = 0; room < 4; room++) {
        uint8_t *out = output(room);
        status("no report", sums_list_report(out, room, verdict, bytes, name_len), want);
        untouched("no report", out, room);
    }
}

static void reports(void) {
    static const char *const texts[] = {"", ": OK\n", ": FAILED\n", ": MISSING\n", ": UNREADABLE\n", ": TOO LONG\n"};
    static const uint32_t none[] = {0, 6, 7, 257, UINT32_MAX};
    static uint8_t long_name[LIMIT + 1];
    for (uint32_t verdict = SUMS_VERDICT_OK; verdict <= SUMS_VERDICT_TOO_LONG; verdict++) {
        for (EACH(some_names)) reported(verdict, texts[verdict], some_names[n].bytes, some_names[n].length);
        for (EACH(no_names)) reported(verdict, texts[verdict], no_names[n].bytes, no_names[n].length);
        for (EACH(no_utf8)) not_reported(SUMS_NO_LINE, verdict, no_utf8[n].bytes, no_utf8[n].length);
        memset(long_name, verdict % 2 ? 'n' : '\\', sizeof long_name);
        reported(verdict, texts[verdict], long_name, LIMIT);
        not_reported(SUMS_NO_LINE, verdict, long_name, LIMIT + 1);
    }
    for (size_t i = 0; i < sizeof none / sizeof *none; i++)
        for (EACH(no_utf8)) not_reported(SUMS_NO_VERDICT, none[i], no_utf8[n].bytes, no_utf8[n].length);
}

// ---- States that hold anything

static void inits(void) {
    static const uint32_t none[] = {6, 7, 8, 256, 257, UINT32_MAX};
    sums_list_state *state = (void *)at_edge(state_area, sizeof *state, 1);
    static sums_list_state before;
    any_bytes(&before, sizeof before);
    for (size_t i = 0; i < sizeof none / sizeof *none; i++) {
        *state = before;
        status("init", sums_list_init(state, none[i]), SUMS_NO_HASH);
        same("init, refused", 0, state, &before, sizeof before);
    }
    for (uint32_t hash = SUMS_ANY; hash <= SUMS_BLAKE3; hash++) {
        *state = before;
        status("init", sums_list_init(state, hash), SUMS_OK);
        judged("what a list begins with", hash, state->lines == 0 && state->held == 0 && state->mark == 1 + hash);
    }
}

// What can stand in a line that is told: its numbers are within their bounds, and only an entry has others than before.
static void is_told(const sums_list_entry *line, const sums_list_entry *before, size_t length) {
    judged("a kind", length, line->kind <= SUMS_LINE_ENTRY);
    judged("bytes taken", length, line->taken <= length);
    if (line->kind != SUMS_LINE_ENTRY) {
        size_t front = offsetof(sums_list_entry, hash);
        same("what follows the kind", length, &line->hash, &before->hash, sizeof *line - front);
        return;
    }
    judged("an entry", length, has_digests(line->hash, line->digest_len));
    judged("its name", length, line->name_len && line->name_len <= LIMIT - 4 && !memchr(line->name, 0, line->name_len));
}

// A state and a line that hold anything: what is refused leaves them as they were, and nothing outside is touched.
static void answers(const sums_list_state *content, const uint8_t *piece, size_t length, int at_its_end) {
    static sums_list_entry before;
    sums_list_state *state = (void *)at_edge(state_area, sizeof *state, (int)below(2));
    sums_list_entry *line = (void *)at_edge(line_area, sizeof *line, (int)below(2));
    *state = *content;
    any_bytes(&before, offsetof(sums_list_entry, digest));
    *line = before;
    int is_begun = content->mark >= 1 && content->mark <= 6;
    uint32_t want = !is_begun ? SUMS_NOT_BEGUN : content->lines == UINT64_MAX ? SUMS_INPUT_TOO_LONG : SUMS_OK;
    const uint8_t *bytes = at_end(piece, length);
    uint32_t got = at_its_end ? sums_list_end(state, line) : sums_list_read(state, line, bytes, length);
    status("a state that holds anything", got, want);
    if (want != SUMS_OK) {
        same("a state, refused", length, state, content, sizeof *state);
        same("a line, refused", length, line, &before, sizeof *line);
        return;
    }
    is_told(line, &before, length);
    judged("the mark", length, state->mark == content->mark);
    judged("the number of lines", length, state->lines == content->lines + (line->kind != SUMS_LINE_NONE));
    judged("the number of a line", length, line->kind == SUMS_LINE_NONE || line->number == state->lines);
    if (content->held > LIMIT && line->kind != SUMS_LINE_NONE)
        judged("a line that is too long", length, line->kind == SUMS_LINE_MALFORMED);
}

static void states(void) {
    static const uint64_t held[] = {0, 1, 65, 66, 70, LIMIT - 1, LIMIT, LIMIT + 1, UINT32_MAX, (UINT64_C(1) << 32) + 1,
                                    INT64_MAX, UINT64_MAX - 1, UINT64_MAX};
    static const uint64_t lines[] = {0, 1, UINT64_MAX - 1, UINT64_MAX};
    static const char digits[] = "ba7816bf8f01cfea414140de5dae2223b00361a396177a9cb410ff61f20015ad  name";
    static const char *const pieces[] = {"", "x", "\n", "abc\nx", "  abc\n", " (x) = 2e\n"};
    static sums_list_state content;
    answers(&content, (const uint8_t *)"\n", 1, 0);
    answers(&content, NULL, 0, 1);
    for (int round = 0; round < 4; round++)
        for (uint64_t mark = 0; mark <= 8; mark++)
            for (size_t h = 0; h < sizeof held / sizeof *held; h++)
                for (size_t l = 0; l < sizeof lines / sizeof *lines; l++) {
                    if (round % 2) memset(content.line, 'a', sizeof content.line);
                    else if (mark == 4) any_bytes(content.line, sizeof content.line);
                    if (round > 1) memcpy(content.line, digits, sizeof digits - 1);
                    content.lines = lines[l], content.held = held[h], content.mark = mark == 8 ? UINT64_MAX : mark;
                    const char *piece = pieces[below(6)];
                    answers(&content, (const uint8_t *)piece, strlen(piece), 0);
                    answers(&content, NULL, 0, 1);
                }
    for (int round = 0; round < 300; round++) {
        any_bytes(&content, sizeof content);
        if (round % 2) content.mark = below(8);
        if (round % 4 == 1) content.held = below(LIMIT + 2);
        answers(&content, (const uint8_t *)"  a\n", 4, round % 3 == 0);
    }
}

// Lists of random bytes, of few that a grammar has, in pieces of any length, read into memory that holds anything.
static void random_lists(void) {
    static const char letters[] = "0123456789abcdefABCDEF  **()=-\\nr\r\n\nSHA256BLAKE2bs3#\0\xc3\xa9";
    static sums_list_entry before;
    static uint8_t piece[300];
    sums_list_state *state = (void *)at_edge(state_area, sizeof *state, 1);
    sums_list_entry *line = (void *)at_edge(line_area, sizeof *line, 1);
    for (uint32_t round = 0; round < 3000; round++) {
        if (round % 100 == 0) status("init", sums_list_init(state, round / 100 % 6), SUMS_OK);
        size_t length = below(sizeof piece) + 1;
        for (size_t i = 0; i < length; i++) piece[i] = (uint8_t)letters[below(sizeof letters - 1)];
        any_bytes(line, offsetof(sums_list_entry, digest));
        before = *line;
        status("read", sums_list_read(state, line, at_end(piece, length), length), SUMS_OK);
        is_told(line, &before, length);
    }
}

int main(void) {
    out_area = area(), state_area = area(), line_area = area(), piece_area = area();
    cuts();
    lines_of_hashes();
    lines_of_names();
    longest_lines();
    reports();
    inits();
    states();
    random_lists();
    return ends("lists");
}
