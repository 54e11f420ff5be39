/* Prints the root of a file's Merkle tree as BitTorrent v2 has it (BEP 52, "pieces root"). The leaves are the SHA-256
 * digests of blocks of 16 KiB, and each node above is that of its two.
 * cc merkle.c $(pkg-config --cflags --libs sums_hash) && ./a.out FILE
 * SPDX-License-Identifier: MIT OR Apache-2.0 */
#include <fcntl.h>
#include <stdio.h>
#include <stdlib.h>
#include <string.h>
#include <sums_hash.h>
#include <sys/mman.h>
#include <sys/stat.h>
#include <unistd.h>

enum { BLOCK = 16384, DIGEST = 32 };

/* The root of one byte or more: 0 if there is no memory for the leaves. */
static int merkle_root(uint8_t root[DIGEST], const uint8_t *data, size_t length) {
    size_t leaves = (length - 1) / BLOCK + 1, width = 1;
    while (width < leaves) width *= 2;
    /* two layers, each made of the other in turn; in the first, leaves of zeros fill up a power of two */
    uint8_t *layer = calloc(width, DIGEST), *other = calloc(width, DIGEST);
    int made = layer && other && sums_sha256_pieces(layer, leaves * DIGEST, data, length, BLOCK) == SUMS_OK;
    for (; made && width > 1; width /= 2) {
        uint8_t *below = layer;
        layer = other;
        other = below;
        made = sums_sha256_pieces(layer, width / 2 * DIGEST, below, width * DIGEST, 2 * DIGEST) == SUMS_OK;
    }
    if (made) memcpy(root, layer, DIGEST);
    free(layer);
    free(other);
    return made;
}

int main(int count, char **words) {
    struct stat file;
    int opened = count == 2 ? open(words[1], O_RDONLY) : -1;
    if (opened < 0 || fstat(opened, &file) != 0 || file.st_size == 0) {
        fprintf(stderr, "name a file that has bytes\n");
        return 2;
    }
    size_t length = (size_t)file.st_size;
    const uint8_t *data = mmap(NULL, length, PROT_READ, MAP_PRIVATE, opened, 0);
    uint8_t root[DIGEST];
    if (data == MAP_FAILED || !merkle_root(root, data, length)) return 1;
    for (size_t i = 0; i < DIGEST; i++) printf("%02x", root[i]);
    printf("\n");
    return 0;
}
