/* Prints each sector of a DSK image, in the order of the file: its identity C, H, R, N, and the file offset and length of its data.
 *
 *     cc -Iinclude host/examples/sectors.c crates/dsk_c/out/libdsk_c.a -o sectors
 *     ./sectors FILE */
#include "dsk.h"

#include <errno.h>
#include <stdio.h>
#include <stdlib.h>
#include <string.h>

/* Says what is wrong and ends. */
static void fail(const char *what, const char *why) {
    fprintf(stderr, "sectors: %s: %s\n", what, why);
    exit(1);
}

/* Ends where the library refused. */
static void check(const char *file, uint64_t code) {
    if (code != DSK_ACCEPTED) {
        fprintf(stderr, "sectors: %s: refused %u at %llu (enum dsk_refusal in dsk.h says why)\n", file, dsk_refusal_number(code),
                (unsigned long long)dsk_refusal_position(code));
        exit(1);
    }
}

/* The bytes of a file; of one that is longer than all blocks can be, no more than these. */
static uint8_t *contents(const char *name, size_t *size) {
    const size_t most = 256 + (size_t)255 * 2 * 65535;
    uint8_t *bytes = (uint8_t *)malloc(most);
    if (bytes == NULL) fail("memory", "there is not enough");
    FILE *file = fopen(name, "rb");
    if (file == NULL) fail(name, strerror(errno));
    *size = fread(bytes, 1, most, file);
    if (ferror(file)) fail(name, strerror(errno));
    fclose(file);
    return bytes;
}

/* Prints the sectors of a block. */
static void print(const char *file, const uint8_t *image, size_t size, uint32_t track, uint32_t side) {
    uint64_t block[4], sector[8];
    check(file, dsk_block(image, size, track, side, block, 4));
    for (uint32_t index = 0; index < block[0]; index++) {
        check(file, dsk_sector(image, size, track, side, index, sector, 8));
        printf("track %u side %u sector %u: C %u H %u R %u N %u offset %llu length %llu\n", (unsigned)track, (unsigned)side,
               (unsigned)index, (unsigned)sector[0], (unsigned)sector[1], (unsigned)sector[2], (unsigned)sector[3],
               (unsigned long long)sector[6], (unsigned long long)sector[7]);
    }
}

int main(int count, char **words) {
    if (count != 2) {
        fprintf(stderr, "usage: sectors FILE\n");
        return 2;
    }
    size_t size;
    uint64_t geometry[3];
    uint8_t *image = contents(words[1], &size);
    check(words[1], dsk_geometry(image, size, geometry, 3));
    for (uint32_t track = 0; track < geometry[0]; track++) {
        for (uint32_t side = 0; side < geometry[1]; side++) print(words[1], image, size, track, side);
    }
    free(image);
    return 0;
}
