/* The byte sum of liboctets_c.a beside a plain one (N-6): every length of up to four blocks at each of 16 alignments, the lengths around
 * every edge of a block up to 256 KiB, and bytes of 0xFF around the lengths at which a total of 32 bits wraps, up to the largest image. */
#include <stddef.h>
#include <stdint.h>
#include <stdio.h>
#include <stdlib.h>
#include <string.h>

/* crates/octets_c: the bytes as a pointer, never null, and their number. */
uint32_t octets_byte_sum(const uint8_t *bytes, size_t size);

enum {
    BLOCK = 256,                /* bytes that the library sums in 16 bits */
    EDGES = 1024,               /* edges of blocks that are tried */
    ALIGNMENTS = 16,            /* bytes of a vector */
    BEFORE_WRAP = 16843009,     /* bytes of 0xFF whose sum is 4,294,967,295 */
    LARGEST = 268435456         /* bytes of the largest image */
};

static unsigned long compared = 0, failures = 0;

/* The exact sum, reduced once. */
static uint32_t plain_sum(const uint8_t *bytes, size_t size) {
    uint64_t total = 0;
    for (size_t i = 0; i < size; i++) {
        total += bytes[i];
    }
    return (uint32_t)(total % (UINT64_C(1) << 32));
}

static void expect(const char *what, const uint8_t *bytes, size_t size, uint32_t wanted) {
    uint32_t found = octets_byte_sum(bytes, size);
    compared++;
    if (found != wanted) {
        printf("tests/sums.c: %zu %s: %lu, not %lu\n", size, what, (unsigned long)found, (unsigned long)wanted);
        failures++;
    }
}

static void compare(const char *what, const uint8_t *bytes, size_t size) { expect(what, bytes, size, plain_sum(bytes, size)); }

/* The length, the one before it and the one behind it. */
static void compare_around(const char *what, const uint8_t *bytes, size_t size) {
    for (size_t near = size - 1; near <= size + 1; near++) {
        compare(what, bytes, near);
    }
}

static void short_lengths(const uint8_t *bytes) {
    for (size_t start = 0; start < ALIGNMENTS; start++) {
        for (size_t size = 0; size <= 4 * BLOCK + ALIGNMENTS; size++) {
            compare("mixed bytes", bytes + start, size);
        }
    }
}

static void block_edges(const char *what, const uint8_t *bytes) {
    for (size_t edge = 1; edge <= EDGES; edge++) {
        compare_around(what, bytes, edge * BLOCK);
    }
}

/* Around the first, second and last length at which the total wraps, and around the block's edge below each. */
static void wraps(const uint8_t *full) {
    const size_t lengths[] = {BEFORE_WRAP, 2 * (size_t)BEFORE_WRAP, LARGEST / BEFORE_WRAP * (size_t)BEFORE_WRAP};
    for (size_t i = 0; i < sizeof lengths / sizeof *lengths; i++) {
        compare_around("bytes of 0xFF", full, lengths[i] + 1);
        compare_around("bytes of 0xFF", full, lengths[i] / BLOCK * BLOCK);
    }
    compare("bytes of 0xFF", full, LARGEST);
}

/* What is known without a sum. */
static void known(const uint8_t *full) {
    expect("bytes of 0xFF", full, 4, 1020);
    expect("bytes of 0xFF", full, BEFORE_WRAP, 4294967295u);
    expect("bytes of 0xFF", full, 16843010, 254);
    expect("bytes of 0xFF", full, LARGEST, 4026531840u);
}

int main(void) {
    static uint8_t mixed[EDGES * BLOCK + BLOCK];
    uint8_t *full = malloc(LARGEST);
    uint32_t state = 1;
    if (full == NULL) {
        printf("tests/sums.c: no memory for %d bytes\n", LARGEST);
        return 1;
    }
    for (size_t i = 0; i < sizeof mixed; i++) {
        state = state * 1664525u + 1013904223u;
        mixed[i] = (uint8_t)(state >> 24);
    }
    memset(full, 0xFF, LARGEST);

    short_lengths(mixed);
    block_edges("mixed bytes", mixed);
    block_edges("bytes of 0xFF", full);
    wraps(full);
    known(full);
    free(full);
    if (failures == 0) {
        printf("the byte sum by itself: %lu sums as a plain sum gives them; 16,843,010 bytes of 0xFF give 254\n", compared);
    }
    return failures != 0;
}
