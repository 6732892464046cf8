/* Calls every function of dsk.h, from C99 and from C++: on a small image, on refused ones, and with too few places. Stores the small image
 * in the file that it is given, if any. */
#include "dsk.h"

#include <stdio.h>
#include <string.h>

enum { TRACK_SIZE = 512, SIZE = 256 + 4 * TRACK_SIZE, DATA = 8 * 128 };

static int failures = 0;

/* Says which expectation does not hold. */
static void expect(int holds, int line) {
    if (!holds) {
        printf("tests/dsk_header.c:%d does not hold\n", line);
        failures++;
    }
}
#define EXPECT(holds) expect((holds), __LINE__)

/* A block with two sectors of 128 bytes, whose bytes are all one number. */
static void make_block(uint8_t *block, uint8_t track, uint8_t side) {
    const uint8_t numbers[4] = {0, 2, 0x4E, 0xE5}; /* N, sectors, gap, filler */
    memcpy(block, "Track-Info\r\n", 12);
    block[0x10] = track;
    block[0x11] = side;
    memcpy(block + 0x14, numbers, sizeof numbers);
    for (uint8_t i = 0; i < 2; i++) {
        const uint8_t sector[6] = {track, side, (uint8_t)(0xC1 + i), 0, 0x20, 0x40};
        memcpy(block + 0x18 + 8 * i, sector, sizeof sector);
        memset(block + 256 + 128 * i, 16 * (2 * track + side) + i, 128);
    }
}

/* Two tracks, two sides. */
static void make_image(uint8_t *image) {
    memset(image, 0, SIZE);
    memcpy(image, "MV - CPCEMU Disk-File\r\nDisk-Info\r\n", 34);
    image[0x30] = 2;
    image[0x31] = 2;
    image[0x32] = TRACK_SIZE % 256;
    image[0x33] = TRACK_SIZE / 256;
    for (uint8_t i = 0; i < 4; i++) make_block(image + 256 + TRACK_SIZE * i, i / 2, i % 2);
}

static void ask(const uint8_t *image) {
    uint64_t out[9];
    EXPECT(dsk_validate(image, SIZE) == DSK_ACCEPTED);
    EXPECT(dsk_geometry(image, SIZE, out, 3) == 0 && out[0] == 2 && out[1] == 2 && out[2] == TRACK_SIZE);
    EXPECT(dsk_block(image, SIZE, 1, 0, out, 4) == 0 && out[0] == 2 && out[1] == 0 && out[2] == 0x4E && out[3] == 0xE5);
    out[8] = 7;
    EXPECT(dsk_sector(image, SIZE, 1, 0, 1, out, 9) == 0 && out[8] == 7);
    EXPECT(out[0] == 1 && out[1] == 0 && out[2] == 0xC2 && out[3] == 0 && out[4] == 0x20 && out[5] == 0x40);
    EXPECT(out[6] == 256 + 2 * TRACK_SIZE + 256 + 128 && out[7] == 128);
    EXPECT(image[out[6] - 1] == 0x20 && image[out[6]] == 0x21 && image[out[6] + out[7] - 1] == 0x21);
}

/* What is not there, and too few places, which comes last; nothing is written then. */
static void ask_in_vain(const uint8_t *image) {
    uint64_t out[8] = {7, 7, 7, 7, 7, 7, 7, 7};
    EXPECT(dsk_block(image, SIZE, 2, 0, out, 4) == DSK_REFUSED_ABSENT && dsk_block(image, SIZE, 0, 2, out, 0) == DSK_REFUSED_ABSENT);
    EXPECT(dsk_sector(image, SIZE, 2, 0, 2, out, 8) == DSK_REFUSED_ABSENT && dsk_sector(image, SIZE, 0, UINT32_MAX, 0, out, 0) == DSK_REFUSED_ABSENT);
    EXPECT(dsk_sector(image, SIZE, 1, 1, 2, out, 8) == DSK_REFUSED_SECTOR && dsk_sector(image, SIZE, 1, 1, UINT32_MAX, out, 0) == DSK_REFUSED_SECTOR);
    EXPECT(dsk_geometry(image, SIZE, out, 2) == DSK_REFUSED_PLACES && dsk_geometry(image, SIZE - 1, out, 2) == DSK_REFUSED_LENGTH);
    EXPECT(dsk_block(image, SIZE, 1, 1, out, 3) == DSK_REFUSED_PLACES && dsk_block(image, SIZE - 1, 1, 1, out, 3) == DSK_REFUSED_LENGTH);
    EXPECT(dsk_sector(image, SIZE, 1, 1, 1, out, 7) == DSK_REFUSED_PLACES && dsk_sector(image, SIZE - 1, 1, 1, 1, out, 7) == DSK_REFUSED_LENGTH);
    for (int i = 0; i < 8; i++) EXPECT(out[i] == 7);
}

/* Whether every function refuses the image with the number, at the position. */
static int refused(const uint8_t *image, size_t size, unsigned number, uint64_t position) {
    uint64_t out[8];
    const uint64_t code = dsk_validate(image, size);
    return dsk_refusal_number(code) == number && dsk_refusal_position(code) == position && dsk_geometry(image, size, out, 3) == code &&
           dsk_block(image, size, 0, 0, out, 4) == code && dsk_sector(image, size, 0, 0, 0, out, 8) == code;
}

/* The same with another byte at a place. */
static int refused_with(uint8_t *image, size_t place, uint8_t value, unsigned number, uint64_t position) {
    const uint8_t old = image[place];
    image[place] = value;
    const int holds = refused(image, SIZE, number, position);
    image[place] = old;
    return holds;
}

static void damage(uint8_t *image) {
    const size_t block = 256 + 3 * TRACK_SIZE;
    EXPECT(refused(image, 0, DSK_REFUSED_SIGN, 0) && refused(image, 7, DSK_REFUSED_SIGN, 0) && refused_with(image, 7, 'c', DSK_REFUSED_SIGN, 0));
    EXPECT(refused(image, 8, DSK_REFUSED_LENGTH, 0) && refused(image, 255, DSK_REFUSED_LENGTH, 0) && refused(image, SIZE - 1, DSK_REFUSED_LENGTH, 0));
    EXPECT(refused_with(image, 0x30, 0, DSK_REFUSED_GEOMETRY, 0) && refused_with(image, 0x30, 3, DSK_REFUSED_LENGTH, 0));
    EXPECT(refused_with(image, 0x31, 0, DSK_REFUSED_GEOMETRY, 0) && refused_with(image, 0x31, 3, DSK_REFUSED_GEOMETRY, 0));
    EXPECT(refused_with(image, 0x33, 0, DSK_REFUSED_GEOMETRY, 0));
    EXPECT(refused_with(image, block + 11, 0, DSK_REFUSED_BLOCK, 3) && refused_with(image, block + 0x10, 0, DSK_REFUSED_BLOCK, 3));
    EXPECT(refused_with(image, block + 0x11, 0, DSK_REFUSED_BLOCK, 3) && refused_with(image, block + 0x14, 7, DSK_REFUSED_SECTORS, 3));
    EXPECT(refused_with(image, 256 + 0x15, 30, DSK_REFUSED_SECTORS, 0) && refused_with(image, block + 0x23, 1, DSK_REFUSED_SECTORS, 3));
    EXPECT(refused_with(image, block + 0x15, 3, DSK_REFUSED_DATA, 3) && refused_with(image, block + 0x14, 1, DSK_REFUSED_DATA, 3));
    image[0x31] = 3; /* the length of the first 256 bytes comes before the geometry in them */
    EXPECT(refused(image, 255, DSK_REFUSED_LENGTH, 0) && refused(image, 256, DSK_REFUSED_GEOMETRY, 0));
    image[0x31] = 2;
    EXPECT(dsk_validate(image, SIZE) == DSK_ACCEPTED);
}

/* What images are written of: the data of the small image, and one byte more; its numbers, and the same without sectors. */
static const uint8_t creator[15] = "a test in C.  ";
static uint8_t data[DATA + 1];
static const uint32_t small[6] = {2, 2, 2, 0, 0x4E, 0xE5}, bare[6] = {2, 2, 0, 0, 0x4E, 0xE5};

static uint64_t write_image(const uint32_t *numbers, size_t creator_size, size_t data_size, uint8_t *image, size_t size, uint64_t *out,
                            size_t places) {
    return dsk_write(creator, creator_size, numbers[0], numbers[1], numbers[2], numbers[3], numbers[4], numbers[5], data, data_size, image,
                     size, out, places);
}

/* Makes of the small image the one that is written of its data: with a creator, sectors from 1 on, and status bytes 0. */
static void make_written(uint8_t *image) {
    memcpy(image + 0x22, creator, 14);
    for (int i = 0; i < 4; i++) {
        uint8_t *block = image + 256 + TRACK_SIZE * i;
        memcpy(data + 256 * i, block + 256, 256);
        for (uint8_t k = 0; k < 2; k++) {
            const uint8_t sector[4] = {(uint8_t)(1 + k), 0, 0, 0}; /* R, N, ST1, ST2 */
            memcpy(block + 0x18 + 8 * k + 2, sector, sizeof sector);
        }
    }
}

/* Whether all of so many bytes have the value. */
static int all(const uint8_t *bytes, size_t size, uint8_t value) {
    while (size > 0 && bytes[size - 1] == value) size--;
    return size == 0;
}

/* An image is written over old bytes, which stay beyond it, and read back. */
static void write_and_read(const uint8_t *due) {
    static uint8_t image[SIZE + 9];
    uint64_t out[8] = {7, 7};
    memset(image, 0xA7, sizeof image);
    EXPECT(write_image(small, 14, DATA, image, sizeof image, out, 2) == DSK_ACCEPTED && out[0] == SIZE && out[1] == 7);
    EXPECT(memcmp(image, due, SIZE) == 0 && all(image + SIZE, 9, 0xA7));
    EXPECT(dsk_validate(image, sizeof image) == DSK_ACCEPTED);
    for (uint32_t i = 0; i < 8; i++) {
        EXPECT(dsk_sector(image, sizeof image, i / 4, i / 2 % 2, i % 2, out, 8) == DSK_ACCEPTED);
        EXPECT(out[0] == i / 4 && out[1] == i / 2 % 2 && out[2] == 1 + i % 2 && out[3] == 0 && out[4] == 0 && out[5] == 0);
        EXPECT(out[7] == 128 && memcmp(image + out[6], data + 128 * i, 128) == 0);
    }
    memset(image, 0xA7, sizeof image); /* no more bytes than are needed, and then no sectors */
    EXPECT(write_image(small, 14, DATA, image, SIZE, out, 1) == DSK_ACCEPTED && memcmp(image, due, SIZE) == 0 && all(image + SIZE, 9, 0xA7));
    EXPECT(write_image(bare, 14, 0, image, SIZE, out, 1) == DSK_ACCEPTED && out[0] == 5 * 256);
    EXPECT(memcmp(image + 5 * 256, due + 5 * 256, SIZE - 5 * 256) == 0);
}

/* What no image is written of, which comes first, and too few bytes or places; nothing is written then. */
static void write_in_vain(void) {
    const uint32_t wrong[6] = {256, 3, 30, 6, 256, 256};
    static uint8_t image[SIZE];
    uint64_t out[1] = {7};
    memset(image, 0xA7, SIZE);
    for (int i = 0; i < 6; i++) {
        uint32_t numbers[6];
        memcpy(numbers, bare, sizeof numbers);
        numbers[i] = wrong[i];
        EXPECT(write_image(numbers, 14, 0, image, SIZE, out, 1) == DSK_REFUSED_LAYOUT);
        numbers[i] = bare[i] + (1U << 31);
        EXPECT(write_image(numbers, 14, 0, image, 0, out, 0) == DSK_REFUSED_LAYOUT);
    }
    EXPECT(write_image(small, 13, DATA, image, SIZE, out, 1) == DSK_REFUSED_LAYOUT);
    EXPECT(write_image(small, 15, DATA, image, 0, out, 1) == DSK_REFUSED_LAYOUT);
    EXPECT(write_image(small, 14, DATA - 1, image, SIZE, out, 1) == DSK_REFUSED_LAYOUT);
    EXPECT(write_image(small, 14, DATA + 1, image, 0, out, 0) == DSK_REFUSED_LAYOUT);
    EXPECT(write_image(small, 14, DATA, image, SIZE - 1, out, 1) == DSK_REFUSED_PLACES);
    EXPECT(write_image(small, 14, DATA, image, SIZE, out, 0) == DSK_REFUSED_PLACES);
    EXPECT(write_image(small, 14, DATA, image, 0, out, 0) == DSK_REFUSED_PLACES);
    EXPECT(all(image, SIZE, 0xA7) && out[0] == 7);
}

/* Stores the image in a file. */
static void store(const uint8_t *image, const char *name) {
    FILE *file = fopen(name, "wb");
    EXPECT(file != NULL && fwrite(image, 1, SIZE, file) == SIZE && fclose(file) == 0);
}

int main(int count, char **words) {
    static uint8_t image[SIZE];
    make_image(image);
    ask(image);
    ask_in_vain(image);
    damage(image);
    if (count > 1) {
        store(image, words[1]);
    }
    make_written(image);
    write_and_read(image);
    write_in_vain();
    if (failures == 0) {
        printf("include/dsk.h: every function called, as expected\n");
    }
    return failures != 0;
}
