/* Standard DSK disk images: the proved library as C functions.
 *
 * Link with libdsk_c.a, which `rt lib` in crates/dsk_c proves and builds (x86-64). C99 and C++.
 *
 * Every function answers for every image and every argument, and ends. It returns 0, or a refusal: its number (enum dsk_refusal)
 * + 256 x its position; see dsk_refusal_number and dsk_refusal_position. On a refusal every lent buffer holds what it held. On success a
 * buffer that is written to holds the answer at its start and keeps its old contents beyond. Where the answer needs more places than were lent, the refusal is 15;
 * every other refusal comes before it.
 *
 * An array passes as a pointer and the number of its elements. A pointer is never null and is aligned for its type, even where the
 * number is 0. The arrays of one call do not overlap; nobody else writes them meanwhile.
 *
 * A block is what the image has of one side of one track; its index is track x sides + side. Tracks, sides, and sectors in their block
 * count from 0; a number that is not there has its refusal.
 *
 * The order of refusals is not that of their numbers: 30; 32 below 256 bytes; 31; 32 for the whole; then block by block, in file order,
 * 33, 34, 35; then 13, 14, and last 15. Writing has 41, and last 15. */
#ifndef DSK_H
#define DSK_H

#include <stddef.h>
#include <stdint.h>

#ifdef __cplusplus
extern "C" {
#endif

/* The numbers of refusal. Positions other than 0: the index of the block for DSK_REFUSED_BLOCK, DSK_REFUSED_SECTORS and DSK_REFUSED_DATA.
 * (LibDsk has a type DSK_GEOMETRY, so the names are longer than those of scp.h.) */
enum dsk_refusal {
    DSK_ACCEPTED = 0,          /* no refusal */
    DSK_REFUSED_ABSENT = 13,   /* the track or side asked for is not there */
    DSK_REFUSED_SECTOR = 14,   /* the sector asked for is not there */
    DSK_REFUSED_PLACES = 15,   /* the answer needs more places than were lent */
    DSK_REFUSED_SIGN = 30,     /* fewer than 8 bytes, or not "MV - CPC" */
    DSK_REFUSED_GEOMETRY = 31, /* not 1 or 2 sides, no track, or a track size below 256 */
    DSK_REFUSED_LENGTH = 32,   /* length below 256, or below 256 + tracks x sides x track size */
    DSK_REFUSED_BLOCK = 33,    /* a block without "Track-Info\r\n", or with another track or side number */
    DSK_REFUSED_SECTORS = 34,  /* a block of more than 29 sectors, of a size code above 6, or with a sector of a larger code than its own */
    DSK_REFUSED_DATA = 35,     /* the sector data do not fit in their block */
    DSK_REFUSED_LAYOUT = 41    /* no image is written of such a creator, such numbers, or so many bytes of data; see dsk_write */
};

/* The number of a refusal, 13 to 15, 30 to 35 or 41, or 0. */
static inline unsigned dsk_refusal_number(uint64_t code) { return (unsigned)(code % 256); }

/* The position of a refusal. */
static inline uint64_t dsk_refusal_position(uint64_t code) { return code / 256; }

/* Validates the image: refusals 30 to 35.
 * Accepts exactly what has none of these faults; bytes after the last block are allowed. */
uint64_t dsk_validate(const uint8_t *image, size_t size);

/* The geometry to out, 3 numbers: tracks, sides, track size.
 * Refusals 30 to 35, 15. */
uint64_t dsk_geometry(const uint8_t *image, size_t size, uint64_t *out, size_t places);

/* A block to out, 4 numbers: sectors, size code N, gap, filler.
 * Refusals 30 to 35, 13, 15. */
uint64_t dsk_block(const uint8_t *image, size_t size, uint32_t track, uint32_t side, uint64_t *out, size_t places);

/* A sector, by its index in its block, to out, 8 numbers: C, H, R, N, ST1, ST2, file offset and length of its data. Nothing is copied: the
 * data are the out[7] bytes from image + out[6] on, in the caller's own image. Their length is that of the block's N, not of the sector's
 * own: 128 x 2^N, and for 6 only 0x1800. Refusals 30 to 35, 13, 14, 15. */
uint64_t dsk_sector(const uint8_t *image, size_t size, uint32_t track, uint32_t side, uint32_t index, uint64_t *out, size_t places);

/* Writes an image to the start of image, and its length to out, 1 number. The image has tracks x sides blocks, each with as many sectors as
 * asked for, of 128 x 2^code bytes. These have their track as C, their side as H, R from 1 on, the code as N, and status bytes 0. The creator
 * (14 bytes, at 0x22), the code, the length of GAP#3 and the filler byte of each block are stored as given; all other bytes of the
 * information blocks are 0. The data are those of all sectors, by track, then side, then sector. The length is 256 + tracks x sides x track
 * size, and the track size 256 + sectors x 128 x 2^code; the bytes of image beyond stay.
 * 41 where the creator has not 14 bytes, tracks are not 1 to 255, sides not 1 or 2, sectors above 29 (0 are allowed), the code above 5, gap
 * or filler above 255, the track size above 65,535, or the data not tracks x sides x sectors x 128 x 2^code bytes; then 15 where image is
 * shorter than the length, or out has no place for it.
 * Refusals 41, 15. */
uint64_t dsk_write(const uint8_t *creator, size_t creator_size, uint32_t tracks, uint32_t sides, uint32_t sectors, uint32_t code, uint32_t gap,
                   uint32_t filler, const uint8_t *data, size_t data_size, uint8_t *image, size_t size, uint64_t *out, size_t places);

#ifdef __cplusplus
}
#endif

#endif
