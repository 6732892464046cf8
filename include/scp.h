/* SuperCard Pro (SCP) floppy flux images, revisions 1.4 and 1.6: the proved library as C functions.
 *
 * Link with libscp_c.a, which `rt lib` in crates/scp_c proves and builds (x86-64). C99 and C++.
 *
 * Every function answers for every image and every argument, and ends. It returns 0, or a refusal: its number (enum scp_refusal)
 * + 256 x its position; see scp_refusal_number and scp_refusal_position. On a refusal every lent buffer holds what it held. On
 * success a filled buffer holds the answer at its start and keeps its old contents beyond. Where the answer needs more places than
 * were lent, the refusal is 15; every other refusal comes before it.
 *
 * An array passes as a pointer and the number of its elements. A pointer is never null and is aligned for its type, even where the
 * number is 0. The arrays of one call do not overlap, unless the call writes none of them; nobody else writes them meanwhile.
 *
 * An edition is the revision of the text that an image is read by. No byte of an image says it, so the caller names it in every call
 * on one: 14 is revision 1.4, every other number 1.6 (enum scp_edition). By 1.6 the table has 168 entries and ends at 688, and FLAGS
 * bit 5 announces a footer. By 1.4 the table has 166 entries and ends at 680, and FLAGS bit 5 means nothing: there is no footer, and
 * the bytes that would be one are like any others. All else is the same.
 *
 * A tick is 25 ns. A track is a number from 0 to 167 (by 1.4: 165), a revolution a number from 0 to 254; any other number has its
 * refusal. */
#ifndef SCP_H
#define SCP_H

#include <stddef.h>
#include <stdint.h>

#ifdef __cplusplus
extern "C" {
#endif

/* The editions. Every other number is SCP_EDITION_1_6, too. */
enum scp_edition {
    SCP_EDITION_1_4 = 14,
    SCP_EDITION_1_6 = 16
};

/* The numbers of refusal. Positions other than 0: the string (0 to 5) for SCP_STRING and SCP_TEXT, the track for SCP_SLOT, SCP_TRACK
 * and SCP_FLUX, the index of the time for SCP_TIME. */
enum scp_refusal {
    SCP_ACCEPTED = 0,     /* no refusal */
    SCP_SIZE = 1,         /* length below 688 (by 1.4: 680) or above 268,435,456 */
    SCP_SIGN = 2,         /* not "SCP" */
    SCP_WIDTH = 3,        /* word width not 0 or 16 */
    SCP_REVOLUTIONS = 4,  /* 0 revolutions, or more than 1 on a read/write image */
    SCP_SPAN = 5,         /* start track above end track, or end track above 167 (by 1.4: 165) */
    SCP_HEADS = 6,        /* heads byte above 2 */
    SCP_FOOTER = 7,       /* by 1.6 alone: footer flagged, and too short, without "FPCS" or older than 0x16 */
    SCP_STRING = 8,       /* by 1.6 alone: a present string is misplaced or malformed */
    SCP_SLOT = 9,         /* a track outside start to end, or on a side not held */
    SCP_TRACK = 10,       /* a track data header misplaced, without "TRK" or with another number */
    SCP_FLUX = 11,        /* a revolution's flux does not end in the image, before the footer */
    SCP_SUM = 12,         /* read-only: the checksum is not the byte sum; read/write: it is not 0 */
    SCP_ABSENT = 13,      /* the track asked for is not there */
    SCP_REVOLUTION = 14,  /* the revolution asked for is not there */
    SCP_PLACES = 15,      /* the answer needs more places than were lent */
    SCP_TIME = 16,        /* a time is 0, a multiple of 65,536 or above 4,294,967,295 */
    SCP_WORDS = 17,       /* flux of an odd number of bytes or too long, or more words than the revolution has */
    SCP_SHARED = 18,      /* a byte that a rewrite stands on is claimed twice */
    SCP_TEXT = 19         /* by 1.6 alone: a present string is not well-formed UTF-8; directly after SCP_STRING of the same string */
};

/* The number of a refusal, 1 to 19, or 0. */
static inline unsigned scp_refusal_number(uint64_t code) { return (unsigned)(code % 256); }

/* The position of a refusal. */
static inline uint64_t scp_refusal_position(uint64_t code) { return code / 256; }

/* Validates the image: refusals 1 to 12 and 19.
 * Accepts exactly what obeys the edition's text. */
uint64_t scp_validate(const uint8_t *image, size_t size, uint32_t edition);

/* The header to out, 9 numbers: version, disk type, revolutions, start, end, flags, width, heads, checksum.
 * Refusals 1 to 11, 19, 15. */
uint64_t scp_header(const uint8_t *image, size_t size, uint32_t edition, uint64_t *out, size_t places);

/* The footer to out, 13 numbers: 1, the offsets of maker, model, serial, creator, application and comments (0: absent), created and
 * modified (seconds from 1970, two's complement), software, hardware, firmware, format; 13 zeros where there is none, as always by
 * 1.4. Refusals 1 to 11, 19, 15. */
uint64_t scp_footer(const uint8_t *image, size_t size, uint32_t edition, uint64_t *out, size_t places);

/* A track to out, 4 numbers: cylinder, head, file offset of its header, revolutions.
 * Refusals 1 to 11, 19, 13, 15. */
uint64_t scp_track(const uint8_t *image, size_t size, uint32_t edition, uint32_t track, uint64_t *out, size_t places);

/* A revolution to out, 3 numbers: duration in ticks, words, file offset of its flux.
 * Refusals 1 to 11, 19, 13, 14, 15. */
uint64_t scp_revolution(const uint8_t *image, size_t size, uint32_t edition, uint32_t track, uint32_t revolution, uint64_t *out,
                        size_t places);

/* The flux of a revolution to out, 2 bytes for each of its words.
 * Refusals 1 to 11, 19, 13, 14, 15. */
uint64_t scp_flux(const uint8_t *image, size_t size, uint32_t edition, uint32_t track, uint32_t revolution, uint8_t *out,
                  size_t places);

/* Where the flux of a revolution stands in the image, to out, 2 numbers: its file offset, and how many bytes it has. The flux is not read.
 * Refusals 1 to 11, 19, 13, 14, 15. */
uint64_t scp_flux_part(const uint8_t *image, size_t size, uint32_t edition, uint32_t track, uint32_t revolution, uint64_t *out,
                       size_t places);

/* The speed of a revolution to out, 2 floats: 1.0 and the speed in rpm, or two zeros for duration 0.
 * Refusals 1 to 11, 19, 13, 14, 15. */
uint64_t scp_speed(const uint8_t *image, size_t size, uint32_t edition, uint32_t track, uint32_t revolution, double *out,
                   size_t places);

/* The speeds of a track to out, 3 floats: 1.0, slowest, fastest in rpm; or three zeros if all durations are 0.
 * Refusals 1 to 11, 19, 13, 15. */
uint64_t scp_track_speed(const uint8_t *image, size_t size, uint32_t edition, uint32_t track, double *out, size_t places);

/* Three direct functions: each answers as the one without "direct" in its name, but tests only the header, one entry of the table,
 * that track's header and the records of its revolutions. The refusals come in the order 1 to 6, 13, 9 to 11 of this track (11 of any
 * of its revolutions), 14, 15. The footer, its strings and other tracks are not tested, so there may be an answer on an image that every
 * other function refuses; by 1.6 the last 48 bytes of an image with FLAGS bit 5 are kept free for the footer even so. Where the image
 * passes 1 to 11 and 19 the answer is the same; where a direct function refuses with one of 1 to 11 the other refuses, too, perhaps with
 * another number, which may be 19. */

/* A track to out, as scp_track, directly: 4 numbers.
 * Refusals 1 to 6, 13, 9 to 11, 15. */
uint64_t scp_direct_track(const uint8_t *image, size_t size, uint32_t edition, uint32_t track, uint64_t *out, size_t places);

/* A revolution to out, as scp_revolution, directly: 3 numbers.
 * Refusals 1 to 6, 13, 9 to 11, 14, 15. */
uint64_t scp_direct_revolution(const uint8_t *image, size_t size, uint32_t edition, uint32_t track, uint32_t revolution, uint64_t *out,
                               size_t places);

/* The flux of a revolution to out, as scp_flux, directly: 2 bytes for each of its words.
 * Refusals 1 to 6, 13, 9 to 11, 14, 15. */
uint64_t scp_direct_flux(const uint8_t *image, size_t size, uint32_t edition, uint32_t track, uint32_t revolution, uint8_t *out,
                         size_t places);

/* Where the flux of a revolution stands, to out, as scp_flux_part, directly: 2 numbers.
 * Refusals 1 to 6, 13, 9 to 11, 14, 15. */
uint64_t scp_direct_flux_part(const uint8_t *image, size_t size, uint32_t edition, uint32_t track, uint32_t revolution, uint64_t *out,
                              size_t places);

/* To out, 1 number: how many bytes come before the place where the text stops being well-formed UTF-8 (the Unicode Standard), by the
 * test of refusal 19; size where all of it is well-formed. A zero byte is well-formed here; in a string it is refused before, with 8.
 * Refusal 15. */
uint64_t scp_valid_up_to(const uint8_t *text, size_t size, uint64_t *out, size_t places);

/* The next interval of the flux from a word on, to out, 4 numbers: interval in ticks (0: no closing word is left), open ticks, the
 * number of the word to go on from, the number of the word that closed the interval (0 also where there is no interval, which the first
 * number tells). Words are counted from 0, the first of the flux. Refusals 17, 15. */
uint64_t scp_step(const uint8_t *flux, size_t size, uint64_t word, uint64_t *out, size_t places);

/* All intervals of the flux to times; to out, 2 numbers: how many they are, and the open ticks.
 * Refusals 17, 15. */
uint64_t scp_intervals(const uint8_t *flux, size_t size, uint64_t *times, size_t count, uint64_t *out, size_t places);

/* As scp_intervals, and to closings for each interval the number of the word that closed it, counted from 0 in the flux. size / 2 places
 * in each list are always enough. Refusals 17, 15; where times, closings or out is too short, none of them is written. */
uint64_t scp_closed_intervals(const uint8_t *flux, size_t size, uint64_t *times, size_t count, uint64_t *closings,
                              size_t closing_count, uint64_t *out, size_t places);

/* The numbers of the flux to out, 3 numbers: how many intervals, the open ticks, and the ticks of all words (65,536 for a zero word),
 * which are the intervals and the open ticks. The first two are those of scp_intervals. Refusals 17, 15. */
uint64_t scp_summary(const uint8_t *flux, size_t size, uint64_t *out, size_t places);

/* The words of the times, as bytes, to words; to out, 1 number: how many bytes they are.
 * Refusals 16, 15. */
uint64_t scp_words(const uint64_t *times, size_t count, uint8_t *words, size_t size, uint64_t *out, size_t places);

/* Puts a new duration and new words into a revolution, at most as many as it has; a read-only image's checksum moves by the change.
 * What others claim is decided by the edition: by 1.4 no footer and no string. Refusals 1 to 11, 19, 13, 14, 17, 18.
 * One with as many words as were there is taken back by the former duration and words, by the same edition, several in reverse order:
 * each is accepted, and the image is what it was. One with fewer is not: its former words are refused with 17. */
uint64_t scp_rewrite(uint8_t *image, size_t size, uint32_t edition, uint32_t track, uint32_t revolution, uint32_t duration,
                     const uint8_t *words, size_t words_size);

/* Runs calls on the image in order. A call is 7 numbers: kind, track, revolution, duration, start and length of its part of words,
 * edition (14 is 1.4, any other 1.6). Kinds: 0 validate, 1 header, 2 footer, 3 track, 4 revolution, 5 flux, 6 speed, 7 track speed,
 * 8 rewrite, any other as 0. An answer is 16 numbers: refusal's number, position, the values as above (flux: its file offset, how
 * many bytes, their sum modulo 2^32; speeds: as bit patterns), zeros. Refusal 15 where answers has fewer than 16 places a call. */
uint64_t scp_replay(uint8_t *image, size_t size, const uint64_t *calls, size_t call_numbers, const uint8_t *words, size_t words_size,
                    uint64_t *answers, size_t places);

#ifdef __cplusplus
}
#endif

#endif
