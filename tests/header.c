/* Calls every function of the header, from C99 and from C++, by both editions: on image A's flux, on image A as each edition lays it out,
 * and with too few places. */
#include "scp.h"

#include <stdio.h>
#include <string.h>

static const uint8_t track_data[24] = {0x54, 0x52, 0x4B, 0x00, 0x00, 0x12, 0x7A, 0x00, 0x04, 0x00, 0x00, 0x00,
                                       0x10, 0x00, 0x00, 0x00, 0x00, 0xA0, 0x00, 0x00, 0x00, 0x01, 0x00, 0xF0};
static const uint8_t header_data[9] = {'S', 'C', 'P', 0x16, 0x00, 0x01, 0x00, 0x00, 0x01};
static const uint8_t new_words[8] = {0x01, 0x40, 0x00, 0x00, 0x00, 0x01, 0x00, 0xF0};

static int failures = 0;

/* Says which expectation does not hold. */
static void expect(int holds, int line) {
    if (!holds) {
        printf("tests/header.c:%d does not hold\n", line);
        failures++;
    }
}
#define EXPECT(holds) expect((holds), __LINE__)

/* Image A with its track data header directly behind the table of an edition. */
struct sample {
    uint32_t edition;
    size_t table_end;
    uint32_t sum;         /* of its bytes */
    uint32_t changed_sum; /* of its bytes with the new words */
    size_t size;
    uint8_t image[712 + 48]; /* with room for a footer */
};

static void make(struct sample *a) {
    a->size = a->table_end + sizeof track_data;
    memset(a->image, 0, sizeof a->image);
    memcpy(a->image, header_data, sizeof header_data);
    a->image[0x0C] = (uint8_t)(a->sum % 256);
    a->image[0x0D] = (uint8_t)(a->sum / 256);
    a->image[0x10] = (uint8_t)(a->table_end % 256);
    a->image[0x11] = (uint8_t)(a->table_end / 256);
    memcpy(a->image + a->table_end, track_data, sizeof track_data);
}

static void ask(const struct sample *a) {
    const uint8_t *image = a->image;
    const size_t size = a->size, offset = a->table_end + 16;
    const uint32_t edition = a->edition;
    uint64_t out[13];
    double floats[3];
    uint8_t flux[8];
    EXPECT(scp_validate(image, size, edition) == SCP_ACCEPTED);
    EXPECT(scp_validate(image, a->table_end - 1, edition) == SCP_SIZE);
    EXPECT(scp_header(image, size, edition, out, 9) == 0 && out[0] == 0x16 && out[8] == a->sum);
    EXPECT(scp_header(image, size, edition, out, 8) == SCP_PLACES);
    EXPECT(scp_footer(image, size, edition, out, 13) == 0 && out[0] == 0 && out[12] == 0);
    EXPECT(scp_track(image, size, edition, 0, out, 4) == 0 && out[2] == a->table_end && out[3] == 1);
    EXPECT(scp_track(image, size, edition, 1, out, 4) == SCP_ABSENT);
    EXPECT(scp_revolution(image, size, edition, 0, 0, out, 3) == 0 && out[0] == 8000000 && out[1] == 4 && out[2] == offset);
    EXPECT(scp_revolution(image, size, edition, 0, 1, out, 3) == SCP_REVOLUTION);
    EXPECT(scp_flux(image, size, edition, 0, 0, flux, 8) == 0 && memcmp(flux, image + offset, 8) == 0);
    EXPECT(scp_flux_part(image, size, edition, 0, 0, out, 2) == 0 && out[0] == offset && out[1] == 8);
    EXPECT(scp_flux_part(image, size, edition, 0, 0, out, 1) == SCP_PLACES);
    EXPECT(scp_flux_part(image, size, edition, 0, 1, out, 1) == SCP_REVOLUTION);
    EXPECT(scp_flux_part(image, size, edition, 1, 0, out, 1) == SCP_ABSENT);
    EXPECT(scp_speed(image, size, edition, 0, 0, floats, 2) == 0 && floats[0] == 1.0 && floats[1] == 300.0);
    EXPECT(scp_track_speed(image, size, edition, 0, floats, 3) == 0 && floats[1] == 300.0 && floats[2] == 300.0);
}

/* The direct calls: as the others on a sound image, and with an answer where they refuse another track. */
static void ask_directly(struct sample *a) {
    uint8_t *image = a->image;
    const size_t size = a->size, offset = a->table_end + 16;
    const uint32_t edition = a->edition;
    uint64_t out[4];
    uint8_t flux[8];
    EXPECT(scp_direct_track(image, a->table_end - 1, edition, 0, out, 4) == SCP_SIZE);
    EXPECT(scp_direct_track(image, size, edition, 0, out, 4) == 0 && out[0] == 0 && out[1] == 0 && out[2] == a->table_end && out[3] == 1);
    EXPECT(scp_direct_track(image, size, edition, 0, out, 3) == SCP_PLACES);
    EXPECT(scp_direct_track(image, size, edition, 1, out, 3) == SCP_ABSENT);
    EXPECT(scp_direct_revolution(image, size, edition, 0, 0, out, 3) == 0 && out[0] == 8000000 && out[1] == 4 && out[2] == offset);
    EXPECT(scp_direct_revolution(image, size, edition, 0, 0, out, 2) == SCP_PLACES);
    EXPECT(scp_direct_revolution(image, size, edition, 0, 1, out, 2) == SCP_REVOLUTION);
    EXPECT(scp_direct_flux(image, size, edition, 0, 0, flux, 8) == 0 && memcmp(flux, image + offset, 8) == 0);
    EXPECT(scp_direct_flux(image, size, edition, 0, 0, flux, 7) == SCP_PLACES);
    EXPECT(scp_direct_flux(image, size, edition, 0, 1, flux, 7) == SCP_REVOLUTION);
    EXPECT(scp_direct_flux_part(image, size, edition, 0, 0, out, 2) == 0 && out[0] == offset && out[1] == 8);
    EXPECT(scp_direct_flux_part(image, size, edition, 0, 0, out, 1) == SCP_PLACES);
    EXPECT(scp_direct_flux_part(image, size, edition, 0, 1, out, 1) == SCP_REVOLUTION);
    EXPECT(scp_direct_flux_part(image, size, edition, 1, 0, out, 1) == SCP_ABSENT);
    image[0x14] = 1; /* an entry of track 1, which is not within start to end */
    EXPECT(scp_track(image, size, edition, 0, out, 4) == SCP_SLOT + 256 && scp_flux(image, size, edition, 0, 0, flux, 8) == SCP_SLOT + 256);
    EXPECT(scp_direct_track(image, size, edition, 1, out, 4) == SCP_SLOT + 256);
    EXPECT(scp_direct_track(image, size, edition, 0, out, 4) == 0 && out[2] == a->table_end);
    EXPECT(scp_direct_revolution(image, size, edition, 0, 0, out, 3) == 0 && out[2] == offset);
    EXPECT(scp_direct_flux(image, size, edition, 0, 0, flux, 8) == 0 && memcmp(flux, image + offset, 8) == 0);
    EXPECT(scp_flux_part(image, size, edition, 0, 0, out, 2) == SCP_SLOT + 256);
    EXPECT(scp_direct_flux_part(image, size, edition, 0, 0, out, 2) == 0 && out[0] == offset && out[1] == 8);
    image[0x14] = 0;
}

static void convert(const uint8_t *flux) {
    uint64_t out[4], times[3];
    uint64_t bad[2] = {160, 65536};
    uint8_t words[8];
    EXPECT(scp_step(flux, 8, 1, out, 4) == 0 && out[0] == 65537 && out[1] == 0 && out[2] == 3 && out[3] == 2);
    EXPECT(scp_step(flux, 8, 4, out, 4) == 0 && out[0] == 0 && out[1] == 0 && out[2] == 4 && out[3] == 0);
    EXPECT(scp_step(flux, 8, 1, out, 3) == SCP_PLACES && scp_step(flux, 7, 1, out, 3) == SCP_WORDS);
    EXPECT(scp_intervals(flux, 8, times, 3, out, 2) == 0 && out[0] == 3 && out[1] == 0 && times[1] == 65537);
    EXPECT(scp_summary(flux, 8, out, 3) == 0 && out[0] == 3 && out[1] == 0 && out[2] == 65937);
    EXPECT(scp_summary(flux, 4, out, 4) == 0 && out[0] == 1 && out[1] == 65536 && out[2] == 65696);
    EXPECT(scp_summary(flux, 0, out, 3) == 0 && out[0] == 0 && out[1] == 0 && out[2] == 0);
    EXPECT(scp_summary(flux, 8, out, 2) == SCP_PLACES && scp_summary(flux, 7, out, 2) == SCP_WORDS);
    EXPECT(scp_words(times, 3, words, 8, out, 1) == 0 && out[0] == 8 && memcmp(words, flux, 8) == 0);
    EXPECT(scp_refusal_number(scp_words(bad, 2, words, 8, out, 1)) == SCP_TIME);
    EXPECT(scp_refusal_position(scp_words(bad, 2, words, 8, out, 1)) == 1);
}

/* The intervals with the words that close them; where either list, or out, is too short nothing is written. */
static void close_intervals(const uint8_t *flux) {
    uint64_t out[2] = {7, 7}, times[4] = {7, 7, 7, 7}, closings[4] = {7, 7, 7, 7};
    EXPECT(scp_closed_intervals(flux, 8, times, 2, closings, 4, out, 2) == SCP_PLACES);
    EXPECT(scp_closed_intervals(flux, 8, times, 4, closings, 2, out, 2) == SCP_PLACES);
    EXPECT(scp_closed_intervals(flux, 8, times, 4, closings, 4, out, 1) == SCP_PLACES);
    EXPECT(scp_closed_intervals(flux, 7, times, 2, closings, 2, out, 1) == SCP_WORDS);
    for (int i = 0; i < 4; i++) EXPECT(times[i] == 7 && closings[i] == 7 && out[i % 2] == 7);
    EXPECT(scp_closed_intervals(flux, 8, times, 3, closings, 4, out, 2) == 0 && out[0] == 3 && out[1] == 0);
    EXPECT(times[0] == 160 && times[1] == 65537 && times[2] == 240 && times[3] == 7);
    EXPECT(closings[0] == 0 && closings[1] == 2 && closings[2] == 3 && closings[3] == 7);
}

static void change(struct sample *a) {
    uint8_t *image = a->image;
    const size_t size = a->size;
    const uint32_t edition = a->edition;
    uint64_t out[9];
    uint64_t calls[21] = {8, 0, 0, 8000000, 0, 8, edition, 0, 0, 0, 0, 0, 0, edition, 5, 0, 0, 0, 0, 0, edition};
    uint64_t answers[48];
    EXPECT(scp_rewrite(image, size, edition, 0, 0, 8000000, new_words, 7) == SCP_WORDS);
    EXPECT(scp_replay(image, size, calls, 21, new_words, 8, answers, 47) == SCP_PLACES);
    EXPECT(scp_replay(image, size, calls, 21, new_words, 8, answers, 48) == 0 && answers[0] == 0 && answers[16] == 0);
    EXPECT(answers[32] == 0 && answers[34] == a->table_end + 16 && answers[35] == 8 && answers[36] == 306);
    EXPECT(scp_header(image, size, edition, out, 9) == 0 && out[8] == a->changed_sum);
    EXPECT(scp_rewrite(image, size, edition, 0, 0, 8000000, track_data + 16, 8) == 0);
    EXPECT(scp_header(image, size, edition, out, 9) == 0 && out[8] == a->sum);
}

/* An image of revision 1.4 is refused by 1.6, since its track stands in that table: by every function, and by every number but 14. */
static void ask_by_the_other(struct sample *old) {
    uint8_t *image = old->image;
    const size_t size = old->size;
    const uint32_t others[5] = {SCP_EDITION_1_6, 0, 13, 15, UINT32_MAX};
    uint64_t out[13];
    double floats[3];
    uint8_t flux[8];
    for (int i = 0; i < 5; i++) {
        const uint32_t edition = others[i];
        uint64_t calls[14] = {0, 0, 0, 0, 0, 0, edition, 0, 0, 0, 0, 0, 0, SCP_EDITION_1_4};
        uint64_t answers[32];
        EXPECT(scp_validate(image, size, edition) == SCP_TRACK);
        EXPECT(scp_header(image, size, edition, out, 9) == SCP_TRACK);
        EXPECT(scp_footer(image, size, edition, out, 13) == SCP_TRACK);
        EXPECT(scp_track(image, size, edition, 0, out, 4) == SCP_TRACK);
        EXPECT(scp_revolution(image, size, edition, 0, 0, out, 3) == SCP_TRACK);
        EXPECT(scp_flux(image, size, edition, 0, 0, flux, 8) == SCP_TRACK);
        EXPECT(scp_flux_part(image, size, edition, 0, 0, out, 2) == SCP_TRACK);
        EXPECT(scp_speed(image, size, edition, 0, 0, floats, 2) == SCP_TRACK);
        EXPECT(scp_track_speed(image, size, edition, 0, floats, 3) == SCP_TRACK);
        EXPECT(scp_direct_track(image, size, edition, 0, out, 4) == SCP_TRACK);
        EXPECT(scp_direct_track(image, size, edition, 166, out, 4) == SCP_SLOT + 256 * 166);
        EXPECT(scp_direct_revolution(image, size, edition, 0, 0, out, 3) == SCP_TRACK);
        EXPECT(scp_direct_flux(image, size, edition, 0, 0, flux, 8) == SCP_TRACK);
        EXPECT(scp_direct_flux_part(image, size, edition, 0, 0, out, 2) == SCP_TRACK);
        EXPECT(scp_rewrite(image, size, edition, 0, 0, 8000000, new_words, 8) == SCP_TRACK);
        EXPECT(scp_replay(image, size, calls, 14, new_words, 8, answers, 32) == 0);
        EXPECT(answers[0] == SCP_TRACK && answers[16] == SCP_ACCEPTED);
    }
    EXPECT(scp_direct_track(image, size, SCP_EDITION_1_4, 166, out, 4) == SCP_ABSENT);
}

/* Where only the edition decides: FLAGS bit 5, which by 1.6 keeps the last 48 bytes free also where no footer is asked for, and an end
 * track of 167. */
static void decide(struct sample *a) {
    uint64_t out[13];
    a->image[0x08] |= 0x20;
    EXPECT(scp_validate(a->image, a->size, SCP_EDITION_1_6) == SCP_FOOTER);
    EXPECT(scp_validate(a->image, a->size, SCP_EDITION_1_4) == SCP_ACCEPTED);
    EXPECT(scp_footer(a->image, a->size, SCP_EDITION_1_4, out, 13) == 0 && out[0] == 0 && out[12] == 0);
    EXPECT(scp_direct_track(a->image, a->size, SCP_EDITION_1_6, 0, out, 4) == SCP_TRACK);
    EXPECT(scp_direct_track(a->image, a->size, SCP_EDITION_1_4, 0, out, 4) == 0);
    EXPECT(scp_track(a->image, a->size + 48, SCP_EDITION_1_6, 0, out, 4) == SCP_FOOTER);
    EXPECT(scp_direct_track(a->image, a->size + 48, SCP_EDITION_1_6, 0, out, 4) == 0);
    a->image[0x08] -= 0x20;
    a->image[0x07] = 167;
    EXPECT(scp_validate(a->image, a->size, SCP_EDITION_1_6) == SCP_ACCEPTED);
    EXPECT(scp_validate(a->image, a->size, SCP_EDITION_1_4) == SCP_SPAN);
    EXPECT(scp_direct_track(a->image, a->size, SCP_EDITION_1_6, 0, out, 4) == 0);
    EXPECT(scp_direct_track(a->image, a->size, SCP_EDITION_1_4, 0, out, 4) == SCP_SPAN);
    a->image[0x07] = 0;
}

/* How far a text is well-formed; and image A with a footer that has one string, the creator, of one byte: by 1.6 it must be text. */
static void read_text(const struct sample *a) {
    static const uint8_t text[4] = {'4', 0xC2, 0xB5, 's'};
    const size_t string = a->size, footer = string + 4, size = footer + 48;
    uint8_t image[712 + 4 + 48] = {0};
    uint64_t out[13] = {7, 7};
    EXPECT(scp_valid_up_to(text, 4, out, 0) == SCP_PLACES && out[0] == 7);
    EXPECT(scp_valid_up_to(text, 4, out, 2) == 0 && out[0] == 4 && out[1] == 7);
    EXPECT(scp_valid_up_to(text, 2, out, 1) == 0 && out[0] == 1);
    EXPECT(scp_valid_up_to(text + 2, 2, out, 1) == 0 && out[0] == 0);
    EXPECT(scp_valid_up_to(text, 0, out, 1) == 0 && out[0] == 0);
    memcpy(image, a->image, string);
    image[0x08] |= 0x20;
    image[string] = 1;
    image[string + 2] = 'a';
    image[footer + 4 * 3] = (uint8_t)(string % 256);
    image[footer + 4 * 3 + 1] = (uint8_t)(string / 256);
    image[footer + 0x2B] = 0x16;
    memcpy(image + footer + 0x2C, "FPCS", 4);
    EXPECT(scp_footer(image, size, SCP_EDITION_1_6, out, 13) == 0 && out[4] == string);
    image[string + 2] = 0x97;
    EXPECT(scp_validate(image, size, SCP_EDITION_1_6) == SCP_TEXT + 256 * 3);
    EXPECT(scp_footer(image, size, SCP_EDITION_1_6, out, 13) == SCP_TEXT + 256 * 3);
    EXPECT(scp_rewrite(image, size, SCP_EDITION_1_6, 0, 0, 1, new_words, 8) == SCP_TEXT + 256 * 3);
    EXPECT(scp_direct_track(image, size, SCP_EDITION_1_6, 0, out, 4) == 0);
    EXPECT(scp_header(image, size, SCP_EDITION_1_4, out, 9) == 0);
}

int main(void) {
    static struct sample samples[2] = {{SCP_EDITION_1_4, 0x2A8, 972, 877, 0, {0}}, {SCP_EDITION_1_6, 0x2B0, 980, 885, 0, {0}}};
    for (int i = 0; i < 2; i++) {
        make(&samples[i]);
        ask(&samples[i]);
        ask_directly(&samples[i]);
        convert(samples[i].image + samples[i].table_end + 16);
        close_intervals(samples[i].image + samples[i].table_end + 16);
        change(&samples[i]);
    }
    ask_by_the_other(&samples[0]);
    decide(&samples[1]);
    read_text(&samples[1]);
    if (failures == 0) {
        printf("include/scp.h: every function called by both editions, as expected\n");
    }
    return failures != 0;
}
