/* Prints a revolution of an SCP image: its duration, its words with their file offset, and its intervals in ticks. The image is read by
 * revision 1.6, or by the one that is named.
 *
 *     cc -Iinclude host/examples/revolution.c crates/scp_c/out/libscp_c.a -o revolution
 *     ./revolution crates/scp_test/data/a.scp 0 0
 *     ./revolution OLD.scp 0 0 1.4 */
#include "scp.h"

#include <errno.h>
#include <stdio.h>
#include <stdlib.h>
#include <string.h>

/* Says what is wrong and ends. */
static void fail(const char *what, const char *why) {
    fprintf(stderr, "revolution: %s: %s\n", what, why);
    exit(1);
}

/* Ends where the library refused. */
static void check(const char *file, uint64_t code) {
    if (code != SCP_ACCEPTED) {
        fprintf(stderr, "revolution: %s: refused %u at %llu (enum scp_refusal in scp.h says why)\n", file, scp_refusal_number(code),
                (unsigned long long)scp_refusal_position(code));
        exit(1);
    }
}

/* Memory for so many bytes; never null, even for none. */
static void *room(size_t size) {
    void *memory = malloc(size + 1);
    if (memory == NULL) fail("memory", "there is not enough");
    return memory;
}

/* A number of 32 bits. */
static uint32_t number(const char *text) {
    char *end;
    unsigned long long value = strtoull(text, &end, 10);
    if (*text < '0' || *text > '9' || *end != '\0' || value > UINT32_MAX) fail(text, "not a number from 0 to 4294967295");
    return (uint32_t)value;
}

/* The edition of a name. */
static uint32_t edition_of(const char *name) {
    if (strcmp(name, "1.4") == 0) return SCP_EDITION_1_4;
    if (strcmp(name, "1.6") != 0) fail(name, "neither 1.4 nor 1.6");
    return SCP_EDITION_1_6;
}

/* The bytes of a file; of one that is longer than an image may be, one byte more than that. */
static uint8_t *contents(const char *name, size_t *size) {
    const size_t most = 268435456 + 1;
    uint8_t *bytes = (uint8_t *)room(most);
    FILE *file = fopen(name, "rb");
    if (file == NULL) fail(name, strerror(errno));
    *size = fread(bytes, 1, most, file);
    if (ferror(file)) fail(name, strerror(errno));
    fclose(file);
    return bytes;
}

int main(int count, char **words) {
    if (count != 4 && count != 5) {
        fprintf(stderr, "usage: revolution FILE TRACK REVOLUTION [EDITION]\n");
        return 2;
    }
    size_t size;
    uint64_t found[3], filled[2];
    uint32_t track = number(words[2]), revolution = number(words[3]), edition = edition_of(count == 5 ? words[4] : "1.6");
    uint8_t *image = contents(words[1], &size);
    check(words[1], scp_revolution(image, size, edition, track, revolution, found, 3));

    const uint8_t *flux = image + found[2]; /* 2 bytes for each word */
    uint64_t *times = (uint64_t *)room(found[1] * sizeof *times);
    check(words[1], scp_intervals(flux, 2 * found[1], times, found[1], filled, 2));

    printf("duration %llu words %llu offset %llu\n", (unsigned long long)found[0], (unsigned long long)found[1],
           (unsigned long long)found[2]);
    for (uint64_t i = 0; i < filled[0]; i++) printf("%llu\n", (unsigned long long)times[i]);
    if (filled[1] != 0) printf("open %llu\n", (unsigned long long)filled[1]);
    free(times);
    free(image);
    return 0;
}
