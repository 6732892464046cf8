/* Includes both headers, and calls a function of each archive: one program can have both. */
#include "dsk.h"
#include "scp.h"

#include <stdio.h>

int main(void) {
    static const uint8_t image[256] = {'M', 'V', ' ', '-', ' ', 'C', 'P', 'C'};
    const uint64_t as_scp = scp_validate(image, sizeof image, SCP_EDITION_1_6), as_dsk = dsk_validate(image, sizeof image);
    if (scp_refusal_number(as_scp) != SCP_SIZE || dsk_refusal_number(as_dsk) != DSK_REFUSED_GEOMETRY) {
        printf("tests/both_headers.c: refused %u and %u\n", scp_refusal_number(as_scp), dsk_refusal_number(as_dsk));
        return 1;
    }
    printf("include/scp.h, include/dsk.h: both in one program, as expected\n");
    return 0;
}
