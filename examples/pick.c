/*
 * Reads a plane sheet from standard input and prints the plane pick's answer as
 * the program facepoint does: `0 X Y Z CLEARANCE COUNT`, floats as their bits in
 * hexadecimal, or a refusal's number. From the repository's root:
 *
 *     (cd crates/capi && rt lib)
 *     gcc -Iinclude examples/pick.c crates/capi/out/libcapi.a -o crates/capi/out/pick
 *     crates/capi/out/pick < samples/plate-b.sheet
 */
#include <inttypes.h>
#include <stdio.h>
#include <string.h>

#include "facepoint.h"

/* The largest accepted sheet has 35,936 bytes. */
static uint8_t sheet[65536];

static uint64_t bits(double x)
{
    uint64_t b;
    memcpy(&b, &x, sizeof b);
    return b;
}

int main(void)
{
    double result[FACEPOINT_RESULT_LENGTH];
    size_t length = fread(sheet, 1, sizeof sheet, stdin);
    if (ferror(stdin)) {
        perror("pick: standard input");
        return 1;
    }
    uint32_t status = facepoint_plane_pick(sheet, length, result, FACEPOINT_RESULT_LENGTH);
    if (status != 0) {
        printf("%" PRIu32 "\n", status);
    } else {
        for (int k = 0; k < 4; k++) {
            printf("%s %016" PRIX64, k == 0 ? "0" : "", bits(result[k]));
        }
        printf(" %.0f\n", result[4]);
    }
    if (fflush(stdout) != 0) {
        perror("pick: standard output");
        return 1;
    }
    return 0;
}
