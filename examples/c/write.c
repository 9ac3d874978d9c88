/* write [--version N] > joint-b.rec: writes the record of joint B to standard output, in version 1 or version N. Ends with 1 where the
 * values are refused, with 2 where it is called wrongly or the record cannot be written. */
#include <errno.h>
#include <inttypes.h>
#include <stdio.h>
#include <stdlib.h>
#include <string.h>

#include "negwishal.h"

/* Lengths in tenths of a millimetre, the diameter in millimetres, the force in newtons. */
static int32_t fields[NEGWISHAL_VALUES] = {
    [NEGWISHAL_AT_VERSION] = 1,       /* 2: edges are judged by EN 1995-1-1, Table 8.5 */
    [NEGWISHAL_AT_PLANES] = 2,
    /* side members, grain along x */
    [NEGWISHAL_AT_CLASS_1] = NEGWISHAL_C24,
    [NEGWISHAL_AT_GRAIN_1] = 0,
    [NEGWISHAL_AT_THICKNESS_1] = 600,
    [NEGWISHAL_AT_X0_1] = -840,
    [NEGWISHAL_AT_Y0_1] = -360,
    [NEGWISHAL_AT_X1_1] = 20000,
    [NEGWISHAL_AT_Y1_1] = 720,
    /* the middle member */
    [NEGWISHAL_AT_CLASS_2] = NEGWISHAL_C24,
    [NEGWISHAL_AT_GRAIN_2] = 0,
    [NEGWISHAL_AT_THICKNESS_2] = 800,
    [NEGWISHAL_AT_X0_2] = -20000,
    [NEGWISHAL_AT_Y0_2] = -360,
    [NEGWISHAL_AT_X1_2] = 1440,
    [NEGWISHAL_AT_Y1_2] = 720,
    [NEGWISHAL_AT_DIAMETER] = 12,
    [NEGWISHAL_AT_STEEL] = 1,         /* S235 */
    [NEGWISHAL_AT_SERVICE_CLASS] = 1,
    [NEGWISHAL_AT_DURATION] = 3,      /* medium */
    [NEGWISHAL_AT_FX] = 20000,        /* that the dowels put into member 2 */
    [NEGWISHAL_AT_FY] = 0,
};
static const int32_t x[] = {0, 600, 0, 600};
static const int32_t y[] = {0, 0, 360, 360};
enum { DOWELS = sizeof x / sizeof x[0] };

/* Takes a number for the version, 1 or 2 or another: 2 is the library's to say. 0 comes back where it is none of 32 bits. */
static int read_version(const char *digits, int32_t *version)
{
    char *end;
    errno = 0;
    long long value = strtoll(digits, &end, 10);
    *version = (int32_t)value;
    return end != digits && *end == '\0' && errno == 0 && value >= INT32_MIN && value <= INT32_MAX;
}

int main(int argc, char **argv)
{
    uint8_t record[78 + 8 * DOWELS];
    uint64_t answer[NEGWISHAL_ANSWER];

    if (argc != 1 && (argc != 3 || strcmp(argv[1], "--version") != 0 || !read_version(argv[2], &fields[NEGWISHAL_AT_VERSION]))) {
        fprintf(stderr, "usage: write [--version N]\n");
        return 2;
    }
    /* versions 1 and 2 have no marks: x stands for a pointer that is not null, with length 0 */
    if (negwishal_write(fields, NEGWISHAL_VALUES, x, DOWELS, y, DOWELS, x, 0, record, sizeof record, answer,
                        NEGWISHAL_ANSWER) != NEGWISHAL_DONE)
        return 2;
    if (answer[NEGWISHAL_ANSWER_NUMBER] != 0) {
        fprintf(stderr, "refused %" PRIu64 "\n", answer[NEGWISHAL_ANSWER_NUMBER]);
        return 1;
    }
    size_t length = (size_t)answer[NEGWISHAL_ANSWER_LENGTH];
    if (fwrite(record, 1, length, stdout) != length || fflush(stdout) != 0) {
        perror("standard output");
        return 2;
    }
    return 0;
}
