/* root N..: prints for each number its starting bracket, its whole square root and the halvings: 'n: low high root halvings'.
 * Ends with 2 where an argument is no number below 2^64 or the lines are not written. */
#include <errno.h>
#include <inttypes.h>
#include <stdio.h>
#include <stdlib.h>

#include "negwishal.h"

/* Takes decimal digits for a number; 0 comes back where they are none or 64 bits do not hold it. */
static int read_number(const char *digits, uint64_t *n)
{
    for (const char *at = digits; *at != '\0'; at++)
        if (*at < '0' || *at > '9')
            return 0;
    errno = 0;
    unsigned long long value = strtoull(digits, NULL, 10);
    *n = value;
    return *digits != '\0' && errno == 0 && value <= UINT64_MAX;
}

int main(int argc, char **argv)
{
    if (argc < 2) {
        fprintf(stderr, "usage: root N..\n");
        return 2;
    }
    for (int k = 1; k < argc; k++) {
        uint64_t n, bracket[NEGWISHAL_ANSWER], root[NEGWISHAL_ANSWER];
        if (!read_number(argv[k], &n)) {
            fprintf(stderr, "%s: no number below 2^64\n", argv[k]);
            return 2;
        }
        if (negwishal_root_bracket(n, bracket, NEGWISHAL_ANSWER) != NEGWISHAL_DONE
            || negwishal_whole_root(n, root, NEGWISHAL_ANSWER) != NEGWISHAL_DONE)
            return 2;
        printf("%" PRIu64 ": %" PRIu64 " %" PRIu64 " %" PRIu64 " %" PRIu64 "\n", n, bracket[NEGWISHAL_BRACKET_LOW],
               bracket[NEGWISHAL_BRACKET_HIGH], root[NEGWISHAL_ROOT], root[NEGWISHAL_HALVINGS]);
    }
    if (fflush(stdout) != 0 || ferror(stdout)) {
        perror("standard output");
        return 2;
    }
    return 0;
}
