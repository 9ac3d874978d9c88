/* thickness FILE: judges the record in a file with each thickness of member 1 from 20 to 400 mm, in whole millimetres, and prints
 * the least with which it fits and the line then, 'MM fits U C E'; 'none' where it fits with none; 'refused' with number, member,
 * first and second dowel where the record is. Ends with 2 where the file cannot be read or the line not written. */
#include <inttypes.h>
#include <stdio.h>

#include "negwishal.h"

enum { LEAST = 20, MOST = 400, ROOM = 600 }; /* a record of version 1 or 2 has up to 590 bytes */

/* Judges the values with a thickness of member 1 in whole millimetres: 0 where they make no record, which does not happen to values that
 * were read. */
static int judge_with(int32_t *fields, int32_t mm, const int32_t *x, const int32_t *y, const int32_t *marks, size_t dowels,
                      uint64_t *report)
{
    uint8_t record[ROOM];
    uint64_t answer[NEGWISHAL_ANSWER];
    fields[NEGWISHAL_AT_THICKNESS_1] = 10 * mm;
    if (negwishal_write(fields, NEGWISHAL_VALUES, x, dowels, y, dowels, marks, dowels, record, ROOM, answer,
                        NEGWISHAL_ANSWER) != NEGWISHAL_DONE
        || answer[NEGWISHAL_ANSWER_NUMBER] != 0)
        return 0;
    return negwishal_judge(record, answer[NEGWISHAL_ANSWER_LENGTH], report, NEGWISHAL_FIELDS) == NEGWISHAL_JUDGED;
}

int main(int argc, char **argv)
{
    static uint8_t bytes[4097];
    int32_t fields[NEGWISHAL_VALUES], x[NEGWISHAL_POSITIONS], y[NEGWISHAL_POSITIONS], marks[NEGWISHAL_POSITIONS];
    uint64_t answer[NEGWISHAL_ANSWER], r[NEGWISHAL_FIELDS];
    if (argc != 2) {
        fprintf(stderr, "usage: thickness FILE\n");
        return 2;
    }
    FILE *f = fopen(argv[1], "rb");
    if (f == NULL) {
        perror(argv[1]);
        return 2;
    }
    size_t length = fread(bytes, 1, sizeof bytes, f);
    int failed = ferror(f);
    fclose(f);
    if (failed) {
        fprintf(stderr, "%s: cannot be read\n", argv[1]);
        return 2;
    }

    if (negwishal_read(bytes, length, fields, NEGWISHAL_VALUES, x, NEGWISHAL_POSITIONS, y, NEGWISHAL_POSITIONS, marks,
                       NEGWISHAL_POSITIONS, answer, NEGWISHAL_ANSWER) != NEGWISHAL_DONE)
        return 2;
    if (answer[NEGWISHAL_ANSWER_NUMBER] != 0) {
        printf("refused %" PRIu64 " 0 0 0\n", answer[NEGWISHAL_ANSWER_NUMBER]);
    } else {
        int32_t mm = LEAST;
        while (mm <= MOST) {
            if (!judge_with(fields, mm, x, y, marks, answer[NEGWISHAL_ANSWER_DOWELS], r))
                return 2;
            if (r[NEGWISHAL_VERDICT] != NEGWISHAL_OVERLOADED)
                break;
            mm++;
        }
        if (mm > MOST)
            printf("none\n");
        else if (r[NEGWISHAL_VERDICT] == NEGWISHAL_FITS)
            printf("%" PRId32 " fits %" PRIu64 " %" PRIu64 " %" PRIu64 "\n", mm, r[NEGWISHAL_USE], r[NEGWISHAL_CAPACITY],
                   r[NEGWISHAL_SHARE]);
        else
            printf("refused %" PRIu64 " %" PRIu64 " %" PRIu64 " %" PRIu64 "\n", r[NEGWISHAL_NUMBER], r[NEGWISHAL_MEMBER],
                   r[NEGWISHAL_FIRST], r[NEGWISHAL_SECOND]);
    }
    if (fflush(stdout) != 0 || ferror(stdout)) {
        perror("standard output");
        return 2;
    }
    return 0;
}
