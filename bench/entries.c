/* Calls one entry many times: entries CALL RECORD COUNT.  scripts/cost runs it under callgrind.
 *
 * CALL is judge, read or write, with a word behind it where the call is turned away early: -slice hands in a slice too
 * short, -version an unknown version, -fit a class of 300, -class a class of 12, -lists 65 dowels, -buffer a short buffer. */
#include <stdio.h>
#include <stdlib.h>
#include <string.h>

#include "negwishal.h"

static uint8_t record[4096], buffer[4096];
enum { PLACES = NEGWISHAL_POSITIONS };
static int32_t fields[NEGWISHAL_VALUES], x[PLACES + 1], y[PLACES + 1], marks[PLACES + 1];
static uint64_t answer[NEGWISHAL_FIELDS];

int main(int argc, char **argv)
{
    if (argc != 4)
        return 2;
    FILE *file = fopen(argv[2], "rb");
    if (!file)
        return 2;
    size_t length = fread(record, 1, sizeof record, file);
    fclose(file);
    const char *call = argv[1], *how = strchr(call, '-');
    how = how ? how + 1 : "";
    long count = atol(argv[3]);

    negwishal_read(record, length, fields, NEGWISHAL_VALUES, x, PLACES, y, PLACES, marks, PLACES, answer, NEGWISHAL_ANSWER);
    size_t dowels = answer[NEGWISHAL_ANSWER_DOWELS], room = sizeof buffer;
    size_t report = NEGWISHAL_FIELDS, numbers = NEGWISHAL_VALUES;
    if (!strcmp(how, "slice"))
        report--, numbers--;
    if (!strcmp(how, "version"))
        fields[NEGWISHAL_AT_VERSION] = 7;
    if (!strcmp(how, "fit"))
        fields[NEGWISHAL_AT_CLASS_1] = 300;
    if (!strcmp(how, "class"))
        fields[NEGWISHAL_AT_CLASS_1] = 12;
    if (!strcmp(how, "lists"))
        dowels = PLACES + 1;
    if (!strcmp(how, "buffer"))
        room = 50;
    for (long i = 0; i < count; i++) {
        if (call[0] == 'j')
            negwishal_judge(record, length, answer, report);
        else if (call[0] == 'r')
            negwishal_read(record, length, fields, numbers, x, PLACES, y, PLACES, marks, PLACES, answer, NEGWISHAL_ANSWER);
        else
            negwishal_write(fields, numbers, x, dowels, y, dowels, marks, dowels, buffer, room, answer, NEGWISHAL_ANSWER);
    }
    return 0;
}
