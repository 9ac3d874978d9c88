/* judge [--table TABLE | --shared TABLE --firm N] FILE: prints the line for the record in a file, by the printed table of classes, by
 * a firm's own table in the file TABLE, or by what firm N has of a table that two firms share. Ends with 2 where a file cannot be read,
 * N is no number below 2^32 or the line is not written. */
#include <errno.h>
#include <inttypes.h>
#include <stdio.h>
#include <stdlib.h>
#include <string.h>

#include "negwishal.h"

/* By which table; the bytes are those of the file. */
struct table {
    enum { PRINTED, OWN, SHARED } kind;
    uint32_t firm;
    size_t length;
    uint8_t bytes[131071]; /* one byte more than a shared table can have: a longer file is a 14 as well */
};

/* Reads a file, no more than room bytes of it; 0 comes back where it cannot be read. */
static int read_file(const char *name, uint8_t *bytes, size_t room, size_t *length)
{
    FILE *f = fopen(name, "rb");
    if (f == NULL) {
        perror(name);
        return 0;
    }
    *length = fread(bytes, 1, room, f);
    int failed = ferror(f);
    fclose(f);
    if (failed)
        fprintf(stderr, "%s: cannot be read\n", name);
    return !failed;
}

/* Takes decimal digits for a firm's number, 1 or 2 or another: 16 is the library's to say. 0 comes back where they are no number below
 * 2^32. */
static int read_firm(const char *digits, uint32_t *firm)
{
    for (const char *at = digits; *at != '\0'; at++)
        if (*at < '0' || *at > '9')
            return 0;
    errno = 0;
    unsigned long long value = strtoull(digits, NULL, 10);
    *firm = (uint32_t)value;
    return *digits != '\0' && errno == 0 && value <= UINT32_MAX;
}

/* Takes what stands before the record's file; 0 comes back where it is called wrongly or the table cannot be read. */
static int read_arguments(int argc, char **argv, struct table *t)
{
    t->kind = PRINTED;
    if (argc == 4 && strcmp(argv[1], "--table") == 0)
        t->kind = OWN;
    if (argc == 6 && strcmp(argv[1], "--shared") == 0 && strcmp(argv[3], "--firm") == 0)
        t->kind = SHARED;
    if ((t->kind == PRINTED && argc != 2) || (t->kind == SHARED && !read_firm(argv[4], &t->firm))) {
        fprintf(stderr, "usage: judge [--table TABLE | --shared TABLE --firm N] FILE\n");
        return 0;
    }
    return t->kind == PRINTED || read_file(argv[2], t->bytes, sizeof t->bytes, &t->length);
}

static uint32_t load(const struct table *t)
{
    if (t->kind == PRINTED)
        return NEGWISHAL_LOADED;
    return t->kind == OWN ? negwishal_load(t->bytes, t->length) : negwishal_load_for(t->firm, t->bytes, t->length);
}

static uint32_t judge(const struct table *t, const uint8_t *record, size_t length, uint64_t *report)
{
    if (t->kind == PRINTED)
        return negwishal_judge(record, length, report, NEGWISHAL_FIELDS);
    if (t->kind == OWN)
        return negwishal_judge_with(t->bytes, t->length, record, length, report, NEGWISHAL_FIELDS);
    return negwishal_judge_for(t->firm, t->bytes, t->length, record, length, report, NEGWISHAL_FIELDS);
}

int main(int argc, char **argv)
{
    static uint8_t record[4097];
    static struct table table;
    size_t length = 0;
    uint64_t r[NEGWISHAL_FIELDS];

    if (!read_arguments(argc, argv, &table) || !read_file(argv[argc - 1], record, sizeof record, &length))
        return 2;

    uint32_t loaded = load(&table);
    uint32_t judged = NEGWISHAL_JUDGED;
    memset(r, 0, sizeof r);
    if (loaded != NEGWISHAL_LOADED) /* judging would say the same of every record */
        r[NEGWISHAL_NUMBER] = loaded;
    else if (length == sizeof record) /* as the program does: more than 4,096 bytes are refusal 4 */
        r[NEGWISHAL_NUMBER] = 4;
    else
        judged = judge(&table, record, length, r);

    if (judged != NEGWISHAL_JUDGED)
        return 2;
    if (r[NEGWISHAL_VERDICT] == NEGWISHAL_REFUSED)
        printf("refused %" PRIu64 " %" PRIu64 " %" PRIu64 " %" PRIu64 "\n",
               r[NEGWISHAL_NUMBER], r[NEGWISHAL_MEMBER], r[NEGWISHAL_FIRST], r[NEGWISHAL_SECOND]);
    else
        printf("%s %" PRIu64 " %" PRIu64 " %" PRIu64 "\n",
               r[NEGWISHAL_VERDICT] == NEGWISHAL_FITS ? "fits" : "overloaded",
               r[NEGWISHAL_USE], r[NEGWISHAL_CAPACITY], r[NEGWISHAL_SHARE]);
    if (fflush(stdout) != 0 || ferror(stdout)) {
        perror("standard output");
        return 2;
    }
    return 0;
}
