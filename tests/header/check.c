/* Calls the entries of include/negwishal.h: here judging, every field of it, then the tests of the others.  Those of
 * judging, writing and reading without a table are made once more with the printed table handed in as bytes, and for either
 * firm with the printed one as its part of a shared table.  All but those of roots are made with records of version 1, then with
 * records of version 2.
 * check JOINT-B DOWELS-599 MEMBER-1-EDGE-719 */
#include <inttypes.h>
#include <stdio.h>
#include <string.h>

#include "check.h"

#define ROOM 12

int32_t version_in_use = 1;

static int faults = 0;
static int tests = 0;

void expect(const char *what, uint64_t got, uint64_t low, uint64_t high)
{
    tests++;
    if (got < low || got > high) {
        faults++;
        printf("%s: %" PRIu64 ", should be %" PRIu64 " to %" PRIu64 "\n", what, got, low, high);
    }
}

static size_t read_file(const char *name, uint8_t *bytes, size_t room)
{
    FILE *f = fopen(name, "rb");
    if (f == NULL) {
        perror(name);
        return 0;
    }
    size_t n = fread(bytes, 1, room, f);
    fclose(f);
    return n;
}

/* Judges into a slice of length numbers; the numbers past the slice and past NEGWISHAL_FIELDS must stay. */
static uint32_t judged(const uint8_t *record, size_t n, uint64_t *report, size_t length)
{
    for (size_t i = 0; i < ROOM; i++)
        report[i] = LEFT;
    uint32_t result = judge_by(record, n, report, length);
    for (size_t i = length < NEGWISHAL_FIELDS ? 0 : NEGWISHAL_FIELDS; i < ROOM; i++)
        expect("a number that must stay", report[i], LEFT, LEFT);
    return result;
}

/* The places as numbers, not by their names: verdict, number, member, first, second, use, capacity, share. */
static void fields(const char *name, const uint64_t *r, const uint64_t low[8], const uint64_t high[8])
{
    static const int named[8] = {NEGWISHAL_VERDICT, NEGWISHAL_NUMBER, NEGWISHAL_MEMBER, NEGWISHAL_FIRST,
                                 NEGWISHAL_SECOND, NEGWISHAL_USE, NEGWISHAL_CAPACITY, NEGWISHAL_SHARE};
    char what[80];
    for (int i = 0; i < 8; i++) {
        snprintf(what, sizeof what, "%s, field %d", name, i);
        expect(what, r[i], low[i], high[i]);
        expect("a name's place", (uint64_t)named[i], (uint64_t)i, (uint64_t)i);
    }
}

void judges(const char *what, const uint8_t *record, size_t n, const uint64_t low[8], const uint64_t high[8])
{
    uint64_t report[ROOM];
    expect(what, judged(record, n, report, NEGWISHAL_FIELDS), 0, 0);
    fields(what, report, low, high);
}

void short_judge(const uint8_t *record, size_t n)
{
    uint64_t report[ROOM];
    for (size_t length = 0; length < NEGWISHAL_FIELDS; length++)
        expect("a report too short", judged(record, n, report, length), 1, 1);
}

/* Joint B with eight dowels along x in wide outlines, written and judged: every second dowel off the line by 0, 1 and 119
 * tenths, upwards or downwards, is one row of eight; by 120, which is d, it is two rows of four. */
static void check_rows(void)
{
    static const int32_t off[7] = {0, 1, 119, -1, -119, 120, -120};
    static const uint64_t low[2][8] = {{2, 0, 0, 0, 0, 10669, 7440, 6395}, {1, 0, 0, 0, 0, 8371, 7440, 8151}};
    static const uint64_t high[2][8] = {{2, 0, 0, 0, 0, 10724, 7441, 6396}, {1, 0, 0, 0, 0, 8414, 7441, 8152}};
    struct values v = joint_b();
    uint8_t record[590];
    uint64_t answer[ANSWER];
    v.fields[NEGWISHAL_AT_FX] = 50000;
    for (int at = NEGWISHAL_AT_X0_1; at <= NEGWISHAL_AT_X0_2; at += NEGWISHAL_AT_X0_2 - NEGWISHAL_AT_X0_1)
        for (int k = 0; k < 4; k++)
            v.fields[at + k] = k < 2 ? -90000 : 90000;
    for (int k = 0; k < 7; k++) {
        for (int i = 0; i < 8; i++) {
            v.x[i] = 600 * i;
            v.y[i] = i % 2 * off[k];
        }
        write_by(v.fields, VALUES, v.x, 8, v.y, 8, v.x, 0, record, sizeof record, answer, ANSWER);
        expect("eight dowels, written", answer[NEGWISHAL_ANSWER_LENGTH], 142, 142);
        judges("eight dowels", record, 142, low[k >= 5], high[k >= 5]);
    }
}

/* A file's bytes: joint B, dowels too close, an edge too near. */
struct file {
    uint8_t bytes[4096];
    size_t length;
};
enum { JOINT_B, CLOSE, EDGE, FILES };

static void check_names(void)
{
    expect("NEGWISHAL_FIELDS", NEGWISHAL_FIELDS, 8, 8);
    expect("NEGWISHAL_REFUSED", NEGWISHAL_REFUSED, 0, 0);
    expect("NEGWISHAL_FITS", NEGWISHAL_FITS, 1, 1);
    expect("NEGWISHAL_OVERLOADED", NEGWISHAL_OVERLOADED, 2, 2);
    expect("NEGWISHAL_JUDGED", NEGWISHAL_JUDGED, 0, 0);
    expect("NEGWISHAL_SHORT_REPORT", NEGWISHAL_SHORT_REPORT, 1, 1);
}

static void check_judge(const struct file file[FILES])
{
    static const uint64_t b_low[8] = {1, 0, 0, 0, 0, 7431, 7440, 7346};
    static const uint64_t b_high[8] = {1, 0, 0, 0, 0, 7469, 7441, 7347};
    static const uint64_t close[8] = {0, 10, 1, 1, 2, 0, 0, 0};
    static const uint64_t edge[8] = {0, 12, 1, 3, 0, 0, 0, 0}; /* tells member and first dowel apart */
    static const uint64_t empty[8] = {0, 1, 0, 0, 0, 0, 0, 0};
    struct file b = file[JOINT_B];
    const struct file *c = &file[CLOSE], *e = &file[EDGE];
    uint64_t report[ROOM];

    for (size_t length = 0; length <= ROOM; length++) {
        uint32_t want = length < 8 ? 1 : 0;
        expect("what joint B returns", judged(b.bytes, b.length, report, length), want, want);
        if (want == 0)
            fields("joint B", report, b_low, b_high);
        expect("what the refusal returns", judged(c->bytes, c->length, report, length), want, want);
        if (want == 0)
            fields("the refusal", report, close, close);
    }
    judges("the refused edge", e->bytes, e->length, edge, edge);
    judges("no bytes", b.bytes, 0, empty, empty);

    /* joint B's fx stands in bytes 102 to 105: 27,000 N overload it */
    const uint64_t over_low[8] = {2, 0, 0, 0, 0, 10031, 7440, 7346};
    const uint64_t over_high[8] = {2, 0, 0, 0, 0, 10083, 7441, 7347};
    expect("the record is only read", (uint64_t)(memcmp(file[JOINT_B].bytes, b.bytes, b.length) != 0), 0, 0);
    b.bytes[102] = 0x78;
    b.bytes[103] = 0x69;
    judges("the overloaded joint", b.bytes, b.length, over_low, over_high);

    /* the classes of members 1 and 2 stand in bytes 22 and 42 */
    static const uint8_t classes[11] = {NEGWISHAL_C24, NEGWISHAL_C30, NEGWISHAL_GL24H, NEGWISHAL_GL24C,
                                        NEGWISHAL_GL28H, NEGWISHAL_GL28C, NEGWISHAL_GL32H, NEGWISHAL_GL32C,
                                        NEGWISHAL_D30, NEGWISHAL_D40, NEGWISHAL_D70};
    static const uint64_t unknown[8] = {0, 7, 0, 0, 0, 0, 0, 0};
    for (uint8_t k = 0; k < 11; k++) {
        expect("a class's code", classes[k], k + 1u, k + 1u);
        b.bytes[22] = b.bytes[42] = classes[k];
        expect("what a class returns", judged(b.bytes, b.length, report, 8), 0, 0);
        expect("a class's refusal", report[NEGWISHAL_NUMBER], 0, 0);
    }
    for (int at = 22; at <= 42; at += 20) {
        b.bytes[22] = b.bytes[42] = NEGWISHAL_D30;
        b.bytes[at] = NEGWISHAL_D70 + 1;
        judges("the unknown class", b.bytes, b.length, unknown, unknown);
    }
}

/* By the table in use, which is none or the printed one. */
static void check_all(const struct file file[FILES])
{
    const struct file *b = &file[JOINT_B], *c = &file[CLOSE];
    check_judge(file);
    check_rows();
    check_version(b->bytes, b->length);
    check_drawn(b->bytes, b->length);
    check_write(b->bytes, b->length);
    check_read(b->bytes, b->length, c->bytes, c->length);
}

/* By each table, and the entries that take one. */
static void check_version_in_use(const struct file file[FILES])
{
    const struct file *b = &file[JOINT_B];
    use(NULL, NULL);
    check_all(file);
    use(NULL, &PRINTED);
    check_all(file);
    for (uint32_t firm = 1; firm <= 2; firm++) {
        const struct table shared = printed_for(firm);
        use(&firm, &shared);
        check_all(file);
        use(NULL, NULL);
    }
    check_table(b->bytes, b->length);
    check_firms(b->bytes, b->length);
}

int main(int argc, char **argv)
{
    static struct file file[FILES];
    if (argc != 1 + FILES)
        return 2;
    for (int k = 0; k < FILES; k++) {
        file[k].length = read_file(argv[1 + k], file[k].bytes, sizeof file[k].bytes);
        if (file[k].length == 0)
            return 2;
    }

    check_names();
    for (version_in_use = 1; version_in_use <= 2; version_in_use++) {
        for (int k = 0; k < FILES; k++) {
            expect("a file's version", file[k].bytes[1], 0, 0);
            file[k].bytes[0] = (uint8_t)version_in_use;
        }
        check_version_in_use(file);
    }
    check_root();

    printf("header: %d tests, %d faults\n", tests, faults);
    return faults != 0;
}
