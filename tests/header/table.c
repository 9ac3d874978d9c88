/* Calls the entries that take a table: what loads, what is judged, read and written by it, what a table that does not
 * load leaves as it is. */
#include <stdio.h>
#include <string.h>

#include "check.h"

/* The printed table: code, kind, density, low byte first. */
const struct table PRINTED = {50, {1, 0, 6, 0, 44, 0,
                                   1, 0, 0x5e, 1,   /* 350 */
                                   2, 0, 0x7c, 1,   /* 380 */
                                   3, 0, 0x81, 1,   /* 385 */
                                   4, 0, 0x6d, 1,   /* 365 */
                                   5, 0, 0xa9, 1,   /* 425 */
                                   6, 0, 0x86, 1,   /* 390 */
                                   7, 0, 0xb8, 1,   /* 440 */
                                   8, 0, 0x90, 1,   /* 400 */
                                   9, 1, 0x12, 2,   /* 530, hardwood from here on */
                                   10, 1, 0x26, 2,  /* 550 */
                                   11, 1, 0x84, 3}}; /* 900 */

const struct table *in_use = NULL;
const uint32_t *firm_in_use = NULL;

void use(const uint32_t *firm, const struct table *t)
{
    firm_in_use = firm;
    in_use = t;
}

uint32_t judge_by(const uint8_t *record, size_t record_len, uint64_t *report, size_t report_len)
{
    if (in_use == NULL)
        return negwishal_judge(record, record_len, report, report_len);
    if (firm_in_use == NULL)
        return negwishal_judge_with(in_use->bytes, in_use->length, record, record_len, report, report_len);
    return negwishal_judge_for(*firm_in_use, in_use->bytes, in_use->length, record, record_len, report, report_len);
}

uint32_t write_by(const int32_t *fields, size_t fields_len, const int32_t *x, size_t x_len, const int32_t *y,
                  size_t y_len, const int32_t *marks, size_t marks_len, uint8_t *buffer, size_t buffer_len,
                  uint64_t *answer, size_t answer_len)
{
    if (in_use == NULL)
        return negwishal_write(fields, fields_len, x, x_len, y, y_len, marks, marks_len, buffer, buffer_len, answer,
                               answer_len);
    if (firm_in_use == NULL)
        return negwishal_write_with(in_use->bytes, in_use->length, fields, fields_len, x, x_len, y, y_len, marks,
                                    marks_len, buffer, buffer_len, answer, answer_len);
    return negwishal_write_for(*firm_in_use, in_use->bytes, in_use->length, fields, fields_len, x, x_len, y, y_len, marks,
                               marks_len, buffer, buffer_len, answer, answer_len);
}

uint32_t read_by(const uint8_t *record, size_t record_len, int32_t *fields, size_t fields_len, int32_t *x, size_t x_len,
                 int32_t *y, size_t y_len, int32_t *marks, size_t marks_len, uint64_t *answer, size_t answer_len)
{
    if (in_use == NULL)
        return negwishal_read(record, record_len, fields, fields_len, x, x_len, y, y_len, marks, marks_len, answer,
                              answer_len);
    if (firm_in_use == NULL)
        return negwishal_read_with(in_use->bytes, in_use->length, record, record_len, fields, fields_len, x, x_len, y,
                                   y_len, marks, marks_len, answer, answer_len);
    return negwishal_read_for(*firm_in_use, in_use->bytes, in_use->length, record, record_len, fields, fields_len, x,
                              x_len, y, y_len, marks, marks_len, answer, answer_len);
}

/* ---- what loads */

static const struct loading {
    const char *what;
    struct table table;
    uint32_t number;
} LOADING[] = {
    {"no bytes", {0, {0}}, 14},
    {"5 bytes", {5, {1, 0, 6, 0, 4}}, 14},
    {"no entry", {6, {1, 0, 6, 0, 0, 0}}, 14},
    {"no entry where the length says 4", {6, {1, 0, 6, 0, 4, 0}}, 14},
    {"count 0", {10, {0, 0, 6, 0, 4, 0, 1, 0, 0x5e, 1}}, 14},
    {"count 2", {10, {2, 0, 6, 0, 4, 0, 1, 0, 0x5e, 1}}, 14},
    {"count 257", {10, {1, 1, 6, 0, 4, 0, 1, 0, 0x5e, 1}}, 14},
    {"count 1, high byte first", {10, {0, 1, 6, 0, 4, 0, 1, 0, 0x5e, 1}}, 14},
    {"offset 5", {10, {1, 0, 5, 0, 4, 0, 1, 0, 0x5e, 1}}, 14},
    {"offset 5, sum up to the end", {9, {1, 0, 5, 0, 4, 0, 1, 0, 0x5e}}, 14},
    {"offset 7", {10, {1, 0, 7, 0, 4, 0, 1, 0, 0x5e, 1}}, 14},
    {"offset 7, sum up to the end", {11, {1, 0, 7, 0, 4, 0, 0, 1, 0, 0x5e, 1}}, 14},
    {"offset 262", {10, {1, 0, 6, 1, 4, 0, 1, 0, 0x5e, 1}}, 14},
    {"length 0 before an entry", {10, {1, 0, 6, 0, 0, 0, 1, 0, 0x5e, 1}}, 14},
    {"length 3", {9, {1, 0, 6, 0, 3, 0, 1, 0, 0x5e}}, 14},
    {"length 5", {11, {1, 0, 6, 0, 5, 0, 1, 0, 0x5e, 1, 2}}, 14},
    {"length 6", {12, {1, 0, 6, 0, 6, 0, 1, 0, 0x5e, 1, 2, 0}}, 14},
    {"length 260 of 4", {10, {1, 0, 6, 0, 4, 1, 1, 0, 0x5e, 1}}, 14},
    {"a byte less", {9, {1, 0, 6, 0, 4, 0, 1, 0, 0x5e}}, 14},
    {"a byte more", {11, {1, 0, 6, 0, 4, 0, 1, 0, 0x5e, 1, 0}}, 14},
    {"an entry less", {10, {1, 0, 6, 0, 8, 0, 1, 0, 0x5e, 1}}, 14},
    {"an entry more", {14, {1, 0, 6, 0, 4, 0, 1, 0, 0x5e, 1, 2, 0, 0x5e, 1}}, 14},
    {"a byte more and code 0", {11, {1, 0, 6, 0, 4, 0, 0, 0, 0x5e, 1, 0}}, 14},
    {"count 2 and density 0", {10, {2, 0, 6, 0, 4, 0, 1, 0, 0, 0}}, 14},
    {"length 6 and kind 2", {12, {1, 0, 6, 0, 6, 0, 1, 2, 0x5e, 1, 2, 0}}, 14},
    {"code 1, softwood 290", {10, {1, 0, 6, 0, 4, 0, 1, 0, 0x22, 1}}, 0},
    {"code 255, hardwood 1,100", {10, {1, 0, 6, 0, 4, 0, 255, 1, 0x4c, 4}}, 0},
    {"codes 1 and 255", {14, {1, 0, 6, 0, 8, 0, 1, 1, 0x5e, 1, 255, 0, 0x5e, 1}}, 0},
    {"code 0", {10, {1, 0, 6, 0, 4, 0, 0, 0, 0x5e, 1}}, 15},
    {"kind 2", {10, {1, 0, 6, 0, 4, 0, 1, 2, 0x5e, 1}}, 15},
    {"kind 255", {10, {1, 0, 6, 0, 4, 0, 1, 255, 0x5e, 1}}, 15},
    {"density 0", {10, {1, 0, 6, 0, 4, 0, 1, 0, 0, 0}}, 15},
    {"density 289", {10, {1, 0, 6, 0, 4, 0, 1, 0, 0x21, 1}}, 15},
    {"density 1,101", {10, {1, 0, 6, 0, 4, 0, 1, 0, 0x4d, 4}}, 15},
    {"density 350, high byte first", {10, {1, 0, 6, 0, 4, 0, 1, 0, 1, 0x5e}}, 15},
    {"density 65,535", {10, {1, 0, 6, 0, 4, 0, 1, 0, 255, 255}}, 15},
    {"codes equal", {14, {1, 0, 6, 0, 8, 0, 7, 0, 0x5e, 1, 7, 0, 0x5e, 1}}, 15},
    {"codes equal, woods not", {14, {1, 0, 6, 0, 8, 0, 7, 0, 0x5e, 1, 7, 1, 0x84, 3}}, 15},
    {"codes falling", {14, {1, 0, 6, 0, 8, 0, 9, 0, 0x5e, 1, 1, 0, 0x5e, 1}}, 15},
    {"third code the first", {18, {1, 0, 6, 0, 12, 0, 1, 0, 0x5e, 1, 9, 0, 0x5e, 1, 1, 0, 0x5e, 1}}, 15},
    {"code 0 last", {14, {1, 0, 6, 0, 8, 0, 1, 0, 0x5e, 1, 0, 0, 0x5e, 1}}, 15},
    {"density 289 last", {18, {1, 0, 6, 0, 12, 0, 1, 0, 0x5e, 1, 9, 0, 0x5e, 1, 11, 0, 0x21, 1}}, 15},
    {"kind 2 in the middle", {18, {1, 0, 6, 0, 12, 0, 1, 0, 0x5e, 1, 9, 2, 0x5e, 1, 11, 0, 0x22, 1}}, 15},
};

static const size_t LOADINGS = sizeof LOADING / sizeof LOADING[0];

static void put_entry(uint8_t *bytes, unsigned code, unsigned kind, unsigned density)
{
    bytes[0] = (uint8_t)code;
    bytes[1] = (uint8_t)kind;
    bytes[2] = (uint8_t)(density & 255);
    bytes[3] = (uint8_t)(density >> 8);
}

/* Of as many entries, the length as its low 16 bits. */
static void put_front(uint8_t *bytes, size_t entries)
{
    bytes[0] = 1;
    bytes[2] = 6;
    bytes[1] = bytes[3] = 0;
    bytes[4] = (uint8_t)(4 * entries & 255);
    bytes[5] = (uint8_t)(4 * entries >> 8 & 255);
}

/* A table of one entry, and one more at the end of a table. */
static struct table one_class(unsigned code, unsigned kind, unsigned density)
{
    struct table t = {10, {0}};
    put_front(t.bytes, 1);
    put_entry(t.bytes + 6, code, kind, density);
    return t;
}

static struct table and_class(struct table t, unsigned code, unsigned kind, unsigned density)
{
    put_entry(t.bytes + t.length, code, kind, density);
    t.length += 4;
    put_front(t.bytes, (t.length - 6) / 4);
    return t;
}

/* Codes 1 to n, no two woods alike. */
static unsigned kind_of(unsigned code) { return code % 2; }
static unsigned density_of(unsigned code) { return 290 + 3 * code; }

static struct table many_classes(unsigned n)
{
    struct table t = {6 + 4 * n, {0}};
    put_front(t.bytes, n);
    for (unsigned k = 1; k <= n; k++)
        put_entry(t.bytes + 2 + 4 * k, k, kind_of(k), density_of(k));
    return t;
}

static void loads(const char *what, const uint8_t *bytes, size_t length, uint32_t number)
{
    expect(what, negwishal_load(bytes, length), number, number);
}

static void check_loading(void)
{
    static uint8_t long_table[6 + 65536 + 4];
    for (size_t k = 0; k < LOADINGS; k++)
        loads(LOADING[k].what, LOADING[k].table.bytes, LOADING[k].table.length, LOADING[k].number);
    for (unsigned n = 1; n <= 255; n++) {
        struct table t = many_classes(n);
        loads("codes 1 to n", t.bytes, t.length, 0);
        loads("a byte less", t.bytes, t.length - 1, 14);
        loads("a byte more", t.bytes, t.length + 1, 14);
    }
    loads("the printed table", PRINTED.bytes, PRINTED.length, 0);

    /* more entries than codes: 256 of them, and as many as a length can say */
    for (unsigned k = 0; k < sizeof long_table / 4 - 1; k++)
        put_entry(long_table + 6 + 4 * k, k < 255 ? k + 1 : 255, 0, 350);
    put_front(long_table, 256);
    loads("256 entries", long_table, 6 + 4 * 256, 15);
    put_front(long_table, 16383);
    loads("65,538 bytes", long_table, 65538, 15);
    loads("65,537 bytes", long_table, 65537, 14);
    /* true sums: a length does not start again at 65,536 */
    put_front(long_table, 16384);
    loads("65,542 bytes, length 0", long_table, 65542, 14);
    put_front(long_table, 1);
    loads("65,546 bytes, length 4", long_table, 65546, 14);
    loads("10 bytes of them", long_table, 10, 0);
}

/* ---- a table that does not load */

/* Joint B's record with one byte changed; a byte past its end: none. */
static const struct {
    size_t at;
    uint8_t byte;
} FAULT[] = {{110, 0}, {0, 3}, {2, 5}, {8, 63}, {62, 7}, {66, 5}, {22, 12}, {42, 0}, {63, 31}, {75, 0}};

/* The number comes before all that a record or values can be refused by, and nothing is written but zeros. */
static void turned_away(const char *what, const uint8_t *b, size_t n, uint32_t number)
{
    static const int32_t versions[4] = {1, 2, 9, INT32_MIN};
    const uint64_t report[8] = {0, number, 0, 0, 0, 0, 0, 0};
    uint8_t record[111];
    for (size_t k = 0; k < sizeof FAULT / sizeof FAULT[0]; k++) {
        memcpy(record, b, n);
        record[FAULT[k].at] = FAULT[k].byte;
        judges(what, record, n, report, report);
        refuses(what, record, n, number);
    }
    for (size_t length = 0; length < 20; length++) {
        judges(what, b, length, report, report);
        refuses(what, b, length, number);
    }
    for (int k = 0; k < 4; k++)
        for (size_t x_len = 3; x_len <= 4; x_len++)
            for (size_t room = 0; room <= 110; room += 55) {
                struct values v = joint_b();
                v.fields[NEGWISHAL_AT_VERSION] = versions[k];
                v.x_len = x_len;
                wrote(what, &v, room, number, NULL);
                v.fields[NEGWISHAL_AT_CLASS_1] = 12;
                v.fields[NEGWISHAL_AT_X1_2] = -20000;
                v.fields[NEGWISHAL_AT_FX] = 0;
                wrote(what, &v, room, number, NULL);
            }
}

/* Slices too short are told before the table is looked at. */
static void short_slices(const uint8_t *b, size_t n)
{
    struct values v = joint_b();
    short_judge(b, n);
    short_judge(b, 0);
    short_read(b, n);
    short_read(b, 0);
    short_write(&v);
    v.fields[NEGWISHAL_AT_VERSION] = 9;
    short_write(&v);
}

static void check_turned_away(const uint8_t *b, size_t n)
{
    for (size_t k = 0; k < LOADINGS; k++) {
        in_use = &LOADING[k].table;
        if (LOADING[k].number != 0)
            turned_away(LOADING[k].what, b, n, LOADING[k].number);
        if (k == 0 || LOADING[k].number != LOADING[k - 1].number) /* once for each number */
            short_slices(b, n);
    }
}

/* ---- a table that loads */

/* A record of joint B in wide outlines, these classes, force across the grain. */
static size_t across(int32_t class_1, int32_t class_2, uint8_t record[110])
{
    struct values v = joint_b();
    uint64_t answer[ANSWER];
    v.fields[NEGWISHAL_AT_CLASS_1] = class_1;
    v.fields[NEGWISHAL_AT_CLASS_2] = class_2;
    v.fields[NEGWISHAL_AT_FX] = 0;
    v.fields[NEGWISHAL_AT_FY] = 20000;
    for (int at = NEGWISHAL_AT_X0_1; at <= NEGWISHAL_AT_X0_2; at += NEGWISHAL_AT_X0_2 - NEGWISHAL_AT_X0_1)
        for (int k = 0; k < 4; k++)
            v.fields[at + k] = k < 2 ? -90000 : 90000;
    expect("across, written",
           write_by(v.fields, VALUES, v.x, 4, v.y, 4, v.x, 0, record, 110, answer, ANSWER), 0, 0);
    expect("across, written", answer[NEGWISHAL_ANSWER_NUMBER], 0, 0);
    return (size_t)answer[NEGWISHAL_ANSWER_LENGTH];
}

/* Class 1 regraded.  The kind shows across the grain only. */
static void check_regraded(const uint8_t *b, size_t n)
{
    static const struct {
        const char *what;
        unsigned kind, density;
        uint64_t low[8], high[8], along_low[8], along_high[8];
    } REGRADED[] = {
        {"class 1 as softwood 350", 0, 350, {1, 0, 0, 0, 0, 8253, 4922, 7346}, {1, 0, 0, 0, 0, 8295, 4923, 7347},
         {1, 0, 0, 0, 0, 7431, 7440, 7346}, {1, 0, 0, 0, 0, 7469, 7441, 7347}},
        {"class 1 as hardwood 900", 1, 900, {1, 0, 0, 0, 0, 3539, 11480, 7346}, {1, 0, 0, 0, 0, 3557, 11481, 7347},
         {1, 0, 0, 0, 0, 4634, 11931, 7346}, {1, 0, 0, 0, 0, 4658, 11932, 7347}},
        {"class 1 as softwood 900", 0, 900, {1, 0, 0, 0, 0, 4212, 9645, 7346}, {1, 0, 0, 0, 0, 4234, 9646, 7347},
         {1, 0, 0, 0, 0, 4634, 11931, 7346}, {1, 0, 0, 0, 0, 4658, 11932, 7347}},
    };
    uint8_t record[110];
    for (size_t k = 0; k < sizeof REGRADED / sizeof REGRADED[0]; k++) {
        struct table t = one_class(1, REGRADED[k].kind, REGRADED[k].density);
        const struct table kept = t;
        in_use = &t;
        expect("across", across(1, 1, record), 110, 110);
        judges(REGRADED[k].what, record, 110, REGRADED[k].low, REGRADED[k].high);
        judges(REGRADED[k].what, b, n, REGRADED[k].along_low, REGRADED[k].along_high);
        expect("the table is only read", memcmp(&kept, &t, sizeof t) != 0, 0, 0);
        in_use = NULL; /* nothing is kept of it */
        judges("no table again", record, 110, REGRADED[0].low, REGRADED[0].high);
    }
}

/* Two woods in one joint: each member has its own. */
static void check_two_woods(void)
{
    static const uint64_t low[2][8] = {{1, 0, 0, 0, 0, 7277, 5581, 7346}, {1, 0, 0, 0, 0, 5391, 7534, 7346}};
    static const uint64_t high[2][8] = {{1, 0, 0, 0, 0, 7315, 5582, 7347}, {1, 0, 0, 0, 0, 5419, 7535, 7347}};
    const struct table t = and_class(one_class(7, 0, 350), 8, 1, 900);
    uint8_t record[110];
    in_use = &t;
    for (int k = 0; k < 2; k++) {
        across(k ? 8 : 7, k ? 7 : 8, record);
        judges(k ? "hardwood outside" : "hardwood inside", record, 110, low[k], high[k]);
    }
    in_use = NULL;
}

/* Each code of the greatest table says what it says in a table of two. */
static void check_codes(void)
{
    struct table all = many_classes(255);
    uint8_t record[110];
    for (unsigned code = 1; code <= 255; code++) {
        unsigned other = 256 - code;
        uint64_t report[NEGWISHAL_FIELDS], alone[NEGWISHAL_FIELDS];
        const struct table two = and_class(one_class(1, kind_of(code), density_of(code)), 2, kind_of(other),
                                           density_of(other));
        in_use = &two;
        across(1, 2, record);
        expect("a code alone", judge_by(record, 110, alone, NEGWISHAL_FIELDS), 0, 0);
        expect("a code alone", alone[NEGWISHAL_VERDICT], 1, 2);
        in_use = &all;
        across((int32_t)code, (int32_t)other, record);
        expect("a code of 255", judge_by(record, 110, report, NEGWISHAL_FIELDS), 0, 0);
        expect("a code of 255", memcmp(report, alone, sizeof report) != 0, 0, 0);
    }
    in_use = NULL;
}

/* The printed table as bytes: the same reports as without a table. */
static void check_printed(void)
{
    uint8_t record[110];
    for (int32_t class_1 = 1; class_1 <= 11; class_1++)
        for (int32_t class_2 = 1; class_2 <= 11; class_2++) {
            uint64_t report[2][NEGWISHAL_FIELDS];
            in_use = NULL;
            across(class_1, class_2, record);
            for (int k = 0; k < 2; k++) {
                in_use = k ? &PRINTED : NULL;
                expect("the printed table", judge_by(record, 110, report[k], NEGWISHAL_FIELDS), 0, 0);
            }
            expect("the printed table", memcmp(report[0], report[1], sizeof report[0]) != 0, 0, 0);
        }
}

/* Class 200 and a table of 200 alone: written, read back, judged as C24 is by the printed table; no other class is. */
static void check_own_class(const uint8_t *b, size_t n)
{
    static const int32_t lacking[] = {INT32_MIN, -56, -1, 0, 1, 9, 11, 199, 201, 255, 256, 456, INT32_MAX};
    static const uint64_t low[8] = {1, 0, 0, 0, 0, 7431, 7440, 7346}, high[8] = {1, 0, 0, 0, 0, 7469, 7441, 7347};
    static const uint64_t unknown[8] = {0, 7, 0, 0, 0, 0, 0, 0};
    static const int place[2] = {NEGWISHAL_AT_CLASS_1, NEGWISHAL_AT_CLASS_2};
    static const size_t byte[2] = {22, 42};
    const struct table t = one_class(200, 0, 350);
    struct values v = joint_b();
    uint8_t record[110], changed[110];
    memcpy(record, b, n);
    for (int k = 0; k < 2; k++)
        v.fields[place[k]] = record[byte[k]] = 200;

    in_use = &t;
    for (size_t room = 0; room <= 130; room++)
        wrote("class 200", &v, room, room < 110 ? 13 : 0, record);
    reads("class 200", record, n, &v);
    judges("class 200", record, n, low, high);
    for (int k = 0; k < 2; k++)
        for (size_t i = 0; i < sizeof lacking / sizeof lacking[0]; i++) {
            struct values w = v;
            w.fields[place[k]] = lacking[i];
            wrote("a class that the table lacks", &w, 110, 7, NULL);
            if (lacking[i] < 0 || lacking[i] > 255)
                continue;
            memcpy(changed, record, n);
            changed[byte[k]] = (uint8_t)lacking[i];
            refuses("a class that the table lacks", changed, n, 7);
            judges("a class that the table lacks", changed, n, unknown, unknown);
        }
    v.fields[NEGWISHAL_AT_VERSION] = 9;
    wrote("class 200, version 9", &v, 110, 2, NULL);
    v.fields[NEGWISHAL_AT_VERSION] = version_in_use;

    in_use = NULL;
    wrote("class 200, no table", &v, 110, 7, NULL);
    refuses("class 200, no table", record, n, 7);
    judges("class 200, no table", record, n, unknown, unknown);
}

/* One slice for table and record: both are only read. */
static void check_lent(const uint8_t *b, size_t n)
{
    static const uint64_t layout[8] = {0, 14, 0, 0, 0, 0, 0, 0}, few[8] = {0, 1, 0, 0, 0, 0, 0, 0};
    struct table t = {n, {0}};
    memcpy(t.bytes, b, n);
    in_use = &t;
    judges("a record for a table", t.bytes, n, layout, layout);
    refuses("a record for a table", t.bytes, n, 14);
    t = one_class(1, 0, 350);
    judges("a table for a record", t.bytes, t.length, few, few);
    refuses("a table for a record", t.bytes, t.length, 1);
    in_use = NULL;
}

void check_table(const uint8_t *b, size_t length)
{
    expect("NEGWISHAL_LOADED", NEGWISHAL_LOADED, 0, 0);
    expect("NEGWISHAL_TABLE_LAYOUT", NEGWISHAL_TABLE_LAYOUT, 14, 14);
    expect("NEGWISHAL_TABLE_ENTRY", NEGWISHAL_TABLE_ENTRY, 15, 15);
    check_loading();
    check_turned_away(b, length);
    check_regraded(b, length);
    check_two_woods();
    check_codes();
    check_printed();
    check_own_class(b, length);
    check_lent(b, length);
}
