/* Times the entries of negwishal.h against a floating-point and, with WITH_GMP, an exact version of the same jobs,
 * without and with a table of classes, a firm's own or one that two firms share, and those for whole square roots,
 * holds their answers to one another, and those on a joint drawn otherwise to those on the joint as first drawn, and
 * measures the stack.  bench [--builds OTHER OURS].. [FILE..]: the records in the files are compared too, by every
 * table; a file whose name ends in .tab is one table more, own and shared.  OTHER and OURS are shared objects of two
 * builds of the library: judging by the one is timed against judging by the other, and their reports are compared; of
 * several pairs each has the code in another place.  These two judge records of version 1 alone: an older build answers
 * 2 for version 2.
 *
 * A 'version' is one of these three programs; the version that a record names is its 'record version'. */
#define _GNU_SOURCE
#include <dlfcn.h>
#include <inttypes.h>
#include <pthread.h>
#include <stdio.h>
#include <stdlib.h>
#include <string.h>
#include <sys/mman.h>
#include <time.h>

#include "bench.h"

#define BATCHES 41
#define BATCH_NS 4000000.0
#define TIMED 7
#define JOINTS 8 /* the timed ones, and one that is not timed */
#define TABLED 7    /* joint B, timed by so many tables */
#define VERSIONED 6 /* three joints, timed in record versions 1 and 2 */
#define THICK 2     /* joints that are timed with many thicknesses of member 1 */
#define THICKNESSES 100

static const struct {
    const char *name;
    judge_fn *judge;
    write_fn *write;
    read_fn *read;
    load_fn *load;
    judge_with_fn *judge_with;
    write_with_fn *write_with;
    read_with_fn *read_with;
    load_for_fn *load_for;
    judge_for_fn *judge_for;
    write_for_fn *write_for;
    read_for_fn *read_for;
    root_fn *root_bracket;
    root_fn *whole_root;
} VERSION[] = {
    {"proved", negwishal_judge, negwishal_write, negwishal_read, negwishal_load, negwishal_judge_with,
     negwishal_write_with, negwishal_read_with, negwishal_load_for, negwishal_judge_for, negwishal_write_for,
     negwishal_read_for, negwishal_root_bracket, negwishal_whole_root},
    {"float", float_judge, float_write, float_read, float_load, float_judge_with, float_write_with, float_read_with,
     float_load_for, float_judge_for, float_write_for, float_read_for, float_root_bracket, float_whole_root},
#ifdef WITH_GMP
    {"GMP", exact_judge, exact_write, exact_read, exact_load, exact_judge_with, exact_write_with, exact_read_with,
     exact_load_for, exact_judge_for, exact_write_for, exact_read_for, exact_root_bracket, exact_whole_root},
#endif
};
enum { VERSIONS = sizeof VERSION / sizeof VERSION[0] };

enum job { JUDGE, WRITE, READ, JOBS };
static const char *const JOB[JOBS] = {"judge", "write", "read"};

/* A record's values: what negwishal_read hands out and negwishal_write takes. */
#define VALUES 27
#define OF_MEMBER 9 /* the numbers of member 2 stand so much further on than those of member 1 */
#define LOW 7       /* x0 and y0 of member 1 */
#define HIGH 9
#define DIAMETER 20
#define FORCE 25
#define DOWELS 64
#define ROOM 600
struct values {
    int32_t fields[VALUES], x[DOWELS], y[DOWELS], marks[DOWELS];
    uint64_t answer[2]; /* refusal, number of dowels */
};

/* A firm's own table, or a shared one and for which firm a call works: there is room for 255 entries of 4 of each of
 * two firms behind 10 bytes, and for some bytes more. */
#define OWN_FRONT 6
#define SHARED_FRONT 10
#define ENTRY 4
#define MOST_ENTRIES 255
struct table {
    const char *name;
    int shared;
    uint32_t firm;
    size_t length;
    uint8_t bytes[SHARED_FRONT + 2 * ENTRY * MOST_ENTRIES + 8];
};

struct record {
    const char *name;
    double target_ns;
    const struct table *table; /* by which it is judged, read and written; NULL: by the entries without a table */
    size_t length;
    uint8_t bytes[4096];
    struct values values;
};

/* Slices of which so many numbers are needed, and how many. */
enum slice { REPORT, FIELDS, X, Y, MARKS, ANSWER, SLICES };
static const size_t ENOUGH[SLICES] = {8, VALUES, DOWELS, DOWELS, DOWELS, 2};

static uint32_t load_by(int version, const struct table *t)
{
    return t->shared ? VERSION[version].load_for(t->firm, t->bytes, t->length)
                     : VERSION[version].load(t->bytes, t->length);
}

/* The three jobs by a table; by the printed one where it is NULL.  n: how many numbers the slices have. */
static inline __attribute__((always_inline)) uint32_t judge_by(int version, const struct table *t,
                                                               const uint8_t *record, size_t length, const size_t *n,
                                                               uint64_t *report)
{
    if (t == NULL)
        return VERSION[version].judge(record, length, report, n[REPORT]);
    if (t->shared)
        return VERSION[version].judge_for(t->firm, t->bytes, t->length, record, length, report, n[REPORT]);
    return VERSION[version].judge_with(t->bytes, t->length, record, length, report, n[REPORT]);
}

static inline __attribute__((always_inline)) uint32_t write_by(int version, const struct table *t,
                                                               const struct values *v, size_t x_len, size_t y_len,
                                                               const size_t *n, uint8_t *buffer, size_t room,
                                                               uint64_t *answer)
{
    if (t == NULL)
        return VERSION[version].write(v->fields, n[FIELDS], v->x, x_len, v->y, y_len, v->marks, x_len, buffer, room,
                                      answer, n[ANSWER]);
    if (t->shared)
        return VERSION[version].write_for(t->firm, t->bytes, t->length, v->fields, n[FIELDS], v->x, x_len, v->y, y_len,
                                          v->marks, x_len, buffer, room, answer, n[ANSWER]);
    return VERSION[version].write_with(t->bytes, t->length, v->fields, n[FIELDS], v->x, x_len, v->y, y_len, v->marks,
                                       x_len, buffer, room, answer, n[ANSWER]);
}

static inline __attribute__((always_inline)) uint32_t read_by(int version, const struct record *r, const size_t *n,
                                                              struct values *v)
{
    const struct table *t = r->table;
    if (t == NULL)
        return VERSION[version].read(r->bytes, r->length, v->fields, n[FIELDS], v->x, n[X], v->y, n[Y], v->marks,
                                     n[MARKS], v->answer, n[ANSWER]);
    if (t->shared)
        return VERSION[version].read_for(t->firm, t->bytes, t->length, r->bytes, r->length, v->fields, n[FIELDS], v->x,
                                         n[X], v->y, n[Y], v->marks, n[MARKS], v->answer, n[ANSWER]);
    return VERSION[version].read_with(t->bytes, t->length, r->bytes, r->length, v->fields, n[FIELDS], v->x, n[X], v->y,
                                      n[Y], v->marks, n[MARKS], v->answer, n[ANSWER]);
}

static void read_values(int version, const struct record *r, struct values *v)
{
    memset(v, 0x5a, sizeof *v);
    read_by(version, r, ENOUGH, v);
}

/* What a writer leaves: refusal, length, and the buffer whole. */
struct written {
    uint64_t answer[2];
    uint8_t buffer[ROOM];
};

static void write_values(int version, const struct table *t, const struct values *v, size_t x_len, size_t y_len,
                         size_t room, struct written *w)
{
    memset(w, 0x5a, sizeof *w);
    write_by(version, t, v, x_len, y_len, ENOUGH, w->buffer, room, w->answer);
}

static unsigned u16_at(const uint8_t *b) { return b[0] | (unsigned)b[1] << 8; }

static void put16(struct record *r, unsigned v)
{
    r->bytes[r->length++] = v & 255;
    r->bytes[r->length++] = v >> 8 & 255;
}

static void put32(struct record *r, int32_t v)
{
    put16(r, (uint32_t)v & 65535);
    put16(r, (uint32_t)v >> 16);
}

static void put8(struct record *r, unsigned v) { r->bytes[r->length++] = v & 255; }

/* members: class, grain, thickness, x0, y0, x1, y1 */
static void write_record(struct record *r, const char *name, double target_ns, unsigned planes,
                         const int32_t members[2][7], unsigned d, unsigned steel, unsigned n,
                         const int32_t (*at)[2], int32_t fx, int32_t fy)
{
    const unsigned lengths[4] = {42, 3, 2 + 8 * n, 11};
    unsigned offset = 20;
    r->name = name;
    r->target_ns = target_ns;
    r->table = NULL;
    r->length = 0;
    put16(r, 1);
    put16(r, 4);
    for (int k = 0; k < 4; k++) {
        put16(r, offset);
        put16(r, lengths[k]);
        offset += lengths[k];
    }
    put8(r, 1);
    put8(r, planes);
    for (int k = 0; k < 2; k++) {
        put8(r, (unsigned)members[k][0]);
        put8(r, (unsigned)members[k][1]);
        put16(r, (unsigned)members[k][2]);
        for (int i = 3; i < 7; i++)
            put32(r, members[k][i]);
    }
    put8(r, 2);
    put8(r, d);
    put8(r, steel);
    put8(r, 3);
    put8(r, n);
    for (unsigned i = 0; i < n; i++) {
        put32(r, at[i][0]);
        put32(r, at[i][1]);
    }
    put8(r, 4);
    put8(r, 1); /* service class 1, medium */
    put8(r, 3);
    put32(r, fx);
    put32(r, fy);
}

static void write_records(struct record r[JOINTS])
{
    static const int32_t b[2][7] = {{1, 0, 600, -840, -360, 20000, 720}, {1, 0, 800, -20000, -360, 1440, 720}};
    static const int32_t four[4][2] = {{0, 0}, {600, 0}, {0, 360}, {600, 360}};
    static const int32_t rows[2][7] = {{1, 0, 600, -840, -360, 20000, 2880}, {1, 0, 800, -20000, -360, 5040, 2880}};
    static const int32_t crossed[2][7] = {
        {5, 0, 1000, -2000, -2000, 20000, 8000},
        {2, 1, 1200, -2000, -20000, 8000, 8000}};
    static const int32_t wide[2][7] = {
        {5, 0, 1000, -2000, -2000, 90000, 8000},
        {2, 1, 1200, -2000, -20000, 90000, 8000}};
    static const int32_t stairs[2][7] = {
        {5, 0, 1000, -2000, -2000, 90000, 90000},
        {2, 1, 1200, -2000, -20000, 90000, 90000}};
    static const int32_t roomy[2][7] = {
        {1, 0, 600, -90000, -90000, 90000, 90000},
        {1, 0, 800, -90000, -90000, 90000, 90000}};
    static const int32_t mixed[2][7] = {
        {4, 0, 500, -2000, -2000, 20000, 8000},
        {9, 1, 700, -2000, -20000, 8000, 8000}};
    int32_t one[64][2], near[64][2], along[64][2], grid[64][2], closing[64][2], climbing[64][2] = {{0, 0}};
    for (int i = 0; i < 64; i++) {
        one[i][0] = near[i][0] = 600 * i - 19000;
        one[i][1] = 0;
        /* less than d further across than the one before: 63 rows of two */
        near[i][1] = 100 * i;
        along[i][0] = 600 * (i % 8);
        along[i][1] = 360 * (i / 8);
        grid[i][0] = 650 * (i % 8);
        grid[i][1] = 610 * (i / 8);
        /* each row closer than the one before it */
        closing[i][0] = (900 - 30 * (i / 8)) * (i % 8) + i / 8;
        closing[i][1] = 610 * (i / 8);
        /* by turns along x and y, each step shorter than the one before it: 63 rows of two in all */
        for (int a = 0; a < 2 && i > 0; a++)
            climbing[i][a] = climbing[i - 1][a] + (i % 2 != a ? 1500 - 14 * i : 0);
    }
    write_record(&r[0], "joint B", 30000, 2, b, 12, 1, 4, four, 20000, 0);
    write_record(&r[1], "64, 8 rows of 8 along", 100000, 2, rows, 12, 1, 64, along, 200000, 0);
    write_record(&r[2], "64, skew, crossed grains", 100000, 1, crossed, 12, 3, 64, grid, 120000, -170000);
    write_record(&r[3], "64, skew, rows all unlike", 100000, 1, wide, 12, 3, 64, closing, 120000, -170000);
    write_record(&r[4], "64, skew, shrinking stair", 100000, 1, stairs, 12, 3, 64, climbing, 120000, -170000);
    write_record(&r[5], "64, one row", 100000, 2, roomy, 12, 1, 64, one, 200000, 0);
    write_record(&r[6], "64, stair within reach", 100000, 2, roomy, 12, 1, 64, near, 200000, 0);
    write_record(&r[7], "64, skew, oak in softwood", 0, 2, mixed, 12, 1, 64, grid, 120000, -170000);
}

/* ---- tables */

static void put_entry(struct table *t, unsigned code, unsigned kind, unsigned density)
{
    const uint8_t entry[ENTRY] = {(uint8_t)code, (uint8_t)kind, (uint8_t)density, (uint8_t)(density >> 8)};
    memcpy(t->bytes + t->length, entry, sizeof entry);
    t->length += sizeof entry;
}

static void put_numbers(uint8_t *bytes, const size_t *number, int many)
{
    for (int k = 0; k < many; k++) {
        bytes[2 * k] = (uint8_t)number[k];
        bytes[2 * k + 1] = (uint8_t)(number[k] >> 8);
    }
}

/* count, offset and, as it now is, the length of the entries */
static void put_front(struct table *t)
{
    put_numbers(t->bytes, (const size_t[]){1, OWN_FRONT, t->length - OWN_FRONT}, 3);
}

/* count, and offset and length of both firms' entries */
static void put_shared_front(uint8_t *bytes, size_t length_1, size_t length_2)
{
    put_numbers(bytes, (const size_t[]){2, SHARED_FRONT, length_1, SHARED_FRONT + length_1, length_2}, 5);
}

static struct table *start(struct table *t, const char *name)
{
    t->name = name;
    t->shared = 0;
    t->length = OWN_FRONT;
    return t;
}

static void put_bytes(struct table *t, const uint8_t *bytes, size_t length)
{
    memcpy(t->bytes + t->length, bytes, length);
    t->length += length;
}

/* What stands behind the front of a firm's own table, right or faulty. */
static size_t entries_length(const struct table *own) { return own->length < OWN_FRONT ? 0 : own->length - OWN_FRONT; }

/* A table that two firms share, with what stands behind the fronts of two of their own. */
static void share(struct table *t, const char *name, const struct table *own_1, const struct table *own_2,
                  uint32_t firm)
{
    t->name = name;
    t->shared = 1;
    t->firm = firm;
    t->length = SHARED_FRONT;
    put_bytes(t, own_1->bytes + OWN_FRONT, entries_length(own_1));
    put_bytes(t, own_2->bytes + OWN_FRONT, entries_length(own_2));
    put_shared_front(t->bytes, entries_length(own_1), entries_length(own_2));
}

static void one_class(struct table *t, const char *name, unsigned code, unsigned kind, unsigned density)
{
    put_entry(start(t, name), code, kind, density);
    put_front(t);
}

enum {
    PRINTED, /* in this layout */
    HARD_900,
    SOFT_900,
    CODES_255,
    ALONE,
    LACKING,
    NO_BYTES,
    LATE,
    TRAILING,
    DENSE,
    EQUAL,
    BOTH_FAULTS,
    TABLES
};
static struct table tables[TABLES + 8]; /* and those from files */

/* The class of joint B's members where it is judged by a table. */
static uint8_t class_by(int table) { return table == CODES_255 ? 255 : table == ALONE ? 200 : 1; }

static void write_tables(void)
{
    static const uint16_t printed[11] = {350, 380, 385, 365, 425, 390, 440, 400, 530, 550, 900};
    start(&tables[PRINTED], "printed, 11 entries");
    for (unsigned k = 0; k < 11; k++)
        put_entry(&tables[PRINTED], k + 1, k >= 8, printed[k]);
    put_front(&tables[PRINTED]);
    one_class(&tables[HARD_900], "class 1 hardwood 900", 1, 1, 900);
    one_class(&tables[SOFT_900], "class 1 softwood 900", 1, 0, 900);
    start(&tables[CODES_255], "255 entries, class last"); /* the last is class 1 of the printed one */
    for (unsigned k = 1; k < 255; k++)
        put_entry(&tables[CODES_255], k, k % 2, 290 + 3 * k);
    put_entry(&tables[CODES_255], 255, 0, printed[0]);
    put_front(&tables[CODES_255]);
    one_class(&tables[ALONE], "200 alone, class 200", 200, 1, 660);
    one_class(&tables[LACKING], "200 alone, class 1", 200, 1, 660);
    start(&tables[NO_BYTES], "14: no bytes")->length = 0;
    one_class(&tables[LATE], "14: offset 7", 1, 0, 350);
    tables[LATE].bytes[2] = 7;
    one_class(&tables[TRAILING], "14: a byte more", 1, 0, 350);
    tables[TRAILING].length++;
    one_class(&tables[DENSE], "15: density 1,101", 1, 0, 1101);
    one_class(&tables[EQUAL], "15: codes equal", 1, 0, 350);
    put_entry(&tables[EQUAL], 1, 1, 900);
    put_front(&tables[EQUAL]);
    one_class(&tables[BOTH_FAULTS], "14 before 15", 0, 0, 350);
    tables[BOTH_FAULTS].length++;
}

static void set_record_version(struct record *r, unsigned record_version)
{
    r->bytes[0] = (uint8_t)record_version;
    r->bytes[1] = (uint8_t)(record_version >> 8);
}

/* The classes of members 1 and 2 of a record that write_record wrote. */
static void set_classes(struct record *r, uint8_t class_1, uint8_t class_2)
{
    r->bytes[22] = class_1;
    r->bytes[42] = class_2;
}

/* Joint B in wide outlines, the force across the grain: there the kind of wood shows. */
static void write_across(struct record *r, const struct table *t, uint8_t class)
{
    static const int32_t roomy[2][7] = {
        {1, 0, 600, -90000, -90000, 90000, 90000},
        {1, 0, 800, -90000, -90000, 90000, 90000}};
    static const int32_t four[4][2] = {{0, 0}, {600, 0}, {0, 360}, {600, 360}};
    write_record(r, t->name, 0, 2, roomy, 12, 1, 4, four, 0, 20000);
    set_classes(r, class, class);
    r->table = t;
}

/* Joint B by the printed table, by its 11 entries, and by 255 entries of which the last is its class; then by two
 * stretches of 11 and of 255, for each firm. */
static void write_tabled(struct record r[TABLED], const struct record *b)
{
    static const struct {
        const char *name;
        int table;
        uint32_t firm; /* 0: the table is its own */
    } row[TABLED] = {
        {"printed table", 0, 0},
        {"table of 11", PRINTED, 0},
        {"table of 255, class last", CODES_255, 0},
        {"11 + 11 shared, firm 1", PRINTED, 1},
        {"11 + 11 shared, firm 2", PRINTED, 2},
        {"255 + 255 shared, firm 1", CODES_255, 1},
        {"255 + 255 shared, firm 2", CODES_255, 2},
    };
    static struct table shared[TABLED];
    for (int k = 0; k < TABLED; k++) {
        const struct table *own = &tables[row[k].table];
        if (row[k].firm != 0)
            share(&shared[k], row[k].name, own, own, row[k].firm);
        r[k] = *b;
        r[k].name = row[k].name;
        r[k].table = k == 0 ? NULL : row[k].firm == 0 ? own : &shared[k];
        set_classes(&r[k], class_by(row[k].table), class_by(row[k].table));
    }
}

/* The record in record version 2, or in 1 where it is in 2. */
static void write_other_version(struct record *other, const struct record *r)
{
    *other = *r;
    set_record_version(other, u16_at(r->bytes) == 2 ? 1 : 2);
}

/* Joint B, whose edges are not loaded, and two joints under a skew force: each in record version 1 and in 2. */
static void write_versioned(struct record r[VERSIONED], const struct record *b, const struct record *four,
                            const struct record *many)
{
    static const char *const name[VERSIONED] = {"joint B", "joint B, version 2",
                                                "4, skew, crossed grains", "4, skew, version 2",
                                                "64, skew, crossed grains", "64, skew, version 2"};
    const struct record *joint[VERSIONED / 2] = {b, four, many};
    for (int k = 0; k < VERSIONED; k++) {
        r[k] = *joint[k / 2];
        r[k].name = name[k];
        set_record_version(&r[k], 1 + (unsigned)k % 2);
    }
}

/* Joint B, and one of unlike classes with crossed grains and one shear plane, with member 1 40 mm thick and more. */
static void write_thick(struct record r[THICK][THICKNESSES], const struct record *b)
{
    static const int32_t mixed[2][7] = {
        {4, 0, 400, -2000, -2000, 20000, 8000},
        {9, 1, 700, -2000, -20000, 8000, 8000}};
    static const int32_t four[4][2] = {{0, 0}, {650, 0}, {0, 610}, {650, 610}};
    r[0][0] = *b;
    r[0][0].name = "one joint, 100 thicknesses of member 1";
    write_record(&r[1][0], "one joint, 100 thicknesses of member 1, p = 1", 0, 1, mixed, 12, 1, 4, four, 6000, -8500);
    for (int k = 0; k < THICK; k++)
        for (unsigned i = 0; i < THICKNESSES; i++) {
            unsigned thickness = 400 + 20 * i;
            r[k][i] = r[k][0];
            r[k][i].bytes[24] = (uint8_t)thickness;
            r[k][i].bytes[25] = (uint8_t)(thickness >> 8);
        }
}

static double now_ns(void)
{
    struct timespec t;
    clock_gettime(CLOCK_MONOTONIC, &t);
    return 1e9 * (double)t.tv_sec + (double)t.tv_nsec;
}

/* What a call writes to. */
struct out {
    struct values values;
    uint64_t report[8];
    uint8_t buffer[ROOM];
};
static struct out out; /* of the timed and the measured calls */

/* One call of a job with slices of n numbers; the record's values are those that the proved version read. */
static inline __attribute__((always_inline)) uint32_t call(enum job job, int version, const struct record *r,
                                                           const size_t *n, struct out *to)
{
    const struct values *in = &r->values;
    if (job == JUDGE)
        return judge_by(version, r->table, r->bytes, r->length, n, to->report);
    if (job == WRITE)
        return write_by(version, r->table, in, in->answer[1], in->answer[1], n, to->buffer, ROOM, to->report);
    return read_by(version, r, n, &to->values);
}

/* What is timed: an entry, called with each of so many records or numbers, and again, round after round. */
struct timed {
    const char *name;
    void (*rounds)(const struct timed *t, long rounds);
    int many;
    const struct record *records;
    enum job job;
    int version;
    judge_fn *judge; /* of one of two builds */
    const uint64_t *numbers;
    root_fn *root;
    long rounds_a_batch;
    double ns[BATCHES]; /* a call */
};

static void do_job(const struct timed *t, long rounds)
{
    for (long i = 0; i < rounds; i++)
        for (int k = 0; k < t->many; k++)
            call(t->job, t->version, &t->records[k], ENOUGH, &out);
}

static void judge_by_build(const struct timed *t, long rounds)
{
    for (long i = 0; i < rounds; i++)
        for (int k = 0; k < t->many; k++)
            t->judge(t->records[k].bytes, t->records[k].length, out.report, 8);
}

static void find_roots(const struct timed *t, long rounds)
{
    for (long i = 0; i < rounds; i++)
        for (int k = 0; k < t->many; k++)
            t->root(t->numbers[k], out.report, 8);
}

/* Nanoseconds a round. */
static double batch(const struct timed *t, long rounds)
{
    double start = now_ns();
    t->rounds(t, rounds);
    return (now_ns() - start) / (double)rounds;
}

static int order(const void *a, const void *b)
{
    double x = *(const double *)a, y = *(const double *)b;
    return (x > y) - (x < y);
}

/* They take turns, batch by batch. */
static void time_in_turn(struct timed *t, int many)
{
    for (int i = 0; i < many; i++) {
        batch(&t[i], 50);
        t[i].rounds_a_batch = 1 + (long)(BATCH_NS / batch(&t[i], 50));
    }
    for (int k = 0; k < BATCHES; k++)
        for (int i = 0; i < many; i++)
            t[i].ns[k] = batch(&t[i], t[i].rounds_a_batch) / t[i].many;
    for (int i = 0; i < many; i++)
        qsort(t[i].ns, BATCHES, sizeof t[i].ns[0], order);
}

static double median(const struct timed *t) { return t->ns[BATCHES / 2]; }

/* Median nanoseconds a call; the records, up to TABLED, the jobs and the versions take turns. */
static void time_records(const struct record *r, int records, double ns[][JOBS][VERSIONS])
{
    static struct timed timed[TABLED * JOBS * VERSIONS];
    struct timed *t = timed;
    for (int j = 0; j < JOBS; j++)
        for (int v = 0; v < VERSIONS; v++)
            for (int i = 0; i < records; i++)
                *t++ = (struct timed){.rounds = do_job, .many = 1, .records = &r[i], .job = j, .version = v};
    time_in_turn(timed, (int)(t - timed));
    t = timed;
    for (int j = 0; j < JOBS; j++)
        for (int v = 0; v < VERSIONS; v++)
            for (int i = 0; i < records; i++)
                ns[i][j][v] = median(t++);
}

/* Whether two answers can both be right: the same refusal; C and E at most 1 apart; U at most 0.5 % and 2 apart. */
static int agree(const uint64_t *a, const uint64_t *b)
{
    if (memcmp(a + 1, b + 1, 4 * sizeof a[0]) != 0 || (a[0] == 0) != (b[0] == 0))
        return 0;
    for (int i = 6; i < 8; i++)
        if (a[i] > b[i] + 1 || b[i] > a[i] + 1)
            return 0;
    return 200 * a[5] <= 201 * b[5] + 400 && 200 * b[5] <= 201 * a[5] + 400;
}

static const char *line(const uint64_t *r)
{
    static const char *const words[] = {"refused", "fits", "overloaded"};
    static char text[4][100];
    static int turn = 0;
    char *t = text[turn++ % 4];
    if (r[0] == 0)
        snprintf(t, 100, "refused %" PRIu64 " %" PRIu64 " %" PRIu64 " %" PRIu64, r[1], r[2], r[3], r[4]);
    else
        snprintf(t, 100, "%s %" PRIu64 " %" PRIu64 " %" PRIu64, words[r[0]], r[5], r[6], r[7]);
    return t;
}

/* The values that each version reads, and the bytes that each writes from them into a buffer just long enough. */
static int values_agree(const struct record *r)
{
    struct values v[VERSIONS];
    struct written w[VERSIONS];
    int good = 1;
    for (int k = 0; k < VERSIONS; k++) {
        read_values(k, r, &v[k]);
        good = good && memcmp(&v[0], &v[k], sizeof v[k]) == 0;
        write_values(k, r->table, &v[0], v[0].answer[1], v[0].answer[1], 78 + 8 * v[0].answer[1], &w[k]);
        good = good && memcmp(&w[0], &w[k], sizeof w[k]) == 0;
    }
    if (v[0].answer[0] != 0)
        return good;
    /* what was read is written, in its version, byte for byte where the parts stand in the order of their kinds */
    int in_order = r->bytes[20] == 1 && r->bytes[62] == 2 && r->bytes[65] == 3;
    return good && w[0].answer[0] == 0 && w[0].answer[1] == r->length
        && v[0].fields[0] == (int32_t)u16_at(r->bytes) && u16_at(w[0].buffer) == u16_at(r->bytes)
        && (!in_order || memcmp(w[0].buffer, r->bytes, r->length) == 0);
}

/* The report of each version; whether they and the values agree. */
static int judged_alike(const struct record *r, uint64_t reports[VERSIONS][8])
{
    int good = values_agree(r);
    for (int v = 0; v < VERSIONS; v++) {
        judge_by(v, r->table, r->bytes, r->length, ENOUGH, reports[v]);
        good = good && agree(reports[0], reports[v]);
    }
    return good;
}

static void print_reports(const char *name, uint64_t reports[VERSIONS][8], int good)
{
    printf("%-26s", name);
    for (int v = 0; v < VERSIONS; v++)
        printf(" %-26s", line(reports[v]));
    printf(" %s\n", good ? "agree" : "DIFFER");
}

static int compare(struct record *r)
{
    uint64_t reports[VERSIONS][8];
    int good = judged_alike(r, reports);
    read_values(0, r, &r->values);
    print_reports(r->name, reports, good);
    return good;
}

/* How much was compared: how many, the refusals seen, how many differ. */
struct tally {
    int done, bad;
    uint32_t numbers;
};

static void count(struct tally *t, uint64_t number, int bad)
{
    t->done++;
    t->bad += bad;
    t->numbers |= UINT32_C(1) << (number & 31);
}

static int print_tally(const struct tally *t, const char *what)
{
    printf("%d %s; numbers", t->done, what);
    for (unsigned k = 0; k < 32; k++)
        if (t->numbers >> k & 1)
            printf(" %u", k);
    printf("; %d differ\n", t->bad);
    return t->bad;
}

/* Numbers without a pattern, the same in each run (xorshift). */
static uint64_t any_number(void)
{
    static uint64_t state = UINT64_C(0x9e3779b97f4a7c15);
    state ^= state << 13;
    state ^= state >> 7;
    return state ^= state << 17;
}

/* Tables by which all answers are the same. */
struct alike {
    int many;
    const struct table *by[3];
    uint32_t number; /* by which they are turned away where that is known without loading them, else 0 */
};

static struct alike alone(const struct table *t) { return (struct alike){1, {t}, 0}; }

static int is_whole(unsigned length) { return length != 0 && length % ENTRY == 0; }

/* Whether a shared table is laid out as one. */
static int is_laid(const struct table *t)
{
    const uint8_t *b = t->bytes;
    if (t->length < SHARED_FRONT)
        return 0;
    unsigned length_1 = u16_at(b + 4), length_2 = u16_at(b + 8);
    return u16_at(b) == 2 && u16_at(b + 2) == SHARED_FRONT && u16_at(b + 6) == SHARED_FRONT + length_1
        && SHARED_FRONT + length_1 + length_2 == t->length && is_whole(length_1) && is_whole(length_2);
}

/* A stretch with other content: 0 alone, 255 alone, the other firm's entries, or any bytes. */
static void fill(uint8_t *stretch, size_t length, const uint8_t *others, size_t others_length)
{
    const uint64_t how = any_number() % 4;
    for (size_t i = 0; i < length; i++)
        stretch[i] = how == 0 ? 0 : how == 1 ? 255 : how == 2 ? others[i % others_length] : (uint8_t)any_number();
}

/* A shared table for a firm; where it is laid out as one, so with the other firm's stretch filled anew, and a table of
 * the firm's own with the same entries.  They last until the next call. */
static struct alike for_firm(const struct table *t, uint32_t firm)
{
    static struct table asked, filled, own;
    asked = *t;
    asked.shared = 1;
    asked.firm = firm;
    if (firm != 1 && firm != 2)
        return (struct alike){1, {&asked}, 16};
    if (!is_laid(t))
        return (struct alike){1, {&asked}, 14};
    size_t length_1 = u16_at(t->bytes + 4), length_2 = u16_at(t->bytes + 8);
    filled = asked;
    uint8_t *entries_1 = filled.bytes + SHARED_FRONT, *entries_2 = entries_1 + length_1;
    start(&own, t->name);
    if (firm == 1) {
        put_bytes(&own, entries_1, length_1);
        fill(entries_2, length_2, entries_1, length_1);
    } else {
        put_bytes(&own, entries_2, length_2);
        fill(entries_1, length_1, entries_2, length_2);
    }
    put_front(&own);
    return (struct alike){3, {&asked, &filled, &own}, 0};
}

/* What each version writes of four dowels by each of the tables. */
static void compare_written(const struct alike *a, const struct values *v, size_t y_len, size_t room,
                            struct tally *tally)
{
    struct written first, w;
    int bad = 0;
    write_values(0, a->by[0], v, 4, y_len, room, &first);
    for (int n = 0; n < VERSIONS; n++)
        for (int k = 0; k < a->many; k++) {
            write_values(n, a->by[k], v, 4, y_len, room, &w);
            bad += memcmp(&first, &w, sizeof w) != 0;
        }
    count(tally, first.answer[0], bad != 0);
}

/* Joint B's values in record versions that are known and not, with each place changed, with lists cut and with buffers
 * of all lengths, written by tables alike. */
static void compare_writers(const struct record *b, const struct alike *a, struct tally *tally)
{
    static const int32_t other[] = {INT32_MIN, -1, 0, 1, 2, 3, 12, 31, 199, 257, 720, 4001, 65537, 100001, 1000001,
                                    INT32_MAX, 200, 255, 256, 258, 456, 65535, 65538};
    static const int32_t record_version[] = {1, 2, 3, 258};
    for (size_t n = 0; n < sizeof record_version / sizeof record_version[0]; n++) {
        struct values v = b->values;
        v.fields[0] = record_version[n];
        for (size_t room = 0; room <= 120; room++)
            compare_written(a, &v, 4, room, tally);
        for (int at = 0; at < VALUES; at++)
            for (size_t k = 0; k < sizeof other / sizeof other[0]; k++)
                for (size_t cut = 0; cut < 3; cut++) {
                    const int32_t before = v.fields[at];
                    v.fields[at] = other[k];
                    compare_written(a, &v, cut == 1 ? 3 : 4, cut == 2 ? 109 : 120, tally);
                    v.fields[at] = before;
                }
    }
}

/* Whether each version does the same by each of the tables: judges, reads, and writes the record's values, to the last
 * number. */
static int done_alike(struct record *r, const struct alike *a)
{
    static struct out first, o;
    int good = 1;
    for (int v = 0; v < VERSIONS; v++)
        for (int j = 0; j < JOBS; j++)
            for (int k = 0; k < a->many; k++) {
                struct out *to = k == 0 ? &first : &o;
                memset(to, 0x5a, sizeof *to);
                r->table = a->by[k];
                call(j, v, r, ENOUGH, to);
                good = good && memcmp(&first, to, sizeof *to) == 0;
            }
    r->table = a->by[0];
    return good;
}

/* Each record as it is and with classes that a table may have, by these tables. */
static void compare_by(const struct alike *a, const struct record *r, int records, struct tally *tally)
{
    static const uint8_t classes[][2] = {{0, 0}, {1, 200}, {200, 200}, {9, 255}, {255, 1}};
    static struct record by;
    uint64_t reports[VERSIONS][8];
    for (int i = 0; i < records; i++)
        for (size_t k = 0; k < sizeof classes / sizeof classes[0]; k++) {
            by = r[i];
            by.table = a->by[0];
            if (k > 0)
                set_classes(&by, classes[k][0], classes[k][1]);
            int good = judged_alike(&by, reports);
            if (a->many > 1) {
                read_values(0, &by, &by.values);
                good = done_alike(&by, a) && good;
            }
            if (!good) {
                printf("record version %u, by the table '%s':\n", u16_at(by.bytes), by.table->name);
                print_reports(by.name, reports, good);
            }
            count(tally, reports[0][1], !good);
        }
}

/* What each version says of tables alike, and of joint B by each of them. */
static void compare_loading(const struct alike *a, const struct record *b, struct tally *tally)
{
    uint64_t reports[VERSIONS][8], same[8];
    uint32_t loaded = load_by(0, a->by[0]);
    int bad = a->number != 0 && loaded != a->number;
    for (int v = 0; v < VERSIONS; v++) {
        judge_by(v, a->by[0], b->bytes, b->length, ENOUGH, reports[v]);
        bad += !agree(reports[0], reports[v]) || (loaded != 0 && reports[v][1] != loaded);
        for (int k = 0; k < a->many; k++) {
            bad += load_by(v, a->by[k]) != loaded;
            judge_by(v, a->by[k], b->bytes, b->length, ENOUGH, same);
            bad += memcmp(same, reports[v], sizeof same) != 0;
        }
    }
    if (bad != 0 && tally->bad < 5)
        print_reports(a->by[0]->name, reports, 0);
    count(tally, loaded, bad != 0);
}

/* So of a shared table for firms of many numbers. */
static void compare_firms(const struct table *t, const struct record *b, struct tally *tally)
{
    static const uint32_t firms[] = {0, 1, 2, 3, 4, 255, 256, 257, 258, 65536, 65537, 65538, UINT32_C(0x1000001),
                                     UINT32_C(0x80000002), UINT32_MAX};
    for (size_t k = 0; k < sizeof firms / sizeof firms[0]; k++) {
        const struct alike a = for_firm(t, firms[k]);
        compare_loading(&a, b, tally);
    }
}

static void compare_table(const struct table *t, const struct record *b, struct tally *tally)
{
    if (t->shared) {
        compare_firms(t, b, tally);
        return;
    }
    const struct alike a = alone(t);
    compare_loading(&a, b, tally);
}

/* A table cut and with bytes more; each byte changed, with a step of 1 to each value, as it is and with a byte more. */
static void compare_damaged(const struct table *base, unsigned step, const struct record *b, struct tally *tally)
{
    static struct table t;
    t = *base;
    for (t.length = 0; t.length <= base->length + 8; t.length++)
        compare_table(&t, b, tally);
    for (size_t at = 0; at < base->length; at++)
        for (unsigned change = 1; change < 256; change += step)
            for (size_t more = 0; more < 2; more++) {
                t = *base;
                t.length += more;
                t.bytes[at] ^= (uint8_t)change;
                compare_table(&t, b, tally);
            }
}

/* Tables of three entries, the first and the last at a limit: cut and with bytes more, whatever length they say, and
 * damaged. */
static void compare_loadings(const struct record *b, struct tally *tally)
{
    static struct table base, t;
    put_entry(start(&base, "three entries"), 1, 0, 290);
    put_entry(&base, 9, 1, 580);
    put_entry(&base, 200, 1, 1100);
    put_front(&base);
    t = base;
    for (t.length = 0; t.length <= base.length + 8; t.length++)
        for (unsigned said = 0; said <= 24; said++) { /* the length that it says */
            t.bytes[4] = (uint8_t)said;
            compare_table(&t, b, tally);
        }
    compare_damaged(&base, 1, b, tally);
}

/* The same of a table that two firms share, of two entries and three, whatever length it says of either. */
static void compare_shared_loadings(const struct record *b, struct tally *tally)
{
    static struct table own_1, own_2, base, t;
    put_entry(start(&own_1, "two entries"), 1, 0, 290);
    put_entry(&own_1, 200, 1, 1100);
    put_entry(start(&own_2, "three entries"), 1, 1, 580);
    put_entry(&own_2, 9, 0, 600);
    put_entry(&own_2, 255, 1, 1100);
    share(&base, "two entries and three", &own_1, &own_2, 0);
    t = base;
    for (t.length = 0; t.length <= base.length + 8; t.length++)
        for (size_t length_1 = 0; length_1 <= 18; length_1++)
            for (size_t length_2 = 0; length_2 <= 22; length_2++) {
                put_shared_front(t.bytes, length_1, length_2);
                compare_table(&t, b, tally);
            }
    compare_damaged(&base, 1, b, tally);
}

/* Shared tables with more bytes than 16 bits count, of one right entry and zeros: whole, and as long as 16 bits say. */
static void compare_long(struct tally *tally)
{
    static const size_t lengths[][2] = {{4, 65516}, {4, 65520}, {4, 65524}, {4, 65532}, {65520, 4}, {65524, 4},
                                        {65528, 4}, {65524, 65532}};
    static uint8_t bytes[SHARED_FRONT + 2 * 65536] = {[SHARED_FRONT] = 1, 0, 350 & 255, 350 >> 8};
    for (size_t k = 0; k < sizeof lengths / sizeof lengths[0]; k++)
        for (int cut = 0; cut < 2; cut++)
            for (uint32_t firm = 0; firm <= 3; firm++) {
                size_t whole = SHARED_FRONT + lengths[k][0] + lengths[k][1];
                size_t length = cut ? whole % 65536 : whole;
                put_shared_front(bytes, lengths[k][0], lengths[k][1]);
                uint32_t loaded = VERSION[0].load_for(firm, bytes, length);
                int bad = 0;
                for (int v = 1; v < VERSIONS; v++)
                    bad += VERSION[v].load_for(firm, bytes, length) != loaded;
                count(tally, loaded, bad != 0);
            }
}

/* Whether the versions leave the same where this slice is a number short, or none is, and return this code; nothing is
 * to be left where that is not 0. */
static int short_alike(enum job job, const struct record *r, enum slice slice, uint32_t code)
{
    static struct out first, o;
    size_t n[SLICES];
    int good = 1;
    memcpy(n, ENOUGH, sizeof n);
    if (slice < SLICES)
        n[slice]--;
    memset(&first, 0x5a, sizeof first);
    if (code == 0)
        call(job, 0, r, n, &first);
    for (int v = 0; v < VERSIONS; v++) {
        memset(&o, 0x5a, sizeof o);
        good = good && call(job, v, r, n, &o) == code;
        if (code == 0 && job == JUDGE)
            good = good && agree(first.report, o.report);
        else
            good = good && memcmp(&first, &o, sizeof o) == 0;
    }
    return good;
}

/* Each job by tables right and turned away, with enough and with each slice in turn a number short: 1 where the job
 * needs it, whatever the table. */
static void compare_short(const struct record *b, struct tally *tally)
{
    static const unsigned needed[JOBS] = {
        [JUDGE] = 1 << REPORT,
        [WRITE] = 1 << FIELDS | 1 << ANSWER,
        [READ] = 1 << FIELDS | 1 << X | 1 << Y | 1 << MARKS | 1 << ANSWER,
    };
    static struct table shared[6];
    static struct record by;
    const struct table *const one = &tables[HARD_900], *const other = &tables[SOFT_900];
    const struct table *tried[] = {NULL, one, &tables[LATE], &tables[DENSE], &shared[0], &shared[1], &shared[2],
                                   &shared[3], &shared[4], &shared[5]};
    share(&shared[0], "right, firm 1", one, other, 1);
    share(&shared[1], "right, firm 2", one, other, 2);
    share(&shared[2], "firm 257", one, other, 257);
    share(&shared[3], "14, firm 0", &tables[TRAILING], other, 0);
    share(&shared[4], "14, firm 1", one, &tables[TRAILING], 1);
    share(&shared[5], "15, firm 1", &tables[DENSE], other, 1);
    by = *b;
    for (unsigned record_version = 1; record_version <= 2; record_version++) {
        set_record_version(&by, record_version);
        by.values.fields[0] = (int32_t)record_version;
        for (size_t k = 0; k < sizeof tried / sizeof tried[0]; k++)
            for (int slice = 0; slice <= SLICES; slice++)
                for (int j = 0; j < JOBS; j++) {
                    uint32_t code = needed[j] >> slice & 1;
                    by.table = tried[k];
                    count(tally, code, !short_alike(j, &by, slice, code));
                }
    }
}

/* The joints with many thicknesses, in both record versions. */
static int compare_thick(const struct record thick[THICK][THICKNESSES])
{
    static struct record r;
    struct tally tally = {0, 0, 0};
    uint64_t reports[VERSIONS][8];
    for (int k = 0; k < THICK; k++)
        for (int i = 0; i < 2 * THICKNESSES; i++) {
            r = thick[k][i / 2];
            set_record_version(&r, 1 + (unsigned)i % 2);
            int good = judged_alike(&r, reports);
            if (!good)
                print_reports("another thickness", reports, good);
            count(&tally, reports[0][1], !good);
        }
    return print_tally(&tally, "joints of other thicknesses judged, read and written again");
}

/* ---- the same joint drawn otherwise */

/* What is done to a joint's values, in this order.  Moved: up in x and down in y where it is above 0, and the other way
 * below it. */
#define DRAWINGS 5
static const struct drawing {
    const char *name;
    int relisted, mirrored[2], moved;
} DRAWING[DRAWINGS] = {
    {"relisted", 1, {0, 0}, 0},      {"moved", 0, {0, 0}, 1},         {"mirrored in x", 0, {1, 0}, 0},
    {"mirrored in y", 0, {0, 1}, 0}, {"all of these", 1, {1, 1}, -1},
};

/* The numbers along an axis: of the dowels, then low and high of members 1 and 2. */
static size_t numbers_along(int axis, struct values *v, int32_t *at[DOWELS + 4])
{
    size_t n = 0;
    for (; n < v->answer[1]; n++)
        at[n] = axis == 0 ? &v->x[n] : &v->y[n];
    for (int k = 0; k < 4; k++)
        at[n++] = &v->fields[k / 2 * OF_MEMBER + (k % 2 == 0 ? LOW : HIGH) + axis];
    return n;
}

static void exchange(int32_t *a, int32_t *b)
{
    const int32_t before = *a;
    *a = *b;
    *b = before;
}

/* By chance, but no dowel keeps its place where there are two or more. */
static void relist(struct values *v)
{
    for (size_t i = v->answer[1] - 1; i > 0; i--) {
        const size_t k = any_number() % i;
        exchange(&v->x[i], &v->x[k]);
        exchange(&v->y[i], &v->y[k]);
        exchange(&v->marks[i], &v->marks[k]);
    }
}

static void mirror(int axis, struct values *v)
{
    int32_t *at[DOWELS + 4];
    const size_t n = numbers_along(axis, v, at);
    for (size_t i = 0; i < n; i++)
        *at[i] = -*at[i];
    exchange(at[n - 4], at[n - 3]);
    exchange(at[n - 2], at[n - 1]);
    v->fields[FORCE + axis] = -v->fields[FORCE + axis];
}

/* Up or down as far as coordinates go. */
static void move(int axis, int up, struct values *v)
{
    int32_t *at[DOWELS + 4], least = 100000, greatest = -100000;
    const size_t n = numbers_along(axis, v, at);
    for (size_t i = 0; i < n; i++) {
        least = *at[i] < least ? *at[i] : least;
        greatest = *at[i] > greatest ? *at[i] : greatest;
    }
    for (size_t i = 0; i < n; i++)
        *at[i] += up ? 100000 - greatest : -100000 - least;
}

/* The record of these values, as the proved version writes it, for the same calls as r. */
static void write_like(struct record *to, const struct record *r, const struct values *v)
{
    uint64_t answer[2];
    write_by(0, r->table, v, v->answer[1], v->answer[1], ENOUGH, to->bytes, ROOM, answer);
    to->name = r->name;
    to->table = r->table;
    to->length = answer[1];
}

/* The joint of these values, which are r's, drawn otherwise. */
static void draw(struct record *drawn, const struct record *r, const struct values *values, const struct drawing *how)
{
    struct values v = *values;
    if (how->relisted)
        relist(&v);
    for (int axis = 0; axis < 2; axis++) {
        if (how->mirrored[axis])
            mirror(axis, &v);
        if (how->moved != 0)
            move(axis, (how->moved > 0) == (axis == 0), &v);
    }
    write_like(drawn, r, &v);
}

/* Whether two reports are the same but for the dowels that they name. */
static int same_but_dowels(const uint64_t *a, const uint64_t *b)
{
    return memcmp(a, b, 3 * sizeof a[0]) == 0 && memcmp(a + 5, b + 5, 3 * sizeof a[0]) == 0;
}

/* A joint that can be read, drawn otherwise in each way: whether the versions agree, and whether each says what it says
 * of the joint as first drawn. */
static void compare_drawings(const struct record *r, struct tally tally[2])
{
    static struct record drawn;
    uint64_t first[VERSIONS][8], reports[VERSIONS][8];
    struct values values;
    read_values(0, r, &values);
    if (values.answer[0] != 0)
        return;
    const int first_good = judged_alike(r, first);
    for (int k = 0; k < DRAWINGS; k++) {
        draw(&drawn, r, &values, &DRAWING[k]);
        const int good = judged_alike(&drawn, reports), before = tally[0].bad + tally[1].bad;
        count(&tally[0], reports[0][1], !good);
        for (int v = 0; v < VERSIONS; v++)
            count(&tally[1], reports[v][1], !same_but_dowels(first[v], reports[v]));
        if (before < 5 && tally[0].bad + tally[1].bad != before) {
            print_reports(r->name, first, first_good);
            print_reports(DRAWING[k].name, reports, 0);
        }
    }
}

/* Another diameter, one limit of an outline near the outermost dowel, and the force turned by quarters, or any other:
 * half of these joints are refused by 10 to 12. */
static void vary(struct values *v)
{
    const unsigned quarters = any_number() % 8; /* 4 and more: any force */
    int32_t *at[DOWELS + 4];
    const size_t n = numbers_along(any_number() % 2, v, at), limit = any_number() % 4;
    const int high = limit % 2;
    int32_t outermost = *at[0];
    for (size_t i = 1; i < n - 4; i++)
        if (high ? *at[i] > outermost : *at[i] < outermost)
            outermost = *at[i];
    const int32_t near = 200 + (int32_t)(any_number() % 1000);
    *at[n - 4 + limit] = high ? outermost + near : outermost - near;
    v->fields[DIAMETER] = 6 + (int32_t)(any_number() % 10);
    for (unsigned k = 0; k < quarters && quarters < 4; k++) {
        exchange(&v->fields[FORCE], &v->fields[FORCE + 1]);
        v->fields[FORCE] = -v->fields[FORCE];
    }
    for (int axis = 0; axis < 2 && quarters >= 4; axis++)
        v->fields[FORCE + axis] = (int32_t)(any_number() % 2000001) - 1000000;
}

/* So of a joint as it is, and of others made from it. */
static void compare_varied(const struct record *r, struct tally tally[2])
{
    static struct record varied;
    struct values first, v;
    compare_drawings(r, tally);
    read_values(0, r, &first);
    if (first.answer[0] != 0)
        return;
    for (int k = 0; k < 100; k++) {
        v = first;
        vary(&v);
        write_like(&varied, r, &v);
        compare_drawings(&varied, tally);
    }
}

/* The joints that are timed, and the records, drawn otherwise; those at edges are in the tally already. */
static int compare_drawn(const struct record *r, int records, const struct record *tabled,
                         const struct record *versioned, const struct record thick[THICK][THICKNESSES],
                         struct tally tally[2])
{
    for (int i = 0; i < records; i++)
        compare_varied(&r[i], tally);
    for (int i = 0; i < TABLED; i++)
        compare_varied(&tabled[i], tally);
    for (int i = 0; i < VERSIONED; i++)
        compare_varied(&versioned[i], tally);
    for (int i = 0; i < THICK * THICKNESSES; i++)
        compare_drawings(&thick[i / THICKNESSES][i % THICKNESSES], tally);
    return print_tally(&tally[0], "drawings judged, read and written again")
         + print_tally(&tally[1], "reports on drawings held to the one on the joint as first drawn");
}

/* ---- versions of the record, and edges */

/* Joint B in each of the 65,536 versions; in known ones and others that have these bytes or neighbour them also with
 * what is refused before the version and after it. */
static int compare_record_versions(const struct record *b)
{
    static const unsigned some[] = {0, 1, 2, 3, 255, 256, 257, 258, 512, 513, 65535};
    static struct record r;
    static struct table nobody;
    struct tally tally = {0, 0, 0};
    uint64_t reports[VERSIONS][8];
    r = *b;
    for (unsigned record_version = 0; record_version < 65536; record_version++) {
        set_record_version(&r, record_version);
        int good = judged_alike(&r, reports);
        count(&tally, reports[0][1], !good || reports[0][1] != (record_version == 1 || record_version == 2 ? 0 : 2));
    }
    share(&nobody, "16: firm 0", &tables[PRINTED], &tables[PRINTED], 0);
    for (size_t k = 0; k < sizeof some / sizeof some[0]; k++)
        for (int fault = 0; fault < 5; fault++) {
            static const unsigned numbers[5] = {1, 3, 14, 15, 16};
            unsigned number = fault == 1 && some[k] != 1 && some[k] != 2 ? 2 : numbers[fault];
            r = *b;
            set_record_version(&r, some[k]);
            r.length = fault == 0 ? 19 : b->length;
            r.bytes[2] = fault == 1 ? 5 : 4;
            r.table = fault == 2 ? &tables[LATE] : fault == 3 ? &tables[DENSE] : fault == 4 ? &nobody : NULL;
            int good = judged_alike(&r, reports);
            count(&tally, reports[0][1], !good || reports[0][1] != number);
        }
    return print_tally(&tally, "records of all record versions judged, read and written again");
}

/* The least distance to an edge in record version 2, in tenths: by the component of the force towards it, and the whole
 * force squared.  In version 1 it is 3d. */
static int32_t least_edge(unsigned d, int64_t towards, uint64_t squared)
{
    uint64_t z = 30 * d;
    if (towards > 0)
        while ((z - 20 * d) * (z - 20 * d) * squared < UINT64_C(400) * d * d * (uint64_t)(towards * towards))
            z++;
    return (int32_t)z;
}

/* Two members with four dowels, and of each member the distances from its low and its high edge: the least by record
 * version 2, and as they are. */
struct edges {
    unsigned d, grain[2];
    int32_t force[2], least[2][2], at[2][2];
};

/* Two dowels stand next to each edge.  Ends are far away. */
static void write_edges(struct record *r, const struct edges *e)
{
    static const int32_t four[4][2] = {{0, 0}, {3000, 0}, {0, 3000}, {3000, 3000}};
    int32_t members[2][7];
    for (int k = 0; k < 2; k++) {
        unsigned across = 1 - e->grain[k];
        const int32_t member[7] = {1, (int32_t)e->grain[k], 800, -90000, -90000, 90000, 90000};
        memcpy(members[k], member, sizeof member);
        members[k][3 + across] = -e->at[k][0];
        members[k][5 + across] = 3000 + e->at[k][1];
    }
    write_record(r, "edges", 0, 2, members, e->d, 1, 4, four, e->force[0], e->force[1]);
}

/* One edge of a member in record versions 1 and 2: the first dowel next to it is refused where the rule of the version
 * asks for more, and where both versions accept they judge alike to the last number.  Each 33rd joint is drawn
 * otherwise too. */
static void compare_edge(const struct edges *e, int k, int side, struct tally tally[2], struct tally drawn[2])
{
    static struct record r;
    uint64_t reports[2][VERSIONS][8];
    int good[2];
    write_edges(&r, e);
    for (int n = 0; n < 2; n++) {
        uint64_t place[4] = {0, 0, 0, 0};
        if (e->at[k][side] < (n == 0 ? 30 * (int32_t)e->d : e->least[k][side])) {
            place[0] = 12;
            place[1] = (uint64_t)k + 1;
            place[2] = side == 0 ? 1 : e->grain[k] == 0 ? 3 : 2;
        }
        set_record_version(&r, (unsigned)n + 1);
        good[n] = judged_alike(&r, reports[n]) && memcmp(reports[n][0] + 1, place, sizeof place) == 0;
        if ((2 * tally[0].done + n) % 33 == 0)
            compare_drawings(&r, drawn);
    }
    if (reports[0][0][1] == 0 && reports[1][0][1] == 0)
        good[1] = good[1] && memcmp(reports[0], reports[1], sizeof reports[0]) == 0;
    for (int n = 0; n < 2; n++) {
        if (!good[n] && tally[n].bad < 5) {
            printf("record version %d, d %u, grains %u %u, force %d %d, member %d, its %s edge at %d:\n", n + 1, e->d,
                   e->grain[0], e->grain[1], e->force[0], e->force[1], k + 1, side == 0 ? "low" : "high",
                   e->at[k][side]);
            print_reports(r.name, reports[n], 0);
        }
        count(&tally[n], reports[n][0][1], !good[n]);
    }
}

/* Each edge of each member at the limit of record version 2, a tenth beside it and at other places, with all others at
 * their limits. */
static void compare_edges_of(unsigned d, const unsigned grain[2], const int32_t force[2], struct tally tally[2],
                             struct tally drawn[2])
{
    const int32_t three = 30 * (int32_t)d, four = 40 * (int32_t)d;
    const int64_t x = force[0], y = force[1];
    struct edges e = {d, {grain[0], grain[1]}, {force[0], force[1]}, {{0, 0}, {0, 0}}, {{0, 0}, {0, 0}}};
    for (int k = 0; k < 2; k++)
        for (int side = 0; side < 2; side++) {
            int64_t up = grain[k] == 0 ? y : x; /* in member 2; member 1 gets the opposite */
            e.least[k][side] = least_edge(d, k == side ? up : -up, (uint64_t)(x * x + y * y));
        }
    memcpy(e.at, e.least, sizeof e.at);
    for (int k = 0; k < 2; k++)
        for (int side = 0; side < 2; side++) {
            const int32_t least = e.least[k][side];
            const int32_t at[] = {least, least - 1, least + 1, three, three - 1, four, four - 1, -1};
            for (size_t n = 0; n < sizeof at / sizeof at[0]; n++) {
                e.at[k][side] = at[n];
                compare_edge(&e, k, side, tally, drawn);
            }
            e.at[k][side] = least;
        }
}

/* 1 to 1,000,000 N one way or the other, great and small. */
static int32_t any_component(void)
{
    int32_t size = 1 + (int32_t)(any_number() % 1000000 >> any_number() % 20);
    return any_number() & 1 ? size : -size;
}

/* So for diameters, grains, and forces every way; then for some of each by chance. */
static int compare_edges(struct tally drawn[2])
{
    static const unsigned diameters[] = {6, 8, 11, 12, 13, 21, 22, 26, 30};
    static const int32_t forces[][2] = {
        {0, 1}, {0, 1000000},                     /* 0 across one grain */
        {1, 1000000}, {1, 20000}, {1, 2}, {1, 1}, /* 1 N across one */
        {3, 4}, {300000, 400000}, {5, 12}, {384615, 923076}, {8, 15}, {140000, 480000}, {20, 21}, /* sin α rational */
        {2, 3}, {1000000, 1000000}, {999999, 1000000}, {123457, 654321},
        {866025, 500000}, {866026, 500000}, /* 3d is hardly too little for d 30, and enough */
        /* the limit for one of the diameters is less than 1e-11 below a whole tenth, or above it: the first for d 11 by
         * 5e-14, which f64 does not see */
        {851525, 164633}, {808984, 434547}, {686573, 504622}, {633589, 284040}, {503022, 204041}, {853505, 393001},
    };
    struct tally tally[2] = {{0, 0, 0}, {0, 0, 0}};
    for (size_t i = 0; i < sizeof diameters / sizeof diameters[0]; i++)
        for (size_t f = 0; f < sizeof forces / sizeof forces[0]; f++)
            for (unsigned turn = 0; turn < 16; turn++) {
                const unsigned grain[2] = {turn & 1, turn >> 1 & 1};
                const int32_t force[2] = {turn & 4 ? -forces[f][0] : forces[f][0],
                                          turn & 8 ? -forces[f][1] : forces[f][1]};
                compare_edges_of(diameters[i], grain, force, tally, drawn);
            }
    for (int k = 0; k < 1500; k++) {
        const unsigned d = 6 + any_number() % 25, turn = any_number() % 4;
        const int32_t x = any_component(), y = any_component();
        compare_edges_of(d, (const unsigned[2]){turn & 1, turn >> 1}, (const int32_t[2]){x, y}, tally, drawn);
    }
    return print_tally(&tally[0], "records of version 1 at edges judged, read and written again")
         + print_tally(&tally[1], "records of version 2 at edges judged, read and written again");
}

/* ---- whole square roots */

/* One of 1 to 64 bits. */
static uint64_t any_of_bits(unsigned bits) { return (any_number() | UINT64_C(1) << 63) >> (64 - bits); }

/* What the two entries for roots leave, and what they return. */
struct rooted {
    uint64_t bracket[4], root[4], codes[2];
};

static void print_rooted(uint64_t n, size_t room, const struct rooted r[VERSIONS])
{
    printf("root of %" PRIu64 ", %zu numbers for the answer: DIFFER\n", n, room);
    for (int v = 0; v < VERSIONS; v++)
        printf("%10s: from %" PRIu64 " %" PRIu64 ", root %" PRIu64 " in %" PRIu64 "; %" PRIu64 " and %" PRIu64 "\n",
               VERSION[v].name, r[v].bracket[0], r[v].bracket[1], r[v].root[0], r[v].root[1], r[v].codes[0],
               r[v].codes[1]);
}

static void compare_root(uint64_t n, size_t room, struct tally *tally)
{
    struct rooted r[VERSIONS];
    int bad = 0;
    for (int v = 0; v < VERSIONS; v++) {
        memset(&r[v], 0x5a, sizeof r[v]);
        r[v].codes[0] = VERSION[v].root_bracket(n, r[v].bracket, room);
        r[v].codes[1] = VERSION[v].whole_root(n, r[v].root, room);
        bad += memcmp(&r[0], &r[v], sizeof r[v]) != 0;
    }
    if (bad != 0 && tally->bad < 5)
        print_rooted(n, room, r);
    count(tally, r[0].codes[0], bad != 0);
}

/* A number and its neighbours; those of 0 and of the greatest are each other. */
static void compare_near(uint64_t n, struct tally *tally)
{
    for (uint64_t k = 0; k < 3; k++)
        compare_root(n + k - 1, 2, tally);
}

/* Small numbers; powers of two and squares with their neighbours; numbers of every length; answers of all lengths. */
static int compare_roots(void)
{
    struct tally tally = {0, 0, 0};
    for (uint64_t n = 0; n <= 70000; n++)
        compare_root(n, 2, &tally);
    for (unsigned k = 0; k < 64; k++)
        compare_near(UINT64_C(1) << k, &tally);
    for (uint64_t root = 0; root <= 5000; root++)
        compare_near(root * root, &tally);
    for (unsigned k = 0; k < 32 * 700; k++) {
        uint64_t root = any_of_bits(1 + k % 32);
        compare_near(root * root, &tally);
    }
    compare_near(UINT64_C(0xffffffff) * UINT64_C(0xffffffff), &tally);
    compare_near(UINT64_MAX, &tally);
    for (unsigned k = 0; k < 64 * 1600; k++)
        compare_root(any_of_bits(1 + k % 64), 2, &tally);
    for (unsigned k = 0; k < 64; k++)
        for (size_t room = 0; room <= 4; room++)
            compare_root(any_of_bits(1 + k), room, &tally);
    return print_tally(&tally, "whole roots found, with the bracket of each");
}

/* Stack: a thread on a stack of its own fills all of it below its frame with one byte, calls once, and looks for the
 * lowest byte that changed.  Done with two patterns, since a call may write the pattern itself. */
#define STACK (1 << 20)
#define NEAR 256 /* bytes below the frame that are not painted: the frame's own */

struct dig {
    enum job job;
    int version;
    const struct record *record;
    uint8_t *low;
    uint8_t pattern;
    size_t depth;
};

static void *dig(void *p)
{
    struct dig *g = p;
    uint8_t *frame = __builtin_frame_address(0);
    volatile uint8_t *top = frame - NEAR;
    for (volatile uint8_t *b = g->low; b < top; b++)
        *b = g->pattern;
    call(g->job, g->version, g->record, ENOUGH, &out);
    volatile uint8_t *b = g->low;
    while (b < top && *b == g->pattern)
        b++;
    g->depth = (size_t)(frame - b);
    return NULL;
}

static size_t stack_of(enum job job, int version, const struct record *r)
{
    size_t depth = 0;
    uint8_t *stack = mmap(NULL, STACK, PROT_READ | PROT_WRITE, MAP_PRIVATE | MAP_ANONYMOUS | MAP_STACK, -1, 0);
    if (stack == MAP_FAILED)
        exit(2);
    for (int k = 0; k < 2; k++) {
        struct dig g = {job, version, r, stack, k ? 0x5a : 0xa5, 0};
        pthread_attr_t attributes;
        pthread_t thread;
        pthread_attr_init(&attributes);
        if (pthread_attr_setstack(&attributes, stack, STACK) || pthread_create(&thread, &attributes, dig, &g))
            exit(2);
        pthread_join(thread, NULL);
        pthread_attr_destroy(&attributes);
        depth = g.depth > depth ? g.depth : depth;
    }
    munmap(stack, STACK);
    return depth;
}

enum { NARROW = 26, WIDE = 46 }; /* of a table's names */

/* The first columns of a table of times, without the line's end. */
static void print_head(const char *what, int width)
{
    printf("%-*s", width, what);
    for (int v = 0; v < VERSIONS; v++)
        printf(" %10s", VERSION[v].name);
    for (int v = 1; v < VERSIONS; v++)
        printf("   proved/%-5s", VERSION[v].name);
}

static void print_row(const char *name, int width, int decimals, const double *t)
{
    printf("%-*s", width, name);
    for (int v = 0; v < VERSIONS; v++)
        printf(" %10.*f", decimals, t[v]);
    for (int v = 1; v < VERSIONS; v++)
        printf("   %12.2f", t[0] / t[v]);
}

/* The times of a job; how many are not reached.  Only judging has some to reach; the others are set against it. */
static int print_times(enum job job, const struct record *joints, double ns[TIMED][JOBS][VERSIONS])
{
    int missed = 0;
    print_head(JOB[job], NARROW);
    printf(job == JUDGE ? "  to reach\n" : "  %s/judge, proved\n", JOB[job]);
    for (int k = 0; k < TIMED; k++) {
        const double *t = ns[k][job];
        print_row(joints[k].name, NARROW, 0, t);
        if (job != JUDGE) {
            printf("  %.4f\n", t[0] / ns[k][JUDGE][0]);
            continue;
        }
        printf("  %.0f %s\n", joints[k].target_ns, t[0] <= joints[k].target_ns ? "reached" : "MISSED");
        missed += t[0] > joints[k].target_ns;
    }
    return missed;
}

/* The times of a job with these records, set against the first of each group of so many. */
static void print_groups(enum job job, const char *what, const struct record *r, int records, int group,
                         double ns[][JOBS][VERSIONS])
{
    print_head(JOB[job], NARROW);
    printf("  %s, proved\n", what);
    for (int k = 0; k < records; k++) {
        print_row(r[k].name, NARROW, 0, ns[k][job]);
        printf("  %.4f\n", ns[k][job][0] / ns[k - k % group][job][0]);
    }
}

/* Times what each version does in so many rows, and prints it; where set is not NULL, it says that each row is set
 * against the first. */
static void time_rows(const char *what, int width, int decimals, struct timed (*t)[VERSIONS], int rows, const char *set)
{
    time_in_turn(t[0], rows * VERSIONS);
    print_head(what, width);
    printf(set ? "  %s, proved\n" : "\n", set);
    for (int k = 0; k < rows; k++) {
        double ns[VERSIONS];
        for (int v = 0; v < VERSIONS; v++)
            ns[v] = median(&t[k][v]);
        print_row(t[k][0].name, width, decimals, ns);
        printf(set ? "  %.4f\n" : "\n", ns[0] / median(&t[0][0]));
    }
}

static void time_thick(const struct record thick[THICK][THICKNESSES])
{
    static struct timed t[THICK][VERSIONS];
    for (int k = 0; k < THICK; k++)
        for (int v = 0; v < VERSIONS; v++)
            t[k][v] = (struct timed){.name = thick[k][0].name, .rounds = do_job, .many = THICKNESSES,
                                     .records = thick[k], .job = JUDGE, .version = v};
    time_rows(JOB[JUDGE], WIDE, 0, t, THICK, NULL);
}

/* A joint as first drawn, then otherwise in the first so many ways. */
static void time_drawings(const struct record *r, int drawings)
{
    static struct record drawn[1 + DRAWINGS];
    static struct timed t[1 + DRAWINGS][VERSIONS];
    for (int k = 0; k <= drawings; k++) {
        drawn[k] = *r;
        if (k > 0) {
            draw(&drawn[k], r, &r->values, &DRAWING[k - 1]);
            drawn[k].name = DRAWING[k - 1].name;
        }
        for (int v = 0; v < VERSIONS; v++)
            t[k][v] = (struct timed){.name = drawn[k].name, .rounds = do_job, .many = 1, .records = &drawn[k],
                                     .job = JUDGE, .version = v};
    }
    time_rows(JOB[JUDGE], NARROW, 0, t, 1 + drawings, "drawn/first");
}

/* Both entries for roots, each with many numbers of so many bits. */
static void time_roots(void)
{
    enum { ROWS = 5, NUMBERS = 4096 };
    static const struct {
        const char *name;
        unsigned least, most;
    } row[ROWS] = {
        {"whole root, 16 bits", 16, 16},
        {"whole root, 32 bits", 32, 32},
        {"whole root, 64 bits", 64, 64},
        {"whole root, 1 to 64 bits", 1, 64},
        {"root bracket, 1 to 64 bits", 1, 64}, /* the last */
    };
    static uint64_t numbers[ROWS][NUMBERS];
    static struct timed t[ROWS][VERSIONS];
    for (int k = 0; k < ROWS; k++) {
        for (int i = 0; i < NUMBERS; i++)
            numbers[k][i] = any_of_bits(row[k].least + any_number() % (row[k].most - row[k].least + 1));
        for (int v = 0; v < VERSIONS; v++)
            t[k][v] = (struct timed){.name = row[k].name, .rounds = find_roots, .many = NUMBERS,
                                     .numbers = numbers[k],
                                     .root = k == ROWS - 1 ? VERSION[v].root_bracket : VERSION[v].whole_root};
    }
    time_rows("root", NARROW, 1, t, ROWS, NULL);
}

/* ---- two builds of the library */

enum { OTHER, OURS, BUILDS };
#define PLACES 4 /* of a build's code */

static judge_fn *judge_of(const char *path)
{
    void *library = dlopen(path, RTLD_NOW | RTLD_LOCAL);
    void *judge = library ? dlsym(library, "negwishal_judge") : NULL;
    if (judge == NULL) {
        fprintf(stderr, "%s\n", dlerror());
        exit(2);
    }
    return (judge_fn *)judge;
}

/* The reports of both builds, number by number. */
static void compare_builds(const struct timed t[BUILDS], struct tally *tally)
{
    uint64_t reports[BUILDS][8];
    for (int i = 0; i < t->many; i++) {
        const struct record *r = &t->records[i];
        for (int b = 0; b < BUILDS; b++)
            t[b].judge(r->bytes, r->length, reports[b], 8);
        int bad = memcmp(reports[OTHER], reports[OURS], sizeof reports[OURS]) != 0;
        if (bad)
            printf("%-*s %-26s %-26s DIFFER\n", WIDE, r->name, line(reports[OTHER]), line(reports[OURS]));
        count(tally, reports[OURS][1], bad);
    }
}

/* Judging by two builds, the other and ours, called alike: of each the mean over the places of its code; ours/other,
 * and what that is in each place. */
static int time_builds(char *(*path)[BUILDS], int places, const struct record *joints,
                       const struct record thick[THICK][THICKNESSES])
{
    enum { ROWS = TIMED + THICK };
    static struct timed t[PLACES][ROWS][BUILDS];
    struct tally tally = {0, 0, 0};
    for (int p = 0; p < places; p++) {
        judge_fn *judge[BUILDS];
        for (int b = 0; b < BUILDS; b++)
            judge[b] = judge_of(path[p][b]);
        for (int k = 0; k < ROWS; k++) {
            const struct record *r = k < TIMED ? &joints[k] : thick[k - TIMED];
            int many = k < TIMED ? 1 : THICKNESSES;
            for (int b = 0; b < BUILDS; b++)
                t[p][k][b] = (struct timed){.name = r->name, .rounds = judge_by_build, .many = many, .records = r,
                                            .judge = judge[b]};
            compare_builds(t[p][k], &tally);
        }
    }
    time_in_turn(t[0][0], places * ROWS * BUILDS);
    printf("%-*s %10s %10s   %10s%s\n", WIDE, JOB[JUDGE], "other", "ours", "ours/other",
           places > 1 ? "   in each place" : "");
    for (int k = 0; k < ROWS; k++) {
        double ns[BUILDS] = {0, 0};
        for (int p = 0; p < places; p++)
            for (int b = 0; b < BUILDS; b++)
                ns[b] += median(&t[p][k][b]) / places;
        printf("%-*s %10.0f %10.0f   %10.3f", WIDE, t[0][k][OURS].name, ns[OTHER], ns[OURS], ns[OURS] / ns[OTHER]);
        for (int p = 0; p < places && places > 1; p++)
            printf("%s%.3f", p == 0 ? "   " : " ", median(&t[p][k][OURS]) / median(&t[p][k][OTHER]));
        printf("\n");
    }
    return print_tally(&tally, "joints judged by both builds");
}

/* The deepest call of a job of the proved version. */
static size_t print_stack(enum job job, const struct record *joints, int records)
{
    size_t deepest = 0;
    for (int k = 0; k < records; k++) {
        printf("%-6s %-26s", JOB[job], joints[k].name);
        for (int v = 0; v < VERSIONS; v++) {
            size_t depth = stack_of(job, v, &joints[k]);
            if (v == 0 && depth > deepest)
                deepest = depth;
            printf(" %10zu", depth);
        }
        printf("\n");
    }
    return deepest;
}

/* A file's bytes and the last part of its name. */
static const char *read_file(const char *path, uint8_t *bytes, size_t room, size_t *length)
{
    const char *slash = strrchr(path, '/');
    FILE *f = fopen(path, "rb");
    if (f == NULL) {
        perror(path);
        exit(2);
    }
    *length = fread(bytes, 1, room, f);
    fclose(f);
    return slash ? slash + 1 : path;
}

static void too_many(void)
{
    fprintf(stderr, "too many files\n");
    exit(2);
}

/* The records in the files; the tables in them go behind the others. */
static int read_files(int files, char **file, struct record *r, int room, int *many_tables)
{
    int records = 0;
    for (int i = 0; i < files; i++) {
        const char *dot = strrchr(file[i], '.');
        if (dot != NULL && strcmp(dot, ".tab") == 0) {
            if (*many_tables == sizeof tables / sizeof tables[0])
                too_many();
            struct table *t = &tables[(*many_tables)++];
            t->name = read_file(file[i], t->bytes, sizeof t->bytes, &t->length);
        } else {
            if (records == room)
                too_many();
            r[records].name = read_file(file[i], r[records].bytes, sizeof r[records].bytes, &r[records].length);
            records++;
        }
    }
    return records;
}

/* Joint B by each table, in a line; then all records and values by each, and tables damaged in many ways. */
static int compare_tables(int many_tables, const struct record *r, int records, const struct record *b)
{
    static struct record across;
    struct tally records_by = {0, 0, 0}, values_by = {0, 0, 0}, loadings = {0, 0, 0};
    int bad = 0;
    for (int k = 0; k < TABLES; k++) {
        write_across(&across, &tables[k], class_by(k));
        bad += !compare(&across);
    }
    across.length--; /* a record that would be refused by 4 */
    across.name = "14 before the record's 4";
    bad += !compare(&across);
    for (int k = 0; k < many_tables; k++) {
        const struct alike a = alone(&tables[k]);
        compare_by(&a, r, records, &records_by);
        compare_writers(b, &a, &values_by);
        compare_table(&tables[k], b, &loadings);
    }
    compare_loadings(b, &loadings);
    bad += print_tally(&records_by, "records judged, read and written again by tables");
    bad += print_tally(&values_by, "sets of values written by tables");
    return bad + print_tally(&loadings, "tables loaded and joint B judged by each");
}

/* Joint B by pairs of the tables, in a line for a firm. */
static int print_shared(void)
{
    static const struct {
        const char *name;
        int first, second;
        uint32_t firm;
    } row[] = {
        {"firm 1: hardwood 900", HARD_900, SOFT_900, 1},  {"firm 2: softwood 900", HARD_900, SOFT_900, 2},
        {"15: firm 1's density", DENSE, SOFT_900, 1},     {"firm 2 beside it", DENSE, SOFT_900, 2},
        {"14: firm 1's length", TRAILING, SOFT_900, 1},   {"14: firm 2 beside it", TRAILING, SOFT_900, 2},
        {"14 before 15: firm 1", DENSE, TRAILING, 1},     {"16: firm 257", HARD_900, SOFT_900, 257},
        {"16 before 14: firm 0", NO_BYTES, NO_BYTES, 0},
    };
    static struct table shared;
    static struct record across;
    int bad = 0;
    for (size_t k = 0; k < sizeof row / sizeof row[0]; k++) {
        share(&shared, row[k].name, &tables[row[k].first], &tables[row[k].second], row[k].firm);
        write_across(&across, &shared, 1);
        bad += !compare(&across);
    }
    return bad;
}

/* All records and values by a shared table, for both firms and two that are neither. */
static void compare_shared_by(const struct table *shared, const struct record *r, int records, const struct record *b,
                              struct tally *records_by, struct tally *values_by)
{
    static const uint32_t firms[] = {1, 2, 0, 257};
    for (size_t k = 0; k < sizeof firms / sizeof firms[0]; k++) {
        const struct alike a = for_firm(shared, firms[k]);
        compare_by(&a, r, records, records_by);
        compare_writers(b, &a, values_by);
    }
}

/* Each pair of the tables loaded as a shared one; pairs in which each is either firm's damaged, and all records and
 * values by them and by the tables as they are; and tables damaged in many ways. */
static int compare_shared(int many_tables, const struct record *r, int records, const struct record *b)
{
    static struct table t;
    struct tally records_by = {0, 0, 0}, values_by = {0, 0, 0}, loadings = {0, 0, 0}, shorts = {0, 0, 0};
    int bad = print_shared();
    for (int k = 0; k < many_tables; k++) {
        for (int i = 0; i < many_tables; i++) {
            share(&t, tables[k].name, &tables[k], &tables[i], 0);
            compare_table(&t, b, &loadings);
        }
        compare_firms(&tables[k], b, &loadings);
        compare_shared_by(&tables[k], r, records, b, &records_by, &values_by);
        share(&t, tables[k].name, &tables[k], &tables[(k + 1) % many_tables], 0);
        compare_damaged(&t, 85, b, &loadings);
        compare_shared_by(&t, r, records, b, &records_by, &values_by);
    }
    compare_shared_loadings(b, &loadings);
    compare_long(&loadings);
    compare_short(b, &shorts);
    bad += print_tally(&records_by, "records judged, read and written again by shared tables");
    bad += print_tally(&values_by, "sets of values written by shared tables");
    bad += print_tally(&loadings, "shared tables loaded and joint B judged by each");
    return bad + print_tally(&shorts, "calls with slices of enough numbers and of one less");
}

#define FILES 100

int main(int argc, char **argv)
{
    static struct record records[2 * (JOINTS + FILES)], tabled[TABLED], versioned[VERSIONED];
    static struct record thick[THICK][THICKNESSES];
    static double ns[TIMED][JOBS][VERSIONS], ns_by[TABLED][JOBS][VERSIONS], ns_in[VERSIONED][JOBS][VERSIONS];
    struct record *const joints = records;
    struct tally written = {0, 0, 0}, drawn[2] = {{0, 0, 0}, {0, 0, 0}};
    int bad = 0, missed = 0, many_tables = TABLES;
    size_t deepest = 0;
    char *builds[PLACES][BUILDS];
    int places = 0, first = 1; /* of the files */
    for (; places < PLACES && first + BUILDS < argc && strcmp(argv[first], "--builds") == 0; first += 1 + BUILDS)
        memcpy(builds[places++], argv + first + 1, sizeof builds[0]);
    write_records(joints);
    write_tables();
    write_thick(thick, &joints[0]);
    write_versioned(versioned, &joints[0], &thick[1][0], &joints[2]);
    int many = JOINTS + read_files(argc - first, argv + first, records + JOINTS, FILES, &many_tables);
    for (int k = 0; k < many; k++)
        write_other_version(&records[many + k], &records[k]);

    printf("Answers (U C E, or a refusal's number and place); values read and bytes written agree too\n%-26s", "");
    for (int v = 0; v < VERSIONS; v++)
        printf(" %-26s", VERSION[v].name);
    printf("\n");
    for (int k = 0; k < 2 * many; k++) {
        if (k == many)
            printf("the same in record version 2, and in version 1 what was in 2\n");
        bad += !compare(&records[k]);
    }
    many *= 2;
    const struct alike printed = alone(NULL);
    compare_writers(&joints[0], &printed, &written);
    bad += print_tally(&written, "sets of values written by each version");
    bad += compare_record_versions(&joints[0]);
    bad += compare_edges(drawn);
    bad += compare_thick(thick);
    bad += compare_roots();

    printf("\nAnswers by %d tables: joint B in wide outlines, force (0, 20000), then all records and values\n",
           many_tables);
    bad += compare_tables(many_tables, records, many, &joints[0]);
    printf("\nAnswers by pairs of these as a table that two firms share, for each firm; the same where the other's\n"
           "entries are filled anew, and by a table of the firm's own with the same entries\n");
    bad += compare_shared(many_tables, records, many, &joints[0]);
    write_tabled(tabled, &joints[0]);
    for (int k = 0; k < TABLED; k++)
        read_values(0, &tabled[k], &tabled[k].values);
    for (int k = 0; k < VERSIONED; k++)
        read_values(0, &versioned[k], &versioned[k].values);
    printf("\nAnswers for joints drawn otherwise: relisted, moved, mirrored in x, in y, and all of these together\n");
    bad += compare_drawn(records, many, tabled, versioned, thick, drawn);

    printf("\nTime: ns per call, median of %d batches of about %.0f ms, the versions and jobs taking turns\n", BATCHES,
           BATCH_NS / 1e6);
    for (int k = 0; k < TIMED; k++)
        time_records(&joints[k], 1, &ns[k]);
    for (int j = 0; j < JOBS; j++)
        missed += print_times(j, joints, ns);

    printf("\nTime of joint B by %d tables, which take turns too; a shared one has the same entries for either firm\n",
           TABLED);
    time_records(tabled, TABLED, ns_by);
    for (int j = 0; j < JOBS; j++)
        print_groups(j, "table/printed", tabled, TABLED, TABLED, ns_by);

    printf("\nTime of three joints in record versions 1 and 2, which take turns too\n");
    time_records(versioned, VERSIONED, ns_in);
    for (int j = 0; j < JOBS; j++)
        print_groups(j, "version 2/1", versioned, VERSIONED, 2, ns_in);

    printf("\nTime of joint B drawn otherwise, the drawings taking turns too, and of the slowest joint relisted\n");
    time_drawings(&joints[0], DRAWINGS);
    time_drawings(&joints[3], 1);

    printf("\nTime of one joint with 100 thicknesses in turn, ns per joint; of whole roots, ns per call\n");
    time_thick(thick);
    time_roots();

    if (places > 0) {
        printf("\nTime of judging by two builds of the library, both from shared objects, in turn; ns per joint\n");
        bad += time_builds(builds, places, joints, thick);
    }

    printf("\nStack: deepest byte that one call changed, in bytes below the caller's frame, on a painted stack\n");
    for (int j = 0; j < JOBS; j++) {
        size_t depth = print_stack(j, joints, JOINTS);
        deepest = depth > deepest ? depth : deepest;
    }
    for (int j = 0; j < JOBS; j++) {
        size_t depth = print_stack(j, versioned, VERSIONED);
        deepest = depth > deepest ? depth : deepest;
    }
    for (int j = 0; j < JOBS; j++) {
        size_t depth = print_stack(j, tabled, TABLED);
        deepest = depth > deepest ? depth : deepest;
    }
    missed += deepest >= 65536;
    printf("proved: at most %zu bytes; to reach: under 65536, %s\n", deepest, deepest < 65536 ? "reached" : "MISSED");
    printf("\n%d answers differ, %d figures missed\n", bad, missed);
    return bad != 0;
}
