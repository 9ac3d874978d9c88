/* Calls the entries with records of each version: which versions are known, what each asks of edges, and that nothing else
 * hangs on them. */
#include <stdio.h>
#include <string.h>

#include "check.h"

enum { VERSIONS = 2, FAR = 100000, ONE = 86 }; /* bytes of a record of one dowel */

/* ---- which are known */

static void check_unknown(const uint8_t *b, size_t n)
{
    static const int32_t unknown[] = {0, 3, 4, 255, 256, 257, 258, 512, 513, 514, 32769, 32770, 65281, 65282, 65534, 65535};
    static const int32_t wider[] = {-1, -2, -65535, -65534, 65536, 65537, 65538, 131073, 131074, 16777217, 16777218,
                                    INT32_MIN, INT32_MIN + 1, INT32_MIN + 2, INT32_MAX};
    static const uint64_t report[8] = {0, 2, 0, 0, 0, 0, 0, 0}, few[8] = {0, 1, 0, 0, 0, 0, 0, 0};
    uint8_t record[110];
    char what[40];
    memcpy(record, b, sizeof record);
    for (size_t k = 0; k < sizeof unknown / sizeof unknown[0]; k++) {
        struct values v = joint_b();
        snprintf(what, sizeof what, "version %d", (int)unknown[k]);
        record[0] = (uint8_t)(unknown[k] & 255);
        record[1] = (uint8_t)(unknown[k] >> 8);
        record[2] = 4;
        judges(what, record, n, report, report);
        refuses(what, record, n, 2);
        judges(what, record, 20, report, report);
        judges(what, record, 19, few, few);
        record[2] = 5; /* of pairs: 3 comes later */
        judges(what, record, n, report, report);
        refuses(what, record, n, 2);
        v.fields[NEGWISHAL_AT_VERSION] = unknown[k];
        wrote(what, &v, 110, 2, NULL);
    }
    for (size_t k = 0; k < sizeof wider / sizeof wider[0]; k++) {
        struct values v = joint_b();
        snprintf(what, sizeof what, "version %d", (int)wider[k]);
        v.fields[NEGWISHAL_AT_VERSION] = wider[k];
        wrote(what, &v, 110, 2, NULL);
        v.fields[NEGWISHAL_AT_CLASS_1] = 0; /* 7 and 13 come later */
        wrote(what, &v, 0, 2, NULL);
    }
}

/* ---- what each asks of edges */

/* d, the force along and across a member's grain, and what the edge towards which it has the component across needs in
 * version 2: (2 + 2 sin a) d and at least 3d, in tenths.  Every other edge needs 3d, and so does each in version 1. */
static const struct loaded {
    int32_t d, along, across, least;
} LOADED[] = {
    {12, 1000, 0, 360},         /* sin 0, then up to 1/2: 3d */
    {12, 1000000, 1, 360},
    {17, 15, 8, 510},
    {12, 400, 300, 384},        /* 3/5 */
    {30, 4, 3, 960},
    {12, 300, 400, 432},        /* 4/5 */
    {12, 0, 1, 480},            /* 1 */
    {30, 0, 1000000, 1200},
    {13, 5, 12, 500},           /* 12/13 */
    {29, 20, 21, 1000},         /* 21/29 */
    {12, 1, 1, 410},            /* 40.97.. mm */
    {30, 1000000, 1000000, 1025}, /* 102.42.. mm */
    {30, 866025, 500000, 901},  /* a hair above 1/2, and a hair below */
    {30, 866026, 500000, 900},
    {11, 164633, 851525, 437},  /* a hair above 43.6 mm, and a hair below 79 mm */
    {21, 434547, 808984, 790},
};

/* By which edge of which member a dowel stands: the member's number from 0, its grain, whether the force's components in it are
 * towards lower places, and the edge, 0 the low and 1 the high one. */
struct place {
    int member, grain, back, side;
};

/* One dowel so far from that edge; all other edges and ends are far away. */
static struct values by_edge(const struct loaded *l, struct place p, int32_t distance)
{
    static const int outline[2] = {NEGWISHAL_AT_X0_1, NEGWISHAL_AT_X0_2};
    static const int grain[2] = {NEGWISHAL_AT_GRAIN_1, NEGWISHAL_AT_GRAIN_2};
    const int32_t sign = (p.member == 1) == (p.back == 0) ? 1 : -1; /* member 1 gets the opposite */
    struct values v = joint_b();
    v.x_len = v.y_len = 1;
    v.fields[NEGWISHAL_AT_DIAMETER] = l->d;
    v.fields[NEGWISHAL_AT_FX] = sign * (p.grain == 0 ? l->along : l->across);
    v.fields[NEGWISHAL_AT_FY] = sign * (p.grain == 0 ? l->across : l->along);
    for (int m = 0; m < 2; m++) {
        v.fields[grain[m]] = m == p.member ? p.grain : 1 - p.grain; /* the other member's angle is another */
        for (int k = 0; k < 4; k++)
            v.fields[outline[m] + k] = k < 2 ? -FAR : FAR;
    }
    v.fields[outline[p.member] + (p.grain == 0 ? 1 : 0) + 2 * p.side] = p.side == 0 ? -distance : distance;
    return v;
}

/* Writes the values in a version and judges the record; the report of an accepted one comes back. */
static void judged_in(const char *what, struct values v, int32_t version, int accepted, uint64_t member, uint64_t *report)
{
    const uint64_t refused[8] = {0, 12, member, 1, 0, 0, 0, 0};
    uint8_t record[ONE];
    uint64_t answer[ANSWER];
    v.fields[NEGWISHAL_AT_VERSION] = version;
    expect(what, write_by(v.fields, VALUES, v.x, 1, v.y, 1, v.x, 0, record, ONE, answer, ANSWER), 0, 0);
    expect(what, answer[NEGWISHAL_ANSWER_NUMBER], 0, 0);
    expect(what, record[0], (uint64_t)version, (uint64_t)version);
    expect(what, record[1], 0, 0);
    reads(what, record, ONE, &v); /* edges are not tested */
    if (!accepted) {
        judges(what, record, ONE, refused, refused);
        return;
    }
    expect(what, judge_by(record, ONE, report, NEGWISHAL_FIELDS), 0, 0);
    expect(what, report[NEGWISHAL_NUMBER], 0, 0);
    expect(what, report[NEGWISHAL_VERDICT], 1, 2);
}

static void check_edge(const struct loaded *l, struct place p)
{
    const int32_t other = 30 * l->d;
    const int loaded = p.side != p.back;
    const int32_t asked[VERSIONS] = {other, loaded ? l->least : other};
    uint64_t report[VERSIONS][NEGWISHAL_FIELDS];
    char what[120];
    for (int short_of = 0; short_of < 2; short_of++)
        for (int near = 0; near < VERSIONS; near++) { /* as near as either version allows */
            const int32_t distance = asked[near] - short_of;
            const struct values v = by_edge(l, p, distance);
            snprintf(what, sizeof what, "d %d, %d along, %d across, %d from edge %d of member %d", (int)l->d, (int)l->along,
                     (int)l->across, (int)distance, p.side, p.member + 1);
            for (int32_t k = 0; k < VERSIONS; k++)
                judged_in(what, v, k + 1, distance >= asked[k], (uint64_t)p.member + 1, report[k]);
            if (distance >= asked[0] && distance >= asked[1])
                expect(what, memcmp(report[0], report[1], sizeof report[0]) != 0, 0, 0);
        }
}

static void check_edges(void)
{
    for (size_t k = 0; k < sizeof LOADED / sizeof LOADED[0]; k++)
        for (int bits = 0; bits < 16; bits++) {
            const struct place p = {bits & 1, bits >> 1 & 1, bits >> 2 & 1, bits >> 3};
            check_edge(&LOADED[k], p);
        }
}

/* ---- nothing else */

/* Joint B has no loaded edge: its bytes differ in the version alone, and its report does not. */
static void check_alike(const uint8_t *b, size_t n)
{
    uint64_t report[VERSIONS][NEGWISHAL_FIELDS];
    uint8_t record[110];
    struct values v = joint_b();
    memcpy(record, b, sizeof record);
    for (int32_t k = 0; k < VERSIONS; k++) {
        record[0] = (uint8_t)(k + 1);
        v.fields[NEGWISHAL_AT_VERSION] = k + 1;
        wrote("joint B in a version", &v, 110, 0, record);
        wrote("joint B in a version", &v, 109, 13, NULL);
        reads("joint B in a version", record, n, &v);
        expect("joint B in a version", judge_by(record, n, report[k], NEGWISHAL_FIELDS), 0, 0);
    }
    expect("joint B in either version", memcmp(report[0], report[1], sizeof report[0]) != 0, 0, 0);
}

void check_version(const uint8_t *b, size_t length)
{
    expect("a record's version", b[0], (uint64_t)version_in_use, (uint64_t)version_in_use);
    check_unknown(b, length);
    check_edges();
    check_alike(b, length);
}
