/* Calls the entries with one joint drawn otherwise: its dowels listed backwards, mirrored in x and in y, moved in x and in y, and
 * several of these one after the other; and with its parts in another order. */
#include <stdio.h>
#include <string.h>

#include "check.h"

enum { CHANGES = 5 };

/* Every z of one axis, 0 of x and 1 of y, becomes sign z + by; of two limits the lower comes first. */
static void redraw(struct values *v, int axis, int32_t sign, int32_t by)
{
    static const int outline[2] = {NEGWISHAL_AT_X0_1, NEGWISHAL_AT_X0_2};
    int32_t *places = axis == 0 ? v->x : v->y;
    for (size_t i = 0; i < v->x_len; i++)
        places[i] = sign * places[i] + by;
    v->fields[NEGWISHAL_AT_FX + axis] *= sign;
    for (int m = 0; m < 2; m++) {
        int32_t *low = &v->fields[outline[m] + axis], *high = low + 2;
        const int32_t limits[2] = {sign * *low + by, sign * *high + by};
        *low = limits[sign < 0];
        *high = limits[sign > 0];
    }
}

static void list_backwards(struct values *v)
{
    const struct values before = *v;
    for (size_t i = 0; i < v->x_len; i++) {
        v->x[i] = before.x[v->x_len - 1 - i];
        v->y[i] = before.y[v->x_len - 1 - i];
    }
}

/* Each change is made where its bit is 1. */
static struct values drawn(struct values v, int changes)
{
    if (changes & 1)
        list_backwards(&v);
    for (int axis = 0; axis < 2; axis++) {
        if (changes & 2 << axis)
            redraw(&v, axis, -1, 0);
        if (changes & 8 << axis)
            redraw(&v, axis, 1, axis == 0 ? 9001 : -9999);
    }
    return v;
}

static void report_of(const char *what, const struct values *v, uint64_t *report)
{
    uint8_t record[590];
    uint64_t answer[ANSWER];
    expect(what, write_by(v->fields, VALUES, v->x, v->x_len, v->y, v->y_len, v->x, 0, record, sizeof record, answer, ANSWER), 0, 0);
    expect(what, answer[NEGWISHAL_ANSWER_NUMBER], 0, 0);
    expect(what, judge_by(record, (size_t)answer[NEGWISHAL_ANSWER_LENGTH], report, NEGWISHAL_FIELDS), 0, 0);
}

/* The number and the member of the joint as it is, the dowels named, and those named where the list is turned round. */
static void check_joint(const char *name, struct values v, uint64_t number, uint64_t member, const uint64_t named[2],
                        const uint64_t named_backwards[2])
{
    static const int same[6] = {NEGWISHAL_VERDICT, NEGWISHAL_NUMBER,   NEGWISHAL_MEMBER,
                                NEGWISHAL_USE,     NEGWISHAL_CAPACITY, NEGWISHAL_SHARE};
    uint64_t first[NEGWISHAL_FIELDS], report[NEGWISHAL_FIELDS];
    char what[80];
    report_of(name, &v, first);
    expect(name, first[NEGWISHAL_NUMBER], number, number);
    expect(name, first[NEGWISHAL_MEMBER], member, member);
    for (int changes = 0; changes < 1 << CHANGES; changes++) {
        const struct values w = drawn(v, changes);
        const uint64_t *dowels = changes & 1 ? named_backwards : named;
        snprintf(what, sizeof what, "%s, drawn otherwise by %d", name, changes);
        report_of(what, &w, report);
        for (int k = 0; k < 6; k++)
            expect(what, report[same[k]], first[same[k]], first[same[k]]);
        expect(what, report[NEGWISHAL_FIRST], dowels[0], dowels[0]);
        expect(what, report[NEGWISHAL_SECOND], dowels[1], dowels[1]);
    }
}

/* Joint B with eight dowels in a stair, each 100 tenths up from the one before, and the grain of member 2 along y: rows of two in
 * member 1 and of one in member 2. */
static struct values stair(void)
{
    struct values v = joint_b();
    v.x_len = v.y_len = 8;
    v.fields[NEGWISHAL_AT_GRAIN_2] = 1;
    v.fields[NEGWISHAL_AT_FY] = -15000;
    for (int k = 0; k < 4; k++)
        v.fields[NEGWISHAL_AT_X0_1 + k] = v.fields[NEGWISHAL_AT_X0_2 + k] = k < 2 ? -90000 : 90000;
    for (int i = 0; i < 8; i++) {
        v.x[i] = 700 * i;
        v.y[i] = 100 * i;
    }
    return v;
}

static void check_parts(const uint8_t *b, size_t n)
{
    uint64_t report[2][NEGWISHAL_FIELDS];
    uint8_t record[110];
    expect("parts turned round", judge_by(b, n, report[0], NEGWISHAL_FIELDS), 0, 0);
    n = turned(b, record);
    expect("parts turned round", judge_by(record, n, report[1], NEGWISHAL_FIELDS), 0, 0);
    expect("parts turned round", memcmp(report[0], report[1], sizeof report[0]) != 0, 0, 0);
}

void check_drawn(const uint8_t *b, size_t length)
{
    static const uint64_t none[2] = {0, 0}, one[2] = {1, 0}, two[2] = {2, 0}, three[2] = {3, 0};
    static const uint64_t first_two[2] = {1, 2}, last_two[2] = {3, 4};
    struct values v = joint_b();
    check_joint("joint B", v, 0, 0, none, none);
    v.fields[NEGWISHAL_AT_FX] = 27000;
    check_joint("joint B overloaded", v, 0, 0, none, none);
    check_joint("a stair", stair(), 0, 0, none, none);
    v = joint_b();
    v.x[3] = 0; /* 359 above dowel 3 */
    v.y[3] = 719;
    check_joint("two dowels too close", v, 10, 1, last_two, first_two);
    v = joint_b();
    v.fields[NEGWISHAL_AT_X1_2] = 1439;
    check_joint("an end too near", v, 11, 2, two, one);
    v = joint_b();
    v.fields[NEGWISHAL_AT_Y1_1] = 719;
    check_joint("an edge too near", v, 12, 1, three, one);
    check_parts(b, length);
}
