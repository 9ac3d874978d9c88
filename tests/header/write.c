/* Calls the writer and looks at every byte and number that it is lent. */
#include <stdio.h>
#include <string.h>

#include "check.h"

enum { ROOM = 700, ANSWERS = 5 };

struct values joint_b(void)
{
    struct values b = {
        .fields = {1, 2,                                      /* version, planes */
                   1, 0, 0, 0, 600, -840, -360, 20000, 720,   /* member 1 */
                   1, 0, 0, 0, 800, -20000, -360, 1440, 720,  /* member 2 */
                   12, 1, 0, 1, 3, 20000, 0},
        .x = {0, 600, 0, 600}, .y = {0, 0, 360, 360}, .x_len = 4, .y_len = 4};
    b.fields[NEGWISHAL_AT_VERSION] = version_in_use;
    return b;
}

/* Joint B with n dowels, no two coordinates alike. */
struct values lattice(size_t n)
{
    struct values v = joint_b();
    v.x_len = v.y_len = n;
    for (size_t i = 0; i < n; i++) {
        v.x[i] = 700 * (int32_t)i - 20000;
        v.y[i] = 30000 - 611 * (int32_t)i;
    }
    return v;
}

size_t turned(const uint8_t *b, uint8_t *record)
{
    static const struct { size_t at, length; } part[4] = {{99, 11}, {65, 34}, {62, 3}, {20, 42}};
    size_t end = 20;
    memcpy(record, b, 4);
    for (int k = 0; k < 4; k++) {
        memcpy(record + end, b + part[k].at, part[k].length);
        record[4 + 4 * k] = (uint8_t)end;
        record[6 + 4 * k] = (uint8_t)part[k].length;
        record[5 + 4 * k] = record[7 + 4 * k] = 0;
        end += part[k].length;
    }
    return end;
}

/* One call with slices of these lengths; what must stay is compared, what came is left in buffer and answer. */
static uint32_t call(const char *what, const struct values *v, size_t fields_len, size_t room, size_t answer_len,
                     uint8_t paint, uint8_t buffer[ROOM], uint64_t answer[ANSWERS])
{
    const struct values kept = *v;
    memset(buffer, paint, ROOM);
    for (int i = 0; i < ANSWERS; i++)
        answer[i] = LEFT;
    uint32_t code = write_by(v->fields, fields_len, v->x, v->x_len, v->y, v->y_len, v->x, 0, buffer, room, answer,
                             answer_len);
    size_t first = code == 0 ? (size_t)answer[1] : 0;
    for (size_t i = first < ROOM ? first : ROOM; i < ROOM; i++)
        expect(what, buffer[i], paint, paint);
    for (int i = code == 0 ? ANSWER : 0; i < ANSWERS; i++)
        expect(what, answer[i], LEFT, LEFT);
    expect("what is handed is only read", memcmp(&kept, v, sizeof kept) != 0, 0, 0);
    return code;
}

/* The number and the length that come; with number 0 also the bytes, if they are given. */
void wrote(const char *what, const struct values *v, size_t room, uint64_t number, const uint8_t *bytes)
{
    uint8_t buffer[ROOM];
    uint64_t answer[ANSWERS];
    uint64_t length = number == 0 ? 78 + 8 * v->x_len : 0;
    for (int k = 0; k < 2; k++) { /* twice, since a call may write the paint itself */
        expect(what, call(what, v, VALUES, room, ANSWER, k ? 0x5a : 0xa5, buffer, answer), 0, 0);
        expect(what, answer[0], number, number);
        expect(what, answer[1], length, length);
        if (number == 0 && bytes)
            expect(what, memcmp(buffer, bytes, length) != 0, 0, 0);
    }
}

void short_write(const struct values *v)
{
    uint8_t buffer[ROOM];
    uint64_t answer[ANSWERS];
    for (size_t n = 0; n < VALUES; n++)
        expect("fields too short", call("fields too short", v, n, ROOM, ANSWER, 0xa5, buffer, answer), 1, 1);
    for (size_t n = 0; n < ANSWER; n++)
        expect("answer too short", call("answer too short", v, VALUES, ROOM, n, 0xa5, buffer, answer), 1, 1);
}

static void check_lengths(const uint8_t *b)
{
    struct values v = joint_b();
    uint8_t buffer[ROOM];
    uint64_t answer[ANSWERS];
    short_write(&v);
    for (size_t n = ANSWER; n <= ANSWERS; n++) {
        expect("a longer answer", call("a longer answer", &v, VALUES, ROOM, n, 0xa5, buffer, answer), 0, 0);
        expect("a longer answer", answer[0], 0, 0);
    }
    /* more fields than are needed: x follows in the struct */
    expect("longer fields", call("longer fields", &v, VALUES + 3, ROOM, ANSWER, 0xa5, buffer, answer), 0, 0);
    expect("longer fields", memcmp(buffer, b, 110) != 0, 0, 0);
    /* a short answer or short fields come before any refusal */
    v.fields[NEGWISHAL_AT_VERSION] = 9;
    short_write(&v);
}

static void check_buffers(const uint8_t *b)
{
    struct values v = joint_b();
    for (size_t room = 0; room <= 130; room++)
        wrote("joint B into a buffer", &v, room, room < 110 ? 13 : 0, b);
    for (size_t n = 1; n <= POSITIONS; n++) {
        v = lattice(n);
        wrote("one byte short", &v, 78 + 8 * n - 1, 13, NULL);
        wrote("just long enough", &v, 78 + 8 * n, 0, NULL);
        wrote("longer", &v, ROOM, 0, NULL);
    }
    v = lattice(64);
    wrote("64 dowels into 589 bytes", &v, 589, 13, NULL);
    wrote("64 dowels into 590 bytes", &v, 590, 0, NULL);
}

/* Each place of fields: its name, the bytes of joint B's record that it fills (none: no field), another value. */
static const struct {
    int name;
    size_t at, width;
    int32_t other;
} FIELD[VALUES] = {
    {NEGWISHAL_AT_VERSION, 0, 2, 0}, /* the other version */
    {NEGWISHAL_AT_PLANES, 21, 1, 1},
    {NEGWISHAL_AT_CLASS_1, 22, 1, 11},
    {NEGWISHAL_AT_GRAIN_1, 23, 1, 1},
    {NEGWISHAL_AT_GX_1, 0, 0, INT32_MIN},
    {NEGWISHAL_AT_GY_1, 0, 0, 1},
    {NEGWISHAL_AT_THICKNESS_1, 24, 2, 0x0203},
    {NEGWISHAL_AT_X0_1, 26, 4, -100000},
    {NEGWISHAL_AT_Y0_1, 30, 4, -2},
    {NEGWISHAL_AT_X1_1, 34, 4, 0x010203},
    {NEGWISHAL_AT_Y1_1, 38, 4, 100000},
    {NEGWISHAL_AT_CLASS_2, 42, 1, 8},
    {NEGWISHAL_AT_GRAIN_2, 43, 1, 1},
    {NEGWISHAL_AT_GX_2, 0, 0, INT32_MAX},
    {NEGWISHAL_AT_GY_2, 0, 0, -1},
    {NEGWISHAL_AT_THICKNESS_2, 44, 2, 4000},
    {NEGWISHAL_AT_X0_2, 46, 4, -65537},
    {NEGWISHAL_AT_Y0_2, 50, 4, -257},
    {NEGWISHAL_AT_X1_2, 54, 4, 70000},
    {NEGWISHAL_AT_Y1_2, 58, 4, 255},
    {NEGWISHAL_AT_DIAMETER, 63, 1, 30},
    {NEGWISHAL_AT_STEEL, 64, 1, 3},
    {NEGWISHAL_AT_PLATE, 0, 0, 300},
    {NEGWISHAL_AT_SERVICE_CLASS, 100, 1, 2},
    {NEGWISHAL_AT_DURATION, 101, 1, 5},
    {NEGWISHAL_AT_FX, 102, 4, -1000000},
    {NEGWISHAL_AT_FY, 106, 4, 0x0e0d0c},
};

static void check_places(const uint8_t *b)
{
    uint8_t want[110];
    char what[40];
    for (int k = 0; k < VALUES; k++) {
        struct values v = joint_b();
        const int32_t other = FIELD[k].name == NEGWISHAL_AT_VERSION ? 3 - version_in_use : FIELD[k].other;
        snprintf(what, sizeof what, "place %d", k);
        expect(what, (uint64_t)FIELD[k].name, (uint64_t)k, (uint64_t)k);
        memcpy(want, b, sizeof want);
        for (size_t i = 0; i < FIELD[k].width; i++)
            want[FIELD[k].at + i] = (uint8_t)((uint32_t)other >> 8 * i);
        v.fields[FIELD[k].name] = other;
        wrote(what, &v, 110, 0, want);
        if (FIELD[k].width == 0)
            v.fields[FIELD[k].name] = 0;
        reads(what, want, sizeof want, &v);
    }
    for (int i = 0; i < 4; i++) /* x and y of each dowel, from byte 67 on */
        for (int axis = 0; axis < 2; axis++) {
            struct values v = joint_b();
            snprintf(what, sizeof what, "dowel %d, axis %d", i + 1, axis);
            (axis ? v.y : v.x)[i] = -0x010203;
            memcpy(want, b, sizeof want);
            memcpy(want + 67 + 8 * i + 4 * axis, "\xfd\xfd\xfe\xff", 4);
            wrote(what, &v, 110, 0, want);
            reads(what, want, sizeof want, &v);
        }
}

/* Joint B with up to two places changed, the lengths of the lists and the buffer: the number. */
static const struct {
    const char *what;
    int place[2];
    int32_t value[2];
    size_t x_len, y_len, room;
    uint64_t number;
} REFUSAL[] = {
    {"version 9 and class 0", {0, 2}, {9, 0}, 4, 4, 110, 2},
    {"version 0", {0, 0}, {0, 0}, 4, 4, 110, 2},
    {"version 3", {0, 0}, {3, 3}, 4, 4, 110, 2},
    {"version 3 and class 0", {0, 2}, {3, 0}, 4, 4, 110, 2},
    {"version 3 and an empty outline", {0, 7}, {3, 20000}, 4, 4, 110, 2},
    {"version 3 and no force", {0, 25}, {3, 0}, 4, 4, 110, 2},
    {"version 3 and no buffer", {0, 0}, {3, 3}, 4, 4, 0, 2},
    {"version -1", {0, 0}, {-1, -1}, 4, 4, 110, 2},
    {"version -2", {0, 0}, {-2, -2}, 4, 4, 110, 2},
    {"version 257", {0, 0}, {257, 257}, 4, 4, 110, 2},
    {"version 258", {0, 0}, {258, 258}, 4, 4, 110, 2},
    {"version 65,537", {0, 0}, {65537, 65537}, 4, 4, 110, 2},
    {"version 65,538", {0, 0}, {65538, 65538}, 4, 4, 110, 2},
    {"version 131,074", {0, 0}, {131074, 131074}, 4, 4, 110, 2},
    {"version 9, no dowels, no buffer", {0, 0}, {9, 9}, 0, 0, 0, 2},
    {"class 257", {2, 2}, {257, 257}, 4, 4, 110, 7},
    {"class 257 in member 2", {11, 11}, {257, 257}, 4, 4, 110, 7},
    {"class -1", {2, 2}, {-1, -1}, 4, 4, 110, 7},
    {"class 12", {11, 11}, {12, 12}, 4, 4, 110, 7},
    {"class 0 and an empty outline", {2, 7}, {0, 20000}, 4, 4, 110, 7},
    {"planes 3", {1, 1}, {3, 3}, 4, 4, 110, 7},
    {"grain 256", {3, 3}, {256, 256}, 4, 4, 110, 7},
    {"thickness 66,136", {6, 6}, {66136, 66136}, 4, 4, 110, 7},
    {"thickness -600", {15, 15}, {-600, -600}, 4, 4, 110, 7},
    {"x1 of 100,001", {9, 9}, {100001, 100001}, 4, 4, 110, 7},
    {"y0 of -100,001", {17, 17}, {-100001, -100001}, 4, 4, 110, 7},
    {"diameter 31", {20, 20}, {31, 31}, 4, 4, 110, 7},
    {"steel 4", {21, 21}, {4, 4}, 4, 4, 110, 7},
    {"service class 259", {23, 23}, {259, 259}, 4, 4, 110, 7},
    {"duration 0", {24, 24}, {0, 0}, 4, 4, 110, 7},
    {"fx of 1,000,001", {25, 25}, {1000001, 1000001}, 4, 4, 110, 7},
    {"fy least", {26, 26}, {INT32_MIN, INT32_MIN}, 4, 4, 110, 7},
    {"3 x and 4 y", {1, 1}, {2, 2}, 3, 4, 110, 7},
    {"4 x and 3 y", {1, 1}, {2, 2}, 4, 3, 110, 7},
    {"3 x, 4 y and an empty outline", {7, 7}, {20000, 20000}, 3, 4, 110, 7},
    {"3 x, 4 y and no buffer", {1, 1}, {2, 2}, 3, 4, 0, 7},
    {"no dowels", {1, 1}, {2, 2}, 0, 0, 110, 7},
    {"65 dowels", {1, 1}, {2, 2}, 65, 65, ROOM, 7},
    {"64 x and 65 y", {1, 1}, {2, 2}, 64, 65, ROOM, 7},
    {"65 dowels and no buffer", {1, 1}, {2, 2}, 65, 65, 0, 7},
    {"x0 = x1", {7, 7}, {20000, 20000}, 4, 4, 110, 8},
    {"y0 above y1", {8, 8}, {721, 721}, 4, 4, 110, 8},
    {"x0 = x1 in member 2", {18, 18}, {-20000, -20000}, 4, 4, 110, 8},
    {"y0 = y1 in member 2", {17, 17}, {720, 720}, 4, 4, 110, 8},
    {"an empty outline and no force", {7, 25}, {20000, 0}, 4, 4, 110, 8},
    {"an empty outline and no buffer", {7, 7}, {20000, 20000}, 4, 4, 0, 8},
    {"no force", {25, 25}, {0, 0}, 4, 4, 110, 9},
    {"no force and a short buffer", {25, 25}, {0, 0}, 4, 4, 109, 9},
    {"no force and no buffer", {25, 25}, {0, 0}, 4, 4, 0, 9},
    {"no buffer", {1, 1}, {2, 2}, 4, 4, 0, 13},
    {"a short buffer", {1, 1}, {2, 2}, 4, 4, 109, 13},
    {"gx, gy and plate", {4, 22}, {INT32_MIN, INT32_MAX}, 4, 4, 110, 0},
};

static void check_refusals(void)
{
    for (size_t k = 0; k < sizeof REFUSAL / sizeof REFUSAL[0]; k++) {
        struct values v = joint_b();
        for (int i = 0; i < 2; i++)
            v.fields[REFUSAL[k].place[i]] = REFUSAL[k].value[i];
        v.x_len = REFUSAL[k].x_len;
        v.y_len = REFUSAL[k].y_len;
        wrote(REFUSAL[k].what, &v, REFUSAL[k].room, REFUSAL[k].number, NULL);
    }
    for (int i = 0; i < 4; i++) { /* a dowel outside, first to last */
        struct values v = joint_b();
        v.x[i] = 100001;
        wrote("x outside", &v, 110, 7, NULL);
        v.x[i] = 100000;
        wrote("x at its limit", &v, 110, 0, NULL);
        v.y[i] = -100001;
        wrote("y outside", &v, 110, 7, NULL);
    }
    struct values v = joint_b(); /* spacing is not tested */
    v.x[1] = v.x[3] = 599;
    wrote("dowels too close", &v, 110, 0, NULL);
}

/* Slices that are only read, one over the other; marks of any length and content. */
static void check_lent(const uint8_t *b)
{
    struct values v = joint_b();
    uint8_t buffer[110];
    uint64_t answer[ANSWER];
    const int32_t marks[3] = {7, INT32_MIN, INT32_MAX};
    for (size_t n = 0; n <= 3; n++) {
        memset(buffer, 0, sizeof buffer);
        expect("marks", write_by(v.fields, VALUES, v.x, 4, v.y, 4, marks, n, buffer, 110, answer, ANSWER), 0, 0);
        expect("marks", answer[0] + (memcmp(buffer, b, 110) != 0), 0, 0);
    }
    memset(buffer, 0, sizeof buffer);
    expect("fields for marks",
           write_by(v.fields, VALUES, v.x, 4, v.y, 4, v.fields, VALUES, buffer, 110, answer, ANSWER), 0, 0);
    expect("fields for marks", answer[0] + (memcmp(buffer, b, 110) != 0), 0, 0);
    /* one array for x and y, and y one number later in it */
    for (int late = 0; late < 2; late++) {
        struct values w = v;
        memcpy(w.y, v.x + late, sizeof v.x - sizeof v.x[0]);
        uint8_t apart[110];
        memset(buffer, 0, sizeof buffer);
        expect("y apart", write_by(w.fields, VALUES, w.x, 4, w.y, 4, w.x, 0, apart, 110, answer, ANSWER), 0, 0);
        expect("x and y in one array",
               write_by(v.fields, VALUES, v.x, 4, v.x + late, 4, v.x, 4, buffer, 110, answer, ANSWER), 0, 0);
        expect("x and y in one array", answer[0] + (memcmp(buffer, apart, 110) != 0), 0, 0);
        expect("y from x", buffer[late ? 71 : 79], 0x58, 0x58); /* dowel 2's x is 600: 58 02 */
    }
}

void check_write(const uint8_t *b, size_t length)
{
    expect("joint B's length", length, 110, 110);
    expect("NEGWISHAL_VALUES", NEGWISHAL_VALUES, VALUES, VALUES);
    expect("NEGWISHAL_ANSWER", NEGWISHAL_ANSWER, ANSWER, ANSWER);
    expect("NEGWISHAL_ANSWER_NUMBER", NEGWISHAL_ANSWER_NUMBER, 0, 0);
    expect("NEGWISHAL_ANSWER_LENGTH", NEGWISHAL_ANSWER_LENGTH, 1, 1);
    expect("NEGWISHAL_DONE", NEGWISHAL_DONE, 0, 0);
    expect("NEGWISHAL_SHORT_SLICE", NEGWISHAL_SHORT_SLICE, 1, 1);
    check_lengths(b);
    check_buffers(b);
    check_places(b);
    check_refusals();
    check_lent(b);
}
