/* Calls the reader and looks at every number that it is lent. */
#include <stdio.h>
#include <string.h>

#include "check.h"

enum { MORE = 3, LISTS = 4, LEFT_32 = 0x5a5a5a5a };

/* fields, x, y and marks, each with room behind what is needed */
struct lists {
    int32_t of[LISTS][POSITIONS + MORE];
    uint64_t answer[ANSWER + MORE];
};

static const size_t NEEDED[LISTS + 1] = {VALUES, POSITIONS, POSITIONS, POSITIONS, ANSWER};

/* One call with slices of these lengths; what must stay is compared. */
static uint32_t call(const char *what, const uint8_t *record, size_t n, const size_t length[LISTS + 1], struct lists *l)
{
    for (int k = 0; k < LISTS; k++)
        for (int i = 0; i < POSITIONS + MORE; i++)
            l->of[k][i] = LEFT_32;
    for (int i = 0; i < ANSWER + MORE; i++)
        l->answer[i] = LEFT;
    uint32_t code = read_by(record, n, l->of[0], length[0], l->of[1], length[1], l->of[2], length[2], l->of[3], length[3],
                            l->answer, length[4]);
    for (int k = 0; k < LISTS; k++)
        for (size_t i = code == 0 ? NEEDED[k] : 0; i < POSITIONS + MORE; i++)
            expect(what, (uint64_t)l->of[k][i], LEFT_32, LEFT_32);
    for (size_t i = code == 0 ? ANSWER : 0; i < ANSWER + MORE; i++)
        expect(what, l->answer[i], LEFT, LEFT);
    return code;
}

/* Sign and all: a number of fields, x, y or marks. */
static void number(const char *what, int32_t got, int32_t want)
{
    expect(what, (uint32_t)got, (uint32_t)want, (uint32_t)want);
}

/* The values that come, each place of them. */
void reads(const char *what, const uint8_t *record, size_t n, const struct values *v)
{
    struct lists l;
    expect(what, call(what, record, n, NEEDED, &l), 0, 0);
    expect(what, l.answer[NEGWISHAL_ANSWER_NUMBER], 0, 0);
    expect(what, l.answer[NEGWISHAL_ANSWER_DOWELS], v->x_len, v->x_len);
    for (int i = 0; i < VALUES; i++)
        number(what, l.of[0][i], v->fields[i]);
    for (size_t i = 0; i < POSITIONS; i++) {
        number(what, l.of[1][i], i < v->x_len ? v->x[i] : 0);
        number(what, l.of[2][i], i < v->x_len ? v->y[i] : 0);
        number(what, l.of[3][i], 0);
    }
}

/* The number that comes, and zeros. */
void refuses(const char *what, const uint8_t *record, size_t n, uint64_t wanted)
{
    struct lists l;
    expect(what, call(what, record, n, NEEDED, &l), 0, 0);
    expect(what, l.answer[0], wanted, wanted);
    expect(what, l.answer[1], 0, 0);
    for (int k = 0; k < LISTS; k++)
        for (size_t i = 0; i < NEEDED[k]; i++)
            number(what, l.of[k][i], 0);
}

void short_read(const uint8_t *record, size_t n)
{
    struct lists l;
    char what[60];
    for (int k = 0; k <= LISTS; k++)
        for (size_t short_of = 0; short_of < NEEDED[k]; short_of++) {
            size_t length[LISTS + 1];
            memcpy(length, NEEDED, sizeof length);
            length[k] = short_of;
            snprintf(what, sizeof what, "%zu numbers in slice %d", short_of, k);
            expect(what, call(what, record, n, length, &l), 1, 1);
        }
}

static void check_lengths(const uint8_t *b, size_t n)
{
    struct lists l;
    char what[60];
    short_read(b, n);
    short_read(b, 0);
    for (int k = 0; k <= LISTS; k++) {
        size_t length[LISTS + 1];
        memcpy(length, NEEDED, sizeof length);
        length[k] += MORE;
        snprintf(what, sizeof what, "slice %d longer", k);
        expect(what, call(what, b, n, length, &l), 0, 0);
        expect(what, l.answer[0], 0, 0);
        expect(what, call(what, b, 0, length, &l), 0, 0);
        expect(what, l.answer[0], 1, 1);
    }
}

/* Joint B's record with one or two bytes changed. */
static const struct {
    const char *what;
    size_t at[2];
    uint8_t byte[2];
    uint64_t number;
} REFUSAL[] = {
    {"version 3", {0, 0}, {3, 3}, 2},
    {"version 3 and 5 pairs", {0, 2}, {3, 5}, 2},
    {"version 0", {0, 0}, {0, 0}, 2},
    {"version 257", {0, 1}, {1, 1}, 2},
    {"version 258", {0, 1}, {2, 1}, 2},
    {"version 2, high byte first", {0, 1}, {0, 2}, 2},
    {"5 pairs", {2, 2}, {5, 5}, 3},
    {"a gap", {8, 8}, {63, 63}, 4},
    {"an unknown kind", {62, 62}, {7, 7}, 5},
    {"a kind twice", {62, 62}, {4, 4}, 5},
    {"5 dowels in a part of 4", {66, 66}, {5, 5}, 6},
    {"class 12", {22, 22}, {12, 12}, 7},
    {"x0 = x1", {34, 35}, {0xb8, 0xfc}, 8},
    {"no force", {102, 103}, {0, 0}, 9},
};

static void check_refusals(const uint8_t *b, size_t n)
{
    uint8_t record[110];
    for (size_t length = 0; length < 20; length++)
        refuses("fewer than 20 bytes", b, length, 1);
    for (size_t k = 0; k < sizeof REFUSAL / sizeof REFUSAL[0]; k++) {
        memcpy(record, b, sizeof record);
        for (int i = 0; i < 2; i++)
            record[REFUSAL[k].at[i]] = REFUSAL[k].byte[i];
        if (REFUSAL[k].number == 8)
            record[36] = record[37] = 0xff; /* x1's upper half as x0's */
        refuses(REFUSAL[k].what, record, n, REFUSAL[k].number);
    }
    refuses("the last byte cut off", b, n - 1, 4);
}

/* What is written reads back, 0 where versions 1 and 2 have no field; written again it is the same. */
static void check_both_ways(const uint8_t *b)
{
    static const int no_field[5] = {NEGWISHAL_AT_GX_1, NEGWISHAL_AT_GY_1, NEGWISHAL_AT_GX_2, NEGWISHAL_AT_GY_2,
                                    NEGWISHAL_AT_PLATE};
    uint8_t record[600], again[600];
    uint64_t answer[ANSWER];
    struct lists l;
    for (size_t n = 1; n <= POSITIONS; n++) {
        struct values v = lattice(n);
        for (int k = 0; k < 5; k++)
            v.fields[no_field[k]] = INT32_MAX - k;
        expect("written",
               write_by(v.fields, VALUES, v.x, n, v.y, n, v.fields, 5, record, 600, answer, ANSWER), 0, 0);
        expect("written", answer[0], 0, 0);
        for (int k = 0; k < 5; k++)
            v.fields[no_field[k]] = 0;
        reads("read back", record, 78 + 8 * n, &v);
    }
    /* the parts in the order 4, 3, 2, 1 */
    size_t n = turned(b, record);
    struct values v = joint_b();
    reads("parts turned round", record, n, &v);
    expect("parts turned round", call("parts turned round", record, n, NEEDED, &l), 0, 0);
    expect("written again", write_by(l.of[0], VALUES, l.of[1], l.answer[1], l.of[2], l.answer[1], l.of[3], l.answer[1],
                                     again, n, answer, ANSWER), 0, 0);
    expect("written again", answer[0], 0, 0);
    expect("written again", answer[1], n, n);
    expect("written again", memcmp(again, b, n) != 0, 0, 0);
    expect("its bytes differ", memcmp(again, record, n) != 0, 1, 1);
}

void check_read(const uint8_t *b, size_t length, const uint8_t *close, size_t close_length)
{
    struct values v = joint_b();
    uint8_t kept[4096];
    memcpy(kept, b, length);
    expect("NEGWISHAL_POSITIONS", NEGWISHAL_POSITIONS, POSITIONS, POSITIONS);
    expect("NEGWISHAL_ANSWER_DOWELS", NEGWISHAL_ANSWER_DOWELS, 1, 1);
    reads("joint B", b, length, &v);
    v.x[1] = v.x[3] = 599;
    reads("dowels too close", close, close_length, &v);
    check_lengths(b, length);
    check_refusals(b, length);
    check_both_ways(b);
    expect("the record is only read", memcmp(kept, b, length) != 0, 0, 0);
}
