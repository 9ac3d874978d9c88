/* Calls the entries for firms: by which number a call is turned away, whose entries it goes by, that nothing of the other
 * firm's changes an answer, what is left as it was. */
#include <stdio.h>
#include <string.h>

#include "check.h"

enum { FRONT = 10 };

static const uint32_t OTHER_FIRMS[] = {0, 3, 255, 256, 257, 258, 513, 65537, 65538, UINT32_C(0x01000001), UINT32_C(0x02000000),
                                       UINT32_C(0x80000001), UINT32_C(0x80000002), UINT32_MAX - 1, UINT32_MAX};

enum { OTHERS = sizeof OTHER_FIRMS / sizeof OTHER_FIRMS[0] };

/* ---- what loads, and for whom */

static const struct loading {
    const char *what;
    struct table table;
    uint32_t number[2]; /* firm 1's and firm 2's */
} LOADING[] = {
    {"no bytes", {0, {0}}, {14, 14}},
    {"9 bytes", {9, {2, 0, 10, 0, 4, 0, 14, 0, 4}}, {14, 14}},
    {"no entries", {10, {2, 0, 10, 0, 0, 0, 10, 0, 0, 0}}, {14, 14}},
    {"no entry of firm 1", {14, {2, 0, 10, 0, 0, 0, 10, 0, 4, 0, 1, 0, 0x5e, 1}}, {14, 14}},
    {"no entry of firm 2", {14, {2, 0, 10, 0, 4, 0, 14, 0, 0, 0, 1, 0, 0x5e, 1}}, {14, 14}},
    {"count 0", {18, {0, 0, 10, 0, 4, 0, 14, 0, 4, 0, 1, 0, 0x5e, 1, 1, 1, 0x84, 3}}, {14, 14}},
    {"count 1", {18, {1, 0, 10, 0, 4, 0, 14, 0, 4, 0, 1, 0, 0x5e, 1, 1, 1, 0x84, 3}}, {14, 14}},
    {"count 3", {18, {3, 0, 10, 0, 4, 0, 14, 0, 4, 0, 1, 0, 0x5e, 1, 1, 1, 0x84, 3}}, {14, 14}},
    {"count 258", {18, {2, 1, 10, 0, 4, 0, 14, 0, 4, 0, 1, 0, 0x5e, 1, 1, 1, 0x84, 3}}, {14, 14}},
    {"count 2, high byte first", {18, {0, 2, 10, 0, 4, 0, 14, 0, 4, 0, 1, 0, 0x5e, 1, 1, 1, 0x84, 3}}, {14, 14}},
    {"first offset 6", {18, {2, 0, 6, 0, 4, 0, 14, 0, 4, 0, 1, 0, 0x5e, 1, 1, 1, 0x84, 3}}, {14, 14}},
    {"first offset 6, the sums right", {18, {2, 0, 6, 0, 8, 0, 14, 0, 4, 0, 1, 0, 0x5e, 1, 1, 1, 0x84, 3}}, {14, 14}},
    {"first offset 11, a gap", {19, {2, 0, 11, 0, 4, 0, 15, 0, 4, 0, 0, 1, 0, 0x5e, 1, 1, 1, 0x84, 3}}, {14, 14}},
    {"first offset 266", {18, {2, 0, 10, 1, 4, 0, 14, 0, 4, 0, 1, 0, 0x5e, 1, 1, 1, 0x84, 3}}, {14, 14}},
    {"a gap", {19, {2, 0, 10, 0, 4, 0, 15, 0, 4, 0, 1, 0, 0x5e, 1, 0, 1, 1, 0x84, 3}}, {14, 14}},
    {"an overlap", {18, {2, 0, 10, 0, 8, 0, 14, 0, 4, 0, 1, 0, 0x5e, 1, 2, 1, 0x84, 3}}, {14, 14}},
    {"one stretch for both", {14, {2, 0, 10, 0, 4, 0, 10, 0, 4, 0, 1, 0, 0x5e, 1}}, {14, 14}},
    {"firm 2's before firm 1's", {18, {2, 0, 14, 0, 4, 0, 10, 0, 4, 0, 1, 0, 0x5e, 1, 1, 1, 0x84, 3}}, {14, 14}},
    {"second offset 270", {18, {2, 0, 10, 0, 4, 0, 14, 1, 4, 0, 1, 0, 0x5e, 1, 1, 1, 0x84, 3}}, {14, 14}},
    {"length 5 of firm 1", {19, {2, 0, 10, 0, 5, 0, 15, 0, 4, 0, 1, 0, 0x5e, 1, 9, 1, 1, 0x84, 3}}, {14, 14}},
    {"length 6 of firm 2", {20, {2, 0, 10, 0, 4, 0, 14, 0, 6, 0, 1, 0, 0x5e, 1, 1, 1, 0x84, 3, 9, 0}}, {14, 14}},
    {"lengths 6 and 6", {22, {2, 0, 10, 0, 6, 0, 16, 0, 6, 0, 1, 0, 0x5e, 1, 9, 0, 1, 1, 0x84, 3, 9, 0}}, {14, 14}},
    {"a byte less", {17, {2, 0, 10, 0, 4, 0, 14, 0, 4, 0, 1, 0, 0x5e, 1, 1, 1, 0x84}}, {14, 14}},
    {"a byte more", {19, {2, 0, 10, 0, 4, 0, 14, 0, 4, 0, 1, 0, 0x5e, 1, 1, 1, 0x84, 3, 0}}, {14, 14}},
    {"an entry more", {22, {2, 0, 10, 0, 4, 0, 14, 0, 4, 0, 1, 0, 0x5e, 1, 1, 1, 0x84, 3, 2, 0, 0x5e, 1}}, {14, 14}},
    {"a firm's own table", {14, {1, 0, 6, 0, 8, 0, 1, 0, 0x5e, 1, 2, 1, 0x84, 3}}, {14, 14}},
    {"a byte more, kind 2 in both", {19, {2, 0, 10, 0, 4, 0, 14, 0, 4, 0, 1, 2, 0x5e, 1, 1, 2, 0x84, 3, 0}}, {14, 14}},
    {"code 1 of both", {18, {2, 0, 10, 0, 4, 0, 14, 0, 4, 0, 1, 0, 0x5e, 1, 1, 1, 0x84, 3}}, {0, 0}},
    {"code 255, then code 1", {18, {2, 0, 10, 0, 4, 0, 14, 0, 4, 0, 255, 0, 0x22, 1, 1, 1, 0x4c, 4}}, {0, 0}},
    {"two entries and one", {22, {2, 0, 10, 0, 8, 0, 18, 0, 4, 0, 1, 0, 0x5e, 1, 9, 1, 0x84, 3, 1, 1, 0x84, 3}}, {0, 0}},
    {"one entry and two", {22, {2, 0, 10, 0, 4, 0, 14, 0, 8, 0, 1, 0, 0x5e, 1, 1, 1, 0x84, 3, 9, 0, 0x5e, 1}}, {0, 0}},
    {"code 0 of firm 1", {18, {2, 0, 10, 0, 4, 0, 14, 0, 4, 0, 0, 0, 0x5e, 1, 1, 1, 0x84, 3}}, {15, 0}},
    {"kind 2 of firm 2", {18, {2, 0, 10, 0, 4, 0, 14, 0, 4, 0, 1, 0, 0x5e, 1, 1, 2, 0x84, 3}}, {0, 15}},
    {"density 289 of firm 2", {18, {2, 0, 10, 0, 4, 0, 14, 0, 4, 0, 1, 0, 0x5e, 1, 1, 0, 0x21, 1}}, {0, 15}},
    {"density 1,101 of firm 1", {18, {2, 0, 10, 0, 4, 0, 14, 0, 4, 0, 1, 0, 0x4d, 4, 1, 1, 0x84, 3}}, {15, 0}},
    {"codes of firm 1 falling", {22, {2, 0, 10, 0, 8, 0, 18, 0, 4, 0, 9, 0, 0x5e, 1, 1, 1, 0x84, 3, 1, 1, 0x84, 3}}, {15, 0}},
    {"codes of firm 2 equal", {22, {2, 0, 10, 0, 4, 0, 14, 0, 8, 0, 1, 0, 0x5e, 1, 9, 1, 0x84, 3, 9, 0, 0x5e, 1}}, {0, 15}},
    {"zeros of firm 1", {18, {2, 0, 10, 0, 4, 0, 14, 0, 4, 0, 0, 0, 0, 0, 1, 1, 0x84, 3}}, {15, 0}},
    {"both faulty", {18, {2, 0, 10, 0, 4, 0, 14, 0, 4, 0, 1, 2, 0x5e, 1, 0, 1, 0x84, 3}}, {15, 15}},
};

enum { LOADINGS = sizeof LOADING / sizeof LOADING[0] };

static void check_loading(void)
{
    static uint8_t far[FRONT + 65524 + 4]; /* firm 2's entry behind byte 65,534: true sums do not start again */
    static const uint8_t front[FRONT] = {2, 0, 10, 0, 0xf4, 0xff, 0xfe, 0xff, 4, 0}, entry[4] = {1, 0, 0x5e, 1};
    for (size_t k = 0; k < LOADINGS; k++) {
        const struct loading *l = &LOADING[k];
        const struct table kept = l->table;
        for (uint32_t firm = 1; firm <= 2; firm++)
            expect(l->what, negwishal_load_for(firm, l->table.bytes, l->table.length), l->number[firm - 1], l->number[firm - 1]);
        for (size_t i = 0; i < OTHERS; i++)
            expect("another firm", negwishal_load_for(OTHER_FIRMS[i], l->table.bytes, l->table.length), 16, 16);
        expect("the table is only read", memcmp(&kept, &l->table, sizeof kept) != 0, 0, 0);
        /* as a firm's own a shared table is a 14 */
        if (l->table.bytes[0] == 2)
            expect("a shared table as an own one", negwishal_load(l->table.bytes, l->table.length), 14, 14);
    }
    memcpy(far, front, sizeof front);
    memcpy(far + sizeof far - sizeof entry, entry, sizeof entry);
    expect("far behind zeros", negwishal_load_for(1, far, sizeof far), 15, 15);
    expect("far behind zeros", negwishal_load_for(2, far, sizeof far), 0, 0);
    expect("far, a byte less", negwishal_load_for(2, far, sizeof far - 1), 14, 14);
    expect("far, 2 bytes in 16 bits", negwishal_load_for(2, far, (sizeof far) % 65536), 14, 14);
}

/* ---- a call that is turned away */

/* The number comes before all that a record or values can be refused by, and nothing is written but zeros. */
static void turned_away(const char *what, uint32_t firm, const struct table *t, const uint8_t *b, size_t n, uint32_t number)
{
    const uint64_t report[NEGWISHAL_FIELDS] = {0, number, 0, 0, 0, 0, 0, 0};
    struct values v = joint_b();
    uint8_t record[110];
    use(&firm, t);
    memcpy(record, b, n);
    judges(what, record, n, report, report);
    refuses(what, record, n, number);
    wrote(what, &v, 110, number, NULL);
    record[0] = 3; /* version 3, then a class that is in no table */
    judges(what, record, n, report, report);
    refuses(what, record, n, number);
    record[0] = b[0];
    record[22] = 0;
    judges(what, record, n, report, report);
    refuses(what, record, n, number);
    judges(what, record, 0, report, report);
    refuses(what, record, 0, number);
    v.fields[NEGWISHAL_AT_VERSION] = 9;
    v.x_len = 3;
    wrote(what, &v, 0, number, NULL);
    use(NULL, NULL);
}

/* Slices too short are told before firm and table are looked at. */
static void short_slices(uint32_t firm, const struct table *t, const uint8_t *b, size_t n)
{
    struct values v = joint_b();
    use(&firm, t);
    short_judge(b, n);
    short_judge(b, 0);
    short_read(b, n);
    short_write(&v);
    use(NULL, NULL);
}

static void check_turned_away(const uint8_t *b, size_t n)
{
    for (size_t k = 0; k < LOADINGS; k++) {
        const struct loading *l = &LOADING[k];
        for (uint32_t firm = 1; firm <= 2; firm++)
            if (l->number[firm - 1] != 0)
                turned_away(l->what, firm, &l->table, b, n, l->number[firm - 1]);
        for (size_t i = k % 3; i < OTHERS; i += 3)
            turned_away("another firm", OTHER_FIRMS[i], &l->table, b, n, 16);
    }
    for (size_t i = 0; i < OTHERS; i++)
        short_slices(OTHER_FIRMS[i], &LOADING[i % 2 ? 0 : LOADINGS - 1].table, b, n);
    short_slices(1, &LOADING[0].table, b, n);
    short_slices(2, &LOADING[LOADINGS - 1].table, b, n);
}

/* ---- whose entries a call goes by */

static void put_front(struct table *t, size_t one, size_t two)
{
    const size_t numbers[5] = {2, FRONT, 4 * one, FRONT + 4 * one, 4 * two};
    for (int k = 0; k < 5; k++) {
        t->bytes[2 * k] = (uint8_t)(numbers[k] & 255);
        t->bytes[2 * k + 1] = (uint8_t)(numbers[k] >> 8);
    }
    t->length = FRONT + 4 * (one + two);
}

struct table printed_for(uint32_t firm)
{
    enum { ENTRIES = 11, OTHERS_ENTRIES = 3 };
    struct table t = {0, {0}};
    put_front(&t, firm == 1 ? ENTRIES : OTHERS_ENTRIES, firm == 1 ? OTHERS_ENTRIES : ENTRIES);
    memcpy(t.bytes + FRONT + (firm == 1 ? 0 : 4 * OTHERS_ENTRIES), PRINTED.bytes + 6, 4 * ENTRIES);
    return t;
}

/* Firm 1: code 1 softwood 350, code 200 softwood 350; firm 2: code 1 hardwood 900. */
static struct table two_firms(void)
{
    static const uint8_t entries[12] = {1, 0, 0x5e, 1, 200, 0, 0x5e, 1, 1, 1, 0x84, 3};
    struct table t = {0, {0}};
    put_front(&t, 2, 1);
    memcpy(t.bytes + FRONT, entries, sizeof entries);
    return t;
}

/* Joint B by either firm: code 1 is another wood to each, and class 200 is one of firm 1's alone. */
static void check_either(const uint8_t *b, size_t n)
{
    static const uint64_t low[2][8] = {{1, 0, 0, 0, 0, 7431, 7440, 7346}, {1, 0, 0, 0, 0, 4634, 11931, 7346}};
    static const uint64_t high[2][8] = {{1, 0, 0, 0, 0, 7469, 7441, 7347}, {1, 0, 0, 0, 0, 4658, 11932, 7347}};
    static const uint64_t unknown[8] = {0, 7, 0, 0, 0, 0, 0, 0};
    const struct table t = two_firms(), kept = t;
    struct values v = joint_b(), w = joint_b();
    uint8_t record[110];
    memcpy(record, b, n);
    record[42] = 200;
    w.fields[NEGWISHAL_AT_CLASS_2] = 200;
    for (uint32_t firm = 1; firm <= 2; firm++) {
        use(&firm, &t);
        judges("joint B for a firm", b, n, low[firm - 1], high[firm - 1]);
        reads("joint B for a firm", b, n, &v);
        wrote("joint B for a firm", &v, 110, 0, b);
        wrote("joint B for a firm", &v, 109, 13, NULL);
        if (firm == 1) {
            judges("class 200 for firm 1", record, n, low[0], high[0]);
            reads("class 200 for firm 1", record, n, &w);
            wrote("class 200 for firm 1", &w, 110, 0, record);
        } else {
            judges("class 200 for firm 2", record, n, unknown, unknown);
            refuses("class 200 for firm 2", record, n, 7);
            wrote("class 200 for firm 2", &w, 110, 7, NULL);
        }
        short_slices(firm, &t, b, n);
    }
    expect("the table is only read", memcmp(&kept, &t, sizeof t) != 0, 0, 0);
}

/* ---- nothing of the other's */

/* Everything that the four entries return and write for these bytes. */
struct all {
    uint32_t code[4];
    uint64_t report[NEGWISHAL_FIELDS], read[ANSWER], written[ANSWER];
    int32_t fields[VALUES], x[POSITIONS], y[POSITIONS], marks[POSITIONS];
    uint8_t buffer[110];
};

static struct all all_by(const uint8_t *b, size_t n)
{
    const struct values v = joint_b();
    struct all a;
    memset(&a, 0x5a, sizeof a);
    a.code[0] = firm_in_use == NULL ? negwishal_load(in_use->bytes, in_use->length)
                                    : negwishal_load_for(*firm_in_use, in_use->bytes, in_use->length);
    a.code[1] = judge_by(b, n, a.report, NEGWISHAL_FIELDS);
    a.code[2] = read_by(b, n, a.fields, VALUES, a.x, POSITIONS, a.y, POSITIONS, a.marks, POSITIONS, a.read, ANSWER);
    a.code[3] = write_by(v.fields, VALUES, v.x, 4, v.y, 4, v.x, 0, a.buffer, sizeof a.buffer, a.written, ANSWER);
    return a;
}

/* Entries of either firm, right and faulty ones; the first of them say what class 1 is, or not. */
static const struct {
    size_t length;
    uint8_t bytes[12];
} PART[] = {
    {4, {1, 0, 0x5e, 1}}, {4, {1, 1, 0x84, 3}}, {8, {1, 0, 0x86, 1, 200, 1, 0x84, 3}}, {4, {200, 1, 0x84, 3}},
    {12, {1, 0, 0x90, 1, 2, 0, 0x5e, 1, 3, 1, 0x4c, 4}}, {4, {0, 0, 0x5e, 1}}, {4, {1, 2, 0x5e, 1}}, {4, {1, 0, 0x21, 1}},
    {8, {1, 0, 0x5e, 1, 1, 1, 0x84, 3}}, {8, {200, 0, 0x5e, 1, 1, 1, 0x84, 3}}, {8, {0}},
    {12, {255, 255, 255, 255, 255, 255, 255, 255, 255, 255, 255, 255}},
};

enum { PARTS = sizeof PART / sizeof PART[0] };

static struct table joined(size_t one, size_t two)
{
    struct table t = {0, {0}};
    put_front(&t, PART[one].length / 4, PART[two].length / 4);
    memcpy(t.bytes + FRONT, PART[one].bytes, PART[one].length);
    memcpy(t.bytes + FRONT + PART[one].length, PART[two].bytes, PART[two].length);
    return t;
}

/* A firm's own table of the same entries. */
static struct table alone(size_t part)
{
    struct table t = {6 + PART[part].length, {1, 0, 6, 0, (uint8_t)PART[part].length, 0}};
    memcpy(t.bytes + 6, PART[part].bytes, PART[part].length);
    return t;
}

/* The same answers for every content of the other firm's stretch, and by a table of the firm's own. */
static void check_alone(const uint8_t *b, size_t n)
{
    for (size_t own = 0; own < PARTS; own++) {
        const struct table t = alone(own);
        use(NULL, &t);
        const struct all wanted = all_by(b, n);
        expect("an answer by its own table", wanted.code[0] == 0 || wanted.code[0] == 15, 1, 1);
        for (size_t other = 0; other < PARTS; other++)
            for (uint32_t firm = 1; firm <= 2; firm++) {
                struct table s = firm == 1 ? joined(own, other) : joined(other, own);
                const size_t at = firm == 1 ? FRONT + PART[own].length : FRONT;
                for (int fill = 0; fill < 4; fill++) { /* as joined, then all bytes of the other's alike */
                    static const uint8_t with[4] = {0, 0, 1, 255};
                    if (fill > 0)
                        memset(s.bytes + at, with[fill], PART[other].length);
                    use(&firm, &s);
                    const struct all got = all_by(b, n);
                    expect("an answer for a firm", memcmp(&got, &wanted, sizeof got) != 0, 0, 0);
                }
            }
    }
    use(NULL, NULL);
}

/* One slice for table and record: both are only read. */
static void check_lent(const uint8_t *b, size_t n)
{
    static const uint64_t layout[8] = {0, 14, 0, 0, 0, 0, 0, 0}, few[8] = {0, 1, 0, 0, 0, 0, 0, 0};
    const uint32_t firm = 2;
    struct table t = {n, {0}};
    memcpy(t.bytes, b, n);
    use(&firm, &t);
    judges("a record for a shared table", t.bytes, n, layout, layout);
    refuses("a record for a shared table", t.bytes, n, 14);
    t = joined(0, 1);
    judges("a shared table for a record", t.bytes, t.length, few, few);
    refuses("a shared table for a record", t.bytes, t.length, 1);
    use(NULL, NULL);
}

void check_firms(const uint8_t *b, size_t length)
{
    expect("NEGWISHAL_OTHER_FIRM", NEGWISHAL_OTHER_FIRM, 16, 16);
    check_loading();
    check_turned_away(b, length);
    check_either(b, length);
    check_alone(b, length);
    check_lent(b, length);
}
