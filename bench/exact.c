/* The same job exactly, on GMP: every comparison is one of whole numbers, every root is rounded towards the safe
 * side.  C and E are the greatest whole numbers allowed.  Then a record from values and values from a record; at the
 * end whole square roots.  Nothing here is proved: it is a yardstick. */
#include <gmp.h>
#include <stdlib.h>
#include <string.h>

#include "bench.h"

#define SOFTWOOD 1350 /* k90 without its 15 d, in thousandths */
#define HARDWOOD 900
enum { CODES = 256 };
/* Wood by code; density 0 where the table has no such class. */
struct table {
    struct {
        uint16_t k90, density;
    } of[CODES];
};
static const struct table PRINTED = {{
    [1] = {SOFTWOOD, 350}, [2] = {SOFTWOOD, 380}, [3] = {SOFTWOOD, 385}, [4] = {SOFTWOOD, 365},
    [5] = {SOFTWOOD, 425}, [6] = {SOFTWOOD, 390}, [7] = {SOFTWOOD, 440}, [8] = {SOFTWOOD, 400},
    [9] = {HARDWOOD, 530}, [10] = {HARDWOOD, 550}, [11] = {HARDWOOD, 900},
}};
static const unsigned STEEL[3] = {360, 430, 510};
static const unsigned KMOD[3][5] = {{60, 70, 80, 90, 110}, {60, 70, 80, 90, 110}, {50, 55, 65, 70, 90}};

/* Versions of the record that are known; the first by which a loaded edge is one of EN 1995-1-1. */
enum { OLDEST = 1, NEWEST = 2, LOADED_EDGES = 2 };

/* Units of the capacity and of the share before they become whole, and of the root of the squared force. */
#define PARTS 1000000000ul
#define ROOT_BITS 64

struct member {
    unsigned class, grain, thickness;
    int32_t low[2], high[2]; /* of x and y */
};

struct joint {
    const struct table *table; /* that its classes are of */
    unsigned version, planes, d, steel, n, service, duration;
    struct member members[2];
    int32_t at[2][64]; /* x and y */
    int32_t force[2];
};

static unsigned u16_at(const uint8_t *b) { return b[0] | (unsigned)b[1] << 8; }

static int32_t i32_at(const uint8_t *b)
{
    return (int32_t)(b[0] | (uint32_t)b[1] << 8 | (uint32_t)b[2] << 16 | (uint32_t)b[3] << 24);
}

/* Refusal 15 of entries, or 0. */
static unsigned load_entries(const uint8_t *b, size_t length, struct table *t)
{
    unsigned before = 0;
    memset(t, 0, sizeof *t);
    for (size_t i = 0; i < length; i += 4) {
        unsigned code = b[i], kind = b[i + 1], density = u16_at(b + i + 2);
        if (code <= before || kind > 1 || density < 290 || density > 1100)
            return 15;
        t->of[code].k90 = kind == 0 ? SOFTWOOD : HARDWOOD;
        t->of[code].density = (uint16_t)density;
        before = code;
    }
    return 0;
}

/* Refusals 14 and 15 of a firm's own table, or 0. */
static unsigned load(const uint8_t *b, size_t length, struct table *t)
{
    if (length < 10 || length % 4 != 2 || u16_at(b) != 1 || u16_at(b + 2) != 6 || 6u + u16_at(b + 4) != length)
        return 14;
    return load_entries(b + 6, length - 6, t);
}

/* Refusals 14 to 16 of what a firm has of a shared table, or 0. */
static unsigned load_for(uint32_t firm, const uint8_t *b, size_t length, struct table *t)
{
    if (firm != 1 && firm != 2)
        return 16;
    if (length < 18 || u16_at(b) != 2)
        return 14;
    unsigned first = u16_at(b + 4), second = u16_at(b + 8);
    if (u16_at(b + 2) != 10 || u16_at(b + 6) != 10 + first || 10 + first + second != length)
        return 14;
    if (first == 0 || second == 0 || first % 4 != 0 || second % 4 != 0)
        return 14;
    return firm == 1 ? load_entries(b + 10, first, t) : load_entries(b + 10 + first, second, t);
}

static int is_known(unsigned version) { return OLDEST <= version && version <= NEWEST; }

static int within(int32_t z, int32_t limit) { return -limit <= z && z <= limit; }

/* Refusals 7 to 9, or 0; the number of dowels is tested before. */
static unsigned value_fault(const struct joint *j)
{
    int good = 1 <= j->planes && j->planes <= 2 && 6 <= j->d && j->d <= 30 && 1 <= j->steel && j->steel <= 3
            && 1 <= j->service && j->service <= 3 && 1 <= j->duration && j->duration <= 5;
    for (int k = 0; k < 2; k++) {
        const struct member *m = &j->members[k];
        good = good && m->class < CODES && j->table->of[m->class].density != 0 && m->grain <= 1
            && 200 <= m->thickness && m->thickness <= 4000;
        for (int a = 0; a < 2; a++)
            good = good && within(m->low[a], 100000) && within(m->high[a], 100000);
    }
    for (int a = 0; a < 2; a++) {
        for (unsigned i = 0; i < j->n; i++)
            good = good && within(j->at[a][i], 100000);
        good = good && within(j->force[a], 1000000);
    }
    if (!good)
        return 7;
    for (int k = 0; k < 2; k++)
        for (int a = 0; a < 2; a++)
            if (j->members[k].low[a] >= j->members[k].high[a])
                return 8;
    if (j->force[0] == 0 && j->force[1] == 0)
        return 9;
    return 0;
}

/* Refusals 1 to 9, or 0; the joint has its table. */
static unsigned read_joint(const uint8_t *b, size_t length, struct joint *j)
{
    const uint8_t *part[4] = {0};
    unsigned lengths[4] = {0};
    size_t end = 20;

    if (length < 20)
        return 1;
    j->version = u16_at(b);
    if (!is_known(j->version))
        return 2;
    if (u16_at(b + 2) != 4)
        return 3;
    for (int k = 0; k < 4; k++) {
        if (u16_at(b + 4 + 4 * k) != end || u16_at(b + 6 + 4 * k) == 0)
            return 4;
        end += u16_at(b + 6 + 4 * k);
    }
    if (end != length)
        return 4;
    for (int k = 0; k < 4; k++) {
        const uint8_t *p = b + u16_at(b + 4 + 4 * k);
        if (*p < 1 || *p > 4 || part[*p - 1])
            return 5;
        part[*p - 1] = p;
        lengths[*p - 1] = u16_at(b + 6 + 4 * k);
    }
    if (lengths[0] != 42 || lengths[1] != 3 || lengths[3] != 11)
        return 6;
    if (lengths[2] < 2 || lengths[2] != 2u + 8u * part[2][1])
        return 6;

    j->n = part[2][1];
    if (j->n < 1 || j->n > 64)
        return 7;
    j->planes = part[0][1];
    j->d = part[1][1];
    j->steel = part[1][2];
    j->service = part[3][1];
    j->duration = part[3][2];
    for (int k = 0; k < 2; k++) {
        const uint8_t *p = part[0] + 2 + 20 * k;
        struct member *m = &j->members[k];
        m->class = p[0];
        m->grain = p[1];
        m->thickness = u16_at(p + 2);
        for (int a = 0; a < 2; a++) {
            m->low[a] = i32_at(p + 4 + 4 * a);
            m->high[a] = i32_at(p + 12 + 4 * a);
        }
    }
    for (int a = 0; a < 2; a++) {
        for (unsigned i = 0; i < j->n; i++)
            j->at[a][i] = i32_at(part[2] + 2 + 8 * i + 4 * a);
        j->force[a] = i32_at(part[3] + 3 + 4 * a);
    }
    return value_fault(j);
}

static uint64_t square(int64_t z) { return (uint64_t)(z * z); }

static uint64_t total(const struct joint *j) { return square(j->force[0]) + square(j->force[1]); }

/* The least whole r with r² whole ≥ length² part. */
static int32_t least_root(uint64_t length, uint64_t part, uint64_t whole)
{
    mpz_t n, q;
    mpz_init_set_ui(n, length * length);
    mpz_init(q);
    mpz_mul_ui(n, n, part);
    mpz_cdiv_q_ui(q, n, whole);
    int up = !mpz_perfect_square_p(q);
    mpz_sqrt(q, q);
    int32_t r = (int32_t)mpz_get_ui(q) + up;
    mpz_clears(n, q, NULL);
    return r;
}

static int32_t most(int32_t a, int32_t b) { return a < b ? b : a; }

/* The least distances from a member's two ends or edges: that towards which the force in it goes, and another. */
struct distances {
    int32_t loaded, other;
};

static int too_near(int32_t z, int32_t low, int32_t high, int32_t force, struct distances least)
{
    return z - low < (force < 0 ? least.loaded : least.other) || high - z < (force > 0 ? least.loaded : least.other);
}

/* Refusals 10 to 12 of a member, or 0. */
static unsigned spacing(const struct joint *j, int k, uint64_t place[2])
{
    const struct member *m = &j->members[k];
    unsigned g = m->grain;
    const int32_t *along = j->at[g], *across = j->at[1 - g];
    int32_t d = 10 * (int32_t)j->d;
    uint64_t cos2 = square(j->force[g]), whole = total(j), sin2 = whole - cos2;
    int32_t apart = 3 * d + least_root(2 * (uint64_t)d, cos2, whole);
    struct distances end = {most(7 * d, 800), most(3 * d, least_root(7 * (uint64_t)d, sin2, whole))};
    struct distances edge = {3 * d, 3 * d};
    if (j->version >= LOADED_EDGES)
        edge.loaded = most(3 * d, 2 * d + least_root(2 * (uint64_t)d, sin2, whole));
    int32_t sign = k == 0 ? -1 : 1;

    for (unsigned i = 0; i < j->n; i++)
        for (unsigned l = i + 1; l < j->n; l++)
            if (abs(along[i] - along[l]) < apart && abs(across[i] - across[l]) < 3 * d) {
                place[0] = i + 1;
                place[1] = l + 1;
                return 10;
            }
    place[1] = 0;
    for (unsigned i = 0; i < j->n; i++) {
        place[0] = i + 1;
        if (too_near(along[i], m->low[g], m->high[g], sign * j->force[g], end))
            return 11;
    }
    for (unsigned i = 0; i < j->n; i++) {
        place[0] = i + 1;
        if (too_near(across[i], m->low[1 - g], m->high[1 - g], sign * j->force[1 - g], edge))
            return 12;
    }
    place[0] = 0;
    return 0;
}

/* Bearing f = 82 (100 - d)/100 num/den. */
static void bearing(const struct joint *j, const struct member *m, mpz_t num, mpz_t den)
{
    uint64_t whole = total(j), cos2 = square(j->force[m->grain]);
    mpz_set_ui(num, whole);
    mpz_mul_ui(num, num, j->table->of[m->class].density);
    mpz_set_ui(den, whole - cos2);
    mpz_mul_ui(den, den, j->table->of[m->class].k90 + 15 * j->d);
    mpz_t c;
    mpz_init_set_ui(c, cos2);
    mpz_addmul_ui(den, c, 1000);
    mpz_clear(c);
}

/* r := the greatest whole number of 1/PARTS with r ≤ K and r² whole ≤ (K - r)² part, K = PARTS num/den. */
static void wedge(mpz_t r, const mpz_t num, const mpz_t den, const mpz_t part, const mpz_t whole)
{
    mpz_t k, a, b, left, right;
    mpz_inits(k, a, b, left, right, NULL);
    mpz_mul_ui(k, num, PARTS); /* K = k/den */
    mpz_mul_2exp(a, part, 2 * ROOT_BITS);
    mpz_fdiv_q(a, a, whole);
    mpz_sqrt(a, a); /* the root of part/whole, rounded down */
    mpz_set(b, a);
    mpz_setbit(b, ROOT_BITS);
    mpz_mul(b, b, den);
    mpz_mul(a, a, k);
    mpz_fdiv_q(r, a, b);
    for (;;) { /* one more, where the exact test allows it */
        mpz_add_ui(r, r, 1);
        mpz_mul(a, r, den);
        mpz_sub(b, k, a);
        mpz_mul(left, a, a);
        mpz_mul(left, left, whole);
        mpz_mul(right, b, b);
        mpz_mul(right, right, part);
        if (mpz_sgn(b) < 0 || mpz_cmp(left, right) > 0)
            break;
    }
    mpz_sub_ui(r, r, 1);
    mpz_clears(k, a, b, left, right, NULL);
}

/* r := R in whole 1/PARTS, rounded down. */
static void capacity(mpz_t r, const struct joint *j)
{
    mpz_t n1, d1, n2, d2, cross1, cross2, whole, a, b;
    mpz_inits(n1, d1, n2, d2, cross1, cross2, whole, a, b, NULL);
    unsigned long d = j->d, k = 82 * (100 - d) * d; /* f d = k/100 num/den */
    bearing(j, &j->members[0], n1, d1);
    bearing(j, &j->members[1], n2, d2);
    mpz_mul(cross1, n1, d2);
    mpz_mul(cross2, n2, d1);
    mpz_add(whole, cross1, cross2);

    /* the tenth root of (2.3² 0.3 fu d² d f1 f2/(f1 + f2))^5 d³ */
    mpz_mul(a, n1, n2);
    mpz_mul_ui(a, a, 529 * 3 * STEEL[j->steel - 1] * d * d);
    mpz_mul_ui(a, a, k);
    mpz_mul_ui(b, whole, 100 * 10 * 100);
    mpz_mul_ui(a, a, PARTS);
    mpz_mul_ui(a, a, PARTS);
    mpz_pow_ui(a, a, 5);
    mpz_pow_ui(b, b, 5);
    mpz_mul_ui(a, a, d * d * d);
    mpz_fdiv_q(a, a, b);
    mpz_root(r, a, 10);

    /* thickness in tenths: f d t = k t/1000 num/den */
    mpz_mul_ui(n1, n1, k * j->members[0].thickness);
    mpz_mul_ui(d1, d1, 1000);
    wedge(a, n1, d1, cross2, whole);
    if (mpz_cmp(a, r) < 0)
        mpz_set(r, a);
    mpz_mul_ui(n2, n2, k * j->members[1].thickness);
    mpz_mul_ui(d2, d2, 1000);
    if (j->planes == 1) {
        wedge(a, n2, d2, cross1, whole);
    } else {
        mpz_mul_ui(n2, n2, PARTS);
        mpz_mul_ui(d2, d2, 2);
        mpz_fdiv_q(a, n2, d2);
    }
    if (mpz_cmp(a, r) < 0)
        mpz_set(r, a);
    mpz_clears(n1, d1, n2, d2, cross1, cross2, whole, a, b, NULL);
}

/* A dowel's place in a member. */
struct place {
    int32_t across, along;
};

static int by_across(const void *a, const void *b)
{
    int32_t x = ((const struct place *)a)->across, y = ((const struct place *)b)->across;
    return (x > y) - (x < y);
}

static int order(const void *a, const void *b)
{
    int32_t x = *(const int32_t *)a, y = *(const int32_t *)b;
    return (x > y) - (x < y);
}

/* The least distance along of n > 1 dowels. */
static unsigned long least_distance(const struct place *p, unsigned n)
{
    int32_t along[64];
    for (unsigned i = 0; i < n; i++)
        along[i] = p[i].along;
    qsort(along, n, sizeof along[0], order);
    unsigned long least = (unsigned long)(along[1] - along[0]);
    for (unsigned i = 2; i < n; i++)
        if ((unsigned long)(along[i] - along[i - 1]) < least)
            least = (unsigned long)(along[i] - along[i - 1]);
    return least;
}

/* e := the least effective number over n of a member's rows in whole 1/PARTS, rounded down.  A row's share is the
 * twentieth root of a1^5/(n² (130 d)^5): the least a1^5/n² is found first, and one root taken.  In across order a row is
 * a stretch narrower than d that reaches further up than the one before. */
static void share(mpz_t e, const struct joint *j, unsigned g)
{
    struct place p[64];
    unsigned long least_n = 0, least_a1 = 0;
    unsigned end = 0;
    mpz_t here, least;
    mpz_inits(here, least, NULL);
    for (unsigned i = 0; i < j->n; i++)
        p[i] = (struct place){j->at[1 - g][i], j->at[g][i]};
    qsort(p, j->n, sizeof p[0], by_across);
    for (unsigned i = 0; end < j->n; i++) {
        unsigned before = end;
        while (end < j->n && p[end].across - p[i].across < (int32_t)(10 * j->d))
            end++;
        if (end == before || end - i < 2)
            continue;
        unsigned long n = end - i, a1 = least_distance(p + i, end - i);
        if (least_n != 0) {
            mpz_ui_pow_ui(here, a1, 5);
            mpz_mul_ui(here, here, least_n * least_n);
            mpz_ui_pow_ui(least, least_a1, 5);
            mpz_mul_ui(least, least, n * n);
            if (mpz_cmp(here, least) >= 0)
                continue;
        }
        least_n = n;
        least_a1 = a1;
    }
    mpz_set_ui(e, PARTS);
    if (least_n != 0) {
        mpz_ui_pow_ui(here, PARTS, 20);
        mpz_ui_pow_ui(least, least_a1, 5);
        mpz_mul(here, here, least);
        mpz_ui_pow_ui(least, 130 * j->d, 5);
        mpz_mul_ui(least, least, least_n * least_n);
        mpz_fdiv_q(here, here, least);
        mpz_root(here, here, 20);
        if (mpz_cmp(here, e) < 0)
            mpz_set(e, here);
    }
    mpz_clears(here, least, NULL);
}

/* u := the greater of u and a/b rounded up. */
static void raise(mpz_t u, mpz_t a, const mpz_t b)
{
    mpz_cdiv_q(a, a, b);
    if (mpz_cmp(a, u) > 0)
        mpz_set(u, a);
}

static void figures(const struct joint *j, uint64_t *report)
{
    mpz_t r, e[2], u, a, b;
    mpz_inits(r, e[0], e[1], u, a, b, NULL);
    unsigned g[2] = {j->members[0].grain, j->members[1].grain};
    capacity(r, j);
    share(e[0], j, g[0]);
    if (g[0] == g[1])
        mpz_set(e[1], e[0]);
    else
        share(e[1], j, g[1]);

    /* 10,000 times 130 g/(T h R), with twice T so that it is whole */
    unsigned long planes2 = j->n == 1 ? j->planes : 2 * j->n * j->planes;
    unsigned long th = planes2 * KMOD[j->service - 1][j->duration - 1];
    mpz_set_ui(a, total(j));
    mpz_mul_2exp(a, a, 2 * ROOT_BITS);
    int whole = mpz_perfect_square_p(a);
    mpz_sqrt(a, a);
    if (!whole)
        mpz_add_ui(a, a, 1);
    mpz_mul_ui(a, a, 2600000 * PARTS);
    mpz_mul_ui(b, r, th);
    mpz_mul_2exp(b, b, ROOT_BITS);
    mpz_set_ui(u, 0);
    raise(u, a, b);
    for (int k = 0; k < 2; k++) {
        mpz_set_ui(a, (unsigned long)labs((long)j->force[g[k]]));
        mpz_mul_ui(a, a, 2600000 * PARTS);
        mpz_mul_ui(a, a, PARTS);
        mpz_mul_ui(b, r, th);
        mpz_mul(b, b, e[k]);
        raise(u, a, b);
    }
    report[5] = mpz_get_ui(u);
    report[0] = report[5] <= 10000 ? 1 : 2;
    mpz_fdiv_q_ui(a, r, PARTS);
    report[6] = mpz_get_ui(a);
    mpz_mul_ui(a, mpz_cmp(e[0], e[1]) < 0 ? e[0] : e[1], 10000);
    mpz_fdiv_q_ui(a, a, PARTS);
    report[7] = mpz_get_ui(a);
    mpz_clears(r, e[0], e[1], u, a, b, NULL);
}

/* number: by what the table was refused, or 0. */
static void judge(unsigned number, const struct table *table, const uint8_t *record, size_t record_len,
                  uint64_t *report)
{
    struct joint j;
    j.table = table;
    memset(report, 0, 8 * sizeof report[0]);
    report[1] = number ? number : read_joint(record, record_len, &j);
    for (int k = 0; k < 2 && report[1] == 0; k++) {
        report[1] = spacing(&j, k, report + 3);
        report[2] = report[1] ? (uint64_t)k + 1 : 0;
    }
    if (report[1] == 0)
        figures(&j, report);
}

uint32_t exact_judge(const uint8_t *record, size_t record_len, uint64_t *report, size_t report_len)
{
    if (report_len < 8)
        return 1;
    judge(0, &PRINTED, record, record_len, report);
    return 0;
}

uint32_t exact_load(const uint8_t *table, size_t table_len)
{
    struct table own;
    return load(table, table_len, &own);
}

uint32_t exact_judge_with(const uint8_t *table, size_t table_len, const uint8_t *record, size_t record_len,
                          uint64_t *report, size_t report_len)
{
    struct table own;
    if (report_len < 8)
        return 1;
    judge(load(table, table_len, &own), &own, record, record_len, report);
    return 0;
}

uint32_t exact_load_for(uint32_t firm, const uint8_t *shared, size_t shared_len)
{
    struct table own;
    return load_for(firm, shared, shared_len, &own);
}

uint32_t exact_judge_for(uint32_t firm, const uint8_t *shared, size_t shared_len, const uint8_t *record,
                         size_t record_len, uint64_t *report, size_t report_len)
{
    struct table own;
    if (report_len < 8)
        return 1;
    judge(load_for(firm, shared, shared_len, &own), &own, record, record_len, report);
    return 0;
}

/* ---- values: 27 numbers in the header's order, x and y */

enum { VALUES = 27, MEMBER_VALUES = 9 };

/* Refusals 2 and 7 to 9, or 0; the joint has its table.  A number below 0 is far above its limit as an unsigned one. */
static unsigned take_joint(const int32_t *fields, const int32_t *const at[2], size_t x_len, size_t y_len,
                           struct joint *j)
{
    j->version = (unsigned)fields[0];
    if (!is_known(j->version))
        return 2;
    if (x_len != y_len || x_len < 1 || x_len > 64)
        return 7;
    j->planes = (unsigned)fields[1];
    for (int k = 0; k < 2; k++) {
        const int32_t *f = fields + 2 + MEMBER_VALUES * k;
        struct member *m = &j->members[k];
        m->class = (unsigned)f[0];
        m->grain = (unsigned)f[1];
        m->thickness = (unsigned)f[4];
        for (int a = 0; a < 2; a++) {
            m->low[a] = f[5 + a];
            m->high[a] = f[7 + a];
        }
    }
    j->d = (unsigned)fields[20];
    j->steel = (unsigned)fields[21];
    j->service = (unsigned)fields[23];
    j->duration = (unsigned)fields[24];
    j->n = (unsigned)x_len;
    for (int a = 0; a < 2; a++) {
        memcpy(j->at[a], at[a], x_len * sizeof at[a][0]);
        j->force[a] = fields[25 + a];
    }
    return value_fault(j);
}

static uint8_t *put(uint8_t *b, uint32_t z, int width)
{
    for (int i = 0; i < width; i++)
        *b++ = (uint8_t)(z >> 8 * i);
    return b;
}

static void write_joint(const struct joint *j, uint8_t *b)
{
    const unsigned lengths[4] = {42, 3, 2 + 8 * j->n, 11};
    unsigned offset = 20;
    b = put(put(b, j->version, 2), 4, 2);
    for (int k = 0; k < 4; k++) {
        b = put(put(b, offset, 2), lengths[k], 2);
        offset += lengths[k];
    }
    b = put(put(b, 1, 1), j->planes, 1);
    for (int k = 0; k < 2; k++) {
        const struct member *m = &j->members[k];
        b = put(put(put(b, m->class, 1), m->grain, 1), m->thickness, 2);
        for (int a = 0; a < 2; a++)
            b = put(b, (uint32_t)m->low[a], 4);
        for (int a = 0; a < 2; a++)
            b = put(b, (uint32_t)m->high[a], 4);
    }
    b = put(put(put(b, 2, 1), j->d, 1), j->steel, 1);
    b = put(put(b, 3, 1), j->n, 1);
    for (unsigned i = 0; i < j->n; i++)
        b = put(put(b, (uint32_t)j->at[0][i], 4), (uint32_t)j->at[1][i], 4);
    b = put(put(put(b, 4, 1), j->service, 1), j->duration, 1);
    put(put(b, (uint32_t)j->force[0], 4), (uint32_t)j->force[1], 4);
}

/* number: by what the table was refused, or 0. */
static void write_values(unsigned number, const struct table *table, const int32_t *fields, const int32_t *const at[2],
                         size_t x_len, size_t y_len, uint8_t *buffer, size_t buffer_len, uint64_t *answer)
{
    struct joint j;
    j.table = table;
    answer[0] = number ? number : take_joint(fields, at, x_len, y_len, &j);
    if (answer[0] == 0 && buffer_len < 78 + 8 * x_len)
        answer[0] = 13;
    answer[1] = answer[0] == 0 ? 78 + 8 * x_len : 0;
    if (answer[0] == 0)
        write_joint(&j, buffer);
}

uint32_t exact_write(const int32_t *fields, size_t fields_len, const int32_t *x, size_t x_len, const int32_t *y,
                     size_t y_len, const int32_t *marks, size_t marks_len, uint8_t *buffer, size_t buffer_len,
                     uint64_t *answer, size_t answer_len)
{
    (void)marks; /* no version has any */
    (void)marks_len;
    if (fields_len < VALUES || answer_len < 2)
        return 1;
    write_values(0, &PRINTED, fields, (const int32_t *const[2]){x, y}, x_len, y_len, buffer, buffer_len, answer);
    return 0;
}

uint32_t exact_write_with(const uint8_t *table, size_t table_len, const int32_t *fields, size_t fields_len,
                          const int32_t *x, size_t x_len, const int32_t *y, size_t y_len, const int32_t *marks,
                          size_t marks_len, uint8_t *buffer, size_t buffer_len, uint64_t *answer, size_t answer_len)
{
    struct table own;
    (void)marks;
    (void)marks_len;
    if (fields_len < VALUES || answer_len < 2)
        return 1;
    write_values(load(table, table_len, &own), &own, fields, (const int32_t *const[2]){x, y}, x_len, y_len, buffer,
                 buffer_len, answer);
    return 0;
}

uint32_t exact_write_for(uint32_t firm, const uint8_t *shared, size_t shared_len, const int32_t *fields,
                         size_t fields_len, const int32_t *x, size_t x_len, const int32_t *y, size_t y_len,
                         const int32_t *marks, size_t marks_len, uint8_t *buffer, size_t buffer_len,
                         uint64_t *answer, size_t answer_len)
{
    struct table own;
    (void)marks;
    (void)marks_len;
    if (fields_len < VALUES || answer_len < 2)
        return 1;
    write_values(load_for(firm, shared, shared_len, &own), &own, fields, (const int32_t *const[2]){x, y}, x_len, y_len,
                 buffer, buffer_len, answer);
    return 0;
}

/* number: by what the table was refused, or 0.  to: x, y and marks. */
static void read_values(unsigned number, const struct table *table, const uint8_t *record, size_t record_len,
                        int32_t *fields, int32_t *const to[3], uint64_t *answer)
{
    struct joint j;
    j.table = table;
    memset(fields, 0, VALUES * sizeof fields[0]);
    for (int a = 0; a < 3; a++)
        memset(to[a], 0, 64 * sizeof to[a][0]);
    answer[0] = number ? number : read_joint(record, record_len, &j);
    answer[1] = answer[0] == 0 ? j.n : 0;
    if (answer[0] != 0)
        return;
    fields[0] = (int32_t)j.version;
    fields[1] = (int32_t)j.planes;
    for (int k = 0; k < 2; k++) {
        const struct member *m = &j.members[k];
        const int32_t f[MEMBER_VALUES] = {(int32_t)m->class, (int32_t)m->grain, 0, 0, (int32_t)m->thickness,
                                          m->low[0], m->low[1], m->high[0], m->high[1]};
        memcpy(fields + 2 + MEMBER_VALUES * k, f, sizeof f);
    }
    fields[20] = (int32_t)j.d;
    fields[21] = (int32_t)j.steel;
    fields[23] = (int32_t)j.service;
    fields[24] = (int32_t)j.duration;
    for (int a = 0; a < 2; a++) {
        fields[25 + a] = j.force[a];
        memcpy(to[a], j.at[a], j.n * sizeof to[a][0]);
    }
}

static int read_short(size_t fields_len, size_t x_len, size_t y_len, size_t marks_len, size_t answer_len)
{
    return fields_len < VALUES || x_len < 64 || y_len < 64 || marks_len < 64 || answer_len < 2;
}

uint32_t exact_read(const uint8_t *record, size_t record_len, int32_t *fields, size_t fields_len, int32_t *x,
                    size_t x_len, int32_t *y, size_t y_len, int32_t *marks, size_t marks_len, uint64_t *answer,
                    size_t answer_len)
{
    if (read_short(fields_len, x_len, y_len, marks_len, answer_len))
        return 1;
    read_values(0, &PRINTED, record, record_len, fields, (int32_t *const[3]){x, y, marks}, answer);
    return 0;
}

uint32_t exact_read_with(const uint8_t *table, size_t table_len, const uint8_t *record, size_t record_len,
                         int32_t *fields, size_t fields_len, int32_t *x, size_t x_len, int32_t *y, size_t y_len,
                         int32_t *marks, size_t marks_len, uint64_t *answer, size_t answer_len)
{
    struct table own;
    if (read_short(fields_len, x_len, y_len, marks_len, answer_len))
        return 1;
    read_values(load(table, table_len, &own), &own, record, record_len, fields, (int32_t *const[3]){x, y, marks},
                answer);
    return 0;
}

uint32_t exact_read_for(uint32_t firm, const uint8_t *shared, size_t shared_len, const uint8_t *record,
                        size_t record_len, int32_t *fields, size_t fields_len, int32_t *x, size_t x_len, int32_t *y,
                        size_t y_len, int32_t *marks, size_t marks_len, uint64_t *answer, size_t answer_len)
{
    struct table own;
    if (read_short(fields_len, x_len, y_len, marks_len, answer_len))
        return 1;
    read_values(load_for(firm, shared, shared_len, &own), &own, record, record_len, fields,
                (int32_t *const[3]){x, y, marks}, answer);
    return 0;
}

/* ---- whole square roots */

uint32_t exact_root_bracket(uint64_t n, uint64_t *answer, size_t answer_len)
{
    mpz_t number;
    if (answer_len < 2)
        return 1;
    mpz_init_set_ui(number, n);
    /* a number of 2 k + 1 or 2 k + 2 bits has a root of k + 1 bits */
    answer[0] = n == 0 ? 0 : UINT64_C(1) << (mpz_sizeinbase(number, 2) - 1) / 2;
    answer[1] = n == 0 ? 1 : 2 * answer[0];
    mpz_clear(number);
    return 0;
}

uint32_t exact_whole_root(uint64_t n, uint64_t *answer, size_t answer_len)
{
    mpz_t root;
    if (answer_len < 2)
        return 1;
    mpz_init_set_ui(root, n);
    mpz_sqrt(root, root);
    answer[0] = mpz_get_ui(root);
    /* the bracket of a root of k + 1 bits is 2^k wide and takes k halvings; 0, as GMP counts, has 1 bit */
    answer[1] = mpz_sizeinbase(root, 2) - 1;
    mpz_clear(root);
    return 0;
}
