/* Calls the entries that find whole square roots and looks at every number that they are lent. */
#include <inttypes.h>
#include <stdio.h>

#include "check.h"

enum { MORE = 3 };

typedef uint32_t entry(uint64_t n, uint64_t *answer, size_t answer_len);

/* One call with a slice of this length; what must stay is compared, what came is left in answer. */
static uint32_t call(const char *what, entry *find, uint64_t n, size_t length, uint64_t answer[ANSWER + MORE])
{
    for (int i = 0; i < ANSWER + MORE; i++)
        answer[i] = LEFT;
    uint32_t code = find(n, answer, length);
    for (int i = code == 0 ? ANSWER : 0; i < ANSWER + MORE; i++)
        expect(what, answer[i], LEFT, LEFT);
    return code;
}

/* What both entries answer for n, into slices of every length. */
static void roots(uint64_t n, uint64_t low, uint64_t high, uint64_t root, uint64_t halvings)
{
    static entry *const entries[2] = {negwishal_root_bracket, negwishal_whole_root};
    static const char *const named[2] = {"bracket", "root"};
    const uint64_t want[2][ANSWER] = {{low, high}, {root, halvings}};
    char what[60];
    for (int k = 0; k < 2; k++)
        for (size_t length = 0; length <= ANSWER + MORE; length++) {
            uint64_t answer[ANSWER + MORE];
            uint32_t code = length < ANSWER ? 1 : 0;
            snprintf(what, sizeof what, "%s of %" PRIu64 ", slice of %zu", named[k], n, length);
            expect(what, call(what, entries[k], n, length, answer), code, code);
            for (int i = 0; code == 0 && i < ANSWER; i++)
                expect(what, answer[i], want[k][i], want[k][i]);
        }
}

/* The number, low, high, the root and the halvings. */
static const uint64_t TYPED[][5] = {
    {0, 0, 1, 0, 0},
    {1, 1, 2, 1, 0},
    {2, 1, 2, 1, 0},
    {3, 1, 2, 1, 0},
    {4, 2, 4, 2, 1},
    {5, 2, 4, 2, 1},
    {8, 2, 4, 2, 1},
    {9, 2, 4, 3, 1},
    {15, 2, 4, 3, 1},
    {16, 4, 8, 4, 2},
    {17, 4, 8, 4, 2},
    {24, 4, 8, 4, 2},
    {25, 4, 8, 5, 2},
    {35, 4, 8, 5, 2},
    {36, 4, 8, 6, 2},
    {48, 4, 8, 6, 2},
    {49, 4, 8, 7, 2},
    {63, 4, 8, 7, 2},
    {64, 8, 16, 8, 3},
    {65, 8, 16, 8, 3},
    {1000000, 512, 1024, 1000, 9},
    {UINT64_C(0xffffffff), 32768, 65536, 65535, 15},
    {UINT64_C(0x100000000), 65536, 131072, 65536, 16},
    {UINT64_C(1000000000000), 524288, 1048576, 1000000, 19},
    {UINT64_C(0x3fffffffffffffff), 1073741824, 2147483648, 2147483647, 30}, /* 2^62 - 1 */
    {UINT64_C(0x4000000000000000), 2147483648, 4294967296, 2147483648, 31},
    {UINT64_C(0x4000000000000001), 2147483648, 4294967296, 2147483648, 31},
    {UINT64_C(0x7fffffffffffffff), 2147483648, 4294967296, 3037000499, 31},
    {UINT64_C(0x8000000000000000), 2147483648, 4294967296, 3037000499, 31}, /* 2^63 */
    {UINT64_C(10000000000000000000), 2147483648, 4294967296, 3162277660, 31},
    {UINT64_C(0xfffffffe00000000), 2147483648, 4294967296, 4294967294, 31}, /* one less than the greatest square */
    {UINT64_C(0xfffffffe00000001), 2147483648, 4294967296, 4294967295, 31},
    {UINT64_C(0xffffffffffffffff), 2147483648, 4294967296, 4294967295, 31}, /* 2^64 - 1 */
};

/* A number with this root, not 0: low is the greatest power of two up to the root, since a square grows with its root, and
 * each halving takes one factor 2 from the width, which is low. */
static void rooted(uint64_t n, uint64_t root)
{
    uint64_t low = 1, halvings = 0;
    while (2 * low <= root) {
        low *= 2;
        halvings++;
    }
    roots(n, low, 2 * low, root, halvings);
}

/* The square of a root above 1, and what stands on both sides of it. */
static void square(uint64_t root)
{
    rooted(root * root - 1, root - 1);
    rooted(root * root, root);
    rooted(root * root + 1, root);
}

static void check_squares(void)
{
    for (uint64_t root = 2; root <= 300; root++)
        square(root);
    for (uint64_t root = UINT64_C(0xffffffff); root > UINT64_C(0xffffff00); root--)
        square(root);
    for (int k = 2; k < 32; k++) /* roots of two bits, of ones in a row, of one bit and ones at the end */
        for (int j = 0; j < k; j++) {
            square((UINT64_C(1) << k) + (UINT64_C(1) << j));
            square((UINT64_C(1) << k) - (UINT64_C(1) << j));
            square((UINT64_C(1) << k) + (UINT64_C(1) << j) - 1);
        }
    for (uint64_t root = 3; root <= UINT64_C(0xffffffff); root += root / 7 + 1)
        square(root);
}

/* Every number up to 5,000: the root goes up by one where its next square is reached. */
static void check_small(void)
{
    uint64_t root = 1;
    for (uint64_t n = 1; n <= 5000; n++) {
        if ((root + 1) * (root + 1) == n)
            root++;
        rooted(n, root);
    }
}

/* All numbers of as many bits have one bracket: the least and the greatest of them. */
static void check_powers(void)
{
    for (int k = 0; k < 64; k++)
        for (int ones = 0; ones < 2; ones++) {
            uint64_t n = UINT64_C(1) << k, answer[ANSWER + MORE];
            uint64_t low = UINT64_C(1) << k / 2;
            n += ones ? n - 1 : 0;
            expect("a power of two", call("a power of two", negwishal_root_bracket, n, ANSWER, answer), 0, 0);
            expect("low of a power of two", answer[NEGWISHAL_BRACKET_LOW], low, low);
            expect("high of a power of two", answer[NEGWISHAL_BRACKET_HIGH], 2 * low, 2 * low);
            expect("a power of two", call("a power of two", negwishal_whole_root, n, ANSWER, answer), 0, 0);
            expect("root of a power of two", answer[NEGWISHAL_ROOT], low, 2 * low - 1);
            expect("halvings of a power of two", answer[NEGWISHAL_HALVINGS], (uint64_t)k / 2, (uint64_t)k / 2);
        }
}

void check_root(void)
{
    expect("NEGWISHAL_BRACKET_LOW", NEGWISHAL_BRACKET_LOW, 0, 0);
    expect("NEGWISHAL_BRACKET_HIGH", NEGWISHAL_BRACKET_HIGH, 1, 1);
    expect("NEGWISHAL_ROOT", NEGWISHAL_ROOT, 0, 0);
    expect("NEGWISHAL_HALVINGS", NEGWISHAL_HALVINGS, 1, 1);
    for (size_t k = 0; k < sizeof TYPED / sizeof TYPED[0]; k++)
        roots(TYPED[k][0], TYPED[k][1], TYPED[k][2], TYPED[k][3], TYPED[k][4]);
    check_powers();
    check_squares();
    check_small();
}
