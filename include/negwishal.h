/* Judging a dowelled timber joint from C, and writing and reading its record, by the printed table of classes of wood, by
 * a firm's own, or by what a firm has of a table that two firms share; and finding whole square roots as judging finds
 * them.
 *
 * The library is target/staticlib/libnegwishal.a, made by `scripts/library`.  docs/RECORD.md says how a record
 * is written and what each refusal means, docs/TABLE.md how a table is written.
 *
 * Later versions of the library know more versions of the record and refuse by numbers that do not exist yet.  A caller
 * expects numbers that are new to it: every number but 0 is a refusal.
 *
 * For all entries:
 * - What is lent is lent for the call only: no pointer is kept after it returns.  What is const is only read.  While
 *   the call runs nobody else may write to a slice that is read, or read or write one that is written to.
 * - Slices that are only read may overlap one another.  A slice that is written to overlaps no other.
 * - No pointer is null, also with length 0: hand x for marks where there are none.  With length 0 a pointer may
 *   otherwise be anything that is aligned, and nothing is read or written through it.  int32_t is aligned to 4 bytes,
 *   uint64_t to 8; bytes, those of a table too, may stand anywhere.
 * - No memory is allocated and there is no global state: calls from several threads, each with slices of its own to
 *   write to, do not disturb each other.
 * - Every sequence of bytes, of any length, every list of numbers and every number is answered.  There is no failure but
 *   a slice that is too short.
 */
#ifndef NEGWISHAL_H
#define NEGWISHAL_H

#include <stddef.h>
#include <stdint.h>

#ifdef __cplusplus
extern "C" {
#endif

/* The numbers of a report, by their place in it.  The order is fixed for good. */
enum {
    NEGWISHAL_VERDICT = 0,  /* one of the three verdicts below */
    NEGWISHAL_NUMBER = 1,   /* number of the refusal; 0 if not refused */
    NEGWISHAL_MEMBER = 2,   /* member that the refusal names, 1 or 2; 0 if none */
    NEGWISHAL_FIRST = 3,    /* dowel that the refusal names, counted from 1; 0 if none */
    NEGWISHAL_SECOND = 4,   /* the other dowel of two too close, counted from 1; else 0 */
    NEGWISHAL_USE = 5,      /* use U in ten-thousandths; 0 if refused */
    NEGWISHAL_CAPACITY = 6, /* capacity C of one shear plane in N; 0 if refused */
    NEGWISHAL_SHARE = 7     /* row share E in ten-thousandths; 0 if refused */
};

/* How many numbers a report takes; the fields of a record take NEGWISHAL_VALUES. */
enum { NEGWISHAL_FIELDS = 8 };

/* Classes of wood of the printed table, as a record's members name them: softwood, then hardwood. */
enum {
    NEGWISHAL_C24 = 1,
    NEGWISHAL_C30 = 2,
    NEGWISHAL_GL24H = 3,
    NEGWISHAL_GL24C = 4,
    NEGWISHAL_GL28H = 5,
    NEGWISHAL_GL28C = 6,
    NEGWISHAL_GL32H = 7,
    NEGWISHAL_GL32C = 8,
    NEGWISHAL_D30 = 9,
    NEGWISHAL_D40 = 10,
    NEGWISHAL_D70 = 11
};

/* Verdicts. */
enum {
    NEGWISHAL_REFUSED = 0,
    NEGWISHAL_FITS = 1,      /* U is at most 10,000 */
    NEGWISHAL_OVERLOADED = 2 /* U is above 10,000 */
};

/* What negwishal_judge returns, and its like with a table or for a firm. */
enum {
    NEGWISHAL_JUDGED = 0,      /* the report stands in the slice */
    NEGWISHAL_SHORT_REPORT = 1 /* report_len is below NEGWISHAL_FIELDS: nothing was judged or written */
};

/* Judges the record_len bytes at record and writes a report into the first NEGWISHAL_FIELDS of the report_len
 * numbers at report.  Numbers past these are left as they are; a slice of fewer is left as it is whole, and
 * NEGWISHAL_SHORT_REPORT comes back.  A damaged record is a refusal.
 *
 * A joint drawn otherwise gets the same VERDICT, NUMBER, MEMBER, USE, CAPACITY and SHARE by the same table, where both records
 * pass 1 to 9: dowels listed in another order; one offset added to all x, one to all y; or every x and fx negated, or every y
 * and fy, the two limits of each outline exchanged.  FIRST and SECOND may differ. */
uint32_t negwishal_judge(const uint8_t *record, size_t record_len, uint64_t *report, size_t report_len);

/* The values of a record but those of its dowels, by their place in fields.  The order is fixed for good: it has a place
 * for every field that a version of the record has or will have.  A place for which the record's version has no field is
 * not looked at by negwishal_write and is 0 from negwishal_read; with versions 1 and 2 these are the GX, GY and PLATE
 * below, and the marks.
 *
 * The version says by which rule edges are judged, refusal 12.  With 1 both edges of a member are at least 3d from each
 * dowel.  With 2 it is the rule of EN 1995-1-1, Table 8.5: the edge towards which the force in that member has a component
 * across the grain, be it 1 N, is loaded, and at least (2 + 2 sin a) d and at least 3d from each dowel, where a is the angle
 * between force and grain; the other edge 3d.  Member 1 gets the opposite of FX and FY, so with one grain in both members
 * their loaded edges lie on opposite sides.  Write 2 where the designer checks by EN 1995-1-1, else 1.  Layout, all other
 * tests and the figures are the same: what is accepted with 2 gets the same report with 1, but 1 accepts some that 2 does
 * not. */
enum {
    NEGWISHAL_AT_VERSION = 0,        /* 1 or 2 */
    NEGWISHAL_AT_PLANES = 1,         /* shear planes, 1 or 2 */
    NEGWISHAL_AT_CLASS_1 = 2,        /* member 1: class of wood */
    NEGWISHAL_AT_GRAIN_1 = 3,        /* 0 along x, 1 along y */
    NEGWISHAL_AT_GX_1 = 4,           /* no field in versions 1 and 2 */
    NEGWISHAL_AT_GY_1 = 5,           /* no field in versions 1 and 2 */
    NEGWISHAL_AT_THICKNESS_1 = 6,    /* tenths of a mm, like all lengths but the diameter */
    NEGWISHAL_AT_X0_1 = 7,           /* the outline's limits */
    NEGWISHAL_AT_Y0_1 = 8,
    NEGWISHAL_AT_X1_1 = 9,
    NEGWISHAL_AT_Y1_1 = 10,
    NEGWISHAL_AT_CLASS_2 = 11,       /* member 2, as for member 1 */
    NEGWISHAL_AT_GRAIN_2 = 12,
    NEGWISHAL_AT_GX_2 = 13,
    NEGWISHAL_AT_GY_2 = 14,
    NEGWISHAL_AT_THICKNESS_2 = 15,
    NEGWISHAL_AT_X0_2 = 16,
    NEGWISHAL_AT_Y0_2 = 17,
    NEGWISHAL_AT_X1_2 = 18,
    NEGWISHAL_AT_Y1_2 = 19,
    NEGWISHAL_AT_DIAMETER = 20,      /* whole mm */
    NEGWISHAL_AT_STEEL = 21,
    NEGWISHAL_AT_PLATE = 22,         /* no field in versions 1 and 2 */
    NEGWISHAL_AT_SERVICE_CLASS = 23,
    NEGWISHAL_AT_DURATION = 24,
    NEGWISHAL_AT_FX = 25,            /* whole newtons, into member 2 */
    NEGWISHAL_AT_FY = 26
};

/* What the two entries below, and their like with a table or for a firm, answer, by the place in answer. */
enum {
    NEGWISHAL_ANSWER_NUMBER = 0, /* number of the refusal; 0 if not refused */
    NEGWISHAL_ANSWER_LENGTH = 1, /* negwishal_write: bytes written; 0 if refused */
    NEGWISHAL_ANSWER_DOWELS = 1  /* negwishal_read: number of dowels; 0 if refused */
};

/* How many numbers are needed: of fields, of each of x, y and marks where they are written to, of answer. */
enum { NEGWISHAL_VALUES = 27, NEGWISHAL_POSITIONS = 64, NEGWISHAL_ANSWER = 2 };

/* What negwishal_write and negwishal_read return, their like with a table or for a firm, and the two entries for roots. */
enum {
    NEGWISHAL_DONE = 0,       /* the answer stands in answer */
    NEGWISHAL_SHORT_SLICE = 1 /* a slice has fewer numbers than are needed: nothing was done or written */
};

/* Writes the record of the values in the first NEGWISHAL_VALUES of fields and in x and y, one number of each for a
 * dowel, into the first bytes of buffer, and NEGWISHAL_ANSWER numbers into answer.  The parts come in the order of their
 * kinds, 1 to 4.  A record of version 1 or 2 with N dowels has 78 + 8 N bytes: 590 with 64 dowels.
 *
 * Refused by the first of these that applies: 2, a version not yet known, which is any number but 1 and 2, however wide;
 * 7, a number outside its limits, however wide, or lists x and y of unequal length or of not 1 to 64 numbers; 8, an empty
 * outline; 9, no force; 13, a buffer shorter than the record.  Spacing is not tested, edges by neither version:
 * negwishal_judge does that.  On a refusal the buffer is left as it is and the length is 0.  Bytes past the length, and
 * numbers past the second of answer, are left as they are.
 *
 * A record that was written is not refused by negwishal_read and reads back to the same values, the version that it was
 * written in among them, but for a 0 in each place for which its version has no field.
 *
 * Needed: NEGWISHAL_VALUES numbers of fields and NEGWISHAL_ANSWER of answer; with fewer nothing is written and
 * NEGWISHAL_SHORT_SLICE comes back.  x, y, marks and buffer may have any length. */
uint32_t negwishal_write(const int32_t *fields, size_t fields_len, const int32_t *x, size_t x_len,
                         const int32_t *y, size_t y_len, const int32_t *marks, size_t marks_len,
                         uint8_t *buffer, size_t buffer_len, uint64_t *answer, size_t answer_len);

/* Reads the values of the record_len bytes at record.  It refuses as negwishal_judge does, but does not test spacing:
 * a record that is refused for its spacing alone is read.  The values go into the first NEGWISHAL_VALUES of fields and
 * the first NEGWISHAL_POSITIONS of x, y and marks, with 0 past the last dowel; on a refusal all of these are 0.  Numbers
 * past these places, and past the second of answer, are left as they are.
 *
 * To write the record again, hand fields, and of x, y and marks as many numbers as there are dowels.  It keeps its
 * version and reads alike; its bytes may differ, for a record's parts may stand in any order.  With the other version in
 * NEGWISHAL_AT_VERSION the same joint is written for the other rule of edges.
 *
 * Needed: NEGWISHAL_VALUES numbers of fields, NEGWISHAL_POSITIONS of each of x, y and marks, NEGWISHAL_ANSWER of
 * answer; with fewer nothing is written and NEGWISHAL_SHORT_SLICE comes back. */
uint32_t negwishal_read(const uint8_t *record, size_t record_len, int32_t *fields, size_t fields_len,
                        int32_t *x, size_t x_len, int32_t *y, size_t y_len, int32_t *marks, size_t marks_len,
                        uint64_t *answer, size_t answer_len);

/* A firm's own table of classes.  negwishal_judge_with, negwishal_write_with and negwishal_read_with do by it what their
 * namesakes do by the printed table: its codes are the only classes, and a class that it lacks is a 7, NEGWISHAL_C24 and
 * its like too.  Nothing is kept from one call to the next: hand the bytes to each call.  A record does not say by which
 * table it is meant.
 *
 * A table of no bytes, length 0, is a 14, and its pointer is not null: for the printed table take the entries without
 * one. */

/* What negwishal_load and negwishal_load_for return, and by what the entries with a table or for a firm refuse before
 * anything else. */
enum {
    NEGWISHAL_LOADED = 0,
    NEGWISHAL_TABLE_LAYOUT = 14, /* the bytes are not laid out as a table of the kind that the entry takes is */
    NEGWISHAL_TABLE_ENTRY = 15,  /* they are, but an entry is outside its limits or its code not above the one before; of a
                                    shared table an entry of the firm for which the call works */
    NEGWISHAL_OTHER_FIRM = 16    /* the firm's number is neither 1 nor 2; only from the entries that take one */
};

/* Says whether the table_len bytes at table are a firm's own table, and writes nothing.  Not needed before the entries
 * below: they make the same tests themselves. */
uint32_t negwishal_load(const uint8_t *table, size_t table_len);

/* Judges by a table, else as negwishal_judge.  With one that does not load the report is a refusal by 14 or 15 that names
 * no member and no dowel, whatever the record.  A report of fewer than NEGWISHAL_FIELDS is looked at first: it is left as
 * it is whole, and NEGWISHAL_SHORT_REPORT comes back, whatever the table. */
uint32_t negwishal_judge_with(const uint8_t *table, size_t table_len, const uint8_t *record, size_t record_len,
                              uint64_t *report, size_t report_len);

/* Writes by a table, else as negwishal_write.  With one that does not load the answer is 14 or 15, before 2 and all other
 * numbers, the length is 0 and the buffer is left as it is.  A slice of fewer numbers than are needed is looked at first.
 *
 * A record that was written is not refused by negwishal_read_with with the same table; with another, or none, it may be
 * a 7. */
uint32_t negwishal_write_with(const uint8_t *table, size_t table_len, const int32_t *fields, size_t fields_len,
                              const int32_t *x, size_t x_len, const int32_t *y, size_t y_len, const int32_t *marks,
                              size_t marks_len, uint8_t *buffer, size_t buffer_len, uint64_t *answer,
                              size_t answer_len);

/* Reads by a table, else as negwishal_read.  With one that does not load the answer is 14 or 15, the number of dowels is
 * 0, and so is every number in the places of fields, x, y and marks.  A slice of fewer numbers than are needed is looked
 * at first. */
uint32_t negwishal_read_with(const uint8_t *table, size_t table_len, const uint8_t *record, size_t record_len,
                             int32_t *fields, size_t fields_len, int32_t *x, size_t x_len, int32_t *y, size_t y_len,
                             int32_t *marks, size_t marks_len, uint64_t *answer, size_t answer_len);

/* A table that two firms share: two stretches of entries, the first firm 1's and the second firm 2's.  The four entries
 * below take the number of the firm for which a call works, and do by that firm's stretch what negwishal_load and the
 * entries _with do by a table of its own with the same entries.  Whatever stands in the other firm's stretch, faulty
 * entries too, changes nothing of what they return and write, as long as the first 10 bytes and the length of the shared
 * table stay.  A record does not say for which firm it is meant, either.
 *
 * They refuse before anything else by 16, where firm is neither 1 nor 2: every number is looked at whole, and 257 is not
 * 1; then by 14, for both firms alike; then by 15, for that firm's entries alone.  16 is answered as 14 and 15 are by the
 * entries above: a report without a place, length 0 and the buffer left as it is, values that are 0.  A slice of fewer
 * numbers than are needed is looked at first, as by them.  A table of a firm's own, with one pair, is a 14 here, and so are
 * no bytes; a shared one is a 14 to the entries above. */

/* Says whether the shared_len bytes at shared are a table for that firm, and writes nothing.  A 0 or a 15 says nothing of
 * the other firm's entries; a 14 is one for both.  Not needed before the entries below. */
uint32_t negwishal_load_for(uint32_t firm, const uint8_t *shared, size_t shared_len);

/* Judges, writes and reads for a firm, else as negwishal_judge_with, negwishal_write_with and negwishal_read_with.  A record
 * that was written for one firm may be a 7 for the other. */
uint32_t negwishal_judge_for(uint32_t firm, const uint8_t *shared, size_t shared_len, const uint8_t *record,
                             size_t record_len, uint64_t *report, size_t report_len);
uint32_t negwishal_write_for(uint32_t firm, const uint8_t *shared, size_t shared_len, const int32_t *fields,
                             size_t fields_len, const int32_t *x, size_t x_len, const int32_t *y, size_t y_len,
                             const int32_t *marks, size_t marks_len, uint8_t *buffer, size_t buffer_len,
                             uint64_t *answer, size_t answer_len);
uint32_t negwishal_read_for(uint32_t firm, const uint8_t *shared, size_t shared_len, const uint8_t *record,
                            size_t record_len, int32_t *fields, size_t fields_len, int32_t *x, size_t x_len,
                            int32_t *y, size_t y_len, int32_t *marks, size_t marks_len, uint64_t *answer,
                            size_t answer_len);

/* Whole square roots: that of n is the greatest number whose square is not above n.  Judging finds all its square roots as
 * the two entries below do, and finds them itself: a caller need not call these before it.
 *
 * Both answer every n.  Needed: NEGWISHAL_ANSWER numbers of answer; with fewer nothing is written and
 * NEGWISHAL_SHORT_SLICE comes back, else NEGWISHAL_DONE.  Numbers past the second of answer are left as they are. */

/* What negwishal_root_bracket answers, by the place in answer. */
enum {
    NEGWISHAL_BRACKET_LOW = 0, /* greatest power of two whose square is not above n; 0 for 0 */
    NEGWISHAL_BRACKET_HIGH = 1 /* double of low; 1 for 0 */
};

/* Gives the bracket from which the root of n is looked for, by the leading zeros of n: the root is at least low and below
 * high.  For 0 they are 0 and 1.  From 2^62 on low is 2^31 and high 2^32, for which 32 bits are too few; no n has more. */
uint32_t negwishal_root_bracket(uint64_t n, uint64_t *answer, size_t answer_len);

/* What negwishal_whole_root answers, by the place in answer. */
enum {
    NEGWISHAL_ROOT = 0,    /* the whole square root, at most 2^32 - 1; 0 for 0 */
    NEGWISHAL_HALVINGS = 1 /* how many halvings of the bracket led to it; 0 for 0 */
};

/* Finds the whole square root of n by halving that bracket.  Each halving keeps the upper half, from the middle on, where
 * the square of the middle is not above n, and the lower half where it is, until low is the root and high one more.  Where
 * low is 2^k at the start there are at most k halvings: none for 0 to 3, and at most 31 for any n. */
uint32_t negwishal_whole_root(uint64_t n, uint64_t *answer, size_t answer_len);

#ifdef __cplusplus
}
#endif

#endif
