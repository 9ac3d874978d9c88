/* What the tests of the entries share. */
#ifndef CHECK_H
#define CHECK_H

#include <stddef.h>
#include <stdint.h>

#include "negwishal.h"

#define LEFT UINT64_C(0xa5a5a5a5a5a5a5a5) /* a number that must stay */

enum { VALUES = 27, POSITIONS = 64, ANSWER = 2, MANY = 70 };

/* Values as they are handed over: as many of x and y as the lengths say. */
struct values {
    int32_t fields[VALUES], x[MANY], y[MANY];
    size_t x_len, y_len;
};

/* A table's bytes: at most 255 entries of 4 behind 6 bytes, and some more. */
struct table {
    size_t length;
    uint8_t bytes[6 + 4 * 255 + 8];
};

extern const struct table PRINTED;

/* The version of joint_b and of the records that are handed to the tests below. */
extern int32_t version_in_use;

/* By which table the three entries below work, and for which firm; NULL: they are the entries without a table, and those
 * without a firm. */
extern const struct table *in_use;
extern const uint32_t *firm_in_use;
void use(const uint32_t *firm, const struct table *t);
/* The printed table as what a firm has of a shared one, beside entries that are faulty. */
struct table printed_for(uint32_t firm);
uint32_t judge_by(const uint8_t *record, size_t record_len, uint64_t *report, size_t report_len);
uint32_t write_by(const int32_t *fields, size_t fields_len, const int32_t *x, size_t x_len, const int32_t *y,
                  size_t y_len, const int32_t *marks, size_t marks_len, uint8_t *buffer, size_t buffer_len,
                  uint64_t *answer, size_t answer_len);
uint32_t read_by(const uint8_t *record, size_t record_len, int32_t *fields, size_t fields_len, int32_t *x, size_t x_len,
                 int32_t *y, size_t y_len, int32_t *marks, size_t marks_len, uint64_t *answer, size_t answer_len);

void expect(const char *what, uint64_t got, uint64_t low, uint64_t high);
struct values joint_b(void);
struct values lattice(size_t n);
/* Joint B's bytes with its parts in the order 4, 3, 2, 1. */
size_t turned(const uint8_t *b, uint8_t *record);

/* Judging gives 0 and these fields for these bytes; too short a report gives 1. */
void judges(const char *what, const uint8_t *record, size_t n, const uint64_t low[8], const uint64_t high[8]);
void short_judge(const uint8_t *record, size_t n);
/* Reading gives these values for these bytes, or this number and zeros; too short a slice gives 1. */
void reads(const char *what, const uint8_t *record, size_t n, const struct values *v);
void refuses(const char *what, const uint8_t *record, size_t n, uint64_t wanted);
void short_read(const uint8_t *record, size_t n);
/* Writing gives this number and, if it is 0, these bytes, where they are given; too short a slice gives 1. */
void wrote(const char *what, const struct values *v, size_t room, uint64_t number, const uint8_t *bytes);
void short_write(const struct values *v);

void check_drawn(const uint8_t *b, size_t length);
void check_firms(const uint8_t *b, size_t length);
void check_root(void);
void check_table(const uint8_t *b, size_t length);
void check_version(const uint8_t *b, size_t length);
void check_write(const uint8_t *b, size_t length);
void check_read(const uint8_t *b, size_t length, const uint8_t *close, size_t close_length);

#endif
