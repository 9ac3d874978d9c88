/* The three versions of one job, with the same entries: those of include/negwishal.h, without a table, with one and for
 * a firm that shares one, and two for whole square roots. */
#ifndef BENCH_H
#define BENCH_H

#include <stddef.h>
#include <stdint.h>

typedef uint32_t judge_fn(const uint8_t *record, size_t record_len, uint64_t *report, size_t report_len);
typedef uint32_t write_fn(const int32_t *fields, size_t fields_len, const int32_t *x, size_t x_len, const int32_t *y,
                          size_t y_len, const int32_t *marks, size_t marks_len, uint8_t *buffer, size_t buffer_len,
                          uint64_t *answer, size_t answer_len);
typedef uint32_t read_fn(const uint8_t *record, size_t record_len, int32_t *fields, size_t fields_len, int32_t *x,
                         size_t x_len, int32_t *y, size_t y_len, int32_t *marks, size_t marks_len, uint64_t *answer,
                         size_t answer_len);

typedef uint32_t load_fn(const uint8_t *table, size_t table_len);
typedef uint32_t judge_with_fn(const uint8_t *table, size_t table_len, const uint8_t *record, size_t record_len,
                               uint64_t *report, size_t report_len);
typedef uint32_t write_with_fn(const uint8_t *table, size_t table_len, const int32_t *fields, size_t fields_len,
                               const int32_t *x, size_t x_len, const int32_t *y, size_t y_len, const int32_t *marks,
                               size_t marks_len, uint8_t *buffer, size_t buffer_len, uint64_t *answer,
                               size_t answer_len);
typedef uint32_t read_with_fn(const uint8_t *table, size_t table_len, const uint8_t *record, size_t record_len,
                              int32_t *fields, size_t fields_len, int32_t *x, size_t x_len, int32_t *y, size_t y_len,
                              int32_t *marks, size_t marks_len, uint64_t *answer, size_t answer_len);

typedef uint32_t load_for_fn(uint32_t firm, const uint8_t *shared, size_t shared_len);
typedef uint32_t judge_for_fn(uint32_t firm, const uint8_t *shared, size_t shared_len, const uint8_t *record,
                              size_t record_len, uint64_t *report, size_t report_len);
typedef uint32_t write_for_fn(uint32_t firm, const uint8_t *shared, size_t shared_len, const int32_t *fields,
                              size_t fields_len, const int32_t *x, size_t x_len, const int32_t *y, size_t y_len,
                              const int32_t *marks, size_t marks_len, uint8_t *buffer, size_t buffer_len,
                              uint64_t *answer, size_t answer_len);
typedef uint32_t read_for_fn(uint32_t firm, const uint8_t *shared, size_t shared_len, const uint8_t *record,
                             size_t record_len, int32_t *fields, size_t fields_len, int32_t *x, size_t x_len,
                             int32_t *y, size_t y_len, int32_t *marks, size_t marks_len, uint64_t *answer,
                             size_t answer_len);

/* answer: low and high of the bracket; the root and the halvings */
typedef uint32_t root_fn(uint64_t n, uint64_t *answer, size_t answer_len);

/* the proved library */
judge_fn negwishal_judge;
write_fn negwishal_write;
read_fn negwishal_read;
load_fn negwishal_load;
judge_with_fn negwishal_judge_with;
write_with_fn negwishal_write_with;
read_with_fn negwishal_read_with;
load_for_fn negwishal_load_for;
judge_for_fn negwishal_judge_for;
write_for_fn negwishal_write_for;
read_for_fn negwishal_read_for;
root_fn negwishal_root_bracket;
root_fn negwishal_whole_root;
/* bench/float.rs */
judge_fn float_judge;
write_fn float_write;
read_fn float_read;
load_fn float_load;
judge_with_fn float_judge_with;
write_with_fn float_write_with;
read_with_fn float_read_with;
load_for_fn float_load_for;
judge_for_fn float_judge_for;
write_for_fn float_write_for;
read_for_fn float_read_for;
root_fn float_root_bracket;
root_fn float_whole_root;
/* bench/exact.c */
judge_fn exact_judge;
write_fn exact_write;
read_fn exact_read;
load_fn exact_load;
judge_with_fn exact_judge_with;
write_with_fn exact_write_with;
read_with_fn exact_read_with;
load_for_fn exact_load_for;
judge_for_fn exact_judge_for;
write_for_fn exact_write_for;
read_for_fn exact_read_for;
root_fn exact_root_bracket;
root_fn exact_whole_root;

#endif
