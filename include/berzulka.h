// Berzulka for C and C++: questions about charts. They are answered by the archive target/staticlib/librig.a, which
// `tests/boundary/librig.sh` proves and writes, for x86-64 Linux.
//
// A chart is an array of signed sixteen-bit numbers, BZ_WIDTH of them to a record: x and y of the dominating end, x and
// y of the other end, the side mark. Document 01 fixes every rule.
//
// Callers check nothing first. Any numbers, any length, any floats and any bytes end in an answer or in a numbered
// refusal, and every question returns. What is passed for reading is never written. What is lent for writing is as it
// was where the question is refused; only bz_gauge always writes, zeros where it refuses. Nothing is kept from one
// question to the next, so any number of threads may ask at once.
//
// What C cannot say in types stays with the caller:
//   - a pointer is valid for its length, which counts elements and not bytes, and aligned as its type asks;
//   - what is lent for writing overlaps nothing else that is passed, and nobody else uses it meanwhile;
//   - a pointer is null only where its length is 0, which is the empty array; one that has no length is never null.
//
// The answer is 64 bits. Every bit that a function's own comment does not name is 0.
//     bits 0 to 31    a value, the index of a record, or a place in a file                           bz_value
//     bits 32 to 47   document 01's number of the refusal; 0 where the question is answered          bz_refusal
//     bits 48 to 55   the chart that a refusal names where two are asked about, 1 or 2; else 0       bz_named_chart
//     bits 56 to 63   a kind                                                                         bz_kind
// The answer of bz_corner is a run instead, by bz_run_start and bz_run_length. The value of bz_faces is two numbers, by
// bz_cycle_count and bz_face_count.
#ifndef BERZULKA_H
#define BERZULKA_H

#include <stddef.h>
#include <stdint.h>

#ifdef __cplusplus
extern "C" {
#endif

// How many numbers a record has, and how many records a chart may have: what bz_read, joining and bz_faces need at
// most.
#define BZ_WIDTH 5
#define BZ_LIMIT 512

// ---- what the bits say

// The kind that bz_point answers.
enum bz_place {
    BZ_OUTSIDE = 0,
    BZ_INSIDE = 1,
    BZ_EDGE = 2
};

// The kind that bz_head answers.
enum bz_head_kind {
    BZ_NEITHER = 0,
    BZ_FIRST = 1,
    BZ_SECOND = 2
};

// The first of the two numbers that bz_faces writes for a cycle.
enum bz_cycle_kind {
    BZ_OUTER = 0,
    BZ_HOLE = 1
};

// The kind of a gauge card, which bz_gauge is asked with.
enum bz_card_kind {
    BZ_SPRING = 0,
    BZ_BRIDGE = 1
};

// Document 01's refusals, each with its words.
enum bz_refusal_number {
    // of a chart, with the index of the record at fault
    BZ_BAD_LENGTH = 1,          // length is no multiple of five
    BZ_TOO_MANY_RECORDS = 2,    // more than 512 records (256 segments)
    BZ_EQUAL_ENDS = 3,          // a record's two ends are equal
    BZ_BAD_MARK = 4,            // a mark is neither 0 nor 1
    BZ_NOT_AFTER = 5,           // a record does not come strictly after the one before
    BZ_NO_OTHER_HALF = 6,       // the other half, ends swapped and same mark, is missing
    BZ_TOUCHING = 7,            // two segments touch
    BZ_ODD_END = 8,             // an odd number of segments ends at a point
    BZ_WRONG_MARK = 9,          // a mark is not the counted one
    // of faces, with index 0
    BZ_NO_ROOM_FOR_FACES = 10,  // either array is too short
    // of joining two charts, naming neither; 12 and 13 with index 0
    BZ_CHARTS_TOUCH = 11,       // a segment of one touches a segment of the other (index: first such record of the
                                // first chart)
    BZ_RESULT_TOO_LONG = 12,    // the result has more than 512 records
    BZ_NO_ROOM_FOR_RESULT = 13, // the lent array is shorter than the result
    // of a gauge, with index 0
    BZ_BAD_CARD = 21,           // the card breaks a rule
    BZ_BEYOND_SPRING = 22,      // spring: the sample is negative, or the pressure is at or past the pin
    BZ_ROW_OFF_GRID = 23,       // the row would leave the grid
    // of a file, with the place in it
    BZ_CUT_SHORT = 31,          // bytes end inside a number or before it
    BZ_BAD_FORM = 32,           // a third group with its high bit set, whatever follows, or a last group of zero after
                                // another
    BZ_OUT_OF_RANGE = 33,       // a coordinate off the grid or a mark above 1
    BZ_LEFT_OVER = 34,          // bytes left over
    BZ_COUNT_TOO_HIGH = 35,     // count above 512
    BZ_ARRAY_TOO_SHORT = 36     // lent array too short for the count
};

static inline uint32_t bz_value(uint64_t answer)
{
    return (uint32_t)(answer & 0xffffffffu);
}

static inline unsigned bz_refusal(uint64_t answer)
{
    return (unsigned)(answer >> 32 & 0xffffu);
}

static inline unsigned bz_named_chart(uint64_t answer)
{
    return (unsigned)(answer >> 48 & 0xffu);
}

static inline unsigned bz_kind(uint64_t answer)
{
    return (unsigned)(answer >> 56);
}

// Where the run of bz_corner's answer starts, in numbers from the chart's beginning.
static inline size_t bz_run_start(uint64_t answer)
{
    return (size_t)(answer & 0xffffffffu);
}

// How many numbers the run of bz_corner's answer has; 0 where it is empty.
static inline size_t bz_run_length(uint64_t answer)
{
    return (size_t)(answer >> 32);
}

// How many cycles bz_faces answers, and how many faces. Each face has one outer cycle, and every other one is a hole.
static inline unsigned bz_cycle_count(uint64_t answer)
{
    return (unsigned)(answer & 0xffffu);
}

static inline unsigned bz_face_count(uint64_t answer)
{
    return (unsigned)(answer >> 16 & 0xffffu);
}

// A refusal's number in a few words.
static inline const char *bz_meaning(unsigned number)
{
    switch (number) {
    case 0: return "answered";
    case BZ_BAD_LENGTH: return "the length is no whole number of records";
    case BZ_TOO_MANY_RECORDS: return "there are more records than a chart may have";
    case BZ_EQUAL_ENDS: return "the record's two ends are equal";
    case BZ_BAD_MARK: return "the mark is neither 0 nor 1";
    case BZ_NOT_AFTER: return "the record does not come strictly after the one before";
    case BZ_NO_OTHER_HALF: return "the other half, ends swapped and same mark, is missing";
    case BZ_TOUCHING: return "two segments touch";
    case BZ_ODD_END: return "an odd number of segments ends at a point";
    case BZ_WRONG_MARK: return "the mark is not the counted one";
    case BZ_NO_ROOM_FOR_FACES: return "the array for labels or the one for cycles is too short";
    case BZ_CHARTS_TOUCH: return "a segment of one chart touches a segment of the other";
    case BZ_RESULT_TOO_LONG: return "the result has more records than a chart may have";
    case BZ_NO_ROOM_FOR_RESULT: return "the lent array is shorter than the result";
    case BZ_BAD_CARD: return "the card breaks a rule";
    case BZ_BEYOND_SPRING: return "the sample is negative, or the pressure is at or past the spring's pin";
    case BZ_ROW_OFF_GRID: return "the row would leave the grid";
    case BZ_CUT_SHORT: return "the bytes end inside a number or before it";
    case BZ_BAD_FORM: return "the number is longer than it may be, or than it need be";
    case BZ_OUT_OF_RANGE: return "a coordinate is off the grid, or a mark above 1";
    case BZ_LEFT_OVER: return "there are bytes left over";
    case BZ_COUNT_TOO_HIGH: return "the count is above what a chart may have";
    case BZ_ARRAY_TOO_SHORT: return "the lent array is too short for the count";
    default: return "no refusal has this number";
    }
}

// ---- questions about a chart: each first gives refusals 1 to 9 with the index of the record at fault, but for
// bz_corner and bz_head, which refuse nothing

// Is this array a chart? 0 where it is; else the refusal and the index. Nothing is lent.
uint64_t bz_check(const int16_t *chart, size_t chart_length);

// Where does the point lie? The kind: BZ_OUTSIDE, BZ_INSIDE or BZ_EDGE; or the refusal and the index. Nothing is lent.
uint64_t bz_point(const int16_t *chart, size_t chart_length, int16_t x, int16_t y);

// Which records have the point as their dominating end? The run of them, as that very part of the chart: its start in
// bits 0 to 31 and its length in bits 32 to 63, both in numbers. 0, the empty run, where there is none and where the
// chart is refused; bz_check says which it is. Nothing is lent.
uint64_t bz_corner(const int16_t *chart, size_t chart_length, int16_t x, int16_t y);

// Which of two arrays begins with the record that comes earlier? The kind: BZ_FIRST or BZ_SECOND, whose first BZ_WIDTH
// numbers are then that record, or BZ_NEITHER where neither has so many. The first where they are level. No chart is
// judged. Nothing is lent, and the two arrays may overlap.
uint64_t bz_head(const int16_t *a, size_t a_length, const int16_t *b, size_t b_length);

// How large is it? 0, with twice the area in *out; or the refusal and the index, and *out is as it was.
uint64_t bz_area2(const int16_t *chart, size_t chart_length, int64_t *out);

// Which faces and holes does it have? The boundary goes in cycles, each the outer one of a face or a hole in one. Into
// labels goes the number of its cycle for each record, into cycles two numbers for each cycle: BZ_OUTER or BZ_HOLE, and
// the face. Cycles are numbered from 0 by their first records, faces from 0 by their outer cycles. The answer is how
// many cycles there are in bits 0 to 15 and how many faces in bits 16 to 31; the places beyond in either array are as
// they were. Or the refusal and the index, after 1 to 9 also 10 where either array is too short, and both arrays are as
// they were. No chart needs more room than BZ_LIMIT numbers in either array, and the empty chart needs none.
uint64_t bz_faces(const int16_t *chart, size_t chart_length, uint16_t *labels, size_t labels_length,
                  uint16_t *cycles, size_t cycles_length);

// ---- joining two charts: each first gives refusals 1 to 9 of the first chart, which name chart 1, then those of the
// second, which name chart 2, then 11, 12 and 13, which name neither
//
// The result has the segments of either chart that bound it, in record order and with marks of its own; segments in
// line stay as they are. It is a chart again. The answer is how many records were written into out, BZ_WIDTH numbers
// each, in bits 0 to 31; the numbers beyond them are as they were. Or the refusal, the index and the chart named, and
// all of out is as it was. No result needs more room than BZ_LIMIT * BZ_WIDTH numbers. The two charts may overlap, or
// be one array; out overlaps neither.

// What lies in either chart?
uint64_t bz_union(const int16_t *a, size_t a_length, const int16_t *b, size_t b_length,
                  int16_t *out, size_t out_length);

// What lies in both?
uint64_t bz_intersection(const int16_t *a, size_t a_length, const int16_t *b, size_t b_length,
                         int16_t *out, size_t out_length);

// What lies in the first and not in the second?
uint64_t bz_difference(const int16_t *a, size_t a_length, const int16_t *b, size_t b_length,
                       int16_t *out, size_t out_length);

// ---- gauges

// What does the sample read? The card is of kind BZ_SPRING, with first the rate and second the pin, or BZ_BRIDGE, with
// first the gain and second the zero; any other kind is refused by 21, as a card that breaks a rule. 0, with the exact
// pressure in *pressure and its grid row in *row; or refusal 21 to 23. Both are always written: where the sample is
// refused they are 0, the pressure the positive zero.
uint64_t bz_gauge(uint8_t kind, double first, double second, int16_t sample, double *pressure, int16_t *row);

// ---- chart files

// What records does the file hold? How many were read into out, BZ_WIDTH numbers each, in bits 0 to 31; the numbers
// beyond them are as they were. Or refusal 31 to 36 and the place in the file, and all of out is as it was. Whether the
// records are a chart is for bz_check to say. No file needs more room than BZ_LIMIT * BZ_WIDTH numbers.
uint64_t bz_read(const uint8_t *bytes, size_t bytes_length, int16_t *out, size_t out_length);

#ifdef __cplusplus
}
#endif

#endif
