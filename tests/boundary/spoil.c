// The functions of the archive with one thing spoiled, which the environment variable SPOIL names: one of the names
// that is_spoiled is asked with below and in spoil_faces.c. tests/spoiled.sh puts both into an archive whose own
// functions are renamed to sound_bz_.., and has the tests ask that archive. They must fail for each name, and pass
// where SPOIL is not set.
#include "spoil.h"

uint64_t sound_bz_check(const int16_t *chart, size_t chart_length);
uint64_t sound_bz_point(const int16_t *chart, size_t chart_length, int16_t x, int16_t y);
uint64_t sound_bz_corner(const int16_t *chart, size_t chart_length, int16_t x, int16_t y);
uint64_t sound_bz_head(const int16_t *a, size_t a_length, const int16_t *b, size_t b_length);
uint64_t sound_bz_area2(const int16_t *chart, size_t chart_length, int64_t *out);
uint64_t sound_bz_gauge(uint8_t kind, double first, double second, int16_t sample, double *pressure, int16_t *row);
uint64_t sound_bz_read(const uint8_t *bytes, size_t bytes_length, int16_t *out, size_t out_length);

typedef uint64_t joining(const int16_t *a, size_t a_length, const int16_t *b, size_t b_length,
                         int16_t *out, size_t out_length);
joining sound_bz_union, sound_bz_intersection, sound_bz_difference;

// ---- questions about a chart

uint64_t bz_check(const int16_t *chart, size_t chart_length)
{
    uint64_t answer = sound_bz_check(chart, chart_length);
    if (bz_refusal(answer) != 0 && is_spoiled("check-index"))
        return answer + one_value;
    // 9 becomes 8 and any other the next one, so that it stays one of document 01's
    if (bz_refusal(answer) != 0 && is_spoiled("check-number"))
        return bz_refusal(answer) == BZ_WRONG_MARK ? answer - one_number : answer + one_number;
    if (bz_refusal(answer) == 0 && is_spoiled("check-unnamed-bit"))
        return answer + one_chart;
    return answer;
}

uint64_t bz_point(const int16_t *chart, size_t chart_length, int16_t x, int16_t y)
{
    uint64_t answer = sound_bz_point(chart, chart_length, x, y);
    if (bz_kind(answer) == BZ_INSIDE && is_spoiled("point-kind"))
        return answer + one_kind;
    if (bz_refusal(answer) == 0 && is_spoiled("point-unnamed-bit"))
        return answer + one_value;
    return answer;
}

uint64_t bz_corner(const int16_t *chart, size_t chart_length, int16_t x, int16_t y)
{
    uint64_t answer = sound_bz_corner(chart, chart_length, x, y);
    // one record earlier and one record shorter, so that the run stays within the chart
    if (bz_run_start(answer) > 0 && is_spoiled("corner-start"))
        return answer - BZ_WIDTH * one_value;
    if (bz_run_length(answer) > 0 && is_spoiled("corner-length"))
        return answer - BZ_WIDTH * one_number;
    return answer;
}

uint64_t bz_head(const int16_t *a, size_t a_length, const int16_t *b, size_t b_length)
{
    uint64_t answer = sound_bz_head(a, a_length, b, b_length);
    if (bz_kind(answer) == BZ_SECOND && a_length >= BZ_WIDTH && is_spoiled("head-kind"))
        return answer - one_kind;
    if (is_spoiled("head-unnamed-bit"))
        return answer + one_value;
    return answer;
}

uint64_t bz_area2(const int16_t *chart, size_t chart_length, int64_t *out)
{
    uint64_t answer = sound_bz_area2(chart, chart_length, out);
    if (bz_refusal(answer) != 0 && is_spoiled("area-on-refusal"))
        *out ^= 1;
    if (bz_refusal(answer) == 0 && is_spoiled("area-value"))
        *out += 1;
    if (is_spoiled("area-unnamed-bit"))
        return answer + one_kind;
    return answer;
}

// ---- joining

// What a question about two charts is asked with, and what the start of the lent array held before, as far as a result
// reaches.
struct pair {
    const int16_t *a, *b;
    size_t a_length, b_length;
    int16_t *out;
    size_t out_length;
    int16_t before[BZ_LIMIT * BZ_WIDTH];
};

static size_t kept_length(const struct pair *p)
{
    return p->out_length < BZ_LIMIT * BZ_WIDTH ? p->out_length : BZ_LIMIT * BZ_WIDTH;
}

// The record of a chart that has the same ends; NULL where there is none.
static const int16_t *same_ends(const int16_t *record, const int16_t *chart, size_t length)
{
    for (const int16_t *r = chart; r < chart + length; r += BZ_WIDTH)
        if (memcmp(r, record, 4 * sizeof *r) == 0)
            return r;
    return NULL;
}

// The lent array holds these numbers, and beyond them what it held before. How many records they are.
static uint64_t leave(const struct pair *p, const int16_t *numbers, size_t length)
{
    int16_t result[BZ_LIMIT * BZ_WIDTH];
    memcpy(result, numbers, length * sizeof *result);
    memcpy(p->out, p->before, kept_length(p) * sizeof *p->out);
    memcpy(p->out, result, length * sizeof *p->out);
    return length / BZ_WIDTH;
}

// The result without what only the second chart has.
static uint64_t without_second(const struct pair *p, size_t written)
{
    int16_t result[BZ_LIMIT * BZ_WIDTH];
    size_t n = 0;
    for (const int16_t *r = p->out; r < p->out + written; r += BZ_WIDTH)
        if (same_ends(r, p->a, p->a_length) != NULL) {
            memcpy(result + n, r, BZ_WIDTH * sizeof *r);
            n += BZ_WIDTH;
        }
    return leave(p, result, n);
}

// The result with the sides that both charts have from opposite sides, where the array has room for them.
static uint64_t with_common_sides(const struct pair *p, size_t written)
{
    int16_t result[BZ_LIMIT * BZ_WIDTH];
    size_t n = 0, i = 0, j = 0;
    while (n + BZ_WIDTH <= kept_length(p) && i + j < written + p->a_length) {
        bool is_next = bz_kind(sound_bz_head(p->out + i, written - i, p->a + j, p->a_length - j)) == BZ_FIRST;
        const int16_t *r = is_next ? p->out + i : p->a + j;
        const int16_t *other = same_ends(r, p->b, p->b_length);
        if (is_next || (other != NULL && other[4] != r[4])) {
            memcpy(result + n, r, BZ_WIDTH * sizeof *r);
            n += BZ_WIDTH;
        }
        if (is_next)
            i += BZ_WIDTH;
        else
            j += BZ_WIDTH;
    }
    return leave(p, result, n);
}

// Each mark as the first chart has it, or the second where the first has no such record.
static void take_marks(const struct pair *p, size_t written)
{
    for (int16_t *r = p->out; r < p->out + written; r += BZ_WIDTH) {
        const int16_t *first = same_ends(r, p->a, p->a_length);
        r[4] = (first != NULL ? first : same_ends(r, p->b, p->b_length))[4];
    }
}

// Whether r and the record after it are all that stands at their corner, and lie in one line.
static bool is_joint_in_line(const int16_t *r, const int16_t *from, const int16_t *to)
{
    const int16_t *e = r + BZ_WIDTH;
    int at_corner = 0;
    for (const int16_t *other = from; other < to; other += BZ_WIDTH)
        at_corner += memcmp(other, r, 2 * sizeof *r) == 0;
    if (e >= to || at_corner != 2 || memcmp(e, r, 2 * sizeof *r) != 0)
        return false;
    return (int64_t)(r[2] - r[0]) * (e[3] - e[1]) == (int64_t)(r[3] - r[1]) * (e[2] - e[0]);
}

// The record whose other end is the corner of r and whose dominating end is the other end of r ends elsewhere now.
static void end_elsewhere(const int16_t *r, const int16_t *end, int16_t *from, int16_t *to)
{
    for (int16_t *half = from; half < to; half += BZ_WIDTH)
        if (memcmp(half, r + 2, 2 * sizeof *r) == 0 && memcmp(half + 2, r, 2 * sizeof *r) == 0)
            memcpy(half + 2, end, 2 * sizeof *r);
}

// The result with two segments in line merged into one; the order stays as it is.
static uint64_t with_merged(const struct pair *p, size_t written)
{
    int16_t result[BZ_LIMIT * BZ_WIDTH], *to = result + written;
    memcpy(result, p->out, written * sizeof *result);
    for (int16_t *r = result; r < to; r += BZ_WIDTH)
        if (is_joint_in_line(r, result, to)) {
            int16_t *e = r + BZ_WIDTH;
            end_elsewhere(r, e + 2, result, to);
            end_elsewhere(e, r + 2, result, to);
            memmove(r, e + BZ_WIDTH, (size_t)(to - e - BZ_WIDTH) * sizeof *r);
            return leave(p, result, written - 2 * BZ_WIDTH);
        }
    return leave(p, result, written);
}

static void swap_records(int16_t *r, int16_t *e)
{
    for (int i = 0; i < BZ_WIDTH; i++) {
        int16_t number = r[i];
        r[i] = e[i];
        e[i] = number;
    }
}

// The index of the first record of the first chart that the second has too; the chart's length in records if none is.
static uint64_t first_common(const struct pair *p)
{
    size_t i = 0;
    while (i < p->a_length && same_ends(p->a + i, p->b, p->b_length) == NULL)
        i += BZ_WIDTH;
    return i / BZ_WIDTH;
}

// A refused question.
static uint64_t spoil_refusal(const struct pair *p, joining *sound, uint64_t answer)
{
    int16_t other[BZ_LIMIT * BZ_WIDTH];
    unsigned number = bz_refusal(answer), chart = bz_named_chart(answer);
    if (p->out_length > 0 && is_spoiled("join-on-refusal"))
        p->out[0] = (int16_t)(p->out[0] ^ 1);
    if (chart != 0 && is_spoiled("join-chart"))
        return chart == 1 ? answer + one_chart : answer - one_chart;
    if (chart != 0 && is_spoiled("join-chart-unnamed"))
        return answer - chart * one_chart;
    if (chart == 1 && sound_bz_check(p->b, p->b_length) != 0 && is_spoiled("join-second-judged-first"))
        return sound_bz_check(p->b, p->b_length) + 2 * one_chart;
    if (number == BZ_CHARTS_TOUCH && is_spoiled("join-touching-record-of-second"))
        return sound(p->b, p->b_length, p->a, p->a_length, other, 0);
    // a result that is too long is too long for this array too
    if (number == BZ_RESULT_TOO_LONG && p->out_length <= BZ_LIMIT * BZ_WIDTH && is_spoiled("join-room-first"))
        return answer + one_number;
    if (number == BZ_NO_ROOM_FOR_RESULT && is_spoiled("join-written-early")) {
        sound(p->a, p->a_length, p->b, p->b_length, other, BZ_LIMIT * BZ_WIDTH);
        memcpy(p->out, other, p->out_length * sizeof *other);
    }
    return answer;
}

// A question that is answered.
static uint64_t spoil_result(const struct pair *p, joining *sound, uint64_t answer)
{
    size_t written = bz_value(answer) * BZ_WIDTH;
    if (is_spoiled("join-empty"))
        return leave(p, p->before, 0);
    if (is_spoiled("join-second-dropped"))
        return without_second(p, written);
    if (sound == sound_bz_union && is_spoiled("join-common-side-kept"))
        return with_common_sides(p, written);
    if (first_common(p) < p->a_length / BZ_WIDTH && is_spoiled("join-equal-touches"))
        return leave(p, p->before, 0) + BZ_CHARTS_TOUCH * one_number + first_common(p);
    if (is_spoiled("join-in-line-merged"))
        return with_merged(p, written);
    if (is_spoiled("join-marks-taken"))
        take_marks(p, written);
    if (written > BZ_WIDTH && is_spoiled("join-order"))
        swap_records(p->out, p->out + written - BZ_WIDTH);
    if (p->out_length > written && is_spoiled("join-beyond"))
        p->out[p->out_length - 1] = (int16_t)(p->out[p->out_length - 1] ^ 1);
    if (is_spoiled("join-count"))
        return answer + one_value;
    if (is_spoiled("join-unnamed-bit"))
        return answer + one_kind;
    return answer;
}

static uint64_t spoil_joining(joining *sound, struct pair *p)
{
    memcpy(p->before, p->out, kept_length(p) * sizeof *p->out);
    uint64_t answer = sound(p->a, p->a_length, p->b, p->b_length, p->out, p->out_length);
    return bz_refusal(answer) != 0 ? spoil_refusal(p, sound, answer) : spoil_result(p, sound, answer);
}

uint64_t bz_union(const int16_t *a, size_t a_length, const int16_t *b, size_t b_length,
                  int16_t *out, size_t out_length)
{
    struct pair p = {a, b, a_length, b_length, out, out_length, {0}};
    return spoil_joining(sound_bz_union, &p);
}

uint64_t bz_intersection(const int16_t *a, size_t a_length, const int16_t *b, size_t b_length,
                         int16_t *out, size_t out_length)
{
    struct pair p = {a, b, a_length, b_length, out, out_length, {0}};
    return spoil_joining(sound_bz_intersection, &p);
}

uint64_t bz_difference(const int16_t *a, size_t a_length, const int16_t *b, size_t b_length,
                       int16_t *out, size_t out_length)
{
    struct pair p = {a, b, a_length, b_length, out, out_length, {0}};
    if (is_spoiled("join-difference-turned")) {
        struct pair turned = {b, a, b_length, a_length, out, out_length, {0}};
        return spoil_joining(sound_bz_difference, &turned);
    }
    return spoil_joining(sound_bz_difference, &p);
}

// ---- gauges and files

uint64_t bz_gauge(uint8_t kind, double first, double second, int16_t sample, double *pressure, int16_t *row)
{
    double pressure_before = *pressure;
    uint64_t answer = sound_bz_gauge(kind, first, second, sample, pressure, row);
    bool is_refused = bz_refusal(answer) != 0;
    uint64_t bits;
    if (!is_refused && is_spoiled("gauge-row"))
        *row = (int16_t)(*row ^ 1);
    if (is_refused && is_spoiled("pressure-not-written"))
        *pressure = pressure_before;
    if (is_refused && is_spoiled("pressure-negative-zero"))
        *pressure = -0.0;
    if (!is_refused && is_spoiled("pressure-last-bit")) {
        memcpy(&bits, pressure, sizeof bits);
        bits ^= 1;
        memcpy(pressure, &bits, sizeof bits);
    }
    if (is_refused && is_spoiled("gauge-unnamed-bit"))
        return answer + one_value;
    return answer;
}

uint64_t bz_read(const uint8_t *bytes, size_t bytes_length, int16_t *out, size_t out_length)
{
    uint64_t answer = sound_bz_read(bytes, bytes_length, out, out_length);
    bool is_refused = bz_refusal(answer) != 0;
    size_t written = is_refused ? 0 : bz_value(answer) * BZ_WIDTH;
    if (!is_refused && out_length > written && is_spoiled("read-beyond"))
        ((unsigned char *)out)[2 * out_length - 1] ^= 1;
    if (written > 0 && is_spoiled("read-number"))
        out[written - 1] = (int16_t)(out[written - 1] ^ 1);
    if (is_refused && out_length > 0 && is_spoiled("read-on-refusal"))
        out[0] = (int16_t)(out[0] ^ 1);
    if (is_refused && is_spoiled("read-place"))
        return answer + one_value;
    if (!is_refused && is_spoiled("read-count"))
        return answer + one_value;
    if (is_spoiled("read-unnamed-bit"))
        return answer + one_kind;
    return answer;
}
