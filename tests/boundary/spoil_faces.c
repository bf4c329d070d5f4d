// bz_faces with one thing spoiled, beside spoil.c. What cannot be spoiled in a list that is there is spoiled in making
// one: by walks that turn otherwise, are never cut, or look elsewhere for a hole's face.
#include "spoil.h"

uint64_t sound_bz_check(const int16_t *chart, size_t chart_length);
uint64_t sound_bz_faces(const int16_t *chart, size_t chart_length, uint16_t *labels, size_t labels_length,
                        uint16_t *cycles, size_t cycles_length);

// What a question is asked with, and what both arrays held before, as far as a list reaches.
struct lent {
    const int16_t *chart;
    size_t records;
    uint16_t *labels, *cycles;
    size_t labels_length, cycles_length;
    uint16_t labels_before[BZ_LIMIT], cycles_before[BZ_LIMIT];
};

static size_t kept(size_t length)
{
    return length < BZ_LIMIT ? length : BZ_LIMIT;
}

static void save(struct lent *l)
{
    memcpy(l->labels_before, l->labels, kept(l->labels_length) * sizeof *l->labels);
    memcpy(l->cycles_before, l->cycles, kept(l->cycles_length) * sizeof *l->cycles);
}

static void restore(const struct lent *l)
{
    memcpy(l->labels, l->labels_before, kept(l->labels_length) * sizeof *l->labels);
    memcpy(l->cycles, l->cycles_before, kept(l->cycles_length) * sizeof *l->cycles);
}

// ---- a list made otherwise

// What is wrong in making it; as document 01 says where nothing is.
struct fault {
    bool turns_counter_clockwise, goes_straight_on, never_cuts, numbers_by_cut, looks_below_cycle, takes_lowest;
};

struct list {
    const int16_t *chart;
    int records, cycles, walks;
    // of each record the cycle, in the order in which they are cut, and the other half
    int cycle[BZ_LIMIT], other[BZ_LIMIT];
    // of each cycle its walk, twice its area, its smallest record's index, its number and its face; -1 where not known
    int walk[BZ_LIMIT], first[BZ_LIMIT], number[BZ_LIMIT], face[BZ_LIMIT];
    int64_t area[BZ_LIMIT];
};

static const int16_t *record(const struct list *l, int i)
{
    return l->chart + BZ_WIDTH * i;
}

static bool same_point(const int16_t *p, const int16_t *q)
{
    return p[0] == q[0] && p[1] == q[1];
}

static bool is_left(const int16_t *r)
{
    return r[0] < r[2] || (r[0] == r[2] && r[1] < r[3]);
}

// Whether a record is walked from its dominating end: the inside is on the left then.
static bool departs(const struct list *l, int i)
{
    return is_left(record(l, i)) == (record(l, i)[4] == 1);
}

static void find_other_halves(struct list *l)
{
    for (int i = 0; i < l->records; i++)
        for (int j = 0; j < l->records; j++)
            if (same_point(record(l, i), record(l, j) + 2) && same_point(record(l, i) + 2, record(l, j)))
                l->other[i] = j;
}

// The record that a walk goes on with which has come along the segment of this one. The records at a corner go round it
// counter-clockwise, and every second one departs.
static int next(const struct list *l, const struct fault *f, int i)
{
    int from = i, to = i + 1;
    while (from > 0 && same_point(record(l, from - 1), record(l, i)))
        from--;
    while (to < l->records && same_point(record(l, to), record(l, i)))
        to++;
    int all = to - from, half = all / 2, back = 1;
    if (f->turns_counter_clockwise)
        back = all - 1;
    if (f->goes_straight_on)
        back = half % 2 == 1 ? half : half + 1;
    return from + (i - from + all - back) % all;
}

// The stretch becomes a cycle.
static void cut(struct list *l, const int *stretch, int length)
{
    int n = l->cycles++;
    l->walk[n] = l->walks;
    l->area[n] = 0;
    l->first[n] = l->records;
    for (int k = 0; k < length; k++) {
        int i = stretch[k], j = l->other[i];
        const int16_t *r = record(l, i);
        l->cycle[i] = l->cycle[j] = n;
        l->area[n] += (int64_t)r[0] * r[3] - (int64_t)r[1] * r[2];
        l->first[n] = i < l->first[n] ? i : l->first[n];
        l->first[n] = j < l->first[n] ? j : l->first[n];
    }
}

static void walk_from(struct list *l, const struct fault *f, int start)
{
    int rest[BZ_LIMIT], length = 0, i = start;
    do {
        rest[length++] = i;
        int back = l->other[i], from = length - 1;
        while (from >= 0 && !same_point(record(l, rest[from]), record(l, back)))
            from--;
        i = next(l, f, back);
        if (f->never_cuts ? i == start : from >= 0) {
            from = f->never_cuts ? 0 : from;
            cut(l, rest + from, length - from);
            length = from;
        }
    } while (i != start);
    l->walks++;
}

static void walk_all(struct list *l, const struct fault *f)
{
    for (int i = 0; i < l->records; i++)
        l->cycle[i] = -1;
    for (int i = 0; i < l->records; i++)
        if (l->cycle[i] < 0 && departs(l, i))
            walk_from(l, f, i);
}

static void number_cycles(struct list *l, const struct fault *f)
{
    for (int n = 0; n < l->cycles; n++) {
        l->number[n] = f->numbers_by_cut ? n : 0;
        for (int m = 0; m < l->cycles && !f->numbers_by_cut; m++)
            l->number[n] += l->first[m] < l->first[n];
    }
}

// Whether the segment of r is higher than that of e at x, or level and higher just to the right.
static bool is_higher(const int16_t *r, const int16_t *e, int64_t x, bool by_slope)
{
    int64_t r_width = r[2] - r[0], r_rise = r[3] - r[1], e_width = e[2] - e[0], e_rise = e[3] - e[1];
    int64_t r_height = (r[1] * r_width + r_rise * (x - r[0])) * e_width;
    int64_t e_height = (e[1] * e_width + e_rise * (x - e[0])) * r_width;
    return r_height > e_height || (r_height == e_height && by_slope && r_rise * e_width > e_rise * r_width);
}

// The cycle of the segment nearest below a point; -1 where there is none.
static int below(const struct list *l, const struct fault *f, const int16_t *p)
{
    const int16_t *top = NULL;
    int found = -1;
    for (int i = 0; i < l->records; i++) {
        const int16_t *r = record(l, i);
        if (r[0] > p[0] || r[2] <= p[0])
            continue;
        int64_t width = r[2] - r[0], rise = r[3] - r[1];
        bool is_below = r[1] * width + rise * (p[0] - r[0]) < p[1] * width;
        if (is_below && (top == NULL || is_higher(r, top, p[0], !f->takes_lowest))) {
            top = r;
            found = l->cycle[i];
        }
    }
    return found;
}

// The cycle whose face a hole has: the outer one of its walk, or the one below the smallest point of its walk.
static int face_by(const struct list *l, const struct fault *f, int hole)
{
    int first = l->first[hole];
    for (int n = 0; n < l->cycles; n++)
        if (l->walk[n] == l->walk[hole]) {
            if (l->area[n] > 0)
                return n;
            if (l->first[n] < first && !f->looks_below_cycle)
                first = l->first[n];
        }
    return below(l, f, record(l, first));
}

// Gives each cycle its face, and counts them. Where faults leave a hole without one it is 0.
static int number_faces(struct list *l, const struct fault *f)
{
    int faces = 0;
    for (int n = 0; n < l->cycles; n++) {
        l->face[n] = 0;
        faces += l->area[n] > 0;
        for (int m = 0; m < l->cycles; m++)
            l->face[n] += l->area[m] > 0 && l->number[m] < l->number[n];
    }
    for (int n = 0; n < l->cycles; n++) {
        int by = n;
        for (int steps = 0; by >= 0 && l->area[by] <= 0 && steps < l->cycles; steps++)
            by = face_by(l, f, by);
        if (l->area[n] <= 0)
            l->face[n] = by >= 0 && l->area[by] > 0 ? l->face[by] : 0;
    }
    return faces;
}

// The answer of a list that is made with a fault, and what it leaves in the arrays.
static uint64_t list_with(const struct lent *to, const struct fault *f)
{
    struct list l = {.chart = to->chart, .records = (int)to->records};
    restore(to);
    find_other_halves(&l);
    walk_all(&l, f);
    number_cycles(&l, f);
    int faces = number_faces(&l, f);
    if (to->labels_length < to->records || to->cycles_length < 2 * (size_t)l.cycles)
        return BZ_NO_ROOM_FOR_FACES * one_number;
    for (int i = 0; i < l.records; i++)
        to->labels[i] = (uint16_t)l.number[l.cycle[i]];
    for (int n = 0; n < l.cycles; n++) {
        to->cycles[2 * l.number[n]] = l.area[n] > 0 ? BZ_OUTER : BZ_HOLE;
        to->cycles[2 * l.number[n] + 1] = (uint16_t)l.face[n];
    }
    return (uint64_t)faces << 16 | (uint64_t)l.cycles;
}

// ---- what is spoiled

// A refused question.
static uint64_t spoil_refusal(const struct lent *l, uint64_t answer)
{
    uint16_t labels[BZ_LIMIT], cycles[BZ_LIMIT];
    unsigned number = bz_refusal(answer);
    if (number != BZ_NO_ROOM_FOR_FACES) {
        if (l->labels_length < l->records && is_spoiled("faces-room-first"))
            return BZ_NO_ROOM_FOR_FACES * one_number;
        if (l->labels_length > 0 && is_spoiled("faces-on-refusal"))
            l->labels[0] ^= 1;
        return answer;
    }
    if (is_spoiled("faces-room-index"))
        return answer + one_value;
    uint64_t sound = sound_bz_faces(l->chart, l->records * BZ_WIDTH, labels, BZ_LIMIT, cycles, BZ_LIMIT);
    if (l->labels_length >= l->records && is_spoiled("faces-labels-written-early"))
        memcpy(l->labels, labels, l->records * sizeof *labels);
    if (l->cycles_length >= 2 * bz_cycle_count(sound) && is_spoiled("faces-cycles-written-early"))
        memcpy(l->cycles, cycles, 2 * bz_cycle_count(sound) * sizeof *cycles);
    // the room for cycles is not looked at, and what it has no room for is left out
    if (l->labels_length >= l->records && is_spoiled("faces-cycles-left-out")) {
        memcpy(l->labels, labels, l->records * sizeof *labels);
        memcpy(l->cycles, cycles, l->cycles_length * sizeof *cycles);
        return sound;
    }
    return answer;
}

// What is written.
static void spoil_lists(const struct lent *l, size_t cycles)
{
    if (is_spoiled("faces-nothing-written"))
        restore(l);
    for (size_t n = 0; n < cycles; n++)
        if (l->cycles[2 * n] == BZ_HOLE && is_spoiled("faces-holes-of-face-0"))
            l->cycles[2 * n + 1] = 0;
    if (cycles > 0 && is_spoiled("faces-kind"))
        l->cycles[2 * cycles - 2] ^= 1;
    for (size_t i = 0; i < l->records; i++)
        if (!is_left(l->chart + BZ_WIDTH * i) && is_spoiled("faces-one-half-labelled"))
            l->labels[i] = l->labels_before[i];
    if (l->labels_length > l->records && is_spoiled("faces-beyond-labels"))
        l->labels[l->labels_length - 1] ^= 1;
    if (l->cycles_length > 2 * cycles && is_spoiled("faces-beyond-cycles"))
        l->cycles[l->cycles_length - 1] ^= 1;
}

// A question that is answered.
static uint64_t spoil_answer(const struct lent *l, uint64_t answer)
{
    if (is_spoiled("faces-counter-clockwise"))
        return list_with(l, &(struct fault){.turns_counter_clockwise = true});
    if (is_spoiled("faces-straight-on"))
        return list_with(l, &(struct fault){.goes_straight_on = true, .never_cuts = true});
    if (is_spoiled("faces-never-cut"))
        return list_with(l, &(struct fault){.never_cuts = true});
    if (is_spoiled("faces-numbered-by-cut"))
        return list_with(l, &(struct fault){.numbers_by_cut = true});
    if (is_spoiled("faces-below-the-cycle"))
        return list_with(l, &(struct fault){.looks_below_cycle = true});
    if (is_spoiled("faces-lowest-of-level"))
        return list_with(l, &(struct fault){.takes_lowest = true});
    spoil_lists(l, bz_cycle_count(answer));
    if (is_spoiled("faces-invented"))
        return answer + (one_value << 16);
    if (is_spoiled("faces-cycle-count"))
        return answer + one_value;
    if (is_spoiled("faces-unnamed-bit"))
        return answer + one_kind;
    return answer;
}

uint64_t bz_faces(const int16_t *chart, size_t chart_length, uint16_t *labels, size_t labels_length,
                  uint16_t *cycles, size_t cycles_length)
{
    struct lent l = {chart, chart_length / BZ_WIDTH, labels, cycles, labels_length, cycles_length, {0}, {0}};
    save(&l);
    uint64_t answer = sound_bz_faces(chart, chart_length, labels, labels_length, cycles, cycles_length);
    return bz_refusal(answer) != 0 ? spoil_refusal(&l, answer) : spoil_answer(&l, answer);
}
