// A small job of the rig controller in C: a chart file is read and checked, points are asked about, a gauge's sample is
// turned into a row, the chart is joined with a second one, the faces and holes of a third are listed, and a refusal of
// each sort is met. rust/examples/rig.rs does the same job and prints the same. From the top of the repository:
//
//     tests/boundary/librig.sh
//     gcc -I include -o target/rig examples/rig.c target/staticlib/librig.a
//     target/rig examples/square.chart examples/neighbour.chart examples/square-with-hole.chart
#include "berzulka.h"

#include <stdio.h>
#include <stdlib.h>

// The longest file that can be taken has 6,658 bytes, so what lies past such a buffer changes no answer. No chart and
// nothing that is made of two needs more than ROOM numbers.
enum { BYTES = 8192, ROOM = BZ_LIMIT * BZ_WIDTH };

static uint8_t file[BYTES], second_file[BYTES], third_file[BYTES];
static int16_t chart[ROOM], second[ROOM], third[ROOM], joined[ROOM];
static uint16_t labels[BZ_LIMIT], cycles[BZ_LIMIT];

// Tells a refusal, where the answer is one.
static int is_refused(const char *what, uint64_t answer)
{
    unsigned number = bz_refusal(answer), named = bz_named_chart(answer);
    if (number == 0)
        return 0;
    printf("%s: refused %u at %u", what, number, bz_value(answer));
    if (named != 0)
        printf(" of chart %u", named);
    printf(": %s\n", bz_meaning(number));
    return 1;
}

static void say_records(const char *what, const int16_t *records, size_t length)
{
    printf("%s, %zu records\n", what, length / BZ_WIDTH);
    for (const int16_t *r = records; r < records + length; r += BZ_WIDTH)
        printf("    (%d,%d) to (%d,%d), mark %d\n", r[0], r[1], r[2], r[3], r[4]);
}

static void say_place(size_t length, int16_t x, int16_t y)
{
    static const char *const places[] = {"Outside", "Inside", "Edge"};
    uint64_t answer = bz_point(chart, length, x, y);
    if (!is_refused("the point", answer))
        printf("(%d,%d): %s\n", x, y, places[bz_kind(answer)]);
}

// Goes through the records of the chart and of a second array in record order, by the smaller head of what is left.
static void say_merged(size_t length)
{
    static const int16_t other[] = {1, 0, 3, 0, 1, 9, 9, 1, 1, 0};
    size_t other_length = sizeof other / sizeof other[0], a = 0, b = 0;
    printf("merged with a second array:");
    for (;;) {
        unsigned kind = bz_kind(bz_head(chart + a, length - a, other + b, other_length - b));
        if (kind == BZ_NEITHER)
            break;
        printf(kind == BZ_FIRST ? " first" : " second");
        if (kind == BZ_FIRST)
            a += BZ_WIDTH;
        else
            b += BZ_WIDTH;
    }
    printf("\n");
}

// The row that a bridge's sample gives, and where the point of that row at time 3 lies.
static void say_sample(size_t length, int16_t sample)
{
    double pressure;
    int16_t row;
    if (is_refused("the sample", bz_gauge(BZ_BRIDGE, 0.5, 0.0, sample, &pressure, &row)))
        return;
    printf("sample %d: pressure %g, row %d\n", sample, pressure, row);
    say_place(length, 3, row);
}

// How many records are made of two charts.
static void say_joined(const char *what, uint64_t answer)
{
    if (!is_refused(what, answer))
        printf("%s: %u records\n", what, bz_value(answer));
}

// What is made of the chart and the second one, the last time into an array without room.
static void say_joins(size_t length, size_t second_length)
{
    say_joined("union with the second chart", bz_union(chart, length, second, second_length, joined, ROOM));
    say_joined("intersection", bz_intersection(chart, length, second, second_length, joined, ROOM));
    say_joined("difference", bz_difference(chart, length, second, second_length, joined, ROOM));
    say_joined("union without room", bz_union(chart, length, second, second_length, joined, 0));
}

// Which faces and holes the third chart has: the cycle of each record, and what each cycle is; then without room.
static void say_faces(size_t length)
{
    uint64_t answer = bz_faces(third, length, labels, BZ_LIMIT, cycles, BZ_LIMIT);
    if (is_refused("the third chart", answer))
        return;
    printf("the third chart: faces %u, cycles %u\n    cycle of each record:", bz_face_count(answer),
           bz_cycle_count(answer));
    for (size_t i = 0; i < length / BZ_WIDTH; i++)
        printf(" %u", labels[i]);
    printf("\n");
    for (unsigned i = 0; i < bz_cycle_count(answer); i++)
        printf("    cycle %u: %s of face %u\n", i, cycles[2 * i] == BZ_HOLE ? "hole" : "outer", cycles[2 * i + 1]);
    is_refused("its faces without room", bz_faces(third, length, labels, BZ_LIMIT, cycles, 0));
}

static void say_refusals(size_t size, size_t length, size_t second_length)
{
    double pressure;
    int16_t row;
    is_refused("the file without its last byte", bz_read(file, size - 1, chart, ROOM));
    chart[length - 1] = (int16_t)(1 - chart[length - 1]);
    is_refused("the chart with its last mark changed", bz_check(chart, length));
    is_refused("the second chart joined with it", bz_union(second, second_length, chart, length, joined, ROOM));
    is_refused("a card with a gain of 3", bz_gauge(BZ_BRIDGE, 3.0, 0.0, 5, &pressure, &row));
}

// What is asked of a chart that was accepted and has records.
static void say_answers(size_t length)
{
    int64_t area;
    if (!is_refused("the area", bz_area2(chart, length, &area)))
        printf("twice the area: %lld\n", (long long)area);
    say_place(length, 2, 2);
    say_place(length, 4, 2);
    say_place(length, 5, 2);
    // the run is a part of the chart's own array: nothing is copied
    uint64_t run = bz_corner(chart, length, chart[length - 5], chart[length - 4]);
    say_records("at the last corner", chart + bz_run_start(run), bz_run_length(run));
    say_merged(length);
    say_sample(length, 5);
}

// The bytes of a file, and how many there are.
static size_t load(const char *path, uint8_t *bytes)
{
    FILE *input = fopen(path, "rb");
    if (input == NULL) {
        perror("rig");
        exit(2);
    }
    size_t size = fread(bytes, 1, BYTES, input);
    fclose(input);
    return size;
}

// How many numbers the file gives.
static size_t read_chart(const char *what, size_t size, const uint8_t *bytes, int16_t *numbers)
{
    uint64_t answer = bz_read(bytes, size, numbers, ROOM);
    if (is_refused(what, answer))
        exit(1);
    return bz_value(answer) * BZ_WIDTH;
}

int main(int count, char **words)
{
    size_t size = load(count > 1 ? words[1] : "examples/square.chart", file);
    size_t second_size = load(count > 2 ? words[2] : "examples/neighbour.chart", second_file);
    size_t third_size = load(count > 3 ? words[3] : "examples/square-with-hole.chart", third_file);

    size_t length = read_chart("the file", size, file, chart);
    size_t second_length = read_chart("the second file", second_size, second_file, second);
    size_t third_length = read_chart("the third file", third_size, third_file, third);
    if (is_refused("the chart", bz_check(chart, length)))
        return 1;
    say_records("a sound chart", chart, length);
    if (length == 0)
        return 0;
    say_answers(length);
    say_joins(length, second_length);
    say_faces(third_length);
    say_refusals(size, length, second_length);
    return 0;
}
