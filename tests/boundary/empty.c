// That a null pointer with length 0 is the empty array, in every place that has a length. Prints what is not as wanted;
// exit status 0 where nothing is.
#include "berzulka.h"

#include <stdio.h>

static int failed;

// The answer with the null pointer and the one with an array of no elements are both the wanted one.
static void want(const char *question, uint64_t by_null, uint64_t by_array, unsigned kind, unsigned refusal)
{
    uint64_t wanted = (uint64_t)kind << 56 | (uint64_t)refusal << 32;
    if (by_null != wanted || by_array != wanted) {
        unsigned long long null = by_null, array = by_array;
        printf("%s: %llx with the null pointer, %llx with an array\n", question, null, array);
        failed = 1;
    }
}

int main(void)
{
    int16_t record[BZ_WIDTH] = {0, 0, 4, 0, 1}, out[BZ_WIDTH];
    const int16_t sliver[] = {0, 0, 2, 1, 1, 0, 0, 1, 1, 0, 1, 1, 0, 0, 0, 1, 1, 2, 1, 0, 2, 1, 1, 1, 0, 2, 1, 0, 0, 1};
    const size_t length = sizeof sliver / sizeof sliver[0];
    const uint8_t none[] = {0}, one[] = {1, 0, 0, 8, 0, 1};
    uint16_t labels[6], cycles[2];
    int64_t area = 7, other = 7;

    want("check", bz_check(NULL, 0), bz_check(record, 0), 0, 0);
    want("point", bz_point(NULL, 0, 0, 0), bz_point(record, 0, 0, 0), BZ_OUTSIDE, 0);
    want("corner", bz_corner(NULL, 0, 0, 0), bz_corner(record, 0, 0, 0), 0, 0);
    want("head", bz_head(NULL, 0, NULL, 0), bz_head(record, 0, record, 0), BZ_NEITHER, 0);
    want("head", bz_head(NULL, 0, record, 5), bz_head(record, 0, record, 5), BZ_SECOND, 0);
    want("head", bz_head(record, 5, NULL, 0), bz_head(record, 5, record, 0), BZ_FIRST, 0);
    want("area2", bz_area2(NULL, 0, &area), bz_area2(record, 0, &other), 0, 0);
    want("area2's area", (uint64_t)area, (uint64_t)other, 0, 0);
    want("faces", bz_faces(NULL, 0, NULL, 0, NULL, 0), bz_faces(record, 0, labels, 0, cycles, 0), 0, 0);
    want("faces without labels", bz_faces(sliver, length, NULL, 0, cycles, 2),
         bz_faces(sliver, length, labels, 0, cycles, 2), 0, BZ_NO_ROOM_FOR_FACES);
    want("faces without cycles", bz_faces(sliver, length, labels, 6, NULL, 0),
         bz_faces(sliver, length, labels, 6, cycles, 0), 0, BZ_NO_ROOM_FOR_FACES);
    want("faces of half a record", bz_faces(record, 3, NULL, 0, NULL, 0), bz_faces(record, 3, labels, 0, cycles, 0),
         0, BZ_BAD_LENGTH);
    want("union", bz_union(NULL, 0, NULL, 0, NULL, 0), bz_union(record, 0, record, 0, out, 0), 0, 0);
    want("intersection with nothing", bz_intersection(sliver, length, NULL, 0, NULL, 0),
         bz_intersection(sliver, length, record, 0, out, 0), 0, 0);
    want("difference from nothing", bz_difference(NULL, 0, sliver, length, NULL, 0),
         bz_difference(record, 0, sliver, length, out, 0), 0, 0);
    want("union into nothing", bz_union(NULL, 0, sliver, length, NULL, 0), bz_union(record, 0, sliver, length, out, 0),
         0, BZ_NO_ROOM_FOR_RESULT);
    want("read from nothing", bz_read(NULL, 0, out, 5), bz_read(one, 0, out, 5), 0, BZ_CUT_SHORT);
    want("read into nothing", bz_read(none, 1, NULL, 0), bz_read(none, 1, out, 0), 0, 0);
    want("read into too little", bz_read(one, 6, NULL, 0), bz_read(one, 6, out, 0), 0, BZ_ARRAY_TOO_SHORT);
    want("read", bz_read(NULL, 0, NULL, 0), bz_read(one, 0, out, 0), 0, BZ_CUT_SHORT);
    return failed;
}
