// Replays a tape of questions through include/berzulka.h and holds every answer, all its bits, and every byte of what
// was lent to what the tape wants.
//
//     stress [--heap] < TAPE
//
// Each array lies alone among pages that nothing may touch: first so that it ends right before such a page, then so
// that it begins right after one. What is not lent for writing is write-protected while the question is asked. The
// bytes beside an array in its own pages hold a pattern, which is looked at afterwards. An empty array is a place that
// nothing may touch, and then the null pointer. An entry fails where such a place is touched. With --heap each array is
// a block of exactly its size instead, for memcheck and the address sanitiser, and each entry is asked once.
//
// It prints what failed (the first few), how many entries of each question there were and, last, 'N passed, M failed'.
// Exit status 0 where nothing failed, 1 where something did, 2 where the tape is not one.
//
// The tape is written by the judge of rust/judge: entries one after another, numbers with their lowest byte first.
//     letter u8, kind u8, x i16, y i16, first u64, second u64, n1 u32, n2 u32, lent u32 (sizes in bytes)
//     n1 bytes of the first array, n2 of the second, what is lent before, what it must hold after, the answer u64
// The first array is a chart, or a file's bytes, and the second another chart. A gauge's sample is x, and first and
// second are its floats' bits. Of faces x is how many labels are lent; the numbers of cycles come after them.
#define _DEFAULT_SOURCE
#include "berzulka.h"

#include <setjmp.h>
#include <signal.h>
#include <stdbool.h>
#include <stdio.h>
#include <stdlib.h>
#include <string.h>
#include <sys/mman.h>
#include <unistd.h>

// So many failures are shown, and so often it is told how far the tape is.
enum { SHOWN = 5, TOLD = 100000 };

// Ends the program where there is no memory to ask with.
static void must(bool is_done, const char *what)
{
    if (!is_done) {
        perror(what);
        exit(2);
    }
}

// ---- what is on the tape

enum { FRONT = 34, ANSWER = 8, LARGEST = 1 << 24 };

// A question's letter and name, and how many bytes an element of each array has, 0 where there is no such array. What
// is lent is one value of that size, or any number of them.
struct question {
    char letter;
    const char *name;
    size_t first, second, lent;
    bool any_number;
};

// A gauge is lent a pressure and a row, which stand one after the other on the tape; faces are lent two arrays so.
enum { PRESSURE = sizeof(double), ROW = sizeof(int16_t), LABEL = sizeof(uint16_t) };

static const struct question questions[] = {
    {'c', "check", 2, 0, 0, false},
    {'p', "point", 2, 0, 0, false},
    {'r', "corner", 2, 0, 0, false},
    {'h', "head", 2, 2, 0, false},
    {'a', "area2", 2, 0, sizeof(int64_t), false},
    {'w', "faces", 2, 0, LABEL, true},
    {'u', "union", 2, 2, 2, true},
    {'i', "intersection", 2, 2, 2, true},
    {'d', "difference", 2, 2, 2, true},
    {'g', "gauge", 0, 0, PRESSURE + ROW, false},
    {'f', "read", 1, 0, 2, true},
};
enum { QUESTIONS = sizeof questions / sizeof questions[0] };

struct entry {
    const struct question *asked;
    uint8_t kind;
    int16_t x, y;
    double first, second;
    size_t n1, n2, lent;
    const unsigned char *array1, *array2, *before, *after;
    uint64_t wanted;
};

// Where in the tape the entry at hand begins, and its number.
static unsigned long long place, number;

static void bad_tape(const char *what)
{
    fprintf(stderr, "stress: the tape's entry %llu, at byte %llu: %s\n", number, place, what);
    exit(2);
}

static uint64_t number_at(const unsigned char *bytes, size_t size)
{
    uint64_t value = 0;
    while (size-- > 0)
        value = value << 8 | bytes[size];
    return value;
}

static double float_at(const unsigned char *bytes)
{
    uint64_t bits = number_at(bytes, sizeof(double));
    double value;
    memcpy(&value, &bits, sizeof value);
    return value;
}

static const struct question *question_of(char letter)
{
    for (size_t i = 0; i < QUESTIONS; i++)
        if (questions[i].letter == letter)
            return &questions[i];
    bad_tape("no question has this letter");
    return NULL;
}

// How many bytes the first of two things has that are lent; all of them where only one thing is.
static size_t first_lent(const struct entry *e)
{
    switch (e->asked->letter) {
    case 'g': return PRESSURE;
    case 'w': return (size_t)(uint16_t)e->x * LABEL;
    default: return e->lent;
    }
}

// Whether an array of so many bytes has whole elements, and none where there is no such array.
static bool is_whole(size_t bytes, size_t element)
{
    return element == 0 ? bytes == 0 : bytes % element == 0;
}

static void read_front(struct entry *e, const unsigned char *front)
{
    e->asked = question_of((char)front[0]);
    e->kind = front[1];
    e->x = (int16_t)number_at(front + 2, 2);
    e->y = (int16_t)number_at(front + 4, 2);
    e->first = float_at(front + 6);
    e->second = float_at(front + 14);
    e->n1 = number_at(front + 22, 4);
    e->n2 = number_at(front + 26, 4);
    e->lent = number_at(front + 30, 4);
    if (e->n1 > LARGEST || e->n2 > LARGEST || e->lent > LARGEST)
        bad_tape("an array is longer than a tape may have");
    const struct question *q = e->asked;
    bool lent_is_whole = q->any_number ? is_whole(e->lent, q->lent) : e->lent == q->lent;
    if (!is_whole(e->n1, q->first) || !is_whole(e->n2, q->second) || !lent_is_whole || first_lent(e) > e->lent)
        bad_tape("an array's size is not one that its question has");
}

// The next entry of the tape, whose bytes stay until the one after it is read; false where the tape ends.
static bool next_entry(struct entry *e)
{
    static unsigned char *bytes;
    static size_t room;
    unsigned char front[FRONT];
    size_t got = fread(front, 1, FRONT, stdin);
    if (got == 0 && feof(stdin))
        return false;
    number++;
    if (got < FRONT)
        bad_tape("it ends inside the entry");
    read_front(e, front);
    size_t size = e->n1 + e->n2 + 2 * e->lent + ANSWER;
    if (size > room) {
        bytes = realloc(bytes, room = 2 * size);
        must(bytes != NULL, "stress: realloc");
    }
    if (fread(bytes, 1, size, stdin) < size)
        bad_tape("it ends inside the entry");
    e->array1 = bytes;
    e->array2 = e->array1 + e->n1;
    e->before = e->array2 + e->n2;
    e->after = e->before + e->lent;
    e->wanted = number_at(e->after + e->lent, ANSWER);
    place += FRONT + size;
    return true;
}

// ---- where an array lies

enum layout { ENDING, BEGINNING, ON_HEAP };

static const char *const layouts[] = {"before a page without access", "after a page without access", "on the heap"};

// What is passed for a question: the two arrays that are read, and one or two things that are lent, each by itself.
enum { FIRST, SECOND, LENT, ALSO_LENT, PARTS };

// A part has pages of its own, all without access but for those that hold the array while a question is asked.
static struct part {
    bool is_lent;
    const unsigned char *before, *after;
    size_t length;
    unsigned char *array, *pages;
    size_t used;
} parts[PARTS];

static size_t page;

enum { PATTERN = 0xa5 };

static void protect(const struct part *p, int access)
{
    must(p->used == 0 || mprotect(p->pages, p->used, access) == 0, "stress: mprotect");
}

// Room for the longest array, and a page on either side that stays without access.
static void make_room(struct part *p)
{
    page = (size_t)sysconf(_SC_PAGESIZE);
    unsigned char *all = mmap(NULL, LARGEST + 2 * page, PROT_NONE, MAP_PRIVATE | MAP_ANONYMOUS | MAP_NORESERVE, -1, 0);
    must(all != MAP_FAILED, "stress: mmap");
    p->pages = all + page;
}

// Puts the array there, and lets nobody write it unless it is lent.
static void put(struct part *p, enum layout layout)
{
    p->used = layout == ON_HEAP ? 0 : (p->length + page - 1) / page * page;
    protect(p, PROT_READ | PROT_WRITE);
    if (p->used > 0)
        memset(p->pages, PATTERN, p->used);
    if (layout == ON_HEAP)
        p->array = malloc(p->length);
    else if (layout == ENDING)
        p->array = p->pages + p->used - p->length;
    else
        p->array = p->length > 0 ? p->pages : NULL;
    must(p->length == 0 || p->array != NULL, "stress: malloc");
    if (p->length > 0)
        memcpy(p->array, p->before, p->length);
    if (!p->is_lent)
        protect(p, PROT_READ);
}

static void take_away(struct part *p, enum layout layout)
{
    if (layout == ON_HEAP)
        free(p->array);
    protect(p, PROT_NONE);
}

static bool is_pattern(const unsigned char *from, const unsigned char *to)
{
    while (from < to && *from == PATTERN)
        from++;
    return from == to;
}

// What is not as it must be after a question; NULL where all is.
static const char *harm(const struct part *p)
{
    if (p->length > 0 && memcmp(p->array, p->after, p->length) != 0)
        return p->is_lent ? "what was lent holds something else" : "it wrote what it may only read";
    if (p->used > 0 && !(is_pattern(p->pages, p->array) && is_pattern(p->array + p->length, p->pages + p->used)))
        return "it wrote beside an array";
    return NULL;
}

// ---- asking

static void set_part(int which, bool is_lent, const unsigned char *before, const unsigned char *after, size_t length)
{
    struct part *p = &parts[which];
    p->is_lent = is_lent;
    p->before = before;
    p->after = after;
    p->length = length;
}

static void set_parts(const struct entry *e)
{
    size_t split = first_lent(e);
    set_part(FIRST, false, e->array1, e->array1, e->n1);
    set_part(SECOND, false, e->array2, e->array2, e->n2);
    set_part(LENT, true, e->before, e->after, split);
    set_part(ALSO_LENT, true, e->before + split, e->after + split, e->lent - split);
}

static uint64_t answer_to(const struct entry *e)
{
    const int16_t *chart = (const void *)parts[FIRST].array, *other = (const void *)parts[SECOND].array;
    void *lent = parts[LENT].array, *also_lent = parts[ALSO_LENT].array;
    size_t n = e->n1 / sizeof *chart, m = e->n2 / sizeof *other;
    size_t room = parts[LENT].length / sizeof(int16_t), also_room = parts[ALSO_LENT].length / sizeof(int16_t);
    switch (e->asked->letter) {
    case 'c': return bz_check(chart, n);
    case 'p': return bz_point(chart, n, e->x, e->y);
    case 'r': return bz_corner(chart, n, e->x, e->y);
    case 'h': return bz_head(chart, n, other, m);
    case 'a': return bz_area2(chart, n, lent);
    case 'w': return bz_faces(chart, n, lent, room, also_lent, also_room);
    case 'u': return bz_union(chart, n, other, m, lent, room);
    case 'i': return bz_intersection(chart, n, other, m, lent, room);
    case 'd': return bz_difference(chart, n, other, m, lent, room);
    case 'g': return bz_gauge(e->kind, e->first, e->second, e->x, lent, also_lent);
    default: return bz_read(parts[FIRST].array, e->n1, lent, room);
    }
}

static sigjmp_buf before_asking;
static volatile sig_atomic_t is_asking;

// Asks; false where the question touches what it may not touch.
static bool ask(const struct entry *e, uint64_t *answer)
{
    if (sigsetjmp(before_asking, 0) != 0) {
        is_asking = false;
        return false;
    }
    is_asking = true;
    *answer = answer_to(e);
    is_asking = false;
    return true;
}

// Such a touch brings us back to before the question.
static void on_touch(int signal)
{
    if (!is_asking)
        abort();
    siglongjmp(before_asking, signal);
}

static void watch(void)
{
    struct sigaction action;
    memset(&action, 0, sizeof action);
    action.sa_handler = on_touch;
    action.sa_flags = SA_NODEFER;
    sigaction(SIGSEGV, &action, NULL);
    sigaction(SIGBUS, &action, NULL);
}

// ---- counting

static unsigned long long passed, failed, replayed[QUESTIONS];

static void tell(const struct entry *e, enum layout layout, const char *what)
{
    if (++failed <= SHOWN)
        printf("entry %llu, %s, arrays %s: %s\n", number, e->asked->name, layouts[layout], what);
}

// What is wrong with the answer and with what was passed; NULL where nothing is.
static const char *fault(const struct entry *e, uint64_t answer)
{
    static char text[64];
    if (answer != e->wanted) {
        unsigned long long got = answer, wanted = e->wanted;
        snprintf(text, sizeof text, "answered %016llx, wanted %016llx", got, wanted);
        return text;
    }
    const char *what = NULL;
    for (int i = 0; i < PARTS && what == NULL; i++)
        what = harm(&parts[i]);
    return what;
}

// Asks once, and says whether all is as wanted.
static bool is_right(const struct entry *e, enum layout layout)
{
    uint64_t answer;
    set_parts(e);
    for (int i = 0; i < PARTS; i++)
        put(&parts[i], layout);
    const char *what = ask(e, &answer) ? fault(e, answer) : "it touched what it may not touch";
    for (int i = 0; i < PARTS; i++)
        take_away(&parts[i], layout);
    if (what != NULL)
        tell(e, layout, what);
    return what == NULL;
}

static void replay(const struct entry *e, bool on_heap)
{
    bool right = on_heap ? is_right(e, ON_HEAP) : is_right(e, ENDING) && is_right(e, BEGINNING);
    passed += right;
    replayed[e->asked - questions]++;
    if (number % TOLD == 0)
        fprintf(stderr, "%llu entries\n", number);
}

int main(int count, char **words)
{
    bool on_heap = count == 2 && strcmp(words[1], "--heap") == 0;
    if (count > 1 && !on_heap) {
        fprintf(stderr, "stress [--heap] < TAPE\n");
        return 2;
    }
    if (!on_heap) {
        for (int i = 0; i < PARTS; i++)
            make_room(&parts[i]);
        watch();
    }
    struct entry e;
    while (next_entry(&e))
        replay(&e, on_heap);
    if (number == 0) {
        fprintf(stderr, "stress: the tape is empty\n");
        return 2;
    }
    for (size_t i = 0; i < QUESTIONS; i++)
        printf("%s%llu %s", i == 0 ? "replayed: " : ", ", replayed[i], questions[i].name);
    printf("\n%llu passed, %llu failed\n", passed, failed);
    return failed == 0 ? 0 : 1;
}
