// Times the library beside the plain C of the same rules, on the sheets that its arguments name. The two run in turn, so that what else the machine does falls on
// both. First it compares their answers, on each sheet and on many with a few words changed. It prints a line for each operation and sheet, with a tab between:
// operation, sheet, what a time is of, the library's and the plain C's nanoseconds, each the least of all turns, the ratio of these, the library's to the plain C's,
// the middle one of the turns' own ratios, the goal, and what was compared.
#include <stdio.h>
#include <stdlib.h>
#include <string.h>
#include <time.h>

#include "plain.h"

// An answer of over 16 bytes is written through a pointer. On x86-64 that is a first argument, in C too; on AArch64 C has a register of its own for it.
#ifdef __aarch64__
void bannerscale_check(verdict *answer, const uint8_t *sheet, size_t length);
static verdict check_by_pointer(const uint8_t *sheet, size_t length) {
    verdict v;
    bannerscale_check(&v, sheet, length);
    return v;
}
#define bannerscale_check check_by_pointer
#else
verdict bannerscale_check(const uint8_t *sheet, size_t length);
#endif

greatest bannerscale_forward(const uint8_t *sheet, size_t length, const int32_t *points, size_t numbers);
greatest bannerscale_inverse(const uint8_t *sheet, size_t length, const int32_t *points, size_t numbers);
greatest bannerscale_convergence(const uint8_t *sheet, size_t length, const int32_t *points, size_t numbers);

counted bannerscale_batch(const uint8_t *sheet, size_t length, const int32_t *points, size_t numbers, int32_t *answers, size_t room);

uint32_t bannerscale_correct(uint8_t *sheet, size_t length, int32_t minute, int32_t y0, int32_t h, int32_t v, int32_t a);

enum { CHANGED = 200000, CORRECTED = 200000, TURNS = 301, CALLS = 1000, CORRECTIONS = 10000, ROOM = 65536, POINTS = 100000, MOST = 4096, BATCHES = 2000, AGAIN = 25 };

// A time ratio of at most this: the goal of the check, of forward, convergence and the batch, whose goal was set as a speed of at least 0.8 of the plain C's; the inverse's; the correction's.
static const char GOAL[] = "1.25", INVERSE_GOAL[] = "1.15", CORRECTION_GOAL[] = "1.3";

static int same(verdict a, verdict b) { return a.number == b.number && a.kind == b.kind && a.row == b.row; }

// A row of numbers that looks random and is the same in every run.
static uint64_t state = 1;
static uint64_t next(void) {
    state ^= state << 13;
    state ^= state >> 7;
    state ^= state << 17;
    return state;
}

// A word moved by a little, given another word's value, or made anything.
static void change(uint8_t *sheet, size_t length) {
    uint8_t *word = sheet + 4 * (next() % (length / 4));
    uint32_t v = (uint32_t)word[0] << 24 | (uint32_t)word[1] << 16 | (uint32_t)word[2] << 8 | word[3];
    switch (next() % 4) {
    case 0: v += next() % 5 - 2; break;
    case 1: v += next() % 20001 - 10000; break;
    case 2: memcpy(word, sheet + 4 * (next() % (length / 4)), 4); return;
    default: v = next();
    }
    word[0] = v >> 24, word[1] = v >> 16, word[2] = v >> 8, word[3] = v;
}

// Mostly the whole sheet, at times a few bytes less.
static size_t some_length(size_t length) { return next() % 64 ? length : length - next() % 9; }

// How many of the changed sheets the two answer differently.
static int differences(const uint8_t *sheet, size_t length, int seen[10]) {
    static uint8_t copy[ROOM];
    int count = 0;
    for (int k = 0; k < CHANGED; k++) {
        memcpy(copy, sheet, length);
        for (int n = next() % 3; n >= 0; n--) change(copy, length);
        size_t given = some_length(length);
        verdict ours = bannerscale_check(copy, given), plain = plain_check(copy, given);
        seen[plain.number]++;
        if (!same(ours, plain)) count++;
    }
    return count;
}

static double now(void) {
    struct timespec t;
    clock_gettime(CLOCK_MONOTONIC, &t);
    return t.tv_sec * 1e9 + t.tv_nsec;
}

// What each turn took, in nanoseconds a call or a point.
typedef struct {
    double ours[TURNS], plain[TURNS];
} times;

static int rising(const void *a, const void *b) {
    double x = *(const double *)a, y = *(const double *)b;
    return (x > y) - (x < y);
}

// The sheet's name, without its folder and its ending.
static const char *short_name(const char *file) {
    static char name[64];
    const char *slash = strrchr(file, '/');
    snprintf(name, sizeof name, "%s", slash ? slash + 1 : file);
    char *end = strrchr(name, '.');
    if (end) *end = 0;
    return name;
}

// A line of the table, up to what was compared.
static void say_times(const char *operation, const char *file, const char *each, times *t, const char *goal) {
    double ratio[TURNS];
    for (int k = 0; k < TURNS; k++) ratio[k] = t->ours[k] / t->plain[k];
    qsort(t->ours, TURNS, sizeof(double), rising), qsort(t->plain, TURNS, sizeof(double), rising), qsort(ratio, TURNS, sizeof(double), rising);
    double a = t->ours[0], b = t->plain[0];
    printf("%s\t%s\t%s\t%.1f\t%.1f\t%.2f\t%.2f\t%s\t", operation, short_name(file), each, a, b, a / b, ratio[TURNS / 2], goal);
}

typedef verdict check(const uint8_t *, size_t);

static double time_check(check *f, const uint8_t *sheet, size_t length) {
    volatile uint32_t sum = 0;
    double from = now();
    for (int k = 0; k < CALLS; k++) sum += f(sheet, length).number;
    return (now() - from) / CALLS;
}

typedef greatest over(const uint8_t *, size_t, const int32_t *, size_t);

static double time_points(over *all, const uint8_t *sheet, size_t length, const int32_t *points) {
    volatile int32_t sum = 0;
    double from = now();
    greatest g = all(sheet, length, points, 2 * POINTS);
    sum += g.first + g.odd;
    return (now() - from) / POINTS;
}

// Compares the two over the points one by one, then times them over all. A refusal's values are 0, and no answer's second one is.
static int compare(const char *name, const char *file, over *ours, over *plain, const uint8_t *sheet, size_t length, const int32_t *points) {
    int differ = 0, refused = 0, halves = 0;
    for (int k = 0; k < POINTS; k++) {
        greatest a = ours(sheet, length, points + 2 * k, 2), b = plain(sheet, length, points + 2 * k, 2);
        differ += a.first != b.first || a.second != b.second || a.odd != b.odd, refused += b.second == 0, halves += b.odd;
    }
    times t;
    for (int k = 0; k < TURNS; k++) t.ours[k] = time_points(ours, sheet, length, points), t.plain[k] = time_points(plain, sheet, length, points);
    say_times(name, file, "point", &t, strcmp(name, "inverse") ? GOAL : INVERSE_GOAL);
    printf("%d of %d points answered differently (%d refused, %d met a half)\n", differ, POINTS, refused, halves);
    return differ;
}

static int32_t word(const uint8_t *sheet, size_t n) {
    const uint8_t *b = sheet + 4 * n;
    return (int32_t)((uint32_t)b[0] << 24 | (uint32_t)b[1] << 16 | (uint32_t)b[2] << 8 | b[3]);
}

// Points all over the latitude rows and 1,000″ to either side of the central meridian, and what they come to on the plane; and these moved to lie all over the scale rows.
static void spread(const uint8_t *sheet, const places *p, int32_t *earth, int32_t *flat, int32_t *scaled) {
    int32_t central = word(sheet, p->start[1]), easting = word(sheet, p->start[1] + 1), first = word(sheet, p->start[2]) * 60000, reach = (p->rows[6] - 1) * 500000;
    for (int k = 0; k < POINTS; k++) {
        earth[2 * k] = first + (int32_t)(next() % ((p->rows[2] - 1) * 60000));
        earth[2 * k + 1] = central + (int32_t)(next() % 2000001) - 1000000;
        plane r = plain_forward(sheet, p, earth[2 * k], earth[2 * k + 1]);
        flat[2 * k] = r.x, flat[2 * k + 1] = r.y;
        scaled[2 * k] = easting - reach + (int32_t)(next() % (2 * (uint64_t)reach + 1)), scaled[2 * k + 1] = r.y;
    }
}

typedef counted batch(const uint8_t *, size_t, const int32_t *, size_t, int32_t *, size_t);

// One batch by each, over memory that held the same: whether the answers or any word of it differ. What a right batch leaves alone is compared too.
static int batch_differs(const uint8_t *sheet, size_t length, const int32_t *points, size_t numbers, size_t room, counted *answer) {
    static int32_t ours[3 * MOST + 8], plain[3 * MOST + 8];
    for (size_t k = 0; k < 3 * MOST + 8; k++) ours[k] = plain[k] = (int32_t)next();
    counted a = bannerscale_batch(sheet, length, points, numbers, ours, room);
    *answer = plain_batch(sheet, length, points, numbers, plain, room);
    return a.number != answer->number || a.count != answer->count || memcmp(ours, plain, sizeof ours) != 0;
}

static double time_batch(batch *f, const uint8_t *sheet, size_t length, const int32_t *points) {
    static int32_t answers[3 * MOST];
    volatile uint32_t sum = 0;
    double from = now();
    for (int k = 0; k < AGAIN; k++) sum += f(sheet, length, points, 2 * MOST, answers, 3 * MOST).count;
    return (now() - from) / AGAIN / MOST;
}

// Batches of many sizes, one in four with odd numbers, too many points or too little room, some on a changed sheet, with points inside the tables, at their edges and
// anywhere; then full ones, timed.
static int batches(const char *file, const uint8_t *sheet, size_t length, const int32_t *earth) {
    static int32_t points[2 * MOST + 8];
    static uint8_t copy[ROOM];
    int differ = 0, refused = 0;
    long answered = 0, all = 0;
    for (int k = 0; k < BATCHES; k++) {
        size_t count = k % 10 ? next() % 200 : next() % (MOST + 1), numbers = 2 * count, room = 3 * count + next() % 9;
        for (size_t i = 0; i < 2 * MOST + 8; i++) points[i] = earth[(i + 2 * k) % (2 * POINTS)];
        for (size_t i = 0; i < numbers; i++)
            switch (next() % 16) {
            case 0: points[i] = (int32_t)next(); break;
            case 1: points[i] += (int32_t)(next() % 20000001) - 10000000;
            }
        switch (next() % 12) {
        case 0: numbers++; break;
        case 1: numbers = 2 * MOST + next() % 5, room = 3 * MOST + 8; break;
        case 2: room = count ? 3 * count - 1 - (next() % 2 ? 0 : next() % (3 * count)) : 0;
        }
        if (room > 3 * MOST + 8) room = 3 * MOST + 8;
        memcpy(copy, sheet, length);
        if (next() % 8 == 0) change(copy, length);
        counted c;
        differ += batch_differs(copy, length, points, numbers, room, &c);
        refused += c.number != 0, answered += c.count, all += c.number ? 0 : (long)(numbers / 2);
    }
    counted c;
    differ += batch_differs(sheet, length, earth, 2 * MOST, 3 * MOST, &c);
    times t;
    for (int k = 0; k < TURNS; k++) t.ours[k] = time_batch(bannerscale_batch, sheet, length, earth), t.plain[k] = time_batch(plain_batch, sheet, length, earth);
    say_times("batch", file, "point", &t, GOAL);
    printf("%d of %d batches answered differently (%d refused; %ld of %ld points answered)\n", differ, BATCHES + 1, refused, answered, all);
    return differ;
}

// ---- the correction

typedef uint32_t correct(uint8_t *, size_t, int32_t, int32_t, int32_t, int32_t, int32_t);

typedef struct {
    int32_t minute, y0, h, v, a;
} correction;

// The figures of latitude row r, which begins at word `at`, for its own minute.
static correction as_it_is(const uint8_t *sheet, size_t at) {
    return (correction){word(sheet, at), word(sheet, at + 1), word(sheet, at + 3), word(sheet, at + 5), word(sheet, at + 7)};
}

static int32_t moved(int32_t x, uint32_t by) { return (int32_t)((uint32_t)x + (uint32_t)(next() % (2 * (uint64_t)by + 1)) - by); }

// A correction of any row of the sheet: most move its figures by so little that they are accepted, some by more than the bounds allow, and some name another minute or
// have a figure at, or past, the end of its range, or anywhere.
static correction any_correction(const uint8_t *sheet, const places *p) {
    static const int32_t ENDS[] = {-1, 0, 999999999, 1000000000, 29999999, 30000000, 102000000, 102000001, 1400000, 1400001, -2001, -2000, 2000, 2001, INT32_MIN, INT32_MAX};
    correction c = as_it_is(sheet, p->start[2] + 8 * (next() % p->rows[2]));
    c.y0 = moved(c.y0, 3000), c.h = moved(c.h, 100), c.v = moved(c.v, 50), c.a = moved(c.a, 3);
    int32_t *figure[] = {&c.y0, &c.h, &c.v, &c.a}, *one = figure[next() % 4];
    switch (next() % 10) {
    case 0: *one = moved(*one, 40000); break;
    case 1: *one = moved(*one, 1000); break;
    case 2: *one = moved(*one, 10); break;
    case 3: *one = ENDS[next() % (sizeof ENDS / sizeof *ENDS)]; break;
    case 4: *one = (int32_t)next(); break;
    case 5: c.minute = next() % 2 ? moved(c.minute, p->rows[2]) : (int32_t)next();
    }
    return c;
}

// One correction after another by each on the same sheet, in the end anew on the sheet itself or on it with a few words changed: how often the answers or any byte
// differ, or an accepted correction of a sheet that passes leaves one that does not.
static int corrections_differ(const uint8_t *sheet, size_t length, const places *p, int seen[19]) {
    static uint8_t ours[ROOM], plain[ROOM];
    int differ = 0, passes = 0;
    for (int k = 0; k < CORRECTED; k++) {
        if (k % 64 == 0) {
            memcpy(ours, sheet, length);
            if (next() % 4 == 0) change(ours, next() % 2 ? 76 : length);
            memcpy(plain, ours, length);
            passes = plain_check(ours, length).number == 0;
        }
        correction c = any_correction(ours, p);
        size_t given = some_length(length);
        uint32_t a = bannerscale_correct(ours, given, c.minute, c.y0, c.h, c.v, c.a), b = plain_correct(plain, given, c.minute, c.y0, c.h, c.v, c.a);
        seen[b]++;
        differ += a != b || memcmp(ours, plain, ROOM) != 0 || (passes && bannerscale_check(ours, length).number != 0);
    }
    return differ;
}

// The row in the middle, back and forth between its figures and others.
static double time_correct(correct *f, uint8_t *sheet, size_t length, const correction c[2]) {
    volatile uint32_t sum = 0;
    double from = now();
    for (int k = 0; k < CORRECTIONS; k++) sum += f(sheet, length, c[k % 2].minute, c[k % 2].y0, c[k % 2].h, c[k % 2].v, c[k % 2].a);
    double spent = (now() - from) / CORRECTIONS;
    if (sum) fprintf(stderr, "a correction was refused\n"), exit(1);
    return spent;
}

static int corrections(const char *file, const uint8_t *sheet, size_t length) {
    static uint8_t ours[ROOM], plain[ROOM];
    places p = plain_places(sheet);
    int seen[19] = {0}, differ = corrections_differ(sheet, length, &p, seen);
    correction old = as_it_is(sheet, p.start[2] + 8 * (p.rows[2] / 2)), new = {old.minute, old.y0 + 70, old.h - 5, old.v + 3, old.a + 1}, both[2] = {new, old};
    memcpy(ours, sheet, length), memcpy(plain, sheet, length);
    times t;
    for (int k = 0; k < TURNS; k++) t.ours[k] = time_correct(bannerscale_correct, ours, length, both), t.plain[k] = time_correct(plain_correct, plain, length, both);
    differ += memcmp(ours, sheet, length) != 0 || memcmp(plain, sheet, length) != 0;
    say_times("correction", file, "call", &t, CORRECTION_GOAL);
    printf("%d of %d corrections answered or written differently (by number", differ, CORRECTED);
    for (int n = 0, first = 1; n < 19; n++)
        if (seen[n]) printf("%s %d: %d", first ? "" : ",", n, seen[n]), first = 0;
    printf(")\n");
    return differ;
}

static int conversions(const char *file, const uint8_t *sheet, size_t length) {
    static int32_t earth[2 * POINTS], flat[2 * POINTS], scaled[2 * POINTS];
    places p = plain_places(sheet);
    spread(sheet, &p, earth, flat, scaled);
    return compare("forward", file, bannerscale_forward, plain_forward_all, sheet, length, earth)
         + compare("inverse", file, bannerscale_inverse, plain_inverse_all, sheet, length, flat)
         + compare("convergence", file, bannerscale_convergence, plain_convergence_all, sheet, length, scaled)
         + compare("convergence, inverse's points", file, bannerscale_convergence, plain_convergence_all, sheet, length, flat)
         + batches(file, sheet, length, earth);
}

// The check: the sheet itself, then changed ones; then the sheet, timed.
static int checks(const char *file, const uint8_t *sheet, size_t length) {
    int seen[10] = {0}, differ = !same(bannerscale_check(sheet, length), plain_check(sheet, length)) + differences(sheet, length, seen);
    times t;
    for (int k = 0; k < TURNS; k++) t.ours[k] = time_check(bannerscale_check, sheet, length), t.plain[k] = time_check(plain_check, sheet, length);
    say_times("check", file, "call", &t, GOAL);
    printf("%d of %d sheets answered differently (by number", differ, CHANGED + 1);
    for (int n = 0, first = 1; n < 10; n++)
        if (seen[n]) printf("%s %d: %d", first ? "" : ",", n, seen[n]), first = 0;
    printf(")\n");
    return differ;
}

int main(int count, char **names) {
    for (int k = 1; k < count; k++) {
        static uint8_t sheet[ROOM];
        FILE *file = fopen(names[k], "rb");
        if (!file) return perror(names[k]), 1;
        size_t length = fread(sheet, 1, sizeof sheet, file);
        fclose(file);
        if (checks(names[k], sheet, length) + conversions(names[k], sheet, length) + corrections(names[k], sheet, length)) return 1;
    }
    return 0;
}
