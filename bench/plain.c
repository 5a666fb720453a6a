// The check, the conversions and the correction in plain C: the same rules in the same order, with no proofs. They stand beside the library as the measure of its speed.
#include "plain.h"

static int32_t word(const uint8_t *s, size_t i) {
    const uint8_t *p = s + 4 * i;
    return (int32_t)((uint32_t)p[0] << 24 | (uint32_t)p[1] << 16 | (uint32_t)p[2] << 8 | p[3]);
}

static int within(int64_t least, int64_t x, int64_t most) { return least <= x && x <= most; }

// n/d to the nearest, a half away from zero.
static int64_t nearest(int64_t n, int64_t d) { return (n + (n < 0 ? -d / 2 : d / 2)) / d; }

static const uint32_t WIDTH[7] = {0, 2, 8, 2, 2, 1, 1};
static const uint32_t LEAST[7] = {0, 1, 2, 2, 2, 2, 2};
static const uint32_t MOST[7] = {0, 1, 1200, 61, 100, 10, 200};

static verdict found(uint32_t number, size_t kind, size_t row) {
    verdict v = {number, kind, row};
    return v;
}

static uint32_t latitude_row(const uint8_t *b, size_t n, size_t i) {
    int64_t minute = word(b, 8 * i), y0 = word(b, 8 * i + 1), dy = word(b, 8 * i + 2), h = word(b, 8 * i + 3);
    int64_t dh = word(b, 8 * i + 4), v = word(b, 8 * i + 5), dv = word(b, 8 * i + 6), a = word(b, 8 * i + 7);
    if (!within(0, minute, 5400) || !within(0, y0, 999999999) || !within(30000000, h, 102000000) || !within(0, v, 1400000) ||
        !within(-2000, a, 2000))
        return 6;
    if (i + 1 == n) return dy || dh || dv ? 9 : 0;
    int64_t next = word(b, 8 * i + 8), y0n = word(b, 8 * i + 9), hn = word(b, 8 * i + 11), vn = word(b, 8 * i + 13), an = word(b, 8 * i + 15);
    if (next != minute + 1) return 7;
    if (!within(600000, y0n - y0, 615000) || !within(1, h - hn, 50000) || !within(-1000, vn - v, 1000) || !within(-10, an - a, 10)) return 8;
    // 60 times the nearest lies within 30; it lies whole twenties away, so no other does
    if (!within(-30, 60 * dy - 1000 * (y0n - y0), 30) || !within(-30, 60 * dh - 100 * (h - hn), 30) || !within(-30, 60 * dv - 100 * (vn - v), 30)) return 9;
    return 0;
}

static uint32_t row_fault(size_t kind, const uint8_t *b, size_t n, size_t i) {
    int64_t x, y;
    switch (kind) {
    case 1:
        return within(6000000, word(b, 2 * i), 642000000) && within(0, word(b, 2 * i + 1), 100000000) ? 0 : 6;
    case 2:
        return latitude_row(b, n, i);
    case 3:
        x = word(b, 2 * i), y = word(b, 2 * i + 1);
        if (!within(-20000, x, 20000) || !within(-2000, y, 2000) || (i == 0 && (x || y))) return 6;
        return i + 1 < n && !within(-1000, word(b, 2 * i + 2) - x, 1000) ? 8 : 0;
    case 4:
        return within(0, word(b, 2 * i), 1000000) && within(0, word(b, 2 * i + 1), 1000000) ? 0 : 6;
    case 5:
        x = word(b, i);
        return within(-100, x, 100) && !(i == 0 && x) ? 0 : 6;
    default:
        return within(9990000, word(b, i), 10010000) ? 0 : 6;
    }
}

// Numbers 1 to 5, and where each kind's body starts and its rows. Inlined: the check and the correction each hold it.
__attribute__((always_inline)) static inline verdict contents(const uint8_t *s, size_t length, size_t start[7], size_t rows[7]) {
    size_t due = 19;
    if (length < 76 || length > 65532 || length % 4) return found(1, 0, 0);
    if (word(s, 0) != 6) return found(2, 0, 0);
    for (size_t e = 0; e < 6; e++) {
        int32_t kind = word(s, 3 * e + 1), n = word(s, 3 * e + 3);
        if (kind < 1 || kind > 6) return found(2, 0, e + 1);
        if (rows[kind]) return found(3, 0, e + 1);
        if (n < (int32_t)LEAST[kind] || n > (int32_t)MOST[kind]) return found(4, 0, e + 1);
        if (word(s, 3 * e + 2) != (int32_t)due) return found(5, 0, e + 1);
        start[kind] = due, rows[kind] = n;
        due += n * WIDTH[kind];
    }
    if (4 * due != length) return found(5, 0, 7);
    return found(0, 0, 0);
}

verdict plain_check(const uint8_t *s, size_t length) {
    size_t start[7] = {0}, rows[7] = {0};
    verdict c = contents(s, length, start, rows);
    if (c.number) return c;
    for (size_t kind = 1; kind <= 6; kind++)
        for (size_t i = 0; i < rows[kind]; i++) {
            uint32_t number = row_fault(kind, s + 4 * start[kind], rows[kind], i);
            if (number) return found(number, kind, i);
        }
    return found(0, 0, 0);
}

// ---- the correction

typedef struct {
    int64_t y0, h, v, a;
} figures;

static figures figures_at(const uint8_t *b, size_t i) { return (figures){word(b, 8 * i + 1), word(b, 8 * i + 3), word(b, 8 * i + 5), word(b, 8 * i + 7)}; }

static int in_ranges(figures f) { return within(0, f.y0, 999999999) && within(30000000, f.h, 102000000) && within(0, f.v, 1400000) && within(-2000, f.a, 2000); }

static int bounded(figures f, figures next) {
    return within(600000, next.y0 - f.y0, 615000) && within(1, f.h - next.h, 50000) && within(-1000, next.v - f.v, 1000) && within(-10, next.a - f.a, 10);
}

static void put_word(uint8_t *s, size_t i, int32_t value) {
    uint8_t *p = s + 4 * i;
    uint32_t n = (uint32_t)value;
    p[0] = n >> 24, p[1] = n >> 16, p[2] = n >> 8, p[3] = n;
}

static void put_differences(uint8_t *b, size_t i, int64_t y, int64_t h, int64_t v) { put_word(b, 8 * i + 2, y), put_word(b, 8 * i + 4, h), put_word(b, 8 * i + 6, v); }

// Row i's differences to the next row, whose figures are given.
static void rework(uint8_t *b, size_t i, figures f, figures next) {
    put_differences(b, i, nearest(1000 * (next.y0 - f.y0), 60), nearest(100 * (f.h - next.h), 60), nearest(100 * (next.v - f.v), 60));
}

uint32_t plain_correct(uint8_t *s, size_t length, int32_t minute, int32_t y0, int32_t h, int32_t v, int32_t a) {
    size_t start[7] = {0}, rows[7] = {0};
    uint32_t number = contents(s, length, start, rows).number;
    if (number) return number;
    uint8_t *b = s + 4 * start[2];
    int64_t n = rows[2], r = (int64_t)minute - word(b, 0);
    if (!within(0, r, n - 1) || word(b, 8 * r) != minute) return 16;
    figures f = {y0, h, v, a}, before = {0}, after = {0};
    if (!in_ranges(f)) return 6;
    if (r > 0 && (before = figures_at(b, r - 1), !bounded(before, f))) return 8;
    if (r + 1 < n && (after = figures_at(b, r + 1), !bounded(f, after))) return 8;
    put_word(b, 8 * r + 1, y0), put_word(b, 8 * r + 3, h), put_word(b, 8 * r + 5, v), put_word(b, 8 * r + 7, a);
    if (r + 1 < n) rework(b, r, f, after);
    else put_differences(b, r, 0, 0, 0);
    if (r > 0) rework(b, r - 1, before, f);
    return 0;
}

// Each table's step, in the unit of what it is read at: 0.001″, 0.001″, 1″ (for the approximate L) and 0.01 ft.
enum { MINUTE = 60000, LONGITUDE = 100000, LONGITUDE_SECONDS = 100, NORTHING = 10000000, EASTING = 5000000, SCALE = 500000 };

places plain_places(const uint8_t *s) {
    places p = {0};
    for (size_t e = 0; e < 6; e++) {
        int32_t kind = word(s, 3 * e + 1);
        p.start[kind] = word(s, 3 * e + 2), p.rows[kind] = word(s, 3 * e + 3);
    }
    return p;
}

static const uint8_t *body(const uint8_t *s, const places *p, size_t kind) { return s + 4 * p->start[kind]; }

// How far from row 0 the last row lies.
static int64_t reach(const places *p, size_t kind, int64_t step) { return (p->rows[kind] - 1) * step; }

// n/d to the nearest, for n not below 0; *half becomes true where n/d is a half. Then d is even and n + d/2 a multiple of it, so that no second division is worked.
static int64_t rounded_size(uint64_t n, uint64_t d, bool *half) {
    uint64_t t = n + d / 2, q = t / d;
    *half |= q * d == t && d % 2 == 0;
    return q;
}

// The same for any n, a half away from zero.
static int64_t rounded(int64_t n, int64_t d, bool *half) {
    int64_t size = rounded_size(n < 0 ? -n : n, d, half);
    return n < 0 ? -size : size;
}

// Two rows next to each other, and how far beyond the first an offset lies. The last row is the second of its two, a whole step beyond the first.
typedef struct {
    const uint8_t *row;
    int64_t t;
} pair;

static pair pair_at(const uint8_t *s, const places *p, size_t kind, uint32_t offset, uint32_t step) {
    uint32_t row = offset / step, most = p->rows[kind] - 2;
    if (row > most) row = most;
    pair r = {body(s, p, kind) + 4 * WIDTH[kind] * row, offset - row * step};
    return r;
}

// A column's value there; width is the words in a row.
static int64_t between(pair r, size_t width, size_t column, int64_t step, bool *half) {
    int64_t u = word(r.row, column), w = word(r.row, width + column);
    return rounded(u * step + (w - u) * r.t, step, half);
}

// The same for a column that is never below 0.
static int64_t size_between(pair r, size_t width, size_t column, int64_t step, bool *half) {
    int64_t u = word(r.row, column), w = word(r.row, width + column);
    return rounded_size(u * step + (w - u) * r.t, step, half);
}

plane plain_forward(const uint8_t *s, const places *p, int32_t latitude, int32_t longitude) {
    bool half = false;
    int64_t north = latitude - (int64_t)MINUTE * word(body(s, p, 2), 0);
    if (!within(0, north, reach(p, 2, MINUTE))) return (plane){10, 0, 0, false};
    int64_t l = word(body(s, p, 1), 0) - (int64_t)longitude, size = l < 0 ? -l : l;
    if (!within(0, longitude, 648000000) || size > reach(p, 3, LONGITUDE)) return (plane){11, 0, 0, false};
    pair r = pair_at(s, p, 2, north, MINUTE), e = pair_at(s, p, 3, size, LONGITUDE);
    int64_t y0 = size_between(r, 8, 1, MINUTE, &half), h = size_between(r, 8, 3, MINUTE, &half), v = size_between(r, 8, 5, MINUTE, &half), a = between(r, 8, 7, MINUTE, &half);
    int64_t b = between(e, 2, 0, LONGITUDE, &half), c = between(e, 2, 1, LONGITUDE, &half);
    int64_t q = rounded_size(size * size, 10000000, &half);
    int64_t x = rounded_size(h * size + 1000 * a * b, 10000000, &half);
    int64_t rise = rounded(v * q + 1000000 * c, 10000000, &half);
    return (plane){0, word(body(s, p, 1), 1) + (l < 0 ? -x : x), y0 + rise, half};
}

// P(x'/10,000)² + d to the nearest hundredth. It is n/10¹⁵ with n past 64 bits; 10¹⁵ is 2¹⁵·5¹⁵, so that a shift comes first and 64 bits are enough.
static int64_t reduction(int64_t p, int64_t size, int64_t d, bool *half) {
    const int64_t ONE = 1000000000000000, FIVES = 30517578125;
    __int128 n = (__int128)(size * size) * p + (__int128)d * ONE;
    if (n < 0) return -rounded_size(-n, ONE, half);
    uint64_t low = (uint64_t)n + ONE / 2, t = (n + ONE / 2) >> 15, q = t / FIVES;
    *half |= q * FIVES == t && low % 32768 == 0;
    return q;
}

// The last row with y0 not above the reduced northing, the last row of all left out. From row to row y0 rises by 600,000 to 615,000: the first look goes halfway between.
static size_t row_of(const uint8_t *b, size_t rows, int32_t reduced) {
    uint32_t row = (uint32_t)(reduced - word(b, 1)) / 607500;
    if (row > rows - 2) row = rows - 2;
    while (word(b, 8 * row + 1) > reduced) row--;
    while (row < rows - 2 && word(b, 8 * row + 9) <= reduced) row++;
    return row;
}

geographic plain_inverse(const uint8_t *s, const places *p, int32_t x, int32_t y) {
    bool half = false;
    int64_t x1 = x - (int64_t)word(body(s, p, 1), 1), size = x1 < 0 ? -x1 : x1;
    if (size > reach(p, 5, EASTING)) return (geographic){12, 0, 0, false};
    if (!within(0, y, reach(p, 4, NORTHING))) return (geographic){13, 0, 0, false};
    int64_t d = between(pair_at(s, p, 5, size, EASTING), 1, 0, EASTING, &half);
    int64_t reduced = y - reduction(size_between(pair_at(s, p, 4, y, NORTHING), 2, 0, NORTHING, &half), size, d, &half);
    const uint8_t *b2 = body(s, p, 2);
    size_t rows = p->rows[2];
    if (!within(word(b2, 1), reduced, word(b2, 8 * (rows - 1) + 1))) return (geographic){14, 0, 0, false};
    pair r = {b2 + 32 * row_of(b2, rows, reduced), 0};
    int64_t y0 = word(r.row, 1);
    // 60.000 seconds, or the last row, is the second of the two rows: a whole step.
    r.t = rounded_size(MINUTE * (reduced - y0), word(r.row, 9) - y0, &half);
    int64_t h = size_between(r, 8, 3, MINUTE, &half), a = between(r, 8, 7, MINUTE, &half);
    int64_t near = rounded_size(10000 * size, h, &half);
    if (near > reach(p, 3, LONGITUDE_SECONDS)) return (geographic){11, 0, 0, false};
    int64_t b = between(pair_at(s, p, 3, near, LONGITUDE_SECONDS), 2, 0, LONGITUDE_SECONDS, &half);
    int64_t l = rounded_size(1000 * (10000 * size - a * b), h, &half);
    if (l > reach(p, 3, LONGITUDE)) return (geographic){11, 0, 0, false};
    return (geographic){0, MINUTE * word(r.row, 0) + r.t, word(body(s, p, 1), 0) - (x1 < 0 ? -l : l), half};
}

grid plain_convergence(const uint8_t *s, const places *p, int32_t x, int32_t y) {
    bool half = false;
    int64_t x1 = x - (int64_t)word(body(s, p, 1), 1), size = x1 < 0 ? -x1 : x1;
    if (size > reach(p, 6, SCALE)) return (grid){12, 0, 0, false};
    if (!within(0, y, reach(p, 4, NORTHING))) return (grid){13, 0, 0, false};
    int64_t m = size_between(pair_at(s, p, 4, y, NORTHING), 2, 1, NORTHING, &half);
    int64_t turn = rounded_size(m * size, 100000000, &half);
    int64_t k = size_between(pair_at(s, p, 6, size, SCALE), 1, 0, SCALE, &half);
    return (grid){0, x1 < 0 ? -turn : turn, k, half};
}

// Over many points. The loops hold their conversion inlined, as the library's do.
static int32_t greater(int32_t a, int32_t b) { return a < b ? b : a; }

#define OVER(name, answer, one, two)                                                                                                                     \
    __attribute__((flatten)) static greatest over_##name(const uint8_t *sheet, const places *p, const int32_t *points, size_t numbers) {                 \
        greatest g = {0, 0, false};                                                                                                                      \
        for (size_t i = 0; i < numbers / 2; i++) {                                                                                                       \
            answer r = plain_##name(sheet, p, points[2 * i], points[2 * i + 1]);                                                                         \
            g.first = greater(g.first, r.one), g.second = greater(g.second, r.two), g.odd ^= r.half;                                                     \
        }                                                                                                                                                \
        return g;                                                                                                                                        \
    }                                                                                                                                                    \
    greatest plain_##name##_all(const uint8_t *sheet, size_t length, const int32_t *points, size_t numbers) {                                            \
        if (plain_check(sheet, length).number) return (greatest){0, 0, false};                                                                           \
        places p = plain_places(sheet);                                                                                                                  \
        return over_##name(sheet, &p, points, numbers);                                                                                                  \
    }
OVER(forward, plane, x, y)
OVER(inverse, geographic, latitude, longitude)
OVER(convergence, grid, convergence, scale)

// The batch: its loop too holds the conversion inlined.
__attribute__((flatten)) static uint32_t answer_all(const uint8_t *restrict sheet, const places *p, const int32_t *restrict points, size_t count, int32_t *restrict answers) {
    uint32_t answered = 0;
    for (size_t i = 0; i < count; i++) {
        plane r = plain_forward(sheet, p, points[2 * i], points[2 * i + 1]);
        answers[3 * i] = r.number, answers[3 * i + 1] = r.x, answers[3 * i + 2] = r.y;
        answered += r.number == 0;
    }
    return answered;
}

counted plain_batch(const uint8_t *sheet, size_t length, const int32_t *points, size_t numbers, int32_t *answers, size_t room) {
    size_t count = numbers / 2;
    if (numbers % 2 || count > 4096 || room < 3 * count) return (counted){17, 0};
    uint32_t number = plain_check(sheet, length).number;
    if (number) return (counted){number, 0};
    places p = plain_places(sheet);
    return (counted){0, answer_all(sheet, &p, points, count, answers)};
}
