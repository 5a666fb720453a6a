// The same rules in plain C. Latitude and west longitude are in 0.001″, x and y in 0.01 ft, the convergence in 0.1″ and the scale in 10⁻⁷.
#include <stdbool.h>
#include <stddef.h>
#include <stdint.h>

typedef struct {
    uint32_t number;
    size_t kind, row;
} verdict;

verdict plain_check(const uint8_t *sheet, size_t length);

// New figures of the minute's latitude row: 0 where they are written, with the differences that they move; else a refusal number, and the sheet stays as it was.
uint32_t plain_correct(uint8_t *sheet, size_t length, int32_t minute, int32_t y0, int32_t h, int32_t v, int32_t a);

// Each kind's first word and its rows, worked once a sheet. It and the conversions are for a sheet that passes the check.
typedef struct {
    uint32_t start[7], rows[7];
} places;

// A conversion's answer. half: some rounding on the way to it had an exact value halfway between two whole numbers.
typedef struct {
    uint32_t number;
    int32_t x, y;
    bool half;
} plane;

typedef struct {
    uint32_t number;
    int32_t latitude, longitude;
    bool half;
} geographic;

typedef struct {
    uint32_t number;
    int32_t convergence, scale;
    bool half;
} grid;

places plain_places(const uint8_t *sheet);
plane plain_forward(const uint8_t *sheet, const places *p, int32_t latitude, int32_t longitude);
geographic plain_inverse(const uint8_t *sheet, const places *p, int32_t x, int32_t y);
grid plain_convergence(const uint8_t *sheet, const places *p, int32_t x, int32_t y);

// The greatest of each value over many points, which are pairs of numbers, on one sheet, which is checked once, and whether an odd number of them met a half. Zeros where it fails.
typedef struct {
    int32_t first, second;
    bool odd;
} greatest;

greatest plain_forward_all(const uint8_t *sheet, size_t length, const int32_t *points, size_t numbers);
greatest plain_inverse_all(const uint8_t *sheet, size_t length, const int32_t *points, size_t numbers);
greatest plain_convergence_all(const uint8_t *sheet, size_t length, const int32_t *points, size_t numbers);

// A batch: pairs of latitude and longitude, and three words a point in the answers: number, x, y. It answers 17, the check's number, or 0 and how many points have number 0.
typedef struct {
    uint32_t number, count;
} counted;

counted plain_batch(const uint8_t *sheet, size_t length, const int32_t *points, size_t numbers, int32_t *answers, size_t room);
