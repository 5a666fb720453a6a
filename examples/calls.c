// Calls every function of the library for C and prints what it answers: calls SHEET, the case sheet (Hawaii's zone 3, latitudes 21°30′ to 21°50′). It is C11 and C++ alike.
#include "bannerscale.h"

#include <stdio.h>
#include <string.h>

static uint8_t sheet[BANNERSCALE_MOST_SHEET_BYTES + 1], before[sizeof sheet];
static size_t bytes;

static void check(const char *what, const uint8_t *s, size_t n) {
    bannerscale_check_answer r = bannerscale_check(s, n);
    printf("check, %s: %u %zu %zu\n", what, (unsigned)r.number, r.kind, r.row);
}

// What is printed of a mark.
static const char *mark(bool half) { return half ? " half" : ""; }

static void convert(const uint8_t *s, size_t n) {
    bannerscale_plane_answer p = bannerscale_geographic_to_plane(s, n, 77430000, 568250000);
    printf("geographic_to_plane: %u %d %d%s\n", (unsigned)p.number, (int)p.x, (int)p.y, mark(p.half));
    bannerscale_geographic_answer g = bannerscale_plane_to_geographic(s, n, 55193582, 12413141);
    printf("plane_to_geographic: %u %d %d%s\n", (unsigned)g.number, (int)g.latitude, (int)g.longitude, mark(g.half));
    for (int32_t y = 5000000; y <= 12413141; y += 7413141) {
        bannerscale_grid_answer k = bannerscale_convergence_and_scale(s, n, 51250000, y);
        printf("convergence_and_scale: %u %d %d%s\n", (unsigned)k.number, (int)k.convergence, (int)k.scale, mark(k.half));
    }
}

static size_t changed_bytes(void) {
    size_t count = 0;
    for (size_t k = 0; k < bytes; k++) count += sheet[k] != before[k];
    return count;
}

// A correction of 21°40′, minute 1,300: its number, how many bytes it changed, and the corrected sheet's check.
static void correct(int32_t minute, int32_t y0) {
    memcpy(before, sheet, bytes);
    uint32_t number = bannerscale_correct(sheet, bytes, minute, y0, 94326703, 844216, -981);
    printf("correct %d y0 %d: %u, bytes changed %zu\n", (int)minute, (int)y0, (unsigned)number, changed_bytes());
    check("after it", sheet, bytes);
    memcpy(sheet, before, bytes);
}

static void touched(int32_t minute) {
    for (int32_t latitude = 77940000; latitude <= 78060000; latitude += 30000) {
        bannerscale_touch_answer t = bannerscale_geographic_touched(sheet, bytes, minute, latitude, 568250000);
        printf("geographic_touched %d %d: %u %d\n", (int)minute, (int)latitude, (unsigned)t.number, (int)t.touched);
    }
    for (int32_t y = 17500000; y <= 19000000; y += 500000) {
        bannerscale_touch_answer t = bannerscale_plane_touched(sheet, bytes, minute, 50000000, y);
        printf("plane_touched %d %d: %u %d\n", (int)minute, (int)y, (unsigned)t.number, (int)t.touched);
    }
}

// Three points, the last outside the tables, into answers of ten words: what it answers, and all ten.
static void batch(size_t point_words, size_t answer_words) {
    static const int32_t points[6] = {77430000, 568250000, 77430000, 568800000, 77399999, 568800000};
    int32_t answers[10] = {-1, -1, -1, -1, -1, -1, -1, -1, -1, -1};
    bannerscale_batch_answer b = bannerscale_batch(sheet, bytes, points, point_words, answers, answer_words);
    printf("batch of %zu words into %zu: %u %u;", point_words, answer_words, (unsigned)b.number, (unsigned)b.count);
    for (int k = 0; k < 10; k++) printf(" %d", (int)answers[k]);
    printf("\n");
}

static void say_door(const char *name, bannerscale_door_answer a) { printf("door %s: %u %.1f %.1f%s\n", name, (unsigned)a.number, a.first, a.second, mark(a.half)); }

static void door(const uint8_t *s, size_t n) {
    bannerscale_door_point earth = {77430000.0, 568250000.0}, plane = {55193582.0, 12413141.0}, near_line = {51250000.0, 12413141.0}, no_count = {77430000.5, 568250000.0};
    say_door("geographic_to_plane", bannerscale_door_geographic_to_plane(s, n, earth));
    say_door("plane_to_geographic", bannerscale_door_plane_to_geographic(s, n, plane));
    say_door("convergence_and_scale", bannerscale_door_convergence_and_scale(s, n, near_line));
    say_door("geographic_to_plane, no count", bannerscale_door_geographic_to_plane(s, n, no_count));
}

// Null pointers with length 0: an empty sheet, an empty batch.
static void nothing(void) {
    printf("an empty sheet\n");
    check("null", NULL, 0);
    convert(NULL, 0);
    door(NULL, 0);
    printf("correct: %u\n", (unsigned)bannerscale_correct(NULL, 0, 1300, 18162100, 94326703, 844216, -981));
    printf("geographic_touched: %u\n", (unsigned)bannerscale_geographic_touched(NULL, 0, 1300, 78000000, 568250000).number);
    printf("plane_touched: %u\n", (unsigned)bannerscale_plane_touched(NULL, 0, 1300, 50000000, 18162100).number);
    bannerscale_batch_answer none = bannerscale_batch(sheet, bytes, NULL, 0, NULL, 0), both = bannerscale_batch(NULL, 0, NULL, 0, NULL, 0);
    printf("batch of no points: %u %u; of no sheet either: %u %u\n", (unsigned)none.number, (unsigned)none.count, (unsigned)both.number, (unsigned)both.count);
}

int main(int count, char **arguments) {
    FILE *file = count == 2 ? fopen(arguments[1], "rb") : NULL;
    if (!file) return fprintf(stderr, "usage: calls SHEET\n"), 1;
    bytes = fread(sheet, 1, sizeof sheet, file);
    fclose(file);
    check("the sheet", sheet, bytes);
    check("a byte short", sheet, bytes - 1);
    convert(sheet, bytes);
    correct(1300, 18162100);
    correct(1300, 18167500);
    correct(1400, 18162100);
    touched(1300);
    touched(1400);
    batch(6, 10);
    batch(6, 8);
    batch(5, 10);
    door(sheet, bytes);
    printf("feet: %.2f %.2f\n", bannerscale_feet(55193582), bannerscale_feet(-1));
    nothing();
    return 0;
}
