// A table of stations on the plane: table SHEET STATIONS. A line of the stations' file is a name, then latitude and west longitude, each in degrees, minutes and seconds with
// three decimals. The sheet is checked, the stations are converted in batches, and for each x and y the convergence and the scale are asked for.
#include "bannerscale.h"

#include <stdio.h>
#include <stdlib.h>

enum { MOST_NAME = 31, READ_BYTES = BANNERSCALE_MOST_SHEET_BYTES + 1 };

typedef struct {
    char name[MOST_NAME + 1];
    int32_t latitude, longitude;
} station;

// The file's bytes; one more than a sheet may have are enough to see that it is too long. False where it cannot be read.
static bool read_sheet(const char *name, uint8_t *sheet, size_t *bytes) {
    FILE *file = fopen(name, "rb");
    if (!file) return false;
    *bytes = fread(sheet, 1, READ_BYTES, file);
    bool read = !ferror(file);
    fclose(file);
    return read;
}

// Seconds as text, two digits, a point and three digits, in thousandths; -1 where the text is another.
static int32_t thousandths(const char *seconds) {
    int32_t count = 0;
    for (int k = 0; k < 6; k++) {
        if (k == 2 ? seconds[k] != '.' : seconds[k] < '0' || seconds[k] > '9') return -1;
        if (k != 2) count = 10 * count + (seconds[k] - '0');
    }
    return seconds[6] == '\0' ? count : -1;
}

// Degrees up to 180, minutes and seconds in thousandths of a second. False where they are no such angle.
static bool angle(int degrees, int minutes, const char *seconds, int32_t *count) {
    int32_t part = thousandths(seconds), minute = 60 * BANNERSCALE_COUNTS_A_SECOND;
    if (degrees < 0 || degrees > 180 || minutes < 0 || minutes > 59 || part < 0 || part >= minute) return false;
    *count = (degrees * 60 + minutes) * minute + part;
    return true;
}

static bool read_station(const char *line, station *s) {
    int degrees[2], minutes[2], end = 0;
    char seconds[2][8];
    int read = sscanf(line, "%31s %d %d %7s %d %d %7s %n", s->name, &degrees[0], &minutes[0], seconds[0], &degrees[1], &minutes[1], seconds[1], &end);
    return read == 7 && line[end] == '\0' && angle(degrees[0], minutes[0], seconds[0], &s->latitude) && angle(degrees[1], minutes[1], seconds[1], &s->longitude);
}

// One line of the table: x and y in feet, the convergence in seconds, the scale.
static void print_row(const uint8_t *sheet, size_t bytes, const station *s, const int32_t answer[BANNERSCALE_ANSWER_WORDS_A_POINT]) {
    int32_t x = answer[1], y = answer[2];
    if (answer[0] != BANNERSCALE_ACCEPTED) {
        printf("%-10s refused: %d\n", s->name, (int)answer[0]);
        return;
    }
    printf("%-10s %12.2f %12.2f", s->name, bannerscale_feet(x), bannerscale_feet(y));
    bannerscale_grid_answer grid = bannerscale_convergence_and_scale(sheet, bytes, x, y);
    if (grid.number != BANNERSCALE_ACCEPTED) {
        printf("   refused: %d\n", (int)grid.number);
        return;
    }
    printf(" %10.1f %11.7f\n", (double)grid.convergence / BANNERSCALE_CONVERGENCE_COUNTS_A_SECOND, (double)grid.scale / BANNERSCALE_SCALE_COUNTS);
}

// Converts the stations as one batch and prints them.
static bool print_batch(const uint8_t *sheet, size_t bytes, const station *stations, size_t count) {
    static int32_t points[BANNERSCALE_MOST_BATCH_POINTS * BANNERSCALE_BATCH_WORDS_A_POINT], answers[BANNERSCALE_MOST_BATCH_POINTS * BANNERSCALE_ANSWER_WORDS_A_POINT];
    for (size_t k = 0; k < count; k++) points[2 * k] = stations[k].latitude, points[2 * k + 1] = stations[k].longitude;
    bannerscale_batch_answer batch = bannerscale_batch(sheet, bytes, points, 2 * count, answers, 3 * count);
    if (batch.number != BANNERSCALE_ACCEPTED) {
        fprintf(stderr, "the batch is refused: %u\n", (unsigned)batch.number);
        return false;
    }
    for (size_t k = 0; k < count; k++) print_row(sheet, bytes, &stations[k], answers + 3 * k);
    return true;
}

// Reads the stations and prints them, a batch at a time.
static bool print_table(const uint8_t *sheet, size_t bytes, FILE *file) {
    static station stations[BANNERSCALE_MOST_BATCH_POINTS];
    char line[256];
    size_t count = 0;
    printf("%-10s %12s %12s %10s %11s\n", "station", "x, feet", "y, feet", "conv., sec", "scale");
    for (long number = 1; fgets(line, sizeof line, file); number++) {
        if (!read_station(line, &stations[count])) {
            fprintf(stderr, "line %ld is not a station\n", number);
            return false;
        }
        if (++count < BANNERSCALE_MOST_BATCH_POINTS) continue;
        if (!print_batch(sheet, bytes, stations, count)) return false;
        count = 0;
    }
    return !ferror(file) && print_batch(sheet, bytes, stations, count);
}

int main(int count, char **arguments) {
    static uint8_t sheet[READ_BYTES];
    size_t bytes;
    if (count != 3) return fprintf(stderr, "usage: table SHEET STATIONS\n"), EXIT_FAILURE;
    if (!read_sheet(arguments[1], sheet, &bytes)) return perror(arguments[1]), EXIT_FAILURE;
    bannerscale_check_answer check = bannerscale_check(sheet, bytes);
    if (check.number != BANNERSCALE_ACCEPTED) {
        printf("the sheet is refused: number %u, kind %zu, row %zu\n", (unsigned)check.number, check.kind, check.row);
        return EXIT_FAILURE;
    }
    FILE *file = fopen(arguments[2], "r");
    if (!file) return perror(arguments[2]), EXIT_FAILURE;
    bool printed = print_table(sheet, bytes, file);
    fclose(file);
    return printed ? EXIT_SUCCESS : EXIT_FAILURE;
}
