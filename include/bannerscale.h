/* Bannerscale: zone sheets of the 1927 state plane system, checked, and survey points converted with them by the Coast and Geodetic Survey's printed steps.
 *
 * Every function accepts any bytes as a sheet and any numbers as a point, and its answer is proved to be the defined one. A refused call gives the number of the first
 * fault and writes nothing; within a batch, a refused point gets its number and zeros. The functions keep no state, call nothing of the system, allocate nothing and may run in any thread at once.
 *
 * Memory. A sheet, points and answers are lent for the call: a pointer and how many elements it reaches. The pointer has to reach that many, the elements have to be
 * initialised and aligned as their type asks. Memory that a function writes must overlap no other that is lent to the same call, nor be used by another thread meanwhile. A null pointer
 * with length 0 is an empty slice; a null pointer with another length is not allowed.
 *
 * Version. BANNERSCALE_VERSION is the number of what is declared here: build a program and its library from headers of the same number. 2: the answers of the conversions and of the
 * door end in `half`. The header before it had no number, and counts as 1.
 *
 * Units. Points are signed 32-bit counts: latitude and west longitude in thousandths of a second, x and y in hundredths of a foot. West longitude is positive. */
#ifndef BANNERSCALE_H
#define BANNERSCALE_H

#include <stdbool.h>
#include <stddef.h>
#include <stdint.h>

#define BANNERSCALE_VERSION 2

#ifdef __cplusplus
extern "C" {
#endif

/* ---- units: how many counts make one */
enum {
    BANNERSCALE_COUNTS_A_SECOND = 1000,            /* latitude, longitude */
    BANNERSCALE_COUNTS_A_FOOT = 100,               /* x, y, y0 */
    BANNERSCALE_CONVERGENCE_COUNTS_A_SECOND = 10,  /* convergence */
    BANNERSCALE_SCALE_COUNTS = 10000000            /* the scale 1.0000000 */
};

/* ---- sizes */
enum {
    BANNERSCALE_MOST_SHEET_BYTES = 65532,
    BANNERSCALE_MOST_BATCH_POINTS = 4096,
    BANNERSCALE_BATCH_WORDS_A_POINT = 2,   /* given: latitude, longitude */
    BANNERSCALE_ANSWER_WORDS_A_POINT = 3   /* written: number, x, y */
};

/* ---- refusal numbers */
enum {
    BANNERSCALE_ACCEPTED = 0,
    BANNERSCALE_SHEET_LENGTH = 1,      /* under 76 bytes, over 65,532, or not a multiple of 4 */
    BANNERSCALE_SHEET_KIND = 2,        /* word 0 is not 6, or a kind is not 1 to 6 */
    BANNERSCALE_KIND_AGAIN = 3,        /* an earlier entry names the kind */
    BANNERSCALE_ROWS = 4,              /* rows outside the kind's limits */
    BANNERSCALE_BODY_START = 5,        /* a body starts at a wrong word, or the bodies' end is not the sheet's */
    BANNERSCALE_FIGURE = 6,            /* a figure outside its range; in a correction a new figure */
    BANNERSCALE_MINUTE = 7,            /* the next minute is not one more */
    BANNERSCALE_BOUND = 8,             /* a row difference outside its bounds; in a correction with either neighbour */
    BANNERSCALE_DIFFERENCE = 9,        /* a printed difference is not what the rows give, or not 0 in the last row */
    BANNERSCALE_LATITUDE = 10,         /* latitude below the first or above the last row */
    BANNERSCALE_LONGITUDE = 11,        /* longitude outside 0 to 648,000,000, or too far from the central meridian for the sheet */
    BANNERSCALE_EASTING = 12,          /* x too far from the central meridian for the sheet */
    BANNERSCALE_NORTHING = 13,         /* y below 0 or above the last row of kind 4 */
    BANNERSCALE_REDUCED_NORTHING = 14, /* reduced northing below the first or above the last y0 */
    BANNERSCALE_NOT_A_COUNT = 15,      /* a double that is not a whole number within -2,147,483,647 to 2,147,483,647 */
    BANNERSCALE_NO_ROW = 16,           /* no latitude row has the minute in the place that the first row's minute gives it */
    BANNERSCALE_ROOM = 17              /* an odd batch, over 4,096 points, or too little room for its answers */
};

/* ---- the check */

/* number 0: the sheet passes, and kind and row are 0. 1 to 9: the first fault. For 1 to 5 kind is 0 and row the entry's place in the contents, from 1 (0 for the length and
 * word 0, 7 for the end); for 6 to 9 kind is the body's, 1 to 6, and row its row, from 0. */
typedef struct {
    uint32_t number;
    size_t kind;
    size_t row;
} bannerscale_check_answer;

bannerscale_check_answer bannerscale_check(const uint8_t *sheet, size_t sheet_bytes);

/* ---- the conversions of one point
 * Each checks the sheet first and gives the check's number, 1 to 9, before its own. A refusal has its number, zeros and false. For many points on one sheet see the batch.
 *
 * half: some rounding on the way to the values met a half, its exact value being halfway between two whole numbers of its unit. The rules send a half away from zero, and one who
 * sends it elsewhere may get other values. Every rounding counts: each figure that is read between rows, and each step. */

/* x and y in 0.01 ft. */
typedef struct {
    uint32_t number;
    int32_t x;
    int32_t y;
    bool half;
} bannerscale_plane_answer;

/* Latitude and west longitude in 0.001 seconds to x and y. Its own refusals: 10, 11. */
bannerscale_plane_answer bannerscale_geographic_to_plane(const uint8_t *sheet, size_t sheet_bytes, int32_t latitude, int32_t longitude);

/* Latitude and west longitude in 0.001 seconds. */
typedef struct {
    uint32_t number;
    int32_t latitude;
    int32_t longitude;
    bool half;
} bannerscale_geographic_answer;

/* x and y in 0.01 ft to latitude and west longitude. Its own refusals: 12, 13, 14, 11. */
bannerscale_geographic_answer bannerscale_plane_to_geographic(const uint8_t *sheet, size_t sheet_bytes, int32_t x, int32_t y);

/* Convergence in 0.1 seconds, scale in 0.0000001. */
typedef struct {
    uint32_t number;
    int32_t convergence;
    int32_t scale;
    bool half;
} bannerscale_grid_answer;

/* x and y in 0.01 ft to convergence and scale. Its own refusals: 12, 13. */
bannerscale_grid_answer bannerscale_convergence_and_scale(const uint8_t *sheet, size_t sheet_bytes, int32_t x, int32_t y);

/* ---- corrections of one latitude row */

/* Gives the row of the minute (of latitude: 60 times the degrees, and the minutes) new y0 in 0.01 ft, H and V in 0.000001 and a in 0.001. Answers 0, and the sheet has the new
 * figures and the differences that they move, or 1 to 5, then 16, 6, 8, and the sheet stays as it was. It does not look at the whole sheet: on one that passes the check and
 * has a row of the minute, it accepts exactly the figures with which the sheet passes again. */
uint32_t bannerscale_correct(uint8_t *sheet, size_t sheet_bytes, int32_t minute, int32_t y0, int32_t h, int32_t v, int32_t a);

/* Whether an accepted correction of the minute's row may change a point's answer: false is a promise that it does not. A refusal, with the check's number or 16, has false and
 * promises nothing. Convergence and scale never change. */
typedef struct {
    uint32_t number;
    bool touched;
} bannerscale_touch_answer;

/* Of what bannerscale_geographic_to_plane answers there. */
bannerscale_touch_answer bannerscale_geographic_touched(const uint8_t *sheet, size_t sheet_bytes, int32_t minute, int32_t latitude, int32_t longitude);

/* Of what bannerscale_plane_to_geographic answers there. */
bannerscale_touch_answer bannerscale_plane_touched(const uint8_t *sheet, size_t sheet_bytes, int32_t minute, int32_t x, int32_t y);

/* ---- many points, the sheet checked once */

/* number 0, and how many of the points have number 0. 17, or the check's number: nothing is written, and the count is 0. */
typedef struct {
    uint32_t number;
    uint32_t count;
} bannerscale_batch_answer;

/* Geographic to plane for pairs of latitude and longitude: points has 2 words a point, answers gets 3, number, x, y, and may be longer, its tail stays. A
 * point that is refused has 10 or 11 and zeros there. Both lengths count words. 17 comes before the check's number. A batch tells no halves. */
bannerscale_batch_answer bannerscale_batch(const uint8_t *sheet, size_t sheet_bytes, const int32_t *points, size_t point_words, int32_t *answers, size_t answer_words);

/* ---- the drawing tools' door: the conversions over counts held in doubles
 * 15, where a double is no count, comes before the sheet is looked at; then the check's number, then the conversion's. -0 is 0. A refusal has its number, zeros and false. */

typedef struct {
    double first;
    double second;
} bannerscale_door_point;

typedef struct {
    uint32_t number;
    double first;
    double second;
    bool half;
} bannerscale_door_answer;

/* Latitude and longitude to x and y. */
bannerscale_door_answer bannerscale_door_geographic_to_plane(const uint8_t *sheet, size_t sheet_bytes, bannerscale_door_point point);

/* x and y to latitude and longitude. */
bannerscale_door_answer bannerscale_door_plane_to_geographic(const uint8_t *sheet, size_t sheet_bytes, bannerscale_door_point point);

/* x and y to convergence and scale. */
bannerscale_door_answer bannerscale_door_convergence_and_scale(const uint8_t *sheet, size_t sheet_bytes, bannerscale_door_point point);

/* A count of hundredths of a foot in feet: one division by 100, rounded once. */
double bannerscale_feet(int32_t count);

#ifdef __cplusplus
}
#endif

#endif
