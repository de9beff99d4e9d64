/* Murshogi: the calls of documents 01 and 02 for C. Link crates/murshogi/out/libmurshogi.a (`rt lib` in crates/murshogi);
 * of a C library it calls memcpy and memset alone.
 *
 * Each call returns 0, or the number of the refusal (1 to 11). What it is lent is written only where it returns 0;
 * a refused call leaves all as before, and a longer output keeps its tail. crates/murshogi/src/lib.rt has the contracts
 * (what stays in a lent array of doubles is proved up to the payload of a NaN; the runs of oracle/ compare every bit).
 *
 * A pointer with a length is to that many elements, limits is to three. No pointer is null, each is aligned for its type,
 * and what a call may write overlaps nothing else that the call is lent; the sheet, limits and all else that is const is
 * only read. No heap is used, and nothing is kept between calls. The working space is on the stack: at most about 450,000
 * bytes for murshogi_list, 409,000 for murshogi_layout, 365,000 for murshogi_clutter, 364,000 for murshogi_route, 4,600
 * for murshogi_write_sheet, 4,300 for murshogi_check, 1,500 for murshogi_write_num and 1,200 for murshogi_label_size.
 */
#ifndef MURSHOGI_H
#define MURSHOGI_H

#include <stddef.h>
#include <stdint.h>

#ifdef __cplusplus
extern "C" {
#endif

/* Layout kinds. A kind is one byte: any other byte is refused by 11, but 256 arrives as 0 and is laid out as AUTO. */
enum { MURSHOGI_AUTO = 0, MURSHOGI_LAYERED = 1, MURSHOGI_CIRCULAR = 2 };

/* The f64 numbers of a record, and the most of each thing that a sheet holds: on the main screen states, arrows and lines
 * of an arrow; under any limits bytes of a line, bytes in all. */
enum {
    MURSHOGI_RECORD = 20,
    MURSHOGI_STATES = 64,
    MURSHOGI_ARROWS = 256,
    MURSHOGI_LINES = 8,
    MURSHOGI_LINE = 96,
    MURSHOGI_SHEET = 65536
};

/* Limits: the most states, arrows and lines of an arrow that a sheet may have, in this order. They may be any numbers, 0
 * and the largest included, and none is refused for itself: each above the main screen's counts as the main screen's. A
 * sheet with more states, more arrows or more lines of an arrow is refused by 5 where none of 11, 1, 2, 4 and 3 comes
 * first; so is one with a line of more than MURSHOGI_LINE bytes, under any limits. A sheet that is accepted under two is
 * drawn and written alike under both. */
static const size_t MURSHOGI_MAIN_SCREEN[3] = {MURSHOGI_STATES, MURSHOGI_ARROWS, MURSHOGI_LINES};
static const size_t MURSHOGI_SERVICE_PANEL[3] = {24, 64, 4};

/* The most bytes that path text and a listing can have, under any limits. A written number has at most 17 bytes, so a path
 * with its newline has at most 148 and the four lines of an arrow 397; the last line of a listing has at most 25, as its
 * first four numbers add up to 256 at most. */
enum {
    MURSHOGI_PATHS = 148 * MURSHOGI_ARROWS,
    MURSHOGI_LISTING = 41 + (45 + 125) * MURSHOGI_STATES + 397 * MURSHOGI_ARROWS + 25
};

/* Checks a sheet: 0 where it is accepted under the limits. */
uint8_t murshogi_check(const uint8_t *sheet, size_t sheet_len, const size_t limits[3]);

/* The size of a label block, given its text and the length of each line: size[0] the width, that of its widest line,
 * size[1] the height, 15 a line. An ASCII character is 0.6 * 12 wide, an accent (U+0300 to U+036F) 0, any other 12. Of
 * the limits the lines' alone counts: more lines are refused by 5, and so are, under any limits, a line of more than
 * MURSHOGI_LINE bytes and lengths that do not add up to text_len. */
uint8_t murshogi_label_size(const uint8_t *text, size_t text_len,
                            const size_t *lengths, size_t lines, const size_t limits[3],
                            double size[2]);

/* Lays out a sheet by kind: the centres in x and y, the drawing's width and height in size, the number of states. */
uint8_t murshogi_layout(const uint8_t *sheet, size_t sheet_len, const size_t limits[3], uint8_t kind,
                        double *x, size_t x_len, double *y, size_t y_len,
                        double size[2], size_t *states);

/* Routes a sheet at given centres: the records, and the path text, a line for each record. lengths[0] is the f64
 * numbers written, lengths[1] the bytes. Records never need more than MURSHOGI_RECORD * MURSHOGI_ARROWS numbers, path
 * text no more than MURSHOGI_PATHS bytes. Centres that are missing or not finite count as 0; where there are none, pass
 * a length of 0 and any pointer to a double. */
uint8_t murshogi_route(const uint8_t *sheet, size_t sheet_len, const size_t limits[3],
                       const double *x, size_t x_len, const double *y, size_t y_len,
                       double *records, size_t records_len,
                       uint8_t *text, size_t text_len,
                       size_t lengths[2]);

/* Counts the clutter of a sheet at given centres, missing ones as above. */
uint8_t murshogi_clutter(const uint8_t *sheet, size_t sheet_len, const size_t limits[3],
                         const double *x, size_t x_len, const double *y, size_t y_len,
                         size_t *count);

/* Writes a number, with at most two decimals, in at most 17 bytes: the bytes written in length. It takes no limits. */
uint8_t murshogi_write_num(double v, uint8_t *out, size_t out_len, size_t *length);

/* Lists a drawing, laid out by kind, in at most MURSHOGI_LISTING bytes: the bytes written in length. The last line is
 * `total` with the numbers of straight arrows, arcs, loops, left-out arrows and label lines (those of left-out arrows are
 * not counted); the first four add up to the sheet's arrows. */
uint8_t murshogi_list(const uint8_t *sheet, size_t sheet_len, const size_t limits[3], uint8_t kind,
                      uint8_t *out, size_t out_len, size_t *length);

/* Writes a sheet afresh, as the editor saves it: header, states in order, arrows in order, each followed by its lines
 * and each line by its text in pieces of 12 bytes (the last may be shorter, an empty line has none); the bytes written in
 * length. It means what the given sheet means, is accepted under the same limits, and is never longer than it, so
 * sheet_len bytes, and MURSHOGI_SHEET, are always enough. Sheets of equal meaning are written alike. */
uint8_t murshogi_write_sheet(const uint8_t *sheet, size_t sheet_len, const size_t limits[3],
                             uint8_t *out, size_t out_len, size_t *length);

#ifdef __cplusplus
}
#endif

#endif
