/* Dofnihet: high-dynamic-range pages stored as strips, tallied, and mapped to 24-bit levels.
 *
 * Link with libdofnihet.a, which `tools/build library` leaves to target/staticlib/. What each call answers is proved for every input; the
 * contracts stand in crates/dofnihet/src.
 *
 * Every slice is a pointer and the number of its elements. The pointer is never NULL, not even where the number is 0, and is aligned for
 * its element. The slices of one call must not overlap. Sources, strips and bands are only read; an output is written only where the call
 * accepts, and then only in its front. No call keeps a pointer, allocates, or changes anything else, so calls on different memory may run
 * at once.
 *
 * A page may have a white point, the scaled luminance from which on a grey is white, level 255; it is told in tenths. Its strip carries it
 * as third word and is one word longer.
 *
 * Bands are strips of one width, one key and one white point or none, one behind another in one slice, nothing between or behind them:
 * whole rows of one tall page, the top band first. Each size word, with the white word if there is one, tells where the next band begins;
 * words left over are checked as a band. One strip is one band. Calls on bands answer for the tall page, however it is cut.
 *
 * `number` is 0 where a call accepts; `place` is 0 then. A refusal has a number and a place: the index of the offending element or word for
 * 5 to 8, else 0. In bands a word's index counts from the slice's first word.
 *
 *     1  bad size        width or height 0 or above 8192, or more than 16777216 pixels
 *     2  bad key         key 0 or above 1000
 *     3  wrong length    source or strip not of its exact length; no band, or the last one cut short
 *     4  small tray      output shorter than the outcome
 *     5  no number       NaN or infinity
 *     6  too bright      channel above 2^56
 *     7  foreign word    kind, spare bits or end count wrong
 *     8  wild channel    neither (0,0) nor exponent 72..184 with mantissa 128..255
 *     9  dark page       16 times the number of lit pixels below the number of pixels; only tallying and mapping refuse it
 *    10  bad white       white point below 10 or above 1000 tenths
 *    20  no such row     row number not below the height
 *    21  unlike bands    width, key or white point unlike the first band's, or the bands together above the limits of 1
 *
 * Later versions add functions, and fields at the end of a struct; callers are then compiled anew.
 */
#ifndef DOFNIHET_H
#define DOFNIHET_H

#include <stddef.h>
#include <stdint.h>

#ifdef __cplusplus
extern "C" {
#endif

/* Largest width, height, number of pixels and key; smallest and largest white point, in tenths. */
#define DOFNIHET_MAX_SIDE 8192
#define DOFNIHET_MAX_PIXELS 16777216
#define DOFNIHET_MAX_KEY 1000
#define DOFNIHET_MIN_WHITE 10
#define DOFNIHET_MAX_WHITE 1000

/* Words of the strip of a page without a white point, and of one with a white point. */
#define DOFNIHET_STRIP_LENGTH(pixels) (3 * (size_t)(pixels) + 3)
#define DOFNIHET_STRIP_LENGTH_WHITE(pixels) (3 * (size_t)(pixels) + 4)

/* What a page is converted with. Where `white_present` is 0, it has no white point, and `white` is not looked at; any other number counts
 * as 1, and `white` is the white point in tenths: 0 is then a bad white.
 * Write it by its fields' names, in C (dofnihet_page){ .width = 2, .height = 1, .key = 180 } and, with a white point,
 * (dofnihet_page){ .width = 2, .height = 1, .key = 180, .white_present = 1, .white = 30 }: a field that a later version adds stands at the
 * end, and one that is not named is 0. */
typedef struct {
    uint64_t width;
    uint64_t height;
    uint64_t key;
    uint64_t white_present;
    uint64_t white;
} dofnihet_page;

typedef struct {
    uint64_t number;
    uint64_t place;
} dofnihet_outcome;

typedef struct {
    uint64_t number;
    uint64_t place;
    uint64_t width;
    uint64_t height;
    uint64_t key;
    uint64_t white_present;
    uint64_t white;
} dofnihet_header;

typedef struct {
    uint64_t number;
    uint64_t place;
    uint64_t start;
    uint64_t length;
} dofnihet_row;

typedef struct {
    uint64_t number;
    uint64_t place;
    uint64_t over;
    uint64_t red;
    uint64_t green;
    uint64_t blue;
} dofnihet_step;

typedef struct {
    uint64_t number;
    uint64_t place;
    uint64_t lit;
    int64_t sum;
    uint64_t present;
    int64_t average;
    uint64_t exponent;
    uint64_t mantissa;
    uint64_t darkest_exponent;
    uint64_t darkest_mantissa;
    uint64_t brightest_exponent;
    uint64_t brightest_mantissa;
} dofnihet_tally;

/* Converts a picture of RGBE pixels, four bytes R, G, B, e each, left to right, top row first.
 * The strip, DOFNIHET_STRIP_LENGTH(page.width * page.height) words or one more with a white point, is left in the output's front.
 * Refuses with 1, 2, 10, 3, 4, then the first byte that is too bright with 6. */
dofnihet_outcome dofnihet_convert_rgbe(const uint8_t *source, size_t source_len, dofnihet_page page, uint32_t *output, size_t output_len);

/* Converts a picture of IEEE 754 half floats, three bit patterns R, G, B a pixel; zero and negative numbers become black.
 * The strip, DOFNIHET_STRIP_LENGTH(page.width * page.height) words or one more with a white point, is left in the output's front.
 * Refuses with 1, 2, 10, 3, 4, then the first element that is no number with 5. */
dofnihet_outcome dofnihet_convert_half(const uint16_t *source, size_t source_len, dofnihet_page page, uint32_t *output, size_t output_len);

/* Converts a picture of IEEE 754 single floats, three bit patterns R, G, B a pixel; zero, negative and tiny numbers become black.
 * The strip, DOFNIHET_STRIP_LENGTH(page.width * page.height) words or one more with a white point, is left in the output's front.
 * Refuses with 1, 2, 10, 3, 4, then the first element that is no number with 5 or too bright with 6. */
dofnihet_outcome dofnihet_convert_single(const uint32_t *source, size_t source_len, dofnihet_page page, uint32_t *output, size_t output_len);

/* Converts a picture of stored channels, 256 * exponent + mantissa each or 0 for black, three a pixel: what dofnihet_unpack writes.
 * The strip, DOFNIHET_STRIP_LENGTH(page.width * page.height) words or one more with a white point, is left in the output's front.
 * Refuses with 1, 2, 10, 3, 4, then the first element that is no channel with 8. */
dofnihet_outcome dofnihet_convert_stored(const uint16_t *source, size_t source_len, dofnihet_page page, uint32_t *output, size_t output_len);

/* Checks a strip: every other call on a strip makes the same checks itself.
 * Accepts it, or tells the first fault.
 * Refuses with 3, 7, 1, 7, 2, 7, 10, 3 of its header and length, then the first word with 7 or 8, the end word last. */
dofnihet_outcome dofnihet_check(const uint32_t *strip, size_t strip_len);

/* Unpacks the channels of a strip, 256 * exponent + mantissa each or 0 for black, three a pixel.
 * They are left in the output's front, 3 * width * height elements.
 * Refuses as dofnihet_check does, with 4 between length and words. */
dofnihet_outcome dofnihet_unpack(const uint32_t *strip, size_t strip_len, uint16_t *output, size_t output_len);

/* Maps a strip to levels, red, green and blue of each pixel, left to right, top row first.
 * Levels are linear; for a screen see dofnihet_screen_table.
 * They are left in the output's front, 3 * width * height bytes.
 * Refuses as dofnihet_check does, with 4 between length and words, and with 9 last. */
dofnihet_outcome dofnihet_map(const uint32_t *strip, size_t strip_len, uint8_t *output, size_t output_len);

/* Reads back width, height, key and white point of a strip.
 * `white_present` tells whether the strip has a white point, 1 or 0; `white` is the white point in tenths, 0 where there is none. A refusal
 * has 0 in all five.
 * Refuses as dofnihet_check does. */
dofnihet_header dofnihet_header_of(const uint32_t *strip, size_t strip_len);

/* Finds row y of a strip, counted from 0 at the top: `length` words from index `start` of the strip on.
 * They are its red, green and blue words; a refusal has 0 in both.
 * Refuses as dofnihet_check does, with 20 between length and words. */
dofnihet_row dofnihet_row_of(const uint32_t *strip, size_t strip_len, uint64_t y);

/* Walks a strip pixel by pixel, left to right, top row first, and tells step n of the walk, counted from 0: pixel n while there is one.
 * `over` is 0 then, with its channels as dofnihet_unpack writes them; behind the last pixel it is 1, with 0 in all three. A refusal has 0
 * in all four, at every n. Each call walks from the start: dofnihet_unpack and dofnihet_row_of serve a whole page faster.
 * Refuses as dofnihet_check does. */
dofnihet_step dofnihet_step_of(const uint32_t *strip, size_t strip_len, uint64_t n);

/* Tallies a strip: number of lit pixels, sum of their steps, average in steps (256 to a doubling) and as stored number, and the smallest
 * and the largest, by worth, of the lit pixels' stored luminances. A stored number is worth (mantissa + 1/2) * 2^(exponent - 136).
 * A pixel's steps are 256 times the binary logarithm of its luminance's worth, to the nearest whole number; the average is their sum
 * divided by the number of lit pixels, rounded down. The true logarithm of the mean, in steps, lies at most half a step below it and less
 * than one and a half above.
 * `present` tells whether average, darkest and brightest are there. In an accepted tally it is 1, since a page that is not dark has a lit
 * pixel; a refusal has 0 in all ten.
 * Refuses as dofnihet_check does, with 9 last. */
dofnihet_tally dofnihet_tally_of(const uint32_t *strip, size_t strip_len);

/* Reads back width, key and white point of bands, and the height of all together.
 * The fields are as dofnihet_header_of has them.
 * Refuses with 3 where there is no band; then, band by band, as dofnihet_check does (3 for a band that the slice cuts short), with 21
 * behind each band's own checks. */
dofnihet_header dofnihet_header_of_bands(const uint32_t *bands, size_t bands_len);

/* Tallies bands: the tally of the tall page.
 * The fields are as dofnihet_tally_of has them.
 * Refuses as dofnihet_header_of_bands does, with 9 last: it is about the pixels of all bands. */
dofnihet_tally dofnihet_tally_of_bands(const uint32_t *bands, size_t bands_len);

/* Maps bands to levels, under the average of all: the levels of the tall page, linear as dofnihet_map's.
 * They are left in the output's front, three bytes for each pixel of all bands.
 * Refuses as dofnihet_tally_of_bands does, with 4 last. */
dofnihet_outcome dofnihet_map_bands(const uint32_t *bands, size_t bands_len, uint8_t *output, size_t output_len);

/* Writes what stands before the levels in a Netpbm P6 picture: "P6", width, height, "255".
 * The output has 50 bytes, enough for any two numbers.
 * Answers how many bytes of its front are the text's. */
uint64_t dofnihet_front_of(uint64_t width, uint64_t height, uint8_t output[50]);

/* Writes the sample of each level: output[v] is 255 times the transfer curve of ITU-R BT.709 at v / 255, to the nearest, halves up.
 * P6 samples follow that curve, as Netpbm says, while the levels that a call maps to are linear: for a screen each level is replaced by
 * its sample; an embosser gets the levels. */
void dofnihet_screen_table(uint8_t output[256]);

#ifdef __cplusplus
}
#endif

#endif
