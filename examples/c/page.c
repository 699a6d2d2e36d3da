/* A page of four grey pixels, given as half floats: converted into a strip, tallied, mapped, one row of it found, and mapped again from
 * two bands. `tests/c_interface` builds and runs it. */
#include "dofnihet.h"

#include <inttypes.h>
#include <stdio.h>

enum { WIDTH = 2, HEIGHT = 2, PIXELS = WIDTH * HEIGHT, BAND_WORDS = DOFNIHET_STRIP_LENGTH(WIDTH) };

/* Greys 1.0 and 0.5 above, 0.5 and 1.0 below. */
static const uint16_t source[3 * PIXELS] = {
    0x3C00, 0x3C00, 0x3C00, 0x3800, 0x3800, 0x3800,
    0x3800, 0x3800, 0x3800, 0x3C00, 0x3C00, 0x3C00,
};

static int refused(const char *call, uint64_t number, uint64_t place)
{
    fprintf(stderr, "%s: refused %" PRIu64 " %" PRIu64 "\n", call, number, place);
    return 1;
}

/* The page shot as two bands of a row each, one behind the other: their levels are the page's. */
static int map_two_bands(void)
{
    uint32_t bands[HEIGHT * BAND_WORDS];
    dofnihet_page band = {.width = WIDTH, .height = 1, .key = 180};
    for (int y = 0; y < HEIGHT; y++) {
        dofnihet_outcome converted = dofnihet_convert_half(source + 3 * WIDTH * y, 3 * WIDTH, band, bands + BAND_WORDS * y, BAND_WORDS);
        if (converted.number != 0)
            return refused("convert", converted.number, converted.place);
    }
    uint8_t levels[3 * PIXELS];
    dofnihet_outcome mapped = dofnihet_map_bands(bands, HEIGHT * BAND_WORDS, levels, sizeof levels);
    if (mapped.number != 0)
        return refused("map bands", mapped.number, mapped.place);
    printf("levels of two bands: %d %d, %d %d\n", levels[0], levels[3], levels[6], levels[9]);
    return 0;
}

int main(void)
{
    uint32_t strip[DOFNIHET_STRIP_LENGTH(PIXELS)];
    size_t words = DOFNIHET_STRIP_LENGTH(PIXELS);
    dofnihet_page page = {.width = WIDTH, .height = HEIGHT, .key = 180};
    dofnihet_outcome converted = dofnihet_convert_half(source, 3 * PIXELS, page, strip, words);
    if (converted.number != 0)
        return refused("convert", converted.number, converted.place);

    dofnihet_tally tally = dofnihet_tally_of(strip, words);
    if (tally.number != 0)
        return refused("tally", tally.number, tally.place);
    printf("lit %" PRIu64 ", average %" PRId64 " steps, stored as (%" PRIu64 ",%" PRIu64 ")\n", tally.lit, tally.average, tally.exponent,
           tally.mantissa);
    printf("luminances from (%" PRIu64 ",%" PRIu64 ") to (%" PRIu64 ",%" PRIu64 ")\n", tally.darkest_exponent, tally.darkest_mantissa,
           tally.brightest_exponent, tally.brightest_mantissa);

    uint8_t levels[3 * PIXELS];
    dofnihet_outcome mapped = dofnihet_map(strip, words, levels, sizeof levels);
    if (mapped.number != 0)
        return refused("map", mapped.number, mapped.place);
    for (int y = 0; y < HEIGHT; y++)
        printf("levels of row %d: %d %d\n", y, levels[3 * WIDTH * y], levels[3 * (WIDTH * y + 1)]);

    dofnihet_row row = dofnihet_row_of(strip, words, 1);
    printf("row 1 is %" PRIu64 " words from word %" PRIu64 " on\n", row.length, row.start);

    /* A damaged strip is told by number and place. */
    strip[row.start] = 0;
    dofnihet_outcome checked = dofnihet_check(strip, words);
    printf("damaged: refused %" PRIu64 " %" PRIu64 "\n", checked.number, checked.place);
    return map_two_bands();
}
