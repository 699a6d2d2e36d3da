/* Every function of include/dofnihet.h called once accepted and, where it can refuse, once refused, with every field and element printed;
 * then pages with just enough lit pixels, and dark ones; then pages and bands with a white point. `tests/c_interface` compares the output
 * with interface.stdout. */
#include "dofnihet.h"

#include <inttypes.h>
#include <stdio.h>
#include <string.h>

#define COUNT(array) (sizeof(array) / sizeof *(array))

/* What an output holds before a call; elements that a call leaves alone still hold it. */
enum { OLD = 0xEE };

static void print_outcome(const char *call, dofnihet_outcome told)
{
    printf("%s: %" PRIu64 " %" PRIu64, call, told.number, told.place);
}

static void print_words(const uint32_t *words, size_t count)
{
    for (size_t i = 0; i < count; i++)
        printf(" %08" PRIX32, words[i]);
    printf("\n");
}

static void converted(const char *call, dofnihet_outcome told, const uint32_t *output, size_t count)
{
    print_outcome(call, told);
    print_words(output, count);
}

/* 1 x 1, and 2 x 1. */
static const dofnihet_page one = {.width = 1, .height = 1, .key = 180};
static const dofnihet_page two = {.width = 2, .height = 1, .key = 180};

static void conversions(void)
{
    const uint8_t rgbe[] = {1, 1, 1, 136, 1, 1, 1, 0};
    const uint16_t half[] = {0x3C00, 0x3C01, 0x8000};
    const uint32_t single[] = {0x23000000, 0x23000001, 0x5B800000};
    const uint16_t stored[] = {0x80FF, 0x7FFF, 0};
    const uint16_t infinite[] = {0x3C00, 0xFC00, 0};
    const dofnihet_page narrow = {.width = 0, .height = 1, .key = 180};
    const dofnihet_page keyless = {.width = 1, .height = 1, .key = 0};
    uint32_t output[10];
    memset(output, OLD, sizeof output);
    converted("rgbe", dofnihet_convert_rgbe(rgbe, 8, two, output, 10), output, 10);
    memset(output, OLD, sizeof output);
    converted("half", dofnihet_convert_half(half, 3, one, output, 7), output, 7);
    memset(output, OLD, sizeof output);
    converted("single", dofnihet_convert_single(single, 3, one, output, 7), output, 7);
    memset(output, OLD, sizeof output);
    converted("stored", dofnihet_convert_stored(stored, 3, one, output, 7), output, 7);
    memset(output, OLD, sizeof output);
    converted("rgbe of width 0", dofnihet_convert_rgbe(rgbe, 8, narrow, output, 7), output, 2);
    converted("half infinite", dofnihet_convert_half(infinite, 3, one, output, 7), output, 2);
    converted("single of key 0", dofnihet_convert_single(single, 3, keyless, output, 7), output, 2);
    converted("stored into 5 words", dofnihet_convert_stored(stored, 3, one, output, 5), output, 2);
}

static void print_header(const char *call, dofnihet_header told)
{
    printf("%s: %" PRIu64 " %" PRIu64 " %" PRIu64 " %" PRIu64 " %" PRIu64 " %" PRIu64 " %" PRIu64 "\n", call, told.number, told.place,
           told.width, told.height, told.key, told.white_present, told.white);
}

static void print_row(const char *call, dofnihet_row told)
{
    printf("%s: %" PRIu64 " %" PRIu64 " %" PRIu64 " %" PRIu64 "\n", call, told.number, told.place, told.start, told.length);
}

static void print_step(const char *call, dofnihet_step told)
{
    printf("%s: %" PRIu64 " %" PRIu64 " %" PRIu64 " %04" PRIX64 " %04" PRIX64 " %04" PRIX64 "\n", call, told.number, told.place, told.over,
           told.red, told.green, told.blue);
}

static void print_tally(const char *call, dofnihet_tally told)
{
    printf("%s: %" PRIu64 " %" PRIu64 " %" PRIu64 " %" PRId64 " %" PRIu64 " %" PRId64 " %" PRIu64 " %" PRIu64, call, told.number,
           told.place, told.lit, told.sum, told.present, told.average, told.exponent, told.mantissa);
    printf(" %" PRIu64 " %" PRIu64 " %" PRIu64 " %" PRIu64 "\n", told.darkest_exponent, told.darkest_mantissa, told.brightest_exponent,
           told.brightest_mantissa);
}

/* Greys 1.0 and 0.5, 2 x 1. */
static const uint32_t greys[] = {0x10008001, 0x200000B4, 0x400080FF, 0x500080FF, 0x600080FF,
                                 0x40007FFF, 0x50007FFF, 0x60007FFF, 0x70000002};
/* The same with a mantissa of 127 in its last channel. */
static const uint32_t wild[] = {0x10008001, 0x200000B4, 0x400080FF, 0x500080FF, 0x600080FF,
                                0x40007FFF, 0x50007FFF, 0x60007F7F, 0x70000002};
/* Greys (129,128) and (127,255): the brighter one has the smaller mantissa. Their steps are T[128] - 1792 = 1 and T[255] - 2304 = -257,
 * so the average is -128 = 256 * -1 + 128, stored as (128, X[128]). */
static const uint32_t crossed[] = {0x10008001, 0x200000B4, 0x40008180, 0x50008180, 0x60008180,
                                   0x40007FFF, 0x50007FFF, 0x60007FFF, 0x70000002};
/* One pixel of three different channels. */
static const uint32_t coloured[] = {0x10004001, 0x200000B4, 0x400080FF, 0x50007FFF, 0x60000000, 0x70000001};
static const uint32_t black[] = {0x10004001, 0x200000B4, 0x40000000, 0x50000000, 0x60000000, 0x70000001};

/* Greys 1.0 and 0.5 again, 1 x 2, as two bands of one pixel; alone, each would have level 39. */
static const uint32_t bands[] = {0x10004001, 0x200000B4, 0x400080FF, 0x500080FF, 0x600080FF, 0x70000001,
                                 0x10004001, 0x200000B4, 0x40007FFF, 0x50007FFF, 0x60007FFF, 0x70000001};
/* The same with a mantissa of 127 in the second band's blue. */
static const uint32_t wild_bands[] = {0x10004001, 0x200000B4, 0x400080FF, 0x500080FF, 0x600080FF, 0x70000001,
                                      0x10004001, 0x200000B4, 0x40007FFF, 0x50007FFF, 0x60007F7F, 0x70000001};
/* The second band has key 181. */
static const uint32_t unlike_bands[] = {0x10004001, 0x200000B4, 0x400080FF, 0x500080FF, 0x600080FF, 0x70000001,
                                        0x10004001, 0x200000B5, 0x40007FFF, 0x50007FFF, 0x60007FFF, 0x70000001};

static void readings(void)
{
    print_outcome("check", dofnihet_check(greys, COUNT(greys)));
    print_outcome("\ncheck wild", dofnihet_check(wild, COUNT(wild)));
    print_header("\nheader", dofnihet_header_of(greys, COUNT(greys)));
    print_header("header wild", dofnihet_header_of(wild, COUNT(wild)));
    print_row("row 0", dofnihet_row_of(greys, COUNT(greys), 0));
    print_row("row 1", dofnihet_row_of(greys, COUNT(greys), 1));
    print_row("row 0 wild", dofnihet_row_of(wild, COUNT(wild), 0));
    print_step("step 0", dofnihet_step_of(greys, COUNT(greys), 0));
    print_step("step 1", dofnihet_step_of(greys, COUNT(greys), 1));
    print_step("step 2", dofnihet_step_of(greys, COUNT(greys), 2));
    print_step("step 3", dofnihet_step_of(greys, COUNT(greys), 3));
    print_step("step 0 coloured", dofnihet_step_of(coloured, COUNT(coloured), 0));
    print_step("step 0 black", dofnihet_step_of(black, COUNT(black), 0));
    print_step("last step black", dofnihet_step_of(black, COUNT(black), UINT64_MAX));
    print_step("step 0 wild", dofnihet_step_of(wild, COUNT(wild), 0));
    print_step("last step wild", dofnihet_step_of(wild, COUNT(wild), UINT64_MAX));
    print_tally("tally", dofnihet_tally_of(greys, COUNT(greys)));
    print_tally("tally crossed", dofnihet_tally_of(crossed, COUNT(crossed)));
    print_tally("tally black", dofnihet_tally_of(black, COUNT(black)));
    print_tally("tally wild", dofnihet_tally_of(wild, COUNT(wild)));
}

static void readings_of_bands(void)
{
    print_header("header of bands", dofnihet_header_of_bands(bands, COUNT(bands)));
    print_header("header of one band", dofnihet_header_of_bands(bands, 6));
    print_header("header of no band", dofnihet_header_of_bands(bands, 0));
    print_header("header of wild bands", dofnihet_header_of_bands(wild_bands, COUNT(wild_bands)));
    print_header("header of unlike bands", dofnihet_header_of_bands(unlike_bands, COUNT(unlike_bands)));
    print_tally("tally of bands", dofnihet_tally_of_bands(bands, COUNT(bands)));
    print_tally("tally of no band", dofnihet_tally_of_bands(bands, 0));
    print_tally("tally of cut bands", dofnihet_tally_of_bands(bands, COUNT(bands) - 1));
    print_tally("tally of wild bands", dofnihet_tally_of_bands(wild_bands, COUNT(wild_bands)));
    print_tally("tally of unlike bands", dofnihet_tally_of_bands(unlike_bands, COUNT(unlike_bands)));
}

static void print_codes(const char *call, dofnihet_outcome told, const uint16_t *codes, size_t count)
{
    print_outcome(call, told);
    for (size_t i = 0; i < count; i++)
        printf(" %04X", (unsigned)codes[i]);
    printf("\n");
}

static void print_levels(const char *call, dofnihet_outcome told, const uint8_t *levels, size_t count)
{
    print_outcome(call, told);
    for (size_t i = 0; i < count; i++)
        printf(" %u", (unsigned)levels[i]);
    printf("\n");
}

/* Maps bands into a new output of so many levels; one more is printed. */
static void map_bands(const char *call, const uint32_t *words, size_t count, size_t room)
{
    uint8_t levels[8];
    memset(levels, OLD, sizeof levels);
    print_levels(call, dofnihet_map_bands(words, count, levels, room), levels, room + 1);
}

static void outputs_of_bands(void)
{
    map_bands("map bands", bands, COUNT(bands), 7);
    map_bands("map bands into 5", bands, COUNT(bands), 5);
    map_bands("map no band", bands, 0, 7);
    map_bands("map wild bands into 5", wild_bands, COUNT(wild_bands), 5);
    map_bands("map unlike bands", unlike_bands, COUNT(unlike_bands), 7);
}

static void outputs(void)
{
    uint16_t codes[7];
    memset(codes, OLD, sizeof codes);
    print_codes("unpack", dofnihet_unpack(greys, COUNT(greys), codes, COUNT(codes)), codes, COUNT(codes));
    memset(codes, OLD, sizeof codes);
    print_codes("unpack into 5", dofnihet_unpack(greys, COUNT(greys), codes, 5), codes, COUNT(codes));
    uint8_t levels[7];
    memset(levels, OLD, sizeof levels);
    print_levels("map", dofnihet_map(greys, COUNT(greys), levels, COUNT(levels)), levels, COUNT(levels));
    memset(levels, OLD, sizeof levels);
    print_levels("map wild", dofnihet_map(wild, COUNT(wild), levels, COUNT(levels)), levels, COUNT(levels));
    uint8_t front[50];
    memset(front, OLD, sizeof front);
    uint64_t count = dofnihet_front_of(18446744073709551615u, 10, front);
    printf("front: %" PRIu64 " bytes, then %02X\n%.*s", count, (unsigned)front[count], (int)count, (const char *)front);
}

/* Makes a page of one row, so many pixels of grey 1.0 and behind them black ones; answers the number of its words. */
static size_t make_row(uint64_t width, uint64_t lit, uint32_t *strip)
{
    uint16_t halves[3 * 17] = {0};
    for (uint64_t i = 0; i < 3 * lit; i++)
        halves[i] = 0x3C00;
    dofnihet_page page = {.width = width, .height = 1, .key = 180};
    dofnihet_convert_half(halves, 3 * width, page, strip, DOFNIHET_STRIP_LENGTH(width));
    return DOFNIHET_STRIP_LENGTH(width);
}

/* Prints an output by its runs of equal elements: how many, and which. */
static void print_runs(const char *call, dofnihet_outcome told, const uint8_t *levels, size_t count)
{
    print_outcome(call, told);
    for (size_t i = 0, next; i < count; i = next) {
        for (next = i; next < count && levels[next] == levels[i]; next++)
            ;
        printf(" %zu*%u", next - i, (unsigned)levels[i]);
    }
    printf("\n");
}

static void dark_pages(void)
{
    uint32_t strip[DOFNIHET_STRIP_LENGTH(17)];
    uint8_t levels[3 * 17];
    size_t words = make_row(16, 1, strip);
    print_tally("tally 1 lit of 16", dofnihet_tally_of(strip, words));
    memset(levels, OLD, sizeof levels);
    print_runs("map 1 lit of 16", dofnihet_map(strip, words, levels, 51), levels, 51);
    words = make_row(17, 1, strip);
    print_outcome("check 1 lit of 17", dofnihet_check(strip, words));
    print_tally("\ntally 1 lit of 17", dofnihet_tally_of(strip, words));
    memset(levels, OLD, sizeof levels);
    print_runs("map 1 lit of 17", dofnihet_map(strip, words, levels, 51), levels, 51);
    print_runs("map 1 lit of 17 into 50", dofnihet_map(strip, words, levels, 50), levels, 51);
}

/* Two bands of 16 pixels. */
static void dark_bands(void)
{
    uint32_t rows[2 * DOFNIHET_STRIP_LENGTH(16)];
    uint8_t levels[3 * 32];
    size_t words = make_row(16, 0, rows);
    words += make_row(16, 2, rows + words);
    print_tally("tally 0 and 2 lit of 16", dofnihet_tally_of_bands(rows, words));
    memset(levels, OLD, sizeof levels);
    print_runs("map 0 and 2 lit of 16", dofnihet_map_bands(rows, words, levels, 96), levels, 96);
    words = make_row(16, 1, rows);
    words += make_row(16, 0, rows + words);
    print_header("header 1 and 0 lit of 16", dofnihet_header_of_bands(rows, words));
    print_tally("tally 1 and 0 lit of 16", dofnihet_tally_of_bands(rows, words));
    memset(levels, OLD, sizeof levels);
    print_runs("map 1 and 0 lit of 16", dofnihet_map_bands(rows, words, levels, 96), levels, 96);
    print_runs("map 1 and 0 lit of 16 into 95", dofnihet_map_bands(rows, words, levels, 95), levels, 96);
}

/* Converts greys 1.0 and 0.5, 2 x 1, with a white point; one word more than that of a strip with the white word is printed. */
static void convert_white(const char *call, uint64_t white_present, uint64_t white, size_t room)
{
    const uint16_t halves[] = {0x3C00, 0x3C00, 0x3C00, 0x3800, 0x3800, 0x3800};
    const dofnihet_page page = {.width = 2, .height = 1, .key = 180, .white_present = white_present, .white = white};
    uint32_t output[DOFNIHET_STRIP_LENGTH_WHITE(2) + 1];
    memset(output, OLD, sizeof output);
    converted(call, dofnihet_convert_half(halves, 6, page, output, room), output, COUNT(output));
}

static void white_conversions(void)
{
    printf("lengths: %zu %zu\n", DOFNIHET_STRIP_LENGTH(2), DOFNIHET_STRIP_LENGTH_WHITE(2));
    printf("white: %d to %d\n", DOFNIHET_MIN_WHITE, DOFNIHET_MAX_WHITE);
    convert_white("white 10", 1, 10, 11);
    convert_white("white 1000", 1, 1000, 10);
    convert_white("white 30, present 2", 2, 30, 11);
    convert_white("white 30, present 2^64 - 1", UINT64_MAX, 30, 11);
    convert_white("white 30, present 0", 0, 30, 11);
    convert_white("white 0, present 0", 0, 0, 9);
    convert_white("white 0", 1, 0, 11);
    convert_white("white 9", 1, 9, 11);
    convert_white("white 1001", 1, 1001, 11);
    convert_white("white 2^32 + 30", 1, 4294967326, 11);
    convert_white("white 9 into 9 words", 1, 9, 9);
    convert_white("white 10 into 9 words", 1, 10, 9);
}

/* The other sources with a white point: one pixel of channels (128,255). */
static void white_sources(void)
{
    const uint8_t rgbe[] = {255, 255, 255, 128};
    const uint32_t single[] = {0x3F800000, 0x3F800000, 0x3F800000};
    const uint16_t stored[] = {0x80FF, 0x80FF, 0x80FF};
    const dofnihet_page page = {.width = 1, .height = 1, .key = 180, .white_present = 1, .white = 30};
    uint32_t output[DOFNIHET_STRIP_LENGTH_WHITE(1)];
    memset(output, OLD, sizeof output);
    converted("white rgbe", dofnihet_convert_rgbe(rgbe, 4, page, output, 7), output, 7);
    memset(output, OLD, sizeof output);
    converted("white single", dofnihet_convert_single(single, 3, page, output, 7), output, 7);
    memset(output, OLD, sizeof output);
    converted("white stored", dofnihet_convert_stored(stored, 3, page, output, 7), output, 7);
}

/* Greys 1.0 and 0.5 with the white point 1.0. */
static const uint32_t white[] = {0x10008001, 0x200000B4, 0x3000000A, 0x400080FF, 0x500080FF, 0x600080FF,
                                 0x40007FFF, 0x50007FFF, 0x60007FFF, 0x70000002};
/* The same with a bad white, and with a spare bit. */
static const uint32_t bad_white[] = {0x10008001, 0x200000B4, 0x30000009};
static const uint32_t spare_white[] = {0x10008001, 0x200000B4, 0x30010009};

/* With the white point 1.0 display luminance is the scaled one, L(1 + L)/(1 + L) = L, here (127,130) and (126,130): 255 * 130.5 / 512 is
 * 64.995, and 255 * 130.5 / 1024 is 32.498. */
static void white_readings(void)
{
    print_header("header white", dofnihet_header_of(white, COUNT(white)));
    print_header("header bad white", dofnihet_header_of(bad_white, COUNT(bad_white)));
    print_header("header spare white", dofnihet_header_of(spare_white, COUNT(spare_white)));
    print_header("header cut white", dofnihet_header_of(white, COUNT(white) - 1));
    print_row("row 0 white", dofnihet_row_of(white, COUNT(white), 0));
    print_step("step 1 white", dofnihet_step_of(white, COUNT(white), 1));
    print_tally("tally white", dofnihet_tally_of(white, COUNT(white)));
    uint16_t codes[6];
    print_codes("unpack white", dofnihet_unpack(white, COUNT(white), codes, COUNT(codes)), codes, COUNT(codes));
    uint8_t levels[6];
    print_levels("map white", dofnihet_map(white, COUNT(white), levels, COUNT(levels)), levels, COUNT(levels));
}

/* Greys 1.0 and 0.5, 1 x 2, as two bands of one pixel, each with a white point or, where it is 0, none. */
static void white_bands(const char *call, uint32_t upper, uint32_t lower)
{
    const uint32_t whites[] = {upper, lower};
    uint32_t rows[2 * DOFNIHET_STRIP_LENGTH_WHITE(1)];
    size_t words = 0;
    for (size_t band = 0; band < 2; band++) {
        const uint16_t half = band == 0 ? 0x3C00 : 0x3800;
        const uint16_t halves[] = {half, half, half};
        const dofnihet_page page = {.width = 1, .height = 1, .key = 180, .white_present = whites[band] != 0, .white = whites[band]};
        const size_t room = whites[band] == 0 ? DOFNIHET_STRIP_LENGTH(1) : DOFNIHET_STRIP_LENGTH_WHITE(1);
        dofnihet_convert_half(halves, 3, page, rows + words, room);
        words += room;
    }
    print_header(call, dofnihet_header_of_bands(rows, words));
    print_tally(call, dofnihet_tally_of_bands(rows, words));
    map_bands(call, rows, words, 6);
}

static void white_points(void)
{
    white_conversions();
    white_sources();
    white_readings();
    white_bands("bands white 10 and 10", 10, 10);
    white_bands("bands white 10 and 11", 10, 11);
    white_bands("bands white 10 and none", 10, 0);
    white_bands("bands white none and 10", 0, 10);
}

int main(void)
{
    conversions();
    readings();
    outputs();
    readings_of_bands();
    outputs_of_bands();
    dark_pages();
    dark_bands();
    white_points();
    return 0;
}
