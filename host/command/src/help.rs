//! What --help prints.

pub const ALL: &str = "\
Dofnihet stores a high-dynamic-range page as a strip of 32-bit words, tallies its brightness and maps it to 24-bit levels.

    dofnihet convert rgbe|half|single|stored --width W --height H --key K [--white TENTHS] SOURCE STRIP
    dofnihet convert pfm --key K [--white TENTHS] SOURCE STRIP
    dofnihet tally STRIP
    dofnihet tally --bands STRIP..
    dofnihet map STRIP PICTURE
    dofnihet map --bands STRIP.. PICTURE
    dofnihet row STRIP Y OUTPUT
    dofnihet info STRIP
    dofnihet info --bands STRIP..
    dofnihet cut STRIP ROWS PREFIX
    dofnihet COMMAND --help

- stands for standard input or output; a file whose name begins with - is written ./-name. An output file appears whole or not
at all, and only where everything is accepted. An output that is standard output itself, such as /dev/stdout, is written as - is.

A strip is read to its end, since its byte count decides first: one whose byte count is no multiple of four is refused with 3,
place 0, before any word is looked at.

With --bands a page is given as bands of whole rows, the top one first, each a strip with the same width, key and white point or
none. A file has whole bands, one or more. The files' words are read one behind another; each size word, with the white word if there
is one, tells where the next band begins. An empty file is refused with 3 too. A place counts from the first file's start. Behind the
refusal stand the file and, where it has a place, the word in that file, from 0 on:

    refused 8 24 wild channel: b.strip word 6
    refused 21 0 unlike bands: b.strip

21 is a width, key or white point unlike the first band's, or bands that are too large together. A strip that is cut short takes the
words of the next file for its own, so that word 0 of that file is foreign. Where the last file ends before the strip does, it is
refused with 3, unless that word 0 stands in the place of its key word.

A page is dark where fewer than one pixel in sixteen is lit, as a photograph of the lens cap is. tally and map refuse it once all
else is accepted; the other commands take it. Of bands the pixels of all count, and no file is told:

    refused 9 0 dark page
    fewer than one pixel in sixteen is lit; look for the lens cap

Exit status: 0 accepted; 1 refused, with a line such as 'refused 3 0 wrong length' (number, place, word) on standard error;
2 wrong usage, a file that cannot be read or written, or no PFM file.
";

pub const CONVERT: &str = "\
dofnihet convert rgbe|half|single|stored --width W --height H --key K [--white TENTHS] SOURCE STRIP
dofnihet convert pfm --key K [--white TENTHS] SOURCE STRIP

Converts a source picture into a strip: a file of 32-bit words, little-endian.

    rgbe      four bytes a pixel: R, G, B and the common exponent
    half      three IEEE 754 halves a pixel, little-endian; zero and negative numbers become black
    single    three IEEE 754 singles a pixel, little-endian; likewise
    stored    three stored channels a pixel, 256 * exponent + mantissa each or 0 for black, 16 bits, little-endian
    pfm       Netpbm's float map, PF or Pf (grey: three equal channels), in either byte order

The first four have nothing before the elements, which run left to right, top row first. A PFM file has the bottom row first; it is
turned. Of its scale only the sign is used, which tells the byte order; no float is multiplied by it.

W and H are 1 to 8192, W * H at most 16777216. K, the key in thousandths, is 1 to 1000; 180 is usual.

--white gives the page a white point: TENTHS, 10 to 1000, is ten times the scaled luminance that becomes white. What is brighter is
white too; without a white point greys only crowd towards it. A luminance is scaled to K/1000 times what it is over the average. So,
by the worths that dofnihet tally prints for the brightest luminance and the average (stored),

    TENTHS = 10 * K/1000 * brightest / average

makes a grey as bright as the brightest pixel just white, and no darker grey burns out. With the luminance of dull snow in place of
the brightest, all snow burns out cleanly: the smaller TENTHS is, the more does. Where the brightest needs more than 1000, it burns out with every white
point, and a lower key keeps it apart.

The place of a refusal counts elements from 0 at the top left; RGBE elements are bytes, PFM elements are three floats a pixel in
either kind.
";

pub const TALLY: &str = "\
dofnihet tally STRIP
dofnihet tally --bands STRIP..

Prints what the lit pixels of a page are like, or of the page that all bands are together:

    lit 2
    sum -258
    average -129
    stored 128 180 worth 0.7051
    darkest 127 255 worth 0.4990
    brightest 128 255 worth 0.9980
    range 1.0 doublings

    lit          the number of lit pixels
    sum          the sum of the steps of their luminances, 256 to a doubling, each to the nearest step
    average      the average in steps, rounded down
    stored       the average as stored number: exponent E, mantissa M and worth
    darkest      the smallest luminance of a lit pixel, likewise
    brightest    the largest one
    range        the doublings from darkest to brightest, told by their steps

A stored number is worth (M + 1/2) * 2^(E - 136), which is printed with four significant digits. The true mean lies at most half a
step below the average and less than one and a half above. A dark page is refused; see dofnihet --help.

To choose a key: a grey as bright as the average is scaled to K/1000 and comes out at about level 255 * K / (1000 + K), which is 39
for 180. The worths tell how far the page goes below and above the average; a doubling is twice the worth. Far below the average
each doubling down halves a grey's level, so details in deep shadows need a higher key, such as 360 or 720. Far above it greys crowd
towards 255 and strong colours are cut there, so a page whose interest lies there, such as lamps at night, needs a lower one, such
as 90. How to choose a white point by the worths: dofnihet convert --help.
";

pub const MAP: &str = "\
dofnihet map STRIP PICTURE
dofnihet map --bands STRIP.. PICTURE

Maps a strip to levels from 0 to 255 and writes them as a Netpbm P6 picture. Bands become one picture, under the average of all: that
of the page that they are cut from. A dark page is refused; see dofnihet --help.
";

pub const ROW: &str = "\
dofnihet row STRIP Y OUTPUT

Writes the words of row Y, counted from 0 at the top: red, green and blue of each pixel, 32 bits, little-endian.
";

pub const INFO: &str = "\
dofnihet info STRIP
dofnihet info --bands STRIP..

Checks a strip, or all bands, and prints width, height, key, white point in tenths and number of pixels of the page:

    width 2
    height 1
    key 180
    white none
    pixels 2
";

pub const CUT: &str = "\
dofnihet cut STRIP ROWS PREFIX

Cuts a strip into bands of ROWS rows, 1 or more; the last may have fewer. Each becomes a file, named by PREFIX, a number from 1 on
and '.strip'. The numbers have leading zeros, at least three digits in all, so that names in order are bands in order:

    dofnihet cut page.strip 64 map-
    dofnihet map --bands map-*.strip page.ppm

Where the strip is refused, no file is written. Where a file cannot be written, those before it stay.
";
