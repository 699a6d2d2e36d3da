# Two pictures of one page, side by side, as a PNG. Run from the top folder:
#
#     python3 samples/before_after.py samples/relief.strip target/relief.ppm docs/relief.png
#     python3 samples/before_after.py target/grey.ppm target/white.ppm docs/white.png
#
# Each is a strip, of which every channel is clipped at 1.0, or a P6 picture, of which the levels are shown: those that
# the picture program made of the strip, or of the strips of relief.py with key 5 and with key 5 and white point 38.
# Neither half has a gamma. Only Python's standard library is used.
import struct
import sys
import zlib

SCALE, GAP = 5, 10  # a pixel's side and the gap between the pictures, in pixels of the PNG


def clipped(strip):
    """Width, height and level bytes of a strip's channels, each clipped at 1.0."""
    words = struct.unpack("<%dI" % (len(strip) // 4), strip)
    levels = bytearray()
    for word in words[3 if words[2] >> 28 == 3 else 2:-1]:  # a white word, of kind 3, stands before the channels
        exponent, mantissa = word >> 8 & 255, word & 255
        worth = (mantissa + 0.5) * 2.0 ** (exponent - 136) if word & 0xFFFF else 0.0
        levels.append(int(255 * min(1.0, worth) + 0.5))
    return words[0] >> 14 & 0x3FFF, words[0] & 0x3FFF, bytes(levels)


def printed(ppm):
    """Width, height and level bytes of a P6 picture as the picture program prints it."""
    kind, size, top, levels = ppm.split(b"\n", 3)
    if kind != b"P6" or top != b"255":
        sys.exit("not a P6 picture with levels 0 to 255")
    width, height = map(int, size.split())
    return width, height, levels


def picture(path):
    with open(path, "rb") as file:
        content = file.read()
    return printed(content) if content.startswith(b"P6") else clipped(content)


def enlarged(levels, width, y):
    """Row y with every pixel SCALE times."""
    row = levels[3 * width * y:3 * width * (y + 1)]
    return b"".join(row[i:i + 3] * SCALE for i in range(0, len(row), 3))


def chunk(name, data):
    return struct.pack(">I", len(data)) + name + data + struct.pack(">I", zlib.crc32(name + data))


def png(before, after, width, height):
    rows = bytearray()
    for y in range(height):
        row = enlarged(before, width, y) + b"\xff" * (3 * GAP) + enlarged(after, width, y)
        rows += (b"\0" + row) * SCALE  # each row starts with its filter, 0 for none
    header = struct.pack(">IIBBBBB", 2 * SCALE * width + GAP, SCALE * height, 8, 2, 0, 0, 0)  # 8 bits, RGB
    return (b"\x89PNG\r\n\x1a\n" + chunk(b"IHDR", header) + chunk(b"IDAT", zlib.compress(bytes(rows), 9))
            + chunk(b"IEND", b""))


if len(sys.argv) != 4:
    sys.exit("usage: before_after.py left.strip|left.ppm right.strip|right.ppm out.png")
width, height, before = picture(sys.argv[1])
*size, after = picture(sys.argv[2])
if size != [width, height] or len(after) != len(before):
    sys.exit("the pictures are not of one page")
with open(sys.argv[3], "wb") as file:
    file.write(png(before, after, width, height))
