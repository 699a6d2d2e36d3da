# A relief map of our own making, as a strip: an island with the sun low in the west. Run from the top folder:
#
#     python3 samples/relief.py > samples/relief.strip
#     python3 samples/relief.py KEY > page.strip
#     python3 samples/relief.py KEY WHITE > page.strip
#
# KEY is in thousandths, 180 where it is not given, and WHITE, the white point, in tenths; without it the strip has
# none. Neither is checked here.
#
# A ridge with snow on it parts the island. West of it a plain and its river lie in the sun; east of it a second
# plain and river lie in the ridge's shadow. Light is linear: up to 40 on the sunlit snow, 5 on the sunlit plain and
# 1.5 on its river, 0.06 on the shadowed plain and 0.02 on its river, and less and less as the sea grows deep.
#
# Only + - * / and square roots of floats are used. IEEE 754 fixes these to the last bit, so every machine makes
# the same strip. Only Python's standard library is needed.
import math
import random
import struct
import sys
from fractions import Fraction

WIDTH, HEIGHT = 84, 65            # 5,460 pixels: the most that 65,536 bytes hold
SUN, SKY = 44.0, 0.14             # light on a surface that faces the sun; light from the sky alone
TO_SUN = (-0.94, -0.20, 0.27)     # east, south, up: the sun stands west, a little north, about 15 degrees high

RIDGE = [(45, 10), (36, 18), (38, 29), (31, 40), (35, 50)]
RIVERS = [[(31, 24), (26, 27), (24, 21), (18, 22), (18, 31), (12, 32), (9, 28), (0, 29)],
          [(42, 36), (48, 37), (49, 26), (58, 25), (59, 38), (67, 39), (70, 31), (83, 30)]]
TINTS = [(1.5, (0.30, 0.40, 0.18)), (4.0, (0.42, 0.29, 0.15)), (7.0, (0.40, 0.28, 0.18)),
         (8.5, (0.90, 0.92, 0.95))]  # colour of the ground by height: plain, hills, rock, snow
WATER = (0.09, 0.13, 0.24)


def mix(a, b, t):
    return a + (b - a) * t


def clamp(t):
    return min(1.0, max(0.0, t))


def noise(seed, cell):
    """Smooth random values from -1 to 1, with hills and hollows about so many pixels wide."""
    draw = random.Random(seed)
    grid = [[2 * draw.random() - 1 for _ in range(WIDTH)] for _ in range(HEIGHT)]

    def at(x, y):
        i, j, u, v = x // cell, y // cell, x % cell / cell, y % cell / cell
        u, v = u * u * (3 - 2 * u), v * v * (3 - 2 * v)
        return mix(mix(grid[j][i], grid[j][i + 1], u), mix(grid[j + 1][i], grid[j + 1][i + 1], u), v)
    return at


def rounded(line):
    """The line with its corners cut off, three times over."""
    for _ in range(3):
        cut = [(mix(a[0], b[0], t), mix(a[1], b[1], t)) for a, b in zip(line, line[1:]) for t in (0.25, 0.75)]
        line = [line[0]] + cut + [line[-1]]
    return line


def distance(x, y, line):
    """From a point to the nearest place on a line."""
    least = 1e9
    for (ax, ay), (bx, by) in zip(line, line[1:]):
        dx, dy = bx - ax, by - ay
        t = clamp(((x - ax) * dx + (y - ay) * dy) / (dx * dx + dy * dy))
        px, py = x - ax - t * dx, y - ay - t * dy
        least = min(least, px * px + py * py)
    return math.sqrt(least)


coast, hills, crags = noise(10, 11), noise(2, 8), noise(3, 4)
ridge, rivers = rounded(RIDGE), [rounded(line) for line in RIVERS]


def terrain(x, y):
    """Height of the ground over the sea, in pixels, and how much of the pixel is river, from 0 to 1."""
    ex, ey = (x - 41) / 36, (y - 32) / 26
    inland = 1 - ex * ex - ey * ey + 0.45 * coast(x, y) + 0.10 * crags(x, y)  # above 0 on land
    river = min(distance(x, y, line) for line in rivers)
    near = clamp(1 - (distance(x, y, ridge) + 2 * crags(x, y)) / 15)
    land = 14 * near * near + 0.7 * (1 + hills(x, y)) * clamp((river - 1.5) / 4)
    return (land * clamp(3 * inland) + 0.2 if inland > 0 else 32 * inland), clamp(1.7 - river)


def tint(height):
    for (low, a), (high, b) in zip(TINTS, TINTS[1:]):
        if height < high:
            return [mix(p, q, clamp((height - low) / (high - low))) for p, q in zip(a, b)]
    return TINTS[-1][1]


def page():
    """The light of every channel: red, green, blue of each pixel, left to right, top row first."""
    cells = {(x, y): terrain(x, y) for y in range(HEIGHT) for x in range(WIDTH)}

    def surface(x, y):
        return max(0.0, cells.get((x, y), (0.0, 0.0))[0])

    east, south, up = TO_SUN
    for (x, y), (height, river) in cells.items():
        if height > 0:
            colour = [mix(ground, water, river) for ground, water in zip(tint(height), WATER)]
        else:  # the deeper the sea, the less light comes back, and red the least
            thick = [1 - loss * height for loss in (0.9, 0.6, 0.45)]
            colour = [water / (t * t * t) for water, t in zip(WATER, thick)]
        dx, dy = (surface(x + 1, y) - surface(x - 1, y)) / 2, (surface(x, y + 1) - surface(x, y - 1)) / 2
        facing = (up - dx * east - dy * south) / math.sqrt(dx * dx + dy * dy + 1)  # 1: straight to the sun; -1: away
        seen = 1.0  # how much of the sun is seen: follow the ray to it over the ground
        for step in range(1, 80):
            hill = surface(int(x + step * east + 0.5), int(y + step * south + 0.5))
            seen = min(seen, clamp(1 + surface(x, y) + step * up - hill))
        light = SUN * seen * max(0.0, facing) + SKY * (1 + facing / 2)
        yield from (light * part for part in colour)


def stored(light):
    """A channel's exponent and mantissa as 256E + M, exactly by the storing rule; 0 for black."""
    f = Fraction(light)
    if f <= Fraction(1, 2 ** 57):
        return 0
    exponent = 128 + (f.numerator - 1).bit_length() - (f.denominator.bit_length() - 1)
    mantissa = min(255, math.floor(f * Fraction(2) ** (136 - exponent)))
    return 256 * exponent + mantissa


if len(sys.argv) > 3:
    sys.exit("usage: relief.py [KEY [WHITE]]")
key, *white = map(int, sys.argv[1:] or [180])
words = [1 << 28 | WIDTH << 14 | HEIGHT, 2 << 28 | key]
words += [3 << 28 | tenths for tenths in white]
words += [4 + i % 3 << 28 | stored(light) for i, light in enumerate(page())]
words.append(7 << 28 | WIDTH * HEIGHT)
sys.stdout.buffer.write(struct.pack("<%dI" % len(words), *words))
