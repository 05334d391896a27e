"""Random calls of four points for a side of circle: given points at random, at the limits, on one circle and on one line, frame points, and
what is refused. Used by tests/47-circle."""
import math, random
import reference, sheets

NAMES = 'first', 'second', 'third', 'fourth'
REACH, NARROW, NEAR, I64 = reference.REACH, reference.NARROW, reference.NEAR, sheets.I64
ENDS_OF_64_BITS = I64 - 1, -I64
rng = random.Random(20001005)


def is_point(point):
    return reference.refusal(reference.point_refusals(*point)) == 0


def given(x, y):
    return 0, x, 0, y, 1


def beside(point):
    """The same with one n changed by 1."""
    mx, nx, my, ny, w = point
    return [(mx, nx + a, my, ny + b, w) for a, b in ((-1, 0), (1, 0), (0, -1), (0, 1))]


# ---- given points: random ones, at the limits, on one circle, on one line

EXTREME = 0, 1, -1, REACH - 1, 1 - REACH, REACH, -REACH
# squares of radii, with 24 to 192 whole places on the circle; of the last no whole circle is within reach
SQUARES = 5**2 * 13, 5**2 * 13 * 17, 6**2 * 5**2 * 13 * 17, 5 * 13 * 17 * 29, 5 * 13 * 17 * 29 * 37, 5**2 * 13 * 17 * 29 * 37


def around(square):
    """The whole places at this distance from 0, 0."""
    most = math.isqrt(square)
    return sorted({(x, way * y) for x in range(-most, most + 1) for y in [math.isqrt(square - x * x)] if x * x + y * y == square for way in (-1, 1)})


AROUND = [around(square) for square in SQUARES]


def anywhere():
    reach = rng.choice((2, 40, REACH))
    return [given(rng.randint(-reach, reach), rng.randint(-reach, reach)) for _ in NAMES]


def extreme():
    return [given(rng.choice(EXTREME), rng.choice(EXTREME)) for _ in NAMES]


def on_circle():
    """Four that are different."""
    while True:
        x, y = rng.randint(-REACH, REACH), rng.randint(-REACH, REACH)
        within = [given(x + a, y + b) for a, b in rng.choice(AROUND) if max(abs(x + a), abs(y + b)) <= REACH]
        if len(within) >= len(NAMES):
            return rng.sample(within, len(NAMES))


def beside_circle():
    *three, on = on_circle()
    return [*three, rng.choice([one for one in beside(on) if reference.is_given(*one)])]


def again():
    """The fourth is one of the three."""
    three = rng.choice((anywhere, extreme, on_circle))()[:3]
    return [*three, rng.choice(three)]


def line():
    """Three on one line, in any order and often some of them one; its direction, with no common divisor; and a fourth on it."""
    longest = rng.choice((1, 2, 30, REACH))
    while True:
        a, b = rng.randint(-longest, longest), rng.randint(-longest, longest)
        if math.gcd(a, b) == 1:
            break
    steps = rng.randint(2, 2 * REACH // max(abs(a), abs(b)))
    x, y = (rng.randint(-REACH - min(0, steps * d), REACH - max(0, steps * d)) for d in (a, b))
    times = rng.choice((rng.sample(range(steps + 1), 3), rng.choices(range(steps + 1), k=3)))
    *three, on = [given(x + t * a, y + t * b) for t in (*times, rng.randint(0, steps))]
    return three, (a, b), on


def given_by_line():
    three, _, on = line()
    return [*three, rng.choice((on, *anywhere()[:2], extreme()[0]))]


# ---- frame points: any, at corners, and the ends of lines that run beside a line

def corner():
    return rng.choice((-1, 1)), 0, rng.choice((-1, 1)), 0, 1


def beside_corner():
    """As near as a frame point comes: by the smallest n, or by the smallest part of R."""
    w, away = rng.choice((1, 2, NARROW, rng.randint(1, NARROW))), rng.choice((-1, 1))
    m, n = rng.choice(((w, -1), (w - 1, 1), (w - 1, rng.choice((-NEAR, 0, NEAR)))))
    exact, along = (rng.choice((-w, w)), 0), (away * m, away * n)
    return sheets.reduced(*rng.choice((exact + along, along + exact)), w)


def end_beside(x, y, a, b):
    """The end of the line through x, y in the direction a, b or back, or of a line beside it: only n tells these apart."""
    flat, most = abs(a) > abs(b), NARROW // max(abs(a), abs(b))
    while True:
        times = rng.choice((-1, 1)) * rng.choice((1, most, rng.randint(1, most)))
        if abs(a) == abs(b):
            flat = not flat
        (far, d), (near, e) = ((x, times * a), (y, times * b)) if flat else ((y, times * b), (x, times * a))
        w, on = abs(d), abs(d) * near - (e if d > 0 else -e) * far
        n = rng.choice((on, on - 1, on + 1, rng.randint(-NEAR, NEAR), -NEAR, NEAR))
        exact, along = (d, 0), (e, n)
        point = sheets.reduced(*(exact + along if flat else along + exact), w)
        if is_point(point):
            return point


def frame_by_line():
    three, direction, on = line()
    end = end_beside(on[1], on[3], *direction)
    return [*three, rng.choice((end, end, end, sheets.frame_point(rng), corner(), beside_corner()))]


def frame_by_circle():
    three = rng.choice((anywhere, extreme, on_circle))()[:3]
    return [*three, rng.choice((sheets.frame_point(rng), sheets.frame_point(rng), corner(), beside_corner()))]


TAKEN = anywhere, extreme, on_circle, beside_circle, again, given_by_line, *[frame_by_line] * 3, *[frame_by_circle] * 2


# ---- what is refused: no points, and points that may not stand there

def images(mx, nx, my, ny, w):
    """The same in all four quarters, and with x and y changed over."""
    ways = [((a * mx, a * nx), (b * my, b * ny)) for a in (-1, 1) for b in (-1, 1)]
    return [(*one, *other, w) for x, y in ways for one, other in ((x, y), (y, x))]


# numbers that pass one limit, and would be a point without it
NEARLY = {
    'w of 4,001 on the frame': (NARROW + 1, 0, 1, 1, NARROW + 1), 'n of 8,000,001 on the frame': (1, 0, 0, NEAR + 1, 1),
    'past a corner by n': (1, 0, 1, 1, 1), 'past a corner by m': (1, 0, 2, -1, 1), 'outside the square': (1, 1, 0, 0, 1),
    'within the square by n': (1, -1, 0, 0, 1), 'within the square by m': (1, 0, 1, 0, 2),
    'w of 32,000,001': (0, 1, 0, 0, reference.WIDEST + 1), 'n of 64,000,000,001': (0, reference.FAR + 1, 0, 0, 1),
}
WHY_NEARLY = {image: why for why, point in NEARLY.items() for image in images(*point)}


def nearly():
    return rng.choice(images(*rng.choice(list(NEARLY.values()))))


def some_point():
    return rng.choice((anywhere()[0], extreme()[0], corner(), sheets.frame_point(rng), sheets.standard_point(rng)))


def divisor_left_in():
    factor = rng.choice((2, 3))
    return tuple(factor * n for n in rng.choice((anywhere()[0], extreme()[0], corner())))


def no_width():
    return some_point()[:4] + (0,)


def width_below():
    point = some_point()
    return rng.choice((tuple(-n for n in point), point[:4] + (-point[4],)))


def at_ends():
    point = list(some_point())
    for _ in range(rng.randint(1, 2)):
        point[rng.randrange(5)] = rng.choice(ENDS_OF_64_BITS)
    return tuple(point)


def beyond():
    coordinates = [rng.choice((REACH + 1, -REACH - 1)), rng.choice((rng.choice(EXTREME), rng.randint(-REACH, REACH)))]
    rng.shuffle(coordinates)
    return given(*coordinates)


def half():
    return 0, 2 * rng.randint(-REACH, REACH - 1) + 1, 0, rng.randint(-2 * REACH, 2 * REACH), 2


def wide():
    while True:
        point = sheets.standard_point(rng)
        if point[4] > NARROW or max(map(abs, point)) > NEAR:
            return point


NO_POINT = divisor_left_in, no_width, width_below, at_ends, nearly, nearly, lambda: sheets.near_point(rng)
NOT_GIVEN = beyond, beyond, half, wide, lambda: sheets.frame_point(rng), corner, lambda: sheets.standard_point(rng)


def refused():
    """A call that would be taken, made wrong at one place or at two, but for frame points that come to be the fourth."""
    call = rng.choice(TAKEN)()
    places = rng.sample(range(len(call)), rng.choice((1, 1, 2)))
    kinds = rng.choice(((NO_POINT, NOT_GIVEN), (NOT_GIVEN, NO_POINT), (NOT_GIVEN, NOT_GIVEN)))
    for at, kind in zip(places, kinds):
        call[at] = rng.choice(kind)()
    return call


def call():
    return rng.choice((*TAKEN, *[refused] * 5))()
