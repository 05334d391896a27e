"""Sheets by the extents of their objects in x, from the least to the largest x of each: such as stand apart, touch in one x, overlap, lie in one another
or are the same, in any order; with ends on the frame, too. Each is made of so many objects, and their tags are 0."""
import reference, sheets
from reference import REACH

SIDES = [(4, n, 0, 0, 0, 0) for n in range(1, 5)]


def rising(rng, kind, left, right, y):
    """From one x to another, at a height or beside it, with its arrow either way."""
    ends = [(left, y + rng.randint(-1, 1)), (right, y + rng.randint(-1, 1))]
    if left == right:
        ends[1] = left, ends[0][1] + rng.choice((-1, 1, 2))
    p, q = rng.sample(ends, 2)
    return kind, *p, *q, 0


def touching(rng, count):
    """Left of one x, right of it, and in it, all up to it."""
    x, made = rng.choice((0, 5, 4 - REACH, REACH - 4)), []
    for _ in range(count):
        left, right = rng.choice(((x - 4, x), (x - 1, x), (x, x + 1), (x, x + 3), (x, x)))
        made.append(rising(rng, rng.choice((1, 1, 1, 2, 2, 3)), left, right, rng.randint(-2, 2)))
    return made


def row(rng, count):
    """One behind the other, each up to the next or a step before it."""
    x, made = -count * 3 // 2, []
    for _ in range(count):
        right = x + rng.randint(0, 2)
        made.append(rising(rng, 1, x, right, rng.randint(-1, 1)))
        x = right + rng.choice((0, 0, 1))
    return made


def apart(rng, count):
    """No x is of two of them."""
    places = rng.sample(range(-REACH // 3, REACH // 3), count)
    return [rng.choice((rising(rng, 1, 3 * x, 3 * x + rng.randint(0, 2), 0), (rng.choice((1, 2, 3)), 3 * x, 0, 3 * x, rng.choice((-1, 1)), 0))) for x in places]


def alike(rng, count):
    """All of one extent: between two x, in one x, or over the whole frame."""
    left = rng.randint(-3, 3)
    right, kind = rng.choice(((left + 4, 1), (left, 1), (left, 2), (left, 3), (left + 4, 3)))
    return [rising(rng, kind, left, right, rng.randint(-9, 9)) for _ in range(count)]


def nested(rng, count):
    """Each inside the one before, with an end in common or with none."""
    left, right, made = -REACH, REACH, []
    for _ in range(count):
        made.append(rising(rng, 1, left, right, rng.randint(-3, 3)))
        left, right = left + rng.choice((0, 1)), right - rng.choice((0, 1, 2))
    return made


def fan(rng, count):
    """Many that begin in one x, in one place or in several, and some that end there."""
    x, made = rng.randint(-3, 3), []
    for _ in range(count):
        p, q = (x, rng.choice((0, 0, rng.randint(-3, 3)))), (x + rng.choice((1, 2, 9, 40, -1, 0)), rng.randint(4, 40))
        made.append((rng.choice((1, 1, 2)), *p, *q, 0) if rng.randrange(2) else (1, *q, *p, 0))
    return made


def parallel(rng, count):
    """Rays and lines of one slope, whose ends on the frame differ in n alone, and some on one line; with a side."""
    dx, dy = rng.choice(((1, 2), (1, 3), (-2, 3), (1, -5), (3, 1), (2, -1), (1, 1), (1, -1), (0, 1)))
    made = [rng.choice(SIDES)] if count > 0 else []
    while len(made) < count:
        x, y, size = rng.randint(-3, 3), rng.randint(-3, 3), rng.choice((-2, -1, 1, 2))
        made.append((rng.choice((2, 2, 3, 3, 1)), x, y, x + size * dx, y + size * dy, 0))
    return made


def one_line(rng, count):
    """All on one line, by other numbers, so that the ends on the frame are the same; with a side."""
    x, y, (dx, dy) = rng.randint(-3, 3), rng.randint(-3, 3), rng.choice(((1, 2), (2, 1), (1, 1), (1, -1), (0, 1), (1, 0), (-1, 3)))
    made = [rng.choice(SIDES)] if count > 0 else []
    while len(made) < count:
        a, b = rng.sample(range(-4, 5), 2)
        made.append((rng.choice((1, 2, 2, 3)), x + a * dx, y + a * dy, x + b * dx, y + b * dy, 0))
    return made


def beside_corners(rng, count):
    """Rays and lines into a corner, and beside it, where their ends differ from the corner in n alone; and sides."""
    made = []
    for _ in range(count):
        x = rng.randint(-2, 2)
        y = rng.choice((x, -x, rng.randint(-2, 2)))
        ray = rng.choice((2, 3)), x, y, x + rng.choice((-1, 1)), y + rng.choice((-1, 1)), 0
        made.append(rng.choice((ray, ray, ray, rng.choice(SIDES))))
    return made


def upright(rng, count):
    """In few x, up or down: lines, rays and segments; and some across, from one such x to another."""
    made = []
    for _ in range(count):
        x, y = rng.randint(-1, 1), rng.randint(-3, 3)
        across = rng.choice((0, 0, 0, 1, -1))
        made.append((rng.choice((1, 2, 3)) if across == 0 else 1, x, y, x + across, y + rng.choice((-2, -1, 1, 2)), 0))
    return made


def framed(rng, count):
    """Sides, and rays and lines that end on them."""
    made = []
    for _ in range(count):
        kind = rng.choice((2, 3, 4))
        made.append(rng.choice(SIDES) if kind == 4 else (kind, *sheets.pair(rng, 4), 0))
    return made


def anywhere(rng, count):
    made = []
    for _ in range(count):
        kind = rng.choice((1, 1, 2, 3, 4))
        made.append(rng.choice(SIDES) if kind == 4 else (kind, *sheets.pair(rng, REACH), 0))
    return made


MODES = touching, row, apart, alike, nested, fan, parallel, one_line, beside_corners, upright, framed, anywhere


# ---- extents, at a frame

def extent(one, R=reference.FRAMES[0]):
    """The least x and the largest."""
    (x, _), (u, _) = reference.cut(one, R)
    return min(x, u), max(x, u)


def together(a, b):
    """Whether two objects stand apart in x, touch in one x, a given one or one of the frame, or overlap."""
    (left, right), (other_left, other_right) = extent(a), extent(b)
    low, high = max(left, other_left), min(right, other_right)
    if low != high:
        return 'apart' if low > high else 'overlap'
    return 'touch' if abs(low) <= REACH else 'touch on the frame'


def from_the_left(rng, objects):
    return sorted(objects, key=extent)


def from_the_right(rng, objects):
    return sorted(objects, key=extent, reverse=True)


def shuffled(rng, objects):
    return rng.sample(objects, len(objects))


ORDERS = from_the_left, from_the_right, shuffled
