"""Document 01 once more, as document 02 changes it, in exact numbers and with no formula of the kernel: objects are cut at a concrete R
and intersected as ordinary closed segments, and the side of a circle is the report's determinant of places at a concrete R; what holds for
every R is read off two R. Used by the programs of tests/ to compare with."""
from fractions import Fraction
from itertools import combinations, permutations
from math import gcd

REACH, MOST, LAST_TAG = 2000, 512, 2_000_000
WIDTH, ROW = 6, 10                              # numbers of an object in a list, and of a row of a listing
OLD, NEW = 1, 2                                 # the forms of a stored drawing
MARK = 1000                                     # what the new form starts with: the count of no drawing
GROUP, GROUPS = 2**7, 3                         # what seven bits are below, which is also a byte's top bit; and the groups of a number at most
WIDEST, FAR = 32_000_000, 64_000_000_000        # w and n of a standard point
NARROW, NEAR = 4_000, 8_000_000                 # w and n of a frame point
FRAMES = (10**15, 3 * 10**18 + 7)               # the smallest frame that R-13 names, and one above that of demand 3
CIRCLE_FRAMES = (2 * 10**18, FRAMES[1])         # the smallest frame of demand 3, which R-12 keeps, and one above
REFUSALS = (*range(1, 12), *range(13, 17), 21)  # the numbers that say no; 12 is taken out, and not used again


class Refused(Exception):
    def __init__(self, number):
        self.number = number


# ---- which numbers are refused: each number of the table that would do, in the order in which the paper gives them

def object_refusals(kind, px, py, qx, qy, tag):
    """One object: 1, then 4 for kind 4; else 2, then 3. After 3 or 4 comes 15."""
    if not 1 <= kind <= 4:
        yield 1
    if kind == 4:
        if not 1 <= px <= 4 or (py, qx, qy) != (0, 0, 0):
            yield 4
    else:
        if any(abs(coordinate) > REACH for coordinate in (px, py, qx, qy)):
            yield 2
        if (px, py) == (qx, qy):
            yield 3
    if not 0 <= tag <= LAST_TAG:
        yield 15


def objects_in(numbers):
    """The objects of a list; numbers at the end that are too few for one are left."""
    return [tuple(numbers[at:at + WIDTH]) for at in range(0, len(numbers) - WIDTH + 1, WIDTH)]


def list_refusals(numbers):
    """A list: 14, 11, each object in turn."""
    if len(numbers) % WIDTH != 0:
        yield 14
    if len(numbers) // WIDTH > MOST:
        yield 11
    for one in objects_in(numbers):
        yield from object_refusals(*one)


def one_refusals(numbers, i):
    """A list, of which object i is meant: its own, then 13."""
    yield from list_refusals(numbers)
    if not 0 <= i < len(objects_in(numbers)):
        yield 13


def form_refusals(objects, form):
    """16 where there is a tag other than 0, for which the old form alone has no place."""
    if form == OLD and any(tag != 0 for *_, tag in objects):
        yield 16


def write_refusals(numbers, form=OLD):
    """A list that is to be stored: its own, then 16."""
    yield from list_refusals(numbers)
    yield from form_refusals(objects_in(numbers), form)


def point_refusals(mx, nx, my, ny, w):
    """5 where the numbers are no point. Of a frame point the farther coordinate is just on the square."""
    R, largest = FRAMES[0], max(abs(nx), abs(ny))
    standard = mx == my == 0 and 0 < w <= WIDEST and largest <= FAR
    frame = 0 < w <= NARROW and largest <= NEAR and max(abs(mx * R + nx), abs(my * R + ny)) == R * w
    if not (standard or frame) or gcd(mx, nx, my, ny, w) != 1:
        yield 5


def is_given(mx, nx, my, ny, w):
    """Whether it is a point that a drawing may give: standard, w of 1, nx and ny within 2,000 either way."""
    return (mx, my, w) == (0, 0, 1) and max(abs(nx), abs(ny)) <= REACH


def circle_refusals(p, q, s, u):
    """5 for each in turn, then 21. The fourth may be a frame point; where it is no point, it is no standard one."""
    for point in (p, q, s, u):
        yield from point_refusals(*point)
    standard = u[0] == u[2] == 0 and refusal(point_refusals(*u)) == 0
    if not all(is_given(*point) for point in (p, q, s)) or (standard and not is_given(*u)):
        yield 21


def refusal(refusals):
    """The first of them, or 0."""
    return next(refusals, 0)


# ---- stored drawings

def stored_number(data, at):
    """The number that begins at `at`, and where the next begins. Byte by byte, the low group first: the top bit says that another follows."""
    number = 0
    for place in range(GROUPS):
        if at + place >= len(data):
            raise Refused(7)
        follows, group = divmod(data[at + place], GROUP)
        number += group * GROUP ** place
        if not follows:
            if place > 0 and group == 0:
                raise Refused(8)                # fewer groups hold it
            return number, at + place + 1
    raise Refused(8)                            # one group more than a number has


def unfolded(number):
    """The coordinate, or the difference, that is stored so."""
    return number // 2 if number % 2 == 0 else -(number + 1) // 2


def head(data):
    """The form, the count of objects, and where they begin. The mark is taken once: behind it stands a count."""
    form = OLD
    number, at = stored_number(data, 0)
    if number == MARK:
        form = NEW
        number, at = stored_number(data, at)
    if number > MOST:
        raise Refused(11)
    return form, number, at


def read_place(data, at, start):
    """x and y, told by how far they are from a start, and where the next number begins."""
    place = []
    for coordinate in start:
        number, at = stored_number(data, at)
        place.append(coordinate + unfolded(number))
        if abs(place[-1]) > REACH:
            raise Refused(2)
    return tuple(place), at


def read_form(data):
    """The form of a stored drawing, and its objects, each a tuple (kind, px, py, qx, qy, tag). The old form has no place for a tag, which is
    0. In the new form q is told by its differences from p."""
    form, count, at = head(data)
    objects = []
    for _ in range(count):
        kind, at = stored_number(data, at)
        if not 1 <= kind <= 4:
            raise Refused(1)
        tag = 0
        if form == NEW:
            tag, at = stored_number(data, at)
            if tag > LAST_TAG:
                raise Refused(15)
        if kind == 4:
            side, at = stored_number(data, at)
            if not 1 <= side <= 4:
                raise Refused(4)
            objects.append((4, side, 0, 0, 0, tag))
            continue
        p, at = read_place(data, at, (0, 0))
        q, at = read_place(data, at, p if form == NEW else (0, 0))
        if p == q:
            raise Refused(3)
        objects.append((kind, *p, *q, tag))
    if at != len(data):
        raise Refused(9)
    return form, objects


def read(data):
    """The objects of a stored drawing of either form."""
    return read_form(data)[1]


def form_of(data):
    """The form of a stored drawing."""
    return read_form(data)[0]


def write_number(number):
    """In the fewest groups."""
    assert 0 <= number < GROUP ** GROUPS, 'no groups hold it'
    groups = [number % GROUP]
    while number := number // GROUP:
        groups.append(number % GROUP)
    return bytes([*(GROUP + group for group in groups[:-1]), groups[-1]])


def folded(coordinate):
    """The number that a coordinate, or a difference, is stored as."""
    return 2 * coordinate if coordinate >= 0 else -2 * coordinate - 1


def places(objects, form):
    """The numbers of a stored drawing in their order, each with the name of its place."""
    if form == NEW:
        yield 'mark', MARK
    yield 'count', len(objects)
    for kind, px, py, qx, qy, tag in objects:
        yield 'kind', kind
        if form == NEW:
            yield 'tag', tag
        if kind == 4:
            yield 'side', px
            continue
        yield from (('px', folded(px)), ('py', folded(py)))
        if form == NEW:
            yield from (('qx - px', folded(qx - px)), ('qy - py', folded(qy - py)))
        else:
            yield from (('qx', folded(qx)), ('qy', folded(qy)))


def write(objects, form=OLD):
    """The bytes of objects that are not refused."""
    assert refusal(form_refusals(objects, form)) == 0, 'the old form has no place for a tag'
    return b''.join(write_number(number) for _, number in places(objects, form))


def move(data, form):
    """The same drawing in a form, whichever it has: what reading it meets, then 16."""
    objects = read(data)
    for number in form_refusals(objects, form):
        raise Refused(number)
    return write(objects, form)


# ---- an object cut at the square from -R to R: the two ends of a closed segment, in its direction

def cut(obj, R):
    kind, px, py, qx, qy, _ = obj
    if kind == 4:
        corners = [(-R, R), (-R, -R), (R, -R), (R, R), (-R, R)]
        return corners[px - 1], corners[px]
    if kind == 1:
        return (px, py), (qx, qy)
    dx, dy = qx - px, qy - py
    # p + t d is in the square for t from low to high
    low, high = None, None
    for start, step in ((px, dx), (py, dy)):
        if step == 0:
            continue
        bounds = sorted((Fraction(-R - start, step), Fraction(R - start, step)))
        low = bounds[0] if low is None else max(low, bounds[0])
        high = bounds[1] if high is None else min(high, bounds[1])
    if kind == 2:
        low = Fraction(0)
    return (px + low * dx, py + low * dy), (px + high * dx, py + high * dy)


def turn(a, b, c):
    """Above 0 where c is left of the way from a to b."""
    return (b[0] - a[0]) * (c[1] - a[1]) - (b[1] - a[1]) * (c[0] - a[0])


def share(a, b):
    """What two closed segments have in common: None, a place, or 'many'."""
    (a0, a1), (b0, b1) = a, b
    s0, s1 = turn(a0, a1, b0), turn(a0, a1, b1)
    if s0 == 0 and s1 == 0:
        # on one line: order along it is order by x, then y
        low = max(min(a0, a1), min(b0, b1))
        high = min(max(a0, a1), max(b0, b1))
        if low > high:
            return None
        return low if low == high else 'many'
    t0, t1 = turn(b0, b1, a0), turn(b0, b1, a1)
    if s0 == s1 or t0 == t1:
        return None                      # parallel and apart
    if s0 * s1 > 0 or t0 * t1 > 0:
        return None
    part = Fraction(s0, 1) / (s0 - s1)
    return (b0[0] + part * (b1[0] - b0[0]), b0[1] + part * (b1[1] - b0[1]))


# ---- the report's determinant, section 3.3: a column for each point, the rows 1, x, y and x*x + y*y

# the ways to take one column for each of four rows, each with its sign: that of how many two of them stand the wrong way round
WAYS = [((-1) ** sum(a > b for a, b in combinations(way, 2)), way) for way in permutations(range(4))]


def determinant(rows):
    """Of four by four, by its definition."""
    a, b, c, d = rows
    return sum(sign * a[i] * b[j] * c[k] * d[l] for sign, (i, j, k, l) in WAYS)


def column(point, R):
    """1, x, y and x*x + y*y of the place at R, times w*w: then all four are whole, and the determinant keeps its sign."""
    mx, nx, my, ny, w = point
    x, y = mx * R + nx, my * R + ny
    return w * w, x * w, y * w, x * x + y * y


def side_of_circle(p, q, s, u, R):
    """1 where u is outside the circle through p, q and s, if these turn left, at R."""
    found = determinant(zip(*(column(point, R) for point in (p, q, s, u))))
    return (found > 0) - (found < 0)


# ---- what holds for every R, from two of them

def numbers(places):
    """The five numbers of a point from its places at the two frames."""
    R0, R1 = FRAMES
    parts = []
    for axis in (0, 1):
        slope = Fraction(places[1][axis] - places[0][axis], 1) / (R1 - R0)
        parts += [slope, places[0][axis] - slope * R0]
    w = 1
    for part in parts:
        w = w * part.denominator // gcd(w, part.denominator)
    return tuple(int(part * w) for part in parts) + (w,)


def agreed(found):
    """What is found at both frames."""
    first, second = found
    assert first == second, 'the two frames disagree'
    return first


def crossing(a, b, pieces):
    """None, 'many', or the five numbers. `pieces[i][k]` is object i cut at frame k."""
    found = [share(*cut_there) for cut_there in zip(pieces[a], pieces[b])]
    if agreed(what if what in (None, 'many') else 'point' for what in found) != 'point':
        return found[0]
    point = numbers(found)
    assert refusal(point_refusals(*point)) == 0, f'a crossing outside the limits for points: {point}'
    return point


def is_joint(a, b, pieces):
    """Whether the single place that two objects share is an end of both."""
    return agreed(share(one, other) in {*one} & {*other} for one, other in zip(pieces[a], pieces[b]))


def rows(objects, joints=True, only=None):
    """For each pair that shares something i, j, what it shares, and the tags of i and j: of all pairs, or of one object i with all later ones.
    Joints are left out where they are not asked for."""
    pieces = [[cut(o, R) for R in FRAMES] for o in objects]
    for i in range(len(objects)) if only is None else [only]:
        for j in range(i + 1, len(objects)):
            what = crossing(i, j, pieces)
            if what is not None and (joints or not is_joint(i, j, pieces)):
                yield i, j, what, objects[i][-1], objects[j][-1]


def row_numbers(objects, joints=True, only=None):
    """Each row is ten numbers: i, j, 1 for point or 2 for many, the five numbers (0 for many), and the tags of i and j."""
    return [number for i, j, what, *tags in rows(objects, joints, only)
            for number in (i, j, *((2, 0, 0, 0, 0, 0) if what == 'many' else (1, *what)), *tags)]


def listing(data):
    """What the program `list` prints for these bytes. It asks for joints."""
    try:
        objects = read(data)
    except Refused as no:
        return f'refused {no.number}\n'
    lines = [f'objects {len(objects)}']
    for i, j, what, *tags in rows(objects, joints=True):
        lines.append(' '.join(map(str, (i, j, *(['many'] if what == 'many' else ['point', *what]), *tags))))
    lines.append(f'rows {len(lines) - 1}')
    return '\n'.join(lines) + '\n'


def side(data, i, x, y):
    """What the viewer's call answers: the side of object i for whole x, y."""
    try:
        objects = read(data)
        if not 0 <= i < len(objects):
            raise Refused(13)
        if abs(x) > REACH or abs(y) > REACH:
            raise Refused(2)
    except Refused as no:
        return 100 + no.number
    kind, px, py, qx, qy, _ = objects[i]
    ends = cut(objects[i], FRAMES[0]) if kind == 4 else ((px, py), (qx, qy))
    t = turn(*ends, (x, y))
    return (t > 0) - (t < 0)
