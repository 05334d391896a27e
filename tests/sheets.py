"""Random sheets, each kind of them made to meet another corner of the rules; drawings of both forms, bytes damaged on their way, and with three
groups in every place; and points, with such as are none."""
import math
import reference
from reference import GROUP, GROUPS, MOST, REACH, LAST_TAG, OLD, NEW, MARK, WIDEST, FAR, NARROW, NEAR

I64 = 2**63
LARGEST = GROUP**GROUPS - 1  # stored number
FORMS = OLD, NEW


def pair(rng, reach):
    while True:
        numbers = [rng.randint(-reach, reach) for _ in range(4)]
        if numbers[:2] != numbers[2:]:
            return numbers


def objects(rng, reach, kinds, most):
    made = []
    for _ in range(rng.randint(0, most)):
        kind = rng.choice(kinds)
        made.append((4, rng.randint(1, 4), 0, 0, 0, 0) if kind == 4 else (kind, *pair(rng, reach), 0))
    return made


def diagonal(rng, most):
    """Lines at 45 degrees, many into corners, on few levels, and the four sides, in any order."""
    made = [(4, n, 0, 0, 0, 0) for n in range(1, 5)]
    for _ in range(rng.randint(0, most)):
        x, step = rng.randint(-2, 2), rng.choice((-3, -1, 1, 2))
        y = rng.choice((x, -x, rng.randint(-2, 2)))
        made.append((rng.choice((1, 2, 3)), x, y, x + step, y + rng.choice((step, -step)), 0))
    rng.shuffle(made)
    return made


def chain(rng, most):
    """Segments joined end to end, some running back over themselves."""
    x, y, made = 0, 0, []
    for _ in range(rng.randint(1, most)):
        dx, dy = rng.choice(((1, 0), (0, 1), (-1, 0), (2, 0), (1, 1), (-1, 1)))
        made.append((rng.choice((1, 1, 1, 2)), x, y, x + dx, y + dy, 0))
        x, y = x + dx, y + dy
    return made


def outline(rng, most):
    """A closed outline, and brackets from its corners and from places around, some of them on an edge; in any order, with arrows either way."""
    places = [(x, y) for x in range(-2, 3) for y in range(-2, 3)]
    corners = rng.sample(places, rng.randint(3, most))
    drawn = [(1, *edge) for edge in zip(corners, corners[1:] + corners[:1])]
    for start in rng.sample(corners, rng.randint(0, 2)) + rng.sample(places, rng.randint(0, 2)):
        drawn.append((rng.choice((1, 2)), start, rng.choice([place for place in places if place != start])))
    rng.shuffle(drawn)
    return [(kind, *p, *q, 0) for kind, *ends in drawn for p, q in [rng.sample(ends, 2)]]


def star(rng, most):
    """Segments, rays and lines from one place, or to it, some of them back to back."""
    x, y = (rng.randint(4 - REACH, REACH - 4) for _ in (0, 1))
    made = []
    for _ in range(rng.randint(2, most)):
        (dx, dy), size = rng.choice(((1, 0), (0, 1), (1, 1), (-2, 1))), rng.choice((-2, -1, 1, 2))
        p, q = rng.sample([(x, y), (x + size * dx, y + size * dy)], 2)
        made.append((rng.choice((1, 1, 2, 2, 3)), *p, *q, 0))
    return made


def wide(rng, most):
    """Coordinates beside the limit: the points have the largest numbers that there are, where two lie nearly along the two diagonals, or
    nearly along two opposite edges."""
    def beside(sign):
        return sign * (REACH - rng.choice((0, 0, 1, 2)))
    made = []
    for _ in range(rng.randint(2, most)):
        px, py, qx, qy = (beside(rng.choice((-1, 1))) for _ in range(4))
        made.append((rng.choice((1, 2, 3, 3)), px, py, qx, qy if (px, py) != (qx, qy) else -qy, 0))
    return made + [(4, rng.randint(1, 4), 0, 0, 0, 0)]


def sheet(rng):
    """With tags that are all 0, so that it can be stored in either form."""
    which = rng.randrange(9)
    if which == 0:
        return objects(rng, 2, (1, 2, 3), 10)
    if which == 1:
        return objects(rng, 3, (1, 2, 3, 4), 10)
    if which == 2:
        return objects(rng, REACH, (1, 2, 3, 4), 8)
    if which == 3:
        return diagonal(rng, 6)
    if which == 4:
        return chain(rng, 9)
    if which == 5:
        return outline(rng, 6)
    if which == 6:
        return star(rng, 7)
    if which == 7:
        return wide(rng, 8)
    return objects(rng, 40, (3, 4), 8)


# numbers beside those that take another byte
SIZES = GROUP - 1, GROUP, GROUP**2 - 1, GROUP**2


def tag(rng):
    """Often that of a few layers, else any, one of another size, or the last."""
    return rng.choice((0, rng.randint(0, 3), rng.randint(0, LAST_TAG), rng.choice(SIZES), LAST_TAG))


def tagged(rng, objects):
    """The same objects with tags, on all of them or on one alone."""
    chosen = rng.sample(range(len(objects)), rng.choice((len(objects), min(len(objects), 1))))
    return [(*one[:-1], tag(rng)) if at in chosen else one for at, one in enumerate(objects)]


def spoilt(rng, numbers):
    """One object made wrong, in one way or in two at once."""
    at, beyond = reference.WIDTH * rng.randrange(len(numbers) // reference.WIDTH), REACH + 1
    for _ in range(rng.randint(1, 2)):
        what = rng.randrange(5)
        if what == 0:
            numbers[at] = rng.choice((0, 5, -1, 2**63 - 1, -2**63))
        elif what == 1:
            numbers[at + rng.randint(1, 4)] = rng.choice((beyond, -beyond, beyond - 1, 1 - beyond, 2**63 - 1, -2**63))
        elif what == 2:
            numbers[at + 3:at + 5] = numbers[at + 1:at + 3]
        elif what == 3:
            numbers[at:at + 2] = [4, rng.choice((0, 1, 4, 5))]
        else:
            numbers[at + reference.WIDTH - 1] = rng.choice((-1, LAST_TAG + 1, 2**63 - 1, -2**63))


def numbers(rng):
    """The numbers of a sheet, one object after another, as a call takes them: every other sheet with tags, often with wrong objects, a length
    that is no multiple of six, or as many objects as may be and one more. The last one of so many has no kind: all pairs of them would take
    long to compare."""
    drawn = sheet(rng)
    made = [number for one in (tagged(rng, drawn) if rng.randrange(2) else drawn) for number in one]
    which = rng.randrange(6)
    if which == 0 and rng.randrange(4) == 0:
        made = (made or [4, 1, 0, 0, 0, 0]) * (MOST + 1)
        del made[reference.WIDTH * rng.choice((MOST, MOST + 1)):]
        made[-reference.WIDTH] = 0
    if which <= 2 and made:
        for _ in range(rng.randint(1, 3)):
            spoilt(rng, made)
    if which in (0, 3) and rng.randrange(2):
        made += [rng.choice((0, 1, 2, 5))] * rng.randint(1, reference.WIDTH - 1)
    return made


# ---- stored drawings

def damaged(rng, data):
    """Bytes cut off, added, or changed, often at a number's top bit; a number in the place of a byte, often of the count; or the mark of the new
    form put in front."""
    data = bytearray(data)
    for _ in range(rng.randint(1, 2)):
        what = rng.randrange(7)
        if what == 0 and data:
            del data[rng.randrange(len(data)):]
        elif what == 1:
            data += bytes(rng.choice((0, 1, 4, 127, 128, 255)) for _ in range(rng.randint(1, 3)))
        elif what == 2 and data:
            data[rng.randrange(len(data))] ^= 1 << rng.randrange(8)
        elif what == 3 and data:
            data[rng.randrange(len(data))] |= GROUP
        elif what == 4:
            data[:0] = reference.write_number(MARK)
        else:
            at = rng.randrange(len(data)) if what == 5 and data else 0
            data[at:at + 1] = reference.write_number(rng.choice((0, MOST - 1, MOST, MOST + 1, MARK, *SIZES, LAST_TAG, LAST_TAG + 1, LARGEST)))
    return bytes(data)


def misstated(rng, objects, form):
    """The bytes of a sheet with one number changed, by a little or for one beside a limit; often it is cut off behind that."""
    stated = [number for _, number in reference.places(objects, form)]
    at = rng.randrange(len(stated))
    beside = stated[at] + rng.randint(-8, 8)
    far = [reference.folded(sign * (size + more)) for sign in (-1, 1) for size in (REACH, 2 * REACH) for more in (0, 1)]
    stated[at] = rng.choice((max(beside, 0), max(beside, 0), rng.choice((0, MOST, MOST + 1, MARK, *SIZES, LAST_TAG, LAST_TAG + 1, LARGEST, *far))))
    if rng.randrange(3) == 0:
        del stated[at + 1:]
    return b''.join(map(reference.write_number, stated))


def drawing(rng):
    """The bytes of a sheet in either form; in the new one most have tags."""
    drawn = sheet(rng)
    if rng.randrange(2):
        return reference.write(drawn)
    return reference.write(tagged(rng, drawn) if rng.randrange(3) else drawn, NEW)


def stored(rng):
    """Bytes of all sorts: any at all, and those that matter to a reader, both behind the mark too; drawings; and drawings with a number that is
    wrong, or damaged."""
    which = rng.randrange(10)
    mark = rng.choice((b'', reference.write_number(MARK)))
    if which == 0:
        return mark + bytes(rng.randrange(256) for _ in range(rng.randint(0, 12)))
    if which == 1:
        return mark + bytes(rng.choice((0, 1, 2, 3, 4, 5, 127, 128, 129, 160, 255)) for _ in range(rng.randint(0, 24)))
    if which < 4:
        form = rng.choice(FORMS)
        return misstated(rng, tagged(rng, sheet(rng)) if form == NEW else sheet(rng), form)
    return drawing(rng) if which < 7 else damaged(rng, drawing(rng))


def longest(form):
    """The longest drawing of a form: every number that may be is as long as it can be."""
    tag = LAST_TAG if form == NEW else 0
    return reference.write([(1, -REACH, -REACH, REACH, REACH, tag)] * MOST, form)


def past_longest():
    """The longest drawing of each form, but its last number goes on past it, and is cut off there, has a last group of 0, a third group, or a
    fourth."""
    return [going_on(longest(form)) + more for form in FORMS for more in (b'', b'\0', b'\1', b'\x80', b'\x80\0')]


def through(objects, form, last):
    """The bytes of a drawing up to the first number of this name, which is there whole."""
    data = b''
    for place, number in reference.places(objects, form):
        data += reference.write_number(number)
        if place == last:
            return data


def at_the_limits():
    """Drawings with a number at its limit, or past it and then cut off there, each with what it meets: tags of every size; coordinates; in
    either form a q that is as far from p as it can be; and p equal to q in one coordinate, or in both."""
    side, names = (4, 2, 0, 0, 0), {OLD: ('px', 'py', 'qx', 'qy'), NEW: ('px', 'py', 'qx - px', 'qy - py')}
    for tag in (0, 1, *SIZES, LAST_TAG):
        yield 0, reference.write([(*side, tag), (1, 0, 0, 1, 1, tag)], NEW)
        yield 7, through([(*side, tag)], NEW, 'tag')
    for tag in (LAST_TAG + 1, LARGEST):
        yield 15, through([(*side, tag)], NEW, 'tag')
        yield 15, through([(1, 0, 0, 1, 1, tag)], NEW, 'tag')
    for form in FORMS:
        for axis in (0, 1):
            for far in (-REACH, REACH):
                ends = [0, 1, 0, 2] if axis == 0 else [1, 0, 2, 0]
                ends[axis], ends[axis + 2] = -far, far
                yield 0, reference.write([(1, *ends, 0)], form)
                for place in (axis, axis + 2):
                    past = ends.copy()
                    past[place] += 1 if past[place] > 0 else -1
                    yield 2, through([(1, *past, 0)], form, names[form][place])
                    yield 2, reference.write([(1, *past, 0)], form)
        for other in ((0, 1), (1, 0), (-1, 0), (0, -1)):
            yield 0, reference.write([(1, 7, -8, 7 + other[0], -8 + other[1], 0)], form)
        same = [(1, 7, -8, 7, -8, 0)]
        yield 7, through(same, form, names[form][2])
        yield 3, reference.write(same, form)


def behind_a_tag():
    """Drawings of the new form whose first object has a tag and which meet something behind it."""
    first, side = (1, 0, 0, 1, 1, 3), (4, 2, 0, 0, 0, 0)
    fine = reference.write([first, side], NEW)
    yield 9, fine + b'\0'
    yield 7, fine[:-1]
    yield 8, fine[:-1] + b'\x80\0'
    others = {1: (5, 0, 0, 1, 1, 0), 2: (1, 0, REACH + 1, 1, 1, 0), 3: (1, 4, 4, 4, 4, 0), 4: (4, 5, 0, 0, 0, 0), 15: (4, 2, 0, 0, 0, LAST_TAG + 1)}
    yield from ((refusal, reference.write([first, other], NEW)) for refusal, other in others.items())


# ---- three groups

# what a number of three groups meets in each place of a drawing; a tag, where it is above the last
MEETS = {'mark': 11, 'count': 11, 'kind': 1, 'tag': 15, 'side': 4, 'px': 2, 'py': 2, 'qx': 2, 'qy': 2, 'qx - px': 2, 'qy - py': 2}


def going_on(data):
    """The same bytes, but the last says that another group follows."""
    return data[:-1] + bytes((data[-1] | GROUP,))


def three_groups():
    """Drawings with three groups in the place of one number, each with the name of the place and with what is met there: a number as it should
    be, one that is cut off, one whose third byte says that another group follows, and one whose last group is 0. Who leaves a third group out,
    or bits beyond the sixteenth, finds the number that belongs there. Where it is not cut off, what stands behind it does not matter: the rest
    of the drawing, or nothing."""
    for form in FORMS:
        tags = (5, GROUP) if form == NEW else (0, 0)
        objects = [(1, 3, -64, 64, -REACH, tags[0]), (4, 2, 0, 0, 0, tags[1])] * 2
        numbers = [(place, reference.write_number(number)) for place, number in reference.places(objects, form)]
        for at, (place, own) in enumerate(numbers):
            front, rest = (b''.join(data for _, data in part) for part in (numbers[:at], numbers[at + 1:]))
            one, two = going_on(own[:1]), going_on(own).ljust(2, b'\x80')
            for groups in (one, two, b'\xff', b'\xff\xff'):
                yield place, 7, front + groups
            thirds, others = ((b'\x7b', b'\x7c'), (LAST_TAG + 1, LARGEST)) if place == 'tag' else ((b'\1', b'\4'), (GROUP**2, LAST_TAG, LARGEST))
            met = [(MEETS[place], groups) for groups in (*(two + third for third in thirds), *map(reference.write_number, others))]
            met += [(8, groups) for groups in (one + b'\0', two + b'\0', two + b'\x80', two + b'\x81', b'\xff\x80\0', b'\xff\xff\xff')]
            for refusal, groups in met:
                yield place, refusal, front + groups
                yield place, refusal, front + groups + rest


# ---- points

def reduced(*point):
    return tuple(n // math.gcd(*point) for n in point)


def standard_point(rng):
    far, wide = rng.choice(((FAR, WIDEST), (FAR, 9), (9, WIDEST), (9, 12), (10**6, 10**6)))
    n = [rng.choice((rng.randint(-far, far), rng.randint(-far, far), 0, far, -far)) for _ in (0, 1)]
    return reduced(0, n[0], 0, n[1], rng.choice((rng.randint(1, wide), wide)))


def frame_point(rng):
    wide, near = rng.choice(((NARROW, NEAR), (7, 9)))
    w = rng.choice((rng.randint(1, wide), wide))
    m = rng.choice((rng.randint(-w, w), rng.randint(-w, w), -w, 0, w))
    n = rng.choice((rng.randint(-near, near), 0, near, -near))
    if abs(m) == w:
        n = -abs(n) if m > 0 else abs(n)
    exact, along = (rng.choice((-w, w)), 0), (m, n)
    return reduced(*(exact + along if rng.randrange(2) else along + exact), w)


def near_point(rng):
    """A point changed a little, often no point any more."""
    point = list(rng.choice((standard_point, frame_point))(rng))
    what, at, factor = rng.randrange(4), rng.randrange(5), rng.choice((2, 3, -1))
    if what == 0:
        return tuple(n * factor for n in point)
    if what == 1:
        point[at] += rng.choice((-1, 1))
    elif what == 2:
        point[at] = rng.choice((0, -point[at], WIDEST + 1, NARROW + 1, NEAR + 1, FAR + 1, -FAR - 1, I64 - 1, -I64))
    else:
        return tuple(rng.choice((rng.randint(-2, 2), rng.randrange(-I64, I64))) for _ in point)
    return tuple(point)
