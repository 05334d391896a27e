"""The picture of the side of circle, docs/pictures/circle.svg, from the signs that the library answers for each point of a grid.
`tests/47-circle picture` prints it."""
import math

REACH, MM = 8, 20                                       # the grid is from -8 to 8 mm; pixels a millimetre
PANELS = (('p, q, s turn left', ((5, 0), (0, 5), (-3, -4))),
          ('p, q, s turn right', ((5, 0), (-3, -4), (0, 5))),
          ('p, q, s on one line', ((-4, -2), (0, 0), (4, 2))))
CENTRE, RADIUS = (0, 0), 5                              # of the circle through the first three, and through the second
LEFTS, TOP, FOOT = (40, 420, 800), 80, 460
COLOURS = {1: '#D55E00', 0: 'black', -1: '#0072B2'}
NAMES = {1: '1', 0: '0', -1: '-1'}
LENGTH, SPREAD = 12, 0.4                                # of an arrowhead, in pixels; to either side, in radians


def grid():
    """The points that are asked for, row by row from the top."""
    return [(x, y) for y in range(REACH, -REACH - 1, -1) for x in range(-REACH, REACH + 1)]


def spot(left, place):
    return left + (place[0] + REACH) * MM, TOP + (REACH - place[1]) * MM


def arrow(left, a, b):
    """The way from one of the three to the next, with a head."""
    (x1, y1), (x2, y2) = spot(left, a), spot(left, b)
    angle = math.atan2(y2 - y1, x2 - x1)
    x2, y2 = x2 - 7 * math.cos(angle), y2 - 7 * math.sin(angle)
    back = [(x2 - LENGTH * math.cos(angle + turn), y2 - LENGTH * math.sin(angle + turn)) for turn in (-SPREAD, SPREAD)]
    yield f'<line x1="{x1:g}" y1="{y1:g}" x2="{x2:.1f}" y2="{y2:.1f}" stroke="#555" stroke-width="1.5"/>'
    yield '<polygon points="' + ' '.join(f'{x:.1f},{y:.1f}' for x, y in ((x2, y2), *back)) + '" fill="#555"/>'


def panel(left, title, three, signs):
    yield f'<text x="{left}" y="50" font-size="17">{title}</text>'
    for place, sign in zip(grid(), signs, strict=True):
        x, y = spot(left, place)
        if sign == 1:
            yield f'<circle cx="{x:g}" cy="{y:g}" r="3.5" fill="none" stroke="{COLOURS[1]}" stroke-width="1.5"/>'
        else:
            yield f'<circle cx="{x:g}" cy="{y:g}" r="4" fill="{COLOURS[sign]}"/>'
    yield from arrow(left, three[0], three[1])
    yield from arrow(left, three[1], three[2])
    for name, place in zip('pqs', three):
        x, y = spot(left, place)
        yield f'<circle cx="{x:g}" cy="{y:g}" r="6.5" fill="white" stroke="black" stroke-width="2"/>'
        yield f'<text x="{x + 9:g}" y="{y - 9:g}" font-weight="bold" stroke="white" stroke-width="4" paint-order="stroke">{name}</text>'


def picture(answers):
    """The whole picture; for each panel the signs of its grid."""
    yield '<svg xmlns="http://www.w3.org/2000/svg" width="1160" height="500" viewBox="0 0 1160 500" font-family="DejaVu Sans, Verdana, sans-serif" font-size="14">'
    yield '<title>The side of circle: where the three turn left 1 is outside and -1 inside, where they turn right the other way round</title>'
    yield '<rect width="100%" height="100%" fill="white"/>'
    for left, (title, three), signs in zip(LEFTS, PANELS, answers, strict=True):
        if title != PANELS[2][0]:
            x, y = spot(left, CENTRE)
            yield f'<circle cx="{x:g}" cy="{y:g}" r="{RADIUS * MM}" fill="none" stroke="#999" stroke-width="1.5"/>'
        yield from panel(left, title, three, signs)
    x = LEFTS[0]
    for sign in (1, 0, -1):
        yield f'<circle cx="{x + 6}" cy="{FOOT - 5}" r="4" fill="{"none" if sign == 1 else COLOURS[sign]}" stroke="{COLOURS[sign]}" stroke-width="1.5"/>'
        yield f'<text x="{x + 18}" y="{FOOT}">the answer is {NAMES[sign]}</text>'
        x += 160
    yield f'<text x="{LEFTS[0]}" y="{FOOT + 24}" font-size="12">Each mark is what side_of_circle answers for p, q, s and that point; the grey circle is drawn beside it.</text>'
    yield '</svg>'
