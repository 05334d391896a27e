"""The picture of two parallel gauge lines, docs/pictures/arrowheads.svg, from the places of their ends. A place is drawn on a frame whose R is
6 mm: along its side at slope times R, plus offset. `tests/45-places picture` prints it, from what the library answers."""
import math

LINES = {'(0, 1) to (2, 2)': (3, 0, 1, 2, 2, 0), '(0, 0) to (2, 1)': (3, 0, 0, 2, 1, 0)}  # those of rows 4 and 6
COLOURS = ('#0072B2', '#D55E00')
R, MM = 6, 30                                                                             # in millimetres; pixels a millimetre
TOP, LEFTS, LEGEND, FOOT = 80, (40, 580), (470, 490), 515                                 # of the two frames, the lines' names and the last words
LENGTH, SPREAD = 20, 0.4                                                                  # of an arrowhead, in pixels; to either side, in radians


def spot(left, side, along):
    """Pixels of a place on a frame: sides 1 and 3 are x = -R and x = R, sides 2 and 4 are y = -R and y = R."""
    x, y = {1: (-R, along), 2: (along, -R), 3: (R, along), 4: (along, R)}[side]
    return left + (x + R) * MM, TOP + (R - y) * MM


def head(tip, way):
    """An arrowhead: its three corners."""
    angle = math.atan2(way[1], way[0])
    back = [(tip[0] - LENGTH * math.cos(angle + turn), tip[1] - LENGTH * math.sin(angle + turn)) for turn in (-SPREAD, SPREAD)]
    return ' '.join(f'{x:.1f},{y:.1f}' for x, y in (tip, *back))


def frame(left, title, places, offsets):
    """The lines, each with an arrowhead where its last end is shown and a ring where its first end is: with their offsets or without."""
    size, labels = 2 * R * MM, {}
    yield f'<text x="{left}" y="50" font-size="17">{title}</text>'
    yield f'<rect x="{left}" y="{TOP}" width="{size}" height="{size}" fill="#f4f4f4" stroke="black" stroke-width="2"/>'
    for (first, last), colour in zip(places, COLOURS):
        (x1, y1), (x2, y2) = [spot(left, side, slope * R + offset) for side, slope, offset in (first, last)]
        yield f'<line x1="{x1:g}" y1="{y1:g}" x2="{x2:g}" y2="{y2:g}" stroke="{colour}" stroke-width="2"/>'
        way = x2 - x1, y2 - y1
        (x1, y1), (x2, y2) = [spot(left, side, slope * R + (offset if offsets else 0)) for side, slope, offset in (first, last)]
        yield f'<circle cx="{x1:g}" cy="{y1:g}" r="6" fill="none" stroke="{colour}" stroke-width="2"/>'
        yield f'<polygon points="{head((x2, y2), way)}" fill="{colour}"/>'
        labels[x2 + 8, y2 + 5] = 'side {}, slope {:g}'.format(*last) + (f', offset {last[2]:g}' if offsets else '')
    for (x, y), words in labels.items():  # one label a spot
        yield f'<text x="{x:g}" y="{y:g}">{words}</text>'


def picture(places):
    """The whole picture; of each line the places of its first and of its last end, each as side, slope and offset."""
    yield '<svg xmlns="http://www.w3.org/2000/svg" width="1140" height="530" viewBox="0 0 1140 530" font-family="DejaVu Sans, Verdana, sans-serif" font-size="14">'
    yield '<title>Two parallel gauge lines: by side and slope alone both arrowheads are on one spot, with the offset each is on its line</title>'
    yield '<rect width="100%" height="100%" fill="white"/>'
    yield from frame(LEFTS[0], 'By side and slope: one arrowhead over the other', places, False)
    yield from frame(LEFTS[1], 'By side, slope and offset: each on its line', places, True)
    for y, name, colour in zip(LEGEND, LINES, COLOURS):
        yield f'<text x="{LEFTS[0]}" y="{y}" fill="{colour}">line {name}</text>'
    yield f'<text x="{LEFTS[0]}" y="{FOOT}" font-size="12">R is larger than any number that is given; here it is drawn as {R} mm. An arrowhead is at slope times R, plus offset.</text>'
    yield '</svg>'
