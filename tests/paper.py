"""docs/PAPER.md's last column: what notices a rule that is wrong in its definition and in the code alike. An entry is `NAME`, `NAME` (`file`)."""
import os, re

# sections whose every row has a rule with a number or an order
RULES = ('Points', 'Ends', 'Signs', 'Crossing', 'Numbers that say no', 'Stored drawing', 'Listing', 'On the screen', 'R-9: one refusal fewer',
         'R-13: a smaller frame is enough', 'R-4: parallel arrowheads land on one spot', 'R-12: side of circle',
         'R-5: the common divisor in another order of work', 'R-1: layer tag on every object', 'R-2: three groups', 'R-3: a shorter stored form, and the way back')
COLUMN = 'Noticed by'
CASES = 'worked/stdout'  # each line begins with its case
ESCAPED = '\\|'  # a bar that ends no cell


def cells(line):
    return [cell.replace('\0', '|').strip() for cell in line.replace(ESCAPED, '\0').strip().strip('|').split('|')]


def sections(text):
    """The name of each section, with the rows of its table, the head first."""
    for part in re.split(r'(?m)^## ', text)[1:]:
        name, *lines = part.split('\n')
        yield name, [cells(line) for line in lines if line.startswith('|') and not line.startswith('|--')]


def entries(cell):
    """Each name with the file that it stands in."""
    for names, place in re.findall(r'((?:`[^`]+`, )*`[^`]+`) \(`([^`]+)`\)', cell):
        yield from ((name, place) for name in re.findall(r'`([^`]+)`', names))


def declared(root, name, place):
    """Why nothing of this name would notice anything there, or None."""
    if place.startswith('tests/'):
        path = os.path.join(root, place)
        pattern = rf'(?<![\w-]){re.escape(name)}(?![\w-])'
    elif place == CASES:
        path = os.path.join(root, 'crates', place)
        pattern = rf'(?m)^{re.escape(name)} '
    else:
        # a definition file: a field of a record or a theorem, of a module that is checked with its crate
        folder, module = os.path.split(place)
        path = os.path.join(root, f'crates/{place}.antt')
        pattern = rf'(?m)^ *(?:pub )?(?:record )?{re.escape(name)} [^=\n]*:'
        library = os.path.join(root, f'crates/{folder}/Lib.antt')
        if not os.path.exists(library) or f'pub mod {module}\n' not in open(library).read():
            return f'{place} is no module of its crate'
    if not os.path.exists(path):
        return f'there is no {place}'
    return None if re.search(pattern, open(path).read()) else f'{name} is not in {place}'


def complaints(root):
    found = dict(sections(open(os.path.join(root, 'docs/PAPER.md')).read()))
    for section in RULES:
        if len(found.get(section, [])) < 2:
            yield f'{section}: no rows'
    for section, rows in found.items():
        head, *rows = rows or [[]]
        if COLUMN not in head:
            if section in RULES:
                yield f'{section}: no column {COLUMN}'
            continue
        at = head.index(COLUMN)
        for row in rows:
            named = list(entries(row[at])) if len(row) == len(head) else []
            if section in RULES and not named:
                yield f'{section}: nothing notices: {row[0]}'
            for entry in named:
                why = declared(root, *entry)
                if why is not None:
                    yield f'{section}: {why}: {row[0]}'
