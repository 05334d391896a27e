"""The examples that README.md names: each there whole, as hex text, as bytes and with its listing, and the listing is right."""
import os, re

# Name, and what its listing begins with: the sheet of document 01, a door portal, a sheet with every kind, one in the new form whose layers have
# tags, an outline with brackets, a damaged file.
EXAMPLES = {'worked': 'objects', 'portal': 'objects', 'kinds': 'objects', 'layers': 'objects', 'brackets': 'objects', 'damaged': 'refused'}
FORMS = ('hex', 'drawing', 'listing')
HOW_MANY = ('no', 'one', 'two', 'three', 'four', 'five', 'six', 'seven', 'eight')[len(EXAMPLES)]


def complaints(root, printers):
    """What is wrong with the examples. A printer gives the listing of bytes; each has a name."""
    there = set(os.listdir(f'{root}/examples')) if os.path.isdir(f'{root}/examples') else set()
    if f'`examples/` has {HOW_MANY} drawings' not in open(f'{root}/README.md').read():
        yield f'README.md does not say that `examples/` has {HOW_MANY} drawings'
    named = {f'{name}.{form}' for name in EXAMPLES for form in FORMS}
    yield from (f'examples/{file} is not there' for file in sorted(named - there))
    yield from (f'examples/{file} belongs to no example' for file in sorted(there - named))
    for name, begins in EXAMPLES.items():
        if not {f'{name}.{form}' for form in FORMS} <= there:
            continue
        text = re.sub(r'#.*', '', open(f'{root}/examples/{name}.hex').read())
        data = open(f'{root}/examples/{name}.drawing', 'rb').read()
        listing = open(f'{root}/examples/{name}.listing').read()
        if bytes.fromhex(text) != data:
            yield f'{name}: the hex text is not the bytes'
        if not listing.startswith(begins + ' '):
            yield f'{name}: the listing does not begin with `{begins}`'
        yield from (f'{name}: {who} does not print the listing' for who, printed in printers.items() if printed(data) != listing)
