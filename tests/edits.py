"""The wrong programs of crates/*/must-fail, and whether the prover refused each.

An edit file has one fault. Of one in functions its first line is a comment, `# fault: NAME in FUNCTION`, with the function's folder under proofs/;
without such a line it is a fault of a definition or of a limit, named as the file is. `rt ci` applies each to the crate as it stands, which is
proved, so that what is refused is this one fault; and it says which it could not apply, compile or read, which fails ./test, and which were
refused only because a name is gone or a limit is met, which shows nothing of a contract. Of the rest it says the first reason: that must be that
a fact does not hold, and stand in the fault's own function, where that has a proof file; a fault in a contract may show at a caller.
"""
import collections, glob, os, re
import source

# functions: the folders of those that the fault is in, none for a fault of a definition. changes: (file, old text, new text).
Fault = collections.namedtuple('Fault', 'name functions changes')

NAMED = re.compile(r'# fault: (\S+) in (\S+(?:, \S+)*)')
LOG = 'target/ci.log'  # what `rt ci` said
REFUSED = 'refused, as it must be'
# Where a reason stands, and its sentence.
REASON = re.compile(r'(note: )?(?:\./)?((?:src|specs|proofs)/[^:]+):\d+:\d+: (?:error: )?(?:`[^`]*`: )?(.*)')
# How the prover says that a fact does not hold. All else it says, known or not, shows nothing.
FACT = re.compile('|'.join((
    r'it is not proved that ',
    r'as printed, the two (types|values|sides) (first differ|differ|are identical apart)',
    r'computed as far as they go, the two (types|values|sides|indices) (are `|(first )?differ)',
    r'`[^`]*`\s+≟ `[^`]*`',
    r'expected type `',
    r'on the face `',
    r'give a proof of that as the last argument, `simp L t`',
    r'`search`: no proof of `',
    r'`omega`: the goal does not follow from what it read')))


def read(path):
    """The fault of an edit file, read as rt reads it: a line that it does not know is passed over."""
    named, file, old, changes = None, None, None, []
    for line in open(path).read().split('\n'):
        if found := NAMED.fullmatch(line):
            named = named or found
        elif line.startswith('file: '):
            file = line[len('file: '):].strip()
        elif line.startswith('old: '):
            old = line[len('old: '):]
        elif line.startswith('new:'):
            changes.append((file, old or '', line[len('new:'):].removeprefix(' ')))
            old = None
    return Fault(named[1], named[2].split(', '), changes) if named else Fault(os.path.basename(path)[:-len('.edit')], [], changes)


def edit_files(root, crate):
    return sorted(glob.glob(f'{root}/crates/{crate}/must-fail/*.edit'))


def names(root, crate):
    """The names of all faults of a crate; one that stands twice is there twice."""
    return [read(path).name for path in edit_files(root, crate)]


def files_of(crate):
    """The files of a crate that are proved, by their names in it."""
    return {os.path.relpath(path, crate): open(path).read() for part in ('src', 'specs', 'proofs')
            for path in glob.glob(f'{crate}/{part}/**/*', recursive=True) if os.path.isfile(path)}


def named_functions(fault):
    """The functions that a fault names. Those of a cycle of calls have one proof, and its folder has their names, each behind a `+`."""
    for path in fault.functions:
        folder, name = os.path.split(path)
        yield from (os.path.join(folder, one) for one in name.split('+') if one)


def functions_at(file, at, files):
    """The functions in whose body or contract a place is."""
    return [one for one in (source.functions_of(file, files[file]) if file.endswith('.rt') else []) if one.body and one.at < at < one.body[1]]


def apply(path, files):
    """Changes the files as an edit file says, and gives what is wrong with the edit."""
    fault = read(path)
    lines = [line for line in open(path).read().split('\n') if re.match(r'(# *)?fault', line)]
    yield from (f'no fault: {line}' for line in lines if not NAMED.fullmatch(line))
    if len(lines) > 1:
        yield 'it names more than one fault'
    if not fault.changes:
        yield 'it has no fault'
    changed, outside = set(), False
    for file, old, new in fault.changes:
        text = files.get(file, '')
        if not old or text.count(old) != 1:
            yield f'{fault.name}: its old text does not stand once in {file}'
            continue
        inside = {one.path for one in functions_at(file, text.index(old), files)}
        changed |= inside
        outside |= not inside
        files[file] = text.replace(old, new)
    if fault.functions and (outside or changed != set(named_functions(fault))):
        yield f'{fault.name}: it is not in {", ".join(fault.functions)}, each of them and nothing else'


def said(root):
    """What `rt ci` said of each edit, by the crate and the file."""
    path = f'{root}/{LOG}'
    log = open(path, errors='replace').read() if os.path.exists(path) else ''
    return {(crate, file): words for crate, file, words in re.findall(r'(?m)^rt: must-fail (\w+)/(\S+\.edit): (.*)$', log)}


def may_show_elsewhere(fault, files):
    """Whether a fault changes a contract, whose callers the prover may refuse first, or is one of no function."""
    return not fault.functions or any(one.at < files[file].find(old) < one.body[0] for file, old, _ in fault.changes if file.endswith('.rt')
                                      for one in source.functions_of(file, files[file]) if one.body)


def unshown(words, fault, files):
    """Why what was said of an edit does not show that its fault is refused, or None. files: those of the crate, as they are."""
    if words is None:
        return 'it was not tried'
    if not words.startswith(REFUSED):
        return 'it was not refused'
    why = re.match(r' \((only [^,:]*)', words[len(REFUSED):])
    if why:
        return f'refused {why[1]}'
    reason = REASON.fullmatch(words[len(REFUSED):].removeprefix(': '))
    if not reason or not FACT.match(reason[3]):
        return f'refused for another reason than a fact{words[len(REFUSED):]}'
    own = [f'proofs/{folder}/' for folder in fault.functions]
    if reason[2].startswith('proofs/') and not reason[2].startswith(tuple(own)) and not may_show_elsewhere(fault, files):
        return f'refused at {reason[2]}, and not in {", ".join(fault.functions)}'
    return None


def complaints(root):
    """What is wrong with the edits of a repository, and with what became of them in the last run."""
    told = said(root)
    for crate in source.crates(root):
        every = names(root, crate)
        yield from (f'{crate}: two faults have the name {name}' for name in sorted({name for name in every if every.count(name) > 1}))
        for path in edit_files(root, crate):
            here = os.path.relpath(path, root)
            files = files_of(f'{root}/crates/{crate}')
            yield from (f'{here}: {words}' for words in apply(path, dict(files)))
            why = unshown(told.get((crate, os.path.basename(path))), read(path), files)
            if why is not None:
                yield f'{here}: {why}'
