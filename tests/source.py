"""The functions of a crate's src/: where each stands, what its contract has, where its body is."""
import collections, glob, os, re

# path: its folder under proofs/, `lists/list_refusal`. method: in an `impl`. public: `pub` and no more. clauses: (`ensures`, its text) and so on.
# at: where it begins in its file. body: the places of its first and last brace, None where it has none. lines: its first and last.
Function = collections.namedtuple('Function', 'path name file method public clauses at body lines')

CLAUSE = re.compile(r'(requires|ensures|ghost)\b\*?\s*\w*\s*(?=\{)')


def plain(text):
    """The text without comments and without what strings and letters hold, but for the "C" of `extern`, each other letter at its place."""
    def blank(found):
        return found[0] if found[0] == '"C"' else re.sub(r'[^\n]', ' ', found[0])
    return re.sub(r'//[^\n]*|b?"(?:\\.|[^"\\])*"|b?\'(?:\\.|[^\'\\])\'', blank, text)


def closing(text, at):
    """The place of the bracket that closes the one at a place."""
    depth = 0
    for place in range(at, len(text)):
        depth += (text[place] in '([{') - (text[place] in ')]}')
        if depth == 0:
            return place
    raise ValueError(f'nothing closes the bracket at {at}')


def kind_of(head):
    """The folder of an `impl`, by what stands between `impl` and its brace: a type's name, or of a trait's `impl` the type's, the trait's and what
    the trait is of, as `I64FromRefusal` for `From<Refusal> for i64`. Lifetimes and the parameters of the `impl` itself have no part in it."""
    head = re.sub(r"'\w+", '', head)
    own = re.match(r'\s*<([^>]*)>', head)
    trait, _, kind = head[own.end() if own else 0:].rpartition(' for ')
    taken = [part.split(':')[0].strip() for part in own[1].split(',')] if own else []
    names = [name for part in (kind, trait) for name in re.findall(r'(?:\w+::)*(\w+)', part) if name not in taken]
    return ''.join(name[0].upper() + name[1:] for name in names)


def functions_of(file, text):
    """The functions of one file of src/, in order."""
    module = [] if file in ('src/lib.rt', 'src/main.rt') else file[len('src/'):-len('.rt')].split('/')
    text = plain(text)
    kinds = [(kind_of(found[1]), found.start(), closing(text, found.end() - 1)) for found in re.finditer(r'(?m)^impl\b([^{]*)\{', text)]
    for found in re.finditer(r'(?:\b(pub(?:\s*\([^)]*\))?)\s+)?(?:extern\s+"C"\s+)?\bfn\s+(\w+)[^(]*\(', text):
        at = closing(text, found.end() - 1) + 1
        while not (text[at] in '{;' or CLAUSE.match(text, at)):
            at = closing(text, at) + 1 if text[at] in '([' else at + 1
        clauses = []
        while clause := CLAUSE.match(text, at):
            end = closing(text, clause.end())
            clauses.append((clause[1], text[clause.end() + 1:end]))
            at = re.compile(r'\s*').match(text, end + 1).end()
        end = closing(text, at) if text[at] == '{' else at
        inside = [kind for kind, first, last in kinds if first < found.start() < last]
        yield Function('/'.join([*module, *inside, found[2]]), found[2], file, bool(inside), found[1] == 'pub', clauses, found.start(),
                       (at, end) if end > at else None, (text.count('\n', 0, found.start()) + 1, text.count('\n', 0, end) + 1))


def sources(crate):
    """The files of a crate's src/, by their names in it."""
    return {os.path.relpath(path, crate): open(path).read() for path in sorted(glob.glob(f'{crate}/src/**/*.rt', recursive=True))}


def functions(crate):
    """Every function of the crate that stands in a folder."""
    return [one for file, text in sources(crate).items() for one in functions_of(file, text)]


def derived(crate):
    """The traits that the compiler writes for the types of a crate, by the folder that their methods have, as `refusal/RefusalDebug`."""
    for file, text in sources(crate).items():
        module = [] if file in ('src/lib.rt', 'src/main.rt') else file[len('src/'):-len('.rt')].split('/')
        for found in re.finditer(r'#\[derive\(([^)]*)\)\]\s*(?:#\[[^\]]*\]\s*)*(?:pub(?:\s*\([^)]*\))?\s+)?(?:struct|enum)\s+(\w+)', plain(text)):
            yield from ('/'.join([*module, found[2] + one]) for one in re.findall(r'\w+', found[1]))


def crates(root):
    """The crates of crates.txt, each with what it stands on."""
    lines = [line.split('#')[0] for line in open(f'{root}/crates.txt')]
    return {line.split()[0].rstrip(':'): line.split(':')[1].split() for line in lines if ':' in line}


def is_static(root, crate):
    """Whether a crate is a static library, for C."""
    return any(line.split('#')[0].split()[:2] == [crate, 'staticlib'] for line in open(f'{root}/crates.txt').read().replace(':', ' ').split('\n'))


def is_library(root, crate):
    """Whether a crate is a library for other crates."""
    return os.path.exists(f'{root}/crates/{crate}/src/lib.rt') and not is_static(root, crate)


SYSTEM = r'\b(?:std\s*::\s*(?:io|fs|env)|HostRuntime)\b'   # what of std asks the system


def of_the_programs(root, crate):
    """Whether a library is the programs' alone: it asks the system, so that what it stands on assumes what C functions do."""
    return is_library(root, crate) and any(re.search(SYSTEM, plain(text)) for text in sources(f'{root}/crates/{crate}').values())


def asking(crate):
    """The functions of a crate that ask the system: their parameters or their bodies have what stands for it, or they call another that asks."""
    texts = {file: plain(text) for file, text in sources(crate).items()}
    bodies = {one.path: (one.name, text[one.at:one.body[1]]) for file, text in texts.items() for one in functions_of(file, text) if one.body}
    brought = {name for text in texts.values() for item in re.findall(r'\buse\s+(std\s*::[^;]*);', text) if re.search(SYSTEM, item)
               for name in re.findall(r'\w+', item)} - {'std', 'self', 'Result', 'Error'}
    calls, found = '|'.join([SYSTEM, *(rf'\b{name}\b' for name in sorted(brought))]), set()
    while more := {path for path, (_, body) in bodies.items() if path not in found and re.search(calls, body)}:
        found |= more
        calls = '|'.join([calls, *(rf'\b{bodies[path][0]}\s*\(' for path in more)])
    return found


def public(crate):
    """The public functions of a library: each `pub fn` of an `impl`, of lib.rt, and of what lib.rt declares by `pub mod`."""
    shown = re.findall(r'\bpub\s+mod\s+(\w+)\s*;', plain(open(f'{crate}/src/lib.rt').read())) + ['lib']
    return [one for one in functions(crate) if one.public and (one.method or re.split(r'[/.]', one.file)[1] in shown)]
