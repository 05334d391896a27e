"""What is said of the public functions, and whether it is so: their contracts, docs/STATEMENTS.md, and what the proofs assume."""
import glob, os, re
import edits, source

EQUAL, SHUT_OUT = 'Two answers are equal', 'Shut out'
SYSTEM = 'none: the system answers'     # for a theorem that two answers are equal, where a function of the programs' libraries asks the system
CALLS = 'crates/refusals/specs/Calls.antt'
NOTHING = ('', '⊤', '⊤ₛ')      # clauses that say nothing
FOR_C = 'silvanelga_'          # how the names of the calls for C begin
UNREFUSED = {  # these never refuse
    ('whole', 'sign'), ('whole', 'size'), ('whole', 'gcd'), ('whole', 'or_else'),
    ('sheet', 'Point/given'), ('sheet', 'Point/corner'), ('sheet', 'is_beyond'), ('sheet', 'are_equal'), ('sheet', 'lists/object_at'),
    ('sheet', 'refusal/Unfilled/needed'), ('sheet', 'lent/behind'), ('sheet', 'lent/put_byte'), ('sheet', 'lent/put_numbers'),
    ('number', 'stored_size'), ('number', 'put_stored'),
    ('decimal', 'put_text'), ('decimal', 'put_sized'), ('decimal', 'put_number'), ('decimal', 'put_field'), ('decimal', 'put_fields'),
    ('screen', 'boxes/nothing'), ('store', 'start'), ('store', 'open_reader'),
    ('trial', 'silvanelga_trial_put'),
    ('stream', 'front'), ('stream', 'output/Output/hand_on'), ('stream', 'input/read_bytes'), ('stream', 'status/status_of'), ('stream', 'status/tell'),
}


def proved(root):
    """What `rt ci` said of the proof of each crate; nothing of one that an earlier run proved, and kept."""
    path = f'{root}/{edits.LOG}'
    log = open(path, errors='replace').read() if os.path.exists(path) else ''
    return {crate: '' for crate in re.findall(r'(?m)^rt: (\w+) is kept: ', log)} | dict(re.findall(r'(?ms)^== (\w+)\n(.*?)^rt: \1 proved$', log))


def unread(root, crate, said):
    """Of the functions that a crate's log tells to be proved those that do not stand in src/, and do not come from what stands there either: a
    method of a derive, a closure, a function that is handed on by its name, a program's start. And whether the verdict counts as many as are told;
    it counts no closure and no start."""
    folder, counted = f'{root}/crates/{crate}', set()
    read = {one.path.replace('/', '::') for one in source.functions(folder)}
    derived = {one.replace('/', '::') for one in source.derived(folder)}
    for name in dict.fromkeys(re.findall(rf'(?m)^fn {crate}::(\S+): proved\b', said)):
        if name == 'main+run':
            continue
        closure, handed = re.fullmatch(r'((?:\w+::)*)fn::(\S+)', name), re.fullmatch(r'(?:\w+::)*(\S+?)\+Fn(?:Once|Mut)?::call\w*', name)
        if closure:
            known = any((closure[1] + closure[2]).startswith(f'{one}::') for one in read)
        elif handed:
            home, *rest = handed[1].split('++')
            known = rest and (home not in source.crates(root) or '/'.join(rest) in {one.path for one in source.functions(f'{root}/crates/{home}')})
        else:
            known = name in read or name.rpartition('::')[0] in derived
        counted |= set() if closure else {name}
        if not known:
            yield f'{crate}: {name} is proved, and stands in no file of src/'
    for number in re.findall(r'(?m)^logic=proved functions=(\d+)', said):
        if int(number) != len(counted):
            yield f'{crate}: {number} functions are proved, and {len(counted)} are named'


def assumptions(root):
    """What a crate takes without proof. The prover says so in its verdict (`foreign=`, `axioms=`) and refuses an `axiom` of its own language; `rt
    ci` refuses C functions. A library that asks the system takes over what the kit's libraries assume, without a word in its own verdict. It is
    the programs' then, and no other library stands on it."""
    crates, said_of = source.crates(root), proved(root)
    for crate, below in crates.items():
        folder, said = f'{root}/crates/{crate}', said_of.get(crate)
        verdicts = re.findall(r'(?m)^logic=proved .*$', said or '')
        if said is None or said and len(verdicts) != 1:
            yield f'{crate}: its log has no verdict'
            continue
        for verdict in verdicts:
            told = set(re.findall(r'(?m)^fn (\S+): proved$', said))
            yield from (f'{crate}: {one.path} is not among the functions that are proved' for one in source.functions(folder)
                        if one.body and f'{crate}::{one.path.replace("/", "::")}' not in told)
            yield from unread(root, crate, said)
            if 'foreign=' in verdict or re.search(r'(?m)^fn .*: assumed', said):
                yield f'{crate}: it assumes contracts of C functions'
        for taken in re.findall(r'(?m)^axioms (\w+): (?!none reached )', said):
            if taken in crates or not os.path.exists(f'{folder}/src/main.rt') and not source.of_the_programs(root, crate):
                yield f'{crate}: it rests on what {taken} assumes'
        for file, text in source.sources(folder).items():
            if re.search(r'\bextern\s+"C"\s*\{', source.plain(text)):
                yield f'{crate}: {file} declares C functions'
        for path in sorted(glob.glob(f'{folder}/specs/**/*.antt', recursive=True) + glob.glob(f'{folder}/proofs/**/*.antt', recursive=True)):
            if re.search(r'(?m)^\s*axiom\b|\bPrim\.Axiom\b', open(path).read()):
                yield f'{crate}: {os.path.relpath(path, folder)} has an axiom'
        if not os.path.exists(f'{folder}/src/main.rt'):
            yield from (f'{crate}: it is a library, and stands on {name}, which is the programs\'' for name in below
                        if name in crates and source.of_the_programs(root, name))


def contracts(root):
    """Every public function has a contract of its own that asks nothing and says something."""
    for crate in source.crates(root):
        folder = f'{root}/crates/{crate}'
        for file, text in source.sources(folder).items():
            if re.search(r'\bpub\s+use\b', source.plain(text)):
                yield f'{crate}: {file} has a `pub use`, by which a function may be public unseen'
        for one in source.public(folder) if source.is_library(root, crate) else []:
            if any(kind == 'requires' for kind, _ in one.clauses):
                yield f'{crate}::{one.name} is public and asks something of its caller'
            if not any(kind == 'ensures' and text.strip() not in NOTHING for kind, text in one.clauses):
                yield f'{crate}::{one.name} is public and states nothing'


def called(one, text):
    """A function's parameters, result and contract, by its text."""
    words = ' '.join(text[text.index('fn ', one.at):one.body[0]].split())
    return words.replace('( ', '(').replace(', )', ')')  # however it is laid out


def exports(root):
    """What C calls is a static library, NAME_c over the library NAME: each of its functions is the call of the same name there, with the same
    contract, and no call for C is left out."""
    for crate in source.crates(root):
        if not source.is_static(root, crate):
            continue
        over, folder = crate.removesuffix('_c'), f'{root}/crates/{crate}'
        below = {one.name: called(one, source.sources(f'{root}/crates/{over}')[one.file]) for one in source.public(f'{root}/crates/{over}')}
        here = source.functions(folder)
        for one in here:
            text = source.sources(folder)[one.file]
            arguments = ', '.join(re.findall(r'(\w+)\s*:', text[text.index('(', one.at):source.closing(text, text.index('(', one.at))]))
            if called(one, text) != below.get(one.name):
                yield f'{crate}::{one.name} has not the contract of {over}::{one.name}'
            elif text[one.body[0] + 1:one.body[1]].split() != f'{over}::{one.name}({arguments})'.split():
                yield f'{crate}::{one.name} does more than call {over}::{one.name}'
        yield from (f'{crate}: C cannot call {over}::{name}' for name in below
                    if name.startswith(FOR_C) and name not in [one.name for one in here])


def declared(text):
    """The declarations of an antt file: the type of each, and all of its text."""
    lines = text.split('\n')
    found = {}
    for at, line in enumerate(lines):
        if not (head := re.match(r'(\s*)(?:(?:unfoldable|abbrev|pub) )*([^\s(){}:]+) :(?= |$)', line)):
            continue
        ends = [there for there in range(at + 1, len(lines)) if lines[there].strip() and len(lines[there]) - len(lines[there].lstrip()) <= len(head[1])]
        end = ends[0] if ends else len(lines)
        body = [there for there in ends if not lines[there].lstrip().startswith((head[2] + ' ', 'unfolding '))]
        found[head[2]] = ('\n'.join(lines[at:end]), '\n'.join(lines[at:body[0] if body else len(lines)]))
    return found


def contracts_named(folder, crate, module, word, seen=()):
    """The functions whose contract a word of a file of proofs/ speaks of: by `Post` of its `Reads`, by its own `clauses`, or by a definition."""
    path = f'{folder}/proofs/{module}.antt'
    if not os.path.exists(path) or (module, word) in seen:
        return set()
    text = open(path).read()
    seen = (*seen, (module, word))
    within = rf'(?m)^use Rattle\.{crate}\.'
    for part, place, alias in re.findall(within + r'(proofs|specs\.contracts)\.(\S+) as (\S+)$', text):
        if part == 'proofs' and place.endswith('.Reads') and word == f'{alias}.Post':
            return {place[:-len('.Reads')].replace('.', '/')}
        if part != 'proofs' and re.match(rf'{re.escape(alias)}\.clauses(\.|$)', word):
            return {place.replace('.', '/')}
    for place, brought in re.findall(within + r'proofs\.([^\s{]+)\.\{([^}]*)\}', text):
        if word in re.split(r',\s*', brought):
            return contracts_named(folder, crate, place.replace('.', '/'), word, seen)
    known = declared(text)
    _, whole = known.get(word) or known.get(word.partition('.')[0], ('', ''))
    return {one for part in re.split(r'[\s(){},;]+', whole) for one in contracts_named(folder, crate, module, part, seen)}


def is_of_two_answers(folder, crate, theorem, function):
    """Whether a theorem of proofs/Answers.antt speaks of two answers that meet the contract of a function."""
    path = f'{folder}/proofs/Answers.antt'
    kind = declared(open(path).read()).get(theorem, ('', ''))[0] if os.path.exists(path) else ''
    parts = re.split(r'[\s(){},;]+', kind.partition(' :')[2])
    return kind.lstrip().startswith('pub ') and sum(function in contracts_named(folder, crate, 'Answers', part) for part in parts) >= 2


def is_answered_by_the_system(root, crate, function):
    """Whether a function is of a library of the programs and asks the system, so that nothing fixes its answer."""
    return source.of_the_programs(root, crate) and function in source.asking(f'{root}/crates/{crate}')


def rows(text):
    """The rows of the tables of a text, each by the heads of its columns."""
    head = None
    for line in text.split('\n'):
        cells = [cell.strip() for cell in line.strip().strip('|').split(' | ')] if line.startswith('|') else None
        if cells is None or re.fullmatch(r'\|[-|]+\|', line):
            head = head if cells else None
        elif head is None:
            head = cells
        else:
            yield dict(zip(head, cells)) | {'function': re.match(r'`(\w+)::(\w+)`', cells[0])}


def stated(root):
    """Every public function has a row in docs/STATEMENTS.md, with the theorem that two answers are equal, or the words that the system answers
    where it does, and two wrong programs."""
    found = [row for row in rows(open(f'{root}/docs/STATEMENTS.md').read()) if row['function']]
    known = {}
    for crate in source.crates(root):
        for one in source.public(f'{root}/crates/{crate}') if source.is_library(root, crate) else []:
            if (crate, one.name) in known:
                yield f'{crate}: two public functions have the name {one.name}'
            known.setdefault((crate, one.name), one)
    listed = [row['function'].groups() for row in found]
    yield from (f'{crate}::{name} has no row in docs/STATEMENTS.md' for crate, name in known if (crate, name) not in listed)
    for row in found:
        crate, name = row['function'].groups()
        if (crate, name) not in known:
            yield f'docs/STATEMENTS.md: {crate}::{name} is no public function'
            continue
        theorem, path = re.match(r'`([^`]+)`', row.get(EQUAL, '')), known[crate, name].path
        asked = row.get(EQUAL, '') == SYSTEM and is_answered_by_the_system(root, crate, path)
        if not asked and not (theorem and is_of_two_answers(f'{root}/crates/{crate}', crate, theorem[1], path)):
            yield f'docs/STATEMENTS.md: {crate}::{name}: no theorem of two answers that meet its contract: {row.get(EQUAL, "")}'
        tried, there = set(re.findall(r'`([\w-]+)`', row.get(SHUT_OUT, ''))), set(edits.names(root, crate))
        if tried - there:
            yield f'docs/STATEMENTS.md: {crate}::{name}: not in must-fail: {", ".join(sorted(tried - there))}'
        if len(tried & there) < 2:
            yield f'docs/STATEMENTS.md: {crate}::{name}: fewer than two wrong programs'


def refusing(root):
    """Every public function that can refuse has a line in the record of all calls: it speaks of the function's own contract, by `Post` of its
    `Reads`, or by a definition of its crate's proofs/."""
    text = open(f'{root}/{CALLS}').read() if os.path.exists(f'{root}/{CALLS}') else ''
    lines = ' '.join(kind for name, (kind, _) in declared(text).items() if name.startswith(('of-', 'of_')))
    spoken = {part for part in re.split(r'[\s(){},;]+', lines)}
    found = {(crate, place.replace('.', '/')) for crate, place, alias in re.findall(r'(?m)^use Rattle\.(\w+)\.proofs\.(\S+)\.Reads as (\S+)$', text)
             if f'{alias}.Post' in spoken}
    found |= {(crate, path) for crate, place, brought in re.findall(r'(?m)^use Rattle\.(\w+)\.proofs\.([^\s{]+)\.\{([^}]*)\}', text)
              for word in re.split(r',\s*', brought) if word in spoken for path in contracts_named(f'{root}/crates/{crate}', crate, place.replace('.', '/'), word)}
    for crate in source.crates(root):
        yield from (f'{crate}::{one.name} has no line in {CALLS}' for one in (source.public(f'{root}/crates/{crate}') if source.is_library(root, crate) else [])
                    if (crate, one.path) not in UNREFUSED | found)


def promised(root):
    """A theorem that docs/STATEMENTS.md has for a promise, and what it speaks of, is declared and public in a file beside it."""
    found = [row for row in rows(open(f'{root}/docs/STATEMENTS.md').read()) if 'Theorem' in row]
    if not found:
        yield 'docs/STATEMENTS.md: no theorem of what is promised'
    for row in found:
        files = [f'{root}/crates/{place}.antt' for place in re.findall(r'`([^`]+)`', row.get('File', ''))]
        texts = [open(path).read() for path in files if os.path.exists(path)]
        names = re.findall(r'`([^`]+)`', row['Theorem'])
        if not names:
            yield f'docs/STATEMENTS.md: nothing carries: {row["Promise"]}'
        yield from (f'docs/STATEMENTS.md: {name} is not declared in {row.get("File", "")}' for name in names
                    if not any(re.search(rf'(?m)^\s*(?:abbrev |unfoldable )?pub (?:record |data )?{re.escape(name)} ', text) for text in texts))


def stands(root, name, place):
    """Whether a name stands in a file of crates/, or is a fault of a must-fail folder."""
    if place.endswith('must-fail'):
        return name in edits.names(root, os.path.dirname(place))
    path = f'{root}/crates/{place}' if place.endswith('.rt') else f'{root}/crates/{place}.antt'
    return os.path.exists(path) and re.search(rf'(?<![\w-]){re.escape(name)}(?![\w-])', open(path).read()) is not None


def paper(root):
    """Every name of the second column of docs/PAPER.md stands in one of the files of the third."""
    looked_at = 0
    for row in re.findall(r'(?m)^\| (.*) \|$', open(f'{root}/docs/PAPER.md').read().replace('\\|', '')):
        cells = row.split(' | ')
        places = re.findall(r'`([\w./-]+)`', cells[2]) if len(cells) > 2 else []
        for name in re.findall(r'`([^` /.]+)`', cells[1]) if places else []:
            looked_at += 1
            if name not in ('requires', 'worked') and not any(stands(root, name, place) for place in places):
                yield f'docs/PAPER.md: {name} is not in {", ".join(places)}'
    if not looked_at:
        yield 'docs/PAPER.md: no row names anything'


GUARDS = (assumptions, contracts, exports, stated, refusing, promised, paper, edits.complaints)


def complaints(root):
    return [words for guard in GUARDS for words in guard(root)]
