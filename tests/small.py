"""A small repository in which every guard is content: a library `small` with a public function, another it calls, one whose contract is read by a
definition and one that has no proof file, what is said of all its calls, the static library `small_c` over it, for C, and a program `tell` over
it and over a library `stream`, which is the programs'. Nothing here is proved; the log is as `rt ci` writes it."""

LIB = '''// A small library.
pub mod more;
mod inner;

pub fn twice(x: u64) -> u64
    ensures { result ≡ doubled x }
{
    inner::sum(x, x)
}

pub fn held<'a>(bytes: &'a [u8]) -> Held<'a>
    ensures { result.place ≡ start }
{
    Held { bytes, place: 0 }
}
'''

MORE = '''// One more. It is proved with no file.
pub fn one() -> u64
    ensures answer { result ≡ 1 }
{
    1
}
'''

INNER = '''fn other(b: u8) -> bool
    ensures { result ≡ is_brace b }
{
    b == b'{' // a brace that opens nothing: {
}

pub fn sum(x: u64, y: u64) -> u64
    requires { Small x y }
    ensures { result ≡ x + y }
{
    x + y
}
'''

LIB_C = '''// For C.
#[unsafe(no_mangle)]
pub extern "C" fn twice(x: u64) -> u64
    ensures { result ≡ doubled x }
{
    small::twice(x)
}
'''

ANSWERS = '''use Rattle.small.proofs.twice.Reads as twice
use Rattle.small.proofs.more.one.Reads as one
use Rattle.small.proofs.Posts.{HeldPost}

pub twice-answer : (x r s : ℕ) → twice.Post x r → twice.Post x s → r ≡ s
twice-answer x r s p q = p ∙ sym q

pub one-answer :
    (r s : ℕ)
    → one.Post r → one.Post s → r ≡ s
one-answer r s p q = p ∙ sym q

pub held-answer : (r s : Held) → HeldPost r → HeldPost s → r ≡ s
held-answer r s p q = p ∙ sym q
'''

POSTS = '''use Rattle.small.specs.contracts.held as held

module _ (r : Held) where
  abbrev ensured : Type 0
  ensured = (held.clauses tt).ensures r

  abbrev pub HeldPost : Type 0
  HeldPost = AllOf ensured
'''

STREAM = '''// Bytes out.
pub mod output;

pub fn front(n: usize) -> usize
    ensures { result ≡ n }
{
    n
}
'''

OUTPUT = '''use std::io::Write;

fn write_rest<W: Write>(out: &mut W, n: usize) -> usize {
    out.write(n)
}

impl<W: Write> Output<W> {
    pub fn hand_on(whole: bool, n: usize) -> usize
        ensures { HandedOn whole n result }
    {
        write_rest(n)
    }
}
'''

STREAM_ANSWERS = '''use Rattle.stream.proofs.front.Reads as front

pub front-answer : (n r s : ℕ) → front.Post n r → front.Post n s → r ≡ s
front-answer n r s p q = p ∙ sym q
'''

FAULTS = {  # of each edit file what it is named, the function, the file, the old text and the new one
    'small/must-fail/faults-1': ('twice-of-one', 'twice', 'src/lib.rt', 'inner::sum(x, x)', 'inner::sum(x, 1)'),
    'small/must-fail/faults-1-always-two': ('always-two', 'more/one', 'src/more.rt', '    1', '    2'),
    'small/must-fail/faults-1-difference': ('difference', 'inner/sum', 'src/inner.rt', '    x + y', '    x - y'),
    'small/must-fail/faults-2': ('twice-of-none', 'twice', 'src/lib.rt', 'inner::sum(x, x)', 'inner::sum(0, 0)'),
    'small/must-fail/faults-2-always-none': ('always-none', 'more/one', 'src/more.rt', '    1', '    0'),
    'small/must-fail/late': (None, None, 'specs/Small.antt', 'start = 0', 'start = 1'),
    'small/must-fail/elsewhere': (None, None, 'src/lib.rt', 'result.place ≡ start', 'result.place ≡ elsewhere'),
    'stream/must-fail/faults-1': ('all-none', 'front', 'src/lib.rt', '    n', '    none'),
    'stream/must-fail/faults-1-none-gone': ('none-gone', 'output/Output/hand_on', 'src/output.rt', '    write_rest(n)', '    none'),
    'stream/must-fail/faults-2': ('all-one', 'front', 'src/lib.rt', '    n', '    one'),
    'stream/must-fail/faults-2-one-gone': ('one-gone', 'output/Output/hand_on', 'src/output.rt', '    write_rest(n)', '    one'),
}


def edit(name, function, file, old, new):
    return (f'# fault: {name} in {function}\n' if name else '') + f'file: {file}\nold: {old}\nnew: {new}\n'


STATEMENTS = '''# Statements

| Function | What fixes its answer | Two answers are equal | Shut out |
|---|---|---|---|
| `small::twice` | `result ≡ doubled x` | `twice-answer` | `twice-of-one`, `twice-of-none` |
| `small::one` (in `more`) | `result ≡ 1` | `one-answer`, by itself | `always-two`, `always-none` |
| `small::held` | its place | `held-answer` | `late`, `elsewhere` |
| `stream::front` | `result ≡ n` | `front-answer` | `all-none`, `all-one` |
| `stream::hand_on` (in `output`) | `HandedOn whole n result` | none: the system answers | `none-gone`, `one-gone` |

| Promise | Theorem | File |
|---|---|---|
| what is held | `held-answer`, over `HeldPost` | `small/proofs/Answers`, `small/proofs/Posts` |
'''

PAPER = '''| Sentence | Carried by | File | Noticed by |
|---|---|---|---|
| Twice | `doubled`; the edit `twice-of-one` is refused | `small/specs/Small`, `small/must-fail` | `worked` |
'''

CALLS = '''use Rattle.small.proofs.twice.Reads as twice
use Rattle.small.proofs.more.one.Reads as one
use Rattle.small.proofs.Posts.{HeldPost}

pub record Calls (P : ℕ → Type 0) : Type 0 where
  pub of-twice : (x r : ℕ) → twice.Post x r → P r
  pub of-one :
      (r : ℕ) → one.Post r → P r
  pub of_held : (r : Held) → HeldPost r → P r.place
'''

REFUSED = 'refused, as it must be: note: src/lib.rt:8:9: it is not proved that what the function ensures holds when it returns'
SECTIONS = {  # what `rt ci` says of the proof of each crate
    'small': 'fn small::twice: proved\nfn small::held: proved\nfn small::more::one: proved\nfn small::inner::other: proved\nfn small::inner::sum: proved\n'
             'logic=proved functions=5 sum=0 native=nat,char,string\n',
    'small_c': 'fn small_c::twice: proved\naxioms libc: none reached of the 128 declared\nlogic=proved functions=1 target=any sum=0\n',
    'refusals': 'logic=proved functions=0 sum=0\n',
    'stream': 'fn stream::front: proved\nfn stream::output::write_rest: proved\nfn stream::output::Output::hand_on: proved\nlogic=proved functions=3 sum=0\n',
    'tell': 'fn tell::main: proved\naxioms libc: libc::write (1 of the 128 declared)\nlogic=proved functions=1 axioms=1 target=any sum=0\n',
}
SECTIONS = {crate: f'== {crate}\n{said}rt: {crate} proved\n' for crate, said in SECTIONS.items()}
TRIED = {path: f'rt: must-fail {path.replace("must-fail/", "")}.edit: {REFUSED}\n' for path in FAULTS}
LOG = ''.join([*SECTIONS.values(), 'rt: small: trying its must-fail edits (7)\n', *TRIED.values(), 'rt: tell ran, and wrote what its file stdout has\n'])

FILES = {
    'crates.txt': '# NAME: what it stands on\nsmall:\nsmall_c staticlib: small\nrefusals: small\nstream:\ntell: small stream\n',
    'crates/small/src/lib.rt': LIB,
    'crates/small/src/more.rt': MORE,
    'crates/small/src/inner.rt': INNER,
    'crates/small/specs/Small.antt': 'doubled : ℕ → ℕ\ndoubled x = x + x\n\nstart : ℕ\nstart = 0\n',
    'crates/small/proofs/twice/Answers.antt': 'returns : goal.returns\nreturns c = refl\n',
    'crates/small/proofs/Answers.antt': ANSWERS,
    'crates/small/proofs/Posts.antt': POSTS,
    'crates/small_c/src/lib.rt': LIB_C,
    'crates/stream/src/lib.rt': STREAM,
    'crates/stream/src/output.rt': OUTPUT,
    'crates/stream/proofs/Answers.antt': STREAM_ANSWERS,
    'crates/refusals/src/lib.rt': '// Specs only.\n',
    'crates/refusals/specs/Calls.antt': CALLS,
    'crates/tell/src/main.rt': 'fn main() {\n    small::twice(1);\n}\n',
    'docs/STATEMENTS.md': STATEMENTS,
    'docs/PAPER.md': PAPER,
    'target/ci.log': LOG,
} | {f'crates/{path}.edit': edit(*fault) for path, fault in FAULTS.items()}
