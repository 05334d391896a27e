#!/usr/bin/env python3
"""Brings the repository's own names of specs/ and proofs/ to today's spelling, by the table respell.txt beside this file, a line for each old name
and its new one. Run once, at the top of the repository, right after the kit's port.py; a second run changes nothing.

usage: python3 respell.py [FOLDER]

Rewrites in .antt files every whole name that the table has; in .rt files those of ghost use items and of clauses; in must-fail edits the same,
by the file that the edit changes; in pages of docs/ and in tests/statements those between backquotes. Functions of src/, exported names, strings,
inputs and outputs are not touched."""
import glob, os, re, sys

HERE = os.path.dirname(os.path.realpath(__file__))
TABLE = dict(line.split() for line in open(os.path.join(HERE, 'respell.txt'), encoding='utf-8'))
# a name is what stands between brackets, dots and blanks
NAME = re.compile(r"[^\s(){}.;,@`\"«»λ]+")
# modules that are named after a function, in files that now have a definition of that name
ALIASES = [('crates/number/proofs/RoundTrip.antt', 'read_number', 'ReadNumber'), ('crates/store/proofs/Moves.antt', 'form_of', 'FormOf'),
           ('crates/store/proofs/RoundTrip.antt', 'form_of', 'FormOf')]


def turned(text):
    return NAME.sub(lambda m: TABLE.get(m[0], m[0]), text)


def clauses(text):
    """text of a .rt file, its ghost use items and clauses turned"""
    out, at = [], 0
    for m in re.finditer(r'^[ \t]*(?:pub )?ghost use [^;]*;|\b(?:requires|ensures)\*?(?: \w+)? \{', text, re.M):
        if m.start() < at:
            continue
        end = m.end()
        if text[end - 1] == '{':
            deep = 1
            while deep:
                deep += {'{': 1, '}': -1}.get(text[end], 0)
                end += 1
        out += text[at:m.start()], turned(text[m.start():end])
        at = end
    return ''.join(out) + text[at:]


def edit(text):
    """a must-fail edit: the lines of what it changes in a file of specs/ or proofs/, and clauses elsewhere"""
    out, antt = [], False
    for line in text.split('\n'):
        if line.startswith('file: '):
            antt = line.endswith('.antt')
        elif line.startswith(('old: ', 'new: ')):
            line = line[:5] + (turned(line[5:]) if antt else clauses(line[5:]))
        out.append(line)
    return '\n'.join(out)


def page(text):
    return re.sub(r'`[^`\n]+`', lambda m: turned(m[0]), text)


def rewrite(path, how):
    with open(path, encoding='utf-8') as f:
        was = f.read()
    now = how(was)
    if now != was:
        with open(path, 'w', encoding='utf-8') as f:
            f.write(now)


def main(top):
    here = lambda pattern: [p for p in glob.glob(os.path.join(top, pattern), recursive=True) if '/out/' not in p and os.path.isfile(p)]
    for path, old, new in ALIASES:
        path = os.path.join(top, path)
        if os.path.exists(path):
            rewrite(path, lambda text: re.sub(rf'\bas {old}$|(?<![\w.]){old}(?=\.[A-Z])', lambda m: m[0].replace(old, new), text, flags=re.M))
    for path in here('crates/**/*.antt'):
        rewrite(path, turned)
    for path in here('crates/**/*.rt'):
        rewrite(path, clauses)
    for path in here('crates/*/must-fail/*.edit'):
        rewrite(path, edit)
    for path in here('docs/*.md'):
        rewrite(path, page)


main(sys.argv[1] if len(sys.argv) > 1 else '.')
