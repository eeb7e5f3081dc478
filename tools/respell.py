#!/usr/bin/env python3
"""Spells the repository's own definitions, lemmas, constructors and fields in snake case, as Rattle's library does.

usage: tools/respell.py [--check]     at the top of the repository, once, after port.py

A name that a file of specs/ or proofs/ declares, that begins with a small letter or a sign and that has a dash or a hump (`leastThickness`,
`least-one`) gets underscores (`least_thickness`, `least_one`). Types and modules keep their camel case, and so do names that Rattle makes (those
declared at a type of `goal.` or `tie.`), names of functions of src/, strings and prose. A token is turned as a whole word: in .antt files, in the
clauses, ghost items and code spans of .rt files, in must-fail edits and in the code spans of the papers. Behind a dot only fields turn, and in a
file that imports the same spelling from a library the word stays. --check writes nothing and says what names would fall together.
"""

import os
import re
import sys

WORD = r'[^\s(){}.;,@"«»`]+'
TOKEN = re.compile(rf'(?P<dot>(?<=[^\s.])\.)?(?P<word>{WORD})')
DECLARED = re.compile(rf'(?m)^( *)((?:(?:pub|abbrev|unfoldable|ruleset|infix[lr]? \d+) )*)({WORD})((?: ?\{{[^{{}}\n]*\}}| ?\([^()\n]*\))*) (:|=) ?(.*)$')
# Names that would fall together with another in some file: what they are called instead, everywhere or in these files.
CHOSEN = {
    name: name.replace('-', '_') + '_lem'
    for name in (
        'alpha-of bays-of beam-on by-kind change-number end-column least-thickness least-within lent-after lesser-at limit-of one-bay '
        'places-answer schedule-answer stand-in support-number support-on'
    ).split()
}
# Lemmas that stand in a `let` or below a `where`.
LOCAL = (
    'a-and-b a-alone accepted-after carries-more clear-after either-of in-flange line-across moved-accepted moved-verdict not-spans one-accepted '
    'one-verdict span-across'
).split()
CHOSEN_IN = {
    'crates/broken/proofs/Answers.antt': {'has_room': 'room_suffices'},
    'crates/broken/proofs/Most.antt': {'has_room': 'room_suffices'},
    'crates/gandhrumil/proofs/ExamplesHold.antt': {'has_room': 'room_suffices'},
    'crates/lines/proofs/Floors.antt': {'last_line': 'one_below'},
    'crates/moments/proofs/Numbers.antt': {'record_of': 'record_in_view'},
}


def snake(name):
    humps = re.sub(r"(?<=[a-z0-9'])([A-Z])", lambda m: '_' + m[1].lower(), name)
    return humps.replace('-', '_')


def turns(name):
    if not re.match(r"[a-z]", name):
        return False
    return snake(name) != name


def files(root, ends):
    for folder, dirs, names in os.walk(root):
        dirs[:] = sorted(d for d in dirs if d not in ('out', '.git', 'target', 'node_modules'))
        for n in sorted(names):
            if n.endswith(ends):
                yield os.path.join(folder, n)


def read(p):
    with open(p, encoding='utf-8') as f:
        return f.read()


def uncommented(text):
    return re.sub(r'(?m)(^|\s)--.*$', '', text)


def declared(text):
    """(name, whether it is a field or a constructor) for each name that the text declares and that is the repository's own."""
    inside = False
    for line in uncommented(text).split('\n'):
        if re.match(r'(pub )?(data|record|module) ', line):
            inside = re.search(r'data|record|module', line)[0]
        elif line and not line.startswith(' '):
            inside = False
        m = DECLARED.match(line)
        if not m:
            continue
        indent, marks, name, _, sign, rest = m.groups()
        if indent and not inside:
            continue
        if sign == '=' and 'ruleset' not in marks:
            continue
        if rest.startswith(('goal.', 'tie.')):
            continue
        yield name, inside == 'record' and bool(indent)


def library(text):
    """The words that the text imports from a library."""
    found = set()
    for m in re.finditer(r'\buse ([^\s;{}]+?)(?:\.\{([^}]*)\}|)(?: as \S+)?\s*(?:;|$)', text, re.M):
        path = m[1].split('.')
        if path[0] == 'Rattle' and len(path) > 1 and path[1] in OWN:
            continue
        words = re.findall(WORD, m[2]) if m[2] else path[-1:]
        found |= set(words)
    return found


def aliases(text):
    """Modules of the repository that the text calls by another name."""
    return {m[1] for m in re.finditer(r'\buse Rattle\.\S+ as (\w+)', text)} - {'goal', 'tie'}


def turned(text, table, fields, stay, heads=frozenset()):
    def one(m):
        w = m['word']
        if w not in table or w in stay and not m['dot']:
            return m[0]
        if m['dot'] and w not in fields and re.search(rf'{WORD}$', text[: m.start()])[0] not in heads:
            return m[0]
        return (m['dot'] or '') + table[w]
    return TOKEN.sub(one, text)


def spans(text, f):
    return re.sub(r'`[^`\n]+`', lambda m: '`' + f(m[0][1:-1]) + '`', text)


def prose(text, table, f, code):
    """A comment: code spans, words with a hump, which are no prose, and words that the file's code has."""
    text = spans(text, f)
    return re.sub(WORD, lambda m: table[m[0]] if m[0] in table and (m[0] in code or re.search(r'[a-z0-9][A-Z]', m[0])) else m[0], text)


def antt(text, table, fields):
    stay = library(text)
    heads = aliases(text)
    code = {m['word'] for m in TOKEN.finditer(uncommented(text))}
    f = lambda t: turned(t, table, fields, stay, heads)
    out = []
    for part in re.split(r'((?:(?<=\s)|^)--[^\n]*|"(?:[^"\\\n]|\\.)*")', text, flags=re.M):
        out.append(prose(part, table, f, code) if part.startswith('--') else part if part.startswith('"') else f(part))
    return ''.join(out)


def rust(text, table, fields):
    stay = library(text)
    f = lambda t: turned(t, table, fields, stay)
    out = []
    for part in re.split(r'(//[^\n]*|b?"(?:[^"\\\n]|\\.)*")', text):
        if part.startswith('//'):
            out.append(prose(part, table, f, set()))
        elif part.startswith(('"', 'b"')):
            out.append(part)
        else:
            # Rust itself has no word with a dash or a hump that begins small, and `a-b` is spaced by the layout.
            out.append(f(part))
    return ''.join(out)


def edit(text, table, fields):
    f = lambda t: turned(t, table, fields, set())
    lines = []
    for line in text.split('\n'):
        lines.append(f(line) if line.startswith(('old: ', 'new: ')) else spans(line, f))
    return '\n'.join(lines)


def main():
    global OWN
    check = '--check' in sys.argv
    OWN = {c for c in os.listdir('crates') if os.path.isdir(os.path.join('crates', c, 'src'))}
    texts = {p: read(p) for p in files('crates', ('.antt', '.rt', '.edit'))}
    own, fields = {}, set()
    for p, t in texts.items():
        if p.endswith('.antt'):
            for name, field in declared(t):
                own.setdefault(name, set()).add(p)
                if field:
                    fields.add(name)
    table = {n: CHOSEN.get(n, snake(n)) for n in [*own, *LOCAL] if turns(n)}
    for p, t in texts.items():
        if p.endswith('.antt'):
            words = {m['word'] for m in TOKEN.finditer(uncommented(t)) if not m['dot']}
            met = {}
            for w in words:
                met.setdefault(CHOSEN_IN.get(p, {}).get(w, table.get(w, w)), []).append(w)
            for new, olds in sorted(met.items()):
                if len(olds) > 1:
                    print(f'meets: {p}: {sorted(olds)} -> {new}')
            if check:
                for m in TOKEN.finditer(uncommented(t)):
                    if m['dot'] and m['word'] in table and m['word'] not in fields:
                        print(f'behind a dot: {p}: {m[0]}')
    back = {}
    for old, new in table.items():
        back.setdefault(new, []).append(old)
    for new, olds in sorted(back.items()):
        if len(olds) > 1 or new in own:
            print(f'together: {new}: {olds}' + (' and itself' if new in own else ''))
    if check:
        return
    for p, t in texts.items():
        n = (antt if p.endswith('.antt') else rust if p.endswith('.rt') else edit)(t, table | CHOSEN_IN.get(p, {}), fields)
        if n != t:
            with open(p, 'w', encoding='utf-8') as f:
                f.write(n)
    for p in ['README.md', *files('docs', ('.md',))]:
        t = read(p)
        n = spans(t, lambda s: turned(s, table, fields, set()))
        if n != t:
            with open(p, 'w', encoding='utf-8') as f:
                f.write(n)


if __name__ == '__main__':
    main()
