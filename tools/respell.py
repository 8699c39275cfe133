#!/usr/bin/env python3
"""Spells the repository's own definitions and lemmas as Rattle's style has it: snake_case, parts of a lemma's name joined by a dash.

usage: tools/respell.py [--look] [FOLDER]

It was run once, right after the scripts that brought the crates to today's Rattle. In every .antt, .rt and .edit file below crates/ each word with a part
in camelCase (as allowedSet, publicMap-same, getD-tab) is spelled with underscores (allowed_set, public_map-same, get_or-tab). Types, records and facts
begin with a capital and stay. Names of one letter before a capital (eL, hT) are bound variables, and stay. --look writes nothing, and lists each new name
with the files in which it would meet a name that is there already.
"""
import os, re, sys

WORD = re.compile(r"[^\s(){}.;,@\"«»\[\]:|=`←]+")
PART = re.compile(r"[a-z][a-z0-9]+[A-Z]\w*")
KNOWN = {'getD': 'get_or'}
# Lemmas whose names would meet that of the definition that they are about.
LEMMAS = {'response_format/specs/Accepts.antt': 'all_digits', 'books/specs/Kept.antt': 'kept_by', 'salvage/specs/Keeping.antt': 'kept_by', 'system/specs/System.antt': 'right_side'}


def part(p):
    if p in KNOWN:
        return KNOWN[p]
    if not PART.match(p):
        return p
    return re.sub(r'(?<=[a-z0-9])([A-Z])', lambda m: '_' + m[1], p).lower()


def word(w):
    return '-'.join(part(p) for p in w.split('-'))


def texts(top):
    for folder, dirs, files in os.walk(os.path.join(top, 'crates')):
        dirs[:] = sorted(d for d in dirs if d != 'out')
        for f in sorted(files):
            if f.endswith(('.antt', '.rt', '.edit')):
                yield os.path.join(folder, f)


def main(argv):
    look = '--look' in argv
    top = next((a for a in argv if not a.startswith('--')), '.')
    meets, names = {}, {}
    for path in texts(top):
        with open(path, encoding='utf-8') as f:
            old = f.read()
        lemma = next((n for p, n in LEMMAS.items() if path.endswith(p)), None)
        first = re.sub(rf'(?<![\w-]){lemma}(?![\w-])', lemma + '_lem', old) if lemma else old
        there = set(WORD.findall(re.sub(r'(?m)(--|//).*$', '', first)))
        new = WORD.sub(lambda m: word(m[0]), first)
        for w in there:
            if word(w) != w:
                names[w] = word(w)
                if word(w) in there:
                    meets.setdefault((w, word(w)), []).append(path)
        if new != old and not look:
            with open(path, 'w', encoding='utf-8') as f:
                f.write(new)
    for w in sorted(names):
        print(w, names[w])
    for (w, n), paths in sorted(meets.items()):
        print(f'look: {w} -> {n} meets {n} in', *paths)
    both = {}
    for w, n in names.items():
        both.setdefault(n, []).append(w)
    for n, ws in both.items():
        if len(ws) > 1:
            print('look: one new name for two:', n, ws)


main(sys.argv[1:])
