#!/usr/bin/env python3
"""Brings the repository's own definitions, lemmas, fields and constructors to snake case, once, behind the kit's port.py.

Run at the top of the repository. Types and modules are in upper camel case and stay. A dash that joins two names of a lemma
stays; words of specs/ have none. In .rt files only what stands outside of string literals is read, and Rust's own names have
no inner capitals. Papers follow where they name a definition. With --clashes it writes nothing and lists names that would fall together."""
import os
import re
import sys

TOKEN = re.compile(r"[^\W\d][\w'-]*", re.U)
CAMEL = re.compile(r'(?<=[a-z0-9])([A-Z])')
WORDS = {'from-to': 'from_to', 'yes-value': 'yes_value', 'no-value': 'no_value'}
LIBRARY = {'getD': 'get_or'}
SKIP = {'.git', 'out', 'target', 'second', 'rides', 'c'}


def part(name):
    if name in LIBRARY:
        return LIBRARY[name]
    return CAMEL.sub(lambda m: '_' + m.group(1).lower(), name) if name[:1].islower() else name


def respelled(name):
    if name in WORDS:
        return WORDS[name]
    # after a dash a type keeps its capital, and a word of a lemma's name begins small
    return '-'.join(part(p) for p in name.split('-'))


def files(endings):
    for folder, folders, names in os.walk('.'):
        folders[:] = sorted(f for f in folders if f not in SKIP)
        for name in sorted(names):
            if name.endswith(endings):
                yield os.path.join(folder, name)


def in_code(text):
    return TOKEN.sub(lambda m: respelled(m.group(0)), text)


def in_rust(text):
    pieces = re.split(r'("(?:\\.|[^"\\\n])*")', text)
    return ''.join(p if i % 2 else in_code(p) for i, p in enumerate(pieces))


def declared():
    names = set()
    for path in files('.antt'):
        names |= set(TOKEN.findall(open(path, encoding='utf-8').read()))
    return names


def main():
    names = declared()
    if '--clashes' in sys.argv:
        groups = {}
        for name in names:
            groups.setdefault(respelled(name), set()).add(name)
        for new, old in sorted(groups.items()):
            if len(old) > 1:
                print(new, sorted(old))
        return
    changed = {n for n in names if respelled(n) != n}
    for path in list(files(('.antt', '.rt', '.edit', '.md'))):
        text = open(path, encoding='utf-8').read()
        if path.endswith('.rt'):
            new = in_rust(text)
        elif path.endswith('.md'):
            new = TOKEN.sub(lambda m: respelled(m.group(0)) if m.group(0) in changed else m.group(0), text)
        else:
            new = in_code(text)
        if new != text:
            open(path, 'w', encoding='utf-8').write(new)


main()
