#!/usr/bin/env python3
"""Brings this repository's own definitions, lemmas, fields and constructors to the spelling of today's Rattle.

usage: python3 tools/spell_names.py        at the top of the repository, once, right after the toolchain's port.py

A name that the repository's specs/ and proofs/ declare and that is written with dashes gets underscores (`put-fault` becomes
`put_fault`); one that names a fact is written in camel case (`One-to-one` becomes `OneToOne`). Answers to goals keep their
names, which the toolchain makes, and so do functions of src/, strings, comments, inputs and outputs. Pages name definitions in
back quotes, and those follow. The script prints what it renamed, and stops where two names would fall together.
"""
import os
import re
import sys

# A dash that joins a function to the fact that it keeps stays, and a fact has capitals.
OWN = {'One-to-one': 'OneToOne', 'turned-W': 'turned-W', 'word-W': 'word-W', 'getD-by-place': 'get_or-by_place'}
PART = r"[^\s(){}\[\].,;:⌜⌝`|]"
NAME = re.compile(r"(?<![\w'-])" + PART + r"*-" + PART + r"*")


def files(endings):
    for top in ('crates', 'docs', 'README.md'):
        if os.path.isfile(top):
            yield top
        for folder, dirs, names in os.walk(top):
            dirs[:] = sorted(d for d in dirs if d != 'out')
            for name in sorted(names):
                if name.endswith(endings):
                    yield os.path.join(folder, name)


def text_of(path):
    with open(path, encoding='utf-8') as f:
        return f.read()


def declared():
    """The names that specs/ and proofs/ declare, but for answers to goals."""
    found = set()
    for path in files(('.antt',)):
        text = text_of(path)
        for line in text.split('\n'):
            m = re.match(r"\s*(?:(?:abbrev|unfoldable|pub)\s+)*(" + PART + r"+)\s+:(?:\s|$)(.*)", line)
            if m and not m.group(2).strip().startswith('goal.'):
                found.add(m.group(1))
        for m in re.finditer(r"^\s*(?:pub\s+)?(?:data|record|ruleset|abbrev|unfoldable)\s+(?:pub\s+)?(" + PART + r"+)", text, re.M):
            found.add(m.group(1))
    return found


def answers(path):
    """The names of a file that are answers to goals: those stay."""
    return {m.group(1) for m in re.finditer(r"^(?:abbrev\s+)?(?:pub\s+)?(" + PART + r"+)\s+:\s+goal\.", text_of(path), re.M)}


def foreign(path):
    """The names that a file imports from elsewhere, which are not the repository's own."""
    found = set()
    for m in re.finditer(r"^\s*(?:ghost )?use ([\w.]+)\.\{([^}]*)\}", text_of(path), re.M):
        crate = m.group(1).split('.')
        if not (crate[0] == 'Rattle' and os.path.isdir('crates/' + crate[1])):
            found |= {item.strip().split(' as ')[-1] for item in m.group(2).split(',')}
    return found


def renamed(text, names):
    return NAME.sub(lambda m: names.get(m.group(0), m.group(0)), text)


def outside_words(line, mark, names):
    """A line of code: the part before a comment, and what its comment quotes."""
    code, sep, note = line.partition(mark)
    parts = re.split(r'(b?"(?:[^"\\]|\\.)*")', code)
    code = ''.join(p if i % 2 else renamed(p, names) for i, p in enumerate(parts))
    return code + sep + quoted(note, names)


def quoted(text, names):
    return re.sub(r'`[^`\n]*`', lambda m: renamed(m.group(0), names), text)


def main():
    old = declared()
    names = {n: OWN.get(n, n.replace('-', '_')) for n in old if '-' in n}
    names = {n: m for n, m in names.items() if n != m}
    taken = {}
    for n, m in names.items():
        if m in old or m in taken:
            sys.exit(f'{n} and {taken.get(m, m)} would both be {m}')
        taken[m] = n
    for path in files(('.antt', '.rt', '.md')):
        before = text_of(path)
        kept = foreign(path) | (answers(path) if path.endswith('.antt') else set())
        mine = {n: m for n, m in names.items() if n not in kept}
        if path.endswith('.md'):
            after = quoted(before, mine)
        else:
            mark = '//' if path.endswith('.rt') else '-- '
            after = '\n'.join(outside_words(line, mark, mine) for line in before.split('\n'))
        if after != before:
            with open(path, 'w', encoding='utf-8') as f:
                f.write(after)
    for n in sorted(names):
        print(n, '->', names[n])


main()
