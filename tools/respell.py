#!/usr/bin/env python3
"""Respells the repository's own definitions and lemmas as today's Rattle spells names, once, after its port.py.

usage: tools/respell.py [--list]      at the top of the repository; --list only prints old and new

A definition in camel case (`symbolsIn`) is written in snake case (`symbols_in`). In a lemma's name a dash stays where it joins the names of two definitions
(`length-symbols_in`); before or after a plain word, and in a record's field, it becomes `_`. Types, modules, functions of src/, exported names and strings keep their spelling. A name
that would fall together with another one in its file is printed and left, unless APART gives it a name of its own.
"""
import collections
import os
import re
import sys

# Names that would fall together with another: what they are called instead. `bit-xor`, `bit-or` and `bit-and` are what a bit of the library's words is.
APART = {n: n.replace('-', '_') + '_lem' for n in (
    'one-of', 'pair-of', 'in-range', 'offset-fits', 'plain-symbol', 'plain-next', 'terc4-number', 'data-word', 'lengths-fit')}
APART |= {'eqZ→eq': 'eq_z→eq', 'bit-shl-low': 'bit_shl_low', 'island-read-back': 'island_read_back', 'read-island-in-order': 'read_island_in_order'}
APART |= {n: n for n in ('bit-xor', 'bit-or', 'bit-and')}

# Words of the library that lemmas are about.
STD = set('length take drop set sets ones'.split())

DECLARED = re.compile(r'( *)(?:abbrev |unfoldable |opaque )?(?:pub )?(?:abbrev |unfoldable )?([^\s:(){}\[\],;.]+)(?: [({][^:]*)?\s:\s')
EDGE = r'\s(){}\[\],;.'


def files(kinds):
    for top, folders, names in os.walk('crates'):
        folders[:] = sorted(d for d in folders if d not in ('out', 'must-fail'))
        for name in sorted(names):
            if name.endswith(kinds):
                yield os.path.join(top, name)


def read(path):
    with open(path, encoding='utf-8') as f:
        return f.read()


def declared():
    """Each name that a specs or proofs file declares: its files, each with whether it stands within a record, a type or a module. A name that answers a goal of a function's proof isn't the repository's own."""
    found = collections.defaultdict(set)
    for path in files(('.antt',)):
        for line in read(path).split('\n'):
            m = DECLARED.match(line)
            if not m or len(m.group(1)) > 2 or line.startswith('--'):
                continue
            if 'tie.Need' in line or 'statement M' in line:
                continue
            found[m.group(2)].add((path, bool(m.group(1))))
    return found


def fields():
    """The names of the records' fields."""
    found = set()
    for path in files(('.antt',)):
        within = False
        for line in read(path).split('\n'):
            if line[:1] not in ('', ' '):
                within = ' record ' in ' ' + line and line.endswith('where')
            m = DECLARED.match(line)
            if m and within and len(m.group(1)) == 2:
                found.add(m.group(2))
    return found


def snake(part):
    return re.sub(r'([a-z0-9])([A-Z]+)', lambda m: m.group(1) + '_' + m.group(2).lower(), part) if part[:1].islower() else part


def respelled(name, definitions):
    if name in APART:
        return APART[name]
    parts = [snake(p) for p in name.split('-')]
    out = parts[0]
    for i in range(1, len(parts)):
        left = any('_'.join(parts[j:i]) in definitions for j in range(i))
        right = any('_'.join(parts[i:j]) in definitions for j in range(i + 1, len(parts) + 1))
        out += ('-' if left and right else '_') + parts[i]
    return out


def main():
    found = declared()
    definitions = STD | {snake(n) for n, where in found.items() if '-' not in n and any('/specs/' in p and not within for p, within in where)}
    held = fields()
    new = {}
    for name in found:
        if name[:1].isalpha() and name[:1].islower() and '→' not in name or name in APART:
            to = respelled(name, set() if name in held else definitions)
            if to != name:
                new[name] = to
    token = re.compile(r'(?<![^%s])[^%s]+' % (EDGE, EDGE))
    if '--list' in sys.argv:
        for name in sorted(new):
            print(name, '->', new[name], '(field)' if name in held else '')
    changed = 0
    for path in files(('.antt', '.rt')):
        text = read(path)
        rust = path.endswith('.rt')
        here = set(token.findall(text))
        back = collections.defaultdict(set)
        for t in here:
            if t in new and not (rust and not clause_name(t)):
                back[new[t]].add(t)
        for to, olds in back.items():
            if to in here or len(olds) > 1:
                print(f'{path}: {" and ".join(sorted(olds))} would be {to}' + (', which stands there' if to in here else ''))
        if '--list' in sys.argv:
            continue

        turned = '\n'.join(line if line.lstrip().startswith(('--', '//')) else token_line(line, token, new, rust, held) for line in text.split('\n'))
        if turned != text:
            changed += 1
            with open(path, 'w', encoding='utf-8') as f:
                f.write(turned)
    print(f'{len(new)} names, {changed} files changed')


def clause_name(t):
    """In a .rt file: a name that no Rust name is spelled as, so that it stands in a clause."""
    return '-' in t or any(c.isupper() for c in t)


def token_line(line, token, new, rust, held):
    """The line with its names respelled. A name with a dash behind a point is a record's field, or else a step of a function's proof, which Rattle names."""
    def turn(m):
        t = m.group(0)
        if t not in new or rust and not clause_name(t) or '-' in t and t not in held and line[:m.start()].endswith('.'):
            return t
        return new[t]
    return token.sub(turn, line)


if __name__ == '__main__':
    main()
