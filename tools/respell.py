#!/usr/bin/env python3
"""Respells this repository's own names of definitions and lemmas: camelCase becomes snake_case, a prime an apostrophe.

    python3 tools/respell.py [--say]     at the top; --say prints the table and what would fall together, and changes nothing

Own names are those that specs/*.antt and proofs/*.antt declare at their left edge or in a module, and the others in camelCase that
stand there: aliases of a `use` line, variables, and in an edit what port.py had turned in the file that it edits. They are turned as
whole words in every .antt file, in the clauses and `ghost` lines of .rt files, and in the texts of must-fail/*.edit. Functions of src/,
exported names, strings and comments keep their spelling. A dash stays where it joins two names, and so does the capital of a type or a module.
"""
import glob
import re
import sys

WORD = r"[\w'′-]"
ANTT = sorted(glob.glob('crates/*/specs/**/*.antt', recursive=True) + glob.glob('crates/*/proofs/**/*.antt', recursive=True))
RT = sorted(glob.glob('crates/*/src/**/*.rt', recursive=True))
EDITS = sorted(glob.glob('crates/*/must-fail/*.edit'))
CAMEL = re.compile(rf"(?<!{WORD})[a-z][a-z0-9]*(?:[A-Z][a-z0-9]*)+(?!{WORD})")
DECLARED = re.compile(r"^ *(?:abbrev |unfoldable |abstract )?(?:pub )?(?:record |data |ruleset )?([a-zA-Z][\w'′-]*)(?= :| where|$)", re.M)


def read(path):
    with open(path, encoding='utf-8') as file:
        return file.read()


def write(path, text):
    with open(path, 'w', encoding='utf-8') as file:
        file.write(text)


def snake(name):
    return re.sub(r'(?<=[a-z0-9])([A-Z])', lambda m: '_' + m.group(1).lower(), name).replace('′', "'")


def camel(text):
    """The names in camelCase of a text, comments aside."""
    lines = [line for line in text.split('\n') if not line.lstrip().startswith(('#', '--'))]
    return {name for line in lines for name in CAMEL.findall(line)}


def table():
    """Each name that changes, with its new spelling; and those of which a declaration stays as it is."""
    declared = {name for path in ANTT for name in DECLARED.findall(read(path))}
    own = {name for name in declared if name[0].islower() and snake(name) != name}
    for path in ANTT:
        own |= camel(read(path))
    return {name: snake(name) for name in own}, declared - own


def together(turned, stay):
    """Pairs that one spelling would stand for."""
    news = list(turned.values())
    return [(old, new) for old, new in sorted(turned.items()) if new in stay or news.count(new) > 1]


def turned_before(turned, stay):
    """Names that stand in edits alone, since port.py turned them where they are declared."""
    names = {name for path in EDITS for name in camel(read(path))}
    return {name: snake(name) for name in names if name not in turned and snake(name) in stay}


def clauses(text, turn):
    """Turns the clauses, ghost lines and tactic lines of a .rt file, and nothing else."""
    out, depth = [], None
    for line in text.split('\n'):
        s = line.strip()
        if depth is None and re.match(r'(pub )?(ghost |requires\b|ensures\b|#!?\[tactic)', s):
            depth = 0
        if depth is not None and not s.startswith('//'):
            depth += sum(line.count(c) for c in '{[(') - sum(line.count(c) for c in '}])')
            line = turn(line)
            if depth <= 0:
                depth = None
        out.append(line)
    return '\n'.join(out)


def main():
    turned, stay = table()
    pairs = together(turned, stay)
    for old, new in pairs:
        print(f'falls together: {old} -> {new}')
    if '--say' in sys.argv:
        for old, new in sorted(turned.items()):
            print(f'{old} -> {new}')
        return
    if pairs:
        sys.exit('respell: nothing changed')
    turned.update(turned_before(turned, stay))
    names = '|'.join(sorted(map(re.escape, turned), key=len, reverse=True))
    words = re.compile(rf'(?<!{WORD})({names})(?!{WORD})')

    def turn(text):
        return words.sub(lambda m: turned[m.group(1)], text)

    changed = 0
    for path in ANTT + EDITS + RT:
        old = read(path)
        new = clauses(old, turn) if path.endswith('.rt') else turn(old).replace('′', "'")
        if new != old:
            write(path, new)
            changed += 1
    print(f'respell: {len(turned)} names, {changed} files')


main()
