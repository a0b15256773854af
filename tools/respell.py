#!/usr/bin/env python3
"""Brings this repository's own definitions and lemmas to snake case, after port.py, at the top of the repository.

A name is one that specs/ or a file of lemmas in proofs/ declares, at its beginning or as a field. Types, modules, functions of src/
and strings keep their names. A lemma that would get the name of a definition gets `_lem` behind it. The structs get `Copy`, which the
older language had without a word, and each root file the line that lets the check try its tactics."""
import glob
import os
import re

NAME = r"[A-Za-z][\w'₀-₉]*(?:-[\w'₀-₉]+)*"
TOKEN = re.compile(r"(?<![\w'-])" + NAME + r"(?![\w'-])")


def snake(name):
    name = name.replace('-', '_')
    return re.sub(r'(?<=[a-z0-9])([A-Z])', lambda m: '_' + m.group(1).lower(), name)


def lemma_files():
    for path in sorted(glob.glob('crates/*/specs/**/*.antt', recursive=True) + glob.glob('crates/*/proofs/**/*.antt', recursive=True)):
        if not re.search(r'/proofs/.+/(Proof|Answers|Invariants)\.antt$', path):
            yield path


def declared():
    """Each name that is declared."""
    found = set()
    for path in lemma_files():
        for line in open(path, encoding='utf-8'):
            line = re.sub(r'\s*--.*', '', line.rstrip('\n'))
            head = re.match(r"(?:(?:abbrev|unfoldable|pub|private) )*(" + NAME + r")\s*(?:[({].*)?:(?!=)", line)
            inner = re.match(r"\s+(?:\| ?)?(?:(?:abbrev|unfoldable|pub|private) )*(" + NAME + r")\s*(?:[({].*)?:(?!=)", line)
            hit = head or inner
            if hit:
                found.add(hit.group(1))
    return found


# Lemmas that stand in one file with a definition of the same new name, by the files where the lemma has to be told from it (none: all).
LEMMAS = {
    'bit-and': None,
    'bit-or': None,
    'call-delivers': None,
    'counted_of': ('crates/queue/proofs/Counted.antt', 'crates/core_laws/proofs/Facts.antt'),
    'empty-report': None,
    'entries-of': None,
    'example-report': None,
    'extra-resets': None,
    'figures-text': None,
    'front_of': ('crates/core_laws/proofs/Events.antt',),
    'joins-uncounted': None,
    'last-of': None,
    'loses-restore': None,
    'lowers-other': None,
    'padded-of': None,
    'read-image': None,
    'refuses-all': None,
    'row-of': None,
    'tells_all': ('crates/trials/specs/Refuted.antt', 'crates/trials/proofs/Refuted.antt'),
    'tells_none': ('crates/trials/specs/Refuted.antt', 'crates/trials/proofs/Refuted.antt'),
    'tick-owner': None,
    'uses-up': None,
    'writes-all': None,
}


def renamings():
    table = {name: snake(name) for name in declared() if re.match('[a-z]', name)}
    return {old: new for old, new in table.items() if old != new and old not in LEMMAS}


def of_file(path, table):
    here = dict(table)
    here.update((old, snake(old) + '_lem') for old, files in LEMMAS.items() if files is None or path in files)
    return here


def respell(text, table, ghost_only):
    def line_of(line):
        if '"' in line and ghost_only:
            return line
        return TOKEN.sub(lambda m: table.get(m.group(), m.group()), line)
    return ''.join(line_of(line) for line in text.splitlines(keepends=True))


def change(path, turn):
    with open(path, encoding='utf-8') as f:
        text = f.read()
    new = turn(text)
    if new != text:
        with open(path, 'w', encoding='utf-8') as f:
            f.write(new)


def root(text):
    if '#![tactic(auto)]' in text:
        return text
    lines = text.splitlines(keepends=True)
    k = 0
    while k < len(lines) and lines[k].startswith('//'):
        k += 1
    lines.insert(k, '#![tactic(auto)]\n')
    return ''.join(lines)


def main():
    table = renamings()
    for folder, _, names in os.walk('crates'):
        for name in names:
            path = os.path.join(folder, name)
            if name.endswith('.antt') and '/out/' not in path:
                change(path, lambda text: respell(text, of_file(path, table), False))
            elif name.endswith('.rt') and '/out/' not in path:
                # names with a capital or a dash in the middle occur in clauses and `ghost use` alone
                few = {old: new for old, new in table.items() if old != old.lower() or '-' in old}
                change(path, lambda text: respell(text, few, True).replace('#[derive(Drop)]', '#[derive(Clone, Copy)]'))
    for path in glob.glob('crates/*/src/lib.rt') + glob.glob('crates/*/src/main.rt'):
        change(path, root)
    print(len(table) + len(LEMMAS), 'names')


main()
