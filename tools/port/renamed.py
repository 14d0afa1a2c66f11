#!/usr/bin/env python3
"""Lists, crate by crate, what the port renamed: definitions and theorems of specs/, and lemmas of proofs/*.antt, older and newer name. Both sides
declare the same things in the same order, so they are laid beside one another as they stand; a file where they do not is told.

usage: renamed.py OLDER-FOLDER [--edits]      (at the top of the repository; OLDER-FOLDER has the last commit before the port)

With --edits: the must-fail edits whose text changed, both texts.
"""
import glob
import os
import re
import sys

older = [a for a in sys.argv[1:] if not a.startswith('--')][0]
NAME = r'[^\s(){}.;,@"«»]+'
SIG = re.compile(
    rf"^ *(?:(?:abbrev|unfoldable|pub|record|data) +)*({NAME})(?: \{{[^{{}}\n]*\}})*(?: \([^()\n]*(?:\([^()\n]*\)[^()\n]*)*\))* :(?= |$)", re.M)


def declared(path):
    text = re.sub(r'(?m)(^|(?<=\s))--.*', '', open(path, encoding='utf8').read())
    return [m[1] for m in SIG.finditer(text) if m[1] not in ('let', 'use')]


def plain(name):
    return name.replace('◌', '_')


if '--edits' in sys.argv:
    for path in sorted(glob.glob('crates/*/must-fail/*.edit')):
        before = open(f'{older}/{path}', encoding='utf8').read().split('\n')
        after = open(path, encoding='utf8').read().split('\n')
        if before != after:
            print(path)
            for a, b in zip(before, after):
                if a != b:
                    print(f'    {a}\n    {b}')
    sys.exit()
for crate in sorted(os.listdir('crates')):
    for part in ('specs', 'proofs'):
        rows = []
        for path in sorted(glob.glob(f'crates/{crate}/{part}/*.antt')):
            if not os.path.exists(f'{older}/{path}'):
                print(f'{path}: new')
                continue
            before, after = declared(f'{older}/{path}'), declared(path)
            if len(before) != len(after):
                print(f'{path}: {len(before)} declared before, {len(after)} today')
                continue
            rows += [f'`{a}` `{b}`' for a, b in zip(before, after) if plain(a) != plain(b)]
        if rows:
            print(f'{crate}, {part}: ' + ', '.join(dict.fromkeys(rows)))
