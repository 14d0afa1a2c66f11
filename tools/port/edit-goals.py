#!/usr/bin/env python3
"""Lists each must-fail edit with the goal that refuses it, as the logs of `rt ci` or `rt must-fail` say, and marks those that want a look:
a goal's name holds the literals and operators of its tests (`returns-then-text-gt-TEXT_LIMIT`), so that an edit of such a test renames the goal,
and an answer that is keyed by the older name is lost. The refusal would then come for a right program too.

usage: edit-goals.py LOG..       (at the top of the repository)

LOOK: the function that refuses has an Answers.antt, the goal that is open has no answer there, and the edit changes code of that function.
"""
import glob
import os
import re
import sys

said = {}
for log in sys.argv[1:]:
    for line in open(log, encoding='utf8', errors='replace'):
        m = re.match(r'rt: must-fail (\w+)/(\w+)\.edit: (.*)', line)
        if m:
            said[m[1], m[2]] = m[3]


def function_at(path, line):
    """The name of the function that line LINE of a source file is in."""
    name = None
    for i, text in enumerate(open(path, encoding='utf8').read().split('\n'), 1):
        m = re.match(r'\s*(?:pub )?(?:const )?(?:extern "C" )?fn (\w+)', text)
        if m and i <= line + 3:
            name = m[1]
    return name


look = 0
for path in sorted(glob.glob('crates/*/must-fail/*.edit')):
    crate, name = path.split('/')[1], os.path.basename(path)[:-5]
    what = said.get((crate, name))
    if what is None:
        print(f'{crate}/{name}: NOT TRIED in these logs')
        continue
    m = re.search(r'note: (src/[\w/]+\.rt):(\d+):\d+: (.*?) \(`([^`]+)`\)', what)
    if not m:
        print(f'{crate}/{name}: {what[:180]}')
        continue
    f = function_at(f'crates/{crate}/{m[1]}', int(m[2]))
    keys = []
    for a in glob.glob(f'crates/{crate}/proofs/**/{f}/Answers.antt', recursive=True):
        keys += re.findall(r'(?m)^pub (\S+) : goal\.', open(a, encoding='utf8').read())
    flag = ''
    if keys and m[4] not in keys and 'file: src' in open(path, encoding='utf8').read():
        flag, look = ' LOOK: answers are keyed ' + ', '.join(keys), look + 1
    print(f'{crate}/{name}: {f}: {m[4]}{flag}')
print(f'{look} to look at')
