#!/usr/bin/env python3
"""Counts, crate by crate, the walks (Proof.antt) of the older form and what stands for them today, as the table of docs/PORT.md has it.

usage: count-proofs.py OLDER-FOLDER      (at the top of the repository; OLDER-FOLDER has the last commit before the port)
"""
import glob
import re
import sys

OLDER = sys.argv[1]


def read(path):
    with open(path, encoding='utf8') as file:
        return file.read()


def found(folder, name):
    return [read(p) for p in glob.glob(f'{folder}/**/{name}', recursive=True)]


def lines(texts):
    return sum(t.count('\n') for t in texts)


def times(pattern, texts):
    return sum(len(re.findall(pattern, t)) for t in texts)


total = [0] * 8
for line in read('crates.txt').split('\n'):
    if not re.match(r'\w', line):
        continue
    crate = re.match(r'\w+', line)[0]
    code = [re.sub(r'//.*', '', t) for t in found(f'crates/{crate}/src', '*.rt')]
    walks = found(f'{OLDER}/crates/{crate}/proofs', 'Proof.antt')
    invariants = found(f'crates/{crate}/proofs', 'Invariants.antt')
    answers = found(f'crates/{crate}/proofs', 'Answers.antt')
    row = [
        times(r'\bfn \w+', code), len(walks), lines(walks), times(r'(?m)^ *#\[tactic\(', code),
        len(invariants), len(answers), times(r'(?m)^pub \S+ : goal\.', answers), lines(invariants + answers),
    ]
    total = [a + b for a, b in zip(total, row)]
    print('| {} | {} | {} ({}) | {} | {} | {} ({}) | {} |'.format(crate, *row))
print('| {} | {} | {} ({}) | {} | {} | {} ({}) | {} |'.format('all', *total))
