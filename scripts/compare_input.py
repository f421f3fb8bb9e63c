#!/usr/bin/env python3
"""Compares the reader of input files with an independent reader on random and mutated texts.

    scripts/compare_input.py READER [COUNT [SEED]]

READER is the folder of an independent reader in Python: its module `fuzz` makes texts, its module `reader` reads them. Of
COUNT texts (20,000 where it isn't given) some are as made, most have changes of bytes, words and lines, or whole sections
dropped, doubled or moved. For each, the fault must be the same (line, cause, detail), or none. The program that answers for
this repository is built from compare_input_main.txt in a folder of its own, by `rt try`, without proofs; it reads on
standard input each text behind a line with its length. It stands outside the gate. With KEEP=FOLDER in the environment the
texts and answers are kept there, and taken from there the next time. LOSSES=hw makes texts with Hazen-Williams losses, mixed
of both kinds (cm). PROGRAM=FILE names the program where it is built already.
"""
import os
import pickle
import random
import re
import shutil
import subprocess
import sys
import tempfile
from pathlib import Path

import differences
from unproved import ROOT, crates_below

MAIN = ROOT / 'scripts' / 'compare_input_main.txt'
USES = ['hyd_inp', 'hyd_net']
# `rt try` gives no answer past 1 MiB.
MOST_OUTPUT = 900_000
BYTES = '0123456789.:-+eE;[]xX* \t~\x7f\xc8\r'
# Numbers at and beside ends of ranges, in metres, feet, millimetres, inches, flows and plain numbers.
NUMBERS = '''0 -0 1e-9 9e-10 -1e-9 0.1 0.099999999 0.0999999999 0.5 0.500000001 1 1.000000001 10 10.000000001 12 13 24 25.4 100
    304.8 1000 1000.000000001 3.048 10000 10000.000000001 9999.999999999 32808.398950131 32808.398950132 -32808.398950132 1e5
    1e6 1000000.000000001 999999 1e8 100000000.000000001 -1e8 1e9 408.73 40873.4 1e11 1e12 1000000000000.000000001 1e13 5. .5
    2e0 0.0001 0.001 0.01 9.99e3 0.0000001 18345.0 3.3333 6.6667 0.6666 2.0000001'''.split()


# ---------------------------------------------------------------- texts

def sections_of(lines):
    """The lines of a text, cut before each heading."""
    out = [[]]
    for line in lines:
        if line.lstrip().startswith('['):
            out.append([])
        out[-1].append(line)
    return out


def change_sections(rng, lines):
    """A whole section is dropped, doubled, moved or joined to another one."""
    parts = sections_of(lines)
    k = rng.randrange(len(parts))
    how = rng.randrange(5)
    if how == 0:
        del parts[k]
    elif how == 1:
        parts.insert(rng.randrange(len(parts) + 1), parts[k])
    elif how <= 3:
        parts.insert(rng.randrange(len(parts)), parts.pop(k))
    elif parts[k]:
        del parts[k][0]
    return [line for part in parts for line in part]


def change_bytes(rng, text):
    """One to three bytes are put in, taken out or changed."""
    for _ in range(rng.choice([1, 1, 2, 3])):
        k = rng.randrange(len(text) + 1)
        byte = rng.choice(BYTES).encode('latin-1')
        text = text[:k] + rng.choice([b'', byte]) + text[k + rng.randrange(2):]
    return text


def change_numbers(rng, text):
    """One or two numbers are put to an end of a range, or to another number of the text."""
    parts = re.split(rb'([ \t\n]+)', text)
    places = [k for k, part in enumerate(parts) if re.fullmatch(rb'[-+]?[0-9.]+([eE][-+]?[0-9]+)?', part)]
    for _ in range(rng.choice([1, 1, 2]) if places else 0):
        other = parts[rng.choice(places)]
        parts[rng.choice(places)] = rng.choice([rng.choice(NUMBERS).encode(), other])
    return b''.join(parts)


def made(fuzz, rng):
    """A text, without a fault or with one or more."""
    maker = fuzz.Maker(rng, True, differences.losses())
    text = maker.make()
    how = rng.randrange(10)
    if how < 2:
        return text
    if how < 4:
        return maker.fault()
    if how < 6:
        return change_numbers(rng, text)
    if how == 6:
        return fuzz.mutate(rng, text)
    if how == 7:
        return change_bytes(rng, text)
    lines = change_sections(rng, text.decode('latin-1').split('\n'))
    text = '\n'.join(lines).encode('latin-1')
    return fuzz.mutate(rng, text) if how == 9 else text


# ---------------------------------------------------------------- the independent reader's answers

def expected(reader, text):
    """The independent reader's fault, or `none`."""
    try:
        reader.read_project(text, differences.STAGE)
    except reader.Refused as fault:
        return '%d %d %d' % (fault.line, fault.cause, fault.detail)
    return 'none'


# ---------------------------------------------------------------- the program's answers

def run(texts):
    """What this repository's program prints of each text."""
    data = b''.join(b'%d\n%s' % (len(text), text) for text in texts)
    if 'PROGRAM' in os.environ:
        done = subprocess.run([os.environ['PROGRAM']], input=data, capture_output=True, check=True)
        return done.stdout.decode().split('\n')[:len(texts)]
    crates = crates_below(USES)
    with tempfile.TemporaryDirectory() as folder:
        top = Path(folder)
        for name in crates:
            shutil.copytree(ROOT / 'crates' / name, top / 'crates' / name,
                            ignore=shutil.ignore_patterns('out', 'proofs', 'must-fail'))
        crates['compare_input'] = USES
        main = top / 'crates' / 'compare_input' / 'src'
        main.mkdir(parents=True)
        shutil.copy(MAIN, main / 'main.rt')
        (top / 'crates.txt').write_text(''.join('%s: %s\n' % (name, ' '.join(uses)) for name, uses in crates.items()))
        subprocess.run(['git', 'init', '-q', folder], check=True)
        done = subprocess.run(['rt', 'try', '--seconds', '600'], cwd=main.parent, input=data, capture_output=True)
        if done.returncode:
            sys.exit(done.stderr.decode()[-3000:] + done.stdout.decode()[-2000:])
        return done.stdout.decode().split('\n')[:len(texts)]


def answers(texts, want):
    """The answers, in as many runs as their length asks for."""
    out, start = [], 0
    while start < len(texts):
        end, size = start, 0
        while end < len(texts) and size < MOST_OUTPUT:
            size += len(want[end]) + 1
            end += 1
        out += run(texts[start:end])
        start = end
    return out


def prepared(folder, count, seed):
    """The texts and the independent reader's answers."""
    name = 'input_%d_%d_%s.pickle' % (count, seed, differences.losses())
    kept = Path(os.environ['KEEP']) / name if 'KEEP' in os.environ else None
    if kept and kept.exists():
        return pickle.loads(kept.read_bytes())
    sys.path.insert(0, folder)
    import fuzz
    import reader
    texts = [made(fuzz, random.Random('%d/%d' % (seed, k))) for k in range(count)]
    want = [expected(reader, text) for text in texts]
    if kept:
        kept.write_bytes(pickle.dumps((texts, want)))
    return texts, want


def main():
    if len(sys.argv) < 2:
        sys.exit(__doc__)
    count = int(sys.argv[2]) if len(sys.argv) > 2 else 20_000
    seed = int(sys.argv[3]) if len(sys.argv) > 3 else 1
    texts, want = prepared(sys.argv[1], count, seed)
    got = answers(texts, want)
    sys.exit(differences.tell(texts, want, got))


if __name__ == '__main__':
    main()
