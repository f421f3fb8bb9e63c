#!/usr/bin/env python3
"""Compares `fire` and `closures` with an independent program on random networks.

    scripts/compare_targets.py OTHER [FIRES [CLOSURES [SEED]]]

OTHER is the folder of an independent program in Python: its module `fuzz` makes texts, its module `cli` answers them.
FIRES times (2,000 where it isn't given) `fire` asks for a random junction, CLOSURES times (500) `closures` is asked, each
of a random network: half of them with tanks, controls and rules, of which the first period alone counts, half of a
single instant; some get changed numbers, some a fault. The target pressure is mostly one near those that the first
period has, so that words of each kind come. Most have the usual number of rounds. Status and printed bytes must be the
same, with one exception: an edge or a word that is ROUNDS in one of the two may be another one in the other, since where
rounds are spent depends on the starts that are tried. It says how many edges and words of each kind came.

The program of this repository is built as `compare_runs.py` builds it. PROGRAM=FILE in the environment names one that is
built; where there is none yet, it is built and kept there. JOBS=N runs so many at once (2). It stands outside the gate.
"""
import collections
import multiprocessing
import os
import random
import subprocess
import sys
import tempfile
from pathlib import Path

from compare_input import change_numbers
from compare_runs import OTHER_SECONDS, SECONDS, build, steady
from differences import STAGE, at_most, losses, modules_of, printed_by

SPENT = 'ROUNDS'


# ---------------------------------------------------------------- questions

def network(fuzz, rng):
    """A text."""
    how = rng.randrange(20)
    maker = steady(fuzz, rng) if rng.randrange(2) else fuzz.Maker(rng, True, losses())
    text = maker.make()
    if how == 0:
        return maker.fault()
    return change_numbers(rng, text) if how < 4 else text


def junctions_of(cli, text):
    """The names of a text's junctions; none where it has a fault."""
    try:
        return [junction.id.decode('latin-1') for junction in cli.read_project(text, STAGE).junctions]
    except Exception:
        return []


def first_pressures(program, folder):
    """The lower ends of the junctions' pressures in the first period, by their names, as far as a run gives them."""
    done = ended(program, folder, ['run', 'n.inp', 'n.cert'])
    pressures = {}
    for line in (done or (0, b''))[1].decode('latin-1').splitlines():
        words = line.split(' ')
        if words[0] == 'JUNCTION' and words[1] not in pressures:
            pressures[words[1]] = float(words[6])
        elif words[0] in ('RESERVOIR', 'LINK'):
            break
    return pressures


def question(cli, program, folder, rng, text, is_fire):
    """The words of a command on the text."""
    pressures = first_pressures(program, folder)
    names = junctions_of(cli, text) or ['J']
    name = rng.choice(names)
    near = pressures.get(name, rng.choice(list(pressures.values())) if pressures else None)
    if near is None or rng.randrange(6) == 0:
        pressure = rng.choice(['0', '-5', '10', '25.5', '40', '3e1', '1e4', '-1e4', '100.25'])
    else:
        pressure = '%.6f' % (near + rng.choice([0, 0.0001, -0.0001, 0.01, -0.01, 1, -1, 5, -5, 20]))
    words = ['--sweeps', rng.choice('0 1 5 20 1000'.split())] if rng.randrange(8) == 0 else []
    if is_fire:
        name = name if rng.randrange(20) else rng.choice(['nobody', 'n.inp'] + names)
        return ['fire'] + words + ['--', 'n.inp', name, pressure]
    return ['closures'] + words + ['--', 'n.inp', pressure]


# ---------------------------------------------------------------- answers: status and printed bytes

def ended(program, folder, words):
    """This repository's answer."""
    try:
        done = subprocess.run([program] + words, cwd=folder, stdin=subprocess.DEVNULL, capture_output=True,
                              timeout=SECONDS)
    except subprocess.TimeoutExpired:
        return None
    return done.returncode, printed_by(done)


def expected(cli, text, words):
    """The independent program's answer."""
    return cli.Tool({'n.inp': text}, STAGE).call(words)


def compared(job):
    """The text of a seed, the words, and both answers."""
    program, other, is_fire, seed = job
    cli, fuzz = modules_of(other, 'cli', 'fuzz')
    rng = random.Random(seed)
    text = network(fuzz, rng)
    while not junctions_of(cli, text) and rng.randrange(10):
        text = network(fuzz, rng)
    with tempfile.TemporaryDirectory() as folder:
        (Path(folder) / 'n.inp').write_bytes(text)
        words = question(cli, program, folder, rng, text, is_fire)
        got = ended(program, folder, words)
    try:
        with at_most(OTHER_SECONDS):
            want = expected(cli, text, words)
    except TimeoutError:
        want = None
    return seed, text, words, want, got


# ---------------------------------------------------------------- comparison

def words_of(printed):
    """The words that `closures` printed, by pipe and junction; None where these aren't its lines."""
    found, pipe = {}, None
    lines = printed.decode('latin-1').splitlines()
    if not lines or not lines[-1].startswith('DONE '):
        return None
    for line in lines[:-1]:
        words = line.split(' ')
        if words[0] == 'SHUT':
            pipe = words[1]
            found[pipe, None] = 'SHUT'
        else:
            found[pipe, words[1]] = words[2]
    found[None, None] = lines[-1]
    return found


def comparison(words, want, got):
    """How the two answers compare; only `DIFFERENT` is an error."""
    if want is None:
        return 'left out'
    if want == got:
        return 'same'
    if got is None or want[0] != got[0]:
        return 'DIFFERENT'
    if words[0] == 'fire':
        return 'rounds spent' if same_edges(want[1].split(), got[1].split()) else 'DIFFERENT'
    left, right = words_of(want[1]), words_of(got[1])
    if left is None or right is None:
        return 'DIFFERENT'
    pairs = [(left.get(place, 'SAFE'), right.get(place, 'SAFE')) for place in {**left, **right}]
    return 'rounds spent' if all(a == b or SPENT in (a, b) for a, b in pairs) else 'DIFFERENT'


def same_edges(want, got):
    """Whether two lines of `fire` are the same, but for edges that are spent in one of them."""
    return len(want) == len(got) == 4 and want[:2] == got[:2] \
        and all(a == b or SPENT in (a, b) for a, b in zip(want[2:], got[2:]))


def kinds(words, got):
    """The kinds of edges or words that came."""
    printed = (got or (0, b''))[1]
    if words[0] == 'fire' and printed.startswith(b'FIRE '):
        for side, edge in zip(('below', 'above'), printed.decode('latin-1').split()[2:]):
            yield 'edge %s %s' % (side, edge if edge.isalpha() or edge == '0.0000' else 'a flow')
    if words[0] == 'closures':
        for place, word in (words_of(printed) or {}).items():
            if place[1] is not None:
                yield 'word ' + word


def main():
    given = sys.argv[1:]
    if not given:
        sys.exit(__doc__)
    counts = [int(given[1]) if len(given) > 1 else 2_000, int(given[2]) if len(given) > 2 else 500]
    first = int(given[3]) if len(given) > 3 else 1
    statuses, came, wrong = collections.Counter(), collections.Counter(), []
    with tempfile.TemporaryDirectory() as folder:
        program = Path(os.environ.get('PROGRAM', Path(folder) / 'program')).resolve()
        if not program.exists():
            build(program)
        jobs = [(str(program), given[0], is_fire, '%s/%d/%d' % ('fire' if is_fire else 'closures', first, k))
                for is_fire, count in zip((True, False), counts) for k in range(count)]
        with multiprocessing.Pool(int(os.environ.get('JOBS', '2'))) as pool:
            for done in pool.imap_unordered(compared, jobs, 4):
                seed, text, words, want, got = done
                how = comparison(words, want, got)
                statuses['%s: %s found %s: %s' % (words[0], '-' if want is None else want[0],
                                                  '-' if got is None else got[0], how)] += 1
                came.update(kinds(words, got))
                if how == 'DIFFERENT':
                    wrong.append(done)
    for seed, text, words, want, got in sorted(wrong, key=lambda one: len(one[1]))[:10]:
        print('text', seed, *words)
        print('expected', want)
        print('found', got)
        print(text.decode('latin-1'))
    print('%d fires and %d closures, %d differ' % (*counts, len(wrong)))
    for name, many in sorted(statuses.items()):
        print('status of', name, many)
    for name, many in sorted(came.items()):
        print(name, many)
    sys.exit(1 if wrong else 0)


if __name__ == '__main__':
    main()
