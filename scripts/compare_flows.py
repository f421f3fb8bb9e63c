#!/usr/bin/env python3
"""Compares runs with flows of named links, and checks of their certificates, with an independent program.

    scripts/compare_flows.py OTHER [RUNS [CHECKS [SEED]]]

OTHER is the folder of an independent program in Python: its module `fuzz` makes texts and changes certificates, its
module `cli` answers. Each of RUNS random networks (2,000 where it isn't given), over some hours or of a single instant,
is run with `--tight`, 100,000 rounds or fewer and `--flows` with one to sixteen of its links between junctions; now and
then one of the names is no link, a link at a reservoir or tank, a repeated one or one of a form that no file has.
Status, printed bytes and certificate must be the same, but where rounds were spent in one of the two. The vectors of a
link may differ where so many plain rounds lead to none: that is tried by making them. Then this repository's must be
vectors with that node held, as the other program checks them, nowhere but at it farther out than the record's, and its
FLOW lines those of its vectors; all else must be the same. Each certificate with flows is then checked by both, and up
to CHECKS changed ones (2,000): heads of the vectors moved, numbers of links changed, repeated or put out of range,
parts left out, doubled or put elsewhere, and what
`fuzz` changes in any certificate. It says how many runs and checks came to each last line.

The program of this repository is built as compare_runs.py builds it; PROGRAM, KEEP and JOBS in the environment are those of
that script, and OTHER_SECONDS is after how many seconds of the other program a network is left out (20). It stands outside the gate.
"""
import collections
import multiprocessing
import os
import random
import re
import subprocess
import sys
import tempfile
from pathlib import Path

from compare_checks import kind, tell
from compare_runs import SECONDS, build, steady
from differences import STAGE, at_most, losses, modules_of, printed_by

# Longer runs are left out, and those on which the other program spends more seconds (three of four take it a tenth of a
# second, most others over twenty).
MOST_PERIODS = 12
OTHER_SECONDS = float(os.environ.get('OTHER_SECONDS', '20'))
SPENT = b' ROUNDS '
SWEEPS = ['100000', '100000', '200', '20', '3']
ODD_NAMES = ['nobody', 'a;b', '\u00e9', 'x' * 31]
WRONG_NAMES = ['', 'x' * 32]


# ---------------------------------------------------------------- questions

def network(fuzz, rng):
    """A text."""
    maker = steady(fuzz, rng) if rng.randrange(2) else fuzz.Maker(rng, True, losses())
    return maker.make()


def links_of(cli, text):
    """The names of a text's links between two junctions, and those of the others; none where it has a fault."""
    try:
        project = cli.read_project(text, STAGE)
    except Exception:
        return [], []
    inner, outer = [], []
    for name, link in zip(project.link_ids, project.links):
        name = name.decode('latin-1') if isinstance(name, bytes) else name
        (inner if max(link.a, link.b) < len(project.junctions) else outer).append(name)
    return inner, outer


def names_for(rng, inner, outer):
    """The value of `--flows`."""
    inner = [name for name in inner if ',' not in name]
    outer = [name for name in outer if ',' not in name]
    names = rng.sample(inner, min(len(inner), rng.choice([1, 1, 2, 3, 5, 16])))
    how = rng.randrange(12)
    if how == 0:
        names.insert(rng.randrange(len(names) + 1), rng.choice(ODD_NAMES))
    elif how == 1 and outer:
        names.insert(rng.randrange(len(names) + 1), rng.choice(outer))
    elif how == 2 and rng.randrange(3) == 0:
        names.insert(rng.randrange(len(names) + 1), rng.choice(WRONG_NAMES + names))
    return ','.join(names) or 'nobody'


# ---------------------------------------------------------------- changed certificates

def change_part(rng, cert):
    """A certificate whose flow parts are others."""
    lines = cert.split(b'\n')
    places = {front: [k for k, line in enumerate(lines) if line.startswith(front)]
              for front in (b'FU ', b'FL ', b'LINK ', b'FLOWS ')}
    how = rng.randrange(7)
    heads = places[b'FU '] + places[b'FL ']
    if how < 2 and heads:
        k = rng.choice(heads)
        front, head = lines[k].split()
        lines[k] = b'%s %d' % (front, int(head) + rng.choice([-1, 1, -10 ** 3, 10 ** 3, 10 ** 9, -10 ** 9]))
    elif how == 2 and heads:
        step = rng.choice([1, 10 ** 6, 10 ** 12])
        for k in heads:
            front, head = lines[k].split()
            lines[k] = b'%s %d' % (front, int(head) + (step if front == b'FU' else -step))
    elif how == 3 and places[b'LINK ']:
        k = rng.choice(places[b'LINK '])
        other = rng.choice([lines[j].split()[1] for j in places[b'LINK ']] + [b'0', b'1', b'2', b'7', b'4294967295', b'4294967296'])
        lines[k] = b'LINK ' + other
    elif how == 4 and places[b'FLOWS ']:
        k = rng.choice(places[b'FLOWS '])
        lines[k] = b'FLOWS %d' % rng.choice([0, 1, 2, 3, 16, 17])
    else:
        text = b'\n'.join(lines)
        parts = re.split(rb'(?=PERIOD |FLOWS |LINK |END )', text)
        k = rng.randrange(1, len(parts)) if len(parts) > 1 else 0
        if how == 5:
            parts[k:k + 1] = rng.choice([[], [parts[k], parts[k]]])
        else:
            parts.insert(rng.randrange(1, len(parts) + 1), parts[k])
        return b''.join(parts)
    return b'\n'.join(lines)


def changed(fuzz, rng, cert):
    """A certificate with a change."""
    return change_part(rng, cert) if rng.randrange(3) else fuzz.change_certificate(rng, cert)


# ---------------------------------------------------------------- answers

def ended(program, files, words):
    """This repository's answer: status, printed bytes, and the certificate."""
    with tempfile.TemporaryDirectory() as folder:
        for name, text in files.items():
            (Path(folder) / name).write_bytes(text)
        try:
            done = subprocess.run([program] + words, cwd=folder, stdin=subprocess.DEVNULL, capture_output=True,
                                  timeout=SECONDS)
        except subprocess.TimeoutExpired:
            return 'no end in %d seconds' % SECONDS, b'', None
        cert = Path(folder) / 'n.cert'
        return done.returncode, printed_by(done), cert.read_bytes() if cert.exists() else None


def expected(cli, files, words):
    """The independent program's answer."""
    files = dict(files)
    status, printed = cli.Tool(files, STAGE, None, MOST_PERIODS).call(words)
    return status, printed, files.get('n.cert')


def records_of(cli, text, cert):
    """The periods of a certificate with flows, as the other program accepts them, each with its part; none where it refuses it."""
    records = []
    tool = cli.Tool({'n.inp': text}, STAGE)
    status, _ = tool.accept_all(tool.project('n.inp'), cert, lambda period, part: records.append((period, part)))
    return records if status == 0 else []


def is_free_vector(period, link, side, rounds, vector):
    """Whether so many plain rounds lead to no vector of a side, and this one lies no farther out than the record's."""
    import laws
    import solve
    start = laws.LOWER if side == laws.UPPER else laws.UPPER
    held = period.net.project.links[link].a
    own, up = period.vectors[laws.MAIN, side], 1 if side == laws.UPPER else -1
    if any(up * (mine - most) > 0 for i, (mine, most) in enumerate(zip(vector, own)) if i != held):
        return False
    sweep = solve.plain_rounds(solve.Side(period.net, laws.MAIN, side), period.vectors[laws.MAIN, start], rounds, held)
    return sweep.outcome == solve.ROUNDS_SPENT


def differ_freely(cli, files, words, want, got):
    """Whether two runs differ only in vectors of links where the rounds are spent, and these are what they may be."""
    certs = [it[2] or b'' for it in (want, got)]
    if words[0] != 'run' or want[0] != got[0] or not all(cert.startswith(b'HYDCERT 3') for cert in certs):
        return False
    theirs, ours = (records_of(cli, files['n.inp'], cert) for cert in certs)
    checked = expected(cli, {'n.inp': files['n.inp'], 'n.cert': certs[1]}, ['check', 'n.inp', 'n.cert'])
    if not ours or len(ours) != len(theirs) or checked[1].splitlines()[:-1] != got[1].splitlines()[:-1]:
        return False
    rounds = int(words[words.index('--sweeps') + 1])
    for (period, named), (other, expect) in zip(ours, theirs):
        if period.vectors != other.vectors or [link for link, _ in named] != [link for link, _ in expect]:
            return False
        for (link, vectors), (_, nearest) in zip(named, expect):
            for side in vectors:
                if vectors[side] != nearest[side] and not is_free_vector(period, link, side, rounds, vectors[side]):
                    return False
    return want[1].splitlines()[-1] == got[1].splitlines()[-1]


def compared(job):
    """A seed's run and checks: for each its words, its files, both answers, and whether they differ where they may."""
    program, other, changes, seed = job
    cli, fuzz = modules_of(other, 'cli', 'fuzz')
    rng = random.Random(seed)
    out = []
    try:
        with at_most(OTHER_SECONDS):
            text = network(fuzz, rng)
            while not links_of(cli, text)[0]:
                text = network(fuzz, rng)
            words = ['run', 'n.inp', 'n.cert', '--tight', '--sweeps', rng.choice(SWEEPS), '--flows', names_for(rng, *links_of(cli, text))]
            files = {'n.inp': text}
            want, got = expected(cli, files, words), ended(program, files, words)
            out.append((words, files, want, got, want != got and differ_freely(cli, files, words, want, got)))
            if want[2] and want[2].startswith(b'HYDCERT 3'):
                for cert in [want[2]] + [changed(fuzz, rng, want[2]) for _ in range(changes)]:
                    files, words = {'n.inp': text, 'n.cert': cert}, ['check', 'n.inp', 'n.cert']
                    out.append((words, files, expected(cli, files, words), ended(program, files, words), False))
    except (TimeoutError, cli.TooManyPeriods):
        pass
    return seed, out


def is_usage(want, got):
    """Whether both refuse the words: the usage line of the other program names commands that aren't here yet."""
    return want[0] == got[0] == 2 and want[2] == got[2] and all(it[1].startswith(b'USAGE ') for it in (want, got))


def is_spent(words, want, got):
    """Whether one of two runs spent its rounds."""
    return words[0] == 'run' and (SPENT in want[1] or SPENT in got[1])


def main():
    given = sys.argv[1:]
    if not given:
        sys.exit(__doc__)
    runs = int(given[1]) if len(given) > 1 else 2_000
    checks = int(given[2]) if len(given) > 2 else 2_000
    first = int(given[3]) if len(given) > 3 else 1
    each = max(1, -(-checks // max(1, runs // 2)))
    came, wrong = collections.Counter(), 0
    with tempfile.TemporaryDirectory() as folder:
        program = Path(os.environ.get('PROGRAM', Path(folder) / 'program')).resolve()
        if not program.exists():
            build(program)
        jobs = [(str(program), given[0], each, 'flows/%d/%d' % (first, k)) for k in range(runs)]
        with multiprocessing.Pool(int(os.environ.get('JOBS', '2'))) as pool:
            for seed, out in pool.imap_unordered(compared, jobs, 4):
                for number, (words, files, want, got, free) in enumerate(out):
                    if want == got or is_usage(want, got):
                        how = 'same'
                    elif is_spent(words, want, got):
                        how = 'rounds spent'
                    elif free:
                        how = 'other vectors where rounds are spent'
                    else:
                        how, wrong = 'DIFFERENT', wrong + 1
                        tell(seed, files['n.inp'], files.get('n.cert', b''), want, got)
                        print('words', *words)
                        if 'KEEP' in os.environ:
                            keep(os.environ['KEEP'], seed, number, words, files, want, got)
                    came['%s: %s: %s' % (words[0], kind(want) if want[1] else want[0], how)] += 1
                if not out:
                    came['left out'] += 1
    for what, count in sorted(came.items()):
        print('%7d %s' % (count, what))
    print('%d differ' % wrong)
    return 1 if wrong else 0


def keep(folder, seed, number, words, files, want, got):
    """Keeps the files and both answers."""
    base = '%s/%s-%d' % (folder, seed.replace('/', '_'), number)
    Path(folder).mkdir(parents=True, exist_ok=True)
    Path(base + '.words').write_text(' '.join(words) + '\n')
    for name, data in {**files, 'want': want[1], 'got': got[1], 'want.cert': want[2] or b'', 'got.cert': got[2] or b''}.items():
        Path('%s.%s' % (base, name)).write_bytes(data)


if __name__ == '__main__':
    sys.exit(main())
