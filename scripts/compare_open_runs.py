#!/usr/bin/env python3
"""Compares runs with a slack, and checks of their certificates, with an independent program on random texts.

    scripts/compare_open_runs.py OTHER [COUNT [SEED]]

OTHER is the folder of an independent program in Python: its module `fuzz` makes texts and changes certificates, its
module `cli` runs and checks them. Each of COUNT texts (2,000 where it isn't given), networks with tanks, controls and
rules over some hours, is run by both with `--slack N`, some with another number of rounds. With `--tight` the printed
bytes, those of the certificate and the exit status must be the same; where rounds are spent in one of the two the other
may differ. With `--slack 0` the bytes of this program must be those of a run without the word. Each program must accept
the other one's certificate and print the same report of it, but for the last line of a run that stopped; without
`--tight`, where records may be others, that is all that is asked. Eight changed certificates of each network, heads
moved, words of PERIOD lines and of the header changed, lines left out or doubled, cut off anywhere, one byte changed,
records left out, doubled or put elsewhere, are checked by both, with the same printed bytes and status. It says how
many answers of each kind came. A text is left out whose run has more than 60 periods or on which the other program
spends more than a minute.

The program of this repository is built as compare_runs.py builds it; PROGRAM, KEEP, JOBS and OTHER_SECONDS in the
environment are those of that script, LOSSES is that of differences.py. `PROGRAM=other` lets the other program answer for
this one, which tries this script alone. It stands outside the gate.
"""
import collections
import multiprocessing
import os
import random
import sys
import tempfile
from pathlib import Path

import compare_checks
import compare_runs
from compare_checks import records_of
from compare_runs import OTHER_SECONDS, SPENT, build
from differences import STAGE, at_most, keep, losses, modules_of

CHANGES = 8
MOST_PERIODS = 60
SLACKS = '0 1 1 2 5 30 120 3600 3600 86400'.split()


# ---------------------------------------------------------------- texts and words

def made(fuzz, rng):
    """A text, and the words behind `run NET CERT`."""
    maker = fuzz.Maker(rng, True, losses())
    text = maker.edge() if rng.randrange(3) == 0 else maker.make()
    words = ['--slack', rng.choice(SLACKS)]
    if rng.randrange(3):
        words.append('--tight')
    if rng.randrange(8) == 0:
        words += ['--sweeps', rng.choice('0 1 2 5 20 1000'.split())]
    return text, words


def change_periods(rng, cert):
    """A certificate of which a number of a PERIOD line is another."""
    head, records, end = records_of(cert)
    if not records:
        return cert
    k = rng.randrange(len(records))
    first, rest = records[k].split(b'\n', 1)
    words = first.split(b' ')
    j = rng.randrange(1, len(words))
    words[j] = b'%d' % max(0, int(words[j]) + rng.choice([-1, 1, -2, 2, 60, 3600]))
    records[k] = b' '.join(words) + b'\n' + rest
    return head + b''.join(records) + end


def changed(fuzz, rng, cert, other):
    """A certificate with a change."""
    how = rng.randrange(4)
    if how == 0:
        return change_periods(rng, cert)
    if how == 1:
        return compare_checks.change_records(rng, cert, other)
    return fuzz.change_certificate(rng, cert)


# ---------------------------------------------------------------- answers: status, printed bytes, certificate

def other_runs(cli, text, words):
    """The independent program's answer."""
    files = {'n.inp': text}
    status, printed = cli.Tool(files, STAGE, None, MOST_PERIODS).call(['run', 'n.inp', 'n.cert'] + words)
    return status, printed, files.get('n.cert')


def other_checks(cli, text, cert):
    return cli.Tool({'n.inp': text, 'n.cert': cert}, STAGE).call(['check', 'n.inp', 'n.cert'])


def this_runs(cli, program, text, words):
    if program == 'other':
        return other_runs(cli, text, words)
    return compare_runs.found(program, text, words)


def this_checks(cli, program, text, cert):
    return other_checks(cli, text, cert) if program == 'other' else compare_checks.got(program, text, cert)


def without_slack(words):
    """The words without `--slack N`."""
    k = words.index('--slack')
    return words[:k] + words[k + 2:]


def is_accepted_so(answer, check):
    """Whether a check of what was written accepts it and prints the same report, but for the last line of a stop."""
    lines, again = answer[1].splitlines(), check[1].splitlines()
    last = again[-1:] == lines[-1:] if answer[0] == 0 else again[-1:] != [] and again[-1].startswith(b'PARTIAL ')
    return check[0] == 0 and lines[:-1] == again[:-1] and last


def faults_of_run(cli, program, text, words, want, have):
    """What is wrong of the answer `have` of this program, where the other one answers `want`."""
    if '--tight' in words and want != have and SPENT not in (want[0], have[0]):
        return ['run']
    faults = [] if have[2] is not None or want[2] is None else ['this program wrote no certificate: %s' % have[0]]
    if have[2] is not None and not is_accepted_so(have, other_checks(cli, text, have[2])):
        faults.append('the other program refuses the certificate, or prints another report')
    if want[2] is not None and not is_accepted_so(want, this_checks(cli, program, text, want[2])):
        faults.append('this program refuses the certificate of the other one, or prints another report')
    if words[words.index('--slack') + 1] == '0' and this_runs(cli, program, text, without_slack(words)) != have:
        faults.append('slack 0 differs from no word')
    return faults


def compared(job):
    """Of a seed: its text, its words, both answers, what is wrong of the run, and the checks of changed certificates."""
    program, folder, seed = job
    cli, fuzz = modules_of(folder, 'cli', 'fuzz')
    rng = random.Random(seed)
    text, words = made(fuzz, rng)
    try:
        with at_most(OTHER_SECONDS):
            want = other_runs(cli, text, words)
            have = this_runs(cli, program, text, words)
            faults = faults_of_run(cli, program, text, words, want, have)
            checks = []
            if want[2] is not None:
                for _ in range(CHANGES):
                    cert = changed(fuzz, rng, want[2], have[2] or want[2])
                    checks.append((cert, other_checks(cli, text, cert), this_checks(cli, program, text, cert)))
            return seed, text, words, want, have, faults, checks
    except (TimeoutError, cli.TooManyPeriods):
        return seed, text, words, None, None, [], []


# ---------------------------------------------------------------- what came

def kinds_of(want, checks):
    """The kinds of lines that came: of the run, and the last ones of the checks."""
    for line in want[1].decode('latin-1').splitlines():
        yield compare_runs.kind(line) if not is_open(line) else 'open ' + line.split()[0]
    for _, answer, _ in checks:
        yield 'changed: ' + compare_checks.kind(answer)


def is_open(line):
    """Whether a line tells two times."""
    words = line.split()
    return words[0] == 'EVENT' and words[2].count(':') == 2 or words[0] == 'CONTROL' and words[3].count(':') == 2


def main():
    given = sys.argv[1:]
    if not given:
        sys.exit(__doc__)
    count = int(given[1]) if len(given) > 1 else 2_000
    first = int(given[2]) if len(given) > 2 else 1
    kinds, statuses, wrong, left_out = collections.Counter(), collections.Counter(), [], 0
    with tempfile.TemporaryDirectory() as folder:
        program = os.environ.get('PROGRAM', str(Path(folder) / 'program'))
        if program != 'other':
            program = str(Path(program).resolve())
            if not Path(program).exists():
                build(Path(program))
        jobs = [(program, given[0], 'open/%d/%d' % (first, k)) for k in range(count)]
        with multiprocessing.Pool(int(os.environ.get('JOBS', '2'))) as pool:
            for seed, text, words, want, have, faults, checks in pool.imap_unordered(compared, jobs, 4):
                if want is None:
                    left_out += 1
                    continue
                statuses['run %s%s' % (want[0], ' tight' if '--tight' in words else '')] += 1
                kinds.update(kinds_of(want, checks))
                bad = [(cert, a, b) for cert, a, b in checks if a != b]
                if faults or bad:
                    wrong.append((seed, text, words, faults, bad))
                    if 'KEEP' in os.environ:
                        parts = {} if have[2] is None else {'got.cert': have[2]}
                        keep(os.environ['KEEP'], seed, 0, inp=text, want=want[1], got=have[1], **parts)
                        for number, (cert, a, b) in enumerate(bad, 1):
                            keep(os.environ['KEEP'], seed, number, cert=cert, want=a[1], got=b[1])
    for seed, text, words, faults, bad in sorted(wrong, key=lambda one: len(one[1]))[:10]:
        print('text', seed, 'run', *words, *faults, '%d changed certificates differ' % len(bad))
        print(text.decode('latin-1'))
    print('%d texts, %d left out, %d differ' % (count, left_out, len(wrong)))
    for name, many in sorted(statuses.items()) + sorted(kinds.items()):
        print(name, many)
    sys.exit(1 if wrong else 0)


if __name__ == '__main__':
    main()
