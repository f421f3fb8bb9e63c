#!/usr/bin/env python3
"""Compares runs with an independent program on random texts.

    scripts/compare_runs.py [--steady] OTHER [COUNT [SEED]]

OTHER is the folder of an independent program in Python: its module `fuzz` makes texts, its module `cli` runs them. Of
COUNT texts (10,000 where it isn't given) most are as they are made: networks with tanks, controls and rules over some
hours. With `--steady` they are networks of a single instant, their tanks made reservoirs, without controls, rules and
a duration. Some get changed numbers, some a fault. Each is run by both, some with another number of rounds; a text is
left out whose run has more than 200 periods, or on which the other program spends more than a minute. With `--tight`
the printed bytes, those of the certificate and the exit status must be the same. Where rounds are spent (status 7) in
one of the two, the other may differ; where no certificate exists, another junction may be named if the independent
program says that it hangs on the order of raises. Without `--tight` records may be others that are narrow: then the
other program must accept each and print the same report of it, each must be narrow or hold the tightest vectors, and
where the run stopped the other must stop so at the standing that these records leave. It says how many lines, events,
stops and statuses of each kind came.

The program of this repository is built without proofs, as `rt try` builds it, its checks at run time left in, but
optimized and without a sanitizer, by a folder of links to the kit whose linker keeps the program. PROGRAM=FILE in the
environment names one that is built; where there is none yet, it is built and kept there. KEEP=FOLDER keeps the texts
that differ, and both answers. JOBS=N runs so many at once (2), and OTHER_SECONDS=N leaves a network out after so many
seconds of the other program (60). It stands outside the gate.
"""
import collections
import copy
import multiprocessing
import os
import random
import shutil
import subprocess
import sys
import tempfile
from decimal import Decimal
from pathlib import Path

from compare_input import ROOT, change_numbers
from differences import STAGE, at_most, losses, modules_of, printed_by
from unproved import LINKER, crates_below, links_to_kit

SPENT = 7
MOST_PERIODS = 200
# A head tick is 10^-13 m.
HEAD_TICKS = 10 ** 13
# The most seconds of the clock for this program, and of the processor for the other one.
SECONDS = 120
OTHER_SECONDS = float(os.environ.get('OTHER_SECONDS', '60'))
CLANG = '''#!/bin/bash
words=()
for word in "$@"; do
  case "$word" in
    -O0) words+=(-O3);;
    -fsanitize=address) ;;
    *) words+=("$word");;
  esac
done
exec %s/toolchain/bin/clang "${words[@]}"
'''


# ---------------------------------------------------------------- the program

def build(program, linker=LINKER):
    """Builds the program `hyd` with this linker, and keeps it under this name."""
    crates = crates_below(['hyd'])
    with tempfile.TemporaryDirectory() as folder:
        top = Path(folder) / 'copy'
        for name in crates:
            shutil.copytree(ROOT / 'crates' / name, top / 'crates' / name,
                            ignore=shutil.ignore_patterns('out', 'proofs', 'must-fail'))
        (top / 'crates.txt').write_text(''.join('%s: %s\n' % (name, ' '.join(uses)) for name, uses in crates.items()))
        subprocess.run(['git', 'init', '-q', str(top)], check=True)
        rt = links_to_kit(Path(folder) / 'kit', program, CLANG, linker)
        done = subprocess.run([str(rt), 'try', '--steps', '1', '--seconds', '600'], cwd=top / 'crates' / 'hyd',
                              input=b'', capture_output=True, env={**os.environ, 'TMPDIR': folder})
        if not program.exists():
            sys.exit(done.stderr.decode()[-3000:])


# ---------------------------------------------------------------- texts

def steady(fuzz, rng):
    """A maker of networks of a single instant."""

    class Steady(fuzz.Maker):
        def edge(self):
            return self.make()

        def times(self):
            super().times()
            kept = [row for row in self.rows.pop('TIMES', []) if not row.upper().startswith('DURATION')]
            if kept:
                self.rows['TIMES'] = kept

        def nodes(self):
            super().nodes()
            for row in self.rows.pop('TANKS', []):
                self.add('RESERVOIRS', *row.split(' ')[:2])
            self.rs, self.ts = self.rs + self.ts, []

        def extras(self):
            super().extras()
            if self.js and self.chance(0.06):
                self.add('DEMANDS', self.r.choice(self.js), self.r.choice(['1e7', '-3e8', '2e9']))
                self.add('OPTIONS', 'DEMAND MULTIPLIER', self.r.choice(['1', '1000', '1000000']))

        def controls(self):
            pass

        def rules(self):
            pass

    return Steady(rng, True, losses())


def made(fuzz, rng, is_steady):
    """A text, and the words behind `run NET CERT`."""
    how = rng.randrange(20)
    words = ['--tight'] if rng.randrange(3) else []
    if not words and rng.randrange(2):
        words += ['--width', rng.choice('0.000000001 0.0000001 0.00001 0.01 1000'.split())]
    if rng.randrange(8) == 0:
        words += ['--sweeps', rng.choice('0 1 2 5 20 1000'.split())]
    maker = steady(fuzz, rng) if is_steady else fuzz.Maker(rng, True, losses())
    text = maker.make()
    if how == 1:
        return maker.fault(), words
    if how == 2:
        return fuzz.mutate(rng, text), words
    return change_numbers(rng, text) if how < 6 else text, words


# ---------------------------------------------------------------- answers: status, printed bytes, certificate

def expected(cli, text, words, audit=None):
    """The independent program's answer, with the tightest vectors; None where its run has too many periods."""
    files = {'n.inp': text}
    try:
        status, printed = cli.Tool(files, STAGE, audit, MOST_PERIODS).call(['run', 'n.inp', 'n.cert'] + words)
    except cli.TooManyPeriods:
        return None
    return status, printed, files.get('n.cert')


def agreed(cli, text, words, got, audit=None):
    """What the independent program answers to a run: with the tightest vectors where they are asked for or the run has
    them, else along the records that were found."""
    tight = expected(cli, text, words, audit)
    if '--tight' in words or tight is None or tight[0] not in (0, 6, 7, 8) or got[0] not in (0, 6, 8) or got == tight:
        return tight
    return followed(cli, text, words, got, audit)


def followed(cli, text, words, got, audit):
    """What the independent program answers along the records that were found: it accepts each, and where the run
    stopped it looks for the next one itself."""
    options = cli.parse_words(['run', 'n.inp', 'n.cert'] + words, STAGE)[2]
    sim = cli.Sim(cli.read_project(text, STAGE), options['sweeps'], audit)
    try:
        printed, end = accepted(cli, sim, options, got[2])
    except (cli.CertFault, cli.CertRefused, Unsharp) as fault:
        return 'record %d: %s %s' % (sim.number, type(fault).__name__, fault), b'', None
    if end != ('END', sim.number, sim.finished):
        return 'END %s' % (end,), b'', None
    status, words = 0, ('DONE', sim.number)
    if not sim.finished:
        try:
            sim.step()
            return 'no stop behind record %d' % sim.number, b'', None
        except cli.Stop as stop:
            status, words = stop.status, ('STOP period', sim.number, 'time', cli.clock(sim.time)) + stop.words
    return status, b'HYD 1\n' + printed + (' '.join(map(str, words)) + '\n').encode('latin-1'), got[2]


class Unsharp(Exception):
    """A record that is neither narrow nor tight."""


def accepted(cli, sim, options, cert):
    """The report of the records of a certificate, and its end."""
    reader, printed = cli.Tool({}, STAGE).reader(sim.project, cert), []
    while True:
        item = reader.next()
        if item[0] == 'END':
            return b''.join(printed), item
        before = copy.copy(sim)
        *place, vectors, _part = item[1:]
        period = sim.accept(*place, vectors)
        if not is_narrow(period, options.get('width', '0.01')) and not is_tight(cli, before, period.vectors):
            raise Unsharp
        printed.append(cli.put_report(sim.project, period))


def is_tight(cli, sim, vectors):
    """Whether these are the tightest vectors at the standing of a run. They are taken to be where the rounds of the
    independent program don't reach these."""
    period = sim.start()
    try:
        for problem, side in vectors:
            sim.find(period, problem, side)
    except cli.Stop as stop:
        return stop.status == SPENT
    return period.vectors == vectors


def is_narrow(period, width):
    """Whether a record is narrow for a width in metres: its head intervals are at most that much wider than the widest
    level interval, and the level intervals at its end at most twice as wide as at its start and a hundredth of that
    width."""
    most = int(Decimal(width) * HEAD_TICKS)
    before = [stock.level[1] - stock.level[0] for stock in period.stocks]
    after = before if period.last else [stock.level[1] - stock.level[0] for stock in period.next_stocks]
    return all(upper - lower <= most + max(before, default=0) for upper, lower in zip(*main_vectors(period))) \
        and all(100 * new <= 200 * old + most for old, new in zip(before, after))


def main_vectors(period):
    """The vectors above and below all heads."""
    return [period.vectors[None, side] for side in ('UPPER', 'LOWER')]


def found(program, text, words):
    """This repository's answer."""
    with tempfile.TemporaryDirectory() as folder:
        (Path(folder) / 'n.inp').write_bytes(text)
        try:
            done = subprocess.run([program, 'run', 'n.inp', 'n.cert'] + words, cwd=folder, stdin=subprocess.DEVNULL,
                                  capture_output=True, timeout=SECONDS)
        except subprocess.TimeoutExpired:
            return 'no end in %d seconds' % SECONDS, b'', None
        cert = Path(folder) / 'n.cert'
        return done.returncode, printed_by(done), cert.read_bytes() if cert.exists() else None


def compared(job):
    """The text of a seed, the words, both answers, and what the independent program says of a free outcome."""
    program, folder, is_steady, seed = job
    cli, fuzz = modules_of(folder, 'cli', 'fuzz')
    text, words = made(fuzz, random.Random(seed), is_steady)
    got, notes = found(program, text, words), []
    try:
        with at_most(OTHER_SECONDS):
            want = agreed(cli, text, words, got)
            if want is not None and want != got and SPENT not in (want[0], got[0]):
                want = agreed(cli, text, words, got, notes)
    except TimeoutError:
        want = None
    return seed, text, words, want, got, notes


def comparison(words, want, got, notes):
    """How the two answers compare; only `DIFFERENT` is an error."""
    if want is None:
        return 'left out'
    if want == got:
        return 'same'
    if SPENT in (want[0], got[0]):
        return 'rounds spent, %s' % ('as many as asked for' if '--sweeps' in words else '200')
    fronts = [answer[1].rpartition(b' NOCERT ')[2].rpartition(b' ')[0] for answer in (want, got)]
    if notes and want[0] == got[0] == 6 and want[2] == got[2] and fronts[0] == fronts[1] != b'':
        return 'another junction without a value'
    return 'DIFFERENT'


# ---------------------------------------------------------------- what came

def kind(line):
    """The kind of a line of a report: its first word and, of some, what it says of a state, an event or a cause."""
    words = line.split()
    first = words[0]
    if first == 'STOP':
        cause = words[5]
        if cause == 'NOCERT' or cause == 'ROUNDS':
            return 'STOP %s %s %s' % (cause, words[6], words[7] if words[6] == 'MAIN' else words[8])
        return 'STOP ' + cause
    if first == 'REFUSED':
        return 'REFUSED cause ' + words[4]
    if first in ('LINK', 'TANK'):
        return '%s %s' % (first, words[-1])
    if first in ('CONTROL', 'RULE'):
        return '%s %s' % (first, words[5])
    return 'EVENT ' + words[4] if first == 'EVENT' else first


def tell(seed, text, words, want, got, notes):
    """Prints a text whose answers differ, and the first lines that do."""
    print('text', seed, 'run', *words, 'status expected', want[0], 'found', got[0], *notes[:3])
    for name, left, right in (('report', want[1], got[1]), ('certificate', want[2], got[2])):
        lines = [(part or b'').decode('latin-1').split('\n') + ['(end)'] for part in (left, right)]
        place = next((k for k, (a, b) in enumerate(zip(*lines)) if a != b), None)
        if place is not None:
            print('%s line %d expected: %s\n  found: %s' % (name, place + 1, lines[0][place], lines[1][place]))
    print(text.decode('latin-1'))


def keep(folder, seed, text, want, got):
    """Keeps a text and both answers as files."""
    base = Path(folder) / seed.replace('/', '_')
    base.parent.mkdir(parents=True, exist_ok=True)
    files = {'inp': text, 'want': want[1], 'got': got[1], 'want.cert': want[2], 'got.cert': got[2]}
    for ending, data in files.items():
        if data is not None:
            Path('%s.%s' % (base, ending)).write_bytes(data)


def main():
    given = [word for word in sys.argv[1:] if word != '--steady']
    if not given:
        sys.exit(__doc__)
    is_steady = '--steady' in sys.argv[1:]
    count = int(given[1]) if len(given) > 1 else 10_000
    first = int(given[2]) if len(given) > 2 else 1
    statuses, kinds, wrong = collections.Counter(), collections.Counter(), []
    with tempfile.TemporaryDirectory() as folder:
        program = Path(os.environ.get('PROGRAM', Path(folder) / 'program')).resolve()
        if not program.exists():
            build(program)
        jobs = [(str(program), given[0], is_steady, '%d/%d' % (first, k)) for k in range(count)]
        with multiprocessing.Pool(int(os.environ.get('JOBS', '2'))) as pool:
            for done in pool.imap_unordered(compared, jobs, 4):
                seed, text, words, want, got, notes = done
                how = comparison(words, want, got, notes)
                statuses['%s found %s: %s' % ('-' if want is None else want[0], got[0], how)] += 1
                kinds.update(kind(line) for line in got[1].decode('latin-1').splitlines())
                if how == 'DIFFERENT':
                    wrong.append(done)
                    if 'KEEP' in os.environ:
                        keep(os.environ['KEEP'], seed, text, want, got)
    for done in sorted(wrong, key=lambda one: len(one[1]))[:10]:
        tell(*done)
    print('%d texts, %d differ' % (count, len(wrong)))
    for name, many in sorted(statuses.items()):
        print('status', name, many)
    for name, many in sorted(kinds.items()):
        print('lines', name, many)
    sys.exit(1 if wrong else 0)


if __name__ == '__main__':
    main()
