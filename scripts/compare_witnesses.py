#!/usr/bin/env python3
"""Compares what is said of witnesses with an independent program on random networks and changed witnesses.

    scripts/compare_witnesses.py OTHER [COUNT [SEED]]

OTHER is the folder of an independent program in Python: its module `fuzz` makes texts, its module `cli` runs them, finds
witnesses and tries them. Each of COUNT networks (1,000 where it isn't given) with tanks, controls and rules over some
hours is run by the independent program, which then looks for a witness of its certificate, also where the run stopped.
The witness as it is, at other scales, and sixteen changed ones are tried by both: values moved by one, by the tolerance or
by more, made greater than they may be, or spelled otherwise; words of PERIOD lines, of the header and of the END line
changed; lines and periods left out, doubled, exchanged or put elsewhere; cut off anywhere; one byte changed; witnesses of
another network. Each time the printed bytes and the exit status must be the same. It says how many trials came to each
answer. A network is left out whose run has more than 60 periods, or stops at a demand out of range (a period with such a
demand is unmet by DEMAND here before its links are tried), or on which the other program spends more than a minute.

The program of this repository is built as compare_runs.py builds it; PROGRAM, KEEP and JOBS in the environment are those of
that script. It stands outside the gate.
"""
import collections
import multiprocessing
import os
import random
import subprocess
import sys
import tempfile
from pathlib import Path

from compare_runs import OTHER_SECONDS, SECONDS, build
from differences import STAGE, at_most, keep, losses, modules_of, printed_by

CHANGES = 16
MOST_PERIODS = 60
# A status: a demand is out of range.
OUT_OF_RANGE = 8
# How far a flow may lie from what its law gives, in flow ticks.
TOLERANCE = 10
KEYS = (b'H', b'Q', b'D', b'E', b'L')


# ---------------------------------------------------------------- witnesses

def scale_of(lines):
    """The scale of a witness."""
    words = lines[0].split()
    return int(words[2]) if len(words) == 6 and words[2].isdigit() else 1


def at_scale(witness, factor):
    """The same witness with so many times as many parts of a tick."""
    out = []
    for line in witness.split(b'\n'):
        words = line.split(b' ')
        if words[0] == b'HYDWIT':
            words[2] = b'%d' % (int(words[2]) * factor)
        elif words[0] in KEYS:
            words[1:] = [b'%d' % (int(word) * factor) for word in words[1:]]
        out.append(b' '.join(words))
    return b'\n'.join(out)


def value_places(lines):
    """Where the values stand: the number of a line, and of a word in it."""
    return [(i, j) for i, line in enumerate(lines) for j in range(1, line.count(b' ') + 1)
            if line.split(b' ', 1)[0] in KEYS]


def period_places(lines):
    """Where the PERIOD lines stand."""
    return [i for i, line in enumerate(lines) if line.startswith(b'PERIOD ')]


def put_word(lines, i, j, word):
    words = lines[i].split(b' ')
    words[j] = word
    lines[i] = b' '.join(words)


def move_value(rng, lines):
    """Another value: by one, by the tolerance, or by more."""
    places = value_places(lines)
    if not places:
        return
    scale = scale_of(lines)
    for _ in range(rng.choice([1, 1, 1, 2, 5])):
        i, j = rng.choice(places)
        old = int(lines[i].split(b' ')[j])
        by = rng.choice([1, 1, TOLERANCE * scale, TOLERANCE * scale + 1, 2 * TOLERANCE * scale, 10 ** rng.randrange(18)])
        new = rng.choice([old + by, old - by, old + by, old - by, -old, 0, 2 * old])
        put_word(lines, i, j, b'%d' % new)


def move_both(rng, lines):
    """Two values moved one way: what flows in a link and what a junction draws, or heads and levels."""
    places = value_places(lines)
    keys = rng.choice([(b'Q', b'D'), (b'Q', b'E'), (b'Q', b'Q'), (b'D', b'E'), (b'H', b'H'), (b'H', b'L')])
    by = rng.choice([1, 2, TOLERANCE * scale_of(lines), TOLERANCE * scale_of(lines) // 2 + 1])
    for key in keys:
        of_key = [place for place in places if lines[place[0]].startswith(key + b' ')]
        if of_key:
            i, j = rng.choice(of_key)
            put_word(lines, i, j, b'%d' % (int(lines[i].split(b' ')[j]) + rng.choice([by, -by])))


def lean(rng, lines):
    """Demand flows and flows of one period moved by nearly the tolerance, so that they are met and may not balance."""
    places = period_places(lines)
    if not places:
        return
    begin = rng.choice(places)
    end = next((k for k in range(begin + 1, len(lines)) if lines[k].startswith((b'PERIOD ', b'END'))), len(lines))
    by = TOLERANCE * scale_of(lines) - rng.choice([0, 1, 2])
    for k in range(begin + 1, end):
        key, _, word = lines[k].partition(b' ')
        if key == b'D' or key == b'Q' and rng.randrange(3) == 0:
            lines[k] = b'%s %d' % (key, int(word) + (by if key == b'D' else rng.choice([by, -by])))


def spell_value(rng, lines):
    """A value that is spelled otherwise or out of range."""
    places = value_places(lines)
    if places:
        i, j = rng.choice(places)
        old = lines[i].split(b' ')[j]
        put_word(lines, i, j, rng.choice([b'0' + old, b'+' + old, b'-0', b'00', b'', old + b'.', b'-' + old, b' ' + old,
                                          b'%d' % 10 ** 24, b'-%d' % 10 ** 24, b'%d' % (10 ** 24 + 1), b'9' * 50,
                                          b'-%d' % (10 ** 24 + 1), old + b'\r', old + b' ', b'x', b'0x1', b'1e3']))


def change_period(rng, lines):
    """Another number, time or length of a period."""
    places = period_places(lines)
    if places:
        i, j = rng.choice(places), rng.randrange(1, 4)
        old = int(lines[i].split(b' ')[j])
        put_word(lines, i, j, rng.choice([b'%d' % (old + 1), b'%d' % max(0, old - 1), b'%d' % (old + 60), b'0', b'4294967295',
                                          b'4294967296', b'0%d' % old, b'-1', b'+%d' % old, b'%d' % (old + 3600)]))


def change_ends(rng, lines):
    """Another header line or END line."""
    if rng.randrange(2):
        j = rng.randrange(6)
        old = lines[0].split(b' ')[j]
        put_word(lines, 0, j, rng.choice([b'0', b'1', b'2', b'3', b'4', b'512', b'1024', b'2048', b'02', b'+2', b'', old + b' ',
                                          b'HYDCERT', old.lower(), b'%d' % (int(old) + 1 if old.isdigit() else 1)]))
        return
    i = max((k for k, line in enumerate(lines) if line.startswith(b'END')), default=0)
    old = lines[i].split(b' ')[-1]
    number = int(old) if old.isdigit() else 0
    lines[i] = rng.choice([b'END %d' % (number + 1), b'END %d' % max(0, number - 1), b'END 0%d' % number, b'END',
                           b'END %d FINISHED' % number, b'END %d ' % number, b'End %d' % number, b'END -0',
                           b'END 4294967296', b'END %d\nEND %d' % (number, number), b'END %d\n' % number])


def change_lines(rng, lines):
    """Lines left out, doubled, exchanged, or put elsewhere."""
    i, j = rng.randrange(len(lines)), rng.randrange(len(lines))
    how = rng.randrange(4)
    if how == 0:
        del lines[i]
    elif how == 1:
        lines.insert(i, lines[j])
    elif how == 2:
        lines[i], lines[j] = lines[j], lines[i]
    else:
        lines.insert(j, lines.pop(i))


def change_periods(rng, lines):
    """Whole periods left out, doubled or exchanged, with the END line's number made right or not."""
    places = period_places(lines)
    if not places:
        return
    ends = places[1:] + [len(lines) - 2]
    periods = [lines[a:b] for a, b in zip(places, ends)]
    k, m = rng.randrange(len(periods)), rng.randrange(len(periods))
    how = rng.randrange(4)
    if how == 0:
        del periods[k]
    elif how == 1:
        periods.insert(m, periods[k])
    elif how == 2:
        periods[k], periods[m] = periods[m], periods[k]
    else:
        periods = periods[:k]
    end = [b'END %d' % len(periods)] if rng.randrange(4) else [lines[-2]]
    lines[:] = lines[:1] + [line for period in periods for line in period] + end + [b'']


CHANGERS = [move_value] * 5 + [move_both] * 2 + [lean] * 3 + [spell_value] * 2 + [change_period] * 3 + [
    change_ends, change_lines, change_periods]


def changed(rng, witness, other):
    """A witness with a change."""
    how = rng.randrange(20)
    if how == 0:
        return witness[:rng.randrange(len(witness))]
    if how == 1:
        k = rng.randrange(len(witness))
        return witness[:k] + bytes([rng.choice([10, 13, 32, 43, 45, 48, 49, 57, 0, 255, rng.randrange(256)])]) + witness[k + 1:]
    if how == 2:
        return other
    if how == 3:
        return witness + rng.choice([b'\n', b'x', b' ', witness])
    lines = witness.split(b'\n')
    rng.choice(CHANGERS)(rng, lines)
    return b'\n'.join(lines)


def witnesses_of(rng, witness, other):
    """The witness at some scales, and changed ones."""
    finest = 1024 // scale_of(witness.split(b'\n'))
    scales = [factor for factor in (2, 4, 32, 512) if factor <= finest]
    as_it_is = [witness] + [at_scale(witness, factor) for factor in rng.sample(scales, min(2, len(scales)))]
    return as_it_is + [changed(rng, rng.choice(as_it_is), other) for _ in range(CHANGES)]


# ---------------------------------------------------------------- answers: status, printed bytes

def wanted(cli, text, witness):
    """The independent program's answer."""
    return cli.Tool({'n.inp': text, 'n.wit': witness}, STAGE).call(['meet', 'n.inp', 'n.wit'])


def got(program, text, witness):
    """This repository's answer."""
    with tempfile.TemporaryDirectory() as folder:
        (Path(folder) / 'n.inp').write_bytes(text)
        (Path(folder) / 'n.wit').write_bytes(witness)
        try:
            done = subprocess.run([program, 'meet', 'n.inp', 'n.wit'], cwd=folder, stdin=subprocess.DEVNULL,
                                  capture_output=True, timeout=SECONDS)
        except subprocess.TimeoutExpired:
            return 'no end in %d seconds' % SECONDS, b''
        return done.returncode, printed_by(done)


def witness_of(cli, text):
    """A witness of a network, as far as one is found; None where its run has none, or stops at a demand."""
    files = {'n.inp': text}
    if cli.Tool(files, STAGE, None, MOST_PERIODS).call(['run', 'n.inp', 'n.cert'])[0] == OUT_OF_RANGE:
        return None
    if 'n.cert' not in files:
        return None
    cli.Tool(files, STAGE, None, MOST_PERIODS).call(['witness', 'n.inp', 'n.cert', 'n.wit'])
    return files.get('n.wit')


def compared(job):
    """The trials of a seed's network: for each its witness and both answers. None where it is left out."""
    program, folder, seed = job
    cli, fuzz = modules_of(folder, 'cli', 'fuzz')
    rng = random.Random(seed)
    text = fuzz.Maker(rng, True, losses()).make()
    try:
        with at_most(OTHER_SECONDS):
            witness = witness_of(cli, text)
            if witness is None:
                return seed, text, None
            other = witness_of(cli, fuzz.Maker(rng, True, losses()).make()) or witness
            witnesses = witnesses_of(rng, witness, other)
            return seed, text, [(one, wanted(cli, text, one), got(program, text, one)) for one in witnesses]
    except (TimeoutError, cli.TooManyPeriods):
        return seed, text, None


# ---------------------------------------------------------------- what came

def kind(answer):
    """The kind of an answer, without its numbers and names."""
    words = answer[1].decode('latin-1').split()
    if words[0] == 'UNMET':
        return 'UNMET ' + words[3]
    return ' '.join(word for word in words[:2] if word.isalpha())


def tell(seed, text, witness, want, have):
    """Prints a trial whose answers differ."""
    print('seed', seed, 'expected', want, 'found', have)
    print(text.decode('latin-1') + witness.decode('latin-1'))


def main():
    given = sys.argv[1:]
    if not given:
        sys.exit(__doc__)
    count = int(given[1]) if len(given) > 1 else 1_000
    first = int(given[2]) if len(given) > 2 else 1
    kinds, wrong, trials, left_out = collections.Counter(), [], 0, 0
    with tempfile.TemporaryDirectory() as folder:
        program = Path(os.environ.get('PROGRAM', Path(folder) / 'program')).resolve()
        if not program.exists():
            build(program)
        jobs = [(str(program), given[0], '%d/%d' % (first, k)) for k in range(count)]
        with multiprocessing.Pool(int(os.environ.get('JOBS', '2'))) as pool:
            for seed, text, done in pool.imap_unordered(compared, jobs, 4):
                left_out += done is None
                for number, (witness, want, have) in enumerate(done or ()):
                    trials += 1
                    kinds['status %s %s%s' % (want[0], 'as it is: ' if number == 0 else '', kind(want))] += 1
                    if want != have:
                        wrong.append((seed, text, witness, want, have))
                        if 'KEEP' in os.environ:
                            keep(os.environ['KEEP'], seed, number, inp=text, wit=witness, want=want[1], got=have[1])
    for one in sorted(wrong, key=lambda one: len(one[1]) + len(one[2]))[:10]:
        tell(*one)
    print('%d networks, %d left out, %d trials, %d differ' % (count, left_out, trials, len(wrong)))
    for name, many in sorted(kinds.items()):
        print(name, many)
    sys.exit(1 if wrong else 0)


if __name__ == '__main__':
    main()
