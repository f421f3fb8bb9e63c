#!/usr/bin/env python3
"""Compares runs for spreads with an independent program that knows none, on networks of a single instant.

    scripts/compare_spreads.py OTHER [COUNT [SEED]]

OTHER is the folder of an independent program in Python: its module `fuzz` makes texts, its modules `reader` and `laws`
read them, its module `cli` runs and checks them. Of COUNT texts (300 where it isn't given) one in eight is an example
of this repository, the others are made; each is cut to a single instant (DURATION 0) and gets a random spread: factors
of demands and emitters, offsets of reservoirs, levels of tanks. This program runs it with `--tight --spread FILE`.

The two outermost networks are written as files of their own, and the other program runs each with `--tight`. UPPER has
the least demands and the greatest heads of reservoirs and tanks, LOWER the other way round; demands are those of the
instant, after categories and patterns, in whole ticks. An emitter gives least where its coefficient is least and its
pressure above 0, or greatest and below 0, so which end an outermost file takes is told by the vector that is compared.
Where a tank is pinned its level is at the other end, in a file of its own. Then each number of MU, PU of UPPER's
certificates and of ML, PL of LOWER's has to be the one of the certificate for the spread, and in the report the upper
or lower ends of heads, pressures and levels too.

Besides, for each text: a run with a spread from an empty file gives the bytes of the run without the word, at the
instant and over the text's own time, some with a slack; the check of a certificate with its spread accepts it and
prints the report of the run, but for the last line of a run that stopped; and where demands and emitters alone are
open, both programs accept it without the spread. Texts that one of the programs refuses or at which it stops, and those
whose outermost networks can't be written in nine decimals, are counted by kind.

The program of this repository is built as compare_runs.py builds it; PROGRAM, KEEP, JOBS and OTHER_SECONDS in the
environment are those of that script, LOSSES is that of differences.py. It stands outside the gate.
"""
import collections
import multiprocessing
import os
import random
import re
import sys
import tempfile
from pathlib import Path

from compare_flows import ended
from compare_input import ROOT
from compare_open_runs import is_accepted_so, other_checks
from compare_runs import OTHER_SECONDS, build
from differences import STAGE, at_most, keep, losses, modules_of

NANO = 10 ** 9
MOST_PERIODS = 60
EXAMPLES = 'town campus street day net1 net1-hw steep one-valve'.split()
# What an outermost file multiplies demands by, so that each tick can be written in the file's unit.
MULTIPLIER = 1000
PERCENT = '0 0.0000001 1 5 5 10 10 10 20 20 33.333333333 50 100'.split()
LEAST = '0 0.5 0.8 0.8 0.9 0.95 0.333333333 1'.split()
GREATEST = '1 1 1.05 1.1 1.1 1.2 1.333333333 2 4'.split()
OFFSETS = '0 0 0.000000001 0.1 0.25 0.5 1 3'.split()
EMPTY = [b'', b'\n', b'; no row\n\n', b'  \t\r\n;']


# ---------------------------------------------------------------- numbers

def nano_of(word):
    """Billionths of a number without an exponent."""
    whole, _, part = word.lstrip('-').partition('.')
    value = int(whole or '0') * NANO + int((part + '0' * 9)[:9])
    return -value if word.startswith('-') else value


def decimal(nano):
    """A number in nine decimals."""
    return '%s%d.%09d' % ('-' if nano < 0 else '', abs(nano) // NANO, abs(nano) % NANO)


def products(factors, number):
    """The interval of the products of a whole number by factors in billionths, its ends whole."""
    ends = [factor * number for factor in factors]
    return min(ends) // NANO, -(-max(ends) // NANO)


# ---------------------------------------------------------------- spreads

class Spread:
    """The rows of a spread, and what they leave open of a network."""

    def __init__(self, project):
        self.project, self.rows = project, []
        self.named, self.all = {}, {}

    def add(self, subject, name, words, ends):
        self.rows.append('%s %s %s' % (subject, name, words))
        if name == '*':
            self.all[subject] = ends
        else:
            self.named[subject, name] = ends

    def ends(self, subject, node, own):
        name = node.id.decode('latin-1')
        return self.named.get((subject, name), self.all.get(subject, own))

    def opens(self, *subjects):
        """Whether a row is about one of these."""
        return any(row.split()[0].upper() in subjects for row in self.rows)

    def text(self, rng):
        lines = []
        for row in self.rows:
            subject, rest = row.split(' ', 1)
            lines.append(rng.choice([subject, subject.lower(), ' ' + subject.capitalize()]) + ' ' + rest)
            lines += rng.choice([[], [], [], ['; a comment'], ['']])
        return '\n'.join(lines + ['']).encode('latin-1')


def add_factors(rng, spread, subject, name):
    if rng.randrange(2):
        word = rng.choice(PERCENT)
        part = -(-nano_of(word) // 100)
        spread.add(subject, name, word + '%', (NANO - part, NANO + part))
    else:
        low, high = rng.choice(LEAST if subject == 'DEMAND' else LEAST[1:]), rng.choice(GREATEST)
        spread.add(subject, name, '%s %s' % (low, high), (nano_of(low), nano_of(high)))


def add_offsets(rng, spread, name):
    low, high = rng.choice(OFFSETS), rng.choice(OFFSETS)
    spread.add('HEAD', name, '-%s %s' % (low, high), (-nano_of(low), nano_of(high)))


def add_level(rng, spread, tank, ticks):
    """A level within the bounds of a tank; `ticks` are those of a billionth of the file's unit."""
    below, above = [rng.choice([0, 0.01, 0.1, 0.1, 0.3, 0.9, 1]) for _ in range(2)]
    low = tank.initial // ticks - int(below * ((tank.initial - tank.minimum) // ticks))
    high = tank.initial // ticks + int(above * ((tank.maximum - tank.initial) // ticks))
    spread.add('LEVEL', tank.id.decode('latin-1'), '%s %s' % (decimal(low), decimal(high)), (low * ticks, high * ticks))


def made_spread(rng, project):
    """A random spread of a network."""
    spread = Spread(project)
    ticks = 3048 if project.us else 10000
    names = {'DEMAND': [j.id for j in project.junctions],
             'EMITTER': [j.id for j in project.junctions if j.emitter]}
    for subject in ('DEMAND', 'EMITTER'):
        if rng.randrange(8) < 7 and names[subject]:
            if rng.randrange(3):
                add_factors(rng, spread, subject, '*')
            for _ in range(rng.choice([0, 0, 1, 2])):
                add_factors(rng, spread, subject, rng.choice(names[subject]).decode('latin-1'))
    if rng.randrange(2):
        if rng.randrange(2):
            add_offsets(rng, spread, '*')
        for reservoir in project.reservoirs:
            if rng.randrange(3) == 0:
                add_offsets(rng, spread, reservoir.id.decode('latin-1'))
    for tank in project.tanks:
        if rng.randrange(2):
            add_level(rng, spread, tank, ticks)
    return spread


# ---------------------------------------------------------------- texts

def lines_of(text):
    """The lines of a text up to [END], each with its section and its words."""
    section, out = '', []
    for line in re.split(rb'\r?\n', text):
        words = line.split(b';', 1)[0].split()
        if words and words[0].startswith(b'['):
            section = words[0].strip(b'[]').upper().decode('latin-1')
            if section == 'END':
                break
        out.append((section, words, line))
    return out


def is_row(words):
    return bool(words) and not words[0].startswith(b'[')


def at_one_instant(text):
    """The text without a duration."""
    kept = [line for section, words, line in lines_of(text)
            if not (section == 'TIMES' and is_row(words) and words[0].upper() == b'DURATION')]
    return b'\n'.join(kept + [b''])


def lifted(rng, text):
    """The text with some junctions so high that emitters there take in water."""
    return b'\n'.join([b' '.join(words[:1] + [b'200'] + words[2:])
                       if section == 'JUNCTIONS' and is_row(words) and rng.randrange(2) else line
                       for section, words, line in lines_of(text)] + [b''])


def made(fuzz, rng):
    """A text as it is."""
    if rng.randrange(8) == 0:
        return (ROOT / 'examples' / (rng.choice(EXAMPLES) + '.inp')).read_bytes()
    maker = fuzz.Maker(rng, True, losses())
    text = maker.edge() if rng.randrange(12) == 0 else maker.make()
    return lifted(rng, text) if b'EMITTERS' in text.upper() and rng.randrange(3) == 0 else text


class CantBeWritten(Exception):
    """A number of an outermost network has no nine decimals in the file's unit."""


class Outermost:
    """The outermost network of a side, as a text. `datum` chooses its data; a class of its own may choose others."""

    def __init__(self, modules, text, spread, is_upper):
        self.laws, self.numeric = modules
        self.text, self.spread, self.project, self.is_upper = text, spread, spread.project, is_upper
        self.side, self.other = (1, 0) if is_upper else (0, 1)

    def datum(self, subject, node, ends, place):
        """What this network has of the interval of a node's datum: the end at this place."""
        return ends[place]

    def demand(self, number, junction):
        """The base demand that gives the outermost ticks, in the file's unit."""
        own = self.laws.demand_at(self.project, number, 0)
        ends = products(self.spread.ends('DEMAND', junction, (NANO, NANO)), own)
        ticks = self.datum('DEMAND', junction, ends, self.other)
        num, den = self.numeric.UNITS[self.project.unit]
        return ticks, decimal((-1 if ticks < 0 else 1) * -(-MULTIPLIER * abs(ticks) * 100 * den // num))

    def coefficient(self, junction, nano, head):
        """The outermost coefficient of an emitter at a junction with this head."""
        ends = products(self.spread.ends('EMITTER', junction, (NANO, NANO)), nano)
        place = self.other if head >= junction.elevation else self.side
        return decimal(self.datum('EMITTER', junction, ends, place))

    def head(self, number, reservoir):
        own = self.laws.head_at(self.project, number, 0)
        ticks = 3048 if self.project.us else 10000
        ends = self.spread.ends('HEAD', reservoir, (0, 0))
        if own % ticks:
            raise CantBeWritten
        return decimal(own // ticks + self.datum('HEAD', reservoir, ends, self.side))

    def level(self, number, tank, pinned):
        ticks = 3048 if self.project.us else 10000
        low_high = self.spread.ends('LEVEL', tank, (tank.initial, tank.initial))
        return decimal(self.datum('LEVEL', tank, low_high, self.other if number == pinned else self.side) // ticks)

    def written(self, heads, pinned=None):
        """The text, where these are the heads of the vector that is compared and a tank may be pinned."""
        rows, emitters = [], {}
        for section, words, line in lines_of(self.text):
            if section == 'EMITTERS' and is_row(words):
                emitters[words[0]] = self.numeric.read_decimal(words[1])
            elif not is_row(words) or section not in ('JUNCTIONS', 'DEMANDS', 'RESERVOIRS', 'TANKS') \
                    and [word.upper() for word in words[:2]] != [b'DEMAND', b'MULTIPLIER']:
                rows.append(line)
            elif section == 'TANKS':
                names = [tank.id for tank in self.project.tanks]
                k = names.index(words[0])
                rows.append(b' '.join(words[:2] + [self.level(k, self.project.tanks[k], pinned).encode()] + words[3:]))
        rows += [b'[OPTIONS]', b'DEMAND MULTIPLIER ' + decimal(NANO // MULTIPLIER).encode()]
        rows += [b'[PATTERNS]', b'as-it-is 1']
        rows += self.junction_rows() + self.reservoir_rows() + self.emitter_rows(emitters, heads)
        return b'\n'.join(rows + [b''])

    def junction_rows(self):
        elevations = {words[0]: words[1] for section, words, _ in lines_of(self.text)
                      if section == 'JUNCTIONS' and is_row(words)}
        return [b'[JUNCTIONS]'] + [b'%s %s %s as-it-is' % (junction.id, elevations[junction.id],
                                                         self.demand(number, junction)[1].encode())
                                   for number, junction in enumerate(self.project.junctions)]

    def reservoir_rows(self):
        return [b'[RESERVOIRS]'] + [b'%s %s' % (reservoir.id, self.head(number, reservoir).encode())
                                    for number, reservoir in enumerate(self.project.reservoirs)]

    def emitter_rows(self, coefficients, heads):
        return [b'[EMITTERS]'] + [b'%s %s' % (junction.id, self.coefficient(junction, coefficients[junction.id],
                                                                           heads[number]).encode())
                                  for number, junction in enumerate(self.project.junctions) if junction.emitter]

    def is_as_meant(self, project):
        """Whether a project, the text as the other program reads it, has the outermost demands and reservoir heads."""
        ticks = 3048 if project.us else 10000
        return all(self.laws.demand_at(project, j, 0) == self.demand(j, junction)[0]
                   for j, junction in enumerate(self.project.junctions)) \
            and all(decimal(self.laws.head_at(project, r, 0) // ticks) == self.head(r, reservoir)
                    for r, reservoir in enumerate(self.project.reservoirs))


# ---------------------------------------------------------------- answers

def called(program, words, **files):
    """This program's status, printed bytes and certificate, of files n.inp, n.rows and so on."""
    return ended(program, {'n.' + ending: data for ending, data in files.items()}, words)


def this_runs(program, words, text, spread=None):
    files = {'inp': text} if spread is None else {'inp': text, 'rows': spread}
    more = [] if spread is None else ['--spread', 'n.rows']
    return called(program, ['run', 'n.inp', 'n.cert'] + words + more, **files)


def this_checks(program, text, cert, spread=None):
    files = {'inp': text, 'cert': cert}
    if spread is None:
        return called(program, ['check', 'n.inp', 'n.cert'], **files)
    return called(program, ['check', 'n.inp', 'n.cert', '--spread', 'n.rows'], rows=spread, **files)


def other_runs(cli, text):
    files = {'n.inp': text}
    status, printed = cli.Tool(files, STAGE, None, MOST_PERIODS).call(['run', 'n.inp', 'n.cert', '--tight'])
    return status, printed, files.get('n.cert')


def vectors_of(cert):
    """The heads of the first record by the word of their lines."""
    out = collections.defaultdict(list)
    for line in cert.split(b'\n'):
        words = line.split(b' ')
        if words[0] in (b'MU', b'ML', b'PU', b'PL'):
            out[words[0].decode()].append(int(words[1]))
    return out


def kind_of(answer):
    """The kind of an answer by its last line."""
    lines = answer[1].decode('latin-1').splitlines()
    words = lines[-1].split() if lines else []
    if not words:
        return 'status %s' % (answer[0],)
    if words[0] == 'STOP':
        is_main = words[5] in ('NOCERT', 'ROUNDS') and words[6] == 'MAIN'
        return 'STOP ' + ' '.join(words[5:8] if is_main else words[5:6])
    if words[0] == 'REFUSED':
        return ' '.join('l' if before == 'line' else word for before, word in zip([''] + words, words))
    return words[0]


# ---------------------------------------------------------------- comparisons

def ends_in(report, place):
    """Of the lines of nodes in a report the upper (1) or lower (0) end of each head, pressure and level."""
    out = []
    for line in report.decode('latin-1').splitlines():
        words = line.split()
        if words[0] in ('JUNCTION', 'RESERVOIR', 'TANK'):
            out.append((words[0], words[1], words[3 + place], words[6 + place] if len(words) > 6 else ''))
    return out


def faults_of_side(modules, cli, text, spread, is_upper, got, notes):
    """What differs on a side, and in `notes` what could be compared."""
    have, nodes = vectors_of(got[2]), len(spread.project.junctions)
    file = Outermost(modules, text, spread, is_upper)
    main, pinned, faults = ('MU', 'PU', []) if is_upper else ('ML', 'PL', [])
    for k in [None] + list(range(len(spread.project.tanks))):
        heads = have[main] if k is None else have[pinned][k * nodes:(k + 1) * nodes]
        outer = file.written(heads, k)
        if not file.is_as_meant(cli.read_project(outer, STAGE)):
            raise CantBeWritten
        want = other_runs(cli, outer)
        if want[0] != 0:
            notes['%s alone: %s' % ('UPPER' if is_upper else 'LOWER', kind_of(want))] += 1
            continue
        found = vectors_of(want[2])
        lines = found[main] if k is None else found[pinned][k * nodes:(k + 1) * nodes]
        notes['heads compared, %s' % ('main' if k is None else 'pinned')] += len(lines)
        notes['heads compared, of emitters that take in water'] += sum(
            junction.emitter is not None and head < junction.elevation
            for junction, head in zip(spread.project.junctions, heads))
        if lines != heads:
            faults.append('%s %s: %s in place of %s' % (main, k, heads, lines))
        if k is None and ends_in(want[1], is_upper) != ends_in(got[1], is_upper):
            faults.append('%s: another end in the report' % main)
    return faults


def counts_of(spread):
    """Of how many junctions, emitters, reservoirs and tanks a spread leaves the datum open."""
    project = spread.project
    nodes = (('DEMAND', project.junctions), ('EMITTER', [j for j in project.junctions if j.emitter]),
             ('HEAD', project.reservoirs), ('LEVEL', project.tanks))
    return tuple(sum(len(set(spread.ends(subject, node, (0, 0)))) > 1 for node in those) for subject, those in nodes)


def faults_of_check(cli, program, text, spread, rows, got, notes):
    """What is wrong of the checks of a certificate."""
    faults = []
    if not is_accepted_so(got, this_checks(program, text, got[2], rows)):
        faults.append('its check with the spread refuses it, or prints another report')
    if spread.rows and not spread.opens('HEAD', 'LEVEL'):
        notes['checks without the spread'] += 1
        if this_checks(program, text, got[2])[0] != 0:
            faults.append('its check without the spread refuses it')
        if other_checks(cli, text, got[2])[0] != 0:
            faults.append('the other program refuses it without the spread')
    return faults


def faults_of_empty(program, words, text, empty):
    same = this_runs(program, words, text) == this_runs(program, words, text, empty)
    return [] if same else ['an empty file differs from no spread: ' + ' '.join(words)]


def faults_over_time(cli, program, rng, text, spread, rows, notes):
    """What is wrong of a run over the text's own time."""
    words = rng.choice([[], ['--slack', '3600'], ['--slack', '3600'], ['--tight'], ['--slack', '30', '--tight']])
    faults = faults_of_empty(program, words, text, rng.choice(EMPTY))
    got = this_runs(program, words, text, rows)
    notes['over time%s: %s' % (' with a slack' if '--slack' in words else '', kind_of(got))] += 1
    if got[2] is not None:
        faults += faults_of_check(cli, program, text, spread, rows, got, notes)
        records = got[2].count(b'\nPERIOD ')
        notes['records over time'] += records
    return faults


def compared(job):
    """Of a seed: its text, its rows, what came, how it went, and what is wrong."""
    program, folder, seed = job
    cli, fuzz, laws, numeric = modules_of(folder, 'cli', 'fuzz', 'laws', 'numeric')
    rng, notes, faults, got, rows = random.Random(seed), collections.Counter(), [], None, b''
    text = made(fuzz, rng)
    instant = at_one_instant(text)
    try:
        with at_most(OTHER_SECONDS):
            spread = made_spread(rng, cli.read_project(instant, STAGE))
            rows = spread.text(rng)
            got = this_runs(program, ['--tight'], instant, rows)
            words = rng.choice([[], ['--tight'], ['--width', '1']])
            faults += faults_of_empty(program, words, instant, rng.choice(EMPTY))
            faults += faults_over_time(cli, program, rng, text, spread, rows, notes)
            how = kind_of(got)
            if got[2] is not None:
                faults += faults_of_check(cli, program, instant, spread, rows, got, notes)
                if spread.rows and got[1].split(b'\n')[1] != b'SPREAD %d %d %d %d' % counts_of(spread):
                    faults.append('another line SPREAD: %s' % got[1].split(b'\n')[1])
            if got[0] == 0:
                for is_upper in (True, False):
                    faults += faults_of_side((laws, numeric), cli, instant, spread, is_upper, got, notes)
                how = 'compared'
                for subject, many in zip(('demands', 'emitters', 'heads', 'levels'), counts_of(spread)):
                    notes['compared, open %s' % subject] += many
    except cli.Refused:
        how = 'the text is refused'
    except CantBeWritten:
        how = 'outermost network that nine decimals can\'t write'
    except TimeoutError:
        how = 'the other program took too long'
    return seed, text, rows, got, how, notes, faults


# ---------------------------------------------------------------- what came

def tell(seed, text, rows, faults):
    print('text', seed, *faults, sep='\n  ')
    print(text.decode('latin-1') + '---\n' + rows.decode('latin-1'))


def main():
    given = sys.argv[1:]
    if not given:
        sys.exit(__doc__)
    count = int(given[1]) if len(given) > 1 else 300
    first = int(given[2]) if len(given) > 2 else 1
    hows, notes, wrong = collections.Counter(), collections.Counter(), []
    with tempfile.TemporaryDirectory() as folder:
        program = Path(os.environ.get('PROGRAM', Path(folder) / 'program')).resolve()
        if not program.exists():
            build(program)
        jobs = [(str(program), given[0], 'spread/%d/%d' % (first, k)) for k in range(count)]
        with multiprocessing.Pool(int(os.environ.get('JOBS', '2'))) as pool:
            for seed, text, rows, got, how, more, faults in pool.imap_unordered(compared, jobs, 4):
                hows[how] += 1
                notes.update(more)
                if faults:
                    wrong.append((seed, text, rows, faults))
                    if 'KEEP' in os.environ:
                        parts = {} if got is None or got[2] is None else {'cert': got[2]}
                        parts['faults'] = '\n'.join(faults).encode()
                        keep(os.environ['KEEP'], seed, 0, inp=text, rows=rows, **parts)
    for one in sorted(wrong, key=lambda one: len(one[1]))[:10]:
        tell(*one)
    print('%d texts, %d differ' % (count, len(wrong)))
    for name, many in sorted(hows.items()) + sorted(notes.items()):
        print(name, many)
    sys.exit(1 if wrong else 0)


if __name__ == '__main__':
    main()
