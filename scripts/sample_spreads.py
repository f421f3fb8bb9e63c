#!/usr/bin/env python3
"""Samples networks within spreads, looks whether each lies inside what the run for its spread says, and prints a table.

    scripts/sample_spreads.py [--samples 1000] [--program PROGRAM] [--only NAMES] [--keep FOLDER]

For each example and a network that `gen` makes, for demands known to 5, 10 and 20 % and for one spread of all kinds of
data, networks within the spread are written as files of their own: half of them uniform, each datum anywhere between
its ends, half of them corners, each datum at one of its ends. (The ends of demands are pulled in by a millionth of the
demand, so that no rounding of the file's numbers leads out of the spread.) Each is run with `--tight`, and then

- each number pair of its report, of heads, pressures, levels and flows, has to lie inside that of the run for the
  spread at the same time; at a single instant each head of its certificate has to lie inside that of the spread's, in
  ticks;
- `check` without a spread has to accept its certificate;
- and the certificate of the spread too, for this network and for the file's own, where no level is open (over time:
  where demands and emitters alone are).

A sample that doesn't reach its tightest vectors is run without `--tight`, and what is asked of it then is that its
pairs meet those of the spread. The networks are cut to a single instant; some run over time too, with `--slack 3600`,
with a tenth of the samples and one factor of each demand for the whole time. The table has the mean over all junctions
(and report times) of: the width of the printed intervals of heads, in millimetres; that between the two outermost
networks, each a file of its own; and the ranges of heads that the samples of both kinds reach. NAMES are those of the
first column.

It needs Python 3 alone and a built program (`out/hyd` where it isn't given). The same words give the same samples. What
lies outside is told, and its files stay in FOLDER; the status is 1 then.
"""
import argparse
import collections
import random
import re
import subprocess
import sys
import tempfile
from decimal import Decimal
from pathlib import Path

ROOT = Path(__file__).resolve().parent.parent
NANO = 10 ** 9
# A head tick in millimetres.
TICK = 1e-10
NUMBERS = re.compile(r'(-?\d+\.\d{4}) (-?\d+\.\d{4})')
# Of each network the rows of the spread of all kinds, and of those over time its rows there.
INSTANTS = {
    'one-valve': ['DEMAND * 10%', 'HEAD R -0.5 0.5'],
    'steep': ['DEMAND * 10%', 'HEAD R -0.5 0.5'],
    'campus': ['DEMAND * 10%', 'EMITTER * 20%', 'HEAD 1 -0.5 0.5'],
    'street': ['DEMAND * 10%', 'EMITTER * 20%', 'HEAD Source -0.5 0.5'],
    'town': ['DEMAND * 10%', 'HEAD * -1.5 1.5'],
    'day': ['DEMAND * 10%', 'HEAD Lake -0.5 0.5', 'LEVEL Hill 1.6 4.4', 'LEVEL Pond 0.9 1.4'],
    'net1': ['DEMAND * 10%', 'HEAD 9 -1.5 1.5', 'LEVEL 2 111 139'],
    'net1-hw': ['DEMAND * 10%', 'HEAD 9 -1.5 1.5', 'LEVEL 2 111 139'],
    'gen 7 100': ['DEMAND * 10%', 'HEAD R -0.5 0.5', 'LEVEL T 4 6'],
}
OVER_TIME = {
    'day': ['DEMAND * 10%', 'HEAD Lake -0.5 0.5', 'LEVEL Hill 2.5 2.7', 'LEVEL Pond 1.1 1.3'],
    'net1': ['DEMAND * 10%', 'HEAD 9 -1.5 1.5', 'LEVEL 2 119 121'],
    'net1-hw': ['DEMAND * 10%', 'HEAD 9 -1.5 1.5', 'LEVEL 2 119 121'],
    'gen 7 100': ['DEMAND * 10%', 'HEAD R -0.5 0.5', 'LEVEL T 4.9 5.1'],
}
DEMANDS = [['DEMAND * 5%'], ['DEMAND * 10%'], ['DEMAND * 20%']]
LITTLE = [['DEMAND * 1%']]


# ---------------------------------------------------------------- networks and spreads

def nano(word):
    return int(Decimal(word) * NANO)


def decimal(number):
    return '%s%d.%09d' % ('-' if number < 0 else '', abs(number) // NANO, abs(number) % NANO)


class Net:
    """The lines of an input file, each with its section and words, and how to write them with other data."""

    def __init__(self, text):
        self.lines, section = [], ''
        for line in text.splitlines():
            words = line.split(';', 1)[0].split()
            if words and words[0].startswith('['):
                section, words = words[0].strip('[]').upper(), []
                if section == 'END':
                    break
            self.lines.append((section, words, line))
        self.us = any(words[:1] and words[0].upper() == 'UNITS' and words[1].upper() in
                      ('CFS', 'GPM', 'MGD', 'IMGD', 'AFD') for section, words, _ in self.lines if section == 'OPTIONS')

    def ids(self, section):
        return [words[0] for here, words, _ in self.lines if here == section and words]

    def at_one_instant(self):
        return Net('\n'.join(line for section, words, line in self.lines
                             if not (section == 'TIMES' and words and words[0].upper() == 'DURATION')))

    def with_data(self, data):
        """The text where `data` gives a factor or a number, by subject and ID."""
        return '\n'.join(self.row(data, section, words, line) for section, words, line in self.lines) + '\n'

    @staticmethod
    def row(data, section, words, line):
        if not words or section not in ('JUNCTIONS', 'DEMANDS', 'EMITTERS', 'RESERVOIRS', 'TANKS'):
            return line
        words, name = list(words), words[0]
        if section in ('JUNCTIONS', 'DEMANDS'):
            place = 2 if section == 'JUNCTIONS' else 1
            if len(words) > place:
                words[place] = decimal(nano(words[place]) * data.get(('DEMAND', name), NANO) // NANO)
        elif section == 'EMITTERS':
            words[1] = decimal(nano(words[1]) * data.get(('EMITTER', name), NANO) // NANO)
        elif section == 'RESERVOIRS':
            words[1] = decimal(nano(words[1]) + data.get(('HEAD', name), 0))
        elif ('LEVEL', name) in data:
            words[2] = decimal(data['LEVEL', name])
        return ' '.join(words)


def ends_of(net, rows):
    """The ends that the rows of a spread give, by subject and ID."""
    out = {}
    sections = {'DEMAND': 'JUNCTIONS', 'EMITTER': 'EMITTERS', 'HEAD': 'RESERVOIRS', 'LEVEL': 'TANKS'}
    for row in rows:
        subject, name, *ends = row.split()
        if ends[0].endswith('%'):
            part = nano(ends[0][:-1]) // 100
            pair = NANO - part, NANO + part
        else:
            pair = nano(ends[0]), nano(ends[1])
        for one in net.ids(sections[subject]) if name == '*' else [name]:
            out[subject, one] = pair
    return out


def outermost(ends, side):
    """The data of an outermost network: of least outflows and greatest heads (1), or the other way round (0)."""
    return {key: pair[side if key[0] in ('HEAD', 'LEVEL') else 1 - side] for key, pair in ends.items()}


def sampled(ends, rng, is_corner):
    """Data within the ends."""
    out = {}
    for key, (low, high) in ends.items():
        if key[0] == 'DEMAND':
            low, high = min(low + NANO // 10 ** 6, NANO), max(high - NANO // 10 ** 6, NANO)
        out[key] = rng.choice([low, high]) if is_corner else rng.randint(low, high)
    return out


# ---------------------------------------------------------------- runs

class Run:
    """A run of a text: its status, the number pairs of its report by time and line, and its certificate."""

    def __init__(self, place, name, text, words):
        self.place, self.name = place, name
        self.net, self.cert = place.folder / (name + '.inp'), place.folder / (name + '.cert')
        self.net.write_text(text)
        done = subprocess.run([place.program, 'run', str(self.net), str(self.cert)] + words, capture_output=True,
                              text=True, check=False)
        self.status, self.report = done.returncode, done.stdout.splitlines()

    def last(self):
        return self.report[-1] if self.report else 'status %d' % self.status

    def pairs(self):
        """The number pairs of the lines behind TIME lines, by time, kind and ID."""
        out, time = {}, None
        for line in self.report:
            words = line.split()
            if words[0] == 'TIME':
                time = words[1]
            elif words[0] in ('JUNCTION', 'RESERVOIR', 'TANK', 'LINK'):
                out[time, words[0], words[1]] = [(Decimal(a), Decimal(b)) for a, b in NUMBERS.findall(line)]
        return out

    def vectors(self):
        """The heads of the first record by the word of their lines, in ticks."""
        out = collections.defaultdict(list)
        for line in self.cert.read_text().split('PERIOD ')[1].splitlines():
            words = line.split()
            if words[0] in ('MU', 'ML', 'PU', 'PL'):
                out[words[0]].append(int(words[1]))
        return out

    def accepts(self, cert, words=()):
        done = subprocess.run([self.place.program, 'check', str(self.net), str(cert)] + list(words),
                              capture_output=True, check=False)
        return done.returncode == 0


class Place:
    """The program and a folder for its files."""

    def __init__(self, program, folder):
        self.program, self.folder = program, Path(folder)


def is_inside(inner, outer):
    return len(inner) == len(outer) and all(o[0] <= i[0] and i[1] <= o[1] for i, o in zip(inner, outer))


def meets(inner, outer):
    return len(inner) == len(outer) and all(o[0] <= i[1] and i[0] <= o[1] for i, o in zip(inner, outer))


def lines_outside(sample, spread, fits):
    """Lines of the report for the spread inside which the sample's don't lie."""
    own = sample.pairs()
    return ['at %s %s %s' % key for key, pairs in spread.pairs().items() if key not in own or not fits(own[key], pairs)]


def heads_outside(sample, spread, words):
    """Heads of the first record of the certificate, in lines that begin so, beyond those of the spread's."""
    own, out = sample.vectors(), []
    for word, heads in spread.vectors().items():
        if word not in words:
            continue
        up = 1 if word.endswith('U') else -1
        out += ['%s line %d' % (word, k) for k, (a, b) in enumerate(zip(own[word], heads)) if up * (b - a) < 0]
    return out


# ---------------------------------------------------------------- one row of the table

class Row:
    """A network and a spread: its run, the samples, and what came."""

    def __init__(self, place, name, net, rows, is_over_time):
        self.place, self.net, self.rows, self.is_over_time = place, net, rows, is_over_time
        self.name = name + (' over time' if is_over_time else '')
        self.ends, self.counts, self.faults = ends_of(net, rows), collections.Counter(), []
        self.file = place.folder / 'spread.rows'
        self.file.write_text('\n'.join(rows) + '\n')
        self.words = ['--slack', '3600'] if is_over_time else []
        self.spread = Run(place, 'spread', net.with_data({}), ['--tight', '--spread', str(self.file)] + self.words)
        subjects = {key[0] for key, (low, high) in self.ends.items() if low != high}
        # a tank that is pinned stands at the other end of its interval, and so at no sample's level
        self.compared = ('MU', 'ML') if 'LEVEL' in subjects else ('MU', 'ML', 'PU', 'PL')
        self.holds_alone = not subjects & ({'HEAD', 'LEVEL'} if is_over_time else {'LEVEL'})
        self.heads = {True: {}, False: {}}

    def millimetres(self, number):
        return float(number) * (304.8 if self.net.us else 1000)

    def junctions(self):
        return [key for key in self.spread.pairs() if key[1] == 'JUNCTION']

    def check_spread(self):
        """The checks of the certificate for the spread."""
        if not self.spread.accepts(self.spread.cert, ['--spread', str(self.file)]):
            self.faults.append('the check with the spread refuses its certificate')
        if self.holds_alone and not self.spread.accepts(self.spread.cert):
            self.faults.append('the check without the spread refuses its certificate')

    def take(self, number):
        """Samples one network and looks at it."""
        is_corner = number % 2 == 1
        rng = random.Random('%s/%s/%d' % (self.name, self.rows, number))
        data = sampled(self.ends, rng, is_corner)
        sample, fits = Run(self.place, 'sample', self.net.with_data(data), ['--tight'] + self.words), is_inside
        if sample.status == 7:
            sample, fits = Run(self.place, 'sample', self.net.with_data(data), self.words), meets
        self.counts['not tight' if fits is meets else 'tight'] += 1
        bad = lines_outside(sample, self.spread, fits)
        if fits is is_inside and not self.is_over_time:
            bad += heads_outside(sample, self.spread, self.compared)
        self.counts['pairs'] += sum(map(len, sample.pairs().values()))
        if not sample.accepts(sample.cert):
            bad.append('its own certificate is refused')
        if self.holds_alone:
            self.counts['taken'] += 1
            if not sample.accepts(self.spread.cert):
                bad.append('the certificate of the spread is refused for it')
        if bad:
            self.faults.append('sample %d (%s): %s' % (number, sample.last(), '; '.join(bad[:5])))
            self.keep(number)
        self.widen(self.heads[is_corner], sample)

    def widen(self, heads, sample):
        """Widens the ranges of heads by those of a sample."""
        own = sample.pairs()
        if self.is_over_time:
            middles = {key: sum(map(self.millimetres, own[key][0])) / 2 for key in self.junctions() if key in own}
        else:
            vectors = sample.vectors()
            middles = {k: (a + b) / 2 * TICK for k, (a, b) in enumerate(zip(vectors['MU'], vectors['ML']))}
        for key, middle in middles.items():
            low, high = heads.get(key, (middle, middle))
            heads[key] = min(low, middle), max(high, middle)

    def keep(self, number):
        if self.place.kept:
            folder = self.place.kept / ('%s.%s.%d' % (self.name, '_'.join(self.rows), number)).replace(' ', '-')
            folder.mkdir(parents=True, exist_ok=True)
            for path in self.place.folder.glob('s*.*'):
                (folder / path.name).write_bytes(path.read_bytes())

    def hull(self):
        """The mean width between the outermost networks, each a file of its own."""
        if self.is_over_time:
            return None
        upper, lower = [Run(self.place, 'outer%d' % side, self.net.with_data(outermost(self.ends, side)), ['--tight'])
                        for side in (1, 0)]
        if upper.status or lower.status:
            return None
        pairs = list(zip(upper.vectors()['MU'], lower.vectors()['ML']))
        return sum(a - b for a, b in pairs) * TICK / len(pairs)

    def printed(self):
        pairs, keys = self.spread.pairs(), self.junctions()
        widths = [self.millimetres(high - low) for low, high in (pairs[key][0] for key in keys)]
        return sum(widths) / len(widths)

    def range(self, is_corner):
        heads = self.heads[is_corner].values()
        return sum(high - low for low, high in heads) / len(heads) if heads else None

    def table_line(self):
        cells = [self.name, '; '.join(self.rows)]
        cells += ['-' if x is None else ('%.2f' if x < 10 else '%.1f' if x < 100 else '%.0f') % x
                  for x in (self.printed(), self.hull(), self.range(False), self.range(True))]
        return '| %s |' % ' | '.join(cells)


def texts(place):
    """The text of each network."""
    out = {name: (ROOT / 'examples' / (name + '.inp')).read_text() for name in INSTANTS if ' ' not in name}
    front = place.folder / 'made'
    subprocess.run([place.program, 'gen', '7', '100', '%s.inp' % front, '%s.cert' % front], check=True,
                   stdout=subprocess.DEVNULL)
    out['gen 7 100'] = Path('%s.inp' % front).read_text()
    return out


def rows_of(place, only):
    """The rows of the table, each a call that makes it."""
    for name, text in texts(place).items():
        net = Net(text)
        if not only or name in only:
            for rows in DEMANDS + [INSTANTS[name]]:
                yield lambda net=net, rows=rows, name=name: Row(place, name, net.at_one_instant(), rows, False)
        if name in OVER_TIME and (not only or name + ' over time' in only):
            for rows in LITTLE + DEMANDS + [OVER_TIME[name]]:
                yield lambda net=net, rows=rows, name=name: Row(place, name, net, rows, True)


def sample_all(place, samples, only):
    """Samples each network for each spread; how many rows have a fault."""
    table, wrong = [], 0
    for make in rows_of(place, only):
        row = make()
        if row.junctions():
            row.check_spread()
            for number in range(max(2, samples // 10) if row.is_over_time else samples):
                row.take(number)
            table.append(row.table_line())
        said = ', '.join('%s %d' % one for one in sorted(row.counts.items()))
        print('%s, %s: %s; %s; %d faults' % (row.name, '; '.join(row.rows), row.spread.last(), said, len(row.faults)),
              flush=True)
        for fault in row.faults[:5]:
            print('  ' + fault)
        wrong += bool(row.faults)
    print('\n| network | spread | printed | outermost | uniform | corners |\n|---|---|---|---|---|---|')
    print('\n'.join(table))
    return wrong


def main():
    top = argparse.ArgumentParser(description=__doc__, formatter_class=argparse.RawDescriptionHelpFormatter)
    top.add_argument('--samples', type=int, default=1000, metavar='N')
    top.add_argument('--program', default=str(ROOT / 'out' / 'hyd'))
    top.add_argument('--only', nargs='+', metavar='NAMES')
    top.add_argument('--keep', type=Path, metavar='FOLDER')
    args = top.parse_args()
    with tempfile.TemporaryDirectory() as folder:
        place = Place(str(Path(args.program).resolve()), folder)
        place.kept = args.keep
        return 1 if sample_all(place, args.samples, args.only) else 0


if __name__ == '__main__':
    sys.exit(main())
