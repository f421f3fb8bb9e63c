#!/usr/bin/env python3
"""Compares `fire` and `closures` for spreads with an independent program that knows none, on random networks.

    scripts/compare_spread_targets.py OTHER [FIRES [CLOSURES [SEED]]]

OTHER is the folder of an independent program in Python: its module `fuzz` makes texts, its modules `reader`, `laws`,
`solve` and `periods` make and search networks, its module `cli` answers of them. FIRES times (500 where it isn't given)
`fire` asks for a random junction, CLOSURES times (200) `closures` is asked, each of a network and with a target as
compare_targets.py makes them and for a spread as compare_spreads.py makes one; some have a row with a fault, some a
demand that an end of its interval puts out of range.

The two outermost networks are written as files of their own, and the other program answers each: the edge below is
that of LOWER's file, the edge above that of UPPER's; a word is SAFE where it is in the answer for LOWER's file, LOW
where it is in that for UPPER's, and else by what its search on each side's own file came to. Which end an emitter's
coefficient has in a file is told by the vector of the question, which is searched until the two fit. A name that no
junction has and a demand out of range are expected from the text, a refusal of FILE is expected as a run for the
spread prints it. Status and printed bytes must be the same, but where rounds are spent in one of the two, as in
compare_targets.py. Besides, FILE without rows has to give the bytes of the command without the word.

Of each question SAMPLES networks within the spread (4 where the environment doesn't say) are written as files of their
own, half with each datum anywhere between its ends, half with each at one of them. For each, this program's answer
without a spread has to lie within the one with it: no edge below is under the spread's, no edge above is over it, and
where the spread's word is SAFE or LOW the sample's is the same.

The program of this repository is built as compare_runs.py builds it; PROGRAM, KEEP, JOBS and OTHER_SECONDS in the
environment are those of that script, LOSSES is that of differences.py. It stands outside the gate.
"""
import collections
import functools
import multiprocessing
import os
import random
import sys
import tempfile
from decimal import Decimal
from pathlib import Path

from compare_runs import OTHER_SECONDS, build
from compare_spreads import EMPTY, NANO, CantBeWritten, Outermost, called, made, made_spread, products, this_runs
from compare_spreads import kind_of, tell
from compare_targets import SPENT, comparison, expected, kinds, network, question, words_of
from differences import STAGE, at_most, keep, modules_of

SAMPLES = int(os.environ.get('SAMPLES', '4'))
# How often an outermost file is written anew for the emitters that take in water.
MOST_FILES = 8
GREATEST_FACTOR = 1_000_000
WRONG_ROWS = ['DEMAND nobody 10%', 'DEMAND * ten', 'DEMAND * 1.1 1.2', 'HEAD * 1 2', 'PRESSURE * 10%', 'LEVEL *',
              'EMITTER * 100%', 'DEMAND * 101%', 'HEAD n.inp -1 1', 'DEMAND * 10% 20%']
Other = collections.namedtuple('Other', 'cli fuzz laws numeric periods solve reach reader')


# ---------------------------------------------------------------- questions

class Question:
    """A command on a network, and how its vectors are searched: with a junction held at a head, or with a pipe shut."""

    def __init__(self, other, project, words):
        self.other, self.words, self.target = other, words, other.cli.number_word(words[-1])
        names = [junction.id.decode('latin-1') for junction in project.junctions]
        self.is_fire = words[0] == 'fire'
        self.held = names.index(words[-2]) if self.is_fire and words[-2] in names else None
        self.rounds = int(words[words.index('--sweeps') + 1]) if '--sweeps' in words else 200

    def swept(self, project, is_upper, pipe):
        """What the other program's search on a side of a network comes to."""
        laws, period = self.other.laws, self.other.periods.Sim(project).start()
        states = [self.other.reader.CLOSED if link == pipe else state for link, state in enumerate(period.links)]
        net = laws.Net(project, 0, states, [stock.level for stock in period.stocks], period.tank_states)
        side = self.other.solve.Side(net, laws.MAIN, laws.UPPER if is_upper else laws.LOWER)
        start = side.bottom()
        if self.held is not None:
            ends = self.other.reach.target_span(project, self.held, self.target)
            start[self.held] = ends[0 if is_upper else 1]
        return self.other.solve.tighten(side, start, self.rounds, skip=self.held)

    def answer(self, text):
        """The other program's answer for a text."""
        return expected(self.other.cli, text, self.words)


def given_rows(rng, project):
    """A spread, the text of FILE, and whether it has a row with a fault."""
    spread = made_spread(rng, project)
    if project.junctions and rng.randrange(20) == 0:
        name = rng.choice(project.junctions).id.decode('latin-1')
        spread.add('DEMAND', name, '1 %d' % GREATEST_FACTOR, (NANO, NANO * GREATEST_FACTOR))
    rows = spread.text(rng)
    is_wrong = rng.randrange(15) == 0
    return spread, rows + (rng.choice(WRONG_ROWS).encode() + b'\n' if is_wrong else b''), is_wrong


def with_spread(words):
    return words[:1] + ['--spread', 'n.rows'] + words[1:]


# ---------------------------------------------------------------- outermost networks and others within

class Within(Outermost):
    """A network within a spread: each datum anywhere between its ends, or at one of them."""

    def __init__(self, modules, text, spread, rng, is_corner):
        super().__init__(modules, text, spread, True)
        self.rng, self.is_corner, self.data = rng, is_corner, {}

    def datum(self, subject, node, ends, place):
        key = subject, node.id
        if key not in self.data:
            self.data[key] = self.rng.choice(ends) if self.is_corner else self.rng.randint(*ends)
        return self.data[key]


def elevations(project):
    return [junction.elevation for junction in project.junctions]


def read_as_meant(other, file, text):
    """The network of a file that was written, where it has the data that it is to have."""
    try:
        project = other.cli.read_project(text, STAGE)
    except other.cli.Refused:
        raise CantBeWritten from None
    if not file.is_as_meant(project):
        raise CantBeWritten
    return project


def takes_in(project, heads):
    """Of each emitter, whether it takes in water at these heads."""
    return [head < junction.elevation for junction, head in zip(project.junctions, heads) if junction.emitter]


def fitted(ask, file, pipe):
    """The text of an outermost network whose emitters have the ends of its vector, and what the search came to."""
    heads = elevations(file.project)
    for _ in range(MOST_FILES):
        text = file.written(heads)
        project = read_as_meant(ask.other, file, text)
        swept = ask.swept(project, file.is_upper, pipe)
        is_open = file.spread.opens('EMITTER') and swept.outcome == ask.other.solve.LEAST
        if not is_open or takes_in(project, swept.vector) == takes_in(project, heads):
            return text, swept.outcome
        heads = swept.vector
    raise CantBeWritten


# ---------------------------------------------------------------- expected answers

def out_of_range(other, spread):
    """The line of the first junction of whose demand an end is out of range; None where there is none."""
    for number, junction in enumerate(spread.project.junctions):
        own = other.laws.demand_at(spread.project, number, 0)
        if max(map(abs, products(spread.ends('DEMAND', junction, (NANO, NANO)), own))) > other.numeric.FLOW_MAX:
            return b'STOP period 0 time 0:00:00 DEMAND %s %d\n' % (junction.id, own)
    return None


def edges(ask, lower, upper):
    """The answer of `fire` by those for the two outermost networks."""
    (status, low), (_, high) = [ask.answer(fitted(ask, file, None)[0]) for file in (lower, upper)]
    return status, b' '.join(low.split(b' ')[:3] + high.split(b' ')[3:])


def word_of(ask, place, found, outcomes):
    """The word of a pipe and a junction by the words that each file has and what the searches came to."""
    low, high = [words.get(place, 'SAFE') for words in found]
    if low == 'SAFE' or high == 'LOW':
        return 'SAFE' if low == 'SAFE' else 'LOW'
    if ask.other.solve.ROUNDS_SPENT in outcomes:
        return SPENT
    return 'NOCERT' if ask.other.solve.NO_CERTIFICATE in outcomes else 'UNSURE'


def all_words(ask, lower, upper):
    """The answer of `closures` by those for the two outermost networks."""
    project, lines, answer = lower.project, [], functools.lru_cache(None)(ask.answer)
    for pipe in range(project.pipes):
        (low_text, low), (high_text, high) = [fitted(ask, file, pipe) for file in (lower, upper)]
        found = [words_of(answer(text)[1]) for text in (low_text, high_text)]
        name = project.link_ids[pipe].decode('latin-1')
        lines.append('SHUT ' + name)
        for junction in project.junctions:
            other_name = junction.id.decode('latin-1')
            word = word_of(ask, (name, other_name), found, (low, high))
            lines += [] if word == 'SAFE' else ['JUNCTION %s %s' % (other_name, word)]
    lines.append('DONE %d' % project.pipes)
    return 0, '\n'.join(lines + ['']).encode('latin-1')


def expected_within(ask, text, spread, program, rows):
    """What the answer for a spread has to be."""
    refused = this_runs(program, ['--sweeps', '0'], text, rows)[:2]
    if refused[0] == 5:
        return refused
    if ask.is_fire and ask.held is None:
        return ask.answer(text)
    line = out_of_range(ask.other, spread)
    if line is not None:
        return 8, line
    sides = [Outermost((ask.other.laws, ask.other.numeric), text, spread, is_upper) for is_upper in (False, True)]
    return (edges if ask.is_fire else all_words)(ask, *sides)


# ---------------------------------------------------------------- samples

def is_over(edge, other, is_below):
    """Whether a sample's edge lies where the spread's says that none does."""
    if edge in ('NOCERT', SPENT) or other == SPENT:
        return False
    if other == 'NOCERT':
        return True
    numbers = [Decimal(-1) if one == 'NONE' else Decimal(one) for one in (edge, other)]
    return numbers[1] < numbers[0] if is_below else numbers[1] > numbers[0]


def outside(ask, got, sample):
    """What of a sample's answer doesn't lie within the answer for the spread."""
    if got[0] != sample[0]:
        return ['status %s of a sample' % (sample[0],)]
    if ask.is_fire:
        own, theirs = [answer[1].decode('latin-1').split()[-2:] for answer in (got, sample)]
        return ['edge %s of a sample against %s' % (b, a) for a, b, is_below in zip(own, theirs, (True, False))
                if is_over(a, b, is_below)]
    own, theirs = words_of(got[1]), words_of(sample[1])
    places = [place for place in {**own, **theirs} if place[1] is not None]
    return ['word %s of a sample in place of %s at %s' % (theirs.get(place, 'SAFE'), own.get(place, 'SAFE'), place)
            for place in places
            if own.get(place, 'SAFE') in ('SAFE', 'LOW')
            and theirs.get(place, 'SAFE') not in (own.get(place, 'SAFE'), SPENT)]


def faults_of_samples(ask, text, spread, program, rng, got, notes):
    """What of the answers for some networks within a spread doesn't lie within the answer for it."""
    faults, modules = [], (ask.other.laws, ask.other.numeric)
    for number in range(SAMPLES):
        file = Within(modules, text, spread, rng, number % 2 == 1)
        sampled = file.written(elevations(spread.project))
        read_as_meant(ask.other, file, sampled)
        sample = called(program, ask.words, inp=sampled)[:2]
        faults += outside(ask, got, sample)
        notes['samples of %s, %s' % (ask.words[0], 'corners' if file.is_corner else 'uniform')] += 1
    return faults


# ---------------------------------------------------------------- comparisons

def asked_words(other, program, rng, text, is_fire):
    """The words of a command, its target near the pressures that the text has without the spread."""
    with tempfile.TemporaryDirectory() as folder:
        (Path(folder) / 'n.inp').write_bytes(text)
        return question(other.cli, program, folder, rng, text, is_fire)


def compared(job):
    """Of a seed: its text, its rows, its words, what came, how it went, and what is wrong."""
    program, folder, is_fire, seed = job
    other = Other(*modules_of(folder, *Other._fields))
    rng, notes, faults, rows, got, words = random.Random(seed), collections.Counter(), [], b'', None, []
    text = network(other.fuzz, rng) if rng.randrange(3) else made(other.fuzz, rng)
    try:
        with at_most(OTHER_SECONDS):
            words = asked_words(other, program, rng, text, is_fire)
            plain = called(program, words, inp=text)[:2]
            if plain != called(program, with_spread(words), inp=text, rows=rng.choice(EMPTY))[:2]:
                faults.append('an empty file differs from no spread')
            spread, rows, is_wrong = given_rows(rng, other.cli.read_project(text, STAGE))
            got = called(program, with_spread(words), inp=text, rows=rows)[:2]
            ask = Question(other, spread.project, words)
            want = expected_within(ask, text, spread, program, rows)
            how = comparison(words, want, got)
            if how == 'DIFFERENT' or is_wrong and got[0] != 5:
                faults.append('%s in place of %s' % (got, want))
            how = '%s: %s' % (how, 'answered' if got[0] == 0 else kind_of(got))
            if got[0] == 0:
                notes['%s as without the spread' % ('the same' if got == plain else 'not the same')] += 1
                faults += faults_of_samples(ask, text, spread, program, rng, got, notes)
            notes.update(kinds(words, got))
    except other.cli.Refused:
        how = 'the text is refused'
        if called(program, with_spread(words), inp=text, rows=b'PRESSURE *\n')[:2] != plain:
            faults.append('a text with a fault differs from no spread')
    except CantBeWritten:
        how = 'a network that nine decimals can\'t write'
    except TimeoutError:
        how = 'the other program took too long'
    return seed, text, rows, words, how, notes, faults


# ---------------------------------------------------------------- what came

def main():
    given = sys.argv[1:]
    if not given:
        sys.exit(__doc__)
    counts = [int(given[1]) if len(given) > 1 else 500, int(given[2]) if len(given) > 2 else 200]
    first = int(given[3]) if len(given) > 3 else 1
    hows, notes, wrong = collections.Counter(), collections.Counter(), []
    with tempfile.TemporaryDirectory() as folder:
        program = Path(os.environ.get('PROGRAM', Path(folder) / 'program')).resolve()
        if not program.exists():
            build(program)
        jobs = [(str(program), given[0], is_fire, 'spread/%s/%d/%d' % ('fire' if is_fire else 'closures', first, k))
                for is_fire, count in zip((True, False), counts) for k in range(count)]
        with multiprocessing.Pool(int(os.environ.get('JOBS', '2'))) as pool:
            for seed, text, rows, words, how, more, faults in pool.imap_unordered(compared, jobs, 4):
                hows['%s, %s' % (words[0] if words else '-', how)] += 1
                notes.update(more)
                if faults:
                    wrong.append((seed, text, rows, [' '.join(words)] + faults))
                    if 'KEEP' in os.environ:
                        keep(os.environ['KEEP'], seed, 0, inp=text, rows=rows,
                             words=' '.join(words).encode(), faults='\n'.join(faults).encode())
    for one in sorted(wrong, key=lambda one: len(one[1]))[:10]:
        tell(*one)
    print('%d fires and %d closures for spreads, %d differ' % (*counts, len(wrong)))
    for name, many in sorted(hows.items()) + sorted(notes.items()):
        print(name, many)
    sys.exit(1 if wrong else 0)


if __name__ == '__main__':
    main()
