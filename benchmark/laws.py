#!/usr/bin/env python3
"""Times the innermost calls of a run: laws, the setting of a period, the check of a vector; and counts the trials of raises.

    benchmark/laws.py build PROGRAM     builds the program that is timed
    benchmark/laws.py laws PROGRAM      nanoseconds a call of each law
    benchmark/laws.py periods PROGRAM   microseconds a call of set_period on the generator's network of 2,000 junctions
    benchmark/laws.py checks PROGRAM    microseconds a call of check_super on its networks of 2,000 and 10,000 junctions
    benchmark/laws.py raises PROGRAM    trials a raise in the files of examples/

The program is laws_main.txt over the crates of this repository, built without proofs as bench.py builds its own. Times are of
the processor: of a run with so many calls, less that of a run with none, the least of five of each. It stands outside the
gate.
"""
import functools
import os
import resource
import subprocess
import sys

import bench
import networks
from unproved import ROOT

MAIN = ROOT / 'benchmark' / 'laws_main.txt'
USES = ['hyd_vector_check', 'hyd_period_network', 'hyd_inp', 'hyd_law', 'hyd_net', 'hyd_finders', 'hyd_spec', 'hyd_spec_certificates', 'hyd_sweep']
# The trials are made by the same module as in a run.
MODULES = [ROOT / 'crates' / 'hyd_sweep' / 'src' / 'next_trial_head.rt']
RUNS = 5
CALLS = 5_000_000
# A network with a link of each kind and two demands; the pressures between 0 and 100 m are half of those that are tried.
KINDS = '''[OPTIONS]
UNITS CMD
HEADLOSS C-M
DEMAND MODEL PDA
REQUIRED PRESSURE 100
[JUNCTIONS]
J 0 1000
K 0 0
[RESERVOIRS]
R 100
[PIPES]
A R J 1000 300 0.012 0 Closed
B R J 1000 300 0.012 0
C R J 1000 300 0.012 0 CV
P J K 1000 300 0.012 0
[PUMPS]
D R J HEAD ONE
E R J HEAD FOUR
[VALVES]
F R J 300 TCV 0 0
G R J 300 FCV 100 10
H R J 300 FCV 100 0
I R J 300 GPV LOSS
[CURVES]
ONE 1000 30
FOUR 0 40
FOUR 500 35
FOUR 1000 25
FOUR 2000 10
LOSS 0 0
LOSS 500 2
LOSS 1500 20
'''
# Laws: what they are, and the program's numbers for what is repeated and of which link or junction.
LAWS = [
    ('`Shut`', 1, 0), ('`Quad`', 1, 1), ('`Linear`', 1, 6), ('`OneWay<Quad>` (check valve)', 1, 2),
    ('`Lifted<Quad>`', 3, 4), ('`OneWay<Lifted<Quad>>` (pump)', 1, 4), ('`Capped<Quad>` (flow control valve)', 1, 7),
    ('`Capped<Linear>`', 1, 8), ('`Bent`, 3 knots', 3, 9), ('`Held<Bent>`, 3 knots', 1, 9), ('`Held<Bent>`, 4 knots (pump)', 1, 5),
    ('`Fixed`', 7, 1), ('`Pda`', 7, 0), ('`LinkLaw`: a pipe', 5, 1), ('`LinkLaw`: a check valve', 5, 2), ('`LinkLaw`: a pump', 5, 4),
    ('`LinkLaw`: a flow control valve', 5, 7), ('`LinkLaw`: a curve', 5, 9),
]
# The same network with Hazen-Williams losses, and the laws of its pipes.
POWERS = KINDS.replace('HEADLOSS C-M', 'HEADLOSS H-W').replace(' 0.012 ', ' 110 ')
POWER_LAWS = [('`LinkLaw`: a pipe with Hazen-Williams losses', 5, 1), ('`LinkLaw`: a check valve with them', 5, 2)]
POWER_CALLS = 500_000
PRESSURE_DRIVEN = ['DEMAND MODEL PDA', 'REQUIRED PRESSURE 20']


def run(program, text, what, which, count):
    """What the program prints, and the processor time that it spent, in nanoseconds."""
    data = b'%d %d %d %d\n%s' % (what, which, count, len(text), text.encode())
    before = resource.getrusage(resource.RUSAGE_CHILDREN)
    done = subprocess.run([program], input=data, capture_output=True)
    after = resource.getrusage(resource.RUSAGE_CHILDREN)
    words = done.stdout.decode().split()
    if done.returncode or len(words) < 3:
        sys.exit('%s %s' % (done.returncode, done.stdout + done.stderr))
    return words, 10 ** 9 * (after.ru_utime + after.ru_stime - before.ru_utime - before.ru_stime)


@functools.cache
def without(program, text, what):
    """The least processor time of a run without calls."""
    return min(run(program, text, what, 0, 0)[1] for _ in range(RUNS))


def least(program, text, what, which, count):
    """Nanoseconds a call, and what a run with all calls prints."""
    full = [run(program, text, what, which, count) for _ in range(RUNS)]
    return (min(time for _, time in full) - without(program, text, what)) / count, full[0][0]


def tell_load():
    print('(load: %s)' % ' '.join('%.1f' % load for load in os.getloadavg()))


def tell_laws(program):
    empty, _ = least(program, KINDS, 0, 0, CALLS)
    print('The loop alone: %.1f ns, which is taken off.' % empty)
    print('| law | `low`, ns | `high`, ns |')
    print('|---|---|---|')
    for name, what, which in LAWS:
        times = [max(0, least(program, KINDS, what + high, which, CALLS)[0] - empty) for high in (0, 1)]
        print('| %s | %.1f | %.1f |' % (name, *times))
    for name, what, which in POWER_LAWS:
        times = [max(0, least(program, POWERS, what + high, which, POWER_CALLS)[0] - empty) for high in (0, 1)]
        print('| %s | %.0f | %.0f |' % (name, *times))


def tell_periods(program):
    print('| demands | nothing changes, us | one link changes, us | every demand above 0 changes, us |')
    print('|---|---|---|---|')
    for name, options in (('fixed', ()), ('pressure-driven', PRESSURE_DRIVEN)):
        text = networks.generated(7, 2000, options, True)
        counts = (1000, 1000, 100)
        times = [least(program, text, 9, which, count) for which, count in enumerate(counts)]
        if any(words[0] != str(count) for count, (_, words) in zip(counts, times)):
            sys.exit('a period is refused')
        print('| %s | %s |' % (name, ' | '.join('%.0f' % (time / 1000) for time, _ in times)))


def tell_checks(program):
    print('| junctions | link ends | `check_super`, us | a link end, ns |')
    print('|---|---|---|---|')
    for size, count in ((2000, 500), (10_000, 100)):
        time, words = least(program, networks.generated(7, size), 10, 0, count)
        if words[0] != str(count):
            sys.exit('a vector that was proposed is no certificate')
        ends = 2 * int(words[2]) - 1
        print('| %s | %d | %.0f | %.0f |' % (words[1], ends, time / 1000, time / ends))


def tell_raises(program):
    print('| example | side | rounds | raises | trials a raise | most | tight |')
    print('|---|---|---|---|---|---|---|')
    for path in sorted((ROOT / 'examples').glob('*.inp')):
        for which, side in enumerate(('UPPER', 'LOWER')):
            for rounds in (20, 200):
                words, _ = run(program, path.read_text(), 11, which, rounds)
                raises, trials, most, done, same = words
                if same != 'true':
                    sys.exit('other heads than those of the rounds')
                print('| %s | %s | %d | %s | %.1f | %s | %s |' % (
                    path.stem, side, rounds, raises, int(trials) / int(raises), most, done))


def main():
    words = sys.argv[1:]
    tables = {'laws': tell_laws, 'periods': tell_periods, 'checks': tell_checks, 'raises': tell_raises}
    if len(words) == 2 and words[0] == 'build':
        bench.build(words[1], MAIN, USES, MODULES)
    elif len(words) == 2 and words[0] in tables:
        tell_load()
        tables[words[0]](words[1])
        tell_load()
    else:
        sys.exit(__doc__)


if __name__ == '__main__':
    main()
