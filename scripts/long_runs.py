#!/usr/bin/env python3
"""Tells how many of sixty variants of EPANET's first example finish a day, a week and a month.

    scripts/long_runs.py PROGRAM [--network FILE] [--slack N] [--hours 24,168,720] [--more WORDS] [--drawn K]
    scripts/long_runs.py --other FOLDER [--slack N] [--hours 24] [--first K] [--drawn K]

The variants are FILE, examples/net1.inp or its form with Hazen-Williams losses examples/net1-hw.inp, with three
diameters of its tank, two levels at the start, two pairs of levels at which its pump is switched, and five demand
multipliers. PROGRAM runs each with `--slack N` (3600 where it isn't given; with 0 the word is left out) and other
WORDS, as `--more="--width 0.1"`; its certificate is checked then, and the check has to print the same report, but for
the last line of a run that stopped. Of each duration it tells how many runs finished, the cause of each stop, the
periods (the median of the finished), the most seconds by which a start was open (median and most), the width of the
widest level at a report time (median and most, in millimetres), and the processor time of a run alone (median and
most, in seconds), its reading of the file included.

`--drawn K` takes, in place of the sixty, the first K of 4,680 variants in an order drawn by chance, but always the same:
twelve diameters, five levels, six pairs of switches, thirteen demands. So many of sixty as their shares say finish where
nobody chose them.

`--other FOLDER` asks an independent program in Python in place of PROGRAM (its module `cli`), with the tightest
vectors, for which it may spend its rounds; `--first K` takes the first K variants. The status is 1 where a check
differs. It stands outside the gate.
"""
import argparse
import collections
import itertools
import random
import re
import resource
import statistics
import subprocess
import sys
import tempfile
import time
from pathlib import Path

from differences import STAGE, modules_of

ROOT = Path(__file__).resolve().parent.parent
DIAMETERS = ('50.5', '60', '70')
LEVELS = ('115', '125')
SWITCHES = (('110', '140'), ('105', '145'))
DEMANDS = ('0.8', '0.9', '1', '1.1', '1.2')
# The wider family, of which some are drawn.
WIDER = (('40', '45', '50.5', '55', '60', '65', '70', '75', '80', '85', '90', '100'),
         ('110', '115', '120', '125', '130'),
         (('110', '140'), ('105', '145'), ('115', '135'), ('105', '140'), ('110', '145'), ('112', '136')),
         ('0.7', '0.75', '0.8', '0.85', '0.9', '0.95', '1', '1.05', '1.1', '1.15', '1.2', '1.25', '1.3'))
# A foot in millimetres.
FOOT = 304.8


# ---------------------------------------------------------------- texts

def replaced(text, pattern, new):
    """The text with one place changed, which has to be there once."""
    made, count = re.subn(pattern, new, text, flags=re.M | re.I)
    if count != 1:
        sys.exit('the network has other lines: "%s"' % pattern)
    return made


def chosen(drawn):
    """The diameter, level, switches and demand of each variant: of the sixty, or of so many that are drawn."""
    if not drawn:
        return list(itertools.product(DIAMETERS, LEVELS, SWITCHES, DEMANDS))
    every = list(itertools.product(*WIDER))
    random.Random(1).shuffle(every)
    return every[:drawn]


def variants(network, hours, drawn):
    """The texts of this duration, each with its name."""
    text = re.sub(r'(?mi)^ *Demand Multiplier .*\n', '', Path(network).read_text())
    for diameter, level, (low, high), demand in chosen(drawn):
        one = replaced(text, r'(?<=^ 2)(\s+850\s+)120(\s+100\s+150\s+)50\.5\b', r'\g<1>%s\g<2>%s' % (level, diameter))
        one = replaced(one, r'\bBELOW 110\b', 'BELOW ' + low)
        one = replaced(one, r'\bABOVE 140\b', 'ABOVE ' + high)
        one = replaced(one, r'^ *Duration\s+24:00', ' Duration %d:00' % hours)
        one = replaced(one, r'^\[OPTIONS\]', '[OPTIONS]\n Demand Multiplier %s' % demand)
        yield '%s %s %s %s %s' % (diameter, level, low, high, demand), one


# ---------------------------------------------------------------- runs

def spent_by_programs():
    """The processor time of all programs that were run so far, in seconds."""
    used = resource.getrusage(resource.RUSAGE_CHILDREN)
    return used.ru_utime + used.ru_stime


def by_program(program, text, words):
    """Status, report and certificate of a run, the answer of a check of it, and the run's processor time."""
    with tempfile.TemporaryDirectory() as folder:
        (Path(folder) / 'n.inp').write_text(text)
        begun = spent_by_programs()
        run = subprocess.run([program, 'run', 'n.inp', 'n.cert'] + words, cwd=folder, stdin=subprocess.DEVNULL,
                             capture_output=True)
        seconds = spent_by_programs() - begun
        cert = Path(folder) / 'n.cert'
        if not cert.exists():
            return run.returncode, run.stdout, b'', None, seconds
        check = subprocess.run([program, 'check', 'n.inp', 'n.cert'], cwd=folder, stdin=subprocess.DEVNULL,
                               capture_output=True)
        return run.returncode, run.stdout, cert.read_bytes(), (check.returncode, check.stdout), seconds


def by_other(folder, text, words):
    """The same of the independent program, with the tightest vectors."""
    cli, = modules_of(folder, 'cli')
    files = {'n.inp': text.encode()}
    begun = time.process_time()
    status, printed = cli.Tool(files, STAGE).call(['run', 'n.inp', 'n.cert', '--tight'] + words)
    seconds = time.process_time() - begun
    check = cli.Tool(files, STAGE).call(['check', 'n.inp', 'n.cert'])
    return status, printed, files.get('n.cert', b''), check, seconds


def is_same_report(status, report, check):
    """Whether a check printed the report of the run, but for the last line of one that stopped."""
    lines, again = report.splitlines(), check[1].splitlines()
    last = again[-1] if again else b''
    fits = last == lines[-1] if status == 0 else last.startswith(b'PARTIAL ')
    return check[0] == 0 and lines[:-1] == again[:-1] and fits


def is_wrong(status, report, _cert, check, _seconds):
    """Whether a run that finished wrote nothing, or a check of what was written differs."""
    return status == 0 if check is None else not is_same_report(status, report, check)


# ---------------------------------------------------------------- figures

def open_seconds(cert):
    """By how many seconds the starts of a certificate's periods are open at most; 0 before version 4."""
    if not cert.startswith(b'HYDCERT 4 '):
        return 0
    return max((int(line.split()[3]) for line in cert.splitlines() if line.startswith(b'PERIOD ')), default=0)


def widest(report):
    """The width of the widest level interval of a report, in millimetres."""
    pairs = re.findall(rb'(?m)^TANK .* level (\S+) (\S+) ', report)
    return max(((float(hi) - float(lo)) * FOOT for lo, hi in pairs), default=0)


def cause(report):
    """Why a run stopped: the word of its last line."""
    words = report.decode('latin-1').splitlines()[-1].split()
    return words[5] if words[0] == 'STOP' else ' '.join(words)


def middle_and_most(values, form):
    return (form + ', ' + form) % (statistics.median(values), max(values)) if values else '-'


def tell(hours, answers, wrong):
    """Prints the figures of a duration."""
    finished = [a for a in answers if a[0] == 0]
    stops = collections.Counter(cause(a[1]) for a in answers if a[0] != 0)
    print('%d hours: %d of %d finished; stops: %s' % (hours, len(finished), len(answers), dict(stops.most_common())))
    if finished:
        print('  periods, median of the finished: %d' % statistics.median(a[2].count(b'PERIOD ') for a in finished))
        print('  most open seconds, median and most: ' + middle_and_most([open_seconds(a[2]) for a in finished], '%d'))
        print('  widest level, mm: ' + middle_and_most([widest(a[1]) for a in finished], '%.2f'))
        print('  processor time of a run, s, median and most: ' + middle_and_most([a[4] for a in finished], '%.3f'))
    for name in wrong:
        print('  nothing was written for %s, or its check differs' % name)


def main():
    words = argparse.ArgumentParser(usage=__doc__)
    words.add_argument('program', nargs='?')
    words.add_argument('--other')
    words.add_argument('--network', default=str(ROOT / 'examples' / 'net1.inp'))
    words.add_argument('--slack', default='3600')
    words.add_argument('--hours', default='24,168,720')
    words.add_argument('--more', default='')
    words.add_argument('--drawn', type=int, default=0)
    words.add_argument('--first', type=int)
    given = words.parse_args()
    if (given.program is None) == (given.other is None):
        sys.exit(__doc__)
    run_words = (['--slack', given.slack] if given.slack != '0' else []) + given.more.split()
    failed = False
    for hours in map(int, given.hours.split(',')):
        answers, wrong = [], []
        for name, text in itertools.islice(variants(given.network, hours, given.drawn), given.first):
            if given.program:
                answer = by_program(str(Path(given.program).resolve()), text, run_words)
            else:
                answer = by_other(given.other, text, run_words)
            answers.append(answer)
            if is_wrong(*answer):
                wrong.append(name)
        tell(hours, answers, wrong)
        failed = failed or bool(wrong)
    sys.exit(1 if failed else 0)


if __name__ == '__main__':
    main()
