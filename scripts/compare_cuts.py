#!/usr/bin/env python3
"""Compares answers with an independent program where small texts are cut off at each length and each byte is changed.

    scripts/compare_cuts.py OTHER [NAME ..]

OTHER is the folder of an independent program in Python, whose module `cli` runs and checks networks. For each of the small
networks below (those of these names, where some are given), the text is cut off at each length and run with `--tight`, and
each of its bytes is changed to ten others and run; the certificate of the whole network is cut off at each length and
checked, and each of its bytes is changed to ten others and checked. Printed bytes, exit status and, of runs, the
certificate must be the same; where rounds are spent (status 7) in one of the two, the other may differ, and another
junction may be named where the independent program says that it hangs on the order of raises. It says how many answers of
each kind came.

The program of this repository is built as compare_runs.py builds it; PROGRAM and JOBS in the environment are those of that
script. It stands outside the gate.
"""
import collections
import multiprocessing
import os
import sys
import tempfile
from pathlib import Path

import compare_checks
import compare_runs
from compare_runs import OTHER_SECONDS, SPENT, build, comparison, expected
from differences import STAGE, at_most, modules_of

BYTES = b'0159- \n.EMPUX;[\xff\x00'
CHOICES = 10
HEAD = '[OPTIONS]\nUNITS CMD\nHEADLOSS C-M\n'
NETWORKS = {
    'valve': HEAD + '[JUNCTIONS]\nJ 0 1000\n[RESERVOIRS]\nR 100\n[VALVES]\nV R J 304.8 TCV 100 0\n',
    'idle': HEAD + '[JUNCTIONS]\nJ 0 0\n[RESERVOIRS]\nR 100\n[VALVES]\nV R J 304.8 TCV 100 0\n',
    'tank': HEAD + '[TIMES]\nDURATION 2\n[JUNCTIONS]\nJ 0 100\n[RESERVOIRS]\nR 100\n[TANKS]\nT 90 5 0 10 200 0\n'
                   '[VALVES]\nV R J 304.8 TCV 100 0\nW J T 304.8 TCV 100 0\n',
    'rule': HEAD + '[TIMES]\nDURATION 2\n[RESERVOIRS]\nA 100\nB 90\n[PIPES]\nP A B 1000 300 0.01 0\n'
                   '[RULES]\nRULE K\nIF SYSTEM TIME >= 1\nTHEN PIPE P STATUS IS CLOSED\n',
}


# ---------------------------------------------------------------- changes

def cuts(data):
    """The data cut off at each length."""
    return [data[:length] for length in range(len(data))]


def changes(data):
    """The data with each byte changed to ten others."""
    out = []
    for place, byte in enumerate(data):
        others = [other for other in BYTES if other != byte][:CHOICES]
        out += [data[:place] + bytes([other]) + data[place + 1:] for other in others]
    return out


def jobs_of(cli, program, folder, name):
    """All that is tried with a network."""
    text = NETWORKS[name].encode()
    files = {'n.inp': text}
    cli.Tool(files, STAGE).call(['run', 'n.inp', 'n.cert'])
    cert = files['n.cert']
    tries = [('text cut off', one, None) for one in cuts(text)]
    tries += [('text changed', one, None) for one in changes(text)]
    tries += [('certificate cut off', text, one) for one in cuts(cert)]
    tries += [('certificate changed', text, one) for one in changes(cert)]
    return [(program, folder) + one for one in tries]


# ---------------------------------------------------------------- answers

def run_both(cli, program, text):
    """How the two runs of a text compare, and both answers."""
    words = ['--tight']
    want, have, notes = expected(cli, text, words), compare_runs.found(program, text, words), []
    if want is not None and want != have and SPENT not in (want[0], have[0]):
        want = expected(cli, text, words, notes)
    return comparison(words, want, have, notes), want, have


def check_both(cli, program, text, cert):
    """How the two checks of a certificate compare, and both answers."""
    want, have = compare_checks.wanted(cli, text, cert), compare_checks.got(program, text, cert)
    return 'same' if want == have else 'DIFFERENT', want, have


def compared(job):
    """What is tried, how its two answers compare, and both."""
    program, folder, what, text, cert = job
    cli, = modules_of(folder, 'cli')
    try:
        with at_most(OTHER_SECONDS):
            answers = run_both(cli, program, text) if cert is None else check_both(cli, program, text, cert)
    except TimeoutError:
        answers = 'left out', None, None
    return what, text, cert, answers


def kind(what, answers):
    """The kind of what is tried and of its answers."""
    how, want, _ = answers
    if want is None:
        return '%s: left out' % what
    last = compare_checks.kind(want)
    if last == 'REFUSED':
        last += ' cause ' + want[1].decode('latin-1').split()[4]
    return '%s: status %s, %s: %s' % (what, want[0], last, how)


def main():
    given = sys.argv[1:]
    if not given or not set(given[1:]) <= set(NETWORKS):
        sys.exit(__doc__)
    sys.path.insert(0, given[0])
    import cli
    kinds, wrong, count = collections.Counter(), [], 0
    with tempfile.TemporaryDirectory() as folder:
        program = Path(os.environ.get('PROGRAM', Path(folder) / 'program')).resolve()
        if not program.exists():
            build(program)
        jobs = [job for name in given[1:] or NETWORKS for job in jobs_of(cli, str(program), given[0], name)]
        with multiprocessing.Pool(int(os.environ.get('JOBS', '2'))) as pool:
            for what, text, cert, answers in pool.imap_unordered(compared, jobs, 16):
                count += 1
                kinds[kind(what, answers)] += 1
                if answers[0] == 'DIFFERENT':
                    wrong.append((what, text, cert or b'', answers))
    for what, text, cert, (_, want, have) in sorted(wrong, key=lambda one: len(one[1]) + len(one[2]))[:10]:
        compare_checks.tell(what, text, cert, want, have)
    print('%d tries, %d differ' % (count, len(wrong)))
    for name, many in sorted(kinds.items()):
        print(name, many)
    sys.exit(1 if wrong else 0)


if __name__ == '__main__':
    main()
