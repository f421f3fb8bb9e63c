#!/usr/bin/env python3
"""Times the reading of the longest texts that are worst of their kind, and prints a table.

    scripts/time_texts.py [MIB [NAME ..]]

Each text has at most MIB mebibytes (64, the longest text that is read, where it isn't given), and as many rows as the limits
allow where a limit comes first, or one more. It is read by `check` with an empty certificate, so nothing is simulated: the
answer is `REFUSED ..` with status 5, or `BADCERT line 1 GRAMMAR` with status 9 where the network stands. With NAMEs only
those texts are timed. Other work on the machine disturbs the processor time less than the clock's; a text that takes more than
600 seconds is given up.

The program of this repository is built as compare_runs.py builds it, with its checks at run time; PROGRAM=FILE in the
environment names one that is built. It stands outside the gate.
"""
import multiprocessing
import os
import subprocess
import sys
import tempfile
import threading
import time
from pathlib import Path

from compare_runs import build

SECONDS = 600
MEBIBYTE = 2 ** 20
HEAD = b'[OPTIONS]\nUNITS CMD\nHEADLOSS C-M\n'
NODES = b'[JUNCTIONS]\nJ 0 1\n[RESERVOIRS]\nR 100\n'
LINKS = b'[PIPES]\nP R J 1000 300 0.012 0\n'
SMALL = HEAD + NODES + LINKS


# ---------------------------------------------------------------- parts

def filled(front, line, size, back=b''):
    """A line as often as it fits between a front and a back."""
    return front + line * ((size - len(front) - len(back)) // len(line)) + back


def rows(form, count):
    """So many rows of a form with their number."""
    return b''.join(form % k for k in range(1, count + 1))


def alike(prefix, number):
    """A name of 31 bytes that differs from others of its kind at its end alone."""
    return prefix + b'x' * 24 + b'%06d' % number


def chain(name):
    """10,000 junctions and 20,000 pipes of these names, in two strings along a row."""
    ids = [name(b'J', k) for k in range(10_000)]
    nodes = b''.join(b'%s 0 1\n' % one for one in ids)
    ends = [b'R'] + ids
    pipes = b''.join(b'%s %s %s 100 300 0.012 0\n' % (name(b'P', k), ends[k // 2], ends[k // 2 + 1]) for k in range(20_000))
    return HEAD + b'[PIPES]\n' + pipes + b'[RESERVOIRS]\nR 100\n[JUNCTIONS]\n' + nodes


# ---------------------------------------------------------------- texts

def multiplier_lines(size):
    return SMALL + b'[PATTERNS]\n' + b''.join(rows(b'Q%d 1\n', 1_000) for _ in range(1_000))


def long_multiplier_lines(size):
    return SMALL + b'[PATTERNS]\n' + (b'Q' + b' 1' * 500 + b'\n') * 2_000


def clauses(size):
    lines = b'RULE K\nIF SYSTEM TIME >= 1\n' + b'AND TANK T LEVEL > 1\nOR NODE J HEAD > 1\n' * 49_999 + b'THEN PIPE P STATUS IS OPEN\n'
    return SMALL + b'[TANKS]\nT 0 5 0 10 20 0\n[RULES]\n' + lines


def actions(size):
    lines = b'IF SYSTEM TIME >= 1\nTHEN PIPE P STATUS IS OPEN\nELSE PIPE P STATUS IS CLOSED\n'
    return SMALL + b'[RULES]\n' + b''.join(b'RULE K%d\n' % k + lines for k in range(10_000))


TEXTS = {
    'one line of spaces': lambda size: b' ' * size,
    'one line of a comment': lambda size: b';' * size,
    'one byte a line': lambda size: filled(SMALL, b';\n', size),
    'no byte a line': lambda size: filled(b'', b'\n', size, SMALL),
    'lines of 1,024 bytes': lambda size: filled(SMALL, b';' * 1_024 + b'\n', size),
    'lines of 500 words': lambda size: filled(SMALL + b'[TITLE]\n', b'a ' * 500 + b'\n', size),
    'headings': lambda size: filled(SMALL, b'[PIPES]\n', size),
    'a title': lambda size: filled(SMALL + b'[TITLE]\n', b'a\n', size),
    'behind the end': lambda size: filled(SMALL + b'[END]\n', b'[\n', size),
    'one option': lambda size: filled(SMALL + b'[OPTIONS]\n', b'MAP x\n', size),
    'one time': lambda size: filled(SMALL + b'[TIMES]\n', b'DURATION 1\n', size),
    'one status': lambda size: filled(SMALL + b'[STATUS]\n', b'P OPEN\n', size),
    'one emitter': lambda size: filled(SMALL + b'[EMITTERS]\n', b'J 1\n', size),
    'statuses of a name that nothing has': lambda size: filled(SMALL + b'[STATUS]\n', b'Q OPEN\n', size),
    '100,000 demand rows of one junction': lambda size: SMALL + b'[DEMANDS]\n' + b'J 0.0001\n' * 100_000,
    'demand rows': lambda size: filled(SMALL + b'[DEMANDS]\n', b'J 1\n', size),
    'a million patterns': lambda size: SMALL + b'[PATTERNS]\n' + rows(b'Q%d 1\n', 1_000_000),
    'a million multipliers, one a line': multiplier_lines,
    'a million multipliers of one pattern': long_multiplier_lines,
    'multipliers of one pattern': lambda size: filled(SMALL + b'[PATTERNS]\n', b'Q 1\n', size),
    '100,000 points of one curve': lambda size: SMALL + b'[CURVES]\n' + rows(b'C %d 1\n', 100_000),
    'a pump with 100,000 points': lambda size: SMALL + b'[CURVES]\n'
        + b''.join(b'C %d %.2f\n' % (k, 1_000 - k / 100) for k in range(100_000)) + b'[PUMPS]\nU R J HEAD C\n',
    'points of one curve': lambda size: filled(SMALL + b'[CURVES]\n', b'C 1 1\n', size),
    'one rule of 100,000 clauses': clauses,
    '10,000 rules': actions,
    '10,000 controls': lambda size: SMALL + b'[CONTROLS]\n' + b'PIPE P OPEN AT TIME 1\n' * 10_000,
    'controls': lambda size: filled(SMALL + b'[CONTROLS]\n', b'LINK P OPEN AT TIME 1\n', size),
    'junctions': lambda size: HEAD + b'[JUNCTIONS]\n' + rows(b'J%d 0\n', size // 12),
    '10,000 junctions and 20,000 pipes': lambda size: chain(lambda kind, k: kind + b'%d' % k),
    'the same, of names that are alike': lambda size: chain(alike),
    '20,000 pipes between two nodes': lambda size: SMALL + rows(b'Q%d R J 1000 300 0.012 0\n', 19_999),
    'numbers of 1,000 digits': lambda size: filled(SMALL + b'[EMITTERS]\n', b'J 0.' + b'1' * 1_000 + b'\n', size),
}


# ---------------------------------------------------------------- times

def write(name, size, path):
    """Writes a text."""
    Path(path).write_bytes(TEXTS[name](size))


def lines_of(path):
    """How many lines a file has."""
    with open(path, 'rb') as text:
        return sum(block.count(b'\n') for block in iter(lambda: text.read(MEBIBYTE), b''))


def timed(program, folder, command='check'):
    """The seconds of the clock and of the processor, the most memory in MiB, the status and the last line of a command."""
    with open(folder / 'out', 'wb') as out:
        before = time.monotonic()
        child = subprocess.Popen([program, command, 'n.inp', 'n.cert'], cwd=folder, stdin=subprocess.DEVNULL,
                                 stdout=out, stderr=out)
        limit = threading.Timer(SECONDS, child.kill)
        limit.start()
        _, state, used = os.wait4(child.pid, 0)
        limit.cancel()
    clock = time.monotonic() - before
    last = ' '.join((folder / 'out').read_bytes().decode('latin-1').splitlines()[-1:])
    return clock, used.ru_utime + used.ru_stime, used.ru_maxrss / 1024, os.waitstatus_to_exitcode(state), last


def tell(program, name, size):
    """Prints the row of a text. It is made in a process of its own, since a child counts its parent's memory as its own."""
    with tempfile.TemporaryDirectory() as place:
        folder = Path(place)
        (folder / 'n.cert').write_bytes(b'')
        maker = multiprocessing.Process(target=write, args=(name, size, folder / 'n.inp'))
        maker.start()
        maker.join()
        measured = timed(program, folder)
        length = (folder / 'n.inp').stat().st_size / MEBIBYTE
        print('| %s | %.1f | %d | %.1f | %.1f | %.0f | %d | %s |' % (
            name, length, lines_of(folder / 'n.inp'), *measured), flush=True)


def main():
    given = sys.argv[1:]
    size = int(given[0]) * MEBIBYTE if given else 64 * MEBIBYTE
    names = given[1:] or list(TEXTS)
    if not set(names) <= set(TEXTS):
        sys.exit(__doc__)
    with tempfile.TemporaryDirectory() as folder:
        program = Path(os.environ.get('PROGRAM', Path(folder) / 'program')).resolve()
        if not program.exists():
            build(program)
        print('| text | MiB | lines | seconds | processor, s | memory, MiB | status | last line |\n|' + '---|' * 8)
        for name in names:
            tell(str(program), name, size)


if __name__ == '__main__':
    main()
