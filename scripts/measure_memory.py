#!/usr/bin/env python3
"""Measures the most memory that `run` and `check` take of a network at its limits, and prints a table.

    scripts/measure_memory.py [MIB]

The network has as many junctions, reservoirs, tanks, links, patterns, multipliers, curves, points, demand rows, controls, rules
and clauses as a text may have, and most of its names have 31 bytes. It is run and checked as it is, and behind as many rows that
repeat an emitter as fill MIB mebibytes (64, the longest text that is read, where it isn't given). A demand of its first period is
too great, so that both end there, behind all that takes memory: the check when it has read a record.

The program of this repository is built as compare_runs.py builds it, with its checks at run time; PROGRAM=FILE in the
environment names one that is built. It stands outside the gate.
"""
import multiprocessing
import os
import sys
import tempfile
from pathlib import Path

from compare_runs import build
from time_texts import HEAD, MEBIBYTE, alike, filled, timed

SIDE = 100
TANKS = 32
RESERVOIRS = 1_000
# The links that a grid of pipes leaves behind the tanks'.
FED = 20_000 - 2 * SIDE * (SIDE - 1) - TANKS
COLUMNS = 'text | MiB | command | seconds | processor, s | memory, MiB | status | last line'.split(' | ')


# ---------------------------------------------------------------- the network

def junction(k):
    return b'J' if k == 0 else alike(b'J', k)


def pipe(number, one, other):
    return b'%s %s %s 100 300 0.012 0\n' % (alike(b'P', number), one, other)


def pipes():
    """A grid of pipes, and those of the tanks and of some reservoirs."""
    pairs = [(k, k + 1) for k in range(SIDE * SIDE) if (k + 1) % SIDE]
    pairs += [(k, k + SIDE) for k in range(SIDE * (SIDE - 1))]
    ends = [(junction(one), junction(other)) for one, other in pairs]
    ends += [(junction(300 * k), alike(b'T', k)) for k in range(TANKS)]
    ends += [(junction(59 * k), alike(b'R', k)) for k in range(FED)]
    return b''.join(pipe(number, *pair) for number, pair in enumerate(ends))


def nodes():
    """Junctions, reservoirs and tanks."""
    return (b'[JUNCTIONS]\n' + b''.join(b'%s 0\n' % junction(k) for k in range(SIDE * SIDE))
            + b'[RESERVOIRS]\n' + b''.join(b'%s 60\n' % alike(b'R', k) for k in range(RESERVOIRS))
            + b'[TANKS]\n' + b''.join(b'%s 55 5 0 10 200 0\n' % alike(b'T', k) for k in range(TANKS)))


def tables():
    """Patterns and curves, and ten demands for each junction, one of them too great."""
    return (b'[PATTERNS]\n' + b''.join(alike(b'A', k) + b' 2' * 250 + b'\n' for k in range(1_000) for _ in range(4))
            + b'[CURVES]\n' + b''.join(b'%s %d 1\n' % (alike(b'C', k), n) for k in range(1_000) for n in range(100))
            + b'[DEMANDS]\n' + b''.join(b'%s 0.1\n' % junction(k) for k in range(SIDE * SIDE) for _ in range(10))[:-4]
            + b'100000000 %s\n' % alike(b'A', 0))


def commands():
    """Controls and rules, with ten clauses and actions each."""
    action = b'PIPE %s STATUS IS OPEN\n' % alike(b'P', 0)
    rule = b'IF SYSTEM TIME >= 1\n' + b'AND SYSTEM TIME >= 1\n' * 4 + b'THEN ' + action + (b'AND ' + action) * 4
    return (b'[CONTROLS]\n' + (b'LINK %s OPEN AT TIME 1\n' % alike(b'P', 0)) * 10_000
            + b'[RULES]\n' + b''.join(b'RULE %s\n' % alike(b'K', k) + rule for k in range(10_000)))


def network():
    return HEAD + nodes() + b'[PIPES]\n' + pipes() + tables() + commands()


def write(size, folder):
    """Writes the network, with emitters up to a size, and a certificate of one record."""
    text = network()
    if size:
        text = filled(text + b'[EMITTERS]\n', b'J 0\n', size)
    (folder / 'n.inp').write_bytes(text)
    heads = b''.join(b'%s%s 600000000000000\n' % (problem, side) * SIDE * SIDE
                     for problem in [b'M'] + [b'P'] * TANKS for side in (b'U', b'L'))
    (folder / 'given.cert').write_bytes(b'HYDCERT 1 %d %d\nPERIOD 0 0 0\n' % (SIDE * SIDE, TANKS) + heads + b'END 1 FINISHED\n')


# ---------------------------------------------------------------- its memory

def tell(program, name, size):
    """Prints the rows of a text. It is made in a process of its own, since a child counts its parent's memory as its own."""
    with tempfile.TemporaryDirectory() as place:
        folder = Path(place)
        maker = multiprocessing.Process(target=write, args=(size, folder))
        maker.start()
        maker.join()
        length = (folder / 'n.inp').stat().st_size / MEBIBYTE
        for command in ('run', 'check'):
            if command == 'check':
                (folder / 'given.cert').rename(folder / 'n.cert')
            row = name, length, command, *timed(program, folder, command)
            print('| %s | %.1f | %s | %.1f | %.1f | %.0f | %d | %s |' % row, flush=True)


def main():
    if len(sys.argv) > 2:
        sys.exit(__doc__)
    size = int(sys.argv[1]) * MEBIBYTE if len(sys.argv) == 2 else 64 * MEBIBYTE
    with tempfile.TemporaryDirectory() as folder:
        program = Path(os.environ.get('PROGRAM', Path(folder) / 'program')).resolve()
        if not program.exists():
            build(program)
        print('| %s |\n|%s' % (' | '.join(COLUMNS), '---|' * len(COLUMNS)))
        tell(str(program), 'every limit', 0)
        tell(str(program), 'the same, filled up', size)


if __name__ == '__main__':
    main()
