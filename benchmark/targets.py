#!/usr/bin/env python3
"""How long `fire` and `closures` take, and what they answer.

    benchmark/targets.py PROGRAM closures SIZE [SEEDS]
    benchmark/targets.py PROGRAM fire SIZE [SEEDS]

PROGRAM is built as `bench.py build` builds it or by `scripts/compare_runs.py`. Of the generator's network and of each kind
of `networks.py`, SIZE junctions each and SEEDS of them (1), `closures` is asked with the middle of the pressures of the
first period less a tenth of their range, and `fire` at each junction (of more than 100, at 100 of them) with three quarters
of that junction's pressure. It prints the processor's seconds and how many edges or words of each kind came.
"""
import collections
import os
import re
import subprocess
import sys
import tempfile
from pathlib import Path

import networks

KINDS = ('generator', *networks.KINDS)


def ended(program, folder, *words):
    """The printed lines, and the processor's seconds."""
    before = os.times()
    done = subprocess.run([program, *words], cwd=folder, stdin=subprocess.DEVNULL, capture_output=True)
    after = os.times()
    seconds = after.children_user + after.children_system - before.children_user - before.children_system
    return done.stdout.decode().splitlines(), seconds


def pressures(program, folder):
    """The junctions' pressures in the first period, by their names."""
    found = {}
    for line in ended(program, folder, 'run', 'n.inp', 'n.cert')[0]:
        words = line.split()
        if words[0] == 'JUNCTION' and words[1] not in found:
            found[words[1]] = float(words[6])
    return found


def text_of(program, folder, kind, size, seed):
    """A network of a kind; the generator's is the program's own."""
    if kind == 'generator':
        ended(program, folder, 'gen', str(seed), str(size), 'n.inp', 'g.cert')
        return (Path(folder) / 'n.inp').read_text()
    return networks.network(kind, size, seed)


def closures(program, folder, there):
    """Seconds, and the words that came."""
    order = sorted(there.values())
    target = order[len(order) // 2] - (order[-1] - order[0]) / 10
    lines, seconds = ended(program, folder, 'closures', '--', 'n.inp', '%.4f' % target)
    words = collections.Counter(line.split()[2] for line in lines if line.startswith('JUNCTION'))
    pipes = sum(line.startswith('SHUT') for line in lines)
    words['SAFE'] = pipes * len(there) - sum(words.values())
    return seconds, '%d pipes, %s' % (pipes, dict(words))


def fires(program, folder, there):
    """Seconds of all, and the edges that came."""
    edges, seconds = collections.Counter(), 0.0
    for name, pressure in list(there.items())[:100]:
        lines, more = ended(program, folder, 'fire', '--', 'n.inp', name, '%.4f' % (pressure * 0.75))
        seconds += more
        edges.update('a number' if re.match(r'[-0-9]', edge) else edge for edge in lines[0].split()[2:])
    return seconds, '%d junctions, edges %s' % (min(len(there), 100), dict(edges))


def main():
    if len(sys.argv) < 4:
        sys.exit(__doc__)
    program, what, size = str(Path(sys.argv[1]).resolve()), sys.argv[2], int(sys.argv[3])
    seeds = int(sys.argv[4]) if len(sys.argv) > 4 else 1
    for kind in KINDS:
        for seed in range(1, seeds + 1):
            with tempfile.TemporaryDirectory() as folder:
                (Path(folder) / 'n.inp').write_text(text_of(program, folder, kind, size, seed))
                there = pressures(program, folder)
                if not there:
                    print(kind, seed, 'no certificate')
                    continue
                seconds, told = (closures if what == 'closures' else fires)(program, folder, there)
                print('%s %d: %.1f s, %s' % (kind, seed, seconds, told), flush=True)


if __name__ == '__main__':
    main()
