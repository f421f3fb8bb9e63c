#!/usr/bin/env python3
"""Compares the head intervals of runs with tight vectors and without, and prints a table.

    benchmark/widths.py PROGRAM [SIZE ..]

Two networks of each kind of networks.py, and the generator's grid without its tank, with so many junctions (30, 100, 300) are run by
PROGRAM, the program `hyd`, with `--tight` and without, at most 200 rounds for each vector. Of each network that has a certificate
both ways, it tells the median and the greatest width of its head intervals, in metres; of the others, the statuses. Where PROGRAM
isn't there, it is built as scripts/compare_runs.py builds it. It stands outside the gate.
"""
import statistics
import subprocess
import sys
import tempfile
from pathlib import Path

import networks

sys.path.insert(0, str(Path(__file__).resolve().parent.parent / 'scripts'))
from compare_runs import HEAD_TICKS, build

COLUMNS = ['network', 'junctions', 'tight: median', 'greatest', 'without: median', 'greatest']
SEEDS = (1, 2)


def widths(program, text, *words):
    """The status of a run, and the widths of its head intervals in metres."""
    with tempfile.TemporaryDirectory() as place:
        folder = Path(place)
        (folder / 'n.inp').write_text(text)
        done = subprocess.run([program, 'run', 'n.inp', 'n.cert', *words], cwd=folder, stdin=subprocess.DEVNULL,
                              capture_output=True)
        rows = [row.split() for row in (folder / 'n.cert').read_text().splitlines()]
    upper, lower = ([int(row[1]) for row in rows if row[0] == side] for side in ('MU', 'ML'))
    return done.returncode, [(one - other) / HEAD_TICKS for one, other in zip(upper, lower)]


def tell(program, name, size, text):
    """Prints the row of a network."""
    runs = [widths(program, text, '--tight'), widths(program, text)]
    cells = [cell for status, found in runs for cell in (
        ('%.1e' % statistics.median(found), '%.1e' % max(found)) if status == 0 else ('status %d' % status, ''))]
    print('| %s | %d | %s |' % (name, size, ' | '.join(cells)), flush=True)


def main():
    if len(sys.argv) < 2:
        sys.exit(__doc__)
    program = Path(sys.argv[1]).resolve()
    if not program.exists():
        build(program)
    print('| %s |\n|%s' % (' | '.join(COLUMNS), '---|' * len(COLUMNS)))
    for size in [int(word) for word in sys.argv[2:]] or [30, 100, 300]:
        tell(str(program), 'generator', size, networks.generated(7, size))
        for kind in networks.KINDS:
            for seed in SEEDS:
                tell(str(program), '%s %d' % (kind, seed), size, networks.network(kind, size, seed))


if __name__ == '__main__':
    main()
