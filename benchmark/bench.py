#!/usr/bin/env python3
"""Times runs of networks of one period without tanks, and tells which of them finish.

    benchmark/bench.py build PROGRAM                    builds the program that is timed
    benchmark/bench.py sizes PROGRAM [SIZE ..]          grids of so many junctions (100, 1000, 2000, 10000), where the time goes
    benchmark/bench.py generated PROGRAM [SIZE ..]      networks of the generator with their tank (100, 2000, 10000): whether each
                                                        vector of the first period is proposed, those of the pinned tank too
    benchmark/bench.py kinds PROGRAM COUNT SIZE [SEED]  COUNT random networks of each kind of networks.py with SIZE junctions,
                                                        seeds from SEED on (1): how many finish without a round of raises
    benchmark/bench.py rounds PROGRAM COUNT SIZE [SEED] the same networks, with nothing proposed and 300 rounds for each vector
    benchmark/bench.py tight PROGRAM COUNT SIZE [SEED]  the same networks, with tight vectors and 200 rounds for each: how many finish

The program is main.txt over the crates of this repository, built without proofs: as `rt try` builds it, with its checks at run
time, but at clang's -O3 and without a sanitizer, by a folder of links to the kit in which clang is called so. The network of each
line is read, run and written in memory. Times are of the wall clock, the least of five runs; beside them stands the processor time
of the whole process, which other work on the machine disturbs less. It stands outside the gate.
"""
import resource
import shutil
import subprocess
import sys
import tempfile
from pathlib import Path

import networks

ROOT = Path(__file__).resolve().parent.parent
sys.path.insert(0, str(ROOT / 'scripts'))
from unproved import crates_below, links_to_kit

MAIN = ROOT / 'benchmark' / 'main.txt'
USES = ['hyd_cert', 'hyd_vector_check', 'hyd_period_network', 'hyd_inp', 'hyd_io', 'hyd_finders', 'hyd_report', 'hyd_sim',
        'hyd_spec_certificates']
TIMES = ['reading', 'ordering', 'opening', 'step', 'proposing', 'checking', 'writing']
FIELDS = ['outcome', 'passes', 'width', 'junctions', 'links'] + TIMES + ['bytes']
# Head intervals of a narrow record are at most 0.01 m wide, in head ticks.
NARROW = 10 ** 11
CLANG = '''#!/bin/bash
words=()
for word in "$@"; do
  case "$word" in
    -O0) words+=(-O3);;
    -fsanitize=address) ;;
    *) words+=("$word");;
  esac
done
exec %s/toolchain/bin/clang "${words[@]}"
'''


# ---------------------------------------------------------------- the program

def build(program, text=MAIN, uses=USES, modules=()):
    """Builds the program of this text, with these files as its modules, over these crates, and keeps it under this name."""
    program = Path(program).resolve()
    crates = crates_below(uses)
    with tempfile.TemporaryDirectory() as folder:
        top = Path(folder) / 'copy'
        for name in crates:
            shutil.copytree(ROOT / 'crates' / name, top / 'crates' / name,
                            ignore=shutil.ignore_patterns('out', 'proofs', 'must-fail'))
        crates['benchmark'] = uses
        main = top / 'crates' / 'benchmark' / 'src'
        main.mkdir(parents=True)
        shutil.copy(text, main / 'main.rt')
        for module in modules:
            shutil.copy(module, main)
        (top / 'crates.txt').write_text(''.join('%s: %s\n' % (name, ' '.join(below)) for name, below in crates.items()))
        subprocess.run(['git', 'init', '-q', str(top)], check=True)
        rt = links_to_kit(Path(folder) / 'kit', program, CLANG)
        done = subprocess.run([str(rt), 'try', '--steps', '1'], cwd=main.parent, input=b'', capture_output=True)
        if not program.exists():
            sys.exit(done.stderr.decode()[-3000:])


# ---------------------------------------------------------------- runs

def run(program, text, rounds, tight, none):
    """What the program tells of one network, with the processor time in microseconds: at most so many rounds for a vector,
    tight vectors or not, nothing proposed or not."""
    data = b'%d %d %d %d\n%s' % (rounds, tight, none, len(text), text.encode())
    before = resource.getrusage(resource.RUSAGE_CHILDREN)
    done = subprocess.run([program], input=data, capture_output=True)
    after = resource.getrusage(resource.RUSAGE_CHILDREN)
    words = done.stdout.decode().split()
    if done.returncode or len(words) != len(FIELDS):
        sys.exit('%s %s' % (done.returncode, done.stdout + done.stderr))
    out = dict(zip(FIELDS, words[:2] + [int(word) for word in words[2:]]))
    out['processor'] = 10 ** 6 * (after.ru_utime + after.ru_stime - before.ru_utime - before.ru_stime)
    return out


def least(program, text, count):
    """The same of several runs, with the least of each time."""
    runs = [run(program, text, 0, 0, 0) for _ in range(count)]
    out = dict(runs[0])
    for name in TIMES + ['processor']:
        out[name] = min(one[name] for one in runs)
    return out


def is_narrow(got):
    return got['outcome'] == 'done' and got['width'] <= NARROW


def serves(got, tight):
    """Whether the run finishes, with a narrow record where the vectors aren't tight."""
    return got['outcome'] == 'done' if tight else is_narrow(got)


# ---------------------------------------------------------------- tables

def tell_sizes(program, sizes):
    names = ['reading', 'ordering', 'opening', 'proposing', 'checking', 'rest of the step', 'writing', 'processor']
    print('| junctions | ' + ' | '.join(names) + ' | width, ticks |')
    for size in sizes:
        got = least(program, networks.generated(7, size), 5)
        got['rest of the step'] = got['step'] - got['proposing'] - got['checking']
        print('| %d | %s | %.2g |%s' % (size, ' | '.join('%.1f' % (got[name] / 1000) for name in names), got['width'],
                                         '' if is_narrow(got) else ' not narrow'))


def tell_generated(program, sizes):
    for size in sizes:
        got = run(program, networks.generated(7, size, tank=True), 0, 0, 0)
        print('| %d | %s | %.2g | %.1f |' % (size, 'all proposed' if got['outcome'] == 'done' else got['outcome'],
                                             got['width'], got['processor'] / 1000))


def tell_kinds(program, count, size, seed, rounds, tight, none):
    for kind in networks.KINDS:
        got = [(k, run(program, networks.network(kind, size, k), rounds, tight, none)) for k in range(seed, seed + count)]
        done = [answer for _, answer in got if serves(answer, tight)]
        widths = sorted(answer['width'] for answer in done) or [0]
        times = sorted(answer['processor'] for _, answer in got)
        print('| %s | %d of %d | %.2g | %.2g | %.1f | %.1f |' % (
            kind, len(done), count, widths[len(widths) // 2], widths[-1], times[count // 2] / 1000, times[-1] / 1000))
        for k, answer in got:
            if not serves(answer, tight):
                width = answer['width'] if answer['passes'] == 'true' else 0
                print('    %s %d: %s, width %.2g' % (kind, k, answer['outcome'], width))


def main():
    words = sys.argv[1:]
    if len(words) == 2 and words[0] == 'build':
        build(words[1])
    elif len(words) >= 2 and words[0] == 'sizes':
        tell_sizes(words[1], [int(word) for word in words[2:]] or [100, 1000, 2000, 10000])
    elif len(words) >= 2 and words[0] == 'generated':
        tell_generated(words[1], [int(word) for word in words[2:]] or [100, 2000, 10000])
    elif len(words) in (4, 5) and words[0] in ('kinds', 'rounds', 'tight'):
        rounds, tight, none = {'kinds': (0, 0, 0), 'rounds': (300, 0, 1), 'tight': (200, 1, 0)}[words[0]]
        tell_kinds(words[1], int(words[2]), int(words[3]), int(words[4]) if len(words) == 5 else 1, rounds, tight, none)
    else:
        sys.exit(__doc__)


if __name__ == '__main__':
    main()
