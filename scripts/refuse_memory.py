#!/usr/bin/env python3
"""Refuses each growth of memory in turn, and looks at what the program leaves.

    scripts/refuse_memory.py [NAME ..]

Each command below (those of these names, where some are given) is run again and again, the first time with its first growth
of memory refused, then with its second, until none is left to be refused. Each time the status must be 1, with nothing
printed and no file created or changed. Two other ends are counted apart: status 2 with the usage line alone, where the words
that the system gives can't be had as a whole, and the very end of the command where nothing is refused, where a growth can be
done without. It says how many growths of each kind a command has, and tells each that ended otherwise.

The program of this repository is built as compare_runs.py builds it, but for a linker that puts a counter of its own before
the two C functions of the kit by which memory grows; `rt try --fail-alloc N` does the same for one N, and builds anew for
each. PROGRAM=FILE in the environment names a program so built; where there is none yet, it is built and kept there. It stands
outside the gate.
"""
import collections
import os
import subprocess
import sys
import tempfile
from pathlib import Path

from compare_runs import SECONDS, build

REFUSED = b'growth refused\n'
SHIM = '''
extern char *getenv(const char *);
extern long strtol(const char *, char **, int);
extern long write(int, const void *, unsigned long);
extern void *__real_rattle_alloc(unsigned long, unsigned long, unsigned long, unsigned long);
extern void *__real_rattle_realloc(unsigned long, unsigned long, unsigned long, unsigned long);

static long calls;

static int refused(void) {
    char *text = getenv("REFUSED_GROWTH");
    if (!text || ++calls != strtol(text, 0, 10)) return 0;
    write(2, "growth refused\\n", 15);
    return 1;
}

void *__wrap_rattle_alloc(unsigned long a, unsigned long b, unsigned long c, unsigned long d) {
    return refused() ? 0 : __real_rattle_alloc(a, b, c, d);
}

void *__wrap_rattle_realloc(unsigned long a, unsigned long b, unsigned long c, unsigned long d) {
    return refused() ? 0 : __real_rattle_realloc(a, b, c, d);
}
'''
LINKER = '''#!/bin/bash
kit=%s
"$kit/toolchain/bin/clang" --target=x86_64-unknown-linux-gnu -O1 -fPIE -w -c SHIM -o shim.o &&
"$kit/toolchain/bin/ld.lld" "$@" shim.o --wrap=rattle_alloc --wrap=rattle_realloc && cp program %s
'''
HEAD = '[OPTIONS]\nUNITS CMD\nHEADLOSS C-M\n'
VALVE = HEAD + '[JUNCTIONS]\nJ 0 1000\n[RESERVOIRS]\nR 100\n[VALVES]\nV R J 304.8 TCV 100 0\n'
TOWN = HEAD + '''[TIMES]
DURATION 2
[PATTERNS]
1 1 0.5
[CURVES]
C 0 40
C 1000 30
C 2000 15
C 3000 0
D 0 0
D 5 500
D 10 2000
[JUNCTIONS]
J 0 100
K 0 100
[DEMANDS]
K 10
K 20 1
[EMITTERS]
J 1
[RESERVOIRS]
R 100
[TANKS]
T 90 5 0 10 200 0
S 80 5 0 10 0 0 D
[PIPES]
P R J 1000 300 0.012 0
Q J S 1000 300 0.012 0
[PUMPS]
U R K HEAD C
[VALVES]
W J T 304.8 TCV 100 0
X K J 304.8 TCV 100 0
[CONTROLS]
LINK X CLOSED AT TIME 1
[RULES]
RULE A
IF SYSTEM TIME >= 1
AND TANK T LEVEL > 1
THEN VALVE W STATUS IS CLOSED
'''
NAMES = ('n.inp', 'n.cert')
# The words of a command, the text of its network, and the words of the run that writes its certificate, if it has one.
COMMANDS = {
    'run': (['run', *NAMES, '--tight'], VALVE, None),
    'run of a town': (['run', *NAMES], TOWN, None),
    'run with a slack': (['run', *NAMES, '--slack', '60'], TOWN, None),
    'check': (['check', *NAMES], VALVE, ['run', *NAMES]),
    'check of a town': (['check', *NAMES], TOWN, ['run', *NAMES]),
    'check of a run with a slack': (['check', *NAMES], TOWN, ['run', *NAMES, '--slack', '60']),
    'gen': (['gen', '7', '1', *NAMES], None, None),
    'gen of 60 junctions': (['gen', '7', '60', *NAMES], None, None),
    'a refusal': (['run', *NAMES], '[JUNCTIONS]\nJ x\n', None),
    'no command': (['walk'], None, None),
}


# ---------------------------------------------------------------- runs

def run(program, words, folder, growth):
    """The status, what was printed, and what was said of a command whose growth of this number is refused (0: none)."""
    done = subprocess.run([program] + words, cwd=folder, stdin=subprocess.DEVNULL, capture_output=True, timeout=SECONDS,
                          env={**os.environ, 'REFUSED_GROWTH': str(growth)})
    return done.returncode, done.stdout, done.stderr


def files_in(folder):
    """The files of a folder."""
    return {path.name: path.read_bytes() for path in Path(folder).iterdir()}


def files_before(program, text, writing):
    """The files that a command finds."""
    files = {} if text is None else {'n.inp': text.encode()}
    if writing:
        files['n.cert'] = files_behind(program, writing, files)[3]['n.cert']
    return files


def files_behind(program, words, files, growth=0):
    """The status, what was printed and said, and the files behind a command."""
    with tempfile.TemporaryDirectory() as folder:
        for name, data in files.items():
            (Path(folder) / name).write_bytes(data)
        return run(program, words, folder, growth) + (files_in(folder),)


def kind(left, files, usual):
    """The kind of an end: status, what was printed and said, and the files."""
    status, printed, _, now = left
    if status == 1 and not printed and now == files:
        return 'status 1'
    if status == 2 and printed.startswith(b'USAGE ') and printed.count(b'\n') == 1 and now == files:
        return 'no words'
    return 'as usual' if (status, printed, now) == (usual[0], usual[1], usual[3]) else 'OTHERWISE'


def growths_of(program, name):
    """How many growths of each kind a command has, and the ends of those that ended otherwise."""
    words, text, writing = COMMANDS[name]
    files = files_before(program, text, writing)
    usual, kinds, others, growth = files_behind(program, words, files), collections.Counter(), [], 1
    while True:
        left = files_behind(program, words, files, growth)
        if REFUSED not in left[2]:
            return kinds, others
        found = kind(left, files, usual)
        kinds[found] += 1
        if found == 'OTHERWISE':
            others.append((growth, left[0], left[1], left[2].replace(REFUSED, b''), sorted(set(left[3]) - set(files))))
        growth += 1


def main():
    names = sys.argv[1:] or list(COMMANDS)
    if not set(names) <= set(COMMANDS):
        sys.exit(__doc__)
    wrong = 0
    with tempfile.TemporaryDirectory() as folder:
        program = Path(os.environ.get('PROGRAM', Path(folder) / 'program')).resolve()
        if not program.exists():
            shim = Path(folder) / 'shim.c'
            shim.write_text(SHIM)
            build(program, LINKER.replace('SHIM', str(shim)))
        for name in names:
            kinds, others = growths_of(str(program), name)
            wrong += len(others)
            print('%s: %d growths: %s' % (name, sum(kinds.values()), dict(sorted(kinds.items()))), flush=True)
            for growth, *left in others:
                print('    growth %d: status %d, printed %r, said %r, created %s' % (growth, *left))
    sys.exit(1 if wrong else 0)


if __name__ == '__main__':
    main()
