#!/usr/bin/env python3
"""Tries the program with standard output going into files: none is lost by it.

    scripts/try_redirections.py PROGRAM

PROGRAM is what `hyd` is (its words are parted as the shell parts them). Each command of REFUSED has its standard
output going into a file that it was to read or to write: it must fail with its status and its line on standard error,
and leave all files as they were. One more command has its standard output going into a file of its own, and must
write what it writes anywhere. It says what failed, and ends with status 1 where something did. A program of the
repository may not start another one, so these trials stand outside the gate.
"""
import shlex
import subprocess
import sys
import tempfile
from pathlib import Path

SECONDS = 600

# A network of one junction, and what a run writes and prints of it.
NETWORK = 'net.inp'
NETWORK_TEXT = ('[OPTIONS]\nUNITS CMD\nHEADLOSS C-M\n[JUNCTIONS]\nJ 0 1000\n[RESERVOIRS]\nR 100\n'
                '[VALVES]\nV R J 304.8 TCV 100 0\n')
CERTIFICATE_TEXT = 'HYDCERT 1 1 0\nPERIOD 0 0 0\nMU 998718316144933\nML 998718316123912\nEND 1 FINISHED\n'
REPORT_TEXT = ('HYD 1\nTIME 0:00:00\n'
               'JUNCTION J head 99.8718 99.8719 pressure 99.8718 99.8719 outflow 999.9999 1000.0001\n'
               'RESERVOIR R head 100.0000 100.0000\nLINK V flow 999.9999 1000.0001 status ACTIVE\nDONE 1\n')

# A file that lies there before each trial, and its text: an old certificate.
OLD = 'old.cert'
OLD_TEXT = 'HYDCERT 1 1 0\nEND 0 STOPPED\n'

# Files that lie there after some trials.
OUT = 'out.tmp'
MADE = 'made.cert'

# How standard output goes into its file: into one that is emptied before, as by `>`, or behind what it holds, as by
# `>>`.
EMPTIED = 'wb'
KEPT = 'ab'

CREATED = "hyd: %s: can't be created: standard output goes there\n"
OPENED = "hyd: %s: can't be opened: standard output goes there\n"

# Words, the file into which standard output goes and how, the status, and what is said.
REFUSED = [
    (['run', NETWORK, OUT], OUT, EMPTIED, 4, CREATED % OUT),
    (['run', NETWORK, '/dev/stdout'], OUT, EMPTIED, 4, CREATED % '/dev/stdout'),
    (['run', NETWORK, 'folder/../old.cert'], OLD, KEPT, 4, CREATED % 'folder/../old.cert'),
    (['gen', '7', '5', OUT, MADE], OUT, EMPTIED, 4, CREATED % OUT),
    (['gen', '7', '5', OLD, MADE], OLD, KEPT, 4, CREATED % OLD),
    (['gen', '7', '5', 'generated.inp', OLD], OLD, KEPT, 4, CREATED % OLD),
    (['run', NETWORK, MADE], NETWORK, KEPT, 3, OPENED % NETWORK),
    (['check', NETWORK, OLD], NETWORK, KEPT, 3, OPENED % NETWORK),
    (['check', NETWORK, OLD], OLD, KEPT, 3, OPENED % OLD),
]


def ends(program, folder, words, output, how):
    """Lays the files that a trial begins with, runs a command, and gives its status and what it said."""
    (folder / NETWORK).write_text(NETWORK_TEXT)
    (folder / OLD).write_text(OLD_TEXT)
    with open(folder / output, how) as file:
        ran = subprocess.run([*program, *words], cwd=folder, stdin=subprocess.DEVNULL, stdout=file,
                             stderr=subprocess.PIPE, timeout=SECONDS)
    return ran.returncode, ran.stderr.decode(errors='replace')


def differences(folder, texts):
    """Gives the names of files that hold something else than these texts."""
    return [name for name, text in texts.items() if (folder / name).read_bytes() != text.encode()]


def trials(program, folder):
    """Gives of each trial its words, the file into which its output went, and what is wrong with it, if anything."""
    for words, output, how, status, error in REFUSED:
        ended = ends(program, folder, words, output, how)
        texts = {NETWORK: NETWORK_TEXT, OLD: OLD_TEXT, **({output: ''} if how == EMPTIED else {})}
        wrong = [f'{name} was changed' for name in differences(folder, texts)]
        wrong += [] if ended == (status, error) else [f'status {ended[0]}, {ended[1]!r}']
        wrong += [f'{MADE} was created'] if (folder / MADE).exists() else []
        yield words, output, wrong
    words = ['run', NETWORK, OLD, '--tight']
    ended = ends(program, folder, words, OUT, EMPTIED)
    wrong = [f'{name} holds something else' for name in
             differences(folder, {NETWORK: NETWORK_TEXT, OLD: CERTIFICATE_TEXT, OUT: REPORT_TEXT})]
    wrong += [] if ended == (0, '') else [f'status {ended[0]}, {ended[1]!r}']
    yield words, OUT, wrong


def main(words):
    if len(words) != 1:
        print(__doc__.strip(), file=sys.stderr)
        return 2
    program = shlex.split(words[0])
    if Path(program[0]).exists():
        program[0] = str(Path(program[0]).resolve())
    failed = 0
    with tempfile.TemporaryDirectory() as room:
        folder = Path(room)
        (folder / 'folder').mkdir()
        for count, (words, output, wrong) in enumerate(trials(program, folder), 1):
            failed += bool(wrong)
            for what in wrong:
                print(f'{" ".join(words)} > {output}: {what}')
    print(f'{count - failed} of {count} trials passed')
    return 1 if failed else 0


if __name__ == '__main__':
    sys.exit(main(sys.argv[1:]))
