"""What two programs answer differently, and what this repository's answered."""
import collections
import contextlib
import importlib
import os
import signal
import sys
from pathlib import Path

# The stage of the independent program that has all that this repository's has.
STAGE = 'h'


def losses():
    """Which head losses texts are made with, by LOSSES in the environment: cm (where it isn't given), hw or mixed."""
    return os.environ.get('LOSSES', 'cm')


def modules_of(folder, *names):
    """Modules of the independent program, which stands in a folder."""
    if folder not in sys.path:
        sys.path.insert(0, folder)
    return [importlib.import_module(name) for name in names]


def give_up(*_):
    """Ends the other program's work on a text."""
    raise TimeoutError


@contextlib.contextmanager
def at_most(seconds):
    """What is done within it ends by a TimeoutError after so many seconds of processor time."""
    signal.signal(signal.SIGVTALRM, give_up)
    signal.setitimer(signal.ITIMER_VIRTUAL, seconds)
    try:
        yield
    finally:
        signal.setitimer(signal.ITIMER_VIRTUAL, 0)


def printed_by(done):
    """What a command printed. Behind it stands what it said on standard error, where that isn't as it should be: where all was
    done nothing, or one line on pressures below 0, else lines that begin by `hyd: `."""
    said = done.stderr
    is_of_pressures = said.startswith(b'hyd: pressures may be below 0: ') and said.count(b'\n') == 1
    fits = said.startswith(b'hyd: ') if done.returncode else not said or is_of_pressures
    return done.stdout if fits else done.stdout + done.stderr


def tell(texts, want, got):
    """Prints the shortest texts whose answers differ and how often each cause came; gives the exit status."""
    count = len(texts)
    wrong = sorted((k for k in range(count) if want[k] != got[k]), key=lambda k: len(texts[k]))
    for k in wrong[:10]:
        print('text', k, 'expected', want[k], 'found', got[k])
        print(texts[k].decode('latin-1'))
    causes = collections.Counter(answer.split(' ', 1)[-1] for answer in want)
    print('%d texts, %d differ; cause and detail:' % (count, len(wrong)), dict(causes.most_common()))
    return 1 if wrong else 0


def keep(folder, seed, number, **parts):
    """Keeps what belongs to a trial as files, each by its ending."""
    base = Path(folder) / ('%s.%d' % (seed.replace('/', '_'), number))
    base.parent.mkdir(parents=True, exist_ok=True)
    for ending, data in parts.items():
        Path('%s.%s' % (base, ending)).write_bytes(data)
