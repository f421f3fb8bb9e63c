#!/usr/bin/env python3
"""Compares checks of certificates with an independent program on random networks and changed certificates.

    scripts/compare_checks.py OTHER [COUNT [SEED]]

OTHER is the folder of an independent program in Python: its module `fuzz` makes texts and changes certificates, its module
`cli` runs and checks them. Each of COUNT networks (1,000 where it isn't given) with tanks, controls and rules over some
hours gets a certificate, of the independent program in half of the cases, else of this one, half of these without tight
vectors. The certificate as it is and eight changed ones are checked by both: heads moved by a tick or more, all vectors
widened, words changed, lines left out or doubled, cut off anywhere, one byte changed, records left out, doubled, put
elsewhere or given to another network, the END line moved forward. Each time the printed bytes and the exit status must be
the same. It says how many checks came to each last line. A network is left out whose run has more than 200 periods or on
which the other program spends more than a minute.

The program of this repository is built as compare_runs.py builds it; PROGRAM, KEEP and JOBS in the environment are those of
that script. It stands outside the gate.
"""
import collections
import multiprocessing
import os
import random
import re
import subprocess
import sys
import tempfile
from pathlib import Path

import compare_runs
from compare_runs import MOST_PERIODS, OTHER_SECONDS, SECONDS, build
from differences import STAGE, at_most, keep, losses, modules_of, printed_by

CHANGES = 8


# ---------------------------------------------------------------- certificates

def records_of(cert):
    """The header, the records and the END line of a certificate."""
    parts = re.split(rb'(?=PERIOD |END )', cert)
    return parts[0], [part for part in parts[1:] if part.startswith(b'PERIOD')], parts[-1]


def change_records(rng, cert, other):
    """A certificate whose records, header or END line are others: those of another certificate among them."""
    head, records, end = records_of(cert)
    how = rng.randrange(6)
    place = rng.randrange(len(records) + 1)
    if how == 0:
        return head + b''.join(records[:place]) + b'END %d STOPPED\n' % place
    if how == 1 and records:
        records[place - 1:place] = []
    elif how == 2 and records:
        records.insert(place, rng.choice(records))
    elif how == 3 and records:
        k = rng.randrange(len(records))
        words = records[k].split(b'\n', 1)[0].split(b' ')
        j = rng.randrange(1, 4)
        words[j] = b'%d' % max(0, int(words[j]) + rng.choice([-1, 1, 60, 3600]))
        records[k] = b' '.join(words) + b'\n' + records[k].split(b'\n', 1)[1]
    elif how == 4:
        head, _, _ = records_of(other)
    else:
        _, records, end = records_of(other)
    return head + b''.join(records) + end


def changed(fuzz, rng, cert, other):
    """A certificate with a change."""
    return change_records(rng, cert, other) if rng.randrange(3) == 0 else fuzz.change_certificate(rng, cert)


# ---------------------------------------------------------------- answers: status, printed bytes

def wanted(cli, text, cert):
    """The independent program's answer."""
    return cli.Tool({'n.inp': text, 'n.cert': cert}, STAGE).call(['check', 'n.inp', 'n.cert'])


def got(program, text, cert):
    """This repository's answer."""
    with tempfile.TemporaryDirectory() as folder:
        (Path(folder) / 'n.inp').write_bytes(text)
        (Path(folder) / 'n.cert').write_bytes(cert)
        try:
            done = subprocess.run([program, 'check', 'n.inp', 'n.cert'], cwd=folder, stdin=subprocess.DEVNULL,
                                  capture_output=True, timeout=SECONDS)
        except subprocess.TimeoutExpired:
            return 'no end in %d seconds' % SECONDS, b''
        return done.returncode, printed_by(done)


def certificate_of(cli, rng, program, text):
    """A certificate of a network and the number of its periods: of either program, of a run that stopped too."""
    if rng.randrange(2):
        files = {'n.inp': text}
        cli.Tool(files, STAGE, None, MOST_PERIODS).call(['run', 'n.inp', 'n.cert'])
        return files.get('n.cert')
    answer = compare_runs.found(program, text, ['--tight'] if rng.randrange(2) else [])
    return answer[2]


def certificates_of(cli, fuzz, rng, program, most):
    """A network with its certificate and changed ones behind it; none where it has none, or one of more periods than `most`."""
    text = fuzz.Maker(rng, True, losses()).make()
    cert = certificate_of(cli, rng, program, text)
    if cert is None or cert.count(b'PERIOD') > most:
        return text, None
    other = certificate_of(cli, rng, program, fuzz.Maker(rng, True, losses()).make()) or cert
    return text, [cert] + [changed(fuzz, rng, cert, other) for _ in range(CHANGES)]


def compared(job):
    """The checks of a seed's network: for each its certificate and both answers. None where it is left out."""
    program, folder, seed = job
    cli, fuzz = modules_of(folder, 'cli', 'fuzz')
    rng = random.Random(seed)
    try:
        with at_most(OTHER_SECONDS):
            text, certs = certificates_of(cli, fuzz, rng, program, MOST_PERIODS)
            if certs is None:
                return seed, text, None
            return seed, text, [(one, wanted(cli, text, one), got(program, text, one)) for one in certs]
    except (TimeoutError, cli.TooManyPeriods):
        return seed, text, None


# ---------------------------------------------------------------- what came

def kind(answer):
    """The kind of the last line of a report, without its numbers and names."""
    words = answer[1].decode('latin-1').splitlines()[-1].split()
    if words[:2] == ['BADCERT', 'line']:
        return 'BADCERT line ' + words[3]
    if words[:2] == ['BADCERT', 'period']:
        name = words[4:5] + (words[6:7] if words[4] == 'PINNED' else words[5:6]) if words[3] == 'FAILS' else []
        return ' '.join(['BADCERT period'] + words[3:4] + name)
    return words[0]


def tell(seed, text, cert, want, have):
    """Prints a check whose answers differ."""
    print('seed', seed, 'status expected', want[0], 'found', have[0])
    left, right = (answer[1].decode('latin-1').split('\n') + ['(end)'] for answer in (want, have))
    place = next((k for k, (a, b) in enumerate(zip(left, right)) if a != b), None)
    if place is not None:
        print('line %d expected: %s\n  found: %s' % (place + 1, left[place], right[place]))
    print(text.decode('latin-1') + cert.decode('latin-1'))


def main():
    given = sys.argv[1:]
    if not given:
        sys.exit(__doc__)
    count = int(given[1]) if len(given) > 1 else 1_000
    first = int(given[2]) if len(given) > 2 else 1
    kinds, wrong, checks, left_out = collections.Counter(), [], 0, 0
    with tempfile.TemporaryDirectory() as folder:
        program = Path(os.environ.get('PROGRAM', Path(folder) / 'program')).resolve()
        if not program.exists():
            build(program)
        jobs = [(str(program), given[0], '%d/%d' % (first, k)) for k in range(count)]
        with multiprocessing.Pool(int(os.environ.get('JOBS', '2'))) as pool:
            for seed, text, done in pool.imap_unordered(compared, jobs, 4):
                left_out += done is None
                for number, (cert, want, have) in enumerate(done or ()):
                    checks += 1
                    kinds['status %s %s%s' % (want[0], 'as it is: ' if number == 0 else '', kind(want))] += 1
                    if want != have:
                        wrong.append((seed, text, cert, want, have))
                        if 'KEEP' in os.environ:
                            keep(os.environ['KEEP'], seed, number, inp=text, cert=cert, want=want[1], got=have[1])
    for one in sorted(wrong, key=lambda one: len(one[1]) + len(one[2]))[:10]:
        tell(*one)
    print('%d networks, %d left out, %d checks, %d differ' % (count, left_out, checks, len(wrong)))
    for name, many in sorted(kinds.items()):
        print(name, many)
    sys.exit(1 if wrong else 0)


if __name__ == '__main__':
    main()
