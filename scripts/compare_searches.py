#!/usr/bin/env python3
"""Tries searches for witnesses by an independent program, on random networks and changed certificates.

    scripts/compare_searches.py OTHER [COUNT [SEED]]

OTHER is the folder of an independent program in Python: its module `fuzz` makes texts and changes certificates, its module
`cli` runs and checks them, its module `reach` tries witnesses. Each of COUNT networks (1,000 where it isn't given) with
tanks, controls and rules over some hours gets a certificate as in compare_checks.py, also of runs that stopped. A witness of
the certificate as it is and of eight changed ones is sought by this program. The other one says which records are right:

- `WITNESS n`: it accepts the certificate with n records.
- `NOWITNESS period p`: it accepts the record of period p, and the middle candidate of that record isn't met behind the
  periods of OUT, which are in halves of ticks.
- a BADCERT line: it refuses the certificate with that line.

Each time OUT has as many periods as there are records before that, and the other program's `meet` says so of it. The status
must be that of the line. It says how many searches came to each answer, how many of the certificates of runs that finished
have a witness, and how many of them have one by the other program's simpler search. A network is left out whose run has more
than 60 periods or on which the other program spends more than a minute.

The program of this repository is built as compare_runs.py builds it; PROGRAM, KEEP and JOBS in the environment are those of
that script. It stands outside the gate.
"""
import collections
import multiprocessing
import os
import random
import subprocess
import sys
import tempfile
from pathlib import Path

from compare_checks import certificates_of
from compare_runs import OTHER_SECONDS, SECONDS, build
from differences import STAGE, at_most, keep, modules_of, printed_by

MOST_PERIODS = 60
HALVES = 2
# The versions of certificates that a search accepts.
VERSIONS = (1, 2, 3)
STATUSES = {'WITNESS': 0, 'NOWITNESS': 6, 'BADCERT': 9}


# ---------------------------------------------------------------- the answers

def sought(program, text, cert):
    """This repository's answer: status, printed bytes, and OUT."""
    with tempfile.TemporaryDirectory() as folder:
        (Path(folder) / 'n.inp').write_bytes(text)
        (Path(folder) / 'n.cert').write_bytes(cert)
        try:
            done = subprocess.run([program, 'witness', 'n.inp', 'n.cert', 'n.wit'], cwd=folder, stdin=subprocess.DEVNULL,
                                  capture_output=True, timeout=SECONDS)
        except subprocess.TimeoutExpired:
            return 'no end in %d seconds' % SECONDS, b'', b''
        out = Path(folder) / 'n.wit'
        return done.returncode, printed_by(done), out.read_bytes() if out.exists() else b''


def checked(cli, text, cert):
    """What the other program says of a certificate: the records that it accepts, the status and the last line."""
    tool, records = cli.Tool({'n.inp': text}, STAGE), []
    status, last = tool.accept_all(tool.project('n.inp'), cert, lambda period, part: records.append(period), VERSIONS)
    return records, status, ' '.join(str(word) for word in last)


def middle_is_met(reach, project, out, record):
    """Whether the middle candidate of a record is met behind the periods of a witness in halves of ticks."""
    reader, course = reach.WitReader(out, project), reach.Course(project, HALVES)
    for _ in range(record.number):
        course.meets(reader.next())
    vectors = record.vectors
    middle = course.middle(record.number, record.time, record.length, vectors[reach.MAIN, reach.LOWER],
                           vectors[reach.MAIN, reach.UPPER])
    try:
        course.meets(middle)
    except reach.Unmet:
        return False
    return True


def wrong_of(cli, reach, text, cert, answer):
    """What isn't so of an answer; None where all is."""
    status, printed, out = answer
    words = printed.decode('latin-1').split()
    if len(words) < 2 or printed.count(b'\n') != 1 or STATUSES.get(words[0]) != status:
        return 'no answer'
    records, checks, last = checked(cli, text, cert)
    periods = len(records)
    if words[0] == 'WITNESS' and (checks != 0 or words[1] != str(periods)):
        return 'the certificate isn\'t right, or has other records: ' + last
    if words[0] == 'BADCERT' and printed != last.encode('latin-1') + b'\n':
        return 'another refusal: ' + last
    if words[0] == 'NOWITNESS':
        periods = int(words[2])
        if periods >= len(records):
            return 'that record isn\'t right: ' + last
        if not out.startswith(b'HYDWIT 1 %d ' % HALVES):
            return 'not in halves of ticks'
        project = cli.Tool({'n.inp': text}, STAGE).project('n.inp')
        if middle_is_met(reach, project, out, records[periods]):
            return 'the middle candidate is met'
    tried = cli.Tool({'n.inp': text, 'n.wit': out}, STAGE).call(['meet', 'n.inp', 'n.wit'])
    return None if tried == (0, b'MEETS %d\n' % periods) else 'the witness isn\'t met: %s' % (tried,)


def finds(cli, text, cert):
    """Whether the other program's search finds a witness of a certificate."""
    return cli.Tool({'n.inp': text, 'n.cert': cert}, STAGE).call(['witness', 'n.inp', 'n.cert', 'n.wit'])[0] == 0


def compared(job):
    """The searches of a seed's network: for each its certificate, the answer and what isn't so, and at the first one whether
    its run finished and whether the other program finds a witness. None where it is left out."""
    program, folder, seed = job
    cli, fuzz, reach = modules_of(folder, 'cli', 'fuzz', 'reach')
    rng = random.Random(seed)
    try:
        with at_most(OTHER_SECONDS):
            text, certs = certificates_of(cli, fuzz, rng, program, MOST_PERIODS)
            if certs is None:
                return seed, text, None, None
            found = certs[0].rstrip().endswith(b'FINISHED'), finds(cli, text, certs[0])
            answers = [(one, sought(program, text, one)) for one in certs]
            return seed, text, found, [(one, have, wrong_of(cli, reach, text, one, have)) for one, have in answers]
    except (TimeoutError, cli.TooManyPeriods):
        return seed, text, None, None


# ---------------------------------------------------------------- what came

def kind(answer):
    """The kind of an answer, without its numbers and names, and the scale of OUT."""
    words = answer[1].decode('latin-1').split()
    scale = b' '.join(answer[2].split(b' ')[2:3]).decode('latin-1')
    return ' '.join(word for word in words[:2] if word.isalpha()) + ' in parts of 1/' + scale


def tell(seed, text, cert, have, wrong):
    """Prints a search whose answer isn't right."""
    print('seed', seed, have[:2], wrong)
    print(text.decode('latin-1') + cert.decode('latin-1') + have[2].decode('latin-1'))


def main():
    given = sys.argv[1:]
    if not given:
        sys.exit(__doc__)
    count = int(given[1]) if len(given) > 1 else 1_000
    first = int(given[2]) if len(given) > 2 else 1
    kinds, bad, searches, left_out = collections.Counter(), [], 0, 0
    finished, here, there = 0, 0, 0
    with tempfile.TemporaryDirectory() as folder:
        program = Path(os.environ.get('PROGRAM', Path(folder) / 'program')).resolve()
        if not program.exists():
            build(program)
        jobs = [(str(program), given[0], '%d/%d' % (first, k)) for k in range(count)]
        with multiprocessing.Pool(int(os.environ.get('JOBS', '2'))) as pool:
            for seed, text, found, done in pool.imap_unordered(compared, jobs, 4):
                left_out += done is None
                if found is not None and found[0]:
                    finished += 1
                    here += done[0][1][0] == 0
                    there += found[1]
                for number, (cert, have, wrong) in enumerate(done or ()):
                    searches += 1
                    kinds['status %s %s%s' % (have[0], 'as it is: ' if number == 0 else '', kind(have))] += 1
                    lost = number == 0 and found[1] and have[0] != 0
                    if wrong is not None or lost:
                        bad.append((seed, text, cert, have, wrong or 'the other program finds one'))
                    if 'KEEP' in os.environ and (wrong is not None or number == 0 and have[0] != 0):
                        keep(os.environ['KEEP'], seed, number, inp=text, cert=cert, got=have[1], wit=have[2])
    for one in sorted(bad, key=lambda one: len(one[1]) + len(one[2]))[:10]:
        tell(*one)
    print('%d networks, %d left out, %d searches, %d not right' % (count, left_out, searches, len(bad)))
    print('%d runs that finished, %d with a witness, %d by the other program' % (finished, here, there))
    for name, many in sorted(kinds.items()):
        print(name, many)
    sys.exit(1 if bad else 0)


if __name__ == '__main__':
    main()
