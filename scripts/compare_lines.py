#!/usr/bin/env python3
"""Compares the reader's lines, options, times, controls and rules with an independent reader on mutated texts.

    scripts/compare_lines.py READER [COUNT [SEED]]

READER is the folder of an independent reader in Python, whose module `reader` has `lex`, `Judge` and `Fault`. COUNT texts (5,000
where it isn't given) are made from one text that has every section, by changes of words, bytes and lines. For each, the first line
that is wrong by itself, as far as those parts decide it, must be the same with its cause. The program that answers for this
repository is built from compare_lines_main.txt in a folder of its own, without proofs; it stands outside the gate.
"""
import random
import shutil
import subprocess
import sys
import tempfile
from pathlib import Path

import differences

ROOT = Path(__file__).resolve().parent.parent
CRATES = {
    'hyd_num': 'thiserror',
    'hyd_net': 'hyd_num indexmap',
    'hyd_spec_lines': '',
    'hyd_lex': 'hyd_spec_lines',
    'hyd_spec': 'hyd_net hyd_num',
    'hyd_spec_input': 'hyd_net hyd_num hyd_spec hyd_spec_lines',
    'hyd_option_and_rule_lines': 'hyd_lex hyd_net hyd_num hyd_spec_input hyd_spec_lines',
    'compare_lines': 'hyd_lex hyd_net hyd_option_and_rule_lines',
}
TEXT = (ROOT / 'scripts' / 'compare_lines_text.inp').read_text()
WORDS = (ROOT / 'scripts' / 'compare_lines_words.txt').read_text().split()
BYTES = '0123456789.:-+eE;[]xX \t~\x7f\xc8\r'


def is_number_like(word):
    return word[0] in '0123456789+-.'


def change_line(rng, lines):
    """One change of one line: a word replaced, mostly by one of its sort, taken out or put in, a byte, the line itself."""
    k = rng.randrange(len(lines))
    words = lines[k].split()
    how = rng.randrange(12)
    if words and rng.randrange(3):
        place = rng.randrange(len(words))
        words[place] = rng.choice([word for word in WORDS if is_number_like(word) == is_number_like(words[place])])
        lines[k] = ' '.join(words)
    elif how <= 5 and words:
        words[rng.randrange(len(words))] = rng.choice(WORDS)
        lines[k] = ' '.join(words)
    elif how == 6 and words:
        del words[rng.randrange(len(words))]
        lines[k] = ' '.join(words)
    elif how == 7:
        words.insert(rng.randrange(len(words) + 1), rng.choice(WORDS))
        lines[k] = '\t'.join(words)
    elif how == 8:
        del lines[k]
    elif how == 9:
        lines.insert(rng.randrange(len(lines)), lines[k])
    elif how == 10:
        other = rng.randrange(len(lines))
        lines[other], lines[k] = lines[k], lines[other]
    elif lines[k]:
        place = rng.randrange(len(lines[k]))
        lines[k] = lines[k][:place] + rng.choice(BYTES) + lines[k][place + 1:]


def mutated(rng):
    lines = TEXT.split('\n')
    for _ in range(rng.choice([1, 1, 1, 2])):
        change_line(rng, lines)
    if rng.randrange(50) == 0:
        lines.insert(rng.randrange(len(lines)), ' ' * rng.choice([1023, 1024, 1025]))
    return rng.choice(['\n', '\r\n']).join(lines).encode('latin-1')


def expected(reader, judge, text):
    """The first fault of the independent reader, by the same parts."""
    acting = False
    for line in reader.lex(text):
        try:
            if line.fault:
                raise line.fault
            if line.section in ('OPTIONS', 'TIMES', 'CONTROLS', 'RULES'):
                row = judge.row(line.section, line.words, acting)
                if line.section == 'RULES' and row.key in ('RULE', 'THEN', 'ELSE'):
                    acting = row.key != 'RULE'
        except reader.Fault as fault:
            return '%d %d %d' % (line.number, fault.cause, fault.detail)
    return 'none'


def answers(texts):
    """What this repository's program prints of each text."""
    with tempfile.TemporaryDirectory() as folder:
        top = Path(folder)
        for name in CRATES:
            if name != 'compare_lines':
                shutil.copytree(ROOT / 'crates' / name, top / 'crates' / name, ignore=shutil.ignore_patterns('out'))
        main = top / 'crates' / 'compare_lines' / 'src'
        main.mkdir(parents=True)
        shutil.copy(ROOT / 'scripts' / 'compare_lines_main.txt', main / 'main.rt')
        (top / 'crates.txt').write_text(''.join('%s: %s\n' % item for item in CRATES.items()))
        subprocess.run(['git', 'init', '-q', folder], check=True)
        done = subprocess.run(['rt', 'try', '--seconds', '600'], cwd=main.parent, input=b'\0'.join(texts), capture_output=True)
        if done.returncode:
            sys.exit(done.stderr.decode() + done.stdout.decode()[-2000:])
        return done.stdout.decode().split('\n')[:len(texts)]


def main():
    if len(sys.argv) < 2:
        sys.exit(__doc__)
    sys.path.insert(0, sys.argv[1])
    import reader
    count = int(sys.argv[2]) if len(sys.argv) > 2 else 5000
    rng = random.Random(int(sys.argv[3]) if len(sys.argv) > 3 else 1)
    judge = reader.Judge(differences.STAGE, None)
    texts = [mutated(rng) for _ in range(count)]
    want = [expected(reader, judge, text) for text in texts]
    got = answers(texts)
    sys.exit(differences.tell(texts, want, got))


if __name__ == '__main__':
    main()
