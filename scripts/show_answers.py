#!/usr/bin/env python3
"""show_answers.py PROGRAM [--said]: shows each cause, part, limit, stop and refusal once.

Each case is a small network and a command; what the program must answer stands with it, and of some what its sentence
has. Behind the last line that it prints stands what it says on standard error. Status 1 where an answer isn't the one
that is expected or, with --said, where nothing is said of it or something else. Outside the gate, since a program of the
gate can't start another one.
"""

import pathlib
import subprocess
import sys
import tempfile

ROOT = pathlib.Path(__file__).resolve().parent.parent
STORED = ROOT / "crates/hyd_stored_runs/data"

BASE = """[OPTIONS]
UNITS CMD
HEADLOSS C-M
[JUNCTIONS]
J 0 1000
[RESERVOIRS]
R 100
[TANKS]
T 90 2 0 5 20
[CURVES]
C 1000 30
[PIPES]
P R J 1000 300 0.012
[PUMPS]
U R T HEAD C
[VALVES]
V R J 300 TCV 10 0
"""


HAZEN_WILLIAMS = """[JUNCTIONS]
J 0 1000
[RESERVOIRS]
R 100
[PIPES]
P R J 1000 300 10001
[COORDINATES]
J 1 1
[OPTIONS]
HEADLOSS H-W
"""


def added(section, *rows):
    """The base with rows behind the heading of a section, which is made where it lacks."""
    heading = f"[{section}]\n"
    text = BASE if heading in BASE else BASE + heading
    return text.replace(heading, heading + "".join(f"{row}\n" for row in rows))


def replaced(old, new):
    """The base with one line in place of another."""
    assert old in BASE
    return BASE.replace(f"{old}\n", new + "\n" if new else "")


def many(section, count, row):
    """The base with so many rows in a section."""
    return added(section, *(row.format(n) for n in range(count)))


def rules(count):
    """So many rules."""
    rows = [f"RULE {n}\nIF SYSTEM TIME > 1\nTHEN PUMP U STATUS IS OPEN" for n in range(count)]
    return added("RULES", *rows)


REFUSALS = [
    ("a heading that there isn't", 1, 0, lambda: BASE + "[SECTION]\n"),
    ("a row before the first heading", 1, 0, lambda: "J 0 5\n" + BASE),
    ("a word too many", 1, 0, lambda: added("JUNCTIONS", "K 0 5 * extra")),
    ("a word too few", 1, 0, lambda: added("PIPES", "Q R J 1000")),
    ("a keyword that there isn't", 1, 0, lambda: added("OPTIONS", "SPEED 4")),
    ("a letter beyond ASCII", 1, 0, lambda: added("JUNCTIONS", "Ä 0 5")),
    ("a setting of a pipe", 1, 0, lambda: added("STATUS", "P 1")),
    ("a pressure of a reservoir", 1, 0, lambda: added("RULES", "RULE 1", "IF RESERVOIR R PRESSURE > 4",
                                                     "THEN PUMP U STATUS IS OPEN")),
    ("a rule without an action", 1, 0, lambda: added("RULES", "RULE 1", "IF SYSTEM TIME > 4")),
    ("a word for a number", 2, 0, lambda: added("JUNCTIONS", "K zero")),
    ("a decimal comma", 2, 0, lambda: added("JUNCTIONS", "K 12,5")),
    ("a number that is too large", 2, 0, lambda: added("JUNCTIONS", "K 1e13")),
    ("neither a state nor a number", 2, 0, lambda: added("STATUS", "P OPENED")),
    ("a diameter of 0", 3, 0, lambda: added("PIPES", "Q R J 1000 0 0.012")),
    ("both ends one node", 3, 0, lambda: added("PIPES", "Q J J 1000 300 0.012")),
    ("an elevation out of range", 3, 0, lambda: added("JUNCTIONS", "K 20000")),
    ("an initial level above the maximum", 3, 0, lambda: added("TANKS", "S 90 6 0 5 20")),
    ("a speed out of range", 3, 0, lambda: added("STATUS", "U 11")),
    ("a duration below 0", 3, 0, lambda: added("TIMES", "DURATION -1")),
    ("pressures too near", 3, 0, lambda: added("OPTIONS", "DEMAND MODEL PDA", "REQUIRED PRESSURE 0.05")),
    ("an ID of a link twice", 4, 0, lambda: added("VALVES", "P R J 300 TCV 10 0")),
    ("an ID of a node twice", 4, 0, lambda: added("JUNCTIONS", "R 0")),
    ("a node that there isn't", 5, 0, lambda: added("PIPES", "Q R K 1000 300 0.012")),
    ("a pattern that there isn't", 5, 0, lambda: added("JUNCTIONS", "K 0 5 DAY")),
    ("a valve called a pipe", 5, 0, lambda: added("CONTROLS", "PIPE V CLOSED AT TIME 1")),
    ("a junction called a tank", 5, 0, lambda: added("RULES", "RULE 1", "IF TANK J LEVEL > 4",
                                                    "THEN PUMP U STATUS IS OPEN")),
    ("Darcy-Weisbach", 6, 1, lambda: replaced("HEADLOSS C-M", "HEADLOSS D-W")),
    ("no formula", 6, 1, lambda: replaced("HEADLOSS C-M", "")),
    ("a pressure reducing valve", 6, 2, lambda: added("VALVES", "W R J 300 PRV 40 0")),
    ("a pump of constant power", 6, 3, lambda: added("PUMPS", "X R T POWER 20")),
    ("a pump's curve of two points", 6, 4, lambda: replaced("C 1000 30", "C 1000 30\nC 2000 20")),
    ("an emitter exponent", 6, 5, lambda: added("OPTIONS", "EMITTER EXPONENT 0.6")),
    ("a pressure exponent", 6, 6, lambda: added("OPTIONS", "PRESSURE EXPONENT 0.6")),
    ("a specific gravity", 6, 7, lambda: added("OPTIONS", "SPECIFIC GRAVITY 0.9")),
    ("a control by a junction", 6, 8, lambda: added("CONTROLS", "LINK U CLOSED IF NODE J ABOVE 40")),
    ("a demand in a rule", 6, 10, lambda: added("RULES", "RULE 1", "IF JUNCTION J DEMAND > 4",
                                               "THEN PUMP U STATUS IS OPEN")),
    ("a state of a check valve pipe", 6, 11, lambda: added("PIPES", "Q R J 1000 300 0.012 0 CV") + "[STATUS]\nQ CLOSED\n"),
    ("kilopascals", 6, 13, lambda: added("OPTIONS", "PRESSURE KPA")),
    ("a text of more than 64 MiB", 7, 1, lambda: BASE + ";" + "\n;" * (33 << 20)),
    ("a line that is too long", 7, 2, lambda: BASE + ";" + "x" * 1024 + "\n"),
    ("an ID that is too long", 7, 3, lambda: added("JUNCTIONS", "K" * 32 + " 0")),
    ("too many junctions", 7, 4, lambda: many("JUNCTIONS", 10_000, "K{} 0")),
    ("too many reservoirs", 7, 5, lambda: many("RESERVOIRS", 1_000, "K{} 0")),
    ("too many tanks", 7, 6, lambda: many("TANKS", 32, "K{} 90 2 0 5 20")),
    ("too many links", 7, 7, lambda: many("PIPES", 20_000, "K{} R J 1000 300 0.012")),
    ("too many patterns", 7, 8, lambda: many("PATTERNS", 1_001, "K{} 1")),
    ("too many curves", 7, 9, lambda: many("CURVES", 1_000, "K{} 1 1")),
    ("too many rows of demands", 7, 10, lambda: many("DEMANDS", 100_001, "J 1")),
    ("too many controls", 7, 11, lambda: many("CONTROLS", 10_001, "LINK P OPEN AT TIME 1")),
    ("too many rules", 7, 12, lambda: rules(10_001)),
    ("a capacity out of range", 7, 13, lambda: added("PIPES", "Q R J 0.000001 10000 0.000001")),
    ("no source", 8, 0, lambda: "[OPTIONS]\nHEADLOSS C-M\n[JUNCTIONS]\nJ 0\n"),
]

# Rows of which the sentence has more than the cause: what it has.
SAID = [
    ("a pipe without its length", 3, 0, lambda: added("PIPES", "Q R J 300 0.012 0 OPEN"), "the row has 7 words"),
    ("a C of Hazen-Williams", 3, 0, lambda: HAZEN_WILLIAMS, "the C of Hazen-Williams is 10001"),
    ("a roughness without a formula", 3, 0, lambda: HAZEN_WILLIAMS.replace("HEADLOSS H-W\n", ""), "write HEADLOSS H-W"),
    ("a roughness with Darcy-Weisbach", 3, 0, lambda: HAZEN_WILLIAMS.replace("H-W", "D-W"), "Line 10 says HEADLOSS D-W"),
    ("a heading that isn't whole", 1, 0, lambda: BASE + "[COORD]\n", "scripts/prepare.py"),
    ("a state that isn't whole", 2, 0, lambda: added("STATUS", "U Opened"), "scripts/prepare.py"),
    ("an option without a value", 1, 0, lambda: added("OPTIONS", "Pattern"), "scripts/prepare.py"),
    ("hour 0 with AM", 3, 0, lambda: added("TIMES", "START CLOCKTIME 0:00 am"), "scripts/prepare.py"),
    ("a pump's curve of three points", 6, 4, lambda: replaced("C 1000 30", "C 0 40\nC 1000 30\nC 2000 25"),
     "scripts/prepare.py"),
    ("a C of Hazen-Williams with HEADLOSS C-M", 3, 0, lambda: added("PIPES", "Q R J 1000 300 110"),
     "write HEADLOSS H-W"),
    ("an elevation in feet without UNITS", 3, 0, lambda: replaced("UNITS CMD", "").replace("J 0 1000", "J 40000 1"),
     "no UNITS line"),
    ("hour 13 with PM", 3, 0, lambda: added("TIMES", "START CLOCKTIME 13:00 PM"), "behind hour 12"),
    ("two words for UNITS", 1, 0, lambda: added("OPTIONS", "Flow Units LPS"), "write UNITS LPS"),
    ("a heading but for a letter", 1, 0, lambda: BASE + "[JUNTIONS]\n", "did you mean [JUNCTIONS]?"),
    ("semicolons between words", 1, 0, lambda: added("JUNCTIONS", "J4;14;10"), "; begins a comment"),
    ("a name in quotes", 5, 0, lambda: added("PIPES", 'Q R "J" 1000 300 0.012'), "write J"),
    ("a letter that may stand in a skipped section", 1, 0, lambda: added("JUNCTIONS", "\u00c4 0 5"),
     "that are skipped"),
    ("an empty file", 6, 1, lambda: "", "the file is empty"),
    ("a file in UTF-16", 1, 0, lambda: "[\0J\0]\0", "UTF-16"),
    ("a certificate for the network", 1, 0, lambda: "HYDCERT 1 1 0\n", "NET stands before CERT"),
    ("a report for the network", 1, 0, lambda: "HYD 1\n", "this is a report"),
    ("another word before a time step", 1, 0, lambda: added("TIMES", "Hydraulic Step 1:00"), "scripts/prepare.py"),
]

# Runs, their status, what their last line has, and what is said.
RUNS = [
    ("pressures below 0", lambda: replaced("J 0 1000", "J 200 1"), 0, "DONE", "pressures may be below 0"),
    ("a dead end behind a check valve", lambda: added("PIPES", "Q J K 1000 300 0.012 0 CV") + "[JUNCTIONS]\nK 0\n", 6,
     "NOCERT", "mends it"),
]

STOPS = [
    ("NOCERT", "stops/a-junction-that-is-cut-off-later.inp", ["--tight"], 6, "Links there: "),
    ("TANK", "stops/a-tank-whose-state-is-open.inp", ["--tight"], 6),
    ("RULE", "stops/a-rule-that-is-open.inp", ["--tight"], 6),
    ("CONTROL", "stops/a-control-that-is-open.inp", ["--tight"], 6),
    ("EVENT", "stops/a-tank-that-is-full-after-one-second-or-the-next.inp", ["--tight"], 6, "and its maximum"),
    ("ROUNDS", "valves/two-junctions-without-a-source.inp", ["--tight"], 7, "joined to each other alone"),
    ("DEMAND", "stops/a-demand-that-is-out-of-range-later.inp", ["--tight"], 8),
]

# Words that aren't a command, and what is said of them.
WORDS = [
    ([], "hyd run NET CERT"), (["--help"], "hyd run NET CERT"), (["help", "run"], "run NET CERT"),
    (["help", "walk"], "there is no command walk"), (["walk"], "walk is no command"),
    (["run", "n.inp", "n.cert", "--widht", "1"], "--widht is no option of hyd run"),
    (["run", "n.inp", "n.cert", "--width", "20,5"], "20,5 can't stand for --width"),
    (["run", "n.inp", "n.cert", "--width", "-1"], "-1 can't stand for --width"),
    (["run", "n.inp", "n.cert", "--flows", "P1,", "P2"], "without spaces"),
    (["run", "n.inp"], "missing: CERT"), (["fire", "n.inp", "J"], "missing: P"),
    (["fire", "n.inp", "J", "-5"], "-5 is read as an option"),
]

CERTIFICATES = [
    ("GRAMMAR", "valves/no-demand.inp", "checks/no-end-line.cert", "seems to be cut off"),
    ("GRAMMAR", "valves/no-demand.inp", "tanks/a-tank-that-fills.inp", "a network, where CERT should stand"),
    ("COUNT", "valves/no-demand.inp", "checks/the-header-of-two-junctions.cert"),
    ("END", "valves/no-demand.inp", "checks/an-end-line-of-two-records.cert"),
    ("PLACE", "valves/no-demand.inp", "checks/another-number.cert"),
    ("UPPER", "valves/no-demand.inp", "checks/a-head-above-that-is-a-tick-too-low.cert"),
    ("LENGTH", "tanks/a-tank-that-fills.inp", "checks/a-period-that-ends-a-second-early.cert"),
]


def ran(program, words):
    """The last line that a command prints, its status, and what it says."""
    done = subprocess.run([program, *words], capture_output=True, check=False)
    lines = done.stdout.decode("ascii").splitlines() or [""]
    return lines[-1], done.returncode, done.stderr.decode("utf-8", "replace").rstrip()


def shown(title, found, status, begins, has=""):
    """Shows a case, and tells whether it is as expected."""
    last, got, said = found
    is_said = said.startswith("hyd: ") and has in said or "--said" not in sys.argv[2:]
    good = got == status and begins in last and is_said
    print(f"{title}\n    {last}\n" + "".join(f"    | {line}\n" for line in said.splitlines()))
    if not good:
        print(f"    NOT AS EXPECTED: status {got} for {status}, {begins!r} in the last line, a sentence with {has!r}\n")
    return good


def main():
    program = str(pathlib.Path(sys.argv[1]).resolve())
    good = []
    with tempfile.TemporaryDirectory() as folder:
        net, cert = f"{folder}/n.inp", f"{folder}/n.cert"
        for title, cause, detail, text, *has in REFUSALS + SAID:
            pathlib.Path(net).write_text(text(), encoding="utf-8")
            good.append(shown(title, ran(program, ["run", net, cert]), 5, f"cause {cause} detail {detail}", *has))
        for title, text, status, word, has in RUNS:
            pathlib.Path(net).write_text(text(), encoding="utf-8")
            good.append(shown(title, ran(program, ["run", net, cert]), status, word, has))
        other = pathlib.Path(folder) / "other.txt"
        other.write_text("something else\n", encoding="ascii")
        pathlib.Path(net).write_text(BASE, encoding="ascii")
        good.append(shown("a file that isn't overwritten", ran(program, ["run", net, str(other)]), 4, "",
                          "give another name"))
        for word, path, words, status, *has in STOPS:
            good.append(shown(word, ran(program, ["run", str(STORED / path), cert, *words]), status, word, *has))
        for word, path, certificate, *has in CERTIFICATES:
            words = ["check", str(STORED / path), str(STORED / certificate)]
            good.append(shown(word, ran(program, words), 9, word, *has))
        for words, has in WORDS:
            good.append(shown(" ".join(["hyd", *words]), ran(program, words), 2, "USAGE", has))
    print(f"{sum(good)} of {len(good)} as expected")
    return 0 if all(good) else 1


if __name__ == "__main__":
    sys.exit(main())
