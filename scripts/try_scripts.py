#!/usr/bin/env python3
"""Tries prepare.py, manning.py, report.py and scenarios.py on the examples, on files as other programs write them, and row
by row.

    scripts/try_scripts.py PROGRAM

PROGRAM runs a network as `hyd` does (its words are parted as the shell parts them). It says what failed, and ends with status
1 where something did. Pictures are tried where matplotlib is, in this Python or in /usr/bin/python3. It stands outside the
gate.
"""
import csv
import shlex
import subprocess
import sys
import tempfile
from pathlib import Path

SCRIPTS = Path(__file__).resolve().parent
ROOT = SCRIPTS.parent

# A network that is read; each row below is put behind it.
BASE = """[OPTIONS]
UNITS CMD
HEADLOSS C-M
[TIMES]
DURATION 2
[JUNCTIONS]
J 0 1000
[RESERVOIRS]
R 100
[TANKS]
T 90 2 0 5 20
[CURVES]
C 1000 30
D 0 40
D 1000 30
D 2000 10
[PIPES]
P R J 1000 300 0.012
[PUMPS]
U R T HEAD C
[VALVES]
V R J 300 TCV 10 0
"""
# What is put behind BASE, and what stands in the new file in its place. Each is refused as it stands.
REWRITTEN = [
    ("[JUNC]\nK 0 5\n[PIPE]\nQ J K 10 100 0.01", "[JUNCTIONS]\nK 0 5\n[PIPES]"),
    ("[COORD]", "[COORDINATES]"),
    ("[JUNCTIONS] here", "[JUNCTIONS]"),
    ("[ROUGHNESS]\nP 100", ";P 100"),
    ("[TIMES]\nSTART CLOCKTIME 00:00:00 AM", "START CLOCKTIME 12:00:00 AM"),
    ("[TIMES]\nSTART CLOCKTIME 0:30 PM", "START CLOCKTIME 12:30 PM"),
    ("[TIMES]\nSTART CLOCKTIME 0 AM", "START CLOCKTIME 12 AM"),
    ("[TIMES]\nDURATION 2:00 hours", "DURATION 2:00"),
    ("[TIMES]\nTOTAL DURATION 2", "DURATION 2"),
    ("[TIMES]\nPATT TIME 0:90", "PATTERN TIMESTEP 1:30:00"),
    ("[TIMES]\nHYDRAULIC 1:00", "HYDRAULIC TIMESTEP 1:00"),
    ("[TIMES]\nHydraulic Step 1:00", "Hydraulic TIMESTEP 1:00"),
    ("[TIMES]\nRULE STEP 0:05", "RULE TIMESTEP 0:05"),
    ("[TIMES]\nSTART TIME 0:00", "START CLOCKTIME 0:00"),
    ("[TIMES]\nDURATION 24 hrs", "DURATION 24 HOURS"),
    ("[TIMES]\nREPORT TIMESTEP 30 mins", "REPORT TIMESTEP 30 MINUTES"),
    ("[TIMES]\nMINIMUM TRAVELTIME 1", ";MINIMUM TRAVELTIME 1"),
    ("[OPTIONS]\nPattern", ";Pattern"),
    ("[OPTIONS]\nEMIT EXP 0.5", "EMITTER EXPONENT 0.5"),
    ("[OPTIONS]\nDEMAND MULT 1", "DEMAND MULTIPLIER 1"),
    ("[OPTIONS]\nSPECIFIC GRAV 1", "SPECIFIC GRAVITY 1"),
    ("[OPTIONS]\nSEGMENTS 100\nVERIFY a.ver\nHTOL 0.1\nQTOL 0.1\nRQTOL 0.1", ";SEGMENTS 100\n;VERIFY"),
    ("[OPTIONS]\nUNITS SI", "UNITS LPS"),
    ("[JUNCTIONS]\nK\n[PIPES]\nQ J K 10 100 0.01", "K 0\n"),
    ("[TANKS]\nS 80\n[PIPES]\nQ S J 1000 300 0.01", "[RESERVOIRS]\nS 80\n[TANKS]"),
    ("[DEMANDS]\nMULTIPLY 1.1", "[OPTIONS]\nDEMAND MULTIPLIER 1.1\n[DEMANDS]"),
    ("[DEMANDS]\nT 5", ";T 5"),
    ("[PIPES]\nQ R J 1000 300 0.012 0 Opened", "0 OPEN"),
    ("[PUMPS]\nX R J 30 1000", "X R J HEAD pump_X\n[CURVES]\n pump_X 1000 30\n[PUMPS]"),
    ("[PUMPS]\nX R J 40 30 1000 0 2000", " pump_X 0 40\n pump_X 1000 30\n pump_X 2000 0"),
    ("[PUMPS]\nX R J HEAD E SPEE 1\n[CURVES]\nE 0 40\nE 1000 20",
     "SPEED 1\n[CURVES]\nE 0 40\n E 250 35\n E 500 30\nE 1000 20"),
    ("[PUMPS]\nX R J HEAD E\n[CURVES]\nE 10 40\nE 1000 20\nE 1500 1", "E 10 40\n E 505 30\nE 1000 20"),
    ("[STATUS]\nP 1", "P OPEN"),
    ("[STATUS]\nP Opened", "P OPEN"),
    ("[CONTROLS]\nLINK P 0 AT TIME 1", "LINK P CLOSED AT TIME 1"),
    ("[CONTROLS]\nPIPE V CLOSED AT CLOCKTIME 00:30 am", "VALVE V CLOSED AT CLOCKTIME 12:30 am"),
    ("[CONTROLS]\nLINK U CLOSED IF JUNC T ABOVE 4", "LINK U CLOSED IF TANK T ABOVE 4"),
    ("[RULES]\nRULE 1\nIF NODE T LEVEL > 4\nTHEN LINK U SETTING IS 0.9", "IF TANK T LEVEL > 4\nTHEN PUMP U SETTING IS 0.9"),
    ("[RULES]\nRULE 1\nIF TANK T GRADE > 94\nTHEN PUMP U STATUS IS 0.9", "IF TANK T HEAD > 94\nTHEN PUMP U SETTING IS 0.9"),
    ("[RULES]\nRULE 1\nIF JUNC J PRES > 99\nAND LINK U SETTING > 0\nTHEN PIPE P SETTING IS 0\nELSE VALVE V SETTING IS OPEN\nPRIO 1",
     "IF JUNCTION J PRESSURE > 99\nAND PUMP U SETTING > 0\nTHEN PIPE P STATUS IS CLOSED\nELSE VALVE V STATUS IS OPEN\n"
     "PRIORITY 1"),
    ("[RULES]\nRULE 1\nIF SYSTEM CLOCKTIME >= 0:00 AM\nTHEN PIPE V STATUS IS OPEN",
     "CLOCKTIME >= 12:00 AM\nTHEN VALVE V STATUS IS OPEN"),
    ("[CURVES]\nX 1 1 ; " + "long " * 300, "X 1 1\n"),
]
# What is put behind BASE, and a word of what is said of it. None of it is changed, and each is refused as it stands.
LEFT = [
    ("[OPTIONS]\nHEADLOSS D-W", "HEADLOSS D-W"),
    ("[OPTIONS]\nEMITTER EXPONENT 0.6", "0.5 alone"),
    ("[OPTIONS]\nPRESSURE EXPONENT 0.6", "0.5 alone"),
    ("[OPTIONS]\nSPECIFIC GRAVITY 0.9", "1 alone"),
    ("[OPTIONS]\nPRESSURE KPA", "kPa"),
    ("[OPTIONS]\nUNITS CMS", "CMH"),
    ("[VALVES]\nW R J 300 PRV 40 0", "PRV"),
    ("[PUMPS]\nX R J POWER 20", "constant power"),
    ("[PUMPS]\nX R J 20", "constant power"),
    ("[PUMPS]\nX R J HEAD E\n[CURVES]\nE 0 104\nE 2000 92\nE 4000 63", "EPANET's fit is h = 104"),
    ("[PUMPS]\nX R J HEAD E\n[CURVES]\nE 0 104\nE 2000 92\nE 4000 63", "% of that at flow 0"),
    ("[CONTROLS]\nLINK U CLOSED IF NODE J ABOVE 40", "IF JUNCTION J PRESSURE"),
    ("[RULES]\nRULE 1\nIF JUNCTION J DEMAND > 4\nTHEN PUMP U STATUS IS OPEN", "don't look at DEMAND"),
    ("[RULES]\nRULE 1\nIF TANK T LEVEL = 4\nTHEN PUMP U STATUS IS OPEN", "compares by"),
    ("[JUNCTIONS]\nStra\xdfe 0", "isn't ASCII"),
    ("[LEAKAGE]\nP 1 1", "no section"),
]


class Trial:
    """Counts what was tried, and tells what failed."""

    def __init__(self, program, folder):
        self.program, self.folder, self.tried, self.failed = shlex.split(program), Path(folder), 0, 0

    def holds(self, what, is_so, more=""):
        self.tried += 1
        if not is_so:
            self.failed += 1
            print(f"failed: {what} {more}".rstrip())

    def script(self, name, *words, python=sys.executable):
        return subprocess.run([python, str(SCRIPTS / name)] + [str(word) for word in words], capture_output=True,
                              text=True, check=False)

    def answer(self, file):
        """The report of a network."""
        done = subprocess.run(self.program + ["run", str(file), str(self.folder / "c.cert")], capture_output=True,
                              text=True, check=False)
        (self.folder / "c.cert").unlink(missing_ok=True)
        return done.stdout

    def refused(self, file):
        return self.answer(file).startswith("REFUSED")

    def written(self, text):
        file = self.folder / "n.inp"
        file.write_text(text, encoding="latin-1")
        return file


def try_rows(trial):
    new = trial.folder / "new.inp"
    trial.holds("the base is read", not trial.refused(trial.written(BASE)))
    for rows, wanted in REWRITTEN:
        file = trial.written(BASE + rows + "\n")
        trial.holds("refused as it stands:", trial.refused(file), rows)
        done = trial.script("prepare.py", file, "-o", new)
        trial.holds("rewritten without a rest:", done.returncode == 0, rows + "\n" + done.stderr)
        trial.holds("rewritten as is wanted:", wanted in new.read_text(encoding="latin-1"), rows + "\n" + done.stderr)
        trial.holds("read then:", not trial.refused(new), rows + "\n" + trial.answer(new))
        again = trial.script("prepare.py", new, "-o", trial.folder / "again.inp")
        trial.holds("nothing is left to rewrite:", "prepare: 0 changes; 0" in again.stderr, rows + "\n" + again.stderr)
    for rows, word in LEFT:
        file = trial.written(BASE + rows + "\n")
        trial.holds("refused:", trial.refused(file), rows)
        done = trial.script("prepare.py", file, "-o", new)
        trial.holds("told:", done.returncode == 1 and word in done.stderr and "NOT CHANGED" in done.stderr,
                    rows + "\n" + done.stderr)
    done = trial.script("prepare.py", file, "-o", file)
    trial.holds("the file that is read isn't written", done.returncode == 2)
    for code in ("utf-16", "utf-16-le", "utf-16-be"):
        file.write_bytes((BASE + "[TITLE]\nWasserwerk S\u00fcd\n").replace("\n", "\r\n").encode(code))
        trial.holds("refused as it stands:", trial.refused(file), code)
        done = trial.script("prepare.py", file, "-o", new)
        trial.holds("rewritten from two bytes for each letter:", done.returncode == 0, code + "\n" + done.stderr)
        trial.holds("read then:", not trial.refused(new), code)


def try_forms(trial):
    new = trial.folder / "new.inp"
    for form in sorted((SCRIPTS / "forms").glob("*.inp")):
        trial.holds("refused as it stands:", trial.refused(form), form.name)
        done = trial.script("prepare.py", form, "-o", new)
        trial.holds("rewritten:", done.returncode == 0, form.name + "\n" + done.stderr)
        trial.holds("read then:", trial.answer(new).startswith("HYD 1"), form.name)


def python_with(module):
    for python in (sys.executable, "/usr/bin/python3"):
        try:
            if subprocess.run([python, "-c", f"import {module}"], capture_output=True, check=False).returncode == 0:
                return python
        except OSError:
            pass
    print(f"left out: no Python here has {module}")
    return None


def rows_of(file):
    with open(file, newline="", encoding="ascii") as text:
        return list(csv.DictReader(text))


def try_tables(trial, example, report):
    folder = trial.folder / "tables"
    done = trial.script("report.py", "tables", trial.folder / "r.rpt", folder, "--net", example)
    trial.holds("tables:", done.returncode == 0, example.name + "\n" + done.stderr)
    lines = report.splitlines()
    for table, words in (("nodes", ("JUNCTION ", "RESERVOIR ", "TANK ")), ("tanks", ("TANK ",)), ("links", ("LINK ",)),
                         ("events", ("EVENT ", "CONTROL ", "RULE "))):
        rows = rows_of(folder / f"{table}.csv")
        trial.holds("a row for each line:", len(rows) == sum(line.startswith(words) for line in lines), example.name + table)
    node = next((line.split() for line in lines if line.startswith("JUNCTION ")), None)
    first = next((row for row in rows_of(folder / "nodes.csv") if row["kind"] == "JUNCTION"), None)
    if node:
        ends = [float(value) for key, value in first.items() if "_low" in key or "_high" in key]
        trial.holds("the line's numbers:", ends == [float(node[k]) for k in (3, 4, 6, 7, 9, 10)], example.name)
    return folder


def try_flows(trial):
    """The table of FLOW lines, of a run that names a link."""
    folder = trial.folder / "named"
    done = subprocess.run(trial.program + ["run", ROOT / "examples/steep.inp", trial.folder / "steep.cert", "--flows", "V"],
                          capture_output=True, text=True, check=False)
    (trial.folder / "r.rpt").write_text(done.stdout)
    trial.script("report.py", "tables", trial.folder / "r.rpt", folder)
    rows = rows_of(folder / "flows.csv")
    trial.holds("a row for a FLOW line:", [(row["id"], row["flow_low"]) for row in rows] == [("V", "999.9992")], done.stdout)


def try_examples(trial):
    drawing, pandas = python_with("matplotlib"), python_with("pandas")
    for example in sorted((ROOT / "examples").glob("*.inp")):
        new = trial.folder / "new.inp"
        trial.script("prepare.py", example, "-o", new)
        trial.holds("nothing to rewrite:", new.read_bytes() == example.read_bytes(), example.name)
        report = trial.answer(example)
        trial.holds("done:", report.splitlines()[-1].startswith("DONE "), example.name)
        (trial.folder / "r.rpt").write_text(report)
        tables = try_tables(trial, example, report)
        if pandas:
            code = f"import pandas; print(len(pandas.read_csv({str(tables / 'links.csv')!r})))"
            done = subprocess.run([pandas, "-c", code], capture_output=True, text=True, check=False)
            trial.holds("pandas reads a table:", done.stdout.strip() == str(len(rows_of(tables / "links.csv"))), done.stderr)
        if drawing:
            try_pictures(trial, example, report, drawing)
    done = trial.script("report.py", "tables", ROOT / "README.md", trial.folder / "t")
    trial.holds("what is no report is told", done.returncode == 2 and "isn't a report" in done.stderr)


def try_pictures(trial, example, report, python):
    ids = [line.split()[0].replace("LINK", "link").replace("TANK", "node").replace("JUNCTION", "node") + ":" + line.split()[1]
           for line in report.splitlines() if line.startswith(("LINK ", "TANK ", "JUNCTION "))]
    picture = trial.folder / "p.svg"
    done = trial.script("report.py", "plot", trial.folder / "r.rpt", *list(dict.fromkeys(ids))[-6:], "-o", picture,
                        "--net", example, python=python)
    trial.holds("a plot:", done.returncode == 0 and picture.read_text().endswith("</svg>\n"), example.name + done.stderr)
    picture.unlink(missing_ok=True)
    done = trial.script("report.py", "plot", trial.folder / "r.rpt", "nobody", "-o", picture, python=python)
    trial.holds("a name that nothing has is told:", done.returncode == 2 and "nobody" in done.stderr, example.name)
    has_places = any(line.split()[:1] == [name] for line in example.read_text().partition("[COORDINATES]")[2].splitlines()
                     for name in [word.split(":")[1] for word in ids])
    for words in ([], ["--flow", "--names"]):
        done = trial.script("report.py", "map", example, trial.folder / "r.rpt", "-o", picture, *words, python=python)
        if has_places:
            trial.holds("a map:", done.returncode == 0 and picture.exists(), example.name + done.stderr)
        else:
            trial.holds("no places are told:", done.returncode == 2 and "COORDINATES" in done.stderr, example.name + done.stderr)
        picture.unlink(missing_ok=True)


def try_scenarios(trial):
    for example, words, many in (("town.inp", ["--demand", "0.8", "1.2", "--close", "P1", "P42", "P39", "--off", "Pump2"], 10),
                                 ("day.inp", ["--close", "Lane", "--off", "all"], 3)):
        folder = trial.folder / ("study-" + example)
        done = trial.script("scenarios.py", "make", ROOT / "examples" / example, folder, *words)
        trial.holds("made:", len(list(folder.glob("*.inp"))) == many, example + done.stderr)
        program = " ".join(shlex.quote(word) for word in trial.program)
        done = trial.script("scenarios.py", "run", folder, "--program", program, "--jobs", "1")
        trial.holds("run:", f"{many} run in" in done.stderr, example + done.stderr)
        done = trial.script("scenarios.py", "run", folder, "--program", program)
        trial.holds("not run again:", "0 run in" in done.stderr, example + done.stderr)
        done = trial.script("scenarios.py", "table", folder)
        with open(folder / "table.csv", newline="", encoding="utf-8") as file:
            rows = list(csv.DictReader(file))
        trial.holds("a row for each:", len(rows) == many == len(done.stdout.splitlines()) - 1, example + done.stderr)
        for row in rows:
            trial.holds("none is refused:", row["status"] in ("0", "6", "7"), example + str(row))
            shut = row["change"].rpartition(" ")[2]
            report = (folder / (row["scenario"] + ".rpt")).read_text()
            flows = [line for line in report.splitlines() if shut and line.startswith(f"LINK {shut} ")]
            trial.holds("what is shut stays so:", all(line.endswith("CLOSED") for line in flows), example + row["change"])


def roughness_of(text):
    """The last words of the first pipes' rows: ID and roughness."""
    rows = text.partition("[PIPES]")[2].partition("[PUMPS]")[0].splitlines()
    return [(row.split()[0], row.split()[5]) for row in rows if row.split() and not row.startswith(";")]


def try_manning(trial):
    """EPANET's first example: by one speed, then by the flows of each run, to the roughness that was reckoned from EPANET's."""
    wanted = (ROOT / "examples" / "net1.inp").read_text()
    text = wanted.replace("Headloss C-M", "Headloss H-W")
    for _, n in roughness_of(wanted):
        text = text.replace(n, "100", 1)
    file, tables = trial.folder / "hw.inp", trial.folder / "flows"
    file.write_text(text)
    words = ["--speed", "0.5"]
    for turn in range(4):
        new = trial.folder / f"turn{turn}.inp"
        done = trial.script("manning.py", file, "-o", new, *words)
        trial.holds("converted:", done.returncode == 0, done.stderr)
        (trial.folder / "r.rpt").write_text(trial.answer(new))
        trial.script("report.py", "tables", trial.folder / "r.rpt", tables)
        words = ["--flows", tables / "links.csv", "--time", "0:00:00"]
    trial.holds("the roughness of net1.inp:", roughness_of(new.read_text()) == roughness_of(wanted))
    done = trial.script("manning.py", file, "-o", new, *words)
    trial.holds("no file is overwritten", done.returncode == 2 and "already" in done.stderr)
    done = trial.script("manning.py", ROOT / "examples" / "net1.inp", "-o", trial.folder / "z.inp", "--speed", "1")
    trial.holds("a file with other losses is told", done.returncode == 2 and "not H-W" in done.stderr)


def main():
    if len(sys.argv) != 2:
        sys.exit(__doc__)
    with tempfile.TemporaryDirectory() as folder:
        trial = Trial(sys.argv[1], folder)
        for each in (try_rows, try_forms, try_examples, try_flows, try_manning, try_scenarios):
            each(trial)
    print(f"{trial.tried} tried, {trial.failed} failed")
    return 1 if trial.failed else 0


if __name__ == "__main__":
    sys.exit(main())
