#!/usr/bin/env python3
"""Many runs of one network: files that differ by a demand multiplier, a closed pipe, a pump that is off; one table.

    scripts/scenarios.py make NET FOLDER [--demand 0.8 1 1.2 ..] [--close all | IDS..] [--off all | IDS..]
    scripts/scenarios.py run FOLDER --program PROGRAM [--jobs N] [--words '--width 0.05 ..']
    scripts/scenarios.py table FOLDER [--below PRESSURE]

`make` writes a file for each multiplier, with the network as it is and with each pipe of --close closed and each
pump of --off off, one at a time, and FOLDER/scenarios.csv, which says what each is. `run` runs them side by side
(as many as there are processors, or N), each with its report (.rpt), its certificate (.cert) and its status
(.status) beside the file; what has a status is not run again. `table` writes FOLDER/table.csv: the last line of
each, and its worst pressure, which is the least lower end in the report, with the junction and the time; and prints
it, the worst first.

A pipe or a pump stays as it was set: lines of CONTROLS that set it are left out, and so is its pattern. Rules that
set it are told, and stay. Needs Python 3 alone.
"""
import argparse
import concurrent.futures
import csv
import os
import re
import shlex
import subprocess
import sys
import time
from decimal import Decimal, InvalidOperation


class Fault(Exception):
    """What the user is told."""


class Net:
    """The lines of an input file, each with its section, and what scenarios change."""

    def __init__(self, name):
        self.lines, self.pipes, self.pumps, self.multiplier = [], {}, {}, Decimal(1)
        section = ""
        with open(name, encoding="latin-1") as file:
            for text in file.read().splitlines():
                words = text.split(";", 1)[0].split()
                if words and words[0].startswith("["):
                    section = words[0][1:5].upper()
                    if section == "END]":
                        break
                elif words:
                    self.take(section, words)
                self.lines.append((section, words, text))

    def take(self, section, words):
        if section == "PIPE":
            self.pipes[words[0]] = "CV" in [word.upper() for word in words[6:]]
        elif section == "PUMP":
            self.pumps[words[0]] = words
        elif section == "OPTI" and [word.upper() for word in words[:2]] == ["DEMAND", "MULTIPLIER"]:
            try:
                self.multiplier = Decimal(words[2])
            except (InvalidOperation, IndexError):
                raise Fault(f"the demand multiplier isn't a number: {' '.join(words)}") from None

    def chosen(self, ids, kind):
        """The IDs that are asked for, of pipes or of pumps; all is every one."""
        those = self.pipes if kind == "pipe" else self.pumps
        if ids == ["all"]:
            return list(those)
        for name in ids:
            if name not in those:
                raise Fault(f"there is no {kind} {name}")
        return ids

    def text(self, demand, link):
        """The file with a demand multiplier on top of its own, and with a link shut, or none."""
        out = [self.line(section, words, text, link) for section, words, text in self.lines]
        if demand != 1:
            out += ["[OPTIONS]", f"DEMAND MULTIPLIER {self.multiplier * demand:f}"]
        if link is not None and not self.pipes.get(link):
            out += ["[STATUS]", f"{link} CLOSED"]
        return "\n".join(out + ["[END]", ""]).encode("latin-1")

    def line(self, section, words, text, link):
        if link is None or not words:
            return text
        if section == "CONT" and len(words) > 1 and words[1] == link:
            return "; left out by this scenario: " + text
        if section == "PIPE" and words[0] == link and self.pipes[link]:
            return re.sub(r"\bcv\b", "CLOSED", text, flags=re.IGNORECASE)
        if section == "PUMP" and words[0] == link:
            return re.sub(r"\bpattern[ \t]+[^ \t;]+", "", text, flags=re.IGNORECASE)
        return text

    def set_by_rules(self, link):
        return any(section == "RULE" and len(words) > 4 and words[2] == link and words[4].upper() in ("IS", "=")
                   and words[0].upper() in ("THEN", "ELSE", "AND") and words[3].upper() in ("STATUS", "SETTING")
                   for section, words, _ in self.lines)


def make(args):
    net = Net(args.net)
    links = [None] + net.chosen(args.close, "pipe") + net.chosen(args.off, "pump")
    for link in links:
        if link is not None and net.set_by_rules(link):
            print(f"scenarios: rules name {link} and may set it again", file=sys.stderr)
    os.makedirs(args.folder, exist_ok=True)
    if [name for name in os.listdir(args.folder) if name.endswith(".inp")]:
        raise Fault(f"{args.folder} has files .inp already: give an empty folder")
    rows = []
    for demand in args.demand:
        for link in links:
            what = "" if link is None else ("off " if link in net.pumps else "closed ") + link
            name = f"{len(rows) + 1:05d}"
            with open(os.path.join(args.folder, name + ".inp"), "wb") as file:
                file.write(net.text(demand, link))
            rows.append([name, f"{demand:f}", what])
    write_table(os.path.join(args.folder, "scenarios.csv"), ["scenario", "demand", "change"], rows)
    print(f"scenarios: {len(rows)} files in {args.folder}", file=sys.stderr)


def write_table(name, heading, rows):
    with open(name, "w", newline="", encoding="utf-8") as file:
        out = csv.writer(file)
        out.writerow(heading)
        out.writerows(rows)


def scenarios_of(folder):
    try:
        with open(os.path.join(folder, "scenarios.csv"), newline="", encoding="utf-8") as file:
            return list(csv.DictReader(file))
    except OSError as fault:
        raise Fault(f"{fault}: make the scenarios first") from None


def run_one(program, words, front):
    """Runs one scenario, and leaves its status where it came to an end."""
    begun = time.monotonic()
    with open(front + ".rpt", "wb") as report:
        done = subprocess.run(program + ["run", front + ".inp", front + ".cert"] + words, stdout=report,
                              stderr=subprocess.PIPE, check=False)
    if done.stderr:
        with open(front + ".err", "wb") as file:
            file.write(done.stderr)
    with open(front + ".status", "w", encoding="ascii") as file:
        file.write(f"{done.returncode} {time.monotonic() - begun:.2f}\n")
    return done.returncode


def run(args):
    fronts = [os.path.join(args.folder, row["scenario"]) for row in scenarios_of(args.folder)]
    left = [front for front in fronts if not os.path.exists(front + ".status")]
    program, words, begun, counts = shlex.split(args.program), shlex.split(args.words), time.monotonic(), {}
    with concurrent.futures.ThreadPoolExecutor(args.jobs) as pool:
        for status in pool.map(lambda front: run_one(program, words, front), left):
            counts[status] = counts.get(status, 0) + 1
    said = ", ".join(f"{many} with status {status}" for status, many in sorted(counts.items()))
    print(f"scenarios: {len(left)} run in {time.monotonic() - begun:.1f} s: {said or 'none was left'}", file=sys.stderr)


def worst_of(name):
    """The last line of a report, and the least lower end of a pressure with its upper end, junction and time."""
    worst, now, last = None, "", ""
    with open(name, encoding="ascii", errors="replace") as file:
        for line in file:
            last, words = line.strip(), line.split()
            if words[:1] == ["TIME"]:
                now = words[1]
            elif words[:1] == ["JUNCTION"] and (worst is None or float(words[6]) < float(worst[0])):
                worst = [words[6], words[7], words[1], now]
    return last, worst or ["", "", "", ""]


def table(args):
    rows = []
    for row in scenarios_of(args.folder):
        front = os.path.join(args.folder, row["scenario"])
        if os.path.exists(front + ".status"):
            with open(front + ".status", encoding="ascii") as file:
                status, seconds = file.read().split()
            last, worst = worst_of(front + ".rpt")
        else:
            status, seconds, last, worst = "", "", "not run", ["", "", "", ""]
        rows.append([row["scenario"], row["demand"], row["change"], status, seconds, last] + worst)
    heading = ["scenario", "demand", "change", "status", "seconds", "last_line", "pressure_low", "pressure_high",
               "junction", "time"]
    write_table(os.path.join(args.folder, "table.csv"), heading, rows)
    rows.sort(key=lambda row: (row[6] == "", float(row[6] or 0)))
    show(heading, [row for row in rows if args.below is None or row[6] == "" or float(row[6]) < args.below])


def show(heading, rows):
    widths = [max(len(str(row[k])) for row in [heading] + rows) for k in range(len(heading))]
    for row in [heading] + rows:
        print("  ".join(str(word).ljust(width) for word, width in zip(row, widths)).rstrip())


def words_of_command():
    top = argparse.ArgumentParser(description=__doc__, formatter_class=argparse.RawDescriptionHelpFormatter)
    which = top.add_subparsers(dest="command", required=True)
    one = which.add_parser("make")
    one.add_argument("net", metavar="NET")
    one.add_argument("folder", metavar="FOLDER")
    one.add_argument("--demand", nargs="+", type=Decimal, default=[Decimal(1)], metavar="X")
    one.add_argument("--close", nargs="+", default=[], metavar="ID")
    one.add_argument("--off", nargs="+", default=[], metavar="ID")
    one = which.add_parser("run")
    one.add_argument("folder", metavar="FOLDER")
    one.add_argument("--program", required=True)
    one.add_argument("--jobs", type=int, default=os.cpu_count())
    one.add_argument("--words", default="")
    one = which.add_parser("table")
    one.add_argument("folder", metavar="FOLDER")
    one.add_argument("--below", type=float, metavar="PRESSURE")
    return top


def main():
    args = words_of_command().parse_args()
    try:
        {"make": make, "run": run, "table": table}[args.command](args)
    except (Fault, OSError) as fault:
        print(f"scenarios: {fault}", file=sys.stderr)
        return 2
    return 0


if __name__ == "__main__":
    sys.exit(main())
