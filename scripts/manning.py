#!/usr/bin/env python3
"""Gives the pipes of a Hazen-Williams file the Manning roughness with which each loses as much at one flow.

    scripts/manning.py FILE.inp -o NEW.inp --speed 0.5
    scripts/manning.py FILE.inp -o NEW.inp --flows FLOWS.csv [--time 0:00:00]

The flow is that of a speed in metres a second, alike in all pipes; or that of FLOWS.csv, in the flow unit of the file: rows of
a pipe's ID and its flow, as EPANET reports them, or links.csv as `report.py tables` writes it, at a time of the report (the
first one without --time). A pipe that isn't there, or has less than 0.05 m/s, gets the roughness of that speed, and is told.
So a file is converted without EPANET too: by a speed, then by the flows of the run, twice or three times.

What is written has HEADLOSS C-M; nothing else changes. docs/HAZEN_WILLIAMS.md has the formula. Needs Python 3 alone.
"""
import argparse
import csv
import math
import sys

import prepare

# Cubic metres a day of one of each flow unit.
UNITS = {"CFS": 2446.5755455488, "GPM": 5.45099296896, "MGD": 3785.411784, "IMGD": 4546.09, "AFD": 1233.48183754752,
         "LPS": 86.4, "LPM": 1.44, "MLD": 1000, "CMH": 24, "CMD": 1}
SLOWEST = 0.05


class Fault(Exception):
    """What the user is told."""


def manning(c, diameter, flow):
    """The roughness of equal loss: metres, cubic metres a second."""
    ft, cfs = 0.3048, 0.3048 ** 3
    return math.sqrt(4.727 / 4.66) * c ** -0.926 * (diameter / ft) ** 0.2295 * (flow / cfs) ** -0.074


def flows_of(name, time):
    """Flows by ID: of rows of two words, or of links.csv at one time."""
    with open(name, newline="", encoding="utf-8") as file:
        rows = [row for row in csv.reader(file) if row]
    heading = rows[0] if rows else []
    low = next((k for k, word in enumerate(heading) if word.startswith("flow_low")), None)
    try:
        if low is None:
            return {row[0].strip(): float(row[1]) for row in rows}
        at, name_at = heading.index("time"), heading.index("id")
        time = time or rows[1][at]
        found = {row[name_at]: (float(row[low]) + float(row[low + 1])) / 2 for row in rows[1:] if row[at] == time}
    except (ValueError, IndexError):
        raise Fault(f"{name} has neither rows of an ID and a flow nor the columns of links.csv") from None
    if not found:
        raise Fault(f"{name} has no flows of {time}")
    return found


class Conversion:
    """Writes the lines of a file anew."""

    def __init__(self, lines, flows, speed):
        self.lines, self.flows, self.speed, self.slow, self.pipes = lines, flows, speed, [], 0
        option = {line.upper(0)[:5]: line for line in self.rows("OPTIONS")}
        self.unit = option["UNITS"].upper(1) if "UNITS" in option else "GPM"
        self.unit = "LPS" if self.unit == "SI" else self.unit
        losses = option.get("HEADL")
        if losses is not None and losses.upper(1) != "H-W":
            raise Fault(f"HEADLOSS is {losses.upper(1)}, and not H-W")
        if self.unit not in UNITS:
            raise Fault(f"the flow unit {self.unit} isn't one of EPANET 2.2")
        self.metres = 0.0254 if self.unit in ("CFS", "GPM", "MGD", "IMGD", "AFD") else 0.001
        if losses is None:
            lines[0].before += ["[OPTIONS]", "HEADLOSS C-M"]
        else:
            losses.put(1, "C-M")
        for line in self.rows("PIPES"):
            self.pipe(line)

    def rows(self, section):
        return [line for line in self.lines if line.section == section and line.words and not line.word(0).startswith("[")]

    def pipe(self, line):
        diameter, c = (prepare.number(line.word(k)) for k in (4, 5))
        if not diameter or not c or min(diameter, c) <= 0:
            raise Fault(f"line {line.place}: the diameter and the coefficient of pipe {line.word(0)} are to be above 0")
        diameter = float(diameter) * self.metres
        area = math.pi * diameter * diameter / 4
        if self.flows is None:
            flow = self.speed * area
        else:
            flow = abs(self.flows.get(line.word(0), 0.0)) * UNITS[self.unit] / 86400
            if flow < SLOWEST * area:
                self.slow.append(line.word(0))
                flow = SLOWEST * area
        line.put(5, f"{manning(float(c), diameter, flow):.6f}")
        self.pipes += 1


def main():
    words = argparse.ArgumentParser(description=__doc__, formatter_class=argparse.RawDescriptionHelpFormatter)
    words.add_argument("file", metavar="FILE.inp")
    words.add_argument("-o", dest="new", metavar="NEW.inp", required=True)
    by = words.add_mutually_exclusive_group(required=True)
    by.add_argument("--speed", type=float)
    by.add_argument("--flows", metavar="FLOWS.csv")
    words.add_argument("--time", metavar="h:mm:ss")
    args = words.parse_args()
    try:
        if args.speed is not None and args.speed <= 0:
            raise Fault("a speed is above 0")
        with open(args.file, "rb") as file:
            data = file.read()
        lines, _ = prepare.read_lines(data)
        flows = flows_of(args.flows, args.time) if args.flows else None
        work = Conversion(lines, flows, args.speed)
        with open(args.new, "xb") as file:
            file.write(prepare.text_of(lines, "\r\n" if b"\r\n" in data else "\n"))
    except FileExistsError:
        print(f"manning: {args.new} is there already: give another name", file=sys.stderr)
        return 2
    except (Fault, OSError) as fault:
        print(f"manning: {fault}", file=sys.stderr)
        return 2
    if work.slow:
        print(f"manning: by {SLOWEST} m/s, since they carry less or no flow is given: {' '.join(work.slow)}", file=sys.stderr)
    print(f"manning: {work.pipes} pipes", file=sys.stderr)
    return 0


if __name__ == "__main__":
    sys.exit(main())
