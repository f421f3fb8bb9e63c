#!/usr/bin/env python3
"""Rewrites an input file as EPANET, its editor, its toolkit or WNTR write it into one that hyd reads.

    scripts/prepare.py FILE.inp -o NEW.inp

Only what means the same is rewritten: beginnings of headings and keywords, clock times as `00:00:00 AM`, words for
kinds of nodes and links, old forms of rows, options that don't touch heads and flows. Each change is told on standard
error with its line. What hyd refuses and no rewriting helps is told too, with what would help, and left as it is: its
meaning would change.

Status: 0 where nothing of that kind was found, 1 where something was, 2 where a file can't be read or written.
docs/REFUSALS.md has the list. Needs Python 3 alone.
"""
import argparse
import os
import re
import sys
from decimal import Decimal
from math import log

# The letters by which EPANET knows a heading, and the whole word.
SECTIONS = {name[:4]: name for name in (
    "TITLE JUNCTIONS RESERVOIRS TANKS PIPES PUMPS VALVES CONTROLS RULES DEMANDS SOURCES EMITTERS PATTERNS CURVES "
    "QUALITY STATUS ROUGHNESS ENERGY REACTIONS MIXING REPORT TIMES OPTIONS COORDINATES VERTICES LABELS BACKDROP "
    "TAGS").split()}
SECTIONS["END"] = "END"
READ = set("JUNCTIONS RESERVOIRS TANKS PIPES PUMPS VALVES DEMANDS EMITTERS CURVES PATTERNS STATUS CONTROLS RULES "
           "OPTIONS TIMES".split())
LONGEST_LINE = 1024
LONGEST_NAME = 31

# First words of options: the beginning that EPANET asks for, and the whole word.
OPTIONS = {"UNIT": "UNITS", "HEADL": "HEADLOSS", "QUAL": "QUALITY", "VISC": "VISCOSITY", "SPEC": "SPECIFIC",
           "TRIAL": "TRIALS", "ACCU": "ACCURACY", "TOLER": "TOLERANCE", "EMIT": "EMITTER", "DIFF": "DIFFUSIVITY",
           "HYDR": "HYDRAULICS", "MAP": "MAP", "UNBA": "UNBALANCED", "DEMA": "DEMAND", "PATT": "PATTERN",
           "MINI": "MINIMUM", "REQ": "REQUIRED", "PRES": "PRESSURE", "CHECKFREQ": "CHECKFREQ",
           "MAXCHECK": "MAXCHECK", "DAMPLIMIT": "DAMPLIMIT", "FLOWCHANGE": "FLOWCHANGE", "HEADERROR": "HEADERROR"}
# Second words, by the first one.
SECOND = {"SPECIFIC": {"GRAV": "GRAVITY"}, "EMITTER": {"EXP": "EXPONENT"}, "MINIMUM": {"PRES": "PRESSURE"},
          "REQUIRED": {"PRES": "PRESSURE"}, "DEMAND": {"MULT": "MULTIPLIER", "MODEL": "MODEL"},
          "PRESSURE": {"EXP": "EXPONENT", "METER": "METERS", "PSI": "PSI", "KPA": "KPA"}}
# Options of EPANET that touch no head and no flow, or only how EPANET searches for them.
IDLE_OPTIONS = ("SEGM", "VERI", "HTOL", "QTOL", "RQTOL")
TIMES = {"DURA": "DURATION", "HYDR": "HYDRAULIC", "QUAL": "QUALITY", "RULE": "RULE", "PATT": "PATTERN",
         "REPO": "REPORT", "STAR": "START", "STAT": "STATISTIC"}
TIME_UNITS = {"SEC": "SECONDS", "MIN": "MINUTES", "HOU": "HOURS", "HR": "HOURS", "DAY": "DAYS"}
KNOWN_UNITS = "SEC SECONDS MIN MINUTES HOUR HOURS DAY DAYS".split()
RULE_WORDS = {"RULE": "RULE", "IF": "IF", "AND": "AND", "OR": "OR", "THEN": "THEN", "ELSE": "ELSE", "PRIO": "PRIORITY"}
OBJECTS = {"JUNC": "JUNCTION", "RESERV": "RESERVOIR", "TANK": "TANK", "PIPE": "PIPE", "PUMP": "PUMP",
           "VALVE": "VALVE", "NODE": "NODE", "LINK": "LINK", "SYST": "SYSTEM"}
ATTRIBUTES = {"DEMA": "DEMAND", "HEAD": "HEAD", "GRADE": "HEAD", "LEVEL": "LEVEL", "PRES": "PRESSURE", "FLOW": "FLOW",
              "STATUS": "STATUS", "SETTING": "SETTING", "TIME": "TIME", "CLOCKTIME": "CLOCKTIME",
              "FILLTIME": "FILLTIME", "DRAINTIME": "DRAINTIME"}
STATES = {"OPEN": "OPEN", "CLOSED": "CLOSED", "ACTIVE": "ACTIVE"}
EQUALITIES = ("=", "IS", "<>", "NOT")


def whole_word(word, table):
    """The whole word that EPANET takes this one for, or None."""
    word = word.upper()
    fits = [short for short in table if word.startswith(short)]
    return table[max(fits, key=len)] if fits else None


def number(word):
    """The value of a word as hyd reads numbers, or None."""
    is_number = re.fullmatch(r"[+-]?(\d+\.?\d*|\.\d+)([eE][+-]?\d{1,3})?", word)
    return Decimal(word) if is_number else None


def plain(value):
    """A decimal without an exponent."""
    text = format(value, "f")
    return text.rstrip("0").rstrip(".") if "." in text else text


class Line:
    """A line of the file: its words with their places, the section in which it stands, and what replaces it."""

    def __init__(self, place, text, section):
        # (section None: a heading that EPANET doesn't know; "" before the first heading; "END" from [END] on)
        self.place, self.text, self.section = place, text, section
        body = text.split(";", 1)[0]
        self.spans = [m.span() for m in re.finditer(r"[^ \t]+", body)]
        self.words = [text[a:b] for a, b in self.spans]
        self.before, self.behind = [], []

    def word(self, k):
        return self.words[k] if k < len(self.words) else ""

    def upper(self, k):
        return self.word(k).upper()

    def put(self, k, new):
        """Puts another word in the place of word k; the rest of the line stays."""
        a, b = self.spans[k]
        text = self.text[:a] + new + self.text[b:]
        body, mark, comment = text.partition(";")
        self.__init_again(body + mark + comment)

    def cut_from(self, k):
        """Leaves word k and those behind it out."""
        rest = self.text[len(self.text.split(";", 1)[0]):]
        self.__init_again(self.text[:self.spans[k][0]].rstrip() + (" " + rest if rest else ""))

    def add(self, words):
        """Puts words behind the last one."""
        end = self.spans[-1][1]
        self.__init_again(self.text[:end] + " " + words + self.text[end:])

    def leave_out(self):
        """Makes the line a comment."""
        self.__init_again(";" + self.text)

    def __init_again(self, text):
        before, behind = self.before, self.behind
        self.__init__(self.place, text, self.section)
        self.before, self.behind = before, behind


class Network:
    """What the words of other lines are looked up in: kinds of nodes and links, points of curves, curves of pumps."""

    def __init__(self, lines):
        self.nodes, self.links, self.curves, self.pump_of, self.headloss = {}, {}, {}, {}, None
        for line in lines:
            take = getattr(self, "take_" + (line.section or "").lower(), None)
            if take and line.words and not line.word(0).startswith("["):
                take(line)

    def take_junctions(self, line):
        self.nodes.setdefault(line.word(0), "JUNCTION")

    def take_reservoirs(self, line):
        self.nodes.setdefault(line.word(0), "RESERVOIR")

    def take_tanks(self, line):
        self.nodes.setdefault(line.word(0), "RESERVOIR" if len(line.words) <= 3 else "TANK")

    def take_pipes(self, line):
        self.links.setdefault(line.word(0), "CV" if "CV" in (line.upper(6), line.upper(7)) else "PIPE")

    def take_pumps(self, line):
        self.links.setdefault(line.word(0), "PUMP")
        for k in range(3, len(line.words) - 1, 2):
            if line.upper(k).startswith("HEAD"):
                self.pump_of.setdefault(line.word(k + 1), line.word(0))

    def take_valves(self, line):
        self.links.setdefault(line.word(0), "VALVE" if line.upper(4) != "GPV" else "GPV")

    def take_curves(self, line):
        self.curves.setdefault(line.word(0), []).append((line, number(line.word(1)), number(line.word(2))))

    def take_options(self, line):
        if line.upper(0).startswith("HEADL"):
            self.headloss = line.upper(1)

    def object_of_node(self, name):
        return self.nodes.get(name)

    def object_of_link(self, name):
        return {"CV": "PIPE", "GPV": "VALVE"}.get(self.links.get(name), self.links.get(name))

    def new_curve(self, pump):
        name = ("pump_" + pump)[:LONGEST_NAME]
        while name in self.curves:
            name = name[1:] + "x"
        self.curves[name] = []
        return name


class Preparing:
    """Rewrites line by line and keeps what is to be told."""

    def __init__(self, lines):
        self.lines, self.net, self.acting = lines, Network(lines), False
        self.changes, self.advice = [], []

    def changed(self, line, what):
        self.changes.append((line.place, what))

    def advise(self, line, what):
        self.advice.append((line.place if line else 0, what))

    def replace(self, line, k, new, what=None):
        old = line.word(k)
        if old.upper() != new.upper():
            line.put(k, new)
            self.changed(line, f"{what or 'word'}: {old} is written {new}")

    def whole(self, line, k, table, what=None):
        """Writes out word k where EPANET takes it by its beginning; gives the whole word in capitals, or None."""
        found = whole_word(line.word(k), table) if k < len(line.words) else None
        if found:
            self.replace(line, k, found, what or "keyword")
        return found

    def drop(self, line, why):
        old = line.text.strip()
        line.leave_out()
        self.changed(line, f"{why}: left out: {old}")

    # the parts that all lines have

    def run(self):
        for line in self.lines:
            if line.section == "END" and not line.upper(0).startswith("[END"):
                continue
            self.any_line(line)
            if line.words and line.section in READ and not line.word(0).startswith("["):
                self.names_and_bytes(line)
                getattr(self, line.section.lower())(line)
            elif line.words and line.section == "ROUGHNESS" and not line.word(0).startswith("["):
                self.drop(line, "EPANET reads no line of this section")
        self.pump_curves()
        if self.net.headloss is None:
            self.advise(None, "no line HEADLOSS: EPANET takes H-W then. hyd wants the line: HEADLOSS H-W where each roughness "
                              "is a C of Hazen-Williams, HEADLOSS C-M where it is Manning's n")

    def any_line(self, line):
        body = line.text.split(";", 1)[0]
        if len(line.text.encode("latin-1")) > LONGEST_LINE and len(body) <= LONGEST_LINE:
            line.text = body.rstrip()  # (the words stay)
            self.changed(line, f"a line of more than {LONGEST_LINE} bytes: its comment is left out")
        if line.words and line.word(0).startswith("["):
            self.heading(line)

    def heading(self, line):
        if line.section is None:
            self.advise(line, f"EPANET 2.2 has no section {line.word(0)}: leave it out if heads and flows don't rest "
                              "on it")
            return
        if len(line.words) > 1:
            rest = " ".join(line.words[1:])
            line.cut_from(1)
            self.changed(line, f"words behind a heading, which EPANET doesn't read: left out: {rest}")
        if line.section == "ROUGHNESS":
            self.drop(line, "EPANET reads no line of this section")
        else:
            self.replace(line, 0, f"[{line.section}]", "heading")

    def names_and_bytes(self, line):
        body = line.text.split(";", 1)[0]
        if any(not (" " <= c <= "~" or c == "\t") for c in body):
            self.advise(line, "a byte that isn't ASCII: hyd takes letters without accents alone; rename it everywhere")

    # nodes

    def junctions(self, line):
        if len(line.words) == 1:
            line.add("0")
            self.changed(line, "a junction without an elevation: EPANET takes 0, which is written")

    def reservoirs(self, line):
        pass

    def tanks(self, line):
        if len(line.words) <= 3:
            line.before.append("[RESERVOIRS]")
            line.behind.append("[TANKS]")
            self.changed(line, "a tank without levels is a reservoir: written in RESERVOIRS")

    def demands(self, line):
        if line.upper(0).startswith("MULTIPLY"):
            line.before.append("[OPTIONS]")
            line.behind.append("[DEMANDS]")
            old = line.text.strip()
            line.put(0, "DEMAND MULTIPLIER")
            self.changed(line, f"{old} is written DEMAND MULTIPLIER in OPTIONS")
        elif self.net.object_of_node(line.word(0)) in ("RESERVOIR", "TANK"):
            self.drop(line, "a demand at a reservoir or tank, which EPANET passes over")

    def emitters(self, line):
        pass

    def patterns(self, line):
        pass

    def curves(self, line):
        pass

    # links

    def pipes(self, line):
        last = len(line.words) - 1
        if last in (6, 7) and number(line.word(last)) is None:
            self.whole(line, last, {"OPEN": "OPEN", "CLOSED": "CLOSED", "CV": "CV"}, "status")

    def pumps(self, line):
        values = [number(word) for word in line.words[3:]]
        if values and values[0] is not None:
            return self.old_pump(line, values)
        for k in range(3, len(line.words), 2):
            key = self.whole(line, k, {"HEAD": "HEAD", "POWE": "POWER", "SPEE": "SPEED", "PATT": "PATTERN"})
            if key == "POWER":
                self.power(line)

    def power(self, line):
        self.advise(line, f"pump {line.word(0)} has constant power, which hyd leaves out: give it a curve of heads and "
                          "flows (HEAD) near where it runs")

    def old_pump(self, line, values):
        """The forms of EPANET 1: a power; a head and a flow; heads and flows of three points."""
        if len(values) == 1:
            return self.power(line)
        if None in values or len(values) not in (2, 5):
            return self.advise(line, "numbers of a pump that EPANET doesn't take either")
        name = self.net.new_curve(line.word(0))
        if len(values) == 2:
            points = [(values[1], values[0])]
        else:
            points = [(Decimal(0), values[0]), (values[2], values[1]), (values[4], values[3])]
        old = " ".join(line.words[3:])
        line.cut_from(3)
        line.add(f"HEAD {name}")
        rows = [f" {name} {plain(q)} {plain(h)}" for q, h in points]
        line.behind += ["[CURVES]"] + rows + ["[PUMPS]"]
        self.changed(line, f"the old form of a pump, {old}: written HEAD {name}, with that curve in CURVES")
        if len(points) == 3 and not is_parabola(points):
            self.three_points(line, name, line.word(0), points)

    def valves(self, line):
        kind = self.whole(line, 4, {k: k for k in "PRV PSV PBV FCV TCV GPV".split()})
        if kind in ("PRV", "PSV", "PBV"):
            self.advise(line, f"valve {line.word(0)} is a {kind}, which hyd leaves out. Where its state is known: a "
                              "closed pipe, an open one, or a TCV with the loss that the valve has there; or a FCV "
                              "with its flow")

    def status(self, line):
        if self.net.links.get(line.word(0)) in ("PIPE",) and number(line.word(1)) is not None:
            self.number_on_pipe(line, 1)
        else:
            self.whole(line, 1, STATES, "state")

    def number_on_pipe(self, line, k):
        new = "CLOSED" if number(line.word(k)) == 0 else "OPEN"
        self.replace(line, k, new, "a number as the state of a pipe, which EPANET takes for open, for closed where it "
                                   "is 0")

    # the pumps' curves, once all lines are read

    def pump_curves(self):
        for name, pump in self.net.pump_of.items():
            rows = self.net.curves.get(name, [])
            points = [(q, h) for _, q, h in rows]
            if any(None in point for point in points):
                continue
            if len(points) == 2 or len(points) == 3 and points[0][0] != 0:
                self.straight_lines(name, pump, rows, points)
            elif len(points) == 3 and not is_parabola(points):
                self.three_points(rows[0][0], name, pump, points)

    def straight_lines(self, name, pump, rows, points):
        """EPANET joins such points by straight lines; hyd does so from four points on. So points are put between."""
        falls = all(a[0] < b[0] and a[1] > b[1] for a, b in zip(points, points[1:]))
        if not falls or points[0][0] < 0 or points[-1][1] < 0:
            return self.advise(rows[0][0], f"curve {name} of pump {pump}: flows must rise and heads fall, none below 0")
        (q0, h0), (q1, h1) = points[:2]
        parts = (4, 2) if len(points) == 2 else (2,)
        between = [(q0 + (q1 - q0) / part, h0 + (h1 - h0) / part) for part in parts]
        rows[0][0].behind += [f" {name} {plain(q)} {plain(h)}" for q, h in between]
        self.changed(rows[0][0], f"curve {name} of pump {pump} has {len(points)} points that EPANET joins by straight "
                                 f"lines: {len(between)} more on the first line, so that hyd does")

    def three_points(self, line, name, pump, points):
        fit = epanet_fit(points)
        said = (f"curve {name} of pump {pump}: three points that aren't a parabola with its top at flow 0, which hyd "
                "leaves out")
        if fit is None:
            return self.advise(line, said + ", and EPANET has no fit through them either")
        h0, b, n = fit
        said += f". EPANET's fit is h = {h0:.9g} - {b:.9g} q^{n:.9g}. Straight lines with a fourth point on it"
        if points[2][1] > 0:
            q = (h0 / b) ** (1 / n)
            fourth = (q, 0.0)
            where = f", where the head is 0, stand for it: a line '{name} {q:.4f} 0' behind the others"
        else:
            q = float(points[1][0] + points[2][0]) / 2
            fourth = (q, h0 - b * q ** n)
            where = f" stand for it: a line '{name} {q:.4f} {fourth[1]:.4f}' before the last one"
        far, at = farthest(sorted([(float(q), float(h)) for q, h in points] + [fourth]), fit)
        said += f"{where}. They run from the fit by {far:.4g} of head at most, {100 * far / h0:.1f} % of that at "
        said += f"flow 0, at flow {at:.4g}; more points on the fit come nearer"
        self.advise(line, said)

    # options and times

    def options(self, line):
        key = whole_word(line.word(0), OPTIONS)
        if line.upper(0).startswith(IDLE_OPTIONS):
            return self.drop(line, "an option by which EPANET comes nearer to a solution at most")
        if key == "MINIMUM" and line.upper(1).startswith("TRAV"):
            return self.drop(line, "an option by which EPANET comes nearer to a solution at most")
        if key is None:
            return self.advise(line, f"hyd has no option {line.word(0)}")
        self.whole(line, 0, OPTIONS)
        if key in SECOND:
            self.whole(line, 1, SECOND[key])
        if len(line.words) < (3 if key in SECOND and line.upper(1) not in ("PSI", "KPA", "METERS") else 2):
            if key not in ("MAP", "QUALITY", "HYDRAULICS", "UNBALANCED"):
                return self.drop(line, "an option without a value, for which EPANET takes what it has by default")
        self.option_values(line, key)

    def option_values(self, line, key):
        last = line.upper(len(line.words) - 1)
        if key == "UNITS" and last == "SI":
            self.replace(line, 1, "LPS", "flow unit")
        elif key == "UNITS":
            if last == "CMS":
                self.advise(line, "hyd has no flows in cubic metres a second: convert them, to CMH or LPS")
        elif key == "HEADLOSS" and last not in ("C-M", "H-W"):
            self.advise(line, f"HEADLOSS {last}: hyd takes C-M and H-W alone")
        elif key == "PRESSURE" and last == "KPA":
            self.advise(line, "pressures in kPa: hyd prints psi or metres, by the flow unit; where the file asks for "
                              "no pressure (PDA, rules, emitters), leave this line out")
        elif line.upper(1) == "EXPONENT" and number(last) not in (None, Decimal("0.5")):
            self.advise(line, f"{key} EXPONENT {last}: hyd has 0.5 alone")
        elif key == "SPECIFIC" and number(last) not in (None, Decimal(1)):
            self.advise(line, f"SPECIFIC GRAVITY {last}: hyd has 1 alone; pressures are then those of water")

    def times(self, line):
        if line.upper(0).startswith("MINI"):
            return self.drop(line, "a time that EPANET doesn't use")
        if line.upper(0) == "TOTAL" and line.upper(1).startswith("DURA"):
            line.put(0, "")
            self.changed(line, "TOTAL DURATION is written DURATION")
        key = self.whole(line, 0, TIMES)
        if key is None or key == "STATISTIC":
            return
        k = 1
        if key != "DURATION":
            k = self.second_of_time(line, key)
        if key == "START":
            self.clock(line, k)
        elif key != "QUALITY":
            self.time(line, k, True)

    def second_of_time(self, line, key):
        """Writes the second word of a time out, or puts it in where EPANET goes without."""
        seconds = {"START": {"CLOCK": "CLOCKTIME"}, "PATTERN": {"TIME": "TIMESTEP", "STAR": "START"},
                   "REPORT": {"TIME": "TIMESTEP", "STAR": "START"}}.get(key, {"TIME": "TIMESTEP"})
        if line.upper(1)[:1].isalpha():
            if self.whole(line, 1, seconds) is None and key not in ("PATTERN", "REPORT"):
                # (EPANET doesn't look at the second word of these)
                self.replace(line, 1, next(iter(seconds.values())), "keyword")
        elif line.word(1) and key not in ("PATTERN", "REPORT"):
            word = next(iter(seconds.values()))
            line.put(0, f"{line.word(0)} {word}")
            self.changed(line, f"keyword: {key} alone is written {key} {word}")
        return 2

    def time(self, line, k, rounds=False):
        """A time from word k on."""
        word, unit = line.word(k), line.upper(k + 1)
        if ":" in word:
            self.clock_digits(line, k)
            if unit.startswith("HOU"):
                line.cut_from(k + 1)
                self.changed(line, f"time: {word} {unit.lower()} is written {word}")
            return
        if unit and unit not in KNOWN_UNITS:
            other = ", which EPANET doesn't take either" if unit.startswith("HR") else ""
            self.whole(line, k + 1, TIME_UNITS, "unit of time" + other)
        seconds = seconds_of(word, line.upper(k + 1))
        if rounds and seconds is not None and seconds != int(seconds) and seconds - int(seconds) >= Decimal("0.5"):
            self.advise(line, f"{word} {unit.lower()} is {plain(seconds)} seconds: EPANET rounds, hyd cuts to "
                              f"{int(seconds)}; write h:mm:ss")

    def clock_digits(self, line, k):
        """h:mm:ss with minutes or seconds of 60 and more."""
        m = re.fullmatch(r"(\d{1,6}):(\d{1,3})(?::(\d{1,3}))?", line.word(k))
        if m and (int(m[2]) > 59 or int(m[3] or 0) > 59):
            all_seconds = int(m[1]) * 3600 + int(m[2]) * 60 + int(m[3] or 0)
            hours, rest = divmod(all_seconds, 3600)
            self.replace(line, k, f"{hours}:{rest // 60:02d}:{rest % 60:02d}", "time")

    def clock(self, line, k):
        """A time of day from word k on: hour 0 with AM or PM is hour 12."""
        word, half = line.word(k), line.upper(k + 1)
        if half not in ("AM", "PM"):
            if ":" in word and half.startswith("HOU"):
                self.time(line, k)
            return
        m = re.fullmatch(r"0{1,2}(:\d{1,2}(?::\d{1,2})?)", word)
        if m:
            self.replace(line, k, "12" + m[1], f"time of day {word} {half}")
        elif number(word) is not None and 0 <= number(word) < 1:
            self.replace(line, k, plain(number(word) + 12), f"time of day {word} {half}")

    # controls and rules

    def own_kind(self, line, k, name, own, free):
        """The word for a kind of node or link: EPANET doesn't look at it, hyd does."""
        word = self.whole(line, k, OBJECTS)
        if own is None or word == own or word == free:
            return
        self.replace(line, k, own, f"{name} is a {own.lower()}")

    def controls(self, line):
        link = line.word(1)
        self.own_kind(line, 0, link, self.net.object_of_link(link), "LINK")
        self.state_of_control(line, link)
        self.whole(line, 3, {"IF": "IF", "AT": "AT"})
        what = line.upper(4)
        if what.startswith("CLOCKTIME"):
            self.whole(line, 4, {"CLOCKTIME": "CLOCKTIME"})
            self.clock(line, 5)
        elif what.startswith("TIME"):
            self.whole(line, 4, {"TIME": "TIME"})
            self.time(line, 5)
        else:
            self.level_control(line)

    def state_of_control(self, line, link):
        kind = self.net.links.get(link)
        if kind == "PIPE" and number(line.word(2)) is not None:
            self.number_on_pipe(line, 2)
        else:
            self.whole(line, 2, STATES, "state")
        if kind == "CV":
            self.advise(line, f"{link} is a check valve, which neither EPANET nor hyd lets a control set")

    def level_control(self, line):
        node = line.word(5)
        own = self.net.object_of_node(node)
        self.own_kind(line, 4, node, own, "NODE")
        self.whole(line, 6, {"ABOVE": "ABOVE", "BELOW": "BELOW"})
        if own in ("JUNCTION", "RESERVOIR"):
            what = "PRESSURE" if own == "JUNCTION" else "HEAD"
            self.advise(line, f"a control by the pressure at {node}, which hyd leaves out: a rule may look at it "
                              f"(IF {own} {node} {what} ..), which is tried at rule steps and acts at the end of a "
                              "period")

    def rules(self, line):
        key = self.whole(line, 0, RULE_WORDS)
        if key in ("THEN", "ELSE"):
            self.acting = True
        elif key in ("RULE", "IF"):
            self.acting = False
        if key in ("RULE", "PRIORITY", None):
            return
        if self.acting:
            self.action(line)
        else:
            self.clause(line)

    def clause(self, line):
        word, name = whole_word(line.word(1), OBJECTS), line.word(2)
        if word == "SYSTEM":
            return self.clause_of_system(line)
        attribute = self.whole(line, 3, ATTRIBUTES, "keyword")
        own = self.net.object_of_node(name) if word in ("NODE", "JUNCTION", "RESERVOIR", "TANK") else \
            self.net.object_of_link(name)
        needs_own = attribute == "LEVEL" and own == "TANK" or attribute == "SETTING"
        self.own_kind(line, 1, name, own, None if needs_own else ("NODE" if word in ("NODE",) else "LINK"))
        if attribute in ("DEMAND", "FILLTIME", "DRAINTIME"):
            self.advise(line, f"hyd's rules don't look at {attribute}: LEVEL, HEAD, PRESSURE, FLOW, STATUS, SETTING "
                              "and times are what they see")
        elif attribute != "STATUS" and line.upper(4) in EQUALITIES:
            self.advise(line, f"a quantity is asked to be {line.word(4)} a value: hyd compares by <, <=, >, >= alone")
        elif attribute == "LEVEL" and own in ("JUNCTION", "RESERVOIR"):
            self.advise(line, f"LEVEL of a {own.lower()}: hyd has it of tanks alone; HEAD is elevation and level")
        elif attribute == "PRESSURE" and own == "RESERVOIR":
            self.advise(line, "PRESSURE of a reservoir: hyd has HEAD of one")

    def clause_of_system(self, line):
        self.whole(line, 1, OBJECTS)
        attribute = self.whole(line, 2, ATTRIBUTES)
        if attribute == "CLOCKTIME":
            self.clock(line, 4)
        elif attribute == "TIME":
            self.time(line, 4)
        elif attribute == "DEMAND":
            self.advise(line, "hyd's rules don't look at the demand of the whole system")

    def action(self, line):
        link = line.word(2)
        kind, own = self.net.links.get(link), self.net.object_of_link(link)
        value = number(line.word(5))
        if value is not None and kind == "PIPE":
            self.number_on_pipe(line, 5)
            value = None
        if len(line.words) < 6:
            return
        if value is None:
            self.replace(line, 3, "STATUS", "what an action sets")
            self.whole(line, 5, STATES, "state")
            self.own_kind(line, 1, link, own, "LINK")
            if line.upper(5) == "ACTIVE":
                self.advise(line, "an action sets OPEN, CLOSED or a number: give the setting with which the valve is "
                                  "active")
        else:
            self.replace(line, 3, "SETTING", "what an action sets")
            self.own_kind(line, 1, link, own, None)


def is_parabola(points):
    """As hyd asks: from flow 0, falling, with what the heads fall by the square of the flow."""
    (q0, h0), (q1, h1), (q2, h2) = points
    return q0 == 0 and 0 < q1 < q2 and h0 > h1 > h2 and (h0 - h2) * q1 * q1 == (h0 - h1) * q2 * q2


def epanet_fit(points):
    """h0, b and n of h = h0 - b q^n, as EPANET fits three points from flow 0; None where it has no fit."""
    (q0, h0), (q1, h1), (q2, h2) = [(float(q), float(h)) for q, h in points]
    if q0 != 0 or min(h0, h0 - h1, h1 - h2, q1, q2 - q1) <= 0:
        return None
    n = log((h0 - h2) / (h0 - h1)) / log(q2 / q1)
    return (h0, (h0 - h1) / q1 ** n, n) if 0 < n <= 20 else None


def farthest(points, fit):
    """How far straight lines through points run from a fit, in head, and at which flow."""
    (h0, b, n), found = fit, (0.0, 0.0)
    for (q0, y0), (q1, y1) in zip(points, points[1:]):
        for k in range(1, 200):
            q = q0 + (q1 - q0) * k / 200
            found = max(found, (abs(y0 + (y1 - y0) * k / 200 - (h0 - b * q ** n)), q))
    return found


def seconds_of(word, unit):
    """The seconds of a time without a colon, or None."""
    value = number(word)
    each = {"SEC": 1, "MIN": 60, "HOU": 3600, "DAY": 86400, "": 3600}.get(unit[:3])
    return None if value is None or each is None else value * each


def two_byte_code(data):
    """The code of a text of two bytes for each letter, by its first bytes; None of any other."""
    if data[:2] in (b"\xff\xfe", b"\xfe\xff"):
        return "utf-16"
    if len(data) > 1 and 0 in data[:2] and any(data[:2]):
        return "utf-16-le" if data[1] == 0 else "utf-16-be"
    return None


def read_lines(data):
    """The lines of a text, each with its section; and what was changed of the text as a whole."""
    said = []
    two_bytes = two_byte_code(data)
    if two_bytes:
        data = data.decode(two_bytes, "replace").lstrip("\ufeff").encode("utf-8")
        said.append((1, "two bytes for each letter (UTF-16): one for each (UTF-8)"))
    if data.startswith(b"\xef\xbb\xbf"):
        data = data[3:]
        said.append((1, "a byte order mark: left out"))
    text = data.decode("latin-1")
    if "\r" in text.replace("\r\n", ""):
        text = text.replace("\r\n", "\n").replace("\r", "\n")
        said.append((1, "lines that end by a carriage return alone: by a line feed"))
    lines, section = [], ""
    for place, raw in enumerate(text.replace("\r\n", "\n").split("\n"), 1):
        line = Line(place, raw, section)
        if section != "END" and line.words and line.word(0).startswith("["):
            name = line.upper(0)[1:]
            section = "END" if name.startswith("END") else SECTIONS.get(name[:4])
            line.section = section
        lines.append(line)
    return lines, said


def text_of(lines, end):
    out = []
    for line in lines:
        out += line.before + [line.text] + line.behind
    while out and not out[-1].strip():
        out.pop()
    return (end.join(out) + end).encode("latin-1")


def main():
    words = argparse.ArgumentParser(description=__doc__, formatter_class=argparse.RawDescriptionHelpFormatter)
    words.add_argument("file", metavar="FILE.inp")
    words.add_argument("-o", dest="new", metavar="NEW.inp", required=True)
    args = words.parse_args()
    try:
        with open(args.file, "rb") as file:
            data = file.read()
        if os.path.exists(args.new) and os.path.samefile(args.file, args.new):
            print(f"prepare: {args.new} is the file that is read: give another name", file=sys.stderr)
            return 2
        lines, said = read_lines(data)
        work = Preparing(lines)
        work.run()
        with open(args.new, "wb") as file:
            returns = b"\r\n" in data or b"\r\0\n" in data
            file.write(text_of(lines, "\r\n" if returns else "\n"))
    except OSError as fault:
        print(f"prepare: {fault}", file=sys.stderr)
        return 2
    for place, what in sorted(said + work.changes, key=lambda item: item[0]):
        print(f"{args.file}:{place}: {what}", file=sys.stderr)
    for place, what in sorted(work.advice, key=lambda item: item[0]):
        print(f"{args.file}:{place}: NOT CHANGED: {what}", file=sys.stderr)
    changes, rest = len(said) + len(work.changes), len(work.advice)
    print(f"prepare: {changes} changes; {rest} things are left that this script knows and does not change; hyd may refuse others", file=sys.stderr)
    return 1 if rest else 0


if __name__ == "__main__":
    sys.exit(main())
