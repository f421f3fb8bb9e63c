#!/usr/bin/env python3
"""Tables and pictures of a report that hyd printed.

    scripts/report.py tables REPORT FOLDER [--net NET]
    scripts/report.py plot REPORT IDS.. -o FILE.svg [--net NET]
    scripts/report.py map NET REPORT [TIME] -o FILE.svg [--flow] [--names]

`tables` writes nodes.csv, links.csv, tanks.csv and events.csv: a row for each node (link, tank) and time, with the
lower and the upper end in columns; of a run with --flows it writes flows.csv too, with the narrower intervals of its FLOW
lines. In events.csv `last` is the last time of a line with two times (of a run with --slack), else its one time. A
spreadsheet opens them, and so does pandas.read_csv. A report has no units: with --net they are taken from the file and
stand in the headings.

`plot` draws over time what the IDs have: the level of a tank, the pressure of a junction, the flow of a link. What is
drawn is the band between the two ends at the report's times, joined to guide the eye where no event lies between;
events, controls and rules are lines across, at the first time where a line tells two. Where a node and a link have one
name, node:NAME and link:NAME tell them apart.

`map` draws the network by its [COORDINATES] at a TIME of the report, h:mm:ss (the first one without it). Junctions are
coloured by the lower end of the pressure, or with --flow links by the least flow that they carry for sure. Links whose
status is UNSURE are dashed, and junctions whose pressure isn't known to a tenth of its unit have a ring.

Tables need Python 3 alone; pictures need matplotlib (Debian: python3-matplotlib).
"""
import argparse
import csv
import io
import math
import os
import re
import sys

US_UNITS = ("CFS", "GPM", "MGD", "IMGD", "AFD")
WIDE = 0.1


class Fault(Exception):
    """What the user is told."""


def seconds_of(text):
    """The seconds of h:mm:ss, h:mm or a number of hours."""
    try:
        parts = [float(part) for part in text.split(":")]
    except ValueError:
        raise Fault(f"{text} isn't a time: write h:mm:ss") from None
    return round(sum(part * each for part, each in zip(parts, (3600, 60, 1))))


def clock(seconds):
    return f"{seconds // 3600}:{seconds // 60 % 60:02d}:{seconds % 60:02d}"


class Report:
    """The lines of a report. Each of nodes, tanks and links has one dictionary a line."""

    def __init__(self, name):
        self.nodes, self.tanks, self.links, self.events, self.times, self.last = [], [], [], [], [], ""
        self.flows = []
        with open(name, encoding="ascii", errors="replace") as file:
            lines = file.read().splitlines()
        if not lines or lines[0] != "HYD 1":
            raise Fault(f"{name} isn't a report of hyd: its first line isn't HYD 1")
        for line in lines[1:]:
            words = line.split()
            take = getattr(self, "take_" + words[0].lower(), None) if words else None
            if take:
                take(words)
        self.last = lines[-1]

    def take_time(self, words):
        self.times.append(seconds_of(words[1]))

    def now(self, words, **values):
        return dict(time=self.times[-1], kind=words[0], id=words[1], **values)

    @staticmethod
    def pair(words, k):
        return float(words[k]), float(words[k + 1])

    def take_junction(self, words):
        self.nodes.append(self.now(words, head=self.pair(words, 3), pressure=self.pair(words, 6),
                                   outflow=self.pair(words, 9)))

    def take_reservoir(self, words):
        self.nodes.append(self.now(words, head=self.pair(words, 3)))

    def take_tank(self, words):
        row = self.now(words, head=self.pair(words, 3), level=self.pair(words, 6), inflow=self.pair(words, 9),
                       state=words[12])
        self.nodes.append(row)
        self.tanks.append(row)

    def take_link(self, words):
        self.links.append(self.now(words, flow=self.pair(words, 3), status=words[6]))

    def take_flow(self, words):
        self.flows.append(dict(time=seconds_of(words[1]), id=words[2], flow=self.pair(words, 3)))

    def take_event(self, words):
        self.event("EVENT", "", words[1:])

    def take_control(self, words):
        self.event("CONTROL", words[1], words[2:])

    def take_rule(self, words):
        self.event("RULE", words[1], words[2:])

    def event(self, line, cause, words):
        """What happened at a time, or from a first one to a last one (of a run with --slack)."""
        last = 0 if words[1] in ("TANK", "LINK") else 1
        rest = words[last + 1:]
        self.events.append(dict(time=seconds_of(words[0]), last=clock(seconds_of(words[last])), line=line, cause=cause,
                                object=rest[0], id=rest[1], what=" ".join(rest[2:])))


class Net:
    """What pictures and headings take from the input file: the flow unit, ends of links, places."""

    def __init__(self, name):
        self.unit, self.ends, self.places, self.bends = "GPM", {}, {}, {}
        section = ""
        with open(name, encoding="latin-1") as file:
            for line in file:
                words = line.split(";", 1)[0].split()
                if words and words[0].startswith("["):
                    section = words[0][1:5].upper()
                elif words:
                    self.take(section, words)
                if section == "END]":
                    break

    def take(self, section, words):
        if section == "OPTI" and words[0].upper().startswith("UNIT") and len(words) > 1:
            self.unit = words[1].upper()
        elif section in ("PIPE", "PUMP", "VALV") and len(words) > 2:
            self.ends[words[0]] = words[1], words[2]
        elif section in ("COOR", "VERT") and len(words) > 2:
            try:
                place = float(words[1]), float(words[2])
            except ValueError:
                raise Fault(f"a place that isn't two numbers: {' '.join(words)}") from None
            if section == "COOR":
                self.places[words[0]] = place
            else:
                self.bends.setdefault(words[0], []).append(place)

    def unit_of(self, quantity):
        if quantity in ("flow", "outflow", "inflow"):
            return self.unit
        if quantity == "pressure":
            return "psi" if self.unit in US_UNITS else "m"
        return "ft" if self.unit in US_UNITS else "m"


# tables

def headings(quantities, net):
    """Two columns a quantity, by its name, the end, and the unit where it is known."""
    unit = {q: "_" + net.unit_of(q) if net else "" for q in quantities}
    return [f"{q}_{end}{unit[q]}" for q in quantities for end in ("low", "high")]


def write_table(folder, name, words, quantities, rows, net):
    """One row a line of the report: its time, words of it, and both ends of each quantity that it has."""
    with open(os.path.join(folder, name), "w", newline="", encoding="ascii") as file:
        out = csv.writer(file)
        out.writerow(["time_s", "time"] + words + headings(quantities, net))
        for row in rows:
            ends = [row[q][k] if q in row else "" for q in quantities for k in (0, 1)]
            out.writerow([row["time"], clock(row["time"])] + [row[word] for word in words] + ends)


def tables(args):
    report, net = Report(args.report), Net(args.net) if args.net else None
    os.makedirs(args.folder, exist_ok=True)
    write_table(args.folder, "nodes.csv", ["kind", "id"], ["head", "pressure", "outflow"], report.nodes, net)
    write_table(args.folder, "tanks.csv", ["id", "state"], ["level", "inflow"], report.tanks, net)
    write_table(args.folder, "links.csv", ["id", "status"], ["flow"], report.links, net)
    if report.flows:
        write_table(args.folder, "flows.csv", ["id"], ["flow"], report.flows, net)
    write_table(args.folder, "events.csv", ["last", "line", "cause", "object", "id", "what"], [], report.events, None)
    print(f"report: {len(report.nodes)} rows of nodes, {len(report.tanks)} of tanks, {len(report.links)} of links, "
          f"{len(report.events)} events; the report ends by {report.last}", file=sys.stderr)


# pictures

def drawing():
    """matplotlib, set to files alone, or a fault that says where it is had."""
    try:
        import matplotlib
    except ImportError:
        raise Fault(f"matplotlib is missing in {sys.executable}. Debian has it as python3-matplotlib, for "
                    "/usr/bin/python3: apt-get install python3-matplotlib, then /usr/bin/python3 scripts/report.py .."
                    ) from None
    matplotlib.use("svg")
    import matplotlib.pyplot as pyplot
    matplotlib.rcParams.update({"svg.fonttype": "none", "svg.hashsalt": "hyd", "font.size": 9, "axes.spines.top": False,
                                "axes.spines.right": False, "font.family": "sans-serif"})
    return pyplot


def save(figure, name):
    """Writes a picture, with coordinates to hundredths, so that it is small."""
    text = io.StringIO()
    figure.savefig(text, format="svg", bbox_inches="tight", metadata={"Date": None})
    short = re.sub(r"-?\d+\.\d{3,}", lambda number: format(round(float(number[0]), 2), "g"), text.getvalue())
    with open(name, "w", encoding="utf-8") as file:
        file.write(re.sub(r"\n\s*", "\n", short))


def series_of(report, word):
    """What a word of the command asks for: (quantity, label, rows) of nodes and links of that name."""
    kind, _, name = word.partition(":") if word.startswith(("node:", "link:")) else ("", "", word)
    found = []
    for quantity, rows in (("level", report.tanks), ("pressure", report.nodes), ("flow", report.links)):
        if kind == ("node" if quantity == "flow" else "link"):
            continue
        mine = [row for row in rows if row["id"] == name and quantity in row]
        if mine:
            found.append((quantity, f"{mine[0]['kind'].lower()} {name}", mine))
    if not found:
        raise Fault(f"no tank, junction or link of the report is called {name}")
    return found


def plot(args):
    report, net = Report(args.report), Net(args.net) if args.net else None
    found = [one for word in args.ids for one in series_of(report, word)]
    pyplot = drawing()
    quantities = [q for q in ("level", "pressure", "flow") if any(one[0] == q for one in found)]
    figure, panels = pyplot.subplots(len(quantities), 1, sharex=True, squeeze=False,
                                     figsize=(7, 0.6 + 1.9 * len(quantities)))
    for quantity, panel in zip(quantities, panels[:, 0]):
        for _, label, rows in (one for one in found if one[0] == quantity):
            draw_band(panel, quantity, label, rows, [event["time"] for event in report.events])
        panel.set_ylabel(quantity + (f", {net.unit_of(quantity)}" if net else ""))
        panel.grid(True, linewidth=0.3)
        panel.legend(frameon=False, loc="center left", bbox_to_anchor=(1.0, 0.5))
    mark_events(report, panels[:, 0])
    panels[-1, 0].set_xlabel("hours")
    save(figure, args.out)


def draw_band(panel, quantity, label, rows, events):
    """The band between both ends. Pressures and flows stay as they are for a time, and nothing is known behind an event,
    nor how a level goes where one lies between two times: a thin line goes across there."""
    points, steps = [(row["time"], *row[quantity]) for row in rows], quantity != "level"
    for a, b in zip(rows, rows[1:]):
        first = min((time for time in events if a["time"] < time < b["time"]), default=None)
        if first is not None:
            points += [(first, *a[quantity])] * steps + [(first, math.nan, math.nan)]
    points.sort(key=lambda point: point[0])
    hours = [time / 3600 for time, _, _ in points]
    low, high = [point[1] for point in points], [point[2] for point in points]
    style = "steps-post" if steps else "default"
    line = panel.plot(hours, low, drawstyle=style, linewidth=0.8, marker="o", markersize=2.5, label=label)[0]
    panel.plot(hours, high, drawstyle=style, linewidth=0.8, color=line.get_color())
    panel.fill_between(hours, low, high, step="post" if steps else None, alpha=0.4, color=line.get_color())
    if not steps and len(points) > len(rows):
        panel.plot([row["time"] / 3600 for row in rows], [row[quantity][0] for row in rows], linewidth=0.4, linestyle="--",
                   color=line.get_color())


def mark_events(report, panels):
    """A line across at each instant at which something happens, and what happens above the first panel."""
    said = {}
    for event in report.events:
        what = event["what"].lower()
        if event["line"] == "EVENT" and what.startswith("control"):
            continue  # (the line of the control itself follows, at the same second)
        what = "on" if what == "setting 1.000000000" and event["object"] == "LINK" else shorter(what)
        said.setdefault(event["time"], []).append(f"{event['id']} {what}")
    last = None
    for time, words in sorted(said.items()):
        for panel in panels:
            panel.axvline(time / 3600, color="0.4", linewidth=0.6, linestyle=":")
        near = last is not None and time - last < (report.times[-1] - report.times[0]) / 60
        last = time
        if not near:
            panels[0].text(time / 3600, 1.02, ", ".join(dict.fromkeys(words)), rotation=40, fontsize=7, ha="left",
                           va="bottom", transform=panels[0].get_xaxis_transform())


def shorter(what):
    """A setting without the zeros behind it."""
    words = what.split()
    return f"set to {float(words[1]):g}" if words[0] == "setting" else what


def draw_map(args):
    net, report = Net(args.net), Report(args.report)
    time = seconds_of(args.time) if args.time else (report.times[0] if report.times else None)
    if time not in report.times:
        shown = ", ".join(clock(t) for t in report.times[:30])
        raise Fault(f"the report has no lines of {args.time or 'any time'}; it has {shown or 'none'}")
    nodes = {row["id"]: row for row in report.nodes if row["time"] == time}
    links = {row["id"]: row for row in report.links if row["time"] == time}
    homeless = [name for name in nodes if name not in net.places]
    if len(homeless) == len(nodes):
        raise Fault(f"{args.net} has no places of its nodes in [COORDINATES]")
    if homeless:
        print(f"report: without a place in [COORDINATES], and not drawn: {' '.join(homeless)}", file=sys.stderr)
    pyplot = drawing()
    figure, panel = pyplot.subplots(figsize=(6.4, 4.6))
    shown = draw_links(panel, net, links, args.flow)
    mark = draw_nodes(panel, net, nodes, not args.flow)
    if args.names:
        for name in nodes:
            if name in net.places:
                panel.annotate(name, net.places[name], xytext=(4, 4), textcoords="offset points", fontsize=6.5)
    if shown if args.flow else mark:
        bar = figure.colorbar(shown if args.flow else mark, ax=panel, shrink=0.75)
        bar.outline.set_visible(False)
        what = "flow, at least" if args.flow else "pressure, lower end"
        bar.set_label(f"{what}, {net.unit_of('flow' if args.flow else 'pressure')}")
    panel.set_aspect("equal", adjustable="datalim")
    panel.axis("off")
    panel.set_title(clock(time), fontsize=9)
    figure.legend(*panel.get_legend_handles_labels(), loc="lower center", ncol=6, frameon=False, fontsize=7)
    save(figure, args.out)


def surely(flow):
    """The least that a link carries for sure, whichever way."""
    low, high = flow
    return max(low, -high, 0.0)


def draw_links(panel, net, links, coloured):
    from matplotlib.collections import LineCollection
    lines, values, styles = [], [], []
    for name, row in links.items():
        a, b = net.ends.get(name, (None, None))
        if a in net.places and b in net.places:
            line = [net.places[a]] + net.bends.get(name, []) + [net.places[b]]
            lines.append(line)
            values.append(surely(row["flow"]))
            styles.append("--" if row["status"] == "UNSURE" else ":" if row["status"] == "CLOSED" else "-")
            draw_way(panel, line, row["flow"])
    drawn = LineCollection(lines, linestyles=styles, linewidths=2 if coloured else 1, zorder=1,
                           colors=None if coloured else "0.6")
    if coloured:
        drawn.set_array(values)
        drawn.set_cmap("viridis_r")
    panel.add_collection(drawn)
    for style, word in (("-", "link"), (":", "closed"), ("--", "UNSURE")):
        if style in styles:
            panel.plot([], [], style, color="0.6", linewidth=1, label=word)
    return drawn if lines else None


def draw_way(panel, line, flow):
    """An arrow head in the middle of a link, where the way of its flow is sure."""
    low, high = flow
    if low <= 0 <= high:
        return
    (x0, y0), (x1, y1) = line[(len(line) - 1) // 2], line[(len(line) - 1) // 2 + 1]
    if high < 0:
        (x0, y0), (x1, y1) = (x1, y1), (x0, y0)
    panel.annotate("", xy=(x0 + 0.56 * (x1 - x0), y0 + 0.56 * (y1 - y0)),
                   xytext=(x0 + 0.44 * (x1 - x0), y0 + 0.44 * (y1 - y0)), zorder=2,
                   arrowprops={"arrowstyle": "-|>", "color": "0.45", "linewidth": 0, "mutation_scale": 8})


def draw_nodes(panel, net, nodes, coloured):
    mark = None
    for kind, shape, size in (("JUNCTION", "o", 34), ("RESERVOIR", "^", 60), ("TANK", "s", 50)):
        mine = [row for row in nodes.values() if row["kind"] == kind and row["id"] in net.places]
        if not mine:
            continue
        x, y = zip(*(net.places[row["id"]] for row in mine))
        if kind == "JUNCTION" and coloured:
            mark = panel.scatter(x, y, s=size, c=[row["pressure"][0] for row in mine], cmap="viridis", zorder=3,
                                 marker=shape, label="junction")
            ring(panel, net, mine)
        else:
            panel.scatter(x, y, s=size if kind != "JUNCTION" else 10, color="0.25", marker=shape, zorder=3,
                          label=kind.lower())
    return mark


def ring(panel, net, junctions):
    wide = [net.places[row["id"]] for row in junctions if row["pressure"][1] - row["pressure"][0] > WIDE]
    if wide:
        panel.scatter(*zip(*wide), s=110, facecolors="none", edgecolors="red", linestyles="--", zorder=4,
                      label=f"wider than {WIDE}")


def words_of_command():
    top = argparse.ArgumentParser(description=__doc__, formatter_class=argparse.RawDescriptionHelpFormatter)
    which = top.add_subparsers(dest="command", required=True)
    one = which.add_parser("tables")
    one.add_argument("report", metavar="REPORT")
    one.add_argument("folder", metavar="FOLDER")
    one.add_argument("--net", metavar="NET")
    one = which.add_parser("plot")
    one.add_argument("report", metavar="REPORT")
    one.add_argument("ids", metavar="IDS", nargs="+")
    one.add_argument("-o", dest="out", metavar="FILE.svg", required=True)
    one.add_argument("--net", metavar="NET")
    one = which.add_parser("map")
    one.add_argument("net", metavar="NET")
    one.add_argument("report", metavar="REPORT")
    one.add_argument("time", metavar="TIME", nargs="?")
    one.add_argument("-o", dest="out", metavar="FILE.svg", required=True)
    one.add_argument("--flow", action="store_true")
    one.add_argument("--names", action="store_true")
    return top


def main():
    args = words_of_command().parse_args()
    try:
        {"tables": tables, "plot": plot, "map": draw_map}[args.command](args)
    except (Fault, OSError) as fault:
        print(f"report: {fault}", file=sys.stderr)
        return 2
    return 0


if __name__ == "__main__":
    sys.exit(main())
