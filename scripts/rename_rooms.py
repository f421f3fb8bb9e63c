#!/usr/bin/env python3
"""Renames crates, modules and definitions with all that names them.

usage: rename_rooms.py PLAN, at the top of the repository. Each line of PLAN is one of

    crate OLD NEW
    src CRATE old new        a module of src/, with its folder of proofs
    specs CRATE Old New      a file of specs/
    proofs CRATE Old New     a file of proofs/
    word OLD NEW [CRATE ..]  an identifier, everywhere or in these crates alone

Files are moved by git mv; sources, definitions, proofs, edits, scripts and documents follow. Import lines that become too
long are split in two. Nothing is proved: rt fmt and rt ci come next. It stops before it writes where an old room isn't
there or a new name is taken.
"""
import os
import re
import subprocess
import sys

LONGEST = 120
TEXTS = (".rt", ".antt", ".edit", ".md", ".txt", ".py", ".sh")
END = r"(?![A-Za-z0-9_-])"


class Plan:
    """What is moved, and what is replaced where."""

    def __init__(self):
        self.moves, self.changes, self.faults = [], [], []

    def move(self, old, new):
        if not os.path.exists(old):
            self.faults.append(f"{old} isn't there")
        elif os.path.exists(new):
            self.faults.append(f"{new} is taken")
        self.moves.append((old, new))

    def replace(self, pattern, by, where=lambda file: True):
        self.changes.append((re.compile(pattern, re.M), by, where))


def of(crate, *ends):
    return lambda file: file.startswith((f"crates/{crate}/", f"scripts/edits/{crate}/")) and file.endswith(ends)


def plan_crate(plan, old, new):
    plan.move(f"crates/{old}", f"crates/{new}")
    if os.path.isdir(f"scripts/edits/{old}"):
        plan.move(f"scripts/edits/{old}", f"scripts/edits/{new}")
    plan.replace(rf"(?<![A-Za-z0-9_]){old}(?![A-Za-z0-9_])", new)


def plan_lemmas_or_definitions(plan, part, crate, old, new):
    plan.move(f"crates/{crate}/{part}/{old}.antt", f"crates/{crate}/{part}/{new}.antt")
    plan.replace(rf"\b(Rattle\.{crate}\.{part}\.){old}{END}", rf"\g<1>{new}")
    plan.replace(rf"\b({crate}::{part}::){old}{END}", rf"\g<1>{new}")
    plan.replace(rf"\b(crate::{part}::){old}{END}", rf"\g<1>{new}", of(crate, ".rt"))
    plan.replace(rf"(crates/{crate}/{part}/){old}{END}", rf"\g<1>{new}")
    plan.replace(rf"(file: {part}/){old}{END}", rf"\g<1>{new}", of(crate, ".edit"))
    listed = f"crates/{crate}/{part}/Lib.antt"
    plan.replace(rf"^((?:pub )?mod ){old}$", rf"\g<1>{new}", lambda file: file == listed)


def plan_source(plan, crate, old, new):
    plan.move(f"crates/{crate}/src/{old}.rt", f"crates/{crate}/src/{new}.rt")
    for part in ("src", "specs", "proofs"):
        if os.path.isdir(f"crates/{crate}/{part}/{old}"):
            plan.move(f"crates/{crate}/{part}/{old}", f"crates/{crate}/{part}/{new}")
    plan.replace(rf"\b(Rattle\.{crate}\.(?:specs\.declared|specs|proofs)\.){old}{END}", rf"\g<1>{new}")
    plan.replace(rf"\b({crate}::){old}(?=::)", rf"\g<1>{new}")
    plan.replace(rf"\b((?:crate|super)::){old}(?=::)", rf"\g<1>{new}", of(crate, ".rt"))
    plan.replace(rf"^((?:pub )?(?:mod|use) ){old}(?=;|::)", rf"\g<1>{new}", of(crate, ".rt"))
    plan.replace(rf"(crates/{crate}/(?:src|proofs)/){old}(?=\.rt|/)", rf"\g<1>{new}")
    plan.replace(rf"(file: (?:src|proofs)/){old}(?=\.rt|/)", rf"\g<1>{new}", of(crate, ".edit"))


def plan_word(plan, old, new, *crates):
    inside = tuple(f"crates/{it}/" for it in crates) + tuple(f"scripts/edits/{it}/" for it in crates)
    where = lambda file: file.endswith((".rt", ".antt", ".edit")) and (not crates or file.startswith(inside))
    plan.replace(rf"(?<![A-Za-z0-9_-]){re.escape(old)}{END}", new, where)


def plan_of(lines):
    plan = Plan()
    # (crates last: the lines before name rooms by the old crates)
    for line in sorted(lines, key=lambda it: it[0] == "crate"):
        kind, given = line[0], line[1:]
        if kind == "crate":
            plan_crate(plan, *given)
        elif kind == "src":
            plan_source(plan, *given)
        elif kind in ("specs", "proofs"):
            plan_lemmas_or_definitions(plan, kind, *given)
        elif kind == "word":
            plan_word(plan, *given)
        else:
            plan.faults.append(f"{kind} is no kind of a line")
    return plan


def split_import(line):
    """Returns the lines of an import that is too long."""
    parts = re.fullmatch(r"(\s*(?:ghost )?(?:pub )?use [^{]*\{)(.*)(\};?)", line)
    if len(line) <= LONGEST or not parts:
        return [line]
    found, names = [], []
    for name in parts[2].split(", "):
        if names and len(parts[1]) + len(", ".join([*names, name])) + len(parts[3]) > LONGEST:
            found.append(parts[1] + ", ".join(names) + parts[3])
            names = []
        names.append(name)
    return [*found, parts[1] + ", ".join(names) + parts[3]]


def change_texts(plan):
    listed = subprocess.run(["git", "ls-files"], capture_output=True, text=True, check=True).stdout.splitlines()
    for file in (it for it in listed if it.endswith(TEXTS) and os.path.isfile(it)):
        with open(file, encoding="utf-8") as it:
            was = text = it.read()
        for pattern, by, where in plan.changes:
            if where(file):
                text = pattern.sub(by, text)
        if text != was:
            if file.endswith((".rt", ".antt")):
                text = "\n".join(it for line in text.split("\n") for it in split_import(line))
            with open(file, "w", encoding="utf-8") as it:
                it.write(text)


def main():
    with open(sys.argv[1], encoding="utf-8") as it:
        lines = [line.split() for line in it if line.strip()]
    plan = plan_of(lines)
    if plan.faults:
        sys.exit("\n".join(plan.faults))
    change_texts(plan)
    # (files before the folders that hold them)
    for old, new in sorted(plan.moves, key=lambda it: -it[0].count("/")):
        subprocess.run(["git", "mv", old, new], check=True)


if __name__ == "__main__":
    main()
