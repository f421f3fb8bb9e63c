#!/usr/bin/env python3
"""promise.py [--items] : the definitions on which the contract of the whole program rests, by following imports from `tool`.

It starts at the contract of `tool` (crates/hyd_cli/src/whole_command.rt) and at the ghost items of the trait `Desk`, which say what a desk
is, and follows each name through the modules that define it, item by item. It prints each crate with its modules that are reached, and
how many of a module's items are; with --items their names. Then it says which of these modules docs/DEFINITIONS.md doesn't name; the
status is 1 where there is one.

It reads texts and proves nothing. What a source declares (a struct, an enum and its variants) counts as reached with the name; so do the
contracts that a module cites as `contracts`. A variable with the name of a definition counts as that definition, so more may be
listed than is meant, and nothing less. Words of the kit aren't followed.
"""
import os
import re
import sys

TOP = os.path.join(os.path.dirname(os.path.abspath(__file__)), "..")
STARTS = {"crates/hyd_cli/src/whole_command.rt": "pub fn tool", "crates/hyd_io/src/desk.rt": "pub trait Desk"}
WORD = re.compile(r"[^\s(){};,\[\]\"]+")


def read(path):
    with open(os.path.join(TOP, path), encoding="utf-8") as it:
        return it.read()


def imports_of(text, ghost=""):
    """The names that a text imports: name here -> (module, name there), name there None where it stands for a module."""
    found = {}
    for path, names, alias in re.findall(rf"^{ghost}use ([\w.]+?)(?:\.\{{([^}}]*)\}})?(?: as (\w+))?;?$", text, re.M):
        if not path.startswith("Rattle.hyd_"):
            continue
        if not names:
            found[alias or path.split(".")[-1]] = (path, None)
        for name in filter(None, (it.strip() for it in names.split(","))):
            there, _, here = name.partition(" as ")
            found[here or there] = (path, there)
            for part in re.split("◌", here or there):
                if part and "◌" in (here or there):
                    found.setdefault(part, (path, there))
    return found


KEYWORDS = ("abbrev", "data", "mutual", "pub", "record", "unfoldable")


def begun(line):
    """The name of the item that a line begins, if it begins one: its first word behind keywords, in the first column or inside a module."""
    words = line.split()
    if line.startswith("   ") or not words or words[0] in ("use", "--", "module"):
        return None
    front = next((place for place, word in enumerate(words) if word not in KEYWORDS), None)
    if front is None or (line.startswith(" ") and (front == 0 or words[front - 1] == "pub" and front == 1)):
        return None
    name = words[front]
    return name if front or words[1:2] == [":"] else None


def items_of(text):
    """The items of a module: name -> its text; constructors, fields and parts of operators -> the item that they belong to."""
    items, name = {}, None
    for line in text.split("\n"):
        name = begun(line) or name
        if not name or not line.strip() or line.startswith(("use ", "--")):
            continue
        items[name] = items.get(name, "") + line + "\n"
        made = re.match(r"    ?(?:pub )?([^\s{}()]+) :", line)
        for part in ([made[1]] if made else []) + [it for it in name.split("◌") if it and it != name]:
            items.setdefault(part, f"= {name}")
    return items


class Modules:
    def __init__(self):
        self.known = {}

    def get(self, path):
        """The items and the imports of a module by its path, None where it isn't a module of definitions."""
        if path not in self.known:
            parts = path.split(".")
            file = f"crates/{parts[1]}/specs/{'/'.join(parts[3:])}.antt" if len(parts) > 3 and parts[2] == "specs" else ""
            self.known[path] = (items_of(read(file)), imports_of(read(file))) if file and os.path.isfile(os.path.join(TOP, file)) else None
        return self.known[path]


def names_in(text, own, imported):
    """What the words of a text name: items of its own module, and what it imports, also behind the name of a module."""
    for word in WORD.findall(text):
        if word in own:
            yield None, word
        if word in imported:
            yield imported[word]
        front, _, rest = word.partition(".")
        if rest and front in imported and imported[front][1] is None:
            yield imported[front][0], rest.split(".")[0]
        elif rest:
            if front in own:
                yield None, front
            if front in imported:
                yield imported[front]


def contract_of(text, start):
    at = text.index(start)
    end = text.find("\n{", at) if start.startswith("pub fn") else text.find("\n}", at)
    return text[at:end]


def closure():
    """Each item that is reached, by module; modules that are declared in sources with None."""
    modules, reached, left = Modules(), {}, []
    for file, start in STARTS.items():
        text = read(file)
        imported = imports_of(text, "ghost ")
        left += [it for it in names_in(contract_of(text, start), {}, imported)]
    while left:
        path, name = left.pop()
        module = modules.get(path)
        if module is None:
            reached.setdefault(path, set())
            continue
        items, imported = module
        if name is None or name in reached.get(path, ()):
            continue
        reached.setdefault(path, set()).add(name)
        text = items.get(name, "")
        if text.startswith("= "):
            left.append((path, text[2:]))
        left += [(it or path, there) for it, there in names_in(text, items, imported)]
    return reached, modules


def main():
    reached, modules = closure()
    written = read("docs/DEFINITIONS.md")
    named = set(re.findall(r"\*\*(\w+)\*\*", written))
    crates = {}
    for path in sorted(reached):
        if modules.get(path) is not None:
            crates.setdefault(path.split(".")[1], []).append(path)
    count = 0
    for crate, paths in crates.items():
        print(crate)
        for path in paths:
            own = modules.get(path)[0]
            mine = {it for it in reached[path] if it in own and not own[it].startswith("= ")}
            count += len(mine)
            print(f"  {path.split('.')[-1]}: {len(mine)} of {sum(not it.startswith('= ') for it in own.values())}")
            if "--items" in sys.argv:
                print("    " + " ".join(sorted(mine)))
    print(f"{sum(map(len, crates.values()))} modules in {len(crates)} crates, {count} definitions")
    missing = [it for paths in crates.values() for it in paths if it.split(".")[-1] not in named]
    for it in missing:
        print(f"not named in docs/DEFINITIONS.md: {it}")
    return 1 if missing else 0


if __name__ == "__main__":
    sys.exit(main())
