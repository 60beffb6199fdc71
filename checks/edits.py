#!/usr/bin/env python3
"""Checks that each edit still fits the sources: those of crates/CRATE/must-fail, of checks/refused/CRATE and of
hostile/edits/CRATE, and the wrong bodies of hostile/bodies.py. Runs in the gate, after `rt ci`.

    checks/edits.py

An edit is a wrong body. Its file names a source file of the crate (`file:`), and pairs of a text that stands there
once (`old:`) and its replacement (`new:`). Each edit has a row in hostile/edits/TABLE.md, and the calls and clauses
that a row names stand on checks/clauses.txt. A function on which an edit is tried (`only:`) stands in its file.
Prints what is wrong, and a last line that counts; ends with 1 if something is wrong. Whether they are refused is tried
by `rt ci` (must-fail), by checks/refused.py, and by hand by hostile/edits.py and hostile/bodies.py.
"""
import importlib.util
import os
import re
import sys

TOP = os.path.normpath(os.path.join(os.path.dirname(os.path.abspath(__file__)), ".."))
CRATES = os.path.join(TOP, "crates")
REFUSED = os.path.join(TOP, "checks", "refused")
OTHERS = os.path.join(TOP, "hostile", "edits")
TABLE = os.path.join(OTHERS, "TABLE.md")
PAGE = os.path.join(TOP, "checks", "clauses.txt")


class Unfit(Exception):
    """An edit doesn't fit the sources."""


def read(path):
    with open(path, encoding="utf-8") as file:
        return file.read()


def edited(edit, read_file):
    """Returns the files that an edit changes, each with its new text. `read_file` returns the text of a file of the
    crate."""
    files, file, old = {}, None, None
    for line in edit.split("\n"):
        if found := re.match(r"file: (.*)", line):
            file = found.group(1).strip()
        elif line.startswith("old: "):
            old = line[5:]
        elif found := re.match(r"new:(?: (.*))?$", line):
            if file is None or old is None:
                raise Unfit("a new text without a file or an old text")
            if file not in files:
                files[file] = read_file(file)
            if files[file].count(old) != 1:
                raise Unfit(f"stands {files[file].count(old)} times in {file}: {old.strip()}")
            files[file], old = files[file].replace(old, found.group(1) or ""), None
    if old is not None or not files:
        raise Unfit("an old text without a new one, or no change")
    return files


def edits_in(folder):
    """Yields crate, name and path of each edit of `folder`: CRATE/NAME.edit or CRATE/must-fail/NAME.edit."""
    for crate in sorted(os.listdir(folder)) if os.path.isdir(folder) else []:
        for place in os.path.join(folder, crate), os.path.join(folder, crate, "must-fail"):
            for name in sorted(os.listdir(place)) if os.path.isdir(place) else []:
                if name.endswith(".edit"):
                    yield crate, name[:-5], os.path.join(place, name)


def strange(crate, edit):
    """Returns the paths of `only:` that name no function: the module's file doesn't have one of this name."""
    lacking = []
    for path in re.findall(r"^only: (\S+)$", edit, re.MULTILINE):
        words = path.split("::")
        homes = [os.path.join(CRATES, crate, "src", *words[:end]) + ".rt" for end in range(1, len(words))]
        if not any(os.path.exists(home) and re.search(rf"\bfn {words[-1]}\b", read(home)) for home in homes):
            lacking.append(path)
    return lacking


def rows(text):
    """Returns the rows of the table by crate and edit: the kind of refusal, and the text."""
    found, crate = {}, None
    for line in text.split("\n"):
        if line.startswith("## "):
            crate = line[3:]
        elif row := re.fullmatch(r"\| `(\w+)` \| (\w+) \| (.*) \|", line):
            found[crate, row.group(1)] = row.group(2), row.group(3)
    return found


def clauses(page):
    """Returns the names of the clauses of each public call, by crate and call."""
    found = {}
    for line in page.split("\n"):
        if line and (call := re.match(r"(\w+) ([\w:]+)(?: (?:requires|ensures)(?: (\w+))?)?: ", line)):
            found.setdefault(call.group(1, 2), set()).add(call.group(3))
    return found


def unknown(crate, said, known):
    """Returns the names of a row that are neither a public call nor a clause of a call named before. The name of
    another crate stands before its calls."""
    crates, of_calls, lacking = {home for home, _ in known}, set(), []
    for name in re.findall(r"`([\w:]+)`", said):
        if name in crates:
            crate = name
        elif (crate, name) in known:
            of_calls |= known[crate, name]
        elif name not in of_calls:
            lacking.append(name)
    return lacking if of_calls else lacking or ["no call"]


def check_table(names):
    """Returns what is wrong with the rows for these edits, given by crate and name with whether the gate tries them."""
    wrong, table, known = [], rows(read(TABLE)), clauses(read(PAGE))
    wrong += [f"{crate} {name}: it has no row in the table" for crate, name in sorted(set(names) - set(table))]
    wrong += [f"{crate} {name}: the table has a row, and there is no edit" for crate, name in sorted(set(table) - set(names))]
    for (crate, name), (by, said) in table.items():
        if (crate, name) in names and (by == "gate") != names[crate, name]:
            wrong.append(f"{crate} {name}: the table and the folder differ on whether the gate tries it")
        if by in ("clause", "call", "law"):
            wrong += [f"{crate} {name}: the row names {lacking}, which isn't on the page of clauses" for lacking in unknown(crate, said, known)]
        elif by not in ("gate", "run", "edit"):
            wrong.append(f"{crate} {name}: by {by}")
    return wrong


def check_bodies():
    """Returns the number of wrong bodies in hostile/bodies.py, and those that no longer fit."""
    spec = importlib.util.spec_from_file_location("bodies", os.path.join(TOP, "hostile", "bodies.py"))
    module = importlib.util.module_from_spec(spec)
    spec.loader.exec_module(module)
    unfit = [body for body in module.BODIES if module.changed(read(os.path.join(CRATES, body.crate, body.file)), body) is None]
    return len(module.BODIES), [f"hostile/bodies.py: {body.crate}: {body.name}: a text that it replaces doesn't stand there once" for body in unfit]


def main():
    wrong, counts, names = [], [], {}
    for folder in CRATES, REFUSED, OTHERS:
        counts.append(0)
        for crate, name, path in edits_in(folder):
            counts[-1] += 1
            if (crate, name) in names:
                wrong.append(f"{crate} {name}: there are two of this name")
            names[crate, name] = folder != OTHERS
            wrong += [f"{crate} {name}: there is no function {lacking}" for lacking in strange(crate, read(path))]
            try:
                edited(read(path), lambda file, home=crate: read(os.path.join(CRATES, home, file)))
            except (Unfit, OSError) as error:
                wrong.append(f"{crate} {name}: {error}")
    wrong += check_table(names)
    bodies, unfit = check_bodies()
    wrong += unfit
    for what in wrong:
        print(what)
    print(f"{counts[0] + counts[1]} edits of the gate, {counts[2]} others and {bodies} bodies, {len(wrong)} wrong")
    sys.exit(1 if wrong else 0)


if __name__ == "__main__":
    main()
