#!/usr/bin/env python3
"""Counts what makes functions and contracts hard to read, and holds the counts against checks/shape.txt.

    checks/shape.py [--list KIND | --write]

Runs in the gate, after `rt ci`. It reads crates/*/src/**/*.rt without tests and counts

- parameters:  functions with more than five parameters, `self` among them;
- requires:    functions with more than eight `requires` clauses;
- clauses:     clauses of more than 180 characters;
- chains:      ways through two fields or more of models, such as `step.now.placed.now.graph`;
- scale:       clauses named `scale` or `capped`, which say of a graph's thresholds what their value could say once;
- contexts:    structs that only carry a runtime, an allocator, a gate or a number of workers through calls;
- evidence:    lines such as `let _n = graph.vertices();`, whose call is made for its contract alone.

Prints the counts. Ends with 1 if one is greater than on the page. --write renews the page, --list prints the places of a kind.
"""
import argparse
import glob
import os
import re
import sys

TOP = os.path.normpath(os.path.join(os.path.dirname(os.path.abspath(__file__)), ".."))
PAGE = os.path.join(TOP, "checks", "shape.txt")
MOST_PARAMETERS, MOST_REQUIRES, MOST_CLAUSE = 5, 8, 180
CARRIED = {"rt", "alloc", "gate", "workers", "threads", "rounds", "crew"}


def split(text):
    """The parts of a list between commas that stand in no brackets."""
    parts, depth = [""], 0
    for char in text:
        depth += (char in "([{<") - (char in ")]}>")
        if char == "," and depth == 0:
            parts.append("")
        else:
            parts[-1] += char
    return [part.strip() for part in parts if part.strip()]


def closed(text, at, pair):
    """The place after the bracket that closes the one at `at`."""
    depth = 0
    for end in range(at, len(text)):
        depth += (text[end] == pair[0]) - (text[end] == pair[1])
        if depth == 0:
            return end + 1
    return len(text)


def functions(text):
    """Name, place, parameters and clauses of each function."""
    for found in re.finditer(r"(?m)^ *(?:pub(?:\([a-z]+\))? )?fn (\w+)", text):
        begin = text.index("(", skip_generics(text, found.end()))
        end = closed(text, begin, "()")
        parameters, clauses = split(text[begin + 1:end - 1]), []
        while clause := re.match(r"[^;{]*?\b(requires|ensures) *(\w*) *(?=\{)", text[end:]):
            start = end + clause.end()
            end = closed(text, start, "{}")
            clauses.append((clause.group(1), clause.group(2), text[start + 1:end - 1].strip()))
        yield found.group(1), found.start(), parameters, clauses


def skip_generics(text, at):
    """The place after `<..>`, if that stands here; arrows in it don't close it."""
    if text[at:at + 1] != "<":
        return at
    depth = 0
    for end in range(at, len(text)):
        depth += (text[end] == "<") - (text[end] == ">" and text[end - 1] != "-")
        if depth == 0:
            return end + 1
    return len(text)


def places_in(path):
    """Kind, place and what is there."""
    with open(os.path.join(TOP, path), encoding="utf-8") as file:
        text = re.sub(r"(?m)^[ \t]*//.*$", "", file.read())
    line_of = lambda at: text.count("\n", 0, at) + 1
    for name, at, parameters, clauses in functions(text):
        where = f"{path}:{line_of(at)} {name}"
        if len(parameters) > MOST_PARAMETERS:
            yield "parameters", f"{where} {len(parameters)}"
        if sum(1 for kind, _, _ in clauses if kind == "requires") > MOST_REQUIRES:
            yield "requires", where
        for kind, label, clause in clauses:
            if len(clause) > MOST_CLAUSE:
                yield "clauses", f"{where} {kind} {label} {len(clause)}"
            if label in ("scale", "capped"):
                yield "scale", f"{where} {kind} {label}"
    for found in re.finditer(r"\b\w+\.(?:now|old|new|entry)(?:\.\w+)*\.(?:now|old|new|entry)\.\w+", text):
        yield "chains", f"{path}:{line_of(found.start())} {found.group()}"
    for found in re.finditer(r"(?s)\bstruct (\w+)(?:<[^{;]*?>)? \{(.*?)\n\}", text):
        fields = set(re.findall(r"(?m)^    (?:pub(?:\([a-z]+\))? )?(\w+):", found.group(2)))
        if len(fields) > 1 and len(fields & CARRIED) * 2 >= len(fields):
            yield "contexts", f"{path}:{line_of(found.start())} {found.group(1)} {' '.join(sorted(fields))}"
    for found in re.finditer(r"(?m)^ *let _\w* = .*$", text):
        yield "evidence", f"{path}:{line_of(found.start())} {found.group().strip()}"


def main():
    parser = argparse.ArgumentParser(description=__doc__, formatter_class=argparse.RawDescriptionHelpFormatter)
    chosen = parser.add_mutually_exclusive_group()
    chosen.add_argument("--list", metavar="KIND")
    chosen.add_argument("--write", action="store_true")
    options = parser.parse_args()
    places = {kind: [] for kind in ("parameters", "requires", "clauses", "chains", "scale", "contexts", "evidence")}
    for path in sorted(glob.glob("crates/*/src/**/*.rt", root_dir=TOP, recursive=True)):
        if "tests" not in path:
            for kind, place in places_in(path):
                places[kind].append(place)
    if options.list:
        print("\n".join(places[options.list]))
        return
    counts = {kind: len(found) for kind, found in places.items()}
    said = "".join(f"{kind} {count}\n" for kind, count in counts.items())
    if options.write:
        with open(PAGE, "w", encoding="utf-8") as file:
            file.write(said)
    with open(PAGE, encoding="utf-8") as file:
        most = dict(line.split() for line in file)
    wrong = [kind for kind, count in counts.items() if count > int(most.get(kind, 0))]
    for kind in wrong:
        print(f"{kind}: {counts[kind]} and not at most {most.get(kind, 0)}; checks/shape.py --list {kind} prints the places")
    print("shape: " + ", ".join(f"{kind} {count}" for kind, count in counts.items()))
    sys.exit(1 if wrong else 0)


if __name__ == "__main__":
    main()
