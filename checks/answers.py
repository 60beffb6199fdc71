#!/usr/bin/env python3
"""Checks docs/ANSWERS.md against the contracts of the crates. Runs in the gate, after `rt ci`.

    checks/answers.py

Each call of the page has to be there, with each clause that is named beside it; each public call that returns a `Result` or an `Option` has
to be on the page; and a call of its last section has no allocator in its signature (but those marked so) and no case for a refusal of memory.
Prints what is wrong, and a last line that counts; the exit number is 1 where something is wrong.
"""
import os
import re
import sys

TOP = os.path.join(os.path.dirname(os.path.abspath(__file__)), "..")


class Call:
    """A function: its signature up to the result, the type of the result, the names of its clauses, and whether it is public."""

    def __init__(self, text, is_public):
        head = re.split(r"\n\s*(?:requires|ensures|\{)", text, 1)[0].rstrip("{; \n")
        self.arguments, _, self.result = head.partition("->")
        self.clauses = set(re.findall(r"\bensures (\w+) \{", text))
        if re.search(r"\bensures \{", text):
            self.clauses.add("ensures")
        self.is_public = is_public


def calls_of(crate):
    """The functions of a crate by name: `name`, or `Type::name` of a method."""
    calls = {}
    for folder, _, names in os.walk(f"{TOP}/crates/{crate}/src"):
        for name in sorted(names):
            if name.endswith(".rt") and "tests" not in f"{folder}/{name}":
                with open(f"{folder}/{name}", encoding="utf-8") as file:
                    read_calls(file.read(), calls)
    return calls


def read_calls(text, calls):
    owner = None
    lines = text.split("\n")
    for at, line in enumerate(lines):
        if re.match(r"\}", line):
            owner = None
        if found := re.match(r"(?:pub )?trait (\w+)", line):
            owner = found.group(1), True
        elif found := re.match(r"impl(?:<[^>]*>)? (?:\w+(?:<[^>]*>)? for )?(\w+)", line):
            # What a type does for a trait is as public as the trait.
            owner = found.group(1), " for " in line
        if found := re.match(r"( *)(pub )?fn (\w+)", line):
            end = at
            while not re.search(r"\{$|\{\}$|;$|^\{\}", lines[end]):
                end += 1
            name = f"{owner[0]}::{found.group(3)}" if owner and found.group(1) else found.group(3)
            calls[name] = Call("\n".join(lines[at:end + 1]), bool(found.group(2)) or bool(owner and owner[1]))


def exported(crate):
    """The names that the crate's root hands out."""
    with open(f"{TOP}/crates/{crate}/src/lib.rt", encoding="utf-8") as file:
        return set(re.findall(r"\w+", " ".join(re.findall(r"(?m)^pub use [^;]*;", file.read()))))


def cells(line):
    return [cell.strip() for cell in line.strip().strip("|").split("|")]


def main():
    with open(f"{TOP}/docs/ANSWERS.md", encoding="utf-8") as file:
        lines = file.read().split("\n")
    wrong, rows, crate, calls, told = [], 0, None, {}, {}
    without_memory = False
    for line in lines:
        if line.startswith("## "):
            found = re.search(r"`(\w+)`", line)
            crate = found.group(1) if found else None
            calls = calls_of(crate) if crate else {}
            without_memory = "no memory" in line
        if not line.startswith("| `"):
            continue
        rows += 1
        if without_memory:
            crate = cells(line)[0].strip("`")
            calls = calls_of(crate)
            for name, mark in re.findall(r"`([\w:]+)`(\\\*)?", cells(line)[1]):
                if name not in calls:
                    wrong.append(f"{crate}: there is no {name}")
                elif "AllocError" in calls[name].result or re.search(r"Fault|Status", calls[name].result):
                    wrong.append(f"{crate}: {name} can be refused memory")
                elif bool(mark) != ("Global" in calls[name].arguments):
                    wrong.append(f"{crate}: {name} has an allocator, or is marked so")
            continue
        names = re.findall(r"`([\w:]+)`", cells(line)[0])
        for name in names:
            told.setdefault(crate, set()).add(name)
            if name not in calls:
                wrong.append(f"{crate}: there is no {name}")
                continue
            for clause in re.findall(r"`(\w+)`", cells(line)[-1]):
                if clause not in calls[name].clauses:
                    wrong.append(f"{crate}: {name} has no clause {clause}")
    for crate, names in told.items():
        if not os.path.exists(f"{TOP}/crates/{crate}/src/lib.rt"):
            continue
        public = exported(crate)
        for name, call in calls_of(crate).items():
            is_answer = call.is_public and re.search("Result<|Option<", call.result)
            if is_answer and name.split("::")[0] in public and name not in names and not name.endswith("::fmt"):
                wrong.append(f"{crate}: {name} isn't on the page")
    for what in wrong:
        print(what)
    print(f"{rows} rows, {len(wrong)} wrong")
    sys.exit(1 if wrong else 0)


if __name__ == "__main__":
    main()
