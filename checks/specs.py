#!/usr/bin/env python3
"""Checks that no public contract rests on the words of private ones. Runs in the gate, after `rt ci`.

    checks/specs.py [--table]

`specs/private` of a crate holds the words of its private contracts and loop invariants; all other definitions of `specs/` are for who reads its
public contracts, its public types and their models, and its laws. This follows the names from each of those through the definitions. It prints
each way that leads to a private definition, each import of one in a file that isn't private, and each other definition that no way leads to; and
a last line that counts what is reached from `run_command`. The exit number is 1 if something is wrong.

docs/PROVED.md has a table of what each command rests on: the lines of definitions, and the modules that they stand in.
`--table` prints its rows; a row that the page doesn't have is wrong. So is a definition that the page quotes and that stands
in no file of `specs/`.
"""
import os
import re
import sys

from contracts import TOP, WORD, Crate, Module, crate_names, files_of_specs, names_in, read

PRIVATE = ".specs.private."
COMMANDS = "Rattle.kcore.specs.Commands"


class Reading:
    """What a reader comes to, from some contracts on: definitions, each with the way to it."""

    def __init__(self, crates, modules):
        self.crates, self.modules, self.ways, self.types = crates, modules, {}, set()

    def follow(self, text, imports, way):
        for module, name in imports.named(text):
            self.enter(module, name, way)

    def enter(self, module, name, way):
        if declared := re.match(r"Rattle\.(\w+)\.specs\.declared\.(.*)", module):
            for part in declared.group(2).split(".") + [name]:
                self.enter_type(declared.group(1), part, way)
        elif module in self.modules and name in self.modules[module].place:
            self.enter_definition(module, self.modules[module].place[name], name, way)
        elif module in self.modules and name in self.modules[module].imports.passed_on:
            self.enter(*self.modules[module].imports.passed_on[name], way)

    def enter_definition(self, module, at, name, way):
        if (module, at) in self.ways:
            return
        self.ways[module, at] = way
        home, way = self.modules[module], way + [f"{module}.{name}"]
        text = home.definitions[at]
        for word in set(re.findall(WORD, text)) & set(home.place):
            self.enter_definition(module, home.place[word], word, way)
        self.follow(text, home.imports, way)

    def enter_type(self, crate, name, way):
        if crate not in self.crates or (crate, name) in self.types or name not in self.crates[crate].types:
            return
        self.types.add((crate, name))
        for text, imports in self.crates[crate].types[name]:
            self.follow(text, imports, way + [f"{crate}::{name}"])

    def enter_contract(self, crate, contract):
        name, text, imports = contract
        way = [f"{crate.name}::{name}"]
        self.follow(text, imports, way)
        signature = re.split(r"\n\s*(?:requires|ensures)", text, maxsplit=1)[0]
        for word in set(re.findall(r"\b[A-Z]\w*", signature)):
            for home in [crate.name] if word in crate.types else [c.name for c in self.crates.values() if word in c.exported]:
                self.enter_type(home, word, way)

    def lines(self):
        return counted(self, self.ways)[0]


def unreached(reading):
    """The definitions that aren't private, but that no way leads to: the names by module."""
    found = {}
    for module, home in reading.modules.items():
        for at, definition in enumerate(home.definitions):
            if PRIVATE not in module and (module, at) not in reading.ways:
                found.setdefault(module, []).append(names_in(definition)[0])
    return found


def readings():
    """What is reached from every public contract, and what from `run_command`."""
    names = crate_names()
    crates = {name: Crate(name) for name in names}
    modules = {place: Module(path) for name in names for place, path in files_of_specs(name)}
    everything, run = Reading(crates, modules), Reading(crates, modules)
    for crate in crates.values():
        for contract in crate.contracts:
            everything.enter_contract(crate, contract)
            if contract[0] == "run_command":
                run.enter_contract(crate, contract)
        for name in sorted(crate.exported & set(crate.types)):
            everything.enter_type(crate.name, name, [crate.name])
    return everything, run


def counted(reading, ways):
    """The lines of these definitions, and the modules that they stand in."""
    return sum(reading.modules[module].definitions[at].count("\n") + 1 for module, at in ways), len({module for module, _ in ways})


def rows(reading):
    """The rows of the table: what the text of each command and what holds of it rest on, what else `run_command` does, and all of it."""
    home, by_command = reading.modules[COMMANDS], {}
    for name in "IsText", "Holds":
        for command, said in re.findall(rf"(?m)^{name} \(?(?:Some )?\(?([A-Z]\w+)[^=]*\S = (.*)$", home.definitions[home.place[name]]):
            if command not in ("None", "Some"):
                by_command.setdefault(command, Reading(reading.crates, reading.modules)).follow(said, home.imports, [command])
    rest = set(reading.ways) - {way for one in by_command.values() for way in one.ways}
    found = [(f"`{command.lower()}`", one.ways) for command, one in by_command.items()]
    found += [("what they have in common: words, answers, prefixes, causes, completeness", rest), ("`run_command`", reading.ways)]
    return ["| {} | {:,} | {} |".format(name, *counted(reading, ways)) for name, ways in found]


def main():
    everything, run = readings()
    if "--table" in sys.argv[1:]:
        print("\n".join(rows(run)))
        return
    wrong = [f"{' -> '.join(way)} -> {module}" for (module, _), way in everything.ways.items() if PRIVATE in module]
    for place, module in everything.modules.items():
        of = {other for other, _ in module.imports.names.values()} | set(module.imports.modules.values())
        wrong += [f"{place} imports {other}" for other in sorted(of) if PRIVATE in other and PRIVATE not in place]
    wrong += [f"{module}: no public contract leads to {', '.join(names)}" for module, names in unreached(everything).items()]
    page = read(os.path.join(TOP, "docs", "PROVED.md"))
    wrong += [f"docs/PROVED.md has no row {row}" for row in rows(run) if row not in page.split("\n")]
    texts = [read(path) for name in crate_names() for _, path in files_of_specs(name)]
    wrong += [f"docs/PROVED.md quotes what stands in no specs: {quoted[:60]}" for quoted in re.findall(r"(?s)```antt\n(.*?)\n```", page)
              if not any(quoted in text for text in texts)]
    for what in wrong:
        print(what)
    contracts = sum(len(crate.contracts) for crate in everything.crates.values())
    print(f"{contracts} public contracts rest on {everything.lines()} lines of definitions, run_command on {run.lines()} in {len({m for m, _ in run.ways})} modules; {len(wrong)} wrong")
    sys.exit(1 if wrong else 0)


if __name__ == "__main__":
    main()
