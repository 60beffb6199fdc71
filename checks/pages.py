#!/usr/bin/env python3
"""Checks that proofs cite other crates by their pages of lemmas alone. Runs in the gate, after `rt ci`.

    checks/pages.py

A page is `proofs/lemmas/PAGE.antt` of a crate, and passes on lemmas of the crate, each with a sentence above it. What a crate's files say of
another crate's `proofs` has to be a lemma of a page, by its name; each lemma of a page has to be cited by another crate; and every module of
`proofs/Lib.antt` but `lemmas` has to be private. Prints what is wrong, and a last line that counts; the exit number is 1 where something is
wrong.
"""
import os
import re
import sys

TOP = os.path.normpath(os.path.join(os.path.dirname(os.path.abspath(__file__)), ".."))
CRATES = os.path.join(TOP, "crates")
CITED = re.compile(r"Rattle\.(\w+)\.proofs\.")
IMPORT = re.compile(r"(?:pub )?(?:ghost )?use Rattle\.(\w+)\.proofs\.lemmas\.(\w+)\.\{([^}]*)\};?")
PASSED_ON = re.compile(r"pub use Rattle\.(\w+)\.proofs\.[\w.]+\.\{([^}]*)\}")


def lines_of(path):
    with open(path, encoding="utf-8") as file:
        return file.read().split("\n")


def files_of(crate):
    """The files of a crate that may cite lemmas."""
    for part in ["src", "specs", "proofs"]:
        for folder, _, names in os.walk(os.path.join(CRATES, crate, part)):
            for name in sorted(names):
                if name.endswith((".antt", ".rt")):
                    yield os.path.join(folder, name)


def page_of(crate, page, wrong):
    """The lemmas of a page, as others cite them."""
    names, lines = set(), lines_of(os.path.join(CRATES, crate, "proofs", "lemmas", page + ".antt"))
    for at, line in enumerate(lines):
        found = PASSED_ON.fullmatch(line)
        if found and found.group(1) == crate:
            names |= {leaf.split(" as ")[-1].strip() for leaf in found.group(2).split(",")}
            if not lines[at - 1].startswith("-- "):
                wrong.append(f"{crate}.proofs.lemmas.{page}: nothing is said of {found.group(2)}")
        elif line and not line.startswith("--"):
            wrong.append(f"{crate}.proofs.lemmas.{page}: {line}")
    return names


def pages(crates, wrong):
    """The pages by crate and name, each with its lemmas."""
    found = {}
    for crate in crates:
        folder = os.path.join(CRATES, crate, "proofs", "lemmas")
        if os.path.isdir(folder):
            for name in sorted(os.listdir(folder)):
                found[crate, name[:-5]] = page_of(crate, name[:-5], wrong)
    return found


def private_modules(crate, wrong):
    """How many modules of lemmas are private."""
    path = os.path.join(CRATES, crate, "proofs", "Lib.antt")
    lines = lines_of(path) if os.path.exists(path) else []
    for line in lines:
        if line.startswith("pub ") and line != "pub mod lemmas":
            wrong.append(f"{crate}/proofs/Lib.antt: {line}")
    return sum(line.startswith("mod ") for line in lines)


def citations(crate, others, found, wrong):
    """What the crate cites of the others' pages: crate, page and lemma of each."""
    cited = []
    for path in files_of(crate):
        for line in lines_of(path):
            if not others & set(CITED.findall(line)):
                continue
            by_page = IMPORT.fullmatch(line.strip())
            names = [leaf.split(" as ")[0].strip() for leaf in by_page.group(3).split(",")] if by_page else []
            page = by_page.group(1, 2) if by_page else None
            if page not in found or not set(names) <= found[page]:
                wrong.append(f"{os.path.relpath(path, TOP)} goes past the pages: {line.strip()}")
            cited += [(page, name) for name in names]
    return cited


def main():
    wrong = []
    crates = sorted(name for name in os.listdir(CRATES) if os.path.isdir(os.path.join(CRATES, name)))
    found = pages(crates, wrong)
    cited = [citation for crate in crates for citation in citations(crate, set(crates) - {crate}, found, wrong)]
    for (crate, page), names in found.items():
        for name in sorted(names):
            if ((crate, page), name) not in set(cited):
                wrong.append(f"{crate}.proofs.lemmas.{page}: no other crate cites {name}")
    private = sum(private_modules(crate, wrong) for crate in crates)
    for what in wrong:
        print(what)
    print(f"{len(cited)} citations of {sum(map(len, found.values()))} lemmas on {len(found)} pages, {private} private modules of lemmas, {len(wrong)} wrong")
    sys.exit(1 if wrong else 0)


if __name__ == "__main__":
    main()
