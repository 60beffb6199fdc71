#!/usr/bin/env python3
"""Runs the programs of docs/LIBRARY.md without a proof, and compares what they print. Runs in CI, after the proofs.

    checks/library.py

A program is a listing in Rattle that begins with `//!`; the `text` after it is what it prints. Each is built by `rt try`
in a copy of the repository. Takes a minute of processor time. Prints what is wrong, and then counts.
"""
import os
import re
import shutil
import subprocess
import sys
import tempfile

TOP = os.path.normpath(os.path.join(os.path.dirname(os.path.abspath(__file__)), ".."))
PAGE = "docs/LIBRARY.md"
LISTING = re.compile(r"^```rust\n(//!.*?)^```\n(?:(?!^```).)*?^```text\n(.*?)^```$", re.MULTILINE | re.DOTALL)


def tried(root, number, source, wanted):
    """Builds and runs a program in a copy of the repository. Returns what is wrong with it, or nothing."""
    name = f"listing_{number}"
    uses = sorted({*re.findall(r"^use (kc_\w+)", source, re.MULTILINE)}) + ["anyhow"]
    os.makedirs(f"{root}/crates/{name}/src")
    with open(f"{root}/crates/{name}/src/main.rt", "w") as file:
        file.write(source)
    with open(f"{root}/crates.txt", "a") as file:
        file.write(f"{name}: {' '.join(uses)}\n")
    ran = subprocess.run(["rt", "try"], cwd=f"{root}/crates/{name}", stdin=subprocess.DEVNULL, capture_output=True, text=True)
    if ran.returncode or not ran.stdout.startswith(wanted):
        return f"{PAGE}: listing {number} ended with {ran.returncode}:\n{ran.stdout[-500:]}{ran.stderr[-1000:]}"
    return None


def main():
    with open(f"{TOP}/{PAGE}") as file:
        listings = LISTING.findall(file.read())
    wrong = [] if listings else [f"{PAGE} has no program"]
    with tempfile.TemporaryDirectory() as root:
        os.mkdir(f"{root}/.git")
        for name in "crates.txt", "HANDLES":
            shutil.copy(f"{TOP}/{name}", root)
        shutil.copytree(f"{TOP}/crates", f"{root}/crates", ignore=shutil.ignore_patterns("out", "proofs", "must-fail"))
        for number, (source, wanted) in enumerate(listings, 1):
            wrong += filter(None, [tried(root, number, source, wanted)])
    print("".join(f"{it}\n" for it in wrong) + f"{len(listings)} programs of {PAGE} ran, {len(wrong)} wrong")
    sys.exit(1 if wrong else 0)


if __name__ == "__main__":
    main()
