#!/usr/bin/env python3
"""Puts the wrong bodies of checks/refused into their crates, and checks that the prover refuses each. Runs in the gate,
after `rt ci`.

    checks/refused.py [CRATE | CRATE/NAME ..]

`rt ci` tries the edits of crates/CRATE/must-fail, but proves the whole crate once more for them. The edits of
checks/refused are of crates whose proof takes minutes. Each has a line `only: PATH` that names functions, and is tried
on these alone (`--only` of `rattle check`). The same functions have to be proved before, with nothing changed.

Checks a copy of the crate with the libraries that `rt ci` has built in crates/*/out, as `rt ci` checks an edit. Prints a
line for each edit that isn't refused, and a last line that counts. Ends with 1 if one isn't. Takes one to five minutes
of processor time for each crate, since the functions that a named one calls are checked too. Runs on as many processors
as the process may use (`taskset`).
"""
import concurrent.futures
import os
import re
import shutil
import subprocess
import sys
import tempfile

from edits import CRATES, REFUSED, TOP, Unfit, edited, edits_in, read

if (RT := shutil.which("rt")) is None:
    sys.exit("refused.py: no rt on the path: CONTRIBUTING.md says what the gate needs")
KIT = os.path.dirname(os.path.dirname(os.path.realpath(RT)))


def only(edit):
    """Returns the paths of the functions on which an edit is tried."""
    return re.findall(r"^only: (\S+)$", edit, re.MULTILINE)


def libraries():
    """Returns the libraries that each crate uses, as crates.txt names them."""
    lines = re.findall(r"^(\w+)[^:#\n]*:(.*)$", read(os.path.join(TOP, "crates.txt")), re.MULTILINE)
    return {name: used.split() for name, used in lines}


def words(crate, used):
    """Returns the words of a check of a crate with the libraries that are built."""
    def built(name):
        return os.path.join(CRATES, name, "out", "rlib") if name in used else os.path.join(KIT, "rlibs")

    below, open_ = set(), [*used[crate]]
    while open_:
        name = open_.pop()
        if name in used and name not in below:
            below.add(name)
            open_ += used[name]
    source = "src/main.rt" if os.path.exists(os.path.join(CRATES, crate, "src", "main.rt")) else "src/lib.rt"
    found = [os.path.join(KIT, "bin", "rattle"), "check", "--crate-name", crate, source, "--links", f"{crate}=", "--jobs", "1"]
    for name in ["std", *used[crate]]:
        found += ["--extern", f"{name}={built(name)}/{name}.rlib"]
    for folder in [os.path.join(KIT, "rlibs"), *map(built, sorted(below))]:
        found += ["-L", f"dependency={folder}"]
    return found + ["--antt-project", f"{KIT}/rattle/logic/antt-project.json", "--logic-built", f"{KIT}/logic_built"]


def check(folder, said, paths):
    """Checks the functions below these paths in a copy of a crate. Returns the status, how many functions were asked for,
    how many of them are proved, and what was printed."""
    asked = [word for path in paths for word in ("--only", path)]
    ran = subprocess.run([*said, "--incremental", os.path.join(folder, "kept"), *asked], cwd=folder, stdin=subprocess.DEVNULL,
                         stdout=subprocess.PIPE, stderr=subprocess.STDOUT, text=True, errors="replace", check=False)
    counted = re.search(r"^only=(\d+) proved=(\d+)$", ran.stdout, re.MULTILINE)
    return ran.returncode, *(map(int, counted.groups()) if counted else (0, 0)), ran.stdout


def tried(crate, edits, said):
    """Tries the edits of a crate one after another. Returns what is wrong, a text for each."""
    wrong, home = [], os.path.join(CRATES, crate)
    with tempfile.TemporaryDirectory(prefix="refused.") as folder:
        os.mkdir(os.path.join(folder, "kept"))
        for part in "src", "specs", "proofs":
            if os.path.isdir(os.path.join(home, part)):
                shutil.copytree(os.path.join(home, part), os.path.join(folder, part))
        texts = {name: read(path) for name, path in edits}
        if bare := [name for name in texts if not only(texts[name])]:
            return [f"{crate}/{name}: no line `only: PATH`" for name in bare]
        status, asked, proved, told = check(folder, said, sorted({path for edit in texts.values() for path in only(edit)}))
        if status != 0 or asked == 0 or proved != asked:
            return [f"{crate}: not proved with nothing changed, the check ended with {status}\n{told[-2000:]}"]
        for name, edit in texts.items():
            try:
                files = edited(edit, lambda file: read(os.path.join(home, file)))
            except (Unfit, OSError) as error:
                wrong.append(f"{crate}/{name}: {error}")
                continue
            for file, text in files.items():
                with open(os.path.join(folder, file), "w", encoding="utf-8") as out:
                    out.write(text)
            status, asked, proved, told = check(folder, said, only(edit))
            if status != 1 or proved >= asked:
                wrong.append(f"{crate}/{name}: NOT REFUSED, the check ended with {status}\n{told[-2000:]}")
            for file in files:
                shutil.copy(os.path.join(home, file), os.path.join(folder, file))
    return wrong


def main():
    used, edits = libraries(), {}
    for crate, name, path in edits_in(REFUSED):
        if not sys.argv[1:] or crate in sys.argv[1:] or f"{crate}/{name}" in sys.argv[1:]:
            edits.setdefault(crate, []).append((name, path))
    # The crates at the top take longest, so they are begun first.
    crates = sorted(edits, key=list(used).index, reverse=True)
    with concurrent.futures.ThreadPoolExecutor(len(os.sched_getaffinity(0))) as pool:
        wrong = sum(pool.map(lambda crate: tried(crate, edits[crate], words(crate, used)), crates), [])
    print("".join(f"{it}\n" for it in wrong) + f"{sum(map(len, edits.values()))} wrong bodies, {len(wrong)} not refused")
    sys.exit(1 if wrong or not edits else 0)


if __name__ == "__main__":
    main()
