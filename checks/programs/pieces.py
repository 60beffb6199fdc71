#!/usr/bin/env python3
"""Runs kcore and kserve on inputs that come some bytes at a time, and with an output that no program reads.

    checks/programs/pieces.py KCORE KSERVE

Each input in `examples/cases` goes through a pipe that passes on 1, 2 or 7 bytes a read (Linux has such pipes). The
program has to write the text beside it, and to exit with 1 if something is refused. To a closed pipe each command has
to exit with 4. Says what went wrong; the exit number is 1 then.
"""
import glob
import os
import subprocess
import sys

COMMANDS = {"": "run 2", "_exact": "exact", "_final": "final 2", "_dense": "dense", "_orient": "orient 2", "_check": "check", "_audit": "audit"}
BAD_ENDS = b"refused", b"upper", b"lower", b"unexplained"


def ended(words, data, size):
    """The exit number and the text of a program whose reads give so many bytes each."""
    source, end = os.pipe2(os.O_DIRECT | os.O_CLOEXEC)
    with subprocess.Popen(words, stdin=source, stdout=subprocess.PIPE) as program:
        os.close(source)
        try:
            for at in range(0, len(data), size):
                os.write(end, data[at : at + size])
        except BrokenPipeError:
            pass  # It reads nothing more once all is decided.
        os.close(end)
        text = program.stdout.read()
    return program.returncode, text


def cases(kcore, kserve):
    """The words and the input of each case, and its text."""
    for text in sorted(glob.glob("cases/*.txt")):
        name, ending = text.removesuffix(".txt"), ""
        for one in COMMANDS:
            if one and name.endswith(one):
                name, ending = name.removesuffix(one), one
        kinds = {"_check": (".cert",), "_audit": (".run",), "": (".kc", ".ks")}.get(ending, (".kc",))
        path = next(name + kind for kind in kinds if os.path.exists(name + kind))
        words = [kserve, "2"] if path.endswith(".ks") else [kcore, *COMMANDS[ending].split()]
        with open(path, "rb") as file, open(text, "rb") as wanted:
            yield words, path, file.read(), wanted.read()


def main():
    if len(sys.argv) != 3:
        sys.exit(__doc__)
    kcore, kserve = map(os.path.abspath, sys.argv[1:])
    os.chdir(os.path.join(os.path.dirname(os.path.abspath(__file__)), "../../examples"))
    failed = False
    for words, path, data, wanted in cases(kcore, kserve):
        status = int(any(word in wanted for word in BAD_ENDS))
        for size in 1, 2, 7:
            if ended(words, data, size) != (status, wanted):
                print(f"checks/programs/pieces.py: {path}, {size} bytes a read: another text or exit number of {' '.join(words[1:])}")
                failed = True
    for words, path in (*((f"{kcore} {words}", "path.kc") for words in COMMANDS.values()), (f"{kcore} gen 0 5 1 3 2", "path.kc"), (f"{kserve} 2", "clients.ks")):
        source, end = os.pipe()
        os.close(source)
        with open(path, "rb") as file:
            status = subprocess.run(words.split(), stdin=file, stdout=end, check=False).returncode
        os.close(end)
        if status != 4:
            print(f"checks/programs/pieces.py: {words}: exit number {status} where nobody reads its text")
            failed = True
    sys.exit(failed)


if __name__ == "__main__":
    main()
