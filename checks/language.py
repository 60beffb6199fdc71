#!/usr/bin/env python3
"""Counts what is hard to read in comments and docs, and holds the counts against checks/language.txt.

    checks/language.py [--list [WORD] | --write | --self-test]

Runs in the gate, after `rt ci`. It reads the comments of crates/*/src/**/*.rt and crates/*/specs/**/*.antt, README.md,
CONTRIBUTING.md, CHANGELOG.md and docs/*.md. Fenced and indented code, tables and drawings are left out, and what stands
in backticks counts as one word. For each crate and each page it counts

- long:   sentences of more than 25 words; a sentence ends at `.`, `!` or `?` before a blank, or with its paragraph;
- turns:  the turns of phrase of TURNS, by a search of the text, so a few of them may be right where they stand;
- wide:   lines of more than 120 columns.

Prints the sums. Ends with 1 if a count is greater than on the page, with the places of that kind. --write renews the
page: it is meant for counts that fell, and for a crate or page that is new. --list prints each place whose path has
WORD in it, of all if none is given. --self-test tries the counts on small files that it makes.
"""
import argparse
import collections
import glob
import os
import re
import sys
import tempfile

TOP = os.path.normpath(os.path.join(os.path.dirname(os.path.abspath(__file__)), ".."))
PAGE = os.path.join(TOP, "checks", "language.txt")
KINDS = ("long", "turns", "wide")
MOST_WORDS, MOST_COLUMNS = 25, 120

# What is better said with a noun, a verb or the field's word. `^` stands for the beginning of a sentence.
TURNS = [re.compile(turn, re.IGNORECASE) for turn in (
    r"\b(?:who|whom|whoever)\b",  # a vertex, a batch or a worker
    r"\b(?:nobody|somebody|everybody|everyone)\b",  # no vertex, no reader, a reader
    r"^Those\b",  # the subject is a noun
    r"^Where\b",  # if, when
    r"\bat hand\b",  # kept, in the cache
    r"\bin turn\b",  # one after another
    r"\bso many\b",  # as many as what
    r"\b(?:come|comes|came) to\b",  # is, gives, reaches
    r"\b(?:is|are|was|were|be|been) told\b",  # gets, learns
    r"(?<!left )(?<!leave )(?<!leaves )(?<!stay )(?<!stays )\bbehind\b",  # after
    r"\bfor want of\b|\bwant of memory\b",  # no memory
    r"\bbeside the contract\b|\bof its own accord\b",
)]

Place = collections.namedtuple("Place", "kind path line text")
COMMENT = {".rt": re.compile(r"^(\s*)(//[/!]?)(?: (.*))?$"), ".antt": re.compile(r"^(\s*)(--)(?: (.*))?$")}
BESIDE_CODE = {".rt": re.compile(r"[;,{})] // (.*)$"), ".antt": re.compile(r"\S -- (.*)$")}
ITEM = re.compile(r"^(?:[-*]|\d+\.) ")


def paragraphs(lines):
    """The paragraphs among numbered lines of markdown: the line on which each begins, and its text."""
    begun, text, fenced, was_blank = 0, [], False, True
    for number, line in lines:
        bare = line.strip()
        is_fence = bare.startswith("```")
        is_code = fenced or is_fence or was_blank and line.startswith("    ") or bare.startswith(("|", "#"))
        fenced ^= is_fence
        if is_code or not bare or ITEM.match(bare):
            if text:
                yield begun, " ".join(text)
            text = []
        was_blank = not bare or is_code
        if bare and not is_code:
            begun = begun if text else number
            text.append(ITEM.sub("", bare))
    if text:
        yield begun, " ".join(text)


def sentences(text):
    """The sentences of a paragraph, what stands in backticks as one word."""
    text = re.sub(r"`[^`]*`", "X", text)
    text = re.sub(r"!?\[([^\]]*)\]\([^)]*\)", r"\1", text).replace("*", "")
    return re.split(r"(?<=[.!?])[)\"]? +(?=[A-Z(\"\[0-9])", text)


def lines_of(path):
    with open(os.path.join(TOP, path), encoding="utf-8") as file:
        return file.read().split("\n")


def blocks_of(path):
    """What a file says in prose: blocks of numbered lines of markdown."""
    ending = os.path.splitext(path)[1]
    lines = lines_of(path)
    if ending == ".md":
        yield list(enumerate(lines, 1))
        return
    block, last = [], None
    for number, line in enumerate(lines, 1):
        found = COMMENT[ending].match(line)
        marker = found and (found[1], found[2])
        if block and marker != last:
            yield block
            block = []
        if found:
            block.append((number, found[3] or ""))
        elif beside := BESIDE_CODE[ending].search(line):
            yield [(number, beside[1])]
        last = marker
    if block:
        yield block


def wide_lines(path):
    """The lines of prose that are too wide, each with its number."""
    ending, fenced = os.path.splitext(path)[1], False
    for number, line in enumerate(lines_of(path), 1):
        fenced ^= ending == ".md" and line.startswith("```")
        if ending == ".md":
            is_prose = not (fenced or line.startswith("    ") or line.lstrip().startswith("|"))
        else:
            is_prose = COMMENT[ending].match(line)
        if is_prose and len(line) > MOST_COLUMNS:
            yield number, line


def places_in(path):
    for number, line in wide_lines(path):
        yield Place("wide", path, number, line.strip()[:80])
    for block in blocks_of(path):
        for number, text in paragraphs(block):
            for sentence in sentences(text):
                words = sum(1 for word in sentence.split() if re.search(r"\w", word))
                if words > MOST_WORDS:
                    yield Place("long", path, number, f"{words} words: {sentence[:100]}")
                for turn in TURNS:
                    for found in turn.finditer(sentence):
                        around = sentence[max(0, found.start() - 40):found.end() + 40]
                        yield Place("turns", path, number, f"{found[0]}: {around}")


def read_paths():
    """All files, each with the crate or page under which it is counted."""
    def found(pattern):
        return [os.path.relpath(path, TOP) for path in glob.glob(os.path.join(TOP, pattern), recursive=True)]

    for path in sorted(found("crates/*/src/**/*.rt") + found("crates/*/specs/**/*.antt")):
        yield path.split(os.sep)[1], path
    for path in sorted(found("*.md") + found("docs/*.md")):
        yield path, path


LONG = " ".join("ABCDEFGHIJKLMNOPQRSTUVWXY")  # a sentence of 25 words
TRIED = {
    "no.md": f"# {LONG} more\n\n{LONG}.\n{LONG}.\n\n    {LONG} more\n\n| {LONG} more |\n\n`{LONG} more` is one word.\n",
    "two.md": f"{LONG}\nmore. Where it stands, and\n- {LONG} more\n",
    "none.rt": f"// {LONG}.\n\n// {LONG}.\nlet {LONG} = 1;\n",
    "one.rt": f"/// {LONG}\n/// more.\nlet who = 1;\n",
    "turns.rt": "let x = 1; // it comes to one\n// Those stay behind, nobody is told.\n",
    "turns.antt": "-- where it stands\nwhoever : ℕ\n-- a vertex who rises\n",
    "wide.rt": f"// {'x' * MOST_COLUMNS}\nlet {'x' * MOST_COLUMNS} = 1;\n",
}
EXPECTED = {"no.md": (0, 0, 0), "two.md": (2, 1, 0), "none.rt": (0, 0, 0), "one.rt": (1, 0, 0), "turns.rt": (0, 4, 0),
            "turns.antt": (0, 2, 0), "wide.rt": (0, 0, 1)}


def self_test():
    """Counts in small files, and ends with 1 if a count isn't the expected one."""
    wrong = 0
    with tempfile.TemporaryDirectory(prefix="language.") as folder:
        for name, text in TRIED.items():
            path = os.path.join(folder, name)
            with open(path, "w", encoding="utf-8") as file:
                file.write(text)
            counts = collections.Counter(place.kind for place in places_in(path))
            got = tuple(counts[kind] for kind in KINDS)
            if got != EXPECTED[name]:
                wrong += 1
                print(f"{name}: {got} in place of {EXPECTED[name]}")
    print(f"{len(TRIED)} files, {wrong} wrong")
    sys.exit(1 if wrong else 0)


def main():
    parser = argparse.ArgumentParser(description=__doc__, formatter_class=argparse.RawDescriptionHelpFormatter)
    chosen = parser.add_mutually_exclusive_group()
    chosen.add_argument("--list", nargs="?", const="", metavar="WORD")
    chosen.add_argument("--write", action="store_true")
    chosen.add_argument("--self-test", action="store_true")
    options = parser.parse_args()
    if options.self_test:
        self_test()
    counts, places = {}, collections.defaultdict(list)
    for name, path in read_paths():
        counts.setdefault(name, collections.Counter())
        for place in places_in(path):
            counts[name][place.kind] += 1
            places[name, place.kind].append(place)
    if options.list is not None:
        for place in sorted(place for each in places.values() for place in each if options.list in place.path):
            print(f"{place.path}:{place.line}: {place.kind}: {place.text}")
    page = "".join(" ".join([name, *(f"{kind} {count[kind]}" for kind in KINDS)]) + "\n"
                   for name, count in sorted(counts.items()))
    if options.write:
        with open(PAGE, "w", encoding="utf-8") as file:
            file.write(page)
    with open(PAGE, encoding="utf-8") as file:
        rows = re.findall(r"(\S+) long (\d+) turns (\d+) wide (\d+)", file.read())
    allowed = {name: dict(zip(KINDS, map(int, numbers))) for name, *numbers in rows}
    wrong = 0
    for name, count in sorted(counts.items()):
        for kind in KINDS:
            most = allowed.get(name, {}).get(kind, 0)
            if count[kind] > most:
                wrong += 1
                print(f"{name}: {kind} {count[kind]}, and checks/language.txt has {most}; see checks/language.py:")
                for place in places[name, kind][:20]:
                    print(f"    {place.path}:{place.line}: {place.text}")
    sums = {kind: sum(count[kind] for count in counts.values()) for kind in KINDS}
    print(f"{sums['long']} sentences over {MOST_WORDS} words, {sums['turns']} hard turns of phrase, "
          f"{sums['wide']} lines past {MOST_COLUMNS} columns; {wrong} counts rose")
    sys.exit(1 if wrong else 0)


if __name__ == "__main__":
    main()
