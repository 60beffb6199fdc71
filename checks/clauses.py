#!/usr/bin/env python3
"""Holds the public contracts against the page of their clauses, checks/clauses.txt. Runs in the gate, after `rt ci`.

    checks/clauses.py [--write | --self-test]

The proof refuses a body that breaks its contract. It can't refuse a contract that was weakened first. So the page
holds each public contract of the libraries and programs, one clause a line:

- the signature of each public function, method and method of a public trait, and its `requires` and `ensures` with
  their names;
- public types, and what contracts see of them;
- constants that are public or that a definition names;
- a checksum of each file of definitions: all of specs/ but specs/private, without comments.

If the sources differ from the page, this prints the difference and ends with 1. `--write` renews the page, so a
changed promise is a changed line that somebody commits. `--self-test` tries all this on a small crate that it makes.
"""
import argparse
import difflib
import hashlib
import os
import re
import sys
import tempfile

from contracts import CRATES, TOP, Crate, crate_names, files_of_specs, read

PAGE = os.path.join(TOP, "checks", "clauses.txt")
OPENS, CLOSES = "([{", ")]}"
CLAUSE = re.compile(r"\s*(requires|ensures)\s*(\w+)?\s*\{")
FN = re.compile(r"(?m)^ *(?:pub(?:\(\w+\))? )?(?:unsafe )?fn (\w+)")


def promises_nothing(crate):
    """Returns whether the crate is for tests or measures."""
    return crate.endswith(("_support", "_tests", "_bench"))


def one_line(text):
    text = re.sub(r"\s+", " ", text).strip()
    return re.sub(r",? ([)\]])", r"\1", re.sub(r"([(\[]) ", r"\1", text))


def without_comments(text):
    return re.sub(r"(?m)^\s*//.*\n?", "", text)


def closed_at(text, at):
    """Returns the place of the bracket that closes the one at `at`. Skips quoted text."""
    depth = 0
    for found in re.finditer(r'"(?:\\.|[^"\\])*"|[()\[\]{}]', text[at:]):
        depth += (found.group() in OPENS) - (found.group() in CLOSES)
        if depth == 0:
            return at + found.start()
    raise ValueError(f"a bracket isn't closed: {text[at:at + 60]}")


def clauses_of(head):
    """Returns the signature of a function, and its clauses: kind and name, and the text."""
    head, at, clauses = without_comments(head), 0, []
    while not (head[at] in "{;" or CLAUSE.match(head, at)):
        at = closed_at(head, at) + 1 if head[at] in "([" else at + 1
    signature = one_line(re.sub(r"^\s*pub(\(\w+\))? ", "", head[:at]))
    while found := CLAUSE.match(head, at):
        end = closed_at(head, found.end() - 1)
        clauses.append((" ".join(filter(None, found.groups())), one_line(head[found.end():end])))
        at = end + 1
    if head[at:].strip()[:1] not in ("{", ";"):
        raise ValueError(f"no clause: {head[at:].strip()[:60]}")
    return signature, clauses


def lines_of_function(name, head):
    signature, clauses = clauses_of(head)
    return [f"{name}: {signature}"] + [f"{name} {kind}: {text}" for kind, text in clauses]


def lines_of_trait(name, text):
    """Returns the lines of a trait: its ghost members and its methods."""
    text, lines = without_comments(text), []
    lines.append(f"{name}: {one_line(text[:text.index('{')])}")
    lines += [f"{name} ghost {member}: {one_line(said)}" for member, said in re.findall(r"(?ms)^    ghost (\w+): \{(.*?)\};$", text)]
    for found in FN.finditer(text):
        lines += lines_of_function(f"{name}::{found.group(1)}", text[found.start():])
    return lines


def lines_of_type(name, texts):
    lines = []
    for text in texts:
        text = without_comments(text)
        if re.match(r"(pub )?trait ", text):
            lines += lines_of_trait(name, text)
        elif re.match(r"(pub )?enum ", text):
            lines.append(f"{name}: {one_line(re.sub(r'(?m)^ *#.*$', '', text))}")
        elif re.match(r"(pub )?struct ", text):
            fields = re.findall(r"(?m)^    (pub \w+: .*|ghost \w+: .*),$", text)
            lines.append(f"{name}: {one_line(' '.join([text.split('{')[0].strip('; ')] + ['{ ' + ', '.join(fields) + ' }']))}")
        else:
            lines += [f"{name} {member}: {one_line(said)}" for member, said in re.findall(r"(?ms)^    ghost (\w+) = \{(.*?)\};$", text)]
    return lines


def constants_of(crate, crates, named):
    """Yields the lines of the constants of a crate that are public or that a definition names."""
    root = os.path.join(crates, crate, "src")
    for folder, _, files in os.walk(root):
        for file in files:
            if file.endswith(".rt") and "tests" not in os.path.relpath(os.path.join(folder, file), root):
                for is_public, name, value in re.findall(r"(?m)^(pub )?const (\w+): (.*);$", read(os.path.join(folder, file))):
                    if is_public or (crate, name) in named:
                        yield f"{name}: const {value}"


def named_constants(texts):
    """Returns crate and name of each constant that the texts import."""
    found = re.findall(r"use Rattle\.(\w+)\.specs\.declared\.[\w.]*TheConstants\.\{([^}]*)\}", "\n".join(texts))
    return {(crate, leaf.split(" as ")[0].strip()) for crate, leaves in found for leaf in leaves.split(",")}


def sum_of(path):
    """Returns a checksum of the definitions of a file, without its comments and empty lines."""
    lines = [line.rstrip() for line in re.sub(r"(?m)^\s*--.*$", "", read(path)).split("\n")]
    return hashlib.sha256("\n".join(filter(None, lines)).encode()).hexdigest()[:16]


def page_of(crates):
    """Returns the lines of the page."""
    names = [name for name in crate_names(crates) if not promises_nothing(name)]
    specs = {name: [(module, path) for module, path in files_of_specs(name, crates) if not re.search(r"\.specs\.private\b", module)] for name in names}
    named = named_constants([read(path) for files in specs.values() for _, path in files])
    lines = []
    for name in names:
        crate = Crate(name, crates)
        said = sorted(constants_of(name, crates, named))
        for type_name in sorted(crate.exported & set(crate.types)):
            said += lines_of_type(type_name, [text for text, _ in crate.types[type_name]])
        for function, head, _ in sorted(crate.contracts, key=lambda contract: contract[0]):
            said += lines_of_function(function, head)
        said += [f"{module.removeprefix(f'Rattle.{name}.')}: {sum_of(path)}" for module, path in sorted(specs[name])]
        lines += [f"{name} {line}" for line in said]
    return lines


def difference(crates, page):
    """Returns the difference between the page and the sources, and the lines of the sources."""
    said = page_of(crates)
    return list(difflib.unified_diff(page, said, "the page", "the sources", lineterm="", n=0)), said


LIBRARY = """\
//! A crate.
mod counts;

pub use counts::{Count, Counter, Kind, MOST, count};
"""

COUNTS = """\
ghost use Rattle.small.specs.Counts.{counted};
ghost use Rattle.small.specs.declared.counts.TheConstants.{LEAST};

/// The most.
pub const MOST: u32 = 16;
const LEAST: u32 = 1;
const STEP: u32 = 2;

/// A count.
pub struct Count {
    /// What was counted.
    pub sum: u32,
    steps: u32,
}

impl Model for Count {
    ghost Value = { ℕ };

    ghost view = { λ c. c.sum };
}

/// What is counted.
#[derive(Drop)]
pub enum Kind {
    /// Each.
    Each,
    Text(Vec<u8>),
}

/// Counts things.
pub trait Counter {
    /// How far.
    ghost far: { Self → ℕ };

    /// Counts on.
    fn go_on(&mut self, by: u32) -> bool
        requires { 0 < by }
        ensures on { far self.new ≡ far self.old + by }
        // Always.
        ensures { result ≡ true };
}

trait Doubled {
    fn doubled(&self) -> u32;
}

impl Doubled for Count {
    fn doubled(&self) -> u32 {
        2 * self.sum
    }
}

impl Count {
    /// The sum.
    pub fn sum(&self) -> u32
        ensures { result ≡ self.now }
    {
        self.sum
    }

    fn steps(&self) -> u32
        ensures { result ≤ 1 }
    {
        self.steps
    }
}

/// Counts.
pub fn count<R: Counter>(
    rt: &R,
    items: &[u32],
) -> Result<Count, Failed>
    requires few { length items.now ≤ MOST }
    ensures { IfOk result (λ c.
        c ≡ counted items.now "}") }
    ensures err { OnErr result (LEAST ≤ length items.now) }
{
    Ok(Count { sum: items.len(), steps: 0 })
}
"""

DEFINITIONS = """\
-- how many
counted : List ℕ → ℕ
counted = length
"""

SMALL_PAGE = """\
small LEAST: const u32 = 1
small MOST: const u32 = 16
small Count: pub struct Count { pub sum: u32 }
small Count Value: ℕ
small Count view: λ c. c.sum
small Counter: pub trait Counter
small Counter ghost far: Self → ℕ
small Counter::go_on: fn go_on(&mut self, by: u32) -> bool
small Counter::go_on requires: 0 < by
small Counter::go_on ensures on: far self.new ≡ far self.old + by
small Counter::go_on ensures: result ≡ true
small Kind: pub enum Kind { Each, Text(Vec<u8>), }
small Count::sum: fn sum(&self) -> u32
small Count::sum ensures: result ≡ self.now
small count: fn count<R: Counter>(rt: &R, items: &[u32]) -> Result<Count, Failed>
small count requires few: length items.now ≤ MOST
small count ensures: IfOk result (λ c. c ≡ counted items.now "}")
small count ensures err: OnErr result (LEAST ≤ length items.now)
small specs.Counts: """

# Changes of a file, and whether the page has to show them.
CHANGES = [
    ("src/counts.rt", "≤ MOST }", "≤ 8 }", True),
    ("src/counts.rt", "    requires few { length items.now ≤ MOST }\n", "", True),
    ("src/counts.rt", "ensures err { OnErr", "ensures failed { OnErr", True),
    ("src/counts.rt", "    ensures err { OnErr result (LEAST ≤ length items.now) }\n", "", True),
    ("src/counts.rt", "        requires { 0 < by }\n", "        requires { 0 < by }\n        requires { by < 9 }\n", True),
    ("src/counts.rt", "ensures { result ≡ true };", "ensures { result ≡ result };", True),
    ("src/counts.rt", "Self → ℕ", "Self → Bool", True),
    ("src/counts.rt", "λ c. c.sum", "λ c. 0", True),
    ("src/counts.rt", "u32 = 16", "u32 = 17", True),
    ("src/counts.rt", "u32 = 1;", "u32 = 0;", True),
    ("src/counts.rt", "(&mut self, by: u32)", "(&self, by: u32)", True),
    ("src/counts.rt", "    pub fn sum", "    fn sum", True),
    ("src/counts.rt", "    Each,\n", "", True),
    ("src/lib.rt", ", count}", "}", True),
    ("specs/Counts.antt", "= length", "= λ _. 0", True),
    ("src/counts.rt", "u32 = 2", "u32 = 3", False),
    ("src/counts.rt", "    steps: u32", "    paces: u32", False),
    ("src/counts.rt", "result ≤ 1", "result ≤ 2", False),
    ("src/counts.rt", "    fn doubled(&self) -> u32 {", "    fn doubled(&self) -> u64 {", False),
    ("src/counts.rt", "Ok(Count", "Ok(Other", False),
    ("src/counts.rt", "/// The sum.", "/// What was counted.", False),
    ("src/counts.rt", "        // Always.\n", "", False),
    ("src/counts.rt", "IfOk result (λ c.\n        c", "IfOk result (λ c. c", False),
    ("specs/Counts.antt", "-- how many", "-- the number of items", False),
    ("specs/private/Steps.antt", "= ℕ", "= Bool", False),
]


def self_test():
    """Tries each change of CHANGES on a small crate. Returns how many show or don't show against expectation."""
    files = {"src/lib.rt": LIBRARY, "src/counts.rt": COUNTS, "specs/Counts.antt": DEFINITIONS, "specs/private/Steps.antt": "Steps : Type 1\nSteps = ℕ\n",
             "specs/Lib.antt": "pub mod Counts\n"}
    files["specs/Counts.antt"] = "use Rattle.small.specs.declared.counts.TheConstants.{LEAST}\n" + DEFINITIONS
    wrong = 0
    with tempfile.TemporaryDirectory(prefix="clauses.") as folder:
        def put(file, text):
            path = os.path.join(folder, "small", file)
            os.makedirs(os.path.dirname(path), exist_ok=True)
            with open(path, "w", encoding="utf-8") as out:
                out.write(text)
        for file, text in files.items():
            put(file, text)
        page = page_of(folder)
        said = "\n".join(page)
        if said[:-16] != SMALL_PAGE:
            wrong += 1
            print("\n".join(difflib.unified_diff(SMALL_PAGE.split("\n"), said[:-16].split("\n"), "wanted", "made", lineterm="", n=0)))
        for file, old, new, shows in CHANGES:
            if files[file].count(old) != 1:
                raise ValueError(f"{old} doesn't stand once in {file}")
            put(file, files[file].replace(old, new))
            if bool(difference(folder, page)[0]) != shows:
                wrong += 1
                print(f"{file}: {old!r} to {new!r} " + ("doesn't show" if shows else "shows"))
            put(file, files[file])
    print(f"{len(CHANGES)} changes of a small crate, {wrong} wrong")
    return wrong


def main():
    parser = argparse.ArgumentParser(description=__doc__, formatter_class=argparse.RawDescriptionHelpFormatter)
    way = parser.add_mutually_exclusive_group()
    way.add_argument("--write", action="store_true")
    way.add_argument("--self-test", action="store_true")
    options = parser.parse_args()
    if options.self_test:
        sys.exit(1 if self_test() else 0)
    page = read(PAGE).split("\n")[:-1] if os.path.exists(PAGE) else []
    changes, said = difference(CRATES, page)
    if options.write:
        with open(PAGE, "w", encoding="utf-8") as file:
            file.write("".join(f"{line}\n" for line in said))
        changes = []
    for line in changes:
        print(line)
    if changes:
        print("The public contracts aren't those of checks/clauses.txt. If the change is meant: checks/clauses.py --write")
    print(f"{len(said)} lines of public contracts, {sum(line[0] in '+-' for line in changes[2:])} changed")
    sys.exit(1 if changes else 0)


if __name__ == "__main__":
    main()
