"""Reads contracts: the public parts of a crate's sources, and the definitions of its specs. A module of clauses.py and specs.py."""
import os
import re

TOP = os.path.normpath(os.path.join(os.path.dirname(os.path.abspath(__file__)), ".."))
CRATES = os.path.join(TOP, "crates")
IMPORT = re.compile(r"(?m)^\s*(pub )?(?:ghost )?use (Rattle\.\w+\.specs\.[\w.]+?)(?:\.\{([^}]*)\}| as (\w+))?;?$")
WORD = r"[^\s(){}\[\],;:.λ`]+"
DEFINED = re.compile(rf"(?m)^(?:(?:unfoldable|abbrev|pub|mutual) )*(?:(?:record|data) )?({WORD})(?: [^=\n]*)? ?:(?!\S)")


def read(path):
    with open(path, encoding="utf-8") as file:
        return file.read()


class Imports:
    """What a text imports of specs: module and name of each name, and modules by the name that they have there."""

    def __init__(self, text):
        self.names, self.modules, self.passed_on = {}, {}, {}
        for is_public, module, leaves, alias in IMPORT.findall(text):
            if not leaves:
                self.modules[alias or module.split(".")[-1]] = module
            for leaf in leaves.split(",") if leaves else []:
                name, here = leaf.split(" as ")[0].strip(), leaf.split(" as ")[-1].strip()
                self.names[here] = module, name
                if is_public:
                    self.passed_on[here] = module, name

    def named(self, text):
        """Module and name of each that the text names."""
        found = {self.names[word] for word in re.findall(WORD, text) if word in self.names}
        for alias, module in self.modules.items():
            found |= {(module, name) for name in re.findall(rf"(?<![\w.]){alias}\.({WORD})", text)}
        return found


class Module:
    """A file of specs: its imports, its definitions, and which of them has a name."""

    def __init__(self, path):
        text = read(path)
        self.imports, self.definitions, self.place = Imports(text), [], {}
        for part in re.split(r"\n\s*\n", re.sub(r"(?m)^(pub )?use .*\n", "", text)):
            code = re.sub(r"(?m)^--.*\n?", "", part).rstrip()
            if code.startswith(" "):
                self.definitions[-1] += "\n" + code
            elif code and not re.fullmatch(r"((pub )?mod \w+\s*)*", code):
                self.definitions.append(code)
        for at, definition in enumerate(self.definitions):
            for name in names_in(definition):
                self.place[name] = at


def names_in(definition):
    """What a definition gives a name to: itself, the constructors of a data type, and what stands in a section."""
    if re.match(r"(pub )?(data|module)\b", definition):
        definition = re.sub(r"(?m)^  \|? ?", "", definition)
    return DEFINED.findall(definition)


class Crate:
    """The public parts of a crate's sources, each (name, text, imports of its file), and its types by name."""

    def __init__(self, name, crates=CRATES):
        self.name, self.contracts, self.types = name, [], {}
        root = os.path.join(crates, name, "src")
        top = read(os.path.join(root, "lib.rt" if os.path.exists(os.path.join(root, "lib.rt")) else "main.rt"))
        self.exported = set(re.findall(r"\w+", " ".join(re.findall(r"(?m)^pub use [^;]*;", top))))
        # What `main` calls is the face of a program.
        for module, names in re.findall(r"(?m)^use (\w+)::([^;]*);", top) if "fn main(" in top else []:
            if re.search(rf"(?m)^(pub )?mod {module};", top):
                self.exported |= set(re.findall(r"\w+", names))
        self.open = set(re.findall(r"(?m)^pub mod (\w+);", top))
        places = [os.path.relpath(os.path.join(folder, file), root)[:-3] for folder, _, files in os.walk(root) for file in sorted(files) if file.endswith(".rt")]
        texts = [(place.split(os.sep)[0], read(os.path.join(root, f"{place}.rt"))) for place in places if "tests" not in place]
        self.private_traits = {name for _, text in texts for name in re.findall(r"(?m)^(?:pub\(\w+\) )?trait (\w+)", text)}
        for place, text in texts:
            self.read_file(text, place)

    def read_file(self, text, place):
        imports, lines, owner = Imports(text), text.split("\n"), None
        for at, line in enumerate(lines):
            if line.startswith("}"):
                owner = None
            elif found := re.match(r"(?:pub )?(?:trait|struct|enum) (\w+)", line):
                self.types.setdefault(found.group(1), []).append((block(lines, at), imports))
            elif found := re.match(r"impl(?:<.*?>)? (?:(\w+)(?:<.*?>)? for )?(\w+)", line):
                owner = found.group(1), found.group(2)
                if found.group(1) == "Model" or found.group(2) in self.exported:
                    said = re.findall(r"(?ms)^    ghost \w+ = .*?;$", block(lines, at))
                    self.types.setdefault(found.group(2), []).append(("\n".join(said), imports))
            if found := re.match(r"( *)(pub )?fn (\w+)", line):
                self.read_fn(lines, at, found, owner, imports, place)

    def read_fn(self, lines, at, found, owner, imports, place):
        is_method, is_marked, name = bool(found.group(1)), bool(found.group(2)), found.group(3)
        if is_method and owner:
            is_public = owner[1] in self.exported and (is_marked or owner[0] is not None) and owner[0] not in self.private_traits
        else:
            # What `main` is made of is the program's own contract.
            is_public = not is_method and (place == "main" or is_marked and (place in self.open or name in self.exported))
        if is_public:
            self.contracts.append((f"{owner[1]}::{name}" if is_method else name, head(lines, at), imports))


def block(lines, at):
    """The item that begins there: to the first line that closes it."""
    end = at
    while not re.match(r"\}|.*(;|\})$" if end == at else r"\}", lines[end]):
        end += 1
    return "\n".join(line for line in lines[at:end + 1] if not IMPORT.match(line))


def head(lines, at):
    """A function's signature and clauses."""
    end = at
    while not re.search(r"(\{\}|;)$|^ *\{$|\) \{$|-> .*\{$", lines[end]) or re.match(r" *(requires|ensures)", lines[end]):
        end += 1
    return "\n".join(lines[at:end + 1])


def crate_names(crates=CRATES):
    return sorted(name for name in os.listdir(crates) if os.path.isdir(os.path.join(crates, name, "src")))


def files_of_specs(crate, crates=CRATES):
    """The files of definitions of a crate, each with its module."""
    root = os.path.join(crates, crate, "specs")
    for folder, _, files in os.walk(root):
        for file in sorted(files):
            place = os.path.relpath(os.path.join(folder, file), root)[:-5].replace(os.sep, ".")
            if file.endswith(".antt") and file != "Lib.antt":
                yield f"Rattle.{crate}.specs.{place}", os.path.join(folder, file)
