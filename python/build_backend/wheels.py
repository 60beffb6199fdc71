"""Builds the package, by the standard library alone, so that ``pip install`` needs no network.

It has the hooks that pip calls (PEP 517 and PEP 660). A wheel has the package, and a copy of the repository's
``dist/kcore`` where there is one and the machine can run it.
"""
import ast
import base64
import hashlib
import io
import os
import platform
import sys
import tarfile
import zipfile

HERE = os.path.dirname(os.path.dirname(os.path.abspath(__file__)))
PROGRAM = os.path.join(os.path.dirname(HERE), "dist", "kcore")
INSIDE = "kcore/bin/kcore"

#: The date of every file, so that the same sources make the same wheel.
DATE = (1980, 1, 1, 0, 0, 0)


def project():
    """Returns the tables of pyproject.toml by name. Each value is a text or a list of texts on one line."""
    tables, table = {}, {}
    with open(os.path.join(HERE, "pyproject.toml"), encoding="utf-8") as file:
        for line in map(str.strip, file):
            if line.startswith("["):
                table = tables.setdefault(line.strip("[]"), {})
            elif line and not line.startswith("#"):
                key, _, value = line.partition("=")
                table[key.strip()] = ast.literal_eval(value.strip())
    return tables


def metadata():
    """Returns the text METADATA of the package."""
    tables = project()
    about = tables["project"]
    rows = [("Metadata-Version", "2.1"), ("Name", about["name"]), ("Version", about["version"]), ("Summary", about["description"]),
            ("Requires-Python", about["requires-python"])]
    rows += [("Classifier", one) for one in about["classifiers"]]
    for extra, needs in tables.get("project.optional-dependencies", {}).items():
        rows += [("Provides-Extra", extra)] + [("Requires-Dist", f'{need}; extra == "{extra}"') for need in needs]
    rows.append(("Description-Content-Type", "text/markdown"))
    with open(os.path.join(HERE, about["readme"]), encoding="utf-8") as file:
        return "".join(f"{key}: {value}\n" for key, value in rows) + "\n" + file.read()


def program():
    """Returns the file of the program that the wheel has, or None."""
    copy = os.path.join(HERE, "src", *INSIDE.split("/"))
    fits = sys.platform == "linux" and platform.machine() == "x86_64"
    return next((path for path in (copy, PROGRAM) if fits and os.path.isfile(path)), None)


def sources():
    """Yields the files of the package: the name in a wheel, and the path."""
    top = os.path.join(HERE, "src")
    for folder, folders, names in os.walk(os.path.join(top, "kcore")):
        folders[:] = sorted(name for name in folders if name not in ("__pycache__", "bin"))
        for name in sorted(names):
            path = os.path.join(folder, name)
            yield os.path.relpath(path, top).replace(os.sep, "/"), path


def names():
    about = project()["project"]
    return about["name"], about["version"], f"{about['name']}-{about['version']}.dist-info"


def tag():
    return "py3-none-linux_x86_64" if program() else "py3-none-any"


def wheel_text(tag):
    return f"Wheel-Version: 1.0\nGenerator: kcore\nRoot-Is-Purelib: {'true' if tag.endswith('any') else 'false'}\nTag: {tag}\n"


def write_wheel(folder, tag, files):
    """Writes a wheel of these files: each a name, its bytes, and whether it is a program. Returns the name of the
    wheel."""
    name, version, info = names()
    files = [*files, (f"{info}/METADATA", metadata().encode(), False), (f"{info}/WHEEL", wheel_text(tag).encode(), False)]
    rows = []
    path = f"{name}-{version}-{tag}.whl"
    with zipfile.ZipFile(os.path.join(folder, path), "w", zipfile.ZIP_DEFLATED) as wheel:
        for inside, data, runs in files:
            digest = base64.urlsafe_b64encode(hashlib.sha256(data).digest()).rstrip(b"=").decode()
            rows.append(f"{inside},sha256={digest},{len(data)}\n")
            wheel.writestr(entry(inside, runs), data)
        rows.append(f"{info}/RECORD,,\n")
        wheel.writestr(entry(f"{info}/RECORD", False), "".join(rows))
    return path


def entry(inside, runs):
    one = zipfile.ZipInfo(inside, DATE)
    one.compress_type = zipfile.ZIP_DEFLATED
    one.external_attr = (0o100755 if runs else 0o100644) << 16
    return one


def read(path):
    with open(path, "rb") as file:
        return file.read()


# The hooks


def get_requires_for_build_wheel(config_settings=None):
    return []


get_requires_for_build_editable = get_requires_for_build_sdist = get_requires_for_build_wheel


def build_wheel(wheel_directory, config_settings=None, metadata_directory=None):
    files = [(inside, read(path), False) for inside, path in sources()]
    if program():
        files.append((INSIDE, read(program()), True))
    return write_wheel(wheel_directory, tag(), files)


def build_editable(wheel_directory, config_settings=None, metadata_directory=None):
    return write_wheel(wheel_directory, "py3-none-any", [("kcore.pth", (os.path.join(HERE, "src") + "\n").encode(), False)])


def build_sdist(sdist_directory, config_settings=None):
    name, version, _ = names()
    path = f"{name}-{version}.tar.gz"
    files = [(f"src/{inside}", read(file), 0o644) for inside, file in sources()]
    files += [(inside, read(os.path.join(HERE, inside)), 0o644) for inside in ("pyproject.toml", "README.md", "build_backend/wheels.py")]
    files.append(("PKG-INFO", metadata().encode(), 0o644))
    if program():
        files.append((f"src/{INSIDE}", read(program()), 0o755))
    with tarfile.open(os.path.join(sdist_directory, path), "w:gz", format=tarfile.PAX_FORMAT) as archive:
        for inside, data, mode in files:
            one = tarfile.TarInfo(f"{name}-{version}/{inside}")
            one.size, one.mode = len(data), mode
            archive.addfile(one, io.BytesIO(data))
    return path
