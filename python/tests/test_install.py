"""The package as pip installs it, without a network."""
import os
import subprocess
import sys
import tempfile
import unittest
import zipfile

import kcore

PYTHON = os.path.dirname(os.path.dirname(os.path.abspath(__file__)))


def has_pip():
    return not subprocess.run([sys.executable, "-m", "pip", "--version"], stdout=subprocess.DEVNULL, stderr=subprocess.DEVNULL).returncode


class Install(unittest.TestCase):
    def setUp(self):
        sys.path.insert(0, os.path.join(PYTHON, "build_backend"))
        self.addCleanup(sys.path.remove, sys.path[0])
        import wheels
        self.wheels = wheels

    def test_version(self):
        self.assertEqual(self.wheels.project()["project"]["version"], kcore.__version__)

    def test_pyproject_is_read_right(self):
        try:
            import tomllib
        except ImportError:
            self.skipTest("there is no tomllib before Python 3.11")
        with open(os.path.join(PYTHON, "pyproject.toml"), "rb") as file:
            whole = tomllib.load(file)
        mine = self.wheels.project()
        self.assertEqual(mine["build-system"], whole["build-system"])
        extras = whole["project"].pop("optional-dependencies")
        self.assertEqual((mine["project"], mine["project.optional-dependencies"]), (whole["project"], extras))

    def test_wheel(self):
        with tempfile.TemporaryDirectory() as folder:
            copy = os.path.join(folder, "program")
            with open(copy, "wb") as file:
                file.write(b"\x7fELF")
            before, self.wheels.PROGRAM = self.wheels.PROGRAM, copy
            self.addCleanup(setattr, self.wheels, "PROGRAM", before)
            name = self.wheels.build_wheel(folder)
            with zipfile.ZipFile(os.path.join(folder, name)) as wheel:
                names = wheel.namelist()
                self.assertIsNone(wheel.testzip())
                record = wheel.read("kcore-1.0.0.dist-info/RECORD").decode().splitlines()
                self.assertEqual([row.split(",")[0] for row in record], names)
                self.assertLessEqual({"kcore/__init__.py", "kcore/__main__.py", "kcore/py.typed"}, set(names))
                if self.wheels.program():
                    self.assertEqual(wheel.read("kcore/bin/kcore"), b"\x7fELF")
                    self.assertEqual(wheel.getinfo("kcore/bin/kcore").external_attr >> 16, 0o100755)

    @unittest.skipUnless(has_pip(), "pip isn't there")
    def test_pip(self):
        with tempfile.TemporaryDirectory() as folder:
            command = [sys.executable, "-m", "pip", "install", "-q", "--no-index", "--no-deps", "--disable-pip-version-check",
                       "--no-cache-dir", "--target", folder, PYTHON]
            done = subprocess.run(command, stdout=subprocess.PIPE, stderr=subprocess.STDOUT, text=True, timeout=120)
            self.assertEqual(done.returncode, 0, done.stdout)
            code = "import kcore; print(kcore.__file__, kcore.core_number([(0, 1)]))"
            environment = {**os.environ, "PYTHONPATH": folder, "KCORE": kcore.program().path}
            said = subprocess.run([sys.executable, "-c", code], cwd=folder, env=environment, stdout=subprocess.PIPE, text=True, check=True)
            self.assertEqual(said.stdout, f"{os.path.join(folder, 'kcore', '__init__.py')} {{0: 1, 1: 1}}\n")
