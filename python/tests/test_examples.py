"""The examples of all docstrings, and those of docs/PYTHON.md."""
import doctest
import importlib
import os
import pkgutil

import kcore

from .plain import networkx

PAGE = os.path.join(os.path.dirname(os.path.dirname(os.path.dirname(os.path.abspath(__file__)))), "docs", "PYTHON.md")


def load_tests(loader, tests, pattern):
    names = ["kcore"] + [f"kcore.{module.name}" for module in pkgutil.iter_modules(kcore.__path__) if module.name != "__main__"]
    for name in names:
        # Classes say that they are of `kcore`, functions are found in their own modules.
        tests.addTests(doctest.DocTestSuite(importlib.import_module(name), extraglobs={"kcore": kcore}))
    # The page shows networkx beside the package.
    if networkx and os.path.exists(PAGE):
        tests.addTests(doctest.DocFileSuite(PAGE, module_relative=False))
    return tests
