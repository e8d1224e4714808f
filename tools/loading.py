"""Tools as modules, for others that use their parts."""

import importlib.machinery
import importlib.util
import sys
from pathlib import Path


def load(name):
    """The tool of this name. No compiled copy is left beside it."""
    sys.dont_write_bytecode = True
    loader = importlib.machinery.SourceFileLoader(name.replace("-", "_"), str(Path(__file__).resolve().parent / name))
    module = importlib.util.module_from_spec(importlib.util.spec_from_loader(loader.name, loader))
    loader.exec_module(module)
    return module
