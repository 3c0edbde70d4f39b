"""Loads a tool of this folder as a module: they are programs, so their names have no ending."""

import importlib.machinery
import importlib.util
import pathlib
import sys


def tool(name):
    sys.dont_write_bytecode = True
    loader = importlib.machinery.SourceFileLoader(name.replace("-", "_"), str(pathlib.Path(__file__).resolve().parent / name))
    module = importlib.util.module_from_spec(importlib.util.spec_from_loader(loader.name, loader))
    loader.exec_module(module)
    return module
