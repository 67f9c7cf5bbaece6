"""The script forxainde as a module, for the scripts here that use the tree in which it proves the program."""

import importlib.machinery
import importlib.util
import os

TOP = os.path.dirname(os.path.dirname(os.path.realpath(__file__)))


def load(name, file):
    """The module that this file holds, whatever the file is called."""
    loader = importlib.machinery.SourceFileLoader(name, file)
    made = importlib.util.module_from_spec(importlib.util.spec_from_loader(name, loader))
    loader.exec_module(made)
    return made


forxainde = load("forxainde", f"{TOP}/forxainde")
