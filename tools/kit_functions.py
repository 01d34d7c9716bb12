"""The functions that the kit's command `rt` is made of."""
import importlib.machinery
import importlib.util
import os
import shutil
import sys


def load_script(path, name):
    """A script as a module of this name."""
    loader = importlib.machinery.SourceFileLoader(name, path)
    made = importlib.util.module_from_spec(importlib.util.spec_from_loader(name, loader))
    made.__file__ = path
    sys.modules[name] = made
    loader.exec_module(made)
    return made


def kit_file(name):
    """The path of a file that stands beside the command `rt`."""
    return os.path.join(os.path.dirname(os.path.realpath(shutil.which("rt"))), name)


def load():
    """The module of these functions."""
    return load_script(kit_file("rtlib.py"), "rtlib")


def check_of(name, top, tests=False):
    """The folder of a crate of the repository at `top`, and the words that check it from nothing, with one job."""
    made = load()
    crate = made.Crate(os.path.join(top, "crates", name), top, {})
    return crate.folder, [made.RATTLE, "check", *crate.words(["--jobs", "1"], tests=tests, keeps=False)]
