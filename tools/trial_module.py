"""The module of LLVM that the kit's trial makes of a whole program, with the trial's checks in it.

A trial hands this module to a clang of the toolchain that it is told, and the commands of the kit tell it their own.
Here it is told another: the same files by other names, but for a clang that keeps the module and ends the trial.
"""
import contextlib
import io
import os
import shutil
import subprocess
from unittest import mock

import kit_functions

KIT = os.path.dirname(os.path.dirname(kit_functions.kit_file("rt")))
TOOLCHAIN = os.path.join(KIT, "toolchain")
CLANG = os.path.join(TOOLCHAIN, "bin", "clang")
# A smaller module is one of the trial's own.
LEAST_MODULE = 1_000_000
KEEPER = """#!/bin/bash
for word in "$@"; do
    if [[ $word == *.bc && $(stat -c %s "$word") -gt {least} ]]; then
        cp "$word" '{module}'
        exit 1
    fi
done
exec -a "$0" '{clang}' "$@"
"""


def make_toolchain(folder, module):
    """A toolchain whose clang keeps the module."""
    os.makedirs(os.path.join(folder, "bin"))
    for name in os.listdir(TOOLCHAIN):
        if name != "bin":
            os.symlink(os.path.join(TOOLCHAIN, name), os.path.join(folder, name))
    for name in os.listdir(os.path.join(TOOLCHAIN, "bin")):
        if name != "clang":
            os.symlink(os.path.join(TOOLCHAIN, "bin", name), os.path.join(folder, "bin", name))
    keeper = os.path.join(folder, "bin", "clang")
    with open(keeper, "w", encoding="utf-8") as it:
        it.write(KEEPER.format(least=LEAST_MODULE, module=module, clang=CLANG))
    os.chmod(keeper, 0o755)


def run_trial(crate, tools):
    """Tries the program of a crate's folder with other tools than the kit's. Returns what the trial printed: it ends
    where these end it."""
    started = subprocess.Popen

    def start(words, **how):
        words = list(words)
        if "--toolchain" in words:
            words[words.index("--toolchain") + 1] = tools
        return started(words, **how)

    os.chdir(crate)
    said = io.TextIOWrapper(io.BytesIO())
    with mock.patch.object(subprocess, "Popen", start), contextlib.redirect_stderr(said):
        try:
            kit = kit_functions.load()
            # Beside a trial `rt try` looks for names that a proof would refuse, which the gate does too. On two
            # processors that makes the trial slower, since these are often the halves of one.
            if hasattr(kit, "RATTLE"):
                kit.RATTLE = shutil.which("true")
            kit.main("try", "--", "nm")
        except SystemExit as ended:
            # A signal ended it.
            if isinstance(ended.code, int) and ended.code > 128:
                raise
        except Exception as why:  # Another kit's functions may be others, and fail in any way.
            print(f"the kit's functions aren't as expected: {why!r}", file=said)
    said.flush()
    return said.buffer.getvalue().decode(errors="replace")


def keep_module(crate, folder):
    """Tries the program of a crate's folder up to the module of all of it. Returns the module's file, or None, and
    what the trial printed."""
    module, tools = os.path.join(folder, "module.bc"), os.path.join(folder, "toolchain")
    make_toolchain(tools, module)
    said = run_trial(crate, tools)
    return (module if os.path.exists(module) else None), said
