"""Proves and builds a program that isn't one of the repository's crates, over copies of the crates below it; or only
lays it over them, for who compiles it without proof.

The folder of such a program has `crates.txt.in`, its line as in the repository's, and sources and proofs as a crate has
them. Their names end in `.in`, since the kit wants each source and proof of the repository to belong to a crate.
"""
import contextlib
import os
import shutil
import subprocess
import sys
import tempfile

TOP = os.path.dirname(os.path.dirname(os.path.dirname(os.path.abspath(__file__))))
PROGRAMS = os.path.join(TOP, "bench", "programs")


def read_lines(path):
    """The lines of a list of crates, by the crates' names; and for each the crates that it stands on."""
    lines, below = {}, {}
    with open(path, encoding="utf-8") as it:
        for line in it:
            name, colon, lower = line.partition("#")[0].partition(":")
            if colon:
                lines[name.split()[0]] = line
                below[name.split()[0]] = lower.split()
    return lines, below


def needed_by(names, below):
    """The repository's crates among these, and all below them."""
    needed, left = set(), list(names)
    while left:
        name = left.pop()
        if name in below and name not in needed:
            needed.add(name)
            left += below[name]
    return needed


def copy_code(crate, own):
    """Copies what a program without proof is made of."""
    shutil.copytree(os.path.join(crate, "src"), os.path.join(own, "src"))


def copy_crate(crate, own):
    """Copies a crate's sources, with the library that was built of them: that by links if the folder allows them."""
    os.makedirs(os.path.join(own, "out"))
    for part in ("src", "specs", "proofs"):
        if os.path.isdir(os.path.join(crate, part)):
            shutil.copytree(os.path.join(crate, part), os.path.join(own, part))
    built, to = os.path.join(crate, "out", "rlib"), os.path.join(own, "out")
    if os.path.isdir(built) and subprocess.run(["cp", "-al", built, to], capture_output=True, check=False).returncode:
        subprocess.run(["cp", "-a", built, to], check=True)


def copy_source(source, own):
    """Copies a program's folder; its files get the names that they have in a crate."""
    shutil.copytree(source, own)
    for folder, _, names in os.walk(own):
        for name in names:
            if name.endswith(".in"):
                os.rename(os.path.join(folder, name), os.path.join(folder, name.removesuffix(".in")))


def lay(source, folder, top=TOP, copy=copy_crate):
    """Lays a program and copies of the crates below it into an empty folder. Returns the program's folder and name."""
    lines, below = read_lines(os.path.join(top, "crates.txt"))
    own_lines, own_below = read_lines(os.path.join(source, "crates.txt.in"))
    (name, own_line), = own_lines.items()
    needed = needed_by(own_below[name], below)
    os.mkdir(os.path.join(folder, "crates"))
    for it in needed:
        copy(os.path.join(top, "crates", it), os.path.join(folder, "crates", it))
    own = os.path.join(folder, "crates", name)
    copy_source(source, own)
    os.remove(os.path.join(own, "crates.txt"))
    shutil.copy(os.path.join(top, "HANDLES"), folder)
    with open(os.path.join(folder, "crates.txt"), "w", encoding="utf-8") as it:
        it.writelines(line for each, line in lines.items() if each in needed)
        it.write(own_line)
    return own, name


@contextlib.contextmanager
def built(source, top=TOP):
    """The path of a program while it is needed. A program that isn't proved ends the script."""
    with tempfile.TemporaryDirectory(prefix="mx-built-") as folder:
        own, name = lay(source, folder, top)
        made = subprocess.run(["rt", "run"], cwd=own, capture_output=True, text=True, check=False)
        program = os.path.join(own, "out", name)
        if made.returncode or not os.path.exists(program):
            print(made.stdout[-4000:], made.stderr[-4000:], file=sys.stderr)
            sys.exit(f"{os.path.relpath(source, TOP)} isn't proved and built")
        yield program
