"""Counts machine instructions by callgrind, a tool of valgrind: of a run, by function, and by address."""
import collections
import os
import re
import subprocess
import sys
import tempfile

COLLECTED = re.compile(r"Collected : (\d+)")
Run = collections.namedtuple("Run", "instructions status out err")


def run(words, *options, **how):
    """A run of a command under callgrind: its machine instructions, its status and what it prints."""
    command = ["valgrind", "--tool=callgrind", *options, *words]
    if not any(it.startswith("--callgrind-out-file=") for it in options):
        command.insert(2, "--callgrind-out-file=/dev/null")
    try:
        done = subprocess.run(command, capture_output=True, text=True, errors="replace", check=False, **how)
    except FileNotFoundError:
        sys.exit("there is no valgrind")
    found = COLLECTED.search(done.stderr)
    if not found:
        sys.exit(f"callgrind counted nothing: {done.stderr[-300:]}")
    return Run(int(found[1]), done.returncode, done.stdout, done.stderr)


def instructions(words, **how):
    """All machine instructions of a run that ends well."""
    done = run(words, **how)
    if done.status:
        sys.exit(f"{' '.join(words)}: status {done.status}, {done.out[:200]}{done.err[-300:]}")
    return done.instructions


def by_function(program, crate, within=None):
    """The machine instructions of each function of a crate in a run, with those of what it calls; `within` another
    function of the crate only."""
    with tempfile.TemporaryDirectory() as room:
        out = os.path.join(room, "callgrind")
        options = [f"--callgrind-out-file={out}"]
        options += [f"--toggle-collect=*{crate}::{within}*"] if within else []
        run([program], *options)
        told = subprocess.run(
            ["callgrind_annotate", "--inclusive=yes", "--threshold=100", out], capture_output=True, text=True, check=True
        )
    # A row has the count, and then the function's file and name; the greatest stands first.
    found = {}
    for count, name in re.findall(rf"^ *([0-9,]+) .*?:{crate}::(\w+)", told.stdout, re.M):
        found.setdefault(name, int(count.replace(",", "")))
    return found


def by_address(words):
    """How often each machine instruction of a program is executed, by its address; the program is the first word."""
    with tempfile.TemporaryDirectory() as room:
        out = os.path.join(room, "callgrind")
        run(words, "--dump-instr=yes", "--compress-pos=no", f"--callgrind-out-file={out}")
        counts, is_call = {}, False
        with open(out, encoding="ascii") as file:
            for line in file:
                if line.startswith("calls="):  # the next line has what was called, which is counted elsewhere
                    is_call = True
                elif line.startswith("0x"):
                    if not is_call:
                        fields = line.split()
                        counts[int(fields[0], 16)] = counts.get(int(fields[0], 16), 0) + int(fields[-1])
                    is_call = False
    return counts
