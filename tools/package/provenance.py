"""PROVENANCE: what the program was made of, by what, and what was proved when."""
import hashlib
import os
import re
import subprocess
import time

import crates
import kit_functions

KIT = os.path.dirname(os.path.dirname(kit_functions.kit_file("rt")))
PROVED = re.compile(r"^logic=proved functions=(\d+) .*$", re.M)


def git(*words):
    return subprocess.run(["git", "-C", crates.TOP, *words], capture_output=True, text=True, check=True).stdout.strip()


def sha256(path):
    with open(path, "rb") as it:
        return hashlib.sha256(it.read()).hexdigest()


def sum_of_sources(crate):
    """A sum of the names and contents of a crate's sources, statements and proofs."""
    whole = hashlib.sha256()
    for kind in "src", "specs", "proofs":
        for folder, names, files in os.walk(os.path.join(crates.TOP, "crates", crate, kind)):
            names.sort()
            for file in sorted(files):
                path = os.path.join(folder, file)
                whole.update(f"{sha256(path)}  {os.path.relpath(path, crates.TOP)}\n".encode())
    return whole.hexdigest()


def day(path):
    return time.strftime("%Y-%m-%d %H:%M UTC", time.gmtime(os.path.getmtime(path)))


class Verdict:
    """What the prover printed of a crate at its end, how many functions it proved, and when."""

    def __init__(self, line, functions, when):
        self.line, self.functions, self.when = line, int(functions), when


def last_verdict(text, when):
    found = list(PROVED.finditer(text))
    return Verdict(found[-1][0], found[-1][1], when) if found else None


def verdicts_of_proofs():
    """What `./mx --prove` left beside each crate."""
    found = {}
    for crate in crates.crates_of_program():
        log = os.path.join(crates.TOP, "crates", crate, "out", "proving.log")
        if os.path.isfile(log):
            with open(log, encoding="utf-8") as it:
                found[crate] = last_verdict(it.read(), day(log))
    return found


def verdicts_of_gate(log):
    """What the gate printed: of each crate the prover's line, and then that it is proved."""
    found = {}
    with open(log, encoding="utf-8", errors="replace") as it:
        parts = re.split(r"^rt: (\w+) proved\b.*$", it.read(), flags=re.M)
    for text, crate in zip(parts[::2], parts[1::2]):
        found.setdefault(crate, last_verdict(text, day(log)))
    return found


def verdicts(log):
    found = {**(verdicts_of_gate(log) if log else {}), **verdicts_of_proofs()}
    return {crate: it for crate, it in found.items() if it and crate in crates.crates_of_program()}


def text_of(*names):
    with open(os.path.join(KIT, *names), encoding="utf-8") as it:
        return it.read().strip().splitlines()


def head(program, count):
    changed = git("status", "--porcelain", "--", "crates", "crates.txt", "HANDLES")
    commit = git("rev-parse", "HEAD") + (" and changes that are not committed" if changed else "")
    kit, *rest = [*text_of("KIT-ID"), *text_of("WHAT")]
    return [
        "Where this program comes from",
        "",
        f"commit      {commit}",
        f"of          {git('show', '-s', '--format=%cI', 'HEAD')}",
        f"proved by   {kit}",
        *(f"            {it}" for it in rest),
        f"built       {day(program)}",
        f"program     sha256 {sha256(program)}  lib/mx",
        "",
        f"Proved: the {count} crates below, whole, each over the statements of those below it: a function whose proof",
        "fails isn't built. PROVED.md in the sources' docs says what the statements say. Not proved: the scripts (mx, new,",
        "join_sweeps, join_explores, pcapng, gdb_names, those of labs), the files of lib/ beside lib/mx (the C library of the kit's toolchain),",
        "completions, and the files for editors, gdb and Wireshark.",
        "",
        "Make it again: in a clone at that commit, with that kit, ./mx --prove and then ./mx --package FOLDER.",
        "",
    ]


def table(sums, known):
    total = sum(it.functions for it in known.values())
    lines = [
        "The crates: how many functions were proved and when, where that is known; and a sum, of a line `SUM  NAME` for",
        f"each file of src, specs and proofs, in the order of names. Functions in all: {total}"
        + ("." if len(known) == len(sums) else f", in {len(known)} of {len(sums)} crates."),
        "",
    ]
    for crate, total in sums.items():
        it = known.get(crate)
        lines.append(f"{crate:22} {it.functions if it else '-':>5}  {it.when if it else '-':20}  {total}")
    return lines


def provenance(program, unlicensed, log):
    """The text. `log` has what the gate printed, if it was the gate that proved the program."""
    sums, known = {it: sum_of_sources(it) for it in crates.crates_of_program()}, verdicts(log)
    lines = head(program, len(sums))
    if crates.PROGRAM in known:
        lines += ["The prover's last line of the crate mx:", "", f"    {known[crates.PROGRAM].line}", ""]
    if unlicensed:
        lines += [f"Libraries of the kit that have no licence file: {', '.join(unlicensed)}.", ""]
    return "\n".join([*lines, *table(sums, known)]) + "\n"
