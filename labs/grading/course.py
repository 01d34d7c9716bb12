"""Grades the folders of a course, and prints what came of it."""
import argparse
import concurrent.futures
import hashlib
import multiprocessing
import os
import re
import secrets
import shutil
import sys
import tempfile

from . import told
from .alike import alike
from .checks import Check, Lab
from .commands import INTERRUPTS, Lost, printable
from .making import LABS, MOST_RUNS, MX, Kit, Student

REFUSED = 2  # the status if nothing was graded
SECONDS = 30  # of one command


class Refused(Exception):
    """Why nothing is graded."""


def room_of(lab, folder, keep):
    """The folder of the grader's own in which a student's folder is graded: no two have the same."""
    path = os.path.realpath(folder)
    name = re.sub(r"\W+", "_", os.path.basename(path))[:40] or "it"
    return os.path.join(keep, os.path.basename(lab.folder), f"{name}-{hashlib.sha256(os.fsencode(path)).hexdigest()[:8]}")


def grade(lab, folder, keep, *rest):
    """All checks of a lab over a folder: what each gave, and all together."""
    room = room_of(lab, folder, keep)
    shutil.rmtree(room, ignore_errors=True)
    os.makedirs(room)
    student = Student(lab, folder, room, Kit(keep), *rest)
    results = []
    for number, row in enumerate(lab.checks, 1):
        check = Check(lab, number, row, student)
        gave = {"check": row["name"], "points": row["points"], "of": row["points"]}
        try:
            check.do()
        except Lost as it:
            gave |= {"points": 0, **told.lost(check, it)}
        results.append(gave)
    points = sum(it["points"] for it in results)
    return {"folder": folder, "points": points, "of": lab.most(), "room": os.path.relpath(room), "checks": results}


def find_lab(word):
    names = sorted(it for it in os.listdir(LABS) if os.path.exists(os.path.join(LABS, it, "checks", "points.json")))
    found = [it for it in names if it == word or it.split("_")[0] == word]
    if not found:
        raise Refused(f"no lab {word}: there are {', '.join(names)}")
    return Lab(os.path.join(LABS, found[0]))


def refuse_folders(folders):
    """Before anything is graded: a folder that isn't there isn't a student without points."""
    seen = set()
    for folder in folders:
        if not os.path.isdir(folder):
            raise Refused(f"{folder} is no folder" if os.path.lexists(folder) else f"no folder {folder}")
        if not os.access(folder, os.R_OK | os.X_OK):
            raise Refused(f"the folder {folder} can't be read")
        if os.path.realpath(folder) in seen:
            raise Refused(f"the folder {folder} is named twice")
        seen.add(os.path.realpath(folder))


def made_keep(folder):
    """The folder in which all is kept that is run."""
    try:
        os.makedirs(folder, exist_ok=True)
        tempfile.TemporaryFile(dir=folder).close()
    except OSError as it:
        raise Refused(f"{folder} can't be made or written here ({it.strerror}): name another one by --keep DIR") from None
    return os.path.abspath(folder)


def secret_of(file, keep):
    """The teacher's secret, by which all is drawn. Without a file of his own it is drawn once, and kept."""
    path = file or os.path.join(keep, "secret")
    try:
        if not file and not os.path.exists(path):
            with open(os.open(path, os.O_WRONLY | os.O_CREAT | os.O_EXCL, 0o600), "w", encoding="ascii") as it:
                it.write(secrets.token_hex(16) + "\n")
        with open(path, encoding="utf-8") as it:
            return it.read().strip()
    except (OSError, UnicodeDecodeError) as it:
        raise Refused(f"the secret {path} can't be read: {it}") from None


def writers(words, lab):
    """The files that have a line or an element a student."""
    kinds = ((words.csv, told.Csv), (words.junit, told.Junit))
    try:
        return [kind(file, lab) for file, kind in kinds if file]
    except OSError as it:
        raise Refused(f"{it.filename} can't be written: {it.strerror}") from None


def stop_workers():
    for it in multiprocessing.active_children():
        it.terminate()


def graded_all(words, lab, keep, secret):
    """What came of each folder: in turn, or by several processes as soon as each is done."""
    rest = keep, words.seconds, secret, words.runs
    if words.jobs == 1 or len(words.folders) == 1:
        yield from (grade(lab, it, *rest) for it in words.folders)
        return
    # They note an interrupt as this process does, and give up each folder that is left.
    with concurrent.futures.ProcessPoolExecutor(words.jobs, multiprocessing.get_context("fork")) as pool:
        made = [pool.submit(grade, lab, it, *rest) for it in words.folders]
        try:
            with INTERRUPTS.stopping(stop_workers):
                yield from (it.result() for it in concurrent.futures.as_completed(made))
        finally:
            stop_workers()


def grade_all(words, lab):
    """Grades, and tells what came of each folder. The status."""
    if not shutil.which(MX):
        raise Refused(f"{MX} can't be run: the variable MX names the program")
    tell = told.print_json if words.json else told.print_line if words.all else told.print_results
    INTERRUPTS.take()
    keep = made_keep(words.keep)
    secret, files = secret_of(words.secret, keep), writers(words, lab)
    complete = True
    for it in graded_all(words, lab, keep, secret):
        tell(it)
        for file in files:
            file.add(it)
        complete = complete and it["points"] == it["of"]
    return 0 if complete else 1


def print_alike(lab, folders):
    for likeness, one, other in alike(lab, folders):
        print(f"{likeness:.2f}  {printable(one)}  {printable(other)}", flush=True)
    return 0


def parsed(doc, words):
    parser = argparse.ArgumentParser(prog="labs/grade", description=doc, usage=argparse.SUPPRESS, add_help=False,
                                     formatter_class=argparse.RawDescriptionHelpFormatter)
    parser.add_argument("-h", "--help", action="help", help=argparse.SUPPRESS)
    parser.add_argument("lab", help=argparse.SUPPRESS)
    parser.add_argument("folders", nargs="+", metavar="FOLDER", help=argparse.SUPPRESS)
    for name in ("all", "json", "alike"):
        parser.add_argument(f"--{name}", action="store_true", help=argparse.SUPPRESS)
    for name in ("csv", "junit", "secret"):
        parser.add_argument(f"--{name}", metavar="FILE", help=argparse.SUPPRESS)
    parser.add_argument("--keep", default="graded", help=argparse.SUPPRESS)
    parser.add_argument("--seconds", type=int, default=SECONDS, help=argparse.SUPPRESS)
    parser.add_argument("--runs", type=int, default=MOST_RUNS, help=argparse.SUPPRESS)
    parser.add_argument("-j", type=int, default=1, dest="jobs", help=argparse.SUPPRESS)
    found = parser.parse_args(words)
    if len(found.folders) > 1 and not (found.all or found.alike):
        parser.error("several folders want --all")
    if min(found.jobs, found.seconds, found.runs) < 1:
        parser.error("-j, --seconds and --runs want a number of 1 at least")
    return found


def main(doc, words):
    found = parsed(doc, words)
    try:
        lab = find_lab(found.lab)
        refuse_folders(found.folders)
        return print_alike(lab, found.folders) if found.alike else grade_all(found, lab)
    except Refused as it:
        print(f"grade: {printable(it)}", file=sys.stderr)
        return REFUSED
