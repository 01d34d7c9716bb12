"""What came of the checks: for a student, for a teacher's table, and for programs."""
import csv
import json
import os
import xml.etree.ElementTree as ElementTree

from .commands import printable, shown

TOLD = ("why", "run", "wanted", "came", "signs", "look", "trace")
WHOLE = ("run", "signs", "look", "trace")  # these aren't cut


def lost(check, it):
    """A check that lost its points: why, and which commands show the place. They are to be pasted in the room."""
    told = {"why": it.why, "run": check.pasted, "wanted": it.wanted, "came": it.came, "signs": check.signs()}
    if check.has_history():
        shows = "ps" if check.place == "end" else "why"
        told["look"] = f"printf 'goto {check.place}\\n{shows}\\n' | mx look {check.config} {check.log}"
        told["trace"] = f"mx trace {check.config} {check.log} {check.shows}"
    return {name: (printable if name in WHOLE else shown)(it) for name, it in told.items() if it}


def lines_of(it):
    """What is told of a lost point."""
    return [f"{name}: {it[name]}" for name in TOLD if name in it]


def print_results(graded):
    """The checks of one student, a line each, and below it what is told of a lost point."""
    for it in graded["checks"]:
        print(f"{it['points']} of {it['of']}  {it['check']}")
        for line in lines_of(it):
            print("        " + line.replace("\n", "\n        "))
    # Where a file is missing, nothing was run.
    if any("run" in it for it in graded["checks"]):
        print(f"what was run is in {printable(graded['room'])}: paste the commands there")
    print(f"{graded['points']} of {graded['of']} points", flush=True)


def print_line(graded):
    """A line for one student of many."""
    names = ", ".join(it["check"] for it in graded["checks"] if it["points"] < it["of"])
    print(f"{graded['points']} of {graded['of']}  {printable(graded['folder'])}" + (f"  lost: {names}" if names else ""),
          flush=True)


def print_json(graded):
    """An object for one student, in a line of its own: what is printed stays if the grader is interrupted."""
    print(json.dumps(graded), flush=True)


class Csv:
    """A table: a row a student, which is written as soon as it is known."""

    def __init__(self, file, lab):
        self.file = open(file, "w", encoding="utf-8", newline="")
        self.write(["folder", "points", "of", *(it["name"] for it in lab.checks)])

    def write(self, row):
        csv.writer(self.file).writerow(row)
        self.file.flush()

    def add(self, graded):
        folder = printable(graded["folder"]).replace("\n", "\\n")
        # A table's program takes what begins so for a formula.
        folder = "'" + folder if folder[0] in "=+-@" else folder
        self.write([folder, graded["points"], graded["of"], *(it["points"] for it in graded["checks"])])


class Junit:
    """A report as JUnit's: a suite a student, a test a check. It is whole after each student."""

    def __init__(self, file, lab):
        self.file, self.lab = file, lab
        self.suites = ElementTree.Element("testsuites", name=lab.name)
        self.write()

    def write(self):
        for name in ("tests", "failures"):
            self.suites.set(name, str(sum(int(it.get(name)) for it in self.suites)))
        with open(self.file + ".part", "wb") as it:
            ElementTree.ElementTree(self.suites).write(it, encoding="utf-8", xml_declaration=True)
        os.replace(self.file + ".part", self.file)

    def add(self, graded):
        failed = [it for it in graded["checks"] if it["points"] < it["of"]]
        suite = ElementTree.SubElement(self.suites, "testsuite", name=printable(graded["folder"]).replace("\n", "\\n"),
                                       tests=str(len(graded["checks"])), failures=str(len(failed)), errors="0", skipped="0")
        points = ElementTree.SubElement(suite, "properties")
        for name in ("points", "of"):
            ElementTree.SubElement(points, "property", name=name, value=str(graded[name]))
        for it in graded["checks"]:
            case = ElementTree.SubElement(suite, "testcase", classname=self.lab.name, name=it["check"], time="0")
            if it in failed:
                why = ElementTree.SubElement(case, "failure", message=it["why"].replace("\n", " "), type=f"{it['of']} points")
                why.text = "\n".join(lines_of(it))
        self.write()
