"""The crates of the program, as crates.txt lists them, and what their proofs cost."""
import itertools
import os
import re

TOP = os.path.dirname(os.path.dirname(os.path.abspath(__file__)))
PROGRAM = "mx"
# A proof takes so much memory at most, in bytes, but for a few.
MEMORY = 2_500_000_000
# What a proof costs, in seconds of processor: a line for each crate.
SECONDS = os.path.join(TOP, "tools", "proof_seconds.txt")
# What compiling and linking the program adds, in seconds.
LINKING = 40
# A line of the text at the head of a crate.
COMMENT = re.compile(r"//! ?(.*)")


def groups():
    """The crates of crates.txt under its comments: pairs of a title and names. The first comment says what a line is, and
    stands above the processor's crates."""
    found = []
    with open(os.path.join(TOP, "crates.txt"), encoding="utf-8") as lines:
        for line in lines:
            name, colon, _ = line.partition("#")[0].partition(":")
            if line.startswith("#"):
                found.append((line.strip("# \n").rstrip(".") if found else "The processor", []))
            elif colon:
                found[-1][1].append(name.split()[0])
    return found


def first_sentence(name):
    """What a crate says of itself at the top of its code."""
    for root in ("lib.rt", "main.rt"):
        path = os.path.join(TOP, "crates", name, "src", root)
        if os.path.isfile(path):
            with open(path, encoding="utf-8") as file:
                said = itertools.takewhile(None.__ne__, map(COMMENT.match, file))
                text = " ".join(it[1] for it in said).strip()
            return re.split(r"(?<=\.)(?=\s)", text)[0]
    return ""


def libraries_below():
    """Each crate of crates.txt, with the libraries that it uses, the kit's among them."""
    below = {}
    with open(os.path.join(TOP, "crates.txt"), encoding="utf-8") as lines:
        for line in lines:
            name, colon, rest = line.partition("#")[0].partition(":")
            if colon:
                below[name.split()[0]] = rest.split()
    return below


def crates_below():
    """Each crate of crates.txt, with the crates of this repository that it uses."""
    below = libraries_below()
    return {name: [it for it in found if it in below] for name, found in below.items()}


def lowest_first(top=None):
    """A crate with all that it stands on, each after those below it; of all crates, if none is named."""
    below, found = crates_below(), []

    def visit(name):
        if name not in found:
            for other in below[name]:
                visit(other)
            found.append(name)

    for name in below if top is None else [top]:
        visit(name)
    return found


def crates_of_program():
    """The crates that the program is made of, each with those below it, lowest first."""
    below = crates_below()
    return {name: below[name] for name in lowest_first(PROGRAM)}


def with_lower_crates():
    """Each crate with all that it stands on, itself among them."""
    return {name: set(lowest_first(name)) for name in crates_below()}


def seconds_of_proofs(names):
    """What each of these crates' proofs costs. A crate that has no line yet costs what others do."""
    with open(SECONDS, encoding="utf-8") as lines:
        rows = [line.split() for line in lines if not line.startswith("#")]
    known = {name: int(seconds) for name, seconds in rows}
    found = [known[name] for name in names if name in known]
    usual = sum(found) // len(found) if found else 60
    return {name: known.get(name, usual) for name in names}


def lanes():
    """How many proofs can run side by side: by the processors, and by the memory that is free."""
    with open("/proc/meminfo", encoding="utf-8") as it:
        free = 1024 * int(re.search(r"MemAvailable:\s+(\d+)", it.read())[1])
    return max(1, min(len(os.sched_getaffinity(0)), int(free // MEMORY)))


def longest_chain(below, seconds):
    """For each crate, the seconds of the longest chain of crates that begins with it and goes up."""
    chain = {}
    for name in reversed(below):
        above = [chain[it] for it in chain if name in below[it]]
        chain[name] = seconds[name] + max(above, default=0)
    return chain


def minutes(below, seconds, processors):
    """About how many minutes the proofs of these crates take on this number of processors."""
    if not below:
        return 1
    longest = max(longest_chain(below, seconds).values())
    # The longest chain gets two processors if there are two.
    least = longest / min(processors, 2)
    share = 1.15 * sum(seconds[it] for it in below) / processors
    return max(1, round(max(share, least) / 60))
