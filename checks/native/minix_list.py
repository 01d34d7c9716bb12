"""The list of numbers of examples/minixfs/torture.c, written again from what its first comment says."""
from typing import NamedTuple


class List(NamedTuple):
    operations: int
    files: int
    directories: int
    first: int


LONG = List(operations=1000, files=100, directories=4, first=1)
SHORT = List(operations=20, files=3, directories=2, first=2)
MOST_BYTES, MOST_PART = 9000, 1500


def states(which):
    """What the disk has after each operation: paths and bytes, and None for a directory. The first is an empty disk."""
    number = which.first

    def following(limit):
        nonlocal number
        number = (number * 1103515245 + 12345) % 2**32
        return (number >> 16) % limit

    yield {}
    for made in range(which.directories):
        yield {f"d{it}": None for it in range(made + 1)}
    known, names = {}, 0
    for _ in range(which.operations):
        index = following(which.files)
        if index not in known:
            known[index] = {"at": (following(which.directories), names), "seed": following(256), "length": 0}
            names += 1
        else:
            what = following(8)
            if what == 0:
                del known[index]
            elif what == 1:
                known[index]["at"] = (following(which.directories), names)
                names += 1
            elif what > 2:
                count = 1 + following(MOST_PART)
                if known[index]["length"] + count <= MOST_BYTES:
                    known[index]["length"] += count
        yield disk(which, known)


def disk(which, known):
    files = {f"d{it}": None for it in range(which.directories)}
    for it in known.values():
        files["d%d/f%d" % it["at"]] = bytes(
            (it["seed"] * 167 + at * 13 + (at >> 8)) % 256 for at in range(it["length"]))
    return files
