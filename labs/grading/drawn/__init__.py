"""Inputs, partners and machines that are drawn for each student: what is handed in can't know them. A file for each lab, and
`machines` for all.

A function `NAME(draw)` gives the cases of the check whose row in `points.json` has `"draws": "NAME"`. A case has a `name`,
what is run (`input`, `config`, `events`, `fault`), what the grader writes over the data of a service's program (`set`), and
what is wanted: `want`, `first`, `facts`, `models`, `memory`.
"""
import hashlib
import random


def source_of(*words):
    """A source of numbers that is the same for the same words."""
    return random.Random(int.from_bytes(hashlib.sha256("\0".join(words).encode()).digest(), "big"))
