"""Lab 5's arrays: what a process has in its memory when it has said something."""
import itertools
import re

from .common import numbers, said, wrong


def compare_arrays(name, event, memory, arrays):
    """The first array is at the address that is a message's second word, and each other one, which is as long, anywhere
    else: a compiler may put variables in any order. The first one may have any bytes if its text is None."""
    (first, text), *others = arrays.items()
    at, size = numbers(event)[1], len(others[0][1])
    came = memory[at:at + size]
    if text is not None and came != text.encode():
        raise wrong(name, event, f"at the address of `{said(event)}` `{first}`, {in_words(text.encode())}", in_words(came))
    rest = memory[:at] + bytes(size) + memory[at + size:]
    for other, text in others:
        if text.encode() not in rest:
            wanted = f"after `{said(event)}` in its memory, beside `{first}`, `{other}`, {in_words(text.encode())}"
            raise wrong(name, event, wanted, in_words(longest(text[0].encode(), rest)))


def longest(byte, memory):
    """The longest row of a byte."""
    return max(re.findall(re.escape(byte) + b"*", memory), key=len)


def in_words(data):
    """Bytes as they are told: how many of each follow one another."""
    return ", ".join(f"{len(list(those))} bytes {chr(it)!r}" for it, those in itertools.groupby(data)) or "no bytes"
