"""Facts about a run's history: what was said, called and written, as `mx trace` prints it.

An event of a history is a line of words:

    message FROM to TO type T words W ..      a message was taken; also `notify` for a notification
    call WHO NAME W .. answer R W ..          a kernel call and its result
    try WHO SEND WHOM                         a trap that wasn't a kernel call, as it began; WHOM is `any` too
    trap WHO SEND WHOM result R               its result, if that was known at once
    console WHO 0xHH                          a byte was written
    line N WHO                                an interrupt of a line that somebody has taken
    tick N                                    the uptime

A fact is one of these, where EVENT is such a line in which after the first word `*` stands for any word, `A|B` for one of
two, and `..` at its end for any words:

    N EVENT          there are N of these; N+ at least N
    in order: EVENT; EVENT ..                 each comes after the one before it
    each EVENT: after EVENT; no EVENT since   each of the first comes after one of the second, without the third between
"""
import collections
import functools
import re

from .commands import Lost

Event = collections.namedtuple("Event", "record words who")
CALL = re.compile(r"(\d+) \d+ back \d+: (\S+) (\d+) trap SENDREC SYSTEM, (\S+)(.*)")
TRAP = re.compile(r"(\d+) \d+ back \d+: (\S+) (\d+) trap (SEND|RECEIVE|SENDREC|NOTIFY)(?: (\S+)(?: (\d+))?)?$")
ANSWER = re.compile(r"(\d+)   answer (-?\d+)(?: [A-Z]+)?(.*)")
SAID = re.compile(r"(\d+)   (message|notify) (\S+)(?: (\d+))? to (\S+) (\d+) type (\d+)(?: words(.*))?")
STATE = re.compile(r"(\d+)   (\S+) (\d+): (.*?) -> (.*?)(?:, result (-?\d+).*)?$")
CONSOLE = re.compile(r"(\d+)   console (0x\w+)")
LINE = re.compile(r"(\d+) \d+ line (\d+): (\S+) (\d+)")
TICK = re.compile(r"(\d+) \d+ tick: uptime (\d+)")
COUNTED = re.compile(r"(\d+)(\+?) (.*)")
EACH = re.compile(r"each (.*): after (.*); no (.*) since")


def signed(word):
    """A dword as a number that may be below 0, as types and results are meant."""
    number = int(word)
    return number - (1 << 32) if number >> 31 else number


def events(trace):
    """The events of a history, in order. `who` is whose endpoint it was: of a message and of a `try` who sends and who takes."""
    found, last = [], None  # last: the trap of this record
    for line in trace.splitlines():
        last = read(line, found, last)
    return found


def read(line, found, last):
    """Adds the event of a line, if it is one. Gives the trap whose result may follow."""
    if line.startswith("   ", line.find(" ")):
        read_more(line, found, last)
    elif it := CALL.match(line):
        return it[1], it[2], it[3], ["call", it[2], it[4], *it[5].split(), "answer"]
    elif it := TRAP.match(line):
        found.append(Event(int(it[1]), ["try", it[2], it[4], it[5] or "any"], (it[3], it[6])))
        return it[1], it[2], it[3], ["trap", it[2], it[4], it[5] or "any", "result"]
    elif it := LINE.match(line):
        found.append(Event(int(it[1]), ["line", it[2], it[3]], (it[4],)))
    elif it := TICK.match(line):
        found.append(Event(int(it[1]), ["tick", it[2]], ()))
    return last


def read_more(line, found, last):
    """Adds the event of a line that says more of a record, after its trap `last`."""
    if (it := ANSWER.match(line)) and last:
        found.append(Event(int(it[1]), [*last[3], it[2], *it[3].split()], (last[2],)))
    elif it := SAID.match(line):
        said = [it[2], it[3], "to", it[5], "type", str(signed(it[7])), *(["words", *it[8].split()] if it[8] else [])]
        found.append(Event(int(it[1]), said, (it[4], it[6])))
    elif it := STATE.match(line):
        if last and last[:3] == (it[1], it[2], it[3]) and last[3][0] == "trap" and it[6]:
            found.append(Event(int(it[1]), [*last[3], it[6]], (it[3],)))
        if it[5].startswith("down"):
            found.append(Event(int(it[1]), ["down", it[2], *it[5].split()[1:]], (it[3],)))
    elif (it := CONSOLE.match(line)) and last:
        found.append(Event(int(it[1]), ["console", last[1], it[2]], (last[2],)))


@functools.cache
def wanted_by(pattern):
    """The first word of a pattern's events, how many words they have, or have at least, and which words at which places."""
    words = pattern.split()
    is_open = words[-1] == ".."
    words = words[:-1] if is_open else words
    return words[0], len(words), is_open, [(at, it.split("|")) for at, it in enumerate(words) if at and it != "*"]


def fits(event, pattern):
    """Whether an event is one of a pattern's."""
    kind, count, is_open, wanted = wanted_by(pattern)
    words = event.words
    if words[0] != kind or (len(words) != count and not (is_open and len(words) > count)):
        return False
    for at, those in wanted:
        if words[at] not in those:
            return False
    return True


def missing(fact, found):
    """What isn't so of a fact, and the record that shows it; None if it is so."""
    if fact.startswith("in order: "):
        return missing_order(fact.removeprefix("in order: ").split("; "), found)
    if fact.startswith("each "):
        return missing_each(*EACH.fullmatch(fact).groups(), found)
    count, more, pattern = COUNTED.fullmatch(fact).groups()
    kind = wanted_by(pattern)[0]
    there = [it for it in found if it.words[0] == kind and fits(it, pattern)]
    if len(there) == int(count) or (more and len(there) > int(count)):
        return None
    alike = [" ".join(it.words) for it in found if it.words[:2] == pattern.split()[:2]]
    what = f"{len(there)} {pattern}; there are: {'; '.join(alike[:6]) or 'none alike'}"
    return what, there[-1].record if there else None


def missing_order(patterns, found):
    at = 0
    for pattern in patterns:
        after = next((i for i in range(at, len(found)) if fits(found[i], pattern)), None)
        if after is None:
            return f"after record {found[at - 1].record if at else 0} there is no {pattern}", found[at - 1].record if at else None
        at = after + 1
    return None


def missing_each(pattern, before, end, found):
    is_open = False
    kinds = {wanted_by(it)[0] for it in (pattern, before, end)}
    for it in (it for it in found if it.words[0] in kinds):
        if fits(it, before):
            is_open = True
        elif fits(it, end):
            is_open = False
        if fits(it, pattern) and not is_open:
            return f"record {it.record}: {' '.join(it.words)}", it.record
    return None


def require(name, facts, found):
    """Loses the points if one of the facts isn't so. Gives nothing. A fact may stand with what it says in words."""
    for it in facts:
        fact, in_words = it if isinstance(it, tuple) else (it, f"in the history: {it}")
        what = missing(fact, found)
        if what:
            lost = Lost(name, in_words, f"in the history: {what[0]}")
            lost.record = what[1]
            raise lost
