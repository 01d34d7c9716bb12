"""A model of turns and sweeps, over checks/lib/kernel_model.py, which has the kernel; both were written apart from the
code, after docs/use/REFERENCE.md. Its images run small programs as lists of instructions.

A program is a list of tuples, one an instruction (`text_of` gives the assembler's text):

    ("mov", REGISTER, N)  ("load", REGISTER, AT)  ("store", AT, REGISTER)  ("put", AT, N)  ("add", AT, N)
    ("sub", REGISTER, N)  ("jnz", INDEX)  ("jmp", INDEX)  ("int33",)  ("hlt",)  ("int3",)

Memory is 4,096 bytes, of which the first 40 are a message's buffer and one more number.
"""
import os
import struct
import sys

sys.dont_write_bytecode = True
TOP = os.path.dirname(os.path.dirname(os.path.dirname(os.path.abspath(__file__))))
sys.path.insert(0, os.path.join(TOP, "checks", "lib"))
from kernel_model import Machine

LIMIT = 4096


def text_of(program):
    """The program as a text for the assembler."""
    targets = {it[1] for it in program if it[0] in ("jmp", "jnz")}
    lines = [".sep", ".data", "buf: .space 40", ".text"]
    for at, (what, *rest) in enumerate(program):
        label = f"l{at}: " if at in targets else ""
        lines.append(label + {
            "mov": lambda r, n: f"mov {r}, {n}", "load": lambda r, m: f"mov {r}, [buf+{m}]",
            "store": lambda m, r: f"mov [buf+{m}], {r}", "put": lambda m, n: f"mov dword [buf+{m}], {n}",
            "add": lambda m, n: f"add dword [buf+{m}], {n}", "sub": lambda r, n: f"sub {r}, {n}",
            "jnz": lambda to: f"jnz l{to}", "jmp": lambda to: f"jmp l{to}", "int33": lambda: "int 33",
            "hlt": lambda: "hlt", "int3": lambda: "int3"}[what](*rest))
    return "\n".join(lines) + "\n"


class Image:
    """Registers and memory of a process."""

    def __init__(self, program):
        self.program, self.at, self.zero = program, 0, False
        self.registers = dict.fromkeys(("eax", "ecx", "edx", "ebx"), 0)
        self.memory = bytearray(LIMIT)

    def run(self, most, until=None):
        for made in range(1, most + 1):
            stop = self.step()
            if stop is not None:
                return made, stop
        return most, None

    def step(self):
        """One instruction. Gives None, "trap", or the number of a fault."""
        what, *rest = self.program[self.at]
        if what == "hlt":
            return 13
        if what == "int3":
            return 3
        self.at += 1
        registers = self.registers
        if what == "mov":
            registers[rest[0]] = rest[1] & 0xFFFFFFFF
        elif what == "load":
            registers[rest[0]] = self.dword(rest[1])
        elif what == "store":
            self.put(rest[0], registers[rest[1]])
        elif what == "put":
            self.put(*rest)
        elif what == "add":
            self.put(rest[0], self.dword(rest[0]) + rest[1])
            self.zero = self.dword(rest[0]) == 0
        elif what == "sub":
            registers[rest[0]] = (registers[rest[0]] - rest[1]) & 0xFFFFFFFF
            self.zero = registers[rest[0]] == 0
        elif what == "jmp" or what == "jnz" and not self.zero:
            self.at = rest[0]
        elif what == "int33":
            return "trap"
        return None

    def dword(self, at):
        return struct.unpack_from("<I", self.memory, at)[0]

    def put(self, at, value):
        struct.pack_into("<I", self.memory, at, value & 0xFFFFFFFF)

    def trap_words(self):
        return self.registers["ecx"], self.registers["eax"], self.registers["ebx"]

    def answer(self, result):
        self.registers["eax"] = result

    def read(self, at, count):
        return bytes(self.memory[at : at + count]) if at + count <= LIMIT else None

    def write(self, at, data):
        self.memory[at : at + len(data)] = data

    def end(self):
        pass


def machine_of(config):
    """The machine of a configuration, whose services have a `program`."""
    services = [{**it, "image": lambda program=it["program"]: Image(program)} for it in config["services"]]
    return Machine(services, config["cpus"], config["log"])


# ---- turns

def turns(machine, events, bound=None):
    """Makes turns with these outside events to come, and gives how they end: rest, turns or full."""
    coming, made, other = list(events), 0, len(machine.cpus)
    while True:
        if not coming and machine.is_at_rest():
            return "rest"
        if made == bound:
            return "turns"
        full = False
        for cpu in range(len(machine.cpus)):
            if machine.cpus[cpu] is None and machine.first_ready() is not None:
                if machine.take(cpu) == 52:
                    full = True
                    break
        for cpu in range(len(machine.cpus)):
            if machine.cpus[cpu] is not None:
                machine.step(cpu, machine.cpus[cpu].ticks)
                machine.back(cpu)
        if full:
            return "full"
        if coming and machine.event(other, coming.pop(0).split()) == 52:
            return "full"
        for process in machine.all:
            if process.is_down() and not process.is_worn() and machine.respawn(other, process.slot) == 52:
                return "full"
        made += 1


def ran(config, events=(), bound=None):
    """What `mx turns` leaves: the history's text, the report, and how it ended."""
    machine = machine_of(config)
    ending = turns(machine, events, bound)
    return machine.saved(), machine.report(), ending


# ---- sweeps

def replayed(config, records):
    """A machine after records of a history, or the number of the first that is refused, and its refusal."""
    machine = machine_of(config)
    for number, (actor, words) in enumerate(records, 1):
        if words[0] == "back":
            steps = int(words[1])
            refusal = (replayed_steps(machine, actor, steps) if steps else None) or machine.back(actor)
        else:
            refusal = machine.event(actor, words)
        if refusal is not None:
            return None, number, refusal
    return machine, None, None


def replayed_steps(machine, cpu, steps):
    """Makes the steps of a record. Gives the refusal of the first one that can't be made, or None."""
    made, refusal = machine.step(cpu, steps)
    return refusal if refusal is not None else 55 if made < steps else None


def kept_lines(data):
    lines = data.split(b"\n")
    if lines[-1] == b"":
        lines.pop()
    return ["> " + "".join(chr(it) if 0x20 <= it <= 0x7E else "." for it in line) for line in lines]


def outcome(config, records, place, fault, bound):
    """The lines that a sweep prints of a position, and what is compared of them."""
    machine, _, _ = replayed(config, records[:place])
    answers = [machine.answered(words) for words in fault]
    coming = [" ".join(words) for _, words in records[place:] if words[0] in ("line", "tick")]
    ending = turns(machine, coming, bound)
    states = [f"{it.service['name']} {it.endpoint} {machine.state(it)}" for it in machine.all]
    alike = [f"{it.endpoint % 1024} {machine.state(it, 1024)}" for it in machine.all]
    console = [f"console {machine.written}", *kept_lines(machine.console)]
    return [*answers, *states, ending, *console], (alike, ending, machine.written, machine.console), answers


def swept(config, records, fault, bound=1000, first=0, last=None):
    """What `mx sweep` prints, what it says on standard error, and whether a strict one is lost."""
    until = len(records) if last is None else min(last, len(records))
    blocks, same, given, endings = [], 0, [], []
    for place in range(first, until + 1):
        lines, seen, answers = outcome(config, records, place, fault, bound)
        is_same = seen == outcome(config, records, place, [], bound)[1]
        same += is_same
        given += answers
        endings.append(seen[1])
        if not blocks or blocks[-1][2] != lines:
            blocks.append([place, place, lines, []])
        blocks[-1][1] = place
        blocks[-1][3] += [] if is_same else [place]
    text = []
    for begin, end, lines, other in blocks:
        text.append(f"position {begin}" if begin == end else f"positions {begin} to {end}")
        text += ["  " + it for it in lines]
        text += [f"  not as without the fault, first at position {other[0]}"] if other else []
    text.append(f"{len(endings)} positions, {len(blocks)} blocks, {same} as without the fault")
    said = untested(fault, first, ANYWHERE if last is None else last, given, endings)
    return "\n".join(text) + "\n", said, same != len(endings) or said != ""


# The last position that is swept if none is named.
ANYWHERE = 2 ** 32 - 1


def untested(fault, first, last, given, endings):
    """What a sweep says if it tests nothing, by what each position answered to the lines, and how it ended."""
    why = None
    if not fault:
        why = "no position was tested: FAULT has no line"
    elif not endings:
        why = f"no position was tested: the history has none from {first} to {last}"
    elif all(it.startswith("refused ") for it in given):
        why = f"no position was tested: FAULT was refused at each, first {given[0].removeprefix('refused ')}"
    elif set(endings) == {"full"}:
        why = "each position ends full: log in CONFIG"
    return "" if why is None else f"mx: {why}\n"
