#!/usr/bin/env python3
"""A model of `mx gdb`, which knows nothing of its code: gdb's remote protocol over a child `mx look`, and the lines of
`mx trace`. Where a move leads is found in the list of all records, and not by a walk.

usage: checks/gdb/model.py PROGRAM CONFIG LOG [--slot S]        talks on standard input and output, as `mx gdb` does
"""
import os
import re
import struct
import subprocess
import sys

CODE = 0x80000000
TARGET = (
    b'<?xml version="1.0"?><!DOCTYPE target SYSTEM "gdb-target.dtd"><target version="1.0">'
    b"<architecture>i386</architecture><osabi>none</osabi></target>"
)
FEATURES = b"PacketSize=4000;vContSupported+;QStartNoAckMode+;ReverseStep+;ReverseContinue+;"
READS = b"qXfer:features:read+;qXfer:exec-file:read+"
FOR_GDB = b"gdb's own commands do that; of those that move only goto is here\n"
MOVES = {"back", "break", "clear", "continue", "exit", "forward", "points", "quit", "reverse", "step", "stepback", "until", "watch"}
VERBS = sorted(MOVES | {"goto", "help", "list", "mem", "messages", "print", "ps", "regs", "stack", "where", "why"})
SIGNALS = {0: 8, 4: 8, 6: 4, 12: 11, 13: 11}
REGISTERS = "EAX ECX EDX EBX ESP EBP ESI EDI EIP".split()
FLAGS = {"CF": 0, "PF": 2, "AF": 4, "ZF": 6, "SF": 7, "DF": 10, "OF": 11}
MOST_BYTES, MOST_BODY = 8190, 16384
DONE, FAULT = b"OK", b"E01"


class Bad(Exception):
    """A packet isn't of its form."""


def number(text):
    """Hexadecimal digits of 32 bits at most."""
    if not re.fullmatch(rb"[0-9a-fA-F]+", text) or int(text, 16) > 0xFFFFFFFF:
        raise Bad
    return int(text, 16)


def two_numbers(text):
    first, comma, second = text.partition(b",")
    if not comma:
        raise Bad
    return number(first), number(second)


def which(text):
    """The number of a process; 0 is any, -1 all."""
    return -1 if text == b"-1" else number(text)


def who(text):
    if text.startswith(b"p"):
        process, dot, thread = text[1:].partition(b".")
        if dot:
            which(thread)
        return which(process)
    return which(text)


class Program:
    """The parts of a program's file that the model asks for."""

    def __init__(self, path):
        with open(path, "rb") as it:
            file = it.read()
        self.apart = bool(file[2] & 0x20)
        text, _, _, _, total, _ = struct.unpack("<6I", file[8:32])
        self.text = file[file[4] : file[4] + text]
        self.limit = (total + 4095) // 4096 * 4096


def is_there(lines):
    """Whether a search of `mx look` has found what it halts at; without a point it looks for nothing."""
    return "not met" not in lines and "refused 73 BadRecord: no break, no watch" not in lines


def is_text(line):
    try:
        line.decode()
    except UnicodeDecodeError:
        return False
    return len(line) <= 4096


class Look:
    """A session of `mx look`, asked a line at a time."""

    def __init__(self, program, config, log):
        self.process = subprocess.Popen(
            [program, "look", config, log], stdin=subprocess.PIPE, stdout=subprocess.PIPE, stderr=subprocess.DEVNULL
        )
        self.begun = self.lines_to_mark(b"")

    def lines_to_mark(self, line):
        # Two lines that no other answer has in a row.
        self.process.stdin.write(line + b"\nregs 99\nregs 98\n")
        self.process.stdin.flush()
        lines = []
        while lines[-2:] != [b"refused 42 NoService\n"] * 2:
            lines.append(self.process.stdout.readline())
            if not lines[-1]:
                raise SystemExit("mx look has ended")
        return lines[:-2]

    def ask(self, line):
        return [it.decode("latin-1").rstrip("\n") for it in self.lines_to_mark(line.encode("latin-1"))]


class Stub:
    def __init__(self, program, config, log, slot):
        self.programs, self.files = [], []
        with open(config, encoding="utf-8") as it:
            for line in it:
                words = line.split("#")[0].split()
                if words[:1] == ["service"]:
                    folder, name = os.path.split(words[2])
                    stem = name[:-4] if name.endswith(".out") else name
                    self.files.append(os.path.join(folder, "out", f"{stem}.gdb").encode())
                    self.programs.append(Program(words[2]))
        self.look = Look(program, config, log)
        self.place([it.decode("latin-1").rstrip("\n") for it in self.look.begun])
        self.last = None
        self.read_trace(program, config, log)
        self.only, self.reads, self.goes, self.names, self.gone = slot, slot or 0, None, False, set()
        self.breaks, self.watches = [], []

    def read_trace(self, program, config, log):
        """Each record that has steps: how many are above it, whose it is, how many steps, and the fault of the last."""
        words = [program, "trace", config, log]
        printed = subprocess.run(words, capture_output=True, check=False).stdout.decode("latin-1")
        self.runs = []
        for line in printed.split("\n"):
            found = re.match(r"(\d+) \d+ back (\d+): \S+ (-?\d+) ?(.*)", line)
            if found and int(found[2]):
                fault = re.search(r"\bfault (\d+)", found[4])
                slot = int(found[3]) % 1024
                self.runs.append((int(found[1]) - 1, slot, int(found[2]), int(fault[1]) if fault else None))

    # ---- positions

    def place(self, lines):
        for line in lines:
            found = re.match(r"at (\d+)(?:\.(\d+))? of (\d+)", line)
            if found:
                self.at = (int(found[1]), int(found[2] or 0))

    def ask(self, line):
        lines = self.look.ask(line)
        self.place(lines)
        return lines

    def go(self, to):
        if to != self.at:
            self.ask(f"goto {to[0]}.{to[1]}" if to[1] else f"goto {to[0]}")

    def end(self):
        if self.last is None:
            here = self.at
            self.ask("goto end")
            self.last = self.at
            self.go(here)
        return self.last

    def stand_from(self, slot, at):
        """The first position from one on after which a step of the slot's process comes; None."""
        for above, whose, steps, _ in self.runs:
            if whose == slot and (above, steps) > at:
                to = max((above, 0), at)
                return to if to < self.end() else None
        return None

    def step_before(self, slot, at):
        """The last position before one after which a step of the slot's process comes; None."""
        for above, whose, steps, _ in reversed(self.runs):
            if whose == slot and (above, 0) < at:
                return (above, min(steps, at[1]) - 1) if above == at[0] else (above, steps - 1)
        return None

    def fault_after(self, at, slots):
        for above, whose, steps, fault in self.runs:
            if fault is not None and whose in slots and at < (above, steps) <= self.end():
                return (above, steps), whose, fault
        return None

    # ---- a process

    def registers(self, slot):
        values = {}
        for line in self.look.ask(f"regs {slot}"):
            words = line.split()
            values.update(zip(words[::2], words[1::2]))
        flags = 0x202 + sum(int(values[name]) << bit for name, bit in FLAGS.items())
        read = [int(values[name], 16) for name in REGISTERS]
        return read[:8] + [(read[8] + CODE) % 2**32, flags]

    def data(self, slot, at, count):
        count = min(count, self.programs[slot].limit - at)
        got = b""
        while len(got) < count:
            part = min(4096, count - len(got))
            lines = self.look.ask(f"mem {slot} {at + len(got)} {part}")
            got += b"".join(bytes.fromhex(line.split(None, 1)[1]) for line in lines)
        return got

    def memory(self, slot, at, count):
        count = min(count, MOST_BYTES)
        if at < CODE:
            return self.data(slot, at, count)
        if self.programs[slot].apart:
            return self.programs[slot].text[at - CODE : at - CODE + count]
        return self.data(slot, at - CODE, count)

    def code_limit(self, slot):
        program = self.programs[slot]
        return len(program.text) if program.apart else program.limit

    # ---- threads

    def seen(self):
        return [it for it in range(len(self.files)) if self.only in (None, it) and it not in self.gone]

    def named(self, process):
        return process - 1 if process - 1 in self.seen() else None

    def asked(self, process):
        return self.reads if process in (0, -1) else self.named(process)

    def thread(self, slot):
        return b"p%x.%x" % (slot + 1, slot + 1) if self.names else b"%x" % (slot + 1)

    # ---- moves

    def stop(self, slot, why=b"", signal=5):
        self.reads = slot
        values = self.registers(slot)
        told = b"T%02x%sthread:%s;" % (signal, why, self.thread(slot))
        return told + b"".join(b"%02x:%s;" % (n, struct.pack("<I", values[n]).hex().encode()) for n in (4, 5, 8))

    def watch_stop(self, watch):
        return self.stop(watch[0], b"watch:%x;" % watch[1])

    def pieces(self, watch):
        slot, at, count = watch
        return [(slot, at + i, min(16, count - i)) for i in range(0, count, 16)]

    def set_points(self, slots, without, pieces):
        self.look.ask("clear")
        for slot, at in self.breaks:
            if slot in slots and slot != without:
                self.look.ask(f"break {slot} {at}")
        for slot, at, count in pieces:
            self.look.ask(f"watch {slot} {at} {count}")

    def search(self, verb, slots, without=None):
        """Where a search over the points of some slots halts, and what is said there; None if nothing is met. A session
        has eight watches of 16 bytes at most, so points are tried in parts, and the nearest halt counts."""
        here, found = self.at, None
        pieces = [it for watch in self.watches if watch[0] in slots for it in self.pieces(watch)]
        for i in range(0, len(pieces) or 1, 8):
            self.set_points(slots, without, pieces[i : i + 8])
            lines = self.ask(verb)
            if is_there(lines):
                nearer = found and (self.at < found[0] if verb == "continue" else self.at > found[0])
                if found is None or nearer:
                    found = self.at, lines
                elif self.at == found[0]:
                    found = self.at, found[1] + lines
            self.go(here)
        return found

    def first_changed(self, lines):
        """The first watch of whose bytes these lines say that they changed."""
        said = [re.match(r"watch (\d+) ([0-9a-f]+):", line) for line in lines]
        changed = {(int(it[1]), int(it[2], 16)) for it in said if it}
        return next((it for it in self.watches if any(piece[:2] in changed for piece in self.pieces(it))), None)

    def slot_next(self):
        """Whose step is next."""
        for above, whose, steps, _ in self.runs:
            if above == self.at[0] and self.at[1] < steps:
                return whose
        return None

    def halt_before(self, to, slots, without=None):
        """The stop of the first halt from here on, if it is before a position, or right there and no breakpoint."""
        here = self.at
        found = self.search("continue", slots, without)
        fault = self.fault_after(here, slots)
        if fault and (not found or fault[0] <= found[0]) and fault[0] <= to:
            self.go(fault[0])
            return self.stop(fault[1], signal=SIGNALS.get(fault[2], 5))
        watch = self.first_changed(found[1]) if found else None
        if watch and found[0] <= to:
            self.go(found[0])
            return self.watch_stop(watch)
        if found and not watch and found[0] < to:
            self.go(found[0])
            return self.stop(self.slot_next())
        self.go(here)
        return None

    def at_end(self, mover):
        self.go(self.end())
        return self.stop(mover, b"replaylog:end;")

    def go_on(self, mover):
        if self.at >= self.end():
            return self.at_end(mover)
        past = (self.end()[0] + 1, 0)
        return self.halt_before(past, self.seen()) or self.at_end(mover)

    def come(self, slot, slots, after):
        """Goes to where the slot's next step comes, from a position on. Returns the stop of a halt before."""
        if self.at >= self.end():
            return self.at_end(slot)
        to = self.stand_from(slot, after)
        stop = self.halt_before(to or (self.end()[0] + 1, 0), slots, slot)
        if stop or to is None:
            return stop or self.at_end(slot)
        self.go(to)
        return None

    def step(self, slot, begin, end, others):
        slots = self.seen() if others else [it for it in self.seen() if it == slot]
        if self.stand_from(slot, self.at) != self.at:
            stop = self.come(slot, slots, self.at)
            if stop:
                return stop
        while True:
            stop = self.come(slot, slots, (self.at[0], self.at[1] + 1))
            if stop:
                return stop
            eip = self.registers(slot)[8]
            if (slot, eip - CODE) in self.breaks and slot in slots or not begin <= eip < end:
                return self.stop(slot)

    def bytes_watched(self, slots):
        return [(it, self.data(*it)) for it in self.watches if it[0] in slots]

    def step_back(self):
        slot = self.goes if self.goes is not None else self.reads
        before = self.bytes_watched([slot] if slot in self.seen() else [])
        to = self.step_before(slot, self.at)
        if to is None:
            self.go((0, 0))
            return self.stop(slot, b"replaylog:begin;")
        self.go(to)
        for watch, was in before:
            if self.data(*watch) != was:
                return self.watch_stop(watch)
        return self.stop(slot)

    def go_back(self):
        mover = self.goes if self.goes is not None else self.reads
        found = self.search("reverse", self.seen())
        if not found:
            self.go((0, 0))
            return self.stop(mover, b"replaylog:begin;")
        self.go(found[0])
        slot = self.slot_next()
        if slot is not None and (slot, self.registers(slot)[8] - CODE) in self.breaks and slot in self.seen():
            return self.stop(slot)
        watch = self.first_changed(found[1])
        if watch is None:
            raise SystemExit(f"no halt: {found}")
        return self.watch_stop(watch)

    # ---- points

    def insert(self, kind, at, count):
        slot = self.reads
        if kind in b"01":
            if not 0 <= at - CODE < self.code_limit(slot):
                return FAULT
            point = (slot, at - CODE)
            if point not in self.breaks:
                if len(self.breaks) == 64:
                    return FAULT
                self.breaks.append(point)
            return DONE
        watch = (slot, at, count)
        if not 0 < count <= 4096 or at + count > self.programs[slot].limit:
            return FAULT
        if watch not in self.watches:
            if len(self.watches) == 8:
                return FAULT
            self.watches.append(watch)
        return DONE

    def remove(self, kind, at, count):
        if kind in b"01":
            self.breaks = [it for it in self.breaks if it != (self.reads, at - CODE)]
        else:
            self.watches = [it for it in self.watches if it != (self.reads, at, count)]
        return DONE

    # ---- packets

    def part(self, text, offset, count):
        return (b"l" if len(text[offset:]) <= count else b"m") + text[offset : offset + count]

    def console(self, line):
        fields = [it for it in line.split(b" ") if it]
        if not is_text(line):
            return b"refused 73 BadRecord: a line is text of at most 4096 bytes\n"
        if fields:
            text = fields[0].decode()
            verbs = [it for it in VERBS if it.startswith(text)]
            verb = text if text in VERBS else verbs[0] if len(verbs) == 1 else None
            if verb in MOVES and self.is_formed(verb, fields[1:]):
                return FOR_GDB
            if re.search(rb"[\n\0]", fields[0]):
                return b"refused 73 BadRecord: no command " + fields[0] + b"; help\n"
        # No field may have these two, which no line of a session has.
        lines = self.look.lines_to_mark(re.sub(rb"[\n\0]", b"\1", line))
        self.place([it.decode("latin-1").rstrip("\n") for it in lines])
        return b"".join(lines)

    def is_formed(self, verb, fields):
        """Whether a line of a verb that gdb has its own command for has the fields that it has to have. Those of
        `until` are left out: no line with it is drawn."""
        if verb in ("forward", "back", "step", "stepback"):
            return not fields or len(fields) == 1 and fields[0].isdigit()
        return len(fields) == {"break": 2, "watch": 3}.get(verb, 0)

    def reply(self, payload):
        """The reply; None if there is none; and whether the talk is over."""
        if payload == b"k":
            return None, True
        if payload == b"D":
            return DONE, True
        try:
            if payload.startswith(b"D;"):
                slot = self.named(number(payload[2:]))
                if slot is not None:
                    self.gone.add(slot)
                return DONE, not self.seen()
            return self.answer(payload), False
        except Bad:
            return FAULT, False

    def answer(self, payload):
        whole = {
            b"?": lambda: self.stop(self.reads),
            b"g": lambda: b"".join(struct.pack("<I", it).hex().encode() for it in self.registers(self.reads)) + b"x" * 48,
            b"QStartNoAckMode": lambda: DONE,
            b"qfThreadInfo": lambda: b"m" + b",".join(self.thread(it) for it in self.seen()) if self.seen() else b"",
            b"qsThreadInfo": lambda: b"l",
            b"qC": lambda: b"QC" + self.thread(self.reads),
            b"qAttached": lambda: b"1",
            b"vCont?": lambda: b"vCont;c;C;s;S;r",
            b"bs": self.step_back,
            b"bc": self.go_back,
        }
        if payload in whole:
            return whole[payload]()
        if payload.startswith(b"qRcmd,"):
            if not re.fullmatch(rb"(?:[0-9a-fA-F]{2})*", payload[6:]):
                raise Bad
            return self.console(bytes.fromhex(payload[6:].decode())).hex().encode()
        for verb, answer in self.verbs():
            if payload.startswith(verb):
                return answer(payload[len(verb) :])
        return b""

    def verbs(self):
        yield b"qSupported", self.tell_features
        yield b"qAttached:", lambda rest: b"1"
        yield b"qThreadExtraInfo,", self.thread_line
        yield b"qXfer:features:read:target.xml:", lambda rest: self.part(TARGET, *two_numbers(rest))
        yield b"qXfer:exec-file:read:", self.file_part
        yield b"vCont;", self.resume
        yield b"Hg", self.read_other
        yield b"Hc", self.move_other
        yield b"T", lambda rest: DONE if self.asked(who(rest)) is not None else FAULT
        yield b"p", self.register
        yield b"m", self.some_memory
        for letter, point in ((b"Z", self.insert), (b"z", self.remove)):
            for kind in b"0", b"1", b"2":
                yield letter + kind + b",", lambda rest, point=point, kind=kind: point(kind, *two_numbers(rest))
        for letter in b"M", b"X", b"G", b"P":
            yield letter, lambda rest: FAULT

    def tell_features(self, rest):
        self.names = b"multiprocess+" in re.split(rb"[:;]", rest) and self.only is None
        return FEATURES + (b"multiprocess+;" if self.names else b"") + READS

    def thread_line(self, rest):
        slot = self.asked(who(rest))
        if slot is None:
            return FAULT
        words = self.look.ask("ps")[slot].split()
        return " ".join(words[1:-2]).encode().hex().encode()

    def file_part(self, rest):
        process, colon, numbers = rest.partition(b":")
        if not colon:
            raise Bad
        slot = self.named(number(process)) if process else self.reads
        offset, count = two_numbers(numbers)
        return FAULT if slot is None else self.part(self.files[slot], offset, count)

    def read_other(self, rest):
        slot = self.asked(who(rest))
        if slot is None:
            return FAULT
        self.reads = slot
        return DONE

    def move_other(self, rest):
        process = who(rest)
        if self.asked(process) is None:
            return FAULT
        self.goes = None if process in (0, -1) else self.named(process)
        return DONE

    def register(self, rest):
        index = number(rest)
        if index >= 10:
            return b"xxxxxxxx"
        return struct.pack("<I", self.registers(self.reads)[index]).hex().encode()

    def some_memory(self, rest):
        got = self.memory(self.reads, *two_numbers(rest))
        return got.hex().encode() if got else FAULT

    def action(self, text):
        letter, rest = text[:1], text[1:]
        if letter in (b"c", b"s") and not rest:
            return (letter, 0, 0)
        if letter in (b"C", b"S"):
            number(rest)
            return (letter.lower(), 0, 0)
        if letter == b"r":
            return (b"s", *two_numbers(rest))
        raise Bad

    def move(self, text):
        first, colon, thread = text.partition(b":")
        return self.action(first), who(thread) if colon else -1

    def resume(self, rest):
        first, more, second = rest.partition(b";")
        (letter, begin, end), process = self.move(first)
        others = bool(more) and self.move(second)[0][0] == b"c"
        slot = self.asked(process)
        if slot is None:
            return FAULT
        return self.go_on(slot) if letter == b"c" else self.step(slot, begin, end, others)


def escaped(payload):
    return b"".join(bytes([0x7D, it ^ 0x20]) if it in b"#$*}" else bytes([it]) for it in payload)


def unescaped(body):
    payload, at = b"", 0
    while at < len(body):
        if body[at] == 0x7D:
            payload += bytes([body[at + 1] ^ 0x20]) if at + 1 < len(body) else b""
            at += 2
        else:
            payload += body[at : at + 1]
            at += 1
    return payload


def packet(payload):
    body = escaped(payload)
    return b"$%s#%02x" % (body, sum(body) % 256)


class Line:
    """Bytes in, bytes out."""

    def __init__(self, stub):
        self.stub, self.front, self.acks, self.last, self.over = stub, b"", True, b"", False

    def hear(self, byte):
        """What a byte is answered."""
        if byte == 0x24:
            self.front = b"$"
            return b""
        if not self.front:
            return self.last if byte == 0x2D and self.acks else b""
        self.front += bytes([byte])
        if len(self.front) < 4 or self.front[-3] != 0x23:
            return b""
        body, digits = self.front[1:-3], self.front[-2:]
        self.front = b""
        if len(body) > MOST_BODY:
            return self.answer(b"")
        if not re.fullmatch(rb"[0-9a-fA-F]{2}", digits) or int(digits, 16) != sum(body) % 256:
            return b"-" if self.acks else b""
        return self.answer(unescaped(body))

    def answer(self, payload):
        ack = b"+" if self.acks else b""
        reply, self.over = self.stub.reply(payload)
        if payload == b"QStartNoAckMode":
            self.acks = False
        if reply is None:
            return ack
        self.last = packet(reply)
        return ack + self.last


def main(words):
    slot = int(words[words.index("--slot") + 1]) if "--slot" in words else None
    line = Line(Stub(*words[:3], slot))
    while not line.over:
        some = os.read(0, 65536)
        if not some:
            return
        for byte in some:
            said = line.hear(byte)
            while said:
                said = said[os.write(1, said) :]
            if line.over:
                return


if __name__ == "__main__":
    if sys.argv[1:] == ["--help"]:
        print(__doc__, end="")
    else:
        main(sys.argv[1:])
