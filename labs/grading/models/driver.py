"""Lab 3's driver."""
from .common import numbers, said, wrong


class Button:
    """Lab 3's driver: the letters of the notifications that it took, and when an `r` is written."""

    BUTTON, SENSOR, QUIET = 1 << 3, 1 << 5, 3
    LATE = 2  # ticks after an `r` is due in which a driver that has an alarm has written it
    LINES = ("3", "5")
    CALLS = 12  # kernel calls that an interrupt waits for at most: while a driver sets its alarm and writes all letters

    def __init__(self, name, driver):
        self.name, self.driver = name, driver
        self.due, self.uptime = None, 0  # when the button counts as released; None: it does
        self.over = None  # the tick at which it was due
        self.letters = []  # each with the event that asked for it, and the uptime at which an `r` is due
        self.waiting = {}  # of each line whose interrupt waits: its event, and the ticks and kernel calls since then
        self.only = None  # of whom the driver receives, if of one other than HARDWARE

    def follow(self, found):
        written, uptimes = [], []
        for it in found:
            self.look(it)
            if it.words[0] == "tick":
                self.uptime = int(it.words[1])
                self.over = it if self.uptime == self.due else self.over
            elif it.words[0] == "console":
                written.append(it)
                uptimes.append(self.uptime)
            elif it.words[:2] == ["notify", "HARDWARE"] and it.words[3] == self.driver:
                self.take(it, *numbers(it)[:2])
        for line in self.waiting:
            self.refuse_wait(line, "it is never taken")
        self.release(found[-1] if found else None, self.uptime)
        self.compare(written)
        self.compare_times(written, uptimes)

    def look(self, event):
        """The driver takes its lines alone, never ends, and receives soon: so nothing but interrupts and alarms tells it the
        time, and it doesn't stay away until the bounces of a press are over."""
        words = event.words
        if words[:4] == ["call", self.driver, "IRQCTL", "1"] and words[4] not in self.LINES:
            raise wrong(self.name, event, "the driver takes the lines 3 and 5, and no other", said(event))
        if words[:2] == ["down", self.driver]:
            raise wrong(self.name, event, "the driver never ends", said(event))
        if words[:3] == ["try", self.driver, "RECEIVE"]:
            self.only = None if words[3] in ("any", "HARDWARE") else words[3]
        elif words[0] == "line" and words[2] == self.driver:
            self.waiting.setdefault(words[1], [event, 0, 0])
        elif words[0] in ("notify", "message") and words[3] == self.driver:
            self.only = None
            lines = numbers(event)[1] if words[1] == "HARDWARE" else 0
            self.waiting = {line: it for line, it in self.waiting.items() if not lines >> int(line) & 1}
        self.count(event)

    def count(self, event):
        """How long the interrupts wait that do, and for what."""
        for line, it in self.waiting.items():
            it[1] += event.words[0] == "tick"
            it[2] += event.words[:2] == ["call", self.driver]
            if self.only and event.words[0] in ("line", "tick"):
                self.refuse_wait(line, f"record {event.record}: the driver receives from {self.only} alone")
            if it[1] == self.LATE:
                self.refuse_wait(line, f"record {event.record}, the second tick after it")
            if it[2] > self.CALLS:
                self.refuse_wait(line, f"record {event.record}: {it[2]} kernel calls since then")

    def refuse_wait(self, line, came):
        event = self.waiting[line][0]
        raise wrong(self.name, event, f"the driver receives soon after the interrupt of line {line}, record {event.record}", came)

    def compare(self, written):
        wanted = "".join(it[0] for it in self.letters)
        came = "".join(chr(int(it.words[2], 16)) for it in written)
        if came != wanted:
            at = next((i for i, pair in enumerate(zip(came, wanted)) if pair[0] != pair[1]), min(len(came), len(wanted)))
            place = written[at] if at < len(written) else self.letters[at][1]
            raise wrong(self.name, place, f"console {wanted!r}", f"console {came!r}")

    def compare_times(self, written, uptimes):
        """No letter is written before what asks for it, and no `r` long after it is due."""
        for it, uptime, (letter, event, due) in zip(written, uptimes, self.letters):
            if it.record < event.record or (due is not None and uptime >= due + self.LATE):
                when = f"record {event.record}" if due is None else f"uptime {due}, when it is due"
                raise wrong(self.name, it, f"{letter!r} soon after {when}", f"record {it.record}, uptime {uptime}")

    def take(self, event, now, lines):
        self.release(event, now)
        if lines & self.SENSOR:
            self.letters.append(("s", event, None))
        if lines & self.BUTTON:
            if self.due is None:
                self.letters.append(("p", event, None))
            self.due = now + self.QUIET

    def release(self, event, now):
        if self.due is not None and now >= self.due:
            self.letters.append(("r", self.over or event, self.due))
            self.due = None
