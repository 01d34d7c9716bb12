"""Lab 6's adders: what the lock has to hold together."""
from .. import facts
from .common import said, wrong


class Adder:
    """An adder of lab 6 reads the count and writes it in one hold of the lock. The board gives the lock to one adder at
    a time, so nobody else reads between."""

    UNLOCK = 2

    def __init__(self, name, adder):
        self.name, self.adder = name, adder
        self.holds = False
        self.read = None  # the read in this hold that isn't written yet
        self.steps = ((f"message board to {adder} type 0 words 0 *", self.lock),
                      (f"call {adder} VIRCOPY 0 * * * 4 answer 0 ..", self.note),
                      (f"call {adder} VIRCOPY * * 0 * 4 answer 0 ..", self.write),
                      (f"message {adder} to board type {self.UNLOCK} ..", self.unlock))

    def follow(self, found):
        for it in found:
            step = next((step for pattern, step in self.steps if facts.fits(it, pattern)), None)
            if step:
                step(it)

    def lock(self, _):
        self.holds = True

    def note(self, event):
        self.need(self.holds, event, "holds the lock at each read of the count")
        self.read = event

    def write(self, event):
        self.need(self.holds, event, "holds the lock at each write of the count")
        self.need(self.read, event, "reads the count before each write, in the same hold of the lock")
        self.read = None

    def unlock(self, event):
        """The lock is given back when what was read is written."""
        self.need(self.read is None, event, "keeps the lock from a read of the count to its write")
        self.holds = False

    def need(self, is_so, event, what):
        if not is_so:
            raise wrong(self.name, event, f"{self.adder} {what}", f"record {event.record}: {said(event)}")
