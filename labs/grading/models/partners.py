"""Processes that send to others: one of lab 2's pair, who asks the process of slot 0 in labs 4 and 5, and lab 6's consumers,
who know others by a name."""
from .common import GENERATION, numbers, said, wrong

ELOCKED = -101
SENDS = ("SEND", "SENDREC")


class Exchange:
    """One of lab 2's pair: it sends first and once, and once more only after ELOCKED and what the other one sent."""

    def __init__(self, name, who):
        self.name, self.who = name, who
        self.sends = self.locked = 0
        self.has_received = False

    def follow(self, found):
        for it in found:
            words = it.words
            if words[:2] == ["try", self.who] and words[3] != "SYSTEM":
                self.begin(it, words[2])
            elif words[:2] == ["trap", self.who] and words[2] in SENDS and words[-1] == str(ELOCKED):
                self.locked += 1
            elif words[0] == "message" and words[3] == self.who:
                self.has_received = True

    def begin(self, event, trap):
        if trap == "RECEIVE" and self.sends == 0:
            raise wrong(self.name, event, f"{self.who} sends before it receives", said(event))
        if trap not in SENDS:
            return
        if self.sends > self.locked:
            raise wrong(self.name, event, f"{self.who} sends once more after ELOCKED alone", said(event))
        if self.locked and not self.has_received:
            raise wrong(self.name, event, f"{self.who} receives after ELOCKED, before it sends again", said(event))
        self.sends += 1


class Asker:
    """Who says something to the process of slot 0, or waits for it, does so with the first one, or with one that WHOIS told
    before."""

    def __init__(self, name, who):
        self.name, self.who = name, who
        self.known = {"0"}

    def follow(self, found):
        for it in found:
            words = it.words
            if words[:6] == ["call", self.who, "WHOIS", "0", "answer", "0"]:
                self.known.add((words[6:] + ["0"])[0])
            elif words[:2] == ["try", self.who] and words[3] != "SYSTEM":
                self.compare(it, words[2], it.who[1])
            elif words[:3] == ["call", self.who, "GRANT"]:
                self.compare(it, "GRANT", words[3])

    def compare(self, event, what, whom):
        if whom is not None and int(whom) % GENERATION == 0 and whom not in self.known:
            raise wrong(self.name, event, f"{what} with {self.allowed()}", f"{what} with {whom}")

    def allowed(self):
        """The endpoints that may be used, in words."""
        told = sorted(self.known - {"0"}, key=int)
        return "0, the first endpoint; WHOIS told none" if not told else f"0 or {' or '.join(told)}, which WHOIS told"


class Named:
    """Lab 6's consumer looks names up, and says something to those alone whom it found so."""

    LOOKUP = 2

    def __init__(self, name, who):
        self.name, self.who = name, who
        self.known = {"0"}  # the name server, and whom it told

    def follow(self, found):
        for it in found:
            words = it.words
            if words[:4] == ["message", self.who, "to", "names"] and int(words[5]) != self.LOOKUP:
                raise wrong(self.name, it, f"{self.who} looks names up, and says nothing else to names", said(it))
            if words[:6] == ["message", "names", "to", self.who, "type", "0"]:
                self.known.add(str(numbers(it)[0]))
            elif words[:2] == ["try", self.who] and words[3] not in ("any", "SYSTEM"):
                self.compare(it)

    def compare(self, event):
        whom, what = event.who[1] or event.words[3], event.words[2]
        if whom not in self.known:
            raise wrong(self.name, event, f"{what} of {self.who} with {self.allowed()}", f"{what} with {whom}")

    def allowed(self):
        """The endpoints that may be used, in words."""
        told = " or ".join(sorted(self.known - {"0"}, key=int))
        return f"0, which is names, or {told}, by LOOKUP" if told else "0, which is names; no LOOKUP told another"
