"""Servers that answer requests: lab 2's total, lab 6's names and queue."""
from .common import BAD_REQUEST, EINVAL, NOTIFICATION, numbers, said, wrong


def told(event):
    return f"to {event.words[1]}'s request of {' '.join(event.words[4:])} (record {event.record})"


def shown(answer):
    return " ".join(map(str, ["type", answer[0], *(["words", *answer[1]] if answer[1] else [])]))


class Served:
    """A server's requests and answers. Each model says which answers are due when a request is taken."""

    at_once = False  # whether each answer that is due has to come before the next message is taken

    def __init__(self, name, server):
        self.name, self.server = name, server
        self.due = {}  # of each endpoint whose answer is due: its request, the answer's type and words
        self.waiting = []  # requests that can't be answered yet, each with its endpoint; the oldest first
        self.dead = set()
        self.notified = set()  # each endpoint whose notification was taken, and no request since then

    def follow(self, found):
        for it in found:
            if it.words[:2] == ["down", self.server]:
                raise wrong(self.name, it, f"{self.server} never ends", said(it))
            if it.words[0] == "down":
                self.dead.add(it.who[0])
                self.end(it.who[0])
            elif it.words[0] == "notify" and it.words[3] == self.server:
                self.notified.add(it.who[0])
            elif it.words[:3] == ["try", self.server, "SEND"] and it.who[1] in self.notified:
                raise wrong(self.name, it, f"no answer to the notification of {it.words[3]}", said(it))
            elif it.words[:3] == ["try", self.server, "SENDREC"] and it.words[3] != "names":
                raise wrong(self.name, it, f"{self.server} answers by SEND, and waits for no client", said(it))
            elif it.words[:3] == ["try", self.server, "NOTIFY"]:
                raise wrong(self.name, it, f"{self.server} answers, and sends nothing else", said(it))
            elif it.words[:3] == ["try", self.server, "RECEIVE"] and it.words[3] not in ("any", "names"):
                raise wrong(self.name, it, f"{self.server} receives from any, since it serves whoever comes", said(it))
            elif it.words[0] == "message" and self.others(it) == {self.server}:
                (self.take if it.words[3] == self.server else self.compare)(it)
        for who, (request, answer) in self.due.items():
            if who not in self.dead:
                raise wrong(self.name, request, f"{told(request)}: an answer {shown(answer)}", "no answer")

    def end(self, who):
        """A process is dead: what was for it, if anything was."""

    def others(self, event):
        """The servers that a message is from or to: what a server says to the name server is no answer of its own."""
        return {it for it in (event.words[1], event.words[3]) if it in (self.server, "names")}

    def take(self, event):
        late = next((it for who, it in self.due.items() if who not in self.dead), None)
        if self.at_once and late:
            raise wrong(self.name, event, f"{told(late[0])}: an answer {shown(late[1])} before the next message is taken",
                        said(event))
        kind = int(event.words[5])
        if kind != NOTIFICATION:
            self.notified.discard(event.who[0])
            self.serve(event, event.who[0], kind, numbers(event))

    def answer(self, event, who, kind, *words):
        self.due[who] = event, (kind, words)

    def compare(self, event):
        """An answer has to be the one that is due to who gets it."""
        request, answer = self.due.pop(event.who[1], (None, None))
        if request is None:
            raise wrong(self.name, event, self.wanted_of(event.words[3], event.who[1]), said(event))
        kind, words = answer
        came = numbers(event)
        if int(event.words[5]) != kind or any(it != came[i] for i, it in enumerate(words)):
            raise wrong(self.name, event, f"{told(request)}: an answer {shown(answer)}", said(event))

    def wanted_of(self, name, who):
        """What is wanted where a process gets a message to which no answer is due: its request has to wait, or there is
        none."""
        request = next((it[0] for it in self.waiting if it[1] == who), None)
        if request is None:
            return f"no message of {self.server} to {name}, which waits for no answer"
        return f"{told(request)}: no answer yet, {self.why_it_waits(request)}"


class Totals(Served):
    """Lab 2's server: one total."""

    total = 0

    def serve(self, event, who, kind, words):
        if kind not in (1, 2):
            self.answer(event, who, BAD_REQUEST)
            return
        if kind == 1:
            self.total = (self.total + words[0]) % (1 << 32)
        self.answer(event, who, 0, self.total)


class Names(Served):
    """Lab 6's name server: who waits longest for a name is answered first."""

    REGISTER, LOOKUP, MOST = 1, 2, 8
    at_once = True

    def __init__(self, name, server):
        super().__init__(name, server)
        self.owners = {}
        self.turn = []  # who is answered next of those that waited for one name

    def serve(self, event, who, kind, words):
        if kind not in (self.REGISTER, self.LOOKUP):
            self.answer(event, who, BAD_REQUEST)
        elif words[0] >= self.MOST:
            self.answer(event, who, EINVAL)
        elif kind == self.REGISTER:
            self.owners[words[0]] = int(who)
            self.answer(event, who, 0)
            served = [it for it in self.waiting if it[2] == words[0]]
            self.waiting = [it for it in self.waiting if it[2] != words[0]]
            self.turn += [it[1] for it in served if it[1] not in self.dead]
            for request, one, _ in served:
                self.answer(request, one, 0, int(who))
        elif words[0] in self.owners:
            self.answer(event, who, 0, self.owners[words[0]])
        else:
            self.waiting.append((event, who, words[0]))

    def why_it_waits(self, request):
        return f"since nobody has the name {numbers(request)[0]}"

    def compare(self, event):
        who = event.who[1]
        self.turn = [it for it in self.turn if it not in self.dead]
        if who in self.turn:
            if self.turn[0] != who:
                first = told(self.due[self.turn[0]][0])
                raise wrong(self.name, event, f"the answer {first} comes first, since it waits longer", said(event))
            self.turn.remove(who)
        super().compare(event)


class Queue(Served):
    """Lab 6's queue: eight items, the oldest is taken first; who waits longest for the same is served first."""

    PUT, GET, TRY, END = 1, 2, 3, 4
    NOTHING, ENDED = 1, 2
    ROOM, PRODUCERS = 8, 2
    REGISTER, NAME = 1, 1  # what it says to the name server
    at_once = True

    def __init__(self, name, server):
        super().__init__(name, server)
        self.items, self.ended = [], 0

    def follow(self, found):
        """It has one name: what it said to the name server is looked at first."""
        registers = [it for it in found if it.words[:4] == ["message", self.server, "to", "names"]]
        for i, it in enumerate(registers):
            if i > 0 or (int(it.words[5]), numbers(it)[0]) != (self.REGISTER, self.NAME):
                wanted = f"{self.server} registers once, as name {self.NAME}, and says nothing else to names"
                raise wrong(self.name, it, wanted, said(it))
        super().follow(found)

    def serve(self, event, who, kind, words):
        if not self.PUT <= kind <= self.END:
            self.answer(event, who, BAD_REQUEST)
        elif kind == self.END:
            self.ended += 1
            self.answer(event, who, 0)
        elif not self.is_served(event, who, kind, words[0]):
            self.waiting.append((event, who, kind, words[0]))
        self.serve_waiting()

    def why_it_waits(self, request):
        if int(request.words[5]) == self.PUT:
            return f"since the queue has {self.ROOM} items and no room"
        longer = next((it for it, answer in self.due.values() if self.is_given(it, answer) and it.record < request.record), None)
        if longer:
            return f"since the item is for {longer.words[1]}, who waits longer (record {longer.record})"
        return f"since the queue has no item, and {self.ended} of {self.PRODUCERS} ENDs have come"

    def end(self, who):
        """An item that was due to who is dead now stays the oldest one."""
        request, answer = self.due.get(who, (None, None))
        if request and self.is_given(request, answer):
            del self.due[who]
            self.items.insert(0, answer[1][0])
            self.serve_waiting()

    def is_given(self, request, answer):
        """Whether an answer that is due gives an item."""
        return int(request.words[5]) in (self.GET, self.TRY) and answer[0] == 0

    def serve_waiting(self):
        """Who waits for an item and died is forgotten, and no item is lost by that."""
        while True:
            self.waiting = [it for it in self.waiting if it[1] not in self.dead or it[2] == self.PUT]
            served = next((it for it in self.waiting if self.is_served(*it)), None)
            if served is None:
                return
            self.waiting.remove(served)

    def is_served(self, event, who, kind, item):
        if kind == self.PUT:
            if len(self.items) == self.ROOM:
                return False
            self.items.append(item)
            self.answer(event, who, 0)
        elif self.items:
            self.answer(event, who, 0, self.items.pop(0))
        elif self.ended == self.PRODUCERS:
            self.answer(event, who, self.ENDED)
        elif kind == self.TRY:
            self.answer(event, who, self.NOTHING)
        else:
            return False
        return True
