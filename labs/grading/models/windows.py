"""Lab 5: the windows that a saver opens, and the copies that a store asks for."""
from .common import BAD_REQUEST, EINVAL, GENERATION, NOTIFICATION, numbers, said, wrong


class Windows:
    """Lab 5's saver: each window that it opens is the one that its next request needs, and none is open at a letter."""

    PUT, GET, BYTES = 1, 2, 64
    ACCESS = {PUT: 1, GET: 2}  # to read, to write
    AFTER = {PUT: GET, GET: None}

    def __init__(self, name, saver):
        self.name, self.saver = name, saver
        self.next = self.PUT  # the request that comes next; None: the GET is answered
        self.open = {}  # of an endpoint: where its window begins
        self.unused = None  # the GRANT of a window that no request has used yet
        self.plain = None  # the address of the PUT

    def follow(self, found):
        for it in found:
            words = it.words
            if words[:3] == ["call", self.saver, "GRANT"] and words[7:9] == ["answer", "0"]:
                self.grant(it, *map(int, words[3:7]))
            elif words[:4] == ["message", self.saver, "to", "store"] and int(words[5]) in self.ACCESS:
                self.ask(it)
            elif words[:4] == ["message", "store", "to", self.saver] and int(words[5]) != NOTIFICATION:
                self.next = self.AFTER.get(self.next) if words[5] == "0" else self.PUT
            elif words[:2] == ["down", "store"]:
                self.open.pop(it.who[0], None)
                self.next, self.unused = self.PUT, None
            elif words[:2] == ["console", self.saver] and self.open:
                raise wrong(self.name, it, "no window is open when a letter is written", f"a window at {self.places()}")

    def grant(self, event, who, address, count, access):
        if self.open.pop(str(who), None) is not None and self.unused:
            raise wrong(self.name, self.unused, "each window is for a request that follows", said(self.unused))
        if access == 0 or count == 0:
            return
        if self.next is None:
            raise wrong(self.name, event, "no window after the GET's answer", said(event))
        if who % GENERATION or (count, access) != (self.BYTES, self.ACCESS[self.next]):
            wanted = f"a GRANT for slot 0's process, {self.BYTES} bytes, access {self.ACCESS[self.next]}"
            raise wrong(self.name, event, wanted, said(event))
        self.open[str(who)], self.unused = address, event

    def ask(self, event):
        """A request has the address of the window that is open for who takes it."""
        at = numbers(event)[1]
        self.unused = None
        if self.open.get(event.who[1]) != at:
            raise wrong(self.name, event, f"a window at {at}", f"a window at {self.places() or 'no address'}")
        if self.next == self.PUT:
            self.plain = at
        elif at != self.plain:
            raise wrong(self.name, event, f"the GET at {self.plain}, as the PUT before it", f"at {at}")

    def places(self):
        return ", ".join(map(str, self.open.values()))


class Stored:
    """Lab 5's store: for each request it asks for the one copy that was wanted, again if the other one is on a processor, and
    its answer has the copy's result."""

    PUT, GET, BLOCKS, BYTES = 1, 2, 8, 64
    NOT_READY = -106

    def __init__(self, name, store):
        self.name, self.store = name, store
        self.asked = {}  # of each endpoint that waits for an answer: its request, and the answer's type if it is known
        self.dead = set()

    def follow(self, found):
        for it in found:
            words = it.words
            if words[0] == "down":
                self.end(words[1], it.who[0])
            elif words[:2] == ["try", self.store] and self.is_for_one(words[2], words[3]):
                raise wrong(self.name, it, f"{self.store} receives from any, answers by SEND, and waits for no client", said(it))
            elif words[0] == "message" and words[3] == self.store and words[5] != str(NOTIFICATION):
                self.asked[it.who[0]] = it, self.refusal(it)
            elif words[:3] == ["call", self.store, "VIRCOPY"]:
                self.copy(it, *words[3:8], int(words[9]))
            elif words[:2] == ["message", self.store]:
                self.answer(it)
        for who, (request, _) in self.asked.items():
            if who not in self.dead:
                raise wrong(self.name, request, f"an answer to {said(request)}", "no answer")

    def is_for_one(self, trap, whom):
        """Whether a trap waits for one client, while others wait too."""
        return trap == "SENDREC" or (trap == "RECEIVE" and whom != "any")

    def end(self, name, endpoint):
        self.dead.add(endpoint)
        if name == self.store:
            self.asked = {}

    def refusal(self, event):
        """The answer's type of a request that needs no copy."""
        if int(event.words[5]) not in (self.PUT, self.GET):
            return BAD_REQUEST
        return None if numbers(event)[0] < self.BLOCKS else EINVAL

    def copy(self, event, source, address, to, place, count, result):
        own = event.who[0]
        if source == to == own:
            return
        client = to if source == own else source
        request, known = self.asked.get(client, (None, 0))
        if request is None or known is not None:
            raise wrong(self.name, event, "no copy but those that requests want", said(event))
        at, kind = str(numbers(request)[1]), int(request.words[5])
        if (source, address) != (client, at) if kind == self.PUT else (to, place) != (client, at):
            raise wrong(self.name, event, f"the copy that is wanted by {said(request)}", said(event))
        if count != str(self.BYTES) or own not in (source, to):
            raise wrong(self.name, event, f"a copy of {self.BYTES} bytes", said(event))
        if result != self.NOT_READY:
            self.asked[client] = request, result

    def answer(self, event):
        request, known = self.asked.pop(event.who[1], (None, None))
        if request is None:
            raise wrong(self.name, event, f"no message to {event.words[3]} now", said(event))
        if known is None:
            raise wrong(self.name, event, f"a copy before the answer to {said(request)}", "none")
        if int(event.words[5]) != known:
            raise wrong(self.name, event, f"to {said(request)} an answer of type {known}", said(event))
