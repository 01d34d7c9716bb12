"""The data of a page by an independent model: of what `mx trace` prints and of the configuration's text. The queues are
worked out by the rules of REFERENCE "Queues"."""
import re

READY, OUT, DOOMED, SENDING, CALLING, RECEIVING, AWAITING, EXIT, KILL, FAULT = range(10)
WORDS = {"ready": READY, "out": OUT, "doomed": DOOMED, "sending": SENDING, "calling": CALLING}
WORDS.update(receiving=RECEIVING, awaiting=AWAITING)
DOWN = {"exit": EXIT, "kill": KILL, "fault": FAULT}
ANY = 31438
SOURCES = {"HARDWARE": -1, "SYSTEM": -2, "CLOCK": -3}
EVENTS = {"take": 0, "back": 1, "line": 2, "tick": 3, "kill": 4, "respawn": 5}
TAKE, BACK, TICK, RESPAWN = 0, 1, 3, 5
MASKS = "traps", "send", "calls"
TERMS = "level", "best", "quantum", "restarts"

PARTY = r"(HARDWARE|SYSTEM|CLOCK|\w+ \d+)"
HEAD = re.compile(r"(\d+) (\d+) (take|back|line|tick|kill|respawn)(?: (\d+))?: (.*)$", re.S)
CHANGE = re.compile(r"(\w+) (\d+): ([a-z]+(?: -?\w+)*) -> ([a-z]+(?: -?\w+)*)(?:, result (-?\d+).*)?$", re.S)
QUANTUM = re.compile(r"(\w+) (\d+): quantum (\d+) at level (\d+)$")
DELIVERY = re.compile("(message|notify) " + PARTY + " to " + PARTY + r" type (\d+)")
PENDING = re.compile("notify " + PARTY + " to " + PARTY + ", pending$")
ANSWER = re.compile(r"answer (-?\d+)")
CONSOLE = re.compile(r"console 0x([0-9A-Fa-f]+)")


def read_config(text):
    """The machine's numbers, and its services with their terms, of a configuration's text."""
    numbers, services = {"cpus": 1, "others": 1, "log": 65536, "rules": 2}, []
    for line in text.splitlines():
        words = line.split("#")[0].split()
        if words and words[0] == "service":
            terms = dict(zip(words[3::2], words[4::2]))
            service = {"name": words[1], **{it: int(terms[it], 16) for it in MASKS}}
            services.append({**service, **{it: int(terms[it]) for it in TERMS}})
        elif words:
            numbers[words[0]] = int(words[1])
    return numbers, services


def state_of(words):
    """The number of a state, and of the partner, of the trace's words."""
    first, *more = words.split()
    if first == "down":
        return DOWN[more[0]], int(more[1]) if more[0] == "fault" else 0
    if not more:
        return WORDS[first], 0
    return WORDS[first], ANY if more[0] == "any" else SOURCES[more[0]] if more[0] in SOURCES else int(more[0])


class Machine:
    """The states and the queues after each record."""

    def __init__(self, services):
        self.services = services
        self.slots = [[slot, READY, 0, it["level"], it["quantum"]] for slot, it in enumerate(services)]
        self.names = {it["name"]: slot for slot, it in enumerate(services)}
        self.queue, self.waits = [], []
        for slot in reversed(range(len(services))):
            self.to_front(slot)

    def level(self, slot):
        return self.slots[slot][3]

    def place(self, is_behind):
        return next((place for place, other in enumerate(self.queue) if is_behind(self.level(other))), len(self.queue))

    def to_front(self, slot):
        self.queue.insert(self.place(lambda level: level >= self.level(slot)), slot)

    def to_end(self, slot):
        self.queue.insert(self.place(lambda level: level > self.level(slot)), slot)

    def party(self, words):
        return SOURCES[words] if words in SOURCES else self.names[words.rsplit(" ", 1)[0]]

    def shown(self):
        return {
            "queue": list(self.queue),
            "wait": list(self.waits),
            "start": [[slot, *state] for slot, state in enumerate(self.slots)],
        }

    def perform(self, lines):
        """Makes a record, of which these are the trace's lines. Returns its row."""
        number, actor, event, argument, about = HEAD.match(lines[0]).groups()
        kind = EVENTS[event]
        row = {"a": int(actor), "e": kind}
        before = [list(it) for it in self.slots]
        queue, waits = list(self.queue), list(self.waits)
        subject = self.names.get(about.split(" ")[0]) if kind != TICK else None
        row["n"] = int(about.rsplit(" ", 1)[1]) if kind in (TAKE, TICK) else int(argument)
        self.touched, self.renewed, self.results = [], set(), {}
        self.wrong = kind == BACK and about.split(" ")[2] == "fault"
        if subject is not None:
            row["s"] = subject
            self.begin(kind, subject, int(actor), row["n"])
        arrows = [it for it in (self.follow(line[len(number) + 3 :], kind, subject, row) for line in lines[1:]) if it]
        self.requeue(before, waits, kind, subject)
        if self.wrong:
            row["x"] = 1
        row["t"] = "\n".join(lines)
        changed = [it for it in range(len(self.slots)) if self.slots[it] != before[it] or it in self.results]
        if changed:
            row["c"] = [[it, *self.slots[it], *([self.results[it]] if it in self.results else [])] for it in changed]
        if arrows:
            # In the order of those that they come to.
            row["d"] = sorted(arrows, key=lambda it: (it[2], it[0] == 2))
        if self.queue != queue:
            row["q"] = list(self.queue)
        if self.waits != waits:
            row["w"] = list(self.waits)
        return row

    def begin(self, kind, subject, actor, number):
        if kind == TAKE:
            self.queue.remove(subject)
            self.slots[subject][1:3] = OUT, actor
        if kind == BACK:
            self.slots[subject][4] = max(0, self.slots[subject][4] - number)

    def follow(self, line, kind, subject, row):
        """Follows one of the other lines. Returns the arrow, if it is one."""
        if found := QUANTUM.match(line):
            slot = self.names[found[1]]
            self.slots[slot][3:] = int(found[4]), int(found[3])
            self.renewed.add(slot)
        elif found := CHANGE.match(line):
            slot = self.names[found[1]]
            self.slots[slot][:3] = int(found[2]), *state_of(found[4])
            if kind == RESPAWN and slot == subject:
                self.slots[slot][3:] = self.services[slot]["level"], self.services[slot]["quantum"]
            if found[5] is not None:
                self.results[slot] = int(found[5])
                self.wrong = self.wrong or self.results[slot] != 0
            self.touched.append(slot)
        elif found := PENDING.match(line):
            return [2, self.party(found[1]), self.party(found[2])]
        elif found := DELIVERY.match(line):
            return [int(found[1] == "notify"), self.party(found[2]), self.party(found[3]), int(found[4])]
        elif found := CONSOLE.match(line):
            row["b"] = int(found[1], 16)
        elif found := ANSWER.match(line):
            self.wrong = self.wrong or int(found[1]) != 0
        return None

    def requeue(self, before, waits, kind, subject):
        """Who was woken comes into its list first, then who came back. A death wakes those that waited to send to the
        dead one as they came, then the others by slot."""
        for slot in self.touched:
            if before[slot][1] == READY and self.slots[slot][1] != READY:
                self.queue.remove(slot)
            if slot in self.waits:
                self.waits.remove(slot)
            if self.slots[slot][1] in (SENDING, CALLING):
                self.waits.append(slot)
        woken = [it for it in waits if it in self.touched] + [it for it in self.touched if it not in waits]
        if kind == BACK:
            woken = [it for it in woken if it != subject] + [subject]
        for slot in woken:
            if self.slots[slot][1] == READY and before[slot][1] != READY:
                is_last = slot in self.renewed or kind == RESPAWN
                (self.to_end if is_last else self.to_front)(slot)


def records(trace):
    """The lines of a trace, in a list for each record, and the line about a record that is refused."""
    blocks, refused = [], None
    for line in re.split(r"\n(?=\d+ (?: {2})?|line |\Z)", trace):
        if line.startswith("line "):
            refused = line.rstrip("\n")
        elif re.match(r"\d+   ", line):
            blocks[-1].append(line)
        elif line:
            blocks.append([line])
    return blocks, refused


def data(names, config, trace, first=1, last=None):
    """The lines of a page's data as values: for records `first` to `last` of what `mx trace` prints of all of them."""
    numbers, services = read_config(config)
    machine = Machine(services)
    blocks, refused = records(trace)
    blocks, refused = (blocks, refused) if last is None or last > len(blocks) else (blocks[:last], None)
    above = min(max(first, 1) - 1, len(blocks))
    if refused and above < first - 1:
        # The refused record comes before the first row: the page has the machine at boot.
        above, blocks = 0, []
    for lines in blocks[:above]:
        machine.perform(lines)
    head = {"format": 1, "config": names[0], "history": names[1], "first": above, **numbers, "services": services}
    head.update(machine.shown())
    rows = [machine.perform(lines) for lines in blocks[above:]]
    tail = {"records": len(rows), **({"refused": refused} if refused else {})}
    return [head, *rows, tail]


def position(printed):
    """Of what `mx sweep` prints of one position: how it ends, and whether that is as without the fault."""
    lines = printed.splitlines(keepends=True)
    end = "".join(it for it in lines[1:-1] if not it.startswith("  not as without the fault, "))
    return end, lines[-1] == "1 positions, 1 blocks, 1 as without the fault\n"


def with_strip(lines, fault, turns, first, positions):
    """The lines of a page's data with the strip of a sweep, by what its positions from `first` on tell: a line for each
    range of positions in a row that tell the same."""
    strip, before = [], (None, None)
    for k, told in enumerate(positions, first):
        if told != before:
            strip.append({"same": int(told[1]), "from": k, **({} if told[0] == before[0] else {"t": told[0]})})
        before = told
    sweep = {"fault": fault, "turns": turns, "from": first, "positions": len(positions)}
    return [*lines[:-1], *strip, {**lines[-1], "sweep": sweep}]
