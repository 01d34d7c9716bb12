"""Lab 2: a server's clients; a pair of which one may be a stranger with another number; and all in one machine."""
from .machines import ASK, POKE, TAKE, TELL, WORK, bystanders, machine, on, plan, requests, served, service

ADD, READ = 1, 2
SERVER = service("server", "server.out", send="fffe", calls="1", level=4)
PAIR = {"left": 2, "right": 3}
LONG = 40  # calls, after which all that two clients add is added


def totals(draw, name, actors, **more):
    """The server with these clients. In the slots before theirs are some that live and send nothing, so who receives from one
    slot after the other waits for ever."""
    silent = [(f"silent{i}", [(TAKE, 0)], draw.randint(5, 9), 0) for i in range(draw.randint(1, 2))]
    return served(draw, name, [*silent, *actors], "totals", server=SERVER, **more)


def additions(draw, count, server=0):
    return [(ASK, server, ADD, draw.randint(1, 1000)) for _ in range(count)]


def additions_and_total(draw, count):
    """Additions, and then a question for the total, whose other words say nothing."""
    return [*additions(draw, count), (ASK, 0, READ, draw.randint(1, 1000))]


def one_adder(draw):
    for name, count in (("one client adds", draw.randint(4, 8)), ("many requests", draw.randint(105, 120))):
        yield totals(draw, name, [("asker", additions_and_total(draw, count), 7, 0)])


def two_adders(draw):
    for cpus in (1, 3):
        actors = [(it, additions_and_total(draw, draw.randint(4, 6)), 7, 0) for it in ("asker", "second")]
        yield totals(draw, f"two clients {on(cpus)}", actors, cpus=cpus)


def strange_requests(draw):
    """Types that there aren't, a notification, numbers that don't fit in a byte or are below 0."""
    kinds = [-1, 0, 3, 4, draw.randint(5, 99), (1 << 31) - 1]
    draw.shuffle(kinds)
    steps = [(ASK, 0, it, draw.randint(1, 99)) for it in kinds]
    numbers = [draw.randint(1, 9), draw.randint(1 << 17, 1 << 29), -draw.randint(1 << 17, 1 << 29), -draw.randint(1, 9)]
    draw.shuffle(numbers)
    steps += [(POKE, 0), (ASK, 0, READ, 7), *[(ASK, 0, ADD, it) for it in numbers]]
    steps += [(ASK, 0, READ, 7), (ASK, 0, ADD, draw.randint(1, 9)), (ASK, 0, READ, 7)]
    yield totals(draw, "a client that asks for what there is not", [("asker", steps, 7, 0)],
                 want={"states": {"server": "receiving any"}})


def dead_clients(draw):
    """A client that is dead when it is answered; one that ends, is replaced and asks again under another endpoint."""
    hasty, reader = [(TELL, 0, ADD, draw.randint(2, 99))], additions_and_total(draw, 1)
    rest = {"want": {"states": {"server": "receiving any"}}}
    yield totals(draw, "a client ends before it has its answer", [("hasty", hasty, 6, 0), ("reader", reader, 8, 0)],
                 **rest)
    twice = [(WORK, draw.randint(1, 3)), *additions_and_total(draw, 1)]
    yield totals(draw, "a client ends and is replaced", [("asker", twice, 7, draw.randint(2, 4))], **rest)


def pair_case(draw, name, cpus, levels, other=None, number=0, receives_first=False):
    """Left and right, or one of them with a stranger in the place of `other`."""
    mine = {it: number if it == other else PAIR[it] for it in PAIR}
    names = ["stranger" if it == other else it for it in PAIR]
    partner = dict(zip(names, reversed(names)))
    digit = f"0x{ord('0') + sum(mine.values()):02x}"
    facts = [] if other else [("1+ trap left|right * * result -101", "left or right gets ELOCKED")]
    for slot, it in zip(PAIR, names):
        facts.append(f"1 message {it} to {partner[it]} type 1 words {mine[slot]} ..")
        facts.append(f"1 message {it} to {partner[it]} ..")
        if it != "stranger":
            facts += [f"in order: message {partner[it]} to {it} ..; console {it} {digit}", f"1 console {it} *"]
    lines = [service(it, f"{it}.out", send=("2", "1")[i], level=levels[i]) for i, it in enumerate(names)]
    others, plans = bystanders(draw)
    students = [it for it in names if it != "stranger"]
    return {"name": name, "config": machine(cpus, *lines, *others), "facts": facts,
            "models": [("exchange", it) for it in students],
            "set": plans | ({"stranger": {"number": [number], "receives": [receives_first]}} if other else {}),
            "want": {"states": {it: "down exit" for it in students}}}


def with_strangers(draw, cpus):
    """A partner in each place. It is first or second, and has another number or, once, that of whose place it has; and one
    that receives first, so that nobody is second to it. So neither the number nor waiting says whether to send again."""
    for other, numbers in (("right", [1, 4, 5, 6, 7]), ("left", [1, 4, 5, 6])):
        own = draw.randint(0, 1)
        for i, levels in enumerate(((7, 7), (8, 7))):
            number = PAIR[other] if i == own else draw.choice(numbers)
            yield pair_case(draw, f"a stranger with {number} in the place of {other}", cpus, levels, other, number)
        number = draw.choice(numbers)
        name = f"a stranger with {number}, which receives first, in the place of {other}"
        yield pair_case(draw, name, cpus, draw.choice([(7, 7), (8, 7)]), other, number, receives_first=True)


def left_first(draw):
    yield pair_case(draw, "left first", 1, (7, 7))
    yield from with_strangers(draw, 1)


def right_first(draw):
    yield pair_case(draw, "right first", 1, (8, 7))
    yield from with_strangers(draw, 1)


def pair_of_two(draw):
    yield pair_case(draw, on(2), 2, (7, 7))
    yield from with_strangers(draw, 2)


def strangers(draw):
    yield from with_strangers(draw, draw.randint(3, 4))


def with_server(draw, case):
    """A pair's machine with the server behind it, two clients that add, one between them that waits for the server and sends
    nothing, and one that comes when all is added and asks for the total."""
    slot = sum(line.startswith("service ") for line in case["config"])
    clients = {"asker": additions(draw, draw.randint(3, 5), slot), "silent": [(TAKE, slot)],
               "second": additions(draw, draw.randint(3, 5), slot),
               "late": [(WORK, LONG), (ASK, slot, READ, draw.randint(1, 1000))]}
    server = SERVER.replace("fffe", f"{0xFFFF & ~(1 << slot | 3):x}")
    lines = [service(it, "actor.out", send=f"{1 << slot:x}", calls="1", level=9 if it == "late" else draw.randint(6, 8))
             for it in clients]
    states = case["want"]["states"] | {"server": "receiving any"}
    return case | {"config": [*case["config"], server, *lines], "set": case["set"] | {it: plan(*clients[it]) for it in clients},
                   "models": [*case["models"], ("totals", "server")], "want": {"states": states},
                   "facts": [*case["facts"], *[requests(it, "server", steps) for it, steps in clients.items()]]}


def together(draw, cpus):
    """All in one machine: the pair, or one of it with a stranger, and the server with its clients."""
    first = (("left first", (7, 7)), ("right first", (8, 7)))
    for case in (*[pair_case(draw, name, cpus, levels) for name, levels in first], *with_strangers(draw, cpus)):
        yield with_server(draw, case)


def together_on_one(draw):
    yield from together(draw, 1)


def together_on_several(draw):
    yield from together(draw, draw.randint(2, 4))
