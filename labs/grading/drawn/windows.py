"""Lab 5: stores and savers with bytes of their own, a thief, and a store that dies."""
from .machines import TELL, bystanders, deaths, killed, looked, machine, on, plan, service

PUT, GET = 1, 2
BLOCKS, BYTES = 8, 64
LODGED = 5  # blocks of a lodger
AT_ONCE = 1 << 16  # in a keeper's life: it ends after its last answer, and waits for no other request
STORE = service("store", "store.out", send="fffe", calls="a1", level=4, restarts=20)
KEEPER = STORE.replace("store.out", "keeper.out")
THIEF = STORE.replace("store.out", "thief.out").replace("calls a1", "calls b9")
SAVER = service("saver", "saver.out", calls="191")
LODGER = service("lodger", "lodger.out", calls="191")
OF_STORE = [("store", "store")]
OF_SAVER = [("windows", "saver"), ("asker", "saver")]


def probed(draw, name, mistakes, *more, **plans):
    """A client that stores bytes of its own in all blocks, and makes mistakes or none; beside it more services."""
    others, drawn = bystanders(draw, 1)
    types = draw.sample([draw.randint(3, 99), 0, -draw.randint(1, 99)], 3)
    far = [BLOCKS, draw.randint(9, 99), draw.randint(100, (1 << 31) - 1), -draw.randint(1, 1 << 31)]
    drawn["prober"] = {"seed": [draw.randint(1, 1 << 30), draw.randint(0, 7), draw.randint(0, 7)], "mistakes": [mistakes],
                       "types": types, "far": draw.sample(far, 4)}
    line = service("prober", "prober.out", calls="191")
    return {"name": name, "config": machine(1, STORE, *others, *more, line), "set": drawn | plans, "models": OF_STORE,
            "want": {"console": "." * (37 if mistakes else 22)}}


def blocks(draw):
    yield probed(draw, "a client that stores and gets back", 0)
    yield inherited(draw)


def mistakes(draw):
    """A client whose requests are wrong too, beside two that don't wait for their answers."""
    hasty = service("hasty", "actor.out", calls="1", level=6)
    step = (TELL, 0, draw.choice([PUT, GET]), draw.randint(8, 99))
    # Of a better level than the store's: it is dead when the store asks for the copy.
    dead = service("dead", "actor.out", calls="1", level=2)
    other = (TELL, 0, draw.choice([PUT, GET]), draw.randrange(BLOCKS))
    yield probed(draw, "a client that makes mistakes, and two that end before they have their answers", 1, hasty, dead,
                 hasty=plan(step), dead=plan(other))


def letters(draw, count):
    """The bytes of a block: small letters, which aren't those that a saver has itself."""
    return [draw.choice(b"bcdefghijklmnopqrstuvwxy") for _ in range(count)]


def dwords(data):
    return [int.from_bytes(data[i:i + 4], "little") for i in range(0, len(data), 4)]


def ends(data):
    return chr(data[0]) + chr(data[-1])


SAVED = ["in order: message saver to store type 1 words 3 * ..; call store VIRCOPY 1 * * * 64 answer 0 ..; "
         "message store to saver type 0 ..; message saver to store type 2 words 3 * ..; "
         "call store VIRCOPY * * 1 * 64 answer 0 ..; message store to saver type 0 ..; console saver *"]


def filled(zeros=None):
    """What a saver has in its memory at its requests. Whether there are zeros at the GET isn't looked at everywhere: who
    forgets them loses no more than these points."""
    return [{"at": f"message saver to store type {it} words 3 * ..", "slot": 1, "program": "saver",
             "arrays": {"plain": text, "secret": "z" * BYTES}} for it, text in ((PUT, "a" * BYTES), (GET, zeros))]


def saving(name, cpus, store, values, console="aa", **more):
    """A case of a saver and a store: what is drawn for each service, and what the saver writes in the end."""
    others = [service(it, "actor.out", send="0", calls="1") for it in values if it != "store"]
    return {"name": name, "config": machine(cpus, store, SAVER, *others), "set": values, "facts": SAVED, "memory": filled(),
            "models": OF_SAVER + (OF_STORE if store == STORE else []),
            "want": {"console": console, "states": {"saver": "down exit"}}, **more}


def lodged(draw, name, cpus, **more):
    """A case of a student's store and a saver with bytes that are drawn for most of the blocks. It isn't in slot 1."""
    texts = [letters(draw, BYTES) for _ in range(LODGED)]
    others, plans = bystanders(draw, 1)
    drawn = {"plain": dwords([byte for it in texts for byte in it]), "blocks": draw.sample(range(BLOCKS), LODGED)}
    return {"name": name, "config": machine(cpus, STORE, *others, LODGER), "set": {**plans, "lodger": drawn},
            "models": OF_STORE, "want": {"console": "".join(map(ends, texts)), "states": {"lodger": "down exit"}}, **more}


def kept(data, lives=()):
    """What a keeper has: the bytes that it gives back, and how long each of its lives is."""
    return {"given": dwords(data), "lives": deaths(lives)}


def inherited(draw):
    """A saver, and after its end another one that gets what the first one put: a block is nobody's own."""
    case = lodged(draw, "a client that gets what another one has stored", 1)
    heir = service("heir", "lodger.out", calls="191", level=9)
    want = {"console": 2 * case["want"]["console"], "states": {"lodger": "down exit", "heir": "down exit"}}
    return case | {"config": [*case["config"], heir], "want": want,
                   "set": case["set"] | {"heir": case["set"]["lodger"] | {"puts": [0]}}}


def ended_once(draw, cpus):
    """A store that ends at the first request. Who doesn't go on loses nothing here; but whoever asks its successor opens no
    more for that one, and nobody writes what no store gave."""
    _, plans = bystanders(draw, 1)
    data = letters(draw, BYTES)
    case = saving(f"a store that ends at the first request, {on(cpus)}", cpus, KEEPER,
                  {**plans, "store": kept(data, [0])})
    return case | {"facts": [], "want": {"consoles": ["", "\0\0", ends(data)]}}


def saved(draw, cpus):
    _, plans = bystanders(draw, 1)
    zeros = filled("\0" * BYTES)
    yield saving(on(cpus), cpus, STORE, plans, memory=zeros)
    # A store that gives other bytes back than it got, and a saver with other bytes.
    data = letters(draw, BYTES)
    yield saving(f"a store with bytes of its own, {on(cpus)}", cpus, KEEPER, {**plans, "store": kept(data)}, ends(data),
                 memory=zeros)
    yield lodged(draw, f"a client with bytes of its own, {on(cpus)}", cpus)
    yield ended_once(draw, cpus) | {"memory": zeros}


def saved_on_one(draw):
    yield from saved(draw, 1)


def saved_on_two(draw):
    """Here a client also goes on while it is served: then it can't be copied from or to."""
    yield from saved(draw, 2)
    line = service("hurried", "hurried.out", calls="191")
    yield {"name": "a client that runs on another processor while it is served", "config": machine(2, STORE, line),
           "set": {"hurried": {"work": [draw.randint(34, 44)]}}, "models": OF_STORE, "want": {"console": ".."}}


def thieves(draw):
    """A thief that looks again every few turns, from each turn on."""
    for every in (3, 4):
        for first in range(every):
            data = letters(draw, BYTES)
            events = ["line 16"] * first + (["line 5"] + ["line 16"] * (every - 1)) * (120 // every)
            yield saving(f"a thief in slot 0, which looks again every {every} turns, from turn {first} on", 1, THIEF,
                         {"store": {"given": dwords(data)}}, events=events, want={"console": ends(data)})
    yield ended_once(draw, 1)


def killed_store(draw):
    """A store of the grader's, which ends by itself too; a student's store; a store that ends again and again."""
    data = letters(draw, BYTES)
    _, plans = bystanders(draw, 1)
    for name, lives in (("a kill at every position, of a store that also ends once by itself", 1),
                        ("a store that ends {} times at a request", draw.randint(14, 18))):
        ends_at = [draw.choice([0, 1, AT_ONCE | 1]) for _ in range(lives)]
        case = saving(name.format(lives), 1, KEEPER, {**plans, "store": kept(data, ends_at)}, ends(data))
        yield case | {"facts": [*SAVED, looked("saver", ends_at)]} | (killed(draw, down=(22, 28)) if lives == 1 else {})
    yield lodged(draw, "a kill of your store at every position", 1, **killed(draw))
