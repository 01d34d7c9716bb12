"""Machines of several services: lines of a configuration, and what a partner of the grader does in them."""

STOP, ASK, TELL, POKE, TAKE, WORK = range(6)  # what a line of an actor's plan does
LIVES, LONG = 24, 1000  # as in the partners that end by themselves


def plan(*lines):
    """An actor's plan, as the dwords of its lines."""
    rows = [[*it, *[0] * (5 - len(it))] for it in lines]
    return {"plan": [word for it in [*rows, [STOP] * 5] for word in it]}


def service(name, program, send="1", calls="11", level=7, restarts=0, traps="1e"):
    return (f"service {name} {program} traps {traps} send {send} calls {calls} level {level} best {level} quantum 20000 "
            f"restarts {restarts}")


def machine(cpus, *services, log=20_000):
    return [f"cpus {cpus}", f"log {log}", *services]


def on(cpus):
    """So many processors, in words."""
    return ("on one processor", "on two processors", "on three processors", "on four processors")[cpus - 1]


def bystanders(draw, least=0):
    """Processes that do nothing for anybody, for the slots behind the others: how many, and their plans. So a process can't
    tell by who is there whether its machine is the one that is handed out."""
    names = [f"other{i}" for i in range(draw.randint(least, 3))]
    lines = [service(it, "actor.out", send="0", calls="1", level=draw.randint(5, 9)) for it in names]
    return lines, {it: plan((WORK, draw.randint(0, 4))) for it in names}


def served(draw, name, actors, model, cpus=1, **more):
    """A case of a server, whose line is `server` in `more`, and actors: of each its name, plan, level and restarts."""
    others, plans = bystanders(draw)
    server = more.pop("server")
    lines = [service(it, "actor.out", calls="1", level=level, restarts=restarts) for it, _, level, restarts in actors]
    taken = server.split()[1]
    return {"name": name, "config": machine(cpus, server, *lines, *others), "models": [(model, taken)],
            "facts": [requests(it, taken, steps, 1 + restarts) for it, steps, _, restarts in actors],
            "set": plans | {it: plan(*steps) for it, steps, _, _ in actors}, **more}


def requests(actor, server, steps, lives=1):
    """The fact that a server took all requests of an actor."""
    count = lives * sum(it[0] in (ASK, TELL) for it in steps)
    return f"{count} message {actor} to {server} .."


def deaths(lives):
    """Each of a partner's lives in turn ends at a request after so many answers. Those that aren't given don't end."""
    return [*lives, *[LONG] * (LIVES - len(lives))]


def looked(client, lives):
    """The fact that a client asked the kernel for each of a partner's successors."""
    return f"{len(lives)}+ call {client} WHOIS 0 answer 0 .."


def rounds(count):
    """Lines of a fault: so many processes run to their next trap, one after the other, and nobody who is down is replaced
    meanwhile."""
    return ["take 0", "step 0 20000", "back 0"] * count


def killed(draw, before=(), looks=4, down=(6, 12)):
    """A fault: slot 0's process is killed, and so is its successor before it does anything, so that the next one isn't one
    generation later; and then slot 0 is down for so many traps of others, so that who asks for its process is told several
    times that there is none. The histories of some positions are looked at."""
    more, count = draw.randint(1, 2), draw.randint(*down)
    successors = "its successor" if more == 1 else f"{more} successors"
    told = f"kill slot 0, and {successors}, and it is down for {count} traps" + (", after another kill" if before else "")
    return {"fault": [*before, *["kill slot 0", "respawn 0"] * more, "kill slot 0", *rounds(count)], "told": told,
            "looks": [draw.random() for _ in range(looks)]}
