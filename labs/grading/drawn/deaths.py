"""Lab 4: a driver that answers with numbers of its own and dies, by itself or by a kill, and stays dead for a while."""
from .machines import bystanders, deaths, killed, looked, machine, rounds, service


SMALL, LARGE = (1, 9999), (214748365, 429496728)  # an answer without its last digit; if it is 2^31 and more


def answering(draw, restarts, lives=(), large=0):
    """A driver with answers of its own to 1 to 6, whose last digits differ from one another and from those of the squares;
    so many of them are 2^31 and more. Each of its lives in turn ends at a request after so many answers."""
    digits = draw.sample(range(10), 6)
    while any(digits[i] == (i + 1) ** 2 % 10 for i in range(6)):
        digits = draw.sample(range(10), 6)
    sizes = draw.sample([LARGE] * large + [SMALL] * (6 - large), 6)
    answers = [10 * draw.randint(*size) + it for size, it in zip(sizes, digits)]
    made = {"answers": [0, *answers], "lives": deaths(lives)}
    line = service("driver", "teller.out", send="fffe", calls="81", level=4, restarts=restarts)
    return line, made, "".join(str(it % 10) for it in answers)


def squares(draw, name, noise, lives=(), large=0, **more):
    driver, made, digits = answering(draw, 20, lives, large)
    # So there are more processes than in the machine that is handed out.
    others, plans = bystanders(draw, 1 if noise else 2)
    lines = [driver, service("client", "client.out", calls="91")]
    if noise:
        lines.append(service("noise", "noise.out", send="2", calls="1", level=6))
    asked = [f"1+ message client to driver type 1 words {it} .." for it in range(1, 7)]
    return {"name": name, "config": machine(1, *lines, *others), "set": {"driver": made, **plans},
            "want": {"console": digits, "states": {"client": "down exit"}}, "models": [("asker", "client")],
            "facts": [*asked, looked("client", lives)], **more}


def quiet_squares(draw):
    """Each digit is written before the next number is asked for. Some answers are below 0 for who takes them as signed."""
    turn = [f"message client to driver type 1 words {i} ..; message driver to client type 0 ..; console client *"
            for i in range(1, 7)]
    case = squares(draw, "driver and client", False, large=draw.randint(2, 4))
    yield case | {"facts": [*case["facts"], "in order: " + "; ".join(turn)]}


def noisy_squares(draw):
    yield squares(draw, "with noise", True)


def many(draw):
    """Lives that end again and again at a request: less than six answers before the last one."""
    lives = [1] * draw.randint(2, 5) + [0] * draw.randint(8, 9)
    draw.shuffle(lives)
    return lives


def swept_squares(draw, name, noise, before=()):
    """A driver that ends by itself too, once: so the successor of a kill has one endpoint or another. And one that ends
    again and again: who gives up there loses nothing here, but nobody asks whom WHOIS didn't tell."""
    once = f"{name}, of a driver that also ends once by itself"
    yield squares(draw, once, noise, [draw.randint(1, 4)], **killed(draw, before))
    lives = many(draw)
    case = squares(draw, f"{name}: a driver that ends {len(lives)} times at a request", noise, lives,
                   **killed(draw, looks=8))
    yield case | {"facts": [], "want": {}}


def killed_squares(draw):
    yield from swept_squares(draw, "a kill at every position", False)


def twice_killed_squares(draw):
    first = ["kill slot 0", *rounds(draw.randint(0, 2)), "respawn 0", *rounds(draw.randint(0, 1))]
    yield from swept_squares(draw, "two kills at every position", False, first)


def noisy_killed_squares(draw):
    yield from swept_squares(draw, "a kill at every position, with noise", True)


def mortal_squares(draw):
    """A driver that ends again and again. At some positions it is killed besides, and it is down for long."""
    lives = many(draw)
    first = draw.randint(20, 60)
    yield squares(draw, f"a driver that ends {len(lives)} times at a request", False, lives, **killed(draw, down=(40, 50)),
                  positions=(first, first + 20))
