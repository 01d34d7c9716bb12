"""Lab 3: interrupts and ticks, an event a turn.

`b` is the button, `s` the sensor, `t` a tick, and a number so many turns without an event.
"""
import itertools

from .machines import machine, service

EVENTS = {"b": "line 3", "s": "line 5", "t": "tick"}
NOTHING = "line 16"  # there is no such line, so nobody can take it
DRIVER = service("driver", "driver.out", send="0", calls="1c", level=4, traps="c")
HOG = service("hog", "hog.out", send="0", calls="6", level=1, traps="c")


OF_LINES = "8|32|40"  # the bits of one line, of the other, and of both

# So many turns are enough for a driver to take an interrupt and write its letters; another process may come before it.
ENOUGH, ENOUGH_WITH_HOG = 8, 20
HOGGED = 22  # turns from a tick until a driver has done with it, if another process comes first

# How a button bounces: for each bounce the ticks since the interrupt before it. These are all ways to bounce up to twice.
BOUNCES = [it for count in (1, 2) for it in itertools.product(range(3), repeat=count)]


def lines_of(made):
    """The facts that a driver has both lines when their interrupts come."""
    counts = {it: made.count(f"line {it}") for it in (3, 5)}
    return [(f"{count} line {it} driver", f"the driver has line {it} each time that it comes: {count}")
            for it, count in counts.items()]


def soon(made, enough):
    """The fact that a driver takes an interrupt soon: at least one notification for those that come without a pause."""
    at = [i for i, it in enumerate(made) if it in ("line 3", "line 5")]
    least = 1 + sum(later - earlier > enough for earlier, later in zip(at, at[1:]))
    return (f"{least}+ notify HARDWARE to driver type 4096 words * {OF_LINES} ..",
            f"the driver receives soon: at least {least} notifications of its lines")


def button_case(name, events, with_hog=False):
    words, made = events.split(), []
    for it in words:
        made += [NOTHING] * int(it) if it.isdigit() else [EVENTS[it]]
    return {"name": f"{name}: {' '.join(words)}", "config": machine(1, DRIVER, *([HOG] if with_hog else [])), "events": made,
            "models": [("button", "driver")], "want": {"states": {"driver": "receiving any|receiving -1"}},
            "first": lines_of(made), "facts": [soon(made, ENOUGH_WITH_HOG if with_hog else ENOUGH)]}


def lines_taken(draw):
    first, second = draw.choice(["sb", "bs"])
    yield button_case("both lines", f"{draw.randint(8, 12)} {first} {draw.randint(9, 13)} {second} 9")


def sensor(draw):
    for count in (1, draw.randint(3, 6), draw.randint(25, 35)):
        times = f"{count} times" if count > 1 else "once"
        yield button_case(f"the sensor {times}", " ".join([str(draw.randint(8, 11))] + ["s 8"] * count))


def ways(draw, many, least=0):
    """So many ways to bounce: how often is drawn, at least so often and at most three times, and each about as many times."""
    counts = [least + i % (4 - least) for i in range(many)]
    draw.shuffle(counts)
    return [tuple(draw.randint(0, 2) for _ in range(count)) for count in counts]


def after(ticks, pause, last):
    """So many ticks, each with a pause, and after the last one another."""
    return " ".join([f"t {pause}"] * (ticks - 1) + [f"t {last or ''}"] * (ticks > 0))


def press(draw, bounces, distance):
    """A press and its bounces: the next event after its interrupt comes at a distance, and so does one of the bounces after
    its tick. Then come three quiet ticks. The sensor may come before and between."""
    near = draw.randrange(len(bounces))
    made = [draw.choice(["s 8", ""]), f"b {distance or ''}"]
    for i, ticks in enumerate(bounces):
        made += [draw.choice(["s 8", "", ""]), after(ticks, 8, distance if i == near else 8), draw.choice(["s 8", "", ""]), "b 8"]
    quiet = ["t 8"] * 3
    quiet.insert(draw.randint(0, 2), draw.choice(["s 8", "s 8", ""]))
    return " ".join([*made, *quiet])


def bounces(draw):
    """Two presses, each released before the next one, at each distance from a tick. All ways to bounce up to twice are there,
    and some to bounce three times. After the first press the sensor comes, so its `r` is between letters that are others.
    After the last one nothing comes: only an alarm brings its `r`."""
    those = [*BOUNCES, *ways(draw, 16 - len(BOUNCES), 3)]
    draw.shuffle(those)
    for distance in range(8):
        other = draw.choice([it for it in range(8) if it != distance])
        pause = " ".join(["s 8"] + ["t 9"] * draw.randint(0, 2))
        first, second = (press(draw, those.pop(), it) for it in (distance, other))
        yield button_case("bounces", f"{draw.randint(8, 11)} {first} {pause} {second}")


def releases(draw):
    """Two ticks, three ticks; two presses; the first tick right after the press, while the driver has its letter to write;
    some presses that bounce; and some that don't, each with enough ticks or one or two more."""
    wait = draw.randint(8, 11)
    yield button_case("two ticks", f"{wait} b 8 t 8 t 9")
    yield button_case("three ticks", f"{wait} b 8 t 8 t 8 t 9")
    yield button_case("two presses", f"{wait} b 8 t 8 t 8 t 8 t 8 b 8 t 8 t 8 t 9")
    yield button_case("the first tick at once", f"{wait} b t 8 t 8 t 9")
    for count in draw.sample([1, 2, 3], 3):
        bounces_of_it = [f"{after(draw.randint(1, 2), 8, 8)} b" for _ in range(count)]
        yield button_case("bounces, and the next tick at once", f"{wait} b 8 {' 8 '.join(bounces_of_it)} t 8 t 8 t 9")
    some = [f"b{' 8 t' * draw.randint(3, 5)} {draw.randint(8, 12)}" for _ in range(draw.randint(2, 4))]
    yield button_case("some presses", f"{wait} {' '.join(some)} 9")


def hogged(draw, bounces):
    """Bounces where another process runs after each tick. With one that comes right after a tick the sensor may come."""
    made = []
    for ticks in bounces:
        alone = after(ticks, HOGGED, draw.choice([0, 2, HOGGED])) + " b 40"
        made.append(draw.choice([alone, after(ticks, HOGGED, 0) + f" {draw.choice(['b s', 's b'])} 40"]) if ticks else alone)
    return " ".join(made)


def late_bounce(draw):
    """The sensor in the third tick, and a bounce before that tick: an interrupt of line 5 doesn't say that the time is over."""
    return f"t {HOGGED} t {HOGGED} s {draw.randint(3, 12)} b 40"


def both_lines(draw):
    """Both interrupts come while another process runs, in any order, also twice; then once more with the next press. Then the
    sensor comes, so whoever forgets a press can't make up for it by a bounce. Each press bounces as is drawn, and one of the two
    also late."""
    kinds = ("b s", "s b s", "b b s", f"s {draw.randint(2, 4)} b s")
    late = [0, 1, 0, 1]
    draw.shuffle(late)
    for lines, way, other, place in zip(kinds, ways(draw, 4, 1), ways(draw, 4), late):
        quiet = [f"t {HOGGED}"] * 3
        quiet.insert(draw.randint(1, 3), f"s {HOGGED}")
        bounces_of = [hogged(draw, way), hogged(draw, other)]
        bounces_of[place] += f" {late_bounce(draw)}"
        first = f"{draw.randint(12, 14)} t {lines} 40 s {HOGGED} {bounces_of[0]} {' '.join(quiet)}"
        again = f"{'t 22 ' * draw.randint(0, 2)}t {draw.choice(['b s', 's b'])} 40 s {HOGGED} {bounces_of[1]}"
        yield button_case("both lines while another process runs", f"{first} {again} t 22 t 22 t 22", True)


def busy(draw):
    """The third tick and the next press come while the driver writes letters, or while another process runs; then
    bounces of that press, after an alarm that was due for the old one. Old and new press bounce as is drawn."""
    old, new = ways(draw, 14), ways(draw, 9, 1)
    for count in (1, 2, 3):
        for distance in (0, 1, 2):
            before = [until_due(old.pop(), 8), *["s"] * count, f"t {distance or ''} b 12"]
            before = f"{draw.randint(8, 10)} {' '.join(before)}"
            yield button_case("a press while the driver is busy", f"{before} {'t 9 ' * draw.randint(2, 3)}")
            bounces_of_it = " ".join(f"{after(it, 9, 9)} b 9" for it in (draw.randint(1, 2), *new.pop()[1:]))
            yield button_case("a press and its bounces", f"{before} {bounces_of_it} {'t 9 ' * draw.randint(2, 3)}")
    for distance in draw.sample(range(2, 9), 3):
        before = f"{draw.randint(8, 10)} {until_due(draw.choice(BOUNCES), 8)}"
        yield button_case("the sensor, and a bounce before the third tick", f"{before} s {distance} b 9 t 9 t 9 {'t 9' * (distance % 2)}")
    for distance in range(5):
        before = f"{until_due(old.pop(), HOGGED)} t {distance or ''} b 24 {after(draw.randint(1, 2), HOGGED, HOGGED)}"
        rest = f"b 24 {'t 22 ' * draw.randint(1, 3)}"
        yield button_case("a press and its bounce while another process runs", f"13 {before} {rest}", True)


def until_due(way, pause):
    """A press, its bounces, and two quiet ticks."""
    return " ".join([f"b {pause}", *(f"{after(it, pause, pause)} b {pause}" for it in way), f"t {pause} t {pause}"])
