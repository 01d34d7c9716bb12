"""How far the compilation of the program without proof is: on standard error, and in a file for who waits for it.

The kit's trial takes all crates at once and says nothing on the way. But it uses nearly the same seconds of processor
each time, however loaded the machine is. So what is done is counted by these, and the minutes that are left by how many
of them a second of the clock brings. Another machine takes others: each step that has ended corrects those that follow.
"""
import os
import resource
import sys
import threading
import time

# Seconds of processor that the steps take on a machine at 2.5 GHz: the trial up to its module, the linker's passes over
# it, and machine code of it.
STEPS = (53.0, 30.0, 5.0)
ALL = sum(STEPS)
# A terminal's line is written anew each second; else a line comes as often as this.
EVERY = 15
TICKS = os.sysconf("SC_CLK_TCK")
# No step is as good as done before it is.
MOST = 0.98


def children_of(process):
    """The processes below one, in any depth."""
    try:
        with open(f"/proc/{process}/task/{process}/children", encoding="ascii") as it:
            found = it.read().split()
    except OSError:
        return []
    return [below for it in found for below in (it, *children_of(it))]


def seconds_of(process):
    """The seconds of processor of a process, with those of its children that have ended."""
    try:
        with open(f"/proc/{process}/stat", encoding="utf-8", errors="replace") as it:
            fields = it.read().rpartition(")")[2].split()
    except OSError:
        return 0.0
    return sum(map(int, fields[11:15])) / TICKS


def used():
    """The seconds of processor of this process and of all below it, so far."""
    times = [resource.getrusage(it) for it in (resource.RUSAGE_SELF, resource.RUSAGE_CHILDREN)]
    return sum(it.ru_utime + it.ru_stime for it in times) + sum(map(seconds_of, children_of(os.getpid())))


class Estimate:
    """How much of the steps is done, and how much is left."""

    def __init__(self, now, used_now):
        self.began, self.step = (now, used_now), 0
        # How much longer than STEPS this machine takes, and where the step that runs began.
        self.slower, self.step_began = 1.0, used_now

    def end_step(self, used_now):
        """The next step begins: what this one took says what those that follow will take."""
        took = used_now - self.step_began
        self.slower = max(took / STEPS[self.step], 0.1)
        self.step, self.step_began = self.step + 1, used_now

    def parts(self, used_now):
        """Of a hundred parts those that are done."""
        wanted = STEPS[self.step] * self.slower
        here = min((used_now - self.step_began) / wanted, MOST)
        return int(100 * (sum(STEPS[: self.step]) + STEPS[self.step] * here) / ALL)

    def seconds_left(self, now, used_now):
        """By the clock, at the pace up to now."""
        left = max(STEPS[self.step] * self.slower - (used_now - self.step_began), STEPS[self.step] * (1 - MOST))
        left += sum(STEPS[self.step + 1 :]) * self.slower
        clock, worked = now - self.began[0], used_now - self.began[1]
        return left * clock / worked if worked > 0 else left


def in_words(seconds):
    minutes = round(seconds / 60)
    return f"{max(round(seconds, -1), 10):.0f} seconds" if seconds < 90 else f"{minutes} minutes"


class Progress:
    """Tells how far it is, until it ends. It writes nothing before a first second is over."""

    def __init__(self, crates, file):
        self.crates, self.file = crates, file
        # The trial's own lines are taken away from standard error as it is later.
        self.out = sys.stderr
        self.estimate = Estimate(time.monotonic(), used())
        self.forget()
        self.is_over = threading.Event()
        self.has_line = False
        self.teller = threading.Thread(target=self.tell, daemon=True)
        self.teller.start()

    def text(self):
        now, used_now = time.monotonic(), used()
        parts, left = self.estimate.parts(used_now), self.estimate.seconds_left(now, used_now)
        return f"{self.crates} crates in one: {parts} of 100 parts compiled, about {in_words(left)} more"

    def tell(self):
        is_terminal = self.out.isatty()
        while not self.is_over.wait(1 if is_terminal else EVERY):
            text = self.text()
            with open(self.file, "w", encoding="ascii") as it:
                it.write(text)
            line = f"\r\033[Kmx: {text}" if is_terminal else f"mx: {text}\n"
            print(line, end="", file=self.out, flush=True)
            self.has_line = is_terminal

    def end_step(self):
        self.estimate.end_step(used())

    def end(self):
        self.is_over.set()
        self.teller.join()
        if self.has_line:
            print("\r\033[K", end="", file=self.out, flush=True)
            self.has_line = False
        self.forget()

    def forget(self):
        """Takes the file away, also that of a builder that was killed."""
        if os.path.exists(self.file):
            os.remove(self.file)
