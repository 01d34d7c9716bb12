"""Commands of the grader's own: each is bounded, and what it prints can be shown to anybody."""
import contextlib
import os
import select
import signal
import subprocess
import tempfile

MOST_OUTPUT = 1 << 22  # of what a command prints
SHOWN = 300  # characters of a text that is shown
MEMORY = 1 << 30  # of a compiler
NOT_RUN = (126, 127)  # the shell's status if there is no such command
# What would change what gcc reads.
NOT_PASSED = ("CPATH", "C_INCLUDE_PATH", "COMPILER_PATH", "GCC_EXEC_PREFIX", "DEPENDENCIES_OUTPUT", "SUNPRO_DEPENDENCIES")


class Interrupts:
    """An interrupt of this process: it is noted when it comes, stops what runs, and is raised only where `check` is called.

    Raised where it comes it would be lost in a hook of a fork, leave half of what is being written, or leave a command that
    has just begun. A process that this one forks has the same state and stops in the same way."""

    def __init__(self):
        self.has_come, self.stop = False, None

    def take(self):
        for it in (signal.SIGINT, signal.SIGTERM):
            signal.signal(it, self.come)

    def come(self, *_):
        self.has_come = True
        if self.stop:
            self.stop()

    def check(self):
        if self.has_come:
            raise KeyboardInterrupt

    @contextlib.contextmanager
    def stopping(self, stop):
        """While something runs: what stops it. It is begun before this, so the interrupt may have come meanwhile."""
        self.stop = stop
        try:
            if self.has_come:
                stop()
            yield
        finally:
            self.stop = None


INTERRUPTS = Interrupts()


class Lost(Exception):
    """Why a check's points are lost: what was wanted, and what came."""

    def __init__(self, why, wanted=None, came=None):
        super().__init__(why)
        self.why, self.wanted, self.came = why, wanted, came


class Bounds:
    """What a command may use at most: seconds, and bytes of a file and of memory. A processor's second lasts longer than a
    second if others run too."""

    def __init__(self, seconds, file=64 << 20, memory=None):
        self.seconds, self.file, self.memory = seconds, file, memory

    def words(self, command):
        """The words of a command that is bounded. A shell takes the bounds and becomes the command: it begins in a fifth of
        the time of a copy of this process, which would do the same."""
        bounds = {"c": 0, "t": self.seconds, "f": self.file // 512}
        if self.memory:
            bounds["v"] = self.memory // 1024
        script = "".join(f"ulimit -{name} {most} && " for name, most in bounds.items())
        return ["/bin/sh", "-c", script + 'exec "$@"', "sh", *command]


def printable(text):
    """A text with an escape in place of what a terminal doesn't print; lines stay."""
    return "".join(it if it.isprintable() or it == "\n" else repr(it)[1:-1] for it in str(text).replace("\t", " "))


def shown(text):
    """A text as it is shown: printable, and not long."""
    text = printable(str(text)[:4 * SHOWN]).strip()
    return text if len(text) <= SHOWN else text[:SHOWN] + " .."


def surroundings():
    """The environment of a command: its messages are in ASCII."""
    return {name: it for name, it in os.environ.items() if name not in NOT_PASSED} | {"LC_ALL": "C"}


def run(words, folder, bounds, status=(0,), given=None):
    """Runs a command of the grader's own in a folder: what it prints. Any other status is a lost check."""
    with tempfile.TemporaryFile() as out, tempfile.TemporaryFile() as errors, tempfile.TemporaryFile() as text:
        text.write((given or "").encode())
        text.seek(0)
        INTERRUPTS.check()
        try:
            made = subprocess.Popen(bounds.words(words), cwd=folder, stdin=text, stdout=out, stderr=errors,
                                    env=surroundings(), start_new_session=True)
        except OSError as it:
            raise Lost(f"/bin/sh can't be run: {it.strerror}") from None
        ended = wait(made, bounds)
        INTERRUPTS.check()
        printed, said = (read_back(it) for it in (out, errors))
    if ended is None or -ended in (signal.SIGXCPU, signal.SIGKILL):
        raise Lost(f"it didn't end within {bounds.seconds} seconds")
    if ended in NOT_RUN:
        raise Lost(f"{words[0]} can't be run", came=said)
    if ended not in status:
        raise Lost(f"status {ended}", came=said or printed)
    return printed


def wait(made, bounds):
    """The status of a command; None if it has to be stopped, with all that it started."""
    def stop():
        with contextlib.suppress(ProcessLookupError):
            os.killpg(made.pid, signal.SIGKILL)

    with INTERRUPTS.stopping(stop):
        # Others may have the processors: its own seconds are bounded by the system.
        has_ended = ends_within(made.pid, 3 * bounds.seconds)
        if not has_ended:
            stop()
        status = made.wait()
        return status if has_ended else None


def ends_within(pid, seconds):
    """Whether a process ends within so many seconds. `Popen.wait` with a bound would sleep between its questions, up to a
    twentieth of a second: as long as most commands take."""
    file = os.pidfd_open(pid)
    try:
        poll = select.poll()
        poll.register(file, select.POLLIN)
        return bool(poll.poll(1000 * seconds))
    finally:
        os.close(file)


def read_back(file):
    file.seek(0)
    return file.read(MOST_OUTPUT).decode("utf-8", "replace")
