"""A session with mx at a pseudo terminal, for tests: what expect does."""
import os
import pty
import re
import select
import subprocess
import termios
import time


class Session:
    """A session, whose terminal gives each key at once. `out` is all that came from it."""

    def __init__(self, words, folder, raw=True):
        master, slave = pty.openpty()
        it = termios.tcgetattr(slave)
        if raw:
            it[3] &= ~(termios.ICANON | termios.ECHO | termios.ISIG | termios.IEXTEN)
            it[0] &= ~(termios.IXON | termios.ICRNL)
            it[6][termios.VMIN] = 0
            it[6][termios.VTIME] = 0
        it[1] &= ~termios.OPOST
        termios.tcsetattr(slave, termios.TCSANOW, it)
        self.said, told = os.pipe()
        self.child = subprocess.Popen(words, stdin=slave, stdout=slave, stderr=told, cwd=folder,
                                      start_new_session=True)
        os.close(told)
        self.slave, self.master = slave, master
        self.out, self.notes, self.pending = b"", b"", b""
        self.ended = False

    def take(self, readable):
        for place in readable:
            try:
                got = os.read(place, 65536)
            except OSError:
                got = b""
            if place == self.master:
                self.out += got
            elif got:
                self.notes += got
            else:
                self.ended = True

    def pump(self, seconds):
        """Types what is to be typed and takes what comes, for so long."""
        until = time.time() + seconds
        while not self.ended:
            left = until - time.time()
            if left < 0:
                return
            writing = [self.master] if self.pending else []
            readable, writable, _ = select.select([self.master, self.said], writing, [], left)
            self.take(readable)
            if writable:
                written = os.write(self.master, self.pending[:1024])
                self.pending = self.pending[written:]

    def type(self, data):
        self.pending += data

    def expect(self, pattern, seconds=60):
        """Waits until the pattern came."""
        until = time.time() + seconds
        while not re.search(pattern, self.out, re.S):
            if self.ended or time.time() > until:
                raise AssertionError(f"no {pattern!r} in {self.out[-300:]!r}, {self.notes[-300:]!r}")
            self.pump(0.02)

    def end(self, seconds=60):
        """The status with which it ends by itself; None if it doesn't."""
        until = time.time() + seconds
        while self.child.poll() is None and time.time() < until:
            self.pump(0.05)
        if self.child.poll() is None:
            self.child.kill()
            return None
        self.ended = False
        while select.select([self.master], [], [], 0.1)[0]:
            before = len(self.out)
            self.take([self.master])
            if len(self.out) == before:
                break
        while select.select([self.said], [], [], 0.1)[0] and not self.ended:
            self.take([self.said])
        return self.child.returncode

    def mode(self):
        """How the terminal is."""
        return termios.tcgetattr(self.slave)
