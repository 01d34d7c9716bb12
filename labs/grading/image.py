"""A program's file."""
import struct

from .commands import Lost

DATA = 3  # the kind of a symbol in .data
PAGE = 4096  # a process gets whole ones


class Program:
    """A MINIX a.out file, as `mx as` and the linker scripts write it."""

    def __init__(self, data):
        self.data = bytearray(data)
        self.sep = bool(data[2] & 0x20)
        length = data[4]
        self.text, self.init, _, _, total, symbols = struct.unpack_from("<6I", data, 8)
        self.memory = -(-total // PAGE) * PAGE
        self.start = length + self.text  # of the data in the file
        self.symbols = {}
        for at in range(length + self.text + self.init, length + self.text + self.init + symbols, 16):
            name, value, kind = struct.unpack_from("<8sIB", data, at)
            self.symbols.setdefault(name.rstrip(b"\0").decode("ascii", "replace"), (value, kind & 7))

    def address(self, name):
        if name not in self.symbols:
            raise Lost(f"the program has no symbol `{name}`")
        return self.symbols[name][0]

    def write(self, name, data):
        """Puts bytes over the data at a symbol."""
        value, kind = self.symbols.get(name, (0, 0))
        at = value - (0 if self.sep else self.text)
        if kind != DATA or at < 0 or at + len(data) > self.init:
            raise Lost(f"`{name}` has to be a label in .data with room for {len(data)} bytes")
        self.data[self.start + at:self.start + at + len(data)] = data
