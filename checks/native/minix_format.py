"""Reads the MINIX file system, version 1, from its format alone, and puts a file on an empty one; and takes a disk's
image out of a run."""
import itertools
import re
import struct
import subprocess

BLOCK = 1024
ROOT = 1
DIRECTORY = 0o040000
KIND = 0o170000


class Image:
    """A disk's bytes. Files are found from the root downwards."""

    def __init__(self, data):
        self.data = data
        (self.inodes, self.zones, self.inode_map, self.zone_map, self.first_zone, self.log_zone, self.most,
         self.magic) = struct.unpack_from("<HHHHHHIH", data, BLOCK)
        if self.magic != 0x137F or self.log_zone != 0:
            raise ValueError(f"magic {self.magic:04x}, zones of 2^{self.log_zone} blocks")

    def block(self, number):
        return self.data[number * BLOCK:(number + 1) * BLOCK]

    def inode(self, number):
        """Mode, size, links and the nine zones of an inode."""
        table = (2 + self.inode_map + self.zone_map) * BLOCK
        mode, _, size, _, _, links, *zones = struct.unpack_from("<HHIIBB9H", self.data, table + (number - 1) * 32)
        return mode, size, links, zones

    def numbers(self, zone):
        return struct.unpack("<512H", self.block(zone)) if zone else (0,) * 512

    def zones_of(self, zones):
        """The zones of a file in their order: seven named by the inode, those of an indirect and of a double one."""
        yield from zones[:7]
        yield from self.numbers(zones[7])
        for zone in self.numbers(zones[8]):
            yield from self.numbers(zone)

    def content(self, number):
        _, size, _, zones = self.inode(number)
        made = bytearray()
        for zone in self.zones_of(zones):
            if len(made) >= size:
                break
            made += self.block(zone) if zone else bytes(BLOCK)
        return bytes(made[:size])

    def entries(self, number):
        """The names in a directory, but `.` and `..`, with their inodes."""
        content = self.content(number)
        for at in range(0, len(content), 16):
            inode, name = struct.unpack_from("<H14s", content, at)
            name = name.rstrip(b"\0").decode()
            if inode and name not in (".", ".."):
                yield name, inode

    def files(self, number=ROOT, path=""):
        """All files below a directory: path and bytes, and None for a directory."""
        for name, inode in self.entries(number):
            below = f"{path}/{name}" if path else name
            if self.inode(inode)[0] & KIND == DIRECTORY:
                yield below, None
                yield from self.files(inode, below)
            else:
                yield below, self.content(inode)

    def free(self):
        """How many zones and inodes their bitmaps say are free."""
        def clear(start, bits):
            at = start * BLOCK
            return sum(not self.data[at + bit // 8] >> bit % 8 & 1 for bit in range(1, bits))
        return (clear(2 + self.inode_map, self.zones - self.first_zone + 1), clear(2, self.inodes + 1))


def with_file(data, name, content):
    """A disk on which `mkfs.minix` has made a file system, with one file more, which is its first."""
    image, disk = Image(data), bytearray(data)
    zones = itertools.count(image.first_zone + 1)  # the root has the first one

    def put(part):
        zone = next(zones)
        disk[zone * BLOCK:zone * BLOCK + len(part)] = part
        set_bit(disk, 2 + image.inode_map, zone - image.first_zone + 1)
        return zone

    def put_all(parts):
        return [put(parts[at:at + BLOCK]) for at in range(0, len(parts), BLOCK)]

    def put_numbers(numbers):
        return put_all(struct.pack(f"<{len(numbers)}H", *numbers))

    parts = put_all(content)
    (indirect, *_), (double, *_) = put_numbers(parts[7:519]) or [0], put_numbers(put_numbers(parts[519:])) or [0]
    table = (2 + image.inode_map + image.zone_map) * BLOCK
    struct.pack_into("<HHIIBB9H", disk, table + 32 * ROOT, 0o100644, 0, len(content), 0, 0, 1,
                     *(parts[:7] + [0] * 7)[:7], indirect, double)
    set_bit(disk, 2, ROOT + 1)
    _, size, _, (first, *_) = image.inode(ROOT)
    struct.pack_into("<H14s", disk, first * BLOCK + size, ROOT + 1, name.encode())
    struct.pack_into("<I", disk, table + 4, size + 16)
    return bytes(disk)


def set_bit(disk, block, bit):
    disk[block * BLOCK + bit // 8] |= 1 << bit % 8


def as_script(history):
    """The lines of a script that makes the events of a saved history again, on one processor."""
    for line in history.splitlines():
        actor, what, *words = line.split()
        if actor == "rules":
            continue
        if what == "take":
            yield f"take {actor}"
        elif what == "back":
            yield f"step {actor} {words[0]}"
            yield f"back {actor}"
        else:
            yield " ".join([what, *words])


def looks_at_medium(driver, size, address=16):
    """Lines that print the medium's memory, after a driver with this endpoint: it is killed, and its successor attaches
    to the medium. So this is on the processor in one of the rounds, which prints it; what else is on the processor has
    less memory."""
    round = ["take 0", f"mem 0 {address} {size}", "step 0 60000", "back 0"]
    return ["step 0 60000", "back 0", f"kill {driver}", "respawn 1", *round * 8]


def take_image(program, folder, config, history, script, size):
    """The image that is in the medium's memory after a history. `script` is the name of a file to write."""
    report = subprocess.run([program, "replay", config, history], cwd=folder, capture_output=True, text=True, check=True)
    driver = report.stdout.splitlines()[1].split()
    with open(history, encoding="ascii") as it:
        lines = list(as_script(it.read()))
    lines += looks_at_medium(driver[2], size)
    with open(script, "w", encoding="ascii") as it:
        it.write("".join(f"{line}\n" for line in lines))
    printed = subprocess.run([program, "db", config, script], cwd=folder, capture_output=True, text=True, check=True)
    return bytes_of_rows(printed.stdout.splitlines(), size)


def bytes_of_rows(printed, size):
    """The first so many bytes that the debugger printed of memories."""
    image = bytes.fromhex("".join(line[8:] for line in printed if is_row(line)))
    if len(image) < size:
        raise ValueError(f"{len(image)} bytes of the medium were printed, {size} were wanted")
    return image[:size]


def is_row(line):
    """Whether a line is an address of eight digits and bytes of two each."""
    return re.fullmatch("[0-9a-f]{8}( [0-9a-f]{2})+", line) is not None
