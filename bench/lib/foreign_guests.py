"""zlib, bzip2 and xxh32, compiled from Debian's sources in both forms of file. What is right is what the same objects do as
a process of Linux."""
import collections
import os
import re
import subprocess

import debian
from debian import EXAMPLES, LINUX, TOP, printed_by

OWN = os.path.join(TOP, "bench", "foreign")
FORMS = {"text": "separate.ld", "data": "together.ld"}
STACK = 16_384
# More steps than any of them takes.
STEPS = 1_000_000_000

# A package, the files of it, and the flags that they are compiled with.
Guest = collections.namedtuple("Guest", "package files flags")
GUESTS = {
    "zlib": Guest(
        ("z/zlib/zlib_1.2.13.dfsg.orig.tar.bz2", "71feb7947e3c00ef125f83b79a4e529bde31171e5babe48b391f06758d1ab0a1"),
        "adler32 crc32 deflate inflate inffast inftrees trees zutil",
        ["-DZ_SOLO"],
    ),
    "bzip2": Guest(
        ("b/bzip2/bzip2_1.0.8.orig.tar.gz", "ab5a03176ee106d3f0fa90e381da478ddae405918153cca248e682cd0c4a2269"),
        "blocksort bzlib compress crctable decompress huffman randtable",
        ["-DBZ_NO_STDIO"],
    ),
    "xxh32": Guest(
        ("x/xxhash/xxhash_0.8.1.orig.tar.gz", "3bb6b7d6f30c591dd65aaaff1c8b7a5b94d81687998ca9400082c739a690436c"),
        "xxhash",
        ["-DXXH_NO_LONG_LONG", "-DXXH_FORCE_MEMORY_ACCESS=1"],
    ),
}


def build(name, compiler):
    """A guest in both forms, NAME.FORM.out, and NAME.linux of the same objects."""
    guest, room = GUESTS[name], compiler.room
    top = compiler.sources.unpacked(guest.package)
    flags = [*compiler.headers, f"-I{top}", *guest.flags]
    files = [*(os.path.join(top, f"{it}.c") for it in guest.files.split()), os.path.join(OWN, f"{name}_main.c")]
    files += [os.path.join(EXAMPLES, f"{it}.c") for it in ("memory", "division")]
    objects = [compiler.compile(it, *flags) for it in files]
    for system, folder, start in (("machine", EXAMPLES, "start.S"), ("linux", LINUX, "linux.S")):
        whole = os.path.join(room, f"{name}.{system}.o")
        begin = compiler.compile(os.path.join(folder, start))
        compiler.ld("-r", "--gc-sections", "-e", "start", "-o", whole, begin, *objects)
    for form, script in FORMS.items():
        compiler.link_machine(os.path.join(room, f"{name}.{form}"), os.path.join(room, f"{name}.machine.o"), STACK, script)
    compiler.link_linux(os.path.join(room, f"{name}.linux"), os.path.join(room, f"{name}.linux.o"))
    debian.run(os.path.join(EXAMPLES, "outside_table"), os.path.join(room, f"{name}.text.elf"))


def make(names, sources, room):
    """Builds guests in a room. What each returns as a process of Linux; packages that `sources` lacks are downloaded."""
    compiler = debian.Compiler(debian.Sources(sources, room), room)
    found = {}
    for name in names:
        build(name, compiler)
        found[name] = int.from_bytes(printed_by(os.path.join(room, f"{name}.linux")), "little")
    return found


def run_one(program, file):
    """What a guest returns by `mx one`, and its steps; None if it doesn't end well."""
    done = subprocess.run([program, "one", file, str(STEPS)], capture_output=True, text=True, check=False)
    found = re.search(r"EDX ([0-9a-f]{8})[\s\S]*^stop trap after (\d+)$", done.stdout, re.M)
    return (int(found[1], 16), int(found[2])) if found else None
