"""Debian's source packages, and C of them compiled for the machine: by the flags of examples/c, with musl's headers."""
import hashlib
import os
import shutil
import subprocess
import sys
import tarfile
import urllib.error
import urllib.request

from large_guests import read, write

TOP = os.path.dirname(os.path.dirname(os.path.dirname(os.path.abspath(__file__))))
EXAMPLES = os.path.join(TOP, "examples", "c")
LINUX = os.path.join(TOP, "bench", "c")
ARCHIVE = "http://deb.debian.org/debian/pool/main/"
# Where a package is in the archive, and its SHA-256.
MUSL = ("m/musl/musl_1.2.3.orig.tar.gz", "7d5b0b6062521e4627e099e4c9dc8248d32a30285e959b7eecaa780cf8cfd4a4")
# A long double is a double, and one function of many may be left out.
OWN_FLAGS = ["-mlong-double-64", "-ffunction-sections", "-fdata-sections"]


def run(*words, **how):
    subprocess.run(words, check=True, **how)


def printed_by(*words):
    return subprocess.run(words, stdout=subprocess.PIPE, check=True).stdout


class Sources:
    """Packages that are downloaded to a folder, and unpacked in a room."""

    def __init__(self, folder, room):
        self.folder, self.room = folder, room

    def unpacked(self, package):
        """The folder of a package's sources."""
        place, wanted = package
        name = os.path.basename(place)
        file = os.path.join(self.folder, name)
        if not os.path.exists(file):
            download(ARCHIVE + place, file)
        found = hashlib.sha256(read(file)).hexdigest()
        if found != wanted:
            sys.exit(f"{file}: its SHA-256 is {found}, not {wanted}")
        to = os.path.join(self.room, "sources", name.split("_")[0])
        with tarfile.open(file) as archive:
            archive.extractall(to, filter="data") if hasattr(tarfile, "data_filter") else archive.extractall(to)
        return os.path.join(to, *os.listdir(to))


def download(place, file):
    """Downloads a file; without a way to it the script ends."""
    try:
        with urllib.request.urlopen(place, timeout=60) as found:
            content = found.read()
    except (urllib.error.URLError, OSError) as reason:
        print(f"{place}: {reason}", file=sys.stderr)
        sys.exit(2)
    write(file, content)


class Compiler:
    """Compiles for the machine, in a folder."""

    def __init__(self, sources, room):
        self.sources, self.room = sources, room
        self.objects, self.include = (os.path.join(room, it) for it in ("objects", "include"))
        os.makedirs(self.objects)
        os.makedirs(os.path.join(self.include, "bits"))
        # The flags by which gcc keeps within the machine's instructions are the Makefile's.
        show = "--eval=show: ; @echo $(machine) $(alone) $(shape)"
        flags = printed_by("make", "-s", "-C", EXAMPLES, "--no-print-directory", show, "show")
        self.flags = ["gcc", "-std=gnu11", "-O2", "-w", *flags.decode().split(), *OWN_FLAGS]
        self.musl = sources.unpacked(MUSL)
        self.write_headers()
        arch = [os.path.join(self.musl, "arch", it) for it in ("i386", "generic")]
        self.headers = ["-nostdinc", *(f"-I{it}" for it in (self.include, *arch, os.path.join(self.musl, "include")))]

    def write_headers(self):
        """What musl's own Makefile makes of the headers; and a long double is a double, as on ARM."""
        bits = os.path.join(self.include, "bits")
        shutil.copy(os.path.join(self.musl, "arch", "arm", "bits", "float.h"), bits)
        parts = [os.path.join(self.musl, *it) for it in (("tools", "mkalltypes.sed"), ("include", "alltypes.h.in"))]
        types = os.path.join(self.musl, "arch", "i386", "bits", "alltypes.h.in")
        write(os.path.join(bits, "alltypes.h"), printed_by("sed", "-f", parts[0], types, parts[1]))
        write(os.path.join(bits, "syscall.h"), b"")

    def compile(self, file, *flags):
        """The object of a file."""
        to = os.path.join(self.objects, "_".join(file.split(os.sep)[-3:]) + ".o")
        run(*self.flags, *flags, "-c", file, "-o", to)
        return to

    def ld(self, *words):
        fixed = "ld -m elf_i386 --no-check-sections --no-warn-rwx-segments --no-warn-execstack --build-id=none"
        run(*fixed.split(), *words)

    def symbols(self, file):
        """The object with the symbols of a program."""
        names = printed_by("nm", "-n", file)
        text = os.path.join(self.room, "symbols.s")
        script = os.path.join(EXAMPLES, "symbols.awk")
        made = subprocess.run(["awk", "-f", script], input=names, stdout=subprocess.PIPE, check=True)
        write(text, made.stdout)
        return self.compile(text)

    def link_machine(self, file, whole, stack, script="separate.ld"):
        """The program FILE.out of one object, and FILE.elf for gcc's own tools."""
        places = ["-T", os.path.join(EXAMPLES, script), f"--defsym=stack_size={stack}"]
        self.ld(*places, "-o", f"{file}.elf", whole)
        self.ld(*places, "--oformat", "binary", "-o", f"{file}.out", self.symbols(f"{file}.elf"), whole)

    def link_linux(self, file, whole):
        """The process of Linux of one object."""
        self.ld("-T", os.path.join(LINUX, "linux.ld"), "-o", file, whole)
