"""Programs of a student's texts. Nothing of a student's folder is run here: texts are copied, assembled and compiled."""
import functools
import hashlib
import os
import re
import shlex
import shutil
import tempfile

from . import sources
from .commands import MEMORY, Bounds, Lost, run

LABS = os.path.dirname(os.path.dirname(os.path.abspath(__file__)))
TOP = os.path.dirname(LABS)
MX = os.environ.get("MX", os.path.join(TOP, "mx"))
KIT = os.path.join(TOP, "examples", "c")
MOST_BYTES = 1 << 20  # of a student's file
MOST_HEADERS = 20
MOST_RUNS = 1 << 20  # by threads: more than a check makes
CFLAGS = """-std=c11 -O2 -m32 -march=i386 -mno-sse -mno-mmx -mno-80387 -mpreferred-stack-boundary=2
    -fno-align-functions -fno-align-jumps -fno-align-loops -fno-align-labels -ffreestanding -nostdlib -fno-pic -fno-pie
    -fno-stack-protector -fcf-protection=none -fno-asynchronous-unwind-tables -fno-tree-loop-distribute-patterns
    -nostdinc -fmax-errors=1 -fdiagnostics-color=never -w""".split()
LDFLAGS = "-m elf_i386 --no-check-sections --no-warn-rwx-segments --build-id=none".split()
PLACE = ["-T", "kit/separate.ld", "--defsym=stack_size=2048"]
HEADERS = ("mx.h", "text.h", "memory.h")
LIBRARY = ("memory", "division", "text")
OF_KIT = (*HEADERS, "start.S", "separate.ld", "symbols.awk", *(f"{it}.c" for it in LIBRARY))
COMPILER = Bounds(5, file=8 << 20, memory=MEMORY)


class Kit:
    """What a program in C is made of besides a student's text: copied and compiled once, for all students. So is a program
    of the same texts as one that was made before."""

    def __init__(self, keep):
        texts = hashlib.sha256(repr((CFLAGS, LDFLAGS, PLACE)).encode())
        for it in OF_KIT:
            with open(os.path.join(KIT, it), "rb") as file:
                texts.update(file.read())
        self.folder = os.path.join(keep, f"kit-{texts.hexdigest()[:8]}")
        self.programs = f"{self.folder}-programs"

    def make(self):
        """Makes the folder under another name first, so that nobody sees half of it; another grader may be faster."""
        with tempfile.TemporaryDirectory(dir=os.path.dirname(self.folder)) as top:
            kit = os.path.join(top, "kit")
            os.mkdir(kit)
            for it in OF_KIT:
                shutil.copy(os.path.join(KIT, it), kit)
            system = run(["gcc", "-print-file-name=include"], kit, COMPILER).strip()
            with open(os.path.join(kit, "flags"), "w", encoding="utf-8") as it:
                it.write(" ".join([*CFLAGS, "-I", "kit", "-isystem", system]) + "\n")
            run(["gcc", "-m32", "-c", "-o", "kit/start.o", "kit/start.S"], top, COMPILER)
            for it in LIBRARY:
                run(["gcc", "@kit/flags", "-c", "-o", f"kit/{it}.o", f"kit/{it}.c"], top, COMPILER)
            try:
                os.rename(kit, self.folder)
            except OSError:
                if not os.path.isdir(self.folder):
                    raise

    def copy(self, room):
        """Copies the kit into a room, where it is found under the same name. Gives the folder of gcc's own headers."""
        if not os.path.isdir(self.folder):
            self.make()
        if not os.path.exists(os.path.join(room, "kit")):
            shutil.copytree(self.folder, os.path.join(room, "kit"))
        with open(os.path.join(room, "kit", "flags"), encoding="utf-8") as it:
            return it.read().split()[-1]

    def give(self, key, out):
        """Gives the program that was made of the same texts, if there is one. Answers whether there is."""
        try:
            shutil.copy(os.path.join(self.programs, key), out)
        except FileNotFoundError:
            return False
        return True

    def take(self, key, out):
        """Keeps a program that was made. Another grader may keep the same one just now."""
        os.makedirs(self.programs, exist_ok=True)
        with tempfile.TemporaryDirectory(dir=self.programs) as top:
            os.rename(shutil.copy(out, top), os.path.join(self.programs, key))


class Student:
    """A student's folder: its files are copied from it once, and nothing in it is ever run."""

    def __init__(self, lab, folder, room, kit, seconds, secret="", runs=MOST_RUNS):
        self.lab, self.folder, self.room, self.kit = lab, folder, room, kit
        self.bounds, self.runs = Bounds(seconds), runs
        self.secret = secret
        self.pasted = None  # the last command by which a program was made
        self.made = {}  # of each program that was tried: its file, or what was lost, and the command

    @functools.cached_property
    def seed(self):
        """What is drawn for this student is drawn by this: the teacher's secret, the names of lab and folder, and the texts. So
        a new text gets other numbers than those that were told of the old one, and the same text the same."""
        texts = hashlib.sha256()
        for name in sorted(os.listdir(self.folder)):
            path = os.path.join(self.folder, name)
            if re.fullmatch(r"\w+\.(s|c|h)", name) and os.path.isfile(path) and not os.path.islink(path):
                texts.update(f"{name}\0".encode() + self.read(name))
        names = (os.path.basename(it) for it in (self.lab.folder, os.path.abspath(self.folder)))
        return "\0".join([self.secret, *names, texts.hexdigest()])

    def run(self, words, bounds=COMPILER):
        self.pasted = shlex.join(["mx" if it == MX else it for it in words])
        return run(words, self.room, bounds)

    def read(self, name):
        path = os.path.join(self.folder, name)
        if os.path.islink(path):
            raise Lost(f"{name} is a link; the file itself is wanted")
        if not os.path.lexists(path):
            raise Lost(f"{name} isn't there")
        if not os.path.isfile(path):
            raise Lost(f"{name} is no file")
        try:
            with open(path, "rb") as it:
                data = it.read(MOST_BYTES + 1)
        except OSError as it:
            raise Lost(f"{name} can't be read: {it.strerror}") from None
        if len(data) > MOST_BYTES:
            raise Lost(f"{name} has more than {MOST_BYTES} bytes")
        return data

    def program(self, name):
        """Makes a program of NAME.s, or of NAME.c if that is what is there: its file in the room. It is tried once."""
        if name not in self.made:
            self.pasted = None
            try:
                self.made[name] = self.make(name), self.pasted
            except Lost as it:
                self.made[name] = it, self.pasted
        made, self.pasted = self.made[name]
        if isinstance(made, Lost):
            raise made
        return made

    def make(self, name):
        out = os.path.join(self.room, f"{name}.out")
        if os.path.lexists(os.path.join(self.folder, f"{name}.s")):
            self.write(f"{name}.s", self.read(f"{name}.s"))
            self.run([MX, "as", f"{name}.s", f"{name}.out", "--explain"], self.bounds)
        elif os.path.lexists(os.path.join(self.folder, f"{name}.c")):
            texts = self.texts(name)
            key = hashlib.sha256(repr(sorted(texts.items())).encode()).hexdigest()
            if not self.kit.give(key, out):
                self.make_of(name, texts)
                self.kit.take(key, out)
        else:
            raise Lost(f"neither {name}.s nor {name}.c is there")
        return out

    def write(self, name, data):
        with open(os.path.join(self.room, name), "wb") as it:
            it.write(data)

    def texts(self, name):
        """The texts that a program in C is made of besides the kit: NAME.c, the lab's headers and the student's."""
        texts = {}
        for it in self.lab.headers():
            with open(it, "rb") as file:
                texts[os.path.basename(it)] = file.read()
        given = {*texts, *HEADERS}
        headers = [it for it in sorted(os.listdir(self.folder)) if re.fullmatch(r"\w+\.h", it) and it not in given]
        if len(headers) > MOST_HEADERS:
            raise Lost(f"there are {len(headers)} headers; {MOST_HEADERS} are allowed")
        return texts | {it: self.read(it) for it in [f"{name}.c", *headers]}

    def make_of(self, name, texts):
        """Makes a program in C of its texts."""
        system = self.kit.copy(self.room)
        self.copy_texts(texts)
        self.refuse(name, system)
        self.compile(name)
        self.link(name)

    def copy_texts(self, texts):
        """Copies texts into the room, if each of the student's has only what may be there."""
        for it in self.lab.headers():
            shutil.copy(it, self.room)
        given = {*map(os.path.basename, self.lab.headers())}
        for it in (it for it in texts if it not in given):
            text = sources.refuse_characters(it, texts[it].decode("utf-8", "replace"))
            self.write("veiled.c", sources.veiled(sources.joined(text)).encode())
            bare = run(["gcc", "-fpreprocessed", "-std=c11", "-w", "-E", "-P", "veiled.c"], self.room, COMPILER)
            os.remove(os.path.join(self.room, "veiled.c"))
            sources.refuse_words(it, sources.unveiled(bare))
            self.write(it, text.encode())

    def refuse(self, name, system):
        """Refuses a text that reads another file or isn't C, as gcc sees it."""
        made = self.run(["gcc", "@kit/flags", "-E", "-MD", "-MF", f"{name}.files", f"{name}.c"])
        self.pasted = None  # what is refused now no command shows
        with open(os.path.join(self.room, f"{name}.files"), encoding="utf-8", errors="replace") as it:
            sources.refuse_files(f"{name}.c", it.read(), system)
        sources.refuse_made(f"{name}.c", made, system)

    def compile(self, name):
        self.run(["gcc", "@kit/flags", "-c", "-o", f"{name}.o", f"{name}.c"])

    def link(self, name):
        """Links a program twice: for its symbols, and then with them."""
        objects = ["kit/start.o", f"{name}.o", *(f"kit/{it}.o" for it in LIBRARY)]
        self.run(["ld", *LDFLAGS, *PLACE, "-o", f"{name}.elf", *objects])
        names = self.run(["nm", "-n", f"{name}.elf"])
        symbols = run(["awk", "-f", "kit/symbols.awk"], self.room, COMPILER, given=names)
        self.write(f"{name}.symbols.s", symbols.encode())
        self.run(["gcc", "-m32", "-c", "-o", f"{name}.symbols.o", f"{name}.symbols.s"])
        self.run(["ld", *LDFLAGS, "--oformat", "binary", *PLACE, "-o", f"{name}.out", f"{name}.symbols.o", *objects])
