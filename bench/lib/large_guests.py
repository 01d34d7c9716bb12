"""The large guests of bench/large_guests: their texts, what these print, and programs with a text in them."""
import os
import re
import subprocess

FOLDER = os.path.join(os.path.dirname(os.path.dirname(os.path.abspath(__file__))), "large_guests")
# The guests, each with how the names of its texts end.
ENDINGS = {"lua": ".lua", "duktape": ".js", "sqlite": ".sql"}
# What is before the room for a text in a program, and how much room there is (guest.h).
START, ROOM = b"-- text --\n", 16_384
# More steps than any of the texts takes.
STEPS = 1_000_000_000
CONFIGURATION = """cpus 1
log 100000
service guest {file} traps 1e send 0 calls 11 level 7 best 7 quantum {quantum} restarts 0
"""


def texts(guest):
    """The names of a guest's texts."""
    ending = ENDINGS[guest]
    return sorted(it[: -len(ending)] for it in os.listdir(os.path.join(FOLDER, guest)) if it.endswith(ending))


def text_of(guest, name):
    """The file of a text."""
    return os.path.join(FOLDER, guest, name + ENDINGS[guest])


def printed_of(guest, name):
    """The file with what a text prints."""
    return os.path.join(FOLDER, guest, f"{name}.printed")


def read(path):
    with open(path, "rb") as file:
        return file.read()


def write(path, content):
    with open(path, "wb") as file:
        file.write(content)


def with_text(program, text):
    """A program's file with a text in its room."""
    at = program.index(START) + len(START)
    if len(text) >= ROOM or START in program[at:]:
        raise ValueError("no room for a text")
    return program[:at] + text + bytes(ROOM - len(text)) + program[at + ROOM :]


def sum_of(printed):
    """The sum that a guest makes of what it prints: FNV-1a, 32 bits."""
    found = 2_166_136_261
    for byte in printed:
        found = (found ^ byte) * 16_777_619 & 0xFFFF_FFFF
    return found


def run_one(program, file):
    """EDX at the end of a run by `mx one`, and how many steps it took; or what is printed in place of these."""
    done = subprocess.run([program, "one", file, str(STEPS)], capture_output=True, text=True, check=False)
    found = re.search(r"EDX ([0-9a-f]{8})[\s\S]*^stop trap after (\d+)$", done.stdout, re.M)
    return (int(found[1], 16), int(found[2])) if found else (done.stdout + done.stderr, 0)


def run_service(program, file, quantum=10_000):
    """What a service prints on the console in a run by `mx run`; its configuration and log are beside the file."""
    folder, name = os.path.split(os.path.abspath(file))
    write(os.path.join(folder, "guest.config"), CONFIGURATION.format(file=name, quantum=quantum).encode())
    words = [program, "run", "guest.config", "guest.log"]
    done = subprocess.run(words, cwd=folder, stdout=subprocess.PIPE, stderr=subprocess.STDOUT, check=False)
    found = re.search(rb"^console (\d+)\n", done.stdout, re.M)
    return done.stdout[found.end() : found.end() + int(found[1])] if found else done.stdout


def difference(program, file, printed):
    """What is wrong with a program whose text is to print this, and how many steps `mx one` made."""
    result, steps = run_one(program, file)
    if result != sum_of(printed):
        return f"`mx one`: {result!r}, not {sum_of(printed):08x}", steps
    console = run_service(program, file)
    return (None if console == printed else f"`mx run`: {console[-200:]!r}"), steps
