"""Histories for the checks of a page: each a name, the folder of its machine, its configuration and its history."""
import collections
import os
import struct
import subprocess

HERE = os.path.dirname(os.path.abspath(__file__))
TOP = os.path.dirname(os.path.dirname(HERE))
MACHINES = os.path.join(TOP, "examples", "machines")
FILES = os.path.join(TOP, "examples", "minixfs")

History = collections.namedtuple("History", "name folder config log")

# Symbols at the address of a fault, of at most eight bytes.
SYMBOLS = b"</script", b"<!--", b"a\n9 0 ta", b'\xe9"\\\x01\x7f\xff', b"'-->]]>&", b"\xe2\x80\xa8<sc"
HLT = b"\xf4"


def program(text, data, symbols):
    """An a.out file of MINIX 3 for the 80386."""
    table = b"".join(name.ljust(8, b"\0") + struct.pack("<I4B", value, kind, 0, 0, 0) for name, value, kind in symbols)
    head = bytes([1, 3, 0x30, 0x10, 32, 0, 0, 0])
    return head + struct.pack("<6I", len(text), len(data), 0, 0, 4096, len(table)) + text + data + table


def hostile(mx, folder):
    """A machine whose symbols are markup, and whose console gets all bytes and a text that is markup (hostile/con.s)."""
    for place, name in enumerate(SYMBOLS):
        with open(os.path.join(folder, f"h{place}.out"), "wb") as file:
            file.write(program(HLT, b"", [(name, 0, 2)]))
    subprocess.run([mx, "as", os.path.join(HERE, "hostile", "con.s"), "con.out"], cwd=folder, check=True)
    terms = "traps 1e send ff calls"
    lines = ["cpus 2", "log 4096"]
    for place in range(len(SYMBOLS)):
        lines.append(f"service h{place} h{place}.out {terms} 0 level 4 best 4 quantum 99 restarts 1")
    lines.append(f"service message con.out {terms} 3f level 5 best 5 quantum 60000 restarts 0")
    with open(os.path.join(folder, "hostile.config"), "w", encoding="ascii") as file:
        file.write("\n".join(lines) + "\n")


def made(mx, room):
    """Makes the histories in a folder by the program. Returns them by their names."""

    def run(folder, *words):
        subprocess.run([mx, *words], cwd=folder, stdout=subprocess.DEVNULL, check=True)

    restart, smp, kills = (os.path.join(MACHINES, it) for it in ("restart", "smp", "kills"))
    logs = {it: os.path.join(room, f"{it}.log") for it in ("smp", "killed", "count", "hostile", "refused")}
    run(smp, "turns", "smp.config", logs["smp"], "--ticks", "40")
    run(FILES, "step", "session.config", "killed.script", "--save", logs["killed"])
    run(kills, "turns", "count.config", logs["count"])
    hostile(mx, room)
    run(room, "turns", "hostile.config", logs["hostile"])
    with open(os.path.join(restart, "restart.log"), encoding="ascii") as file:
        lines = file.read().splitlines()
    # The processor of record 23 takes a process, and can't take another one.
    lines[24:24] = [lines[23]] if lines[23].split()[1] == "take" else ["0 take"]
    with open(logs["refused"], "w", encoding="ascii") as file:
        file.write("\n".join(lines) + "\n")
    every = [
        History("restart", restart, "restart.config", "restart.log"),
        History("smp", smp, "smp.config", logs["smp"]),
        History("killed", FILES, "session.config", logs["killed"]),
        History("count", kills, "count.config", logs["count"]),
        History("hostile", room, "hostile.config", logs["hostile"]),
        History("refused", restart, "restart.config", logs["refused"]),
    ]
    return {it.name: it for it in every}
