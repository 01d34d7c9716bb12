"""A machine of services of which some answer and others ask, as texts for the assembler and for a configuration."""
import os
import subprocess

# What each text begins with: a message's buffer, and two numbers.
HEAD = """.sep
.data
buf:    .space 36
whom:   .data4 0
left:   .data4 0
.text
"""

# RECEIVE from anybody, then SEND to who it was, in a loop.
ANSWERS = HEAD + """
next:   mov ecx, 2
        mov eax, 31438
        mov ebx, buf
        int 33
        mov eax, [buf]
        mov ecx, 1
        int 33
        jmp next
"""

# The same, but divides by zero at its fifth question.
FAULTS = HEAD + """
next:   mov ecx, 2
        mov eax, 31438
        mov ebx, buf
        int 33
        add dword [left], 1
        cmp dword [left], 5
        jz broken
        mov eax, [buf]
        mov ecx, 1
        int 33
        jmp next
broken: mov ecx, 0
        mov edx, 0
        div ecx
"""

# Parts of texts: who stands in a slot, an alarm that rings at the next tick, and EXIT.
WHO = """
        mov dword [buf+4], 0x607
        mov dword [buf+8], SLOT
        mov ecx, 3
        mov eax, -2
        int 33
        mov eax, [buf+8]
        mov [whom], eax
"""
ALARM = """
        mov dword [buf+4], 0x602
        mov dword [buf+8], 1
        mov ecx, 3
        mov eax, -2
        int 33
        mov ecx, 2
        mov eax, -3
        int 33
"""
EXIT = """
        mov dword [buf+4], 0x600
        mov ecx, 3
        mov eax, -2
        int 33
"""

# Asks the kernel who stands in a slot, waits for an alarm, and kills who it was, four times.
KILLS = f"""{HEAD}
        mov dword [left], 4
        mov ebx, buf
again:
{WHO}{ALARM}
        mov dword [buf+4], 0x606
        mov eax, [whom]
        mov [buf+8], eax
        mov ecx, 3
        mov eax, -2
        int 33
        sub dword [left], 1
        jnz again
{EXIT}"""

# Asks the kernel who stands in a slot, and asks that one, forty times. If it is dead it waits for an alarm.
LOOKS_UP = f"""{HEAD}
        mov dword [left], 40
        mov ebx, buf
who:
{WHO}
        cmp dword [buf+4], 0
        jnz dead
ask:    mov ecx, 3
        mov eax, [whom]
        int 33
        cmp eax, 0
        jnz dead
        sub dword [left], 1
        jnz ask
{EXIT}
dead:
{ALARM}
        jmp who
"""


def asks(partner=0, times=None):
    """A text that makes SENDREC to an endpoint, in a loop without an end, or so many times before it exits."""
    loop = f"next:   mov ecx, 3\n        mov eax, {partner}\n        mov ebx, buf\n        int 33\n"
    if times is None:
        return HEAD + loop + "        jmp next\n"
    return f"{HEAD}        mov dword [left], {times}\n{loop}        sub dword [left], 1\n        jnz next\n{EXIT}"


def service(name, file=None, level=7, best=None, quantum=60_000, restarts=0, calls="1"):
    """A line of a configuration, for a service that may send to all."""
    masks = f"traps 1e send ffffffff calls {calls}"
    levels = f"level {level} best {level if best is None else best}"
    return f"service {name} {file or f'{name}.out'} {masks} {levels} quantum {quantum} restarts {restarts}\n"


def configuration(services, cpus=1, log=1 << 20):
    return f"cpus {cpus}\nlog {log}\n{''.join(services)}"


def write(folder, name, text):
    with open(os.path.join(folder, name), "w", encoding="ascii") as file:
        file.write(text)


def assemble(program, folder, name, text):
    """Writes NAME.s, and assembles it to NAME.out."""
    write(folder, f"{name}.s", text)
    subprocess.run([program, "as", f"{name}.s", f"{name}.out"], cwd=folder, check=True)


def make_pair(program, folder, config="config", restarts=0):
    """Makes one that answers, one that asks it without an end, and their configuration for one processor."""
    assemble(program, folder, "answers", ANSWERS)
    assemble(program, folder, "asks", asks())
    pair = [service("answers", level=4, restarts=restarts), service("asks", level=7, restarts=restarts)]
    write(folder, config, configuration(pair))
