"""Proofs that are taken for granted, in a scratch copy of a crate. A check of some functions also proves those that they
call, in the same crate, although only the contracts of these count for it. Here each has no body any more, and its proof is
one hole, the same for all. The check has to pass over holes; what it says of a function then rests on no other's body.

A check prints what to write for a function that the search doesn't prove, and reads all modules again for that. Where nobody
wants to know, the function gets an answer that is refused in any case: then the check only says what isn't proved."""
import os

MODULE = "Assumed"
HOLE = "pub assumed {ℓ} : {A : Type ℓ} → A\nassumed = ?\n"
ANSWERS, PROOF = "Answers.antt", "Proof.antt"
BY_HAND = ANSWERS, "Invariants.antt", PROOF
NO_HELP = "no-help"
REFUSED = f"pub {NO_HELP} {{ℓ}} : {{A : Type ℓ}} → A\n{NO_HELP} = no-such-name\n"
# What antt reads as words of its own is quoted in the name of a module.
RESERVED = {"abbrev", "axiom", "data", "deriving", "do", "elim", "module", "mutual", "open", "package", "record", "unfold"}


def hole_of(crate):
    """How a check names the hole."""
    return f"Rattle.{crate}.proofs.{MODULE}.assumed"


def assume(folder, crate, functions):
    """Assumes the proofs of functions of the crate in this folder, which are given by their files and names."""
    for file in sorted({file for file, _ in functions}):
        drop_bodies(os.path.join(folder, file), [it for (where, _), it in functions.items() if where == file])
    for path, _, _ in functions.values():
        place = os.path.join(folder, "proofs", *path)
        os.makedirs(place, exist_ok=True)
        for name in BY_HAND:
            if os.path.exists(os.path.join(place, name)):
                os.remove(os.path.join(place, name))
        write(os.path.join(place, PROOF), proof_of(crate, path))
    write(os.path.join(folder, "proofs", f"{MODULE}.antt"), HOLE)
    lib = os.path.join(folder, "proofs", "Lib.antt")
    known = open(lib, encoding="utf-8").read() if os.path.exists(lib) else ""
    if f"mod {MODULE}\n" not in known:
        write(lib, f"{known}mod {MODULE}\n")


def drop_help(folder, path):
    """Adds the answer that is refused to those of a function. One whose whole proof is by hand has no answers."""
    place = os.path.join(folder, "proofs", *path)
    if os.path.exists(os.path.join(place, PROOF)):
        return
    os.makedirs(place, exist_ok=True)
    with open(os.path.join(place, ANSWERS), "a", encoding="utf-8") as file:
        file.write(f"\n{REFUSED}")


def without_refused(output):
    """What a check prints, without the errors of these answers."""
    return "".join(line for line in output.splitlines(True) if f"error: `{NO_HELP}`:" not in line)


def drop_bodies(path, functions):
    """Writes a file of source with nothing in these functions' bodies that a check could look at."""
    with open(path, encoding="utf-8") as file:
        text = file.read()
    for _, begin, end in sorted(functions, key=lambda it: -it.begin):
        text = f"{text[:begin]}unreachable!()\n{text[end:]}"
    write(path, text)


def write(path, text):
    with open(path, "w", encoding="utf-8") as file:
        file.write(text)


def proof_of(crate, path):
    """The text of a function's proof that is the hole."""
    module = ".".join(f"«{it}»" if it in RESERVED else it for it in path)
    name = f"{path[-1]}_spec"
    return (
        f"use Rattle.{crate}.proofs.{MODULE}.{{assumed}}\nuse Rattle.{crate}.proofs.{module}.Statement.{{statement}}\n\n"
        f"pub {name} : {{M : Type 1}} → statement M\n{name} = assumed\n"
    )
