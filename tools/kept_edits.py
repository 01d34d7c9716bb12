"""What earlier runs on this machine found of wrong edits. It is kept beside the kit, outside every checkout, by the sums
of all that a check read: the kit, the crate's texts, the libraries below it as they were built, the edit, and the
scripts that judge. What has another sum counts for nothing."""
import hashlib
import json
import os
import stat
import tempfile
import time

import kit_functions

TOP = os.path.dirname(os.path.dirname(os.path.abspath(__file__)))
JUDGES = ("checks/proofs/try_edits", *(f"tools/{it}" for it in ("edits.py", "functions.py", "assumed_proofs.py", "check_over")))
PARTS = ("src", "specs", "proofs")
# What wasn't asked for in so many seconds is removed.
FORGOTTEN = 90 * 24 * 3600


def sum_of_files(folder):
    """The sum of all files below a folder, with their names."""
    found = hashlib.sha256()
    for at, folders, names in os.walk(folder, followlinks=True):
        folders.sort()
        for name in sorted(names):
            path = os.path.join(at, name)
            found.update(os.path.relpath(path, folder).encode() + b"\0")
            with open(path, "rb") as file:
                found.update(hashlib.sha256(file.read()).digest())
    return found.hexdigest()


class KeptEdits:
    """The answers that are kept, for the crates of a clone with the libraries below them."""

    def __init__(self, below, top, is_anew):
        """`below` gives each crate with all those that it stands on."""
        self.top, self.below, self.sums, self.is_anew = top, below, {}, is_anew
        self.kit, self.folder = kit_sum_and_place()
        texts = [open(os.path.join(TOP, it), "rb").read() for it in JUDGES]
        self.judges = hashlib.sha256(b"\0".join(texts)).hexdigest()

    def sum_of(self, *path):
        """The sum of a folder of the clone, read once."""
        if path not in self.sums:
            self.sums[path] = sum_of_files(os.path.join(self.top, "crates", *path))
        return self.sums[path]

    def key(self, crate, edit):
        """The sum of all that a check of this edit reads."""
        own = [self.sum_of(crate, part) for part in PARTS]
        libraries = [(it, self.sum_of(it, "out", "rlib", f"{it}.rlib")) for it in sorted(self.below[crate]) if it != crate]
        with open(edit, "rb") as text:
            whole = (self.kit, self.judges, crate, own, libraries, text.read())
        return hashlib.sha256(repr(whole).encode()).hexdigest()

    def refusal(self, key):
        """What an earlier run said as it refused this, or None."""
        if not self.folder or self.is_anew:
            return None
        path = os.path.join(self.folder, key)
        try:
            with open(path, encoding="utf-8") as file:
                found = json.load(file)
            os.utime(path)
            return found["refusal"] if found["key"] == key and isinstance(found["refusal"], str) else None
        except (OSError, ValueError, KeyError, TypeError):
            return None

    def keep(self, key, refusal):
        """Keeps what refused it."""
        if not self.folder:
            return
        try:
            with tempfile.NamedTemporaryFile("w", dir=self.folder, delete=False, encoding="utf-8") as file:
                json.dump({"key": key, "refusal": refusal}, file)
            os.replace(file.name, os.path.join(self.folder, key))
        except OSError:
            pass


def kit_sum_and_place():
    """The kit's own sum of itself, and the folder beside what it keeps; two times None where it has none, or it isn't ours."""
    kit = kit_functions.load_script(kit_functions.kit_file("rt"), "rt_command")
    if not hasattr(kit, "kit_sum") or not hasattr(kit, "STORE"):
        return None, None
    folder = os.path.join(os.path.dirname(kit.STORE), "mx-kept-edits")
    try:
        os.makedirs(folder, 0o700, exist_ok=True)
        found = os.lstat(folder)
        if not stat.S_ISDIR(found.st_mode) or found.st_uid != os.geteuid():
            return None, None
        forget_old(folder)
    except OSError:
        return None, None
    return kit.kit_sum(), folder


def forget_old(folder):
    """Removes what nobody asked for in a long time."""
    for name in os.listdir(folder):
        path = os.path.join(folder, name)
        if time.time() - os.stat(path).st_mtime > FORGOTTEN:
            os.remove(path)
