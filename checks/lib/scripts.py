"""What the scripts share: where the repository and the program are, and how a script's words are read."""
import argparse
import os
import re

TOP = os.path.dirname(os.path.dirname(os.path.dirname(os.path.abspath(__file__))))
# The proved program, as ./mx --prove and the gate build it.
PROGRAM = os.path.join(TOP, "crates", "mx", "out", "mx")


class Words(argparse.ArgumentParser):
    """Reads the words of a script. `--help` prints the text at the script's head, which says what each word is."""

    def __init__(self, text):
        super().__init__(allow_abbrev=False)
        self.text = text.strip("\n")

    def format_help(self):
        return self.text + "\n"

    def format_usage(self):
        return re.search(r"^usage: .*(?:\n +.*)*", self.text, re.M)[0] + "\n"

    def take_program(self, default=PROGRAM):
        """`--program PROGRAM`, and without it the proved program. Returns this reader."""
        self.add_argument("--program", type=program_at, default=default)
        return self

    def program_alone(self):
        """The program, where a script has no other word."""
        return self.take_program().parse_args().program


def program_at(path):
    """The whole path of a program that is there."""
    if not os.path.isfile(path):
        raise argparse.ArgumentTypeError(f"there is no {path}" + (": ./mx --prove builds it" if path == PROGRAM else ""))
    return os.path.abspath(path)
