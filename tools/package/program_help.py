"""What the program's own help says, from which the pages for man and the completions are made."""
import re
import subprocess

SUBCOMMAND = re.compile(r"^  ([a-z]+)  +(\S.*)$", re.M)


def printed(program, *words):
    """What the program prints, called by the name mx."""
    ran = subprocess.run(["mx", *words], executable=program, capture_output=True, text=True, check=True)
    return ran.stdout


class Option:
    """A word that begins with --, with its value's name, if it has one."""

    def __init__(self, name, value, about):
        self.name, self.value, self.about = name, value, about


class Subcommand:
    """What the help of one subcommand says."""

    def __init__(self, program, name, about):
        self.name, self.about, text = name, about, printed(program, name, "--help")
        self.words = re.search(rf"^Usage: mx {name} (?:\[OPTIONS\] )?(.*)$", text, re.M)[1]
        parts = re.split(r"^(Arguments|Options):\n", text, flags=re.M)
        self.arguments = re.findall(r"^  <(\w+)> +(.*)$", parts[2], re.M)
        options, _, self.more = parts[4].partition("\n\n")
        found = re.findall(r"^ +(?:-h, )?(--[a-z]+)(?: <(\w+)>)? +(.*)$", options, re.M)
        self.options = [Option(*it) for it in found]


def subcommands(program):
    """The subcommands, in the order of the help."""
    return [Subcommand(program, *it) for it in SUBCOMMAND.findall(printed(program, "--help"))]
