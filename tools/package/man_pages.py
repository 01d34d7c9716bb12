"""Pages for man: one of the whole program, and one of each subcommand."""
import re
import textwrap

STATUSES = (
    ("0", "Done, also if the guest program faults, and if a line of a script is refused."),
    ("1", "A file or a text is refused, or an event of a history."),
    ("2", "A mistake on the command line."),
    ("3", "A file or standard output can't be read or written."),
    ("4", "No memory."),
)


def escaped(text):
    text = text.replace("\\", "\\e").replace("-", "\\-").replace("'", "\\(aq").replace("`", "\\(ga")
    return re.sub(r"^\.", r"\\&.", text, flags=re.M)


def wrapped(text):
    """Lines of a paragraph, none too long for a checker of pages, each sentence on a line of its own."""
    sentences = re.split(r"(?<=[.:;]) (?=\S)", text)
    return [
        line
        for it in sentences
        for line in textwrap.fill(escaped(it), 78, break_long_words=False, break_on_hyphens=False).split("\n")
    ]


def paragraphs(text):
    """A text of help: what is to be typed, and what is printed, stays as it is."""
    found = []
    for block in re.split(r"\n\s*\n", text.strip("\n")):
        lines = block.split("\n")
        # Sentences begin with a capital letter; what is to be typed, and programs, don't.
        if re.match(r"[A-Z][A-Za-z]*:? ", lines[0]):
            found += [".PP", *wrapped(" ".join(lines))]
        else:
            found += [".PP", ".RS 4", ".nf", *map(escaped, lines), ".fi", ".RE"]
    return found


def synopsis(subcommand):
    """The line that shows a subcommand's words."""
    words = re.sub(r"<(\w+)>", r"\\fI\1\\fP", escaped(subcommand.words))
    flags = ""
    for it in subcommand.options:
        if it.name != "--help":
            flags += f" [{escaped(it.name)}" + (f" \\fI{it.value}\\fP]" if it.value else "]")
    return f"\\fBmx {subcommand.name}\\fP {words}{flags}"


def head(title, name, about, version, date):
    lines = wrapped(f"{name} - {about[0].lower()}{about[1:]}")
    return [f'.TH {title} 1 "{date}" "mx {version}" "mx"', ".SH NAME", *lines]


def words_of(subcommand):
    """A subcommand's arguments and options, with what each is."""
    lines = []
    for name, about in subcommand.arguments:
        lines += [".TP", f"\\fI{name}\\fP", *wrapped(about + ".")]
    for it in subcommand.options:
        value = f" \\fI{it.value}\\fP" if it.value else ""
        lines += [".TP", f"\\fB{escaped(it.name)}\\fP{value}", *wrapped(it.about + ".")]
    return lines


def finished(lines):
    return "\n".join(it for it in lines if it) + "\n"


def page_of_subcommand(it, version, date):
    lines = head(f"MX\\-{it.name.upper()}", f"mx-{it.name}", it.about, version, date)
    lines += [".SH SYNOPSIS", ".nf", synopsis(it), ".fi", ".SH DESCRIPTION", *wrapped(it.about + "."), *words_of(it)]
    more, _, status = it.more.partition("\nStatus: ")
    lines += [".SH EXAMPLES", *paragraphs(more)[1:]]
    lines += [".SH EXIT STATUS", *wrapped(" ".join(status.partition(" Formats:")[0].split("\n")))]
    return finished([*lines, ".SH SEE ALSO", ".BR mx (1)"])


def page_of_program(helps, about, version, date):
    lines = head("MX", "mx", about, version, date)
    lines += [".SH SYNOPSIS", ".nf", *map(synopsis, helps), ".fi", ".SH DESCRIPTION"]
    lines += ["\\fBmx\\fP runs the processes of MINIX 3.1 on emulated 80386 processors.", "Its programs are a.out files, which"]
    lines += ["\\fBmx as\\fP makes of texts; its machines are configurations,", "driven by scripts or by threads."]
    lines += ["What happened is a history, which can be replayed, traced and drawn.", ".SH COMMANDS"]
    for it in helps:
        lines += [".TP", f".BR mx\\-{it.name} (1)", *wrapped(it.about + ".")]
    lines += [".TP", "\\fBmx new\\fP \\fINAME\\fP [\\-\\-c]", "Makes a folder with a driver, a client and their machine,"]
    lines += ["as texts for the assembler or, with \\fB\\-\\-c\\fP, in C.", ".SH EXIT STATUS"]
    for status, meaning in STATUSES:
        lines += [".TP", status, escaped(meaning)]
    lines += [".SH SEE ALSO", "The package's README.md, its tour and its reference."]
    return finished(lines)


def man_pages(helps, about, version, date):
    """The pages by their files' names."""
    pages = {f"mx-{it.name}.1": page_of_subcommand(it, version, date) for it in helps}
    return {"mx.1": page_of_program(helps, about, version, date), **pages}
