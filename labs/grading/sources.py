"""What a student's text in C may have: the course's headers and the machine's instructions, and no other file.

gcc's messages show lines of what it reads, and an assembler can put any file into a program. So before a text is compiled,
gcc says which files it would read and what is left when all macros are replaced. Comments are taken out by gcc too, since
only gcc knows where a text in quotes ends.
"""
import os
import re

from .commands import Lost

TRIGRAPHS = {"??=": "#", "??/": "\\", "??'": "^", "??(": "[", "??)": "]", "??!": "|", "??<": "{", "??>": "}", "??-": "~"}
DIRECTIVES = ("", "include", "define", "undef", "if", "ifdef", "ifndef", "else", "elif", "endif", "error")
KEYWORDS = """auto break case char const continue default do double else enum extern float for goto if inline int long
    register restrict return short signed sizeof static struct switch typedef typeof union unsigned void volatile
    while""".split()
TEXT = r'"(?:\\.|[^"\\\n])*"|\'(?:\\.|[^\'\\\n])*\''
# The compiler's words for what isn't C, and those by which a program knows where or when it is made.
FORBIDDEN = r"""\b(?:(?:__)?asm(?:__)?|__attribute(?:__)?|_Pragma|__has_\w+|__DATE__|__TIME__|__TIMESTAMP__|__BASE_FILE__
    |__INCLUDE_LEVEL__)\b|\#\#|%:%:|\[\s*\[(?=\s*[A-Za-z_])"""
# The one instruction of mx.h, as it is there.
TRAP = ['__asm__', 'volatile', '(', '"int $33"', ':', '"=a"', '(', 'result', ')', ':', '"a"', '(', 'endpoint', ')', ',',
        '"b"', '(', 'm', ')', ',', '"c"', '(', 'call', ')', ':', '"memory"', ')']
TRAP_OF_HEADER = r"\s*".join(map(re.escape, TRAP))


def joined(source):
    """A text after C's first two steps: trigraphs are replaced, and a line that ends in a backslash goes on."""
    for old, new in TRIGRAPHS.items():
        source = source.replace(old, new)
    return re.sub(r"\\[ \t\f\v]*\n", "", source)


def veiled(source):
    """A text of which gcc takes the comments out and does nothing else: it sees no directive in it."""
    return ";\n" + source.replace("%:", "\2").replace("#", "\1")


def unveiled(source):
    return source.replace("\1", "#").replace("\2", "%:")


def refuse_characters(name, source):
    """Refuses what a compiler and a reader may take for different things. Gives the text with plain ends of lines."""
    source = source.replace("\r\n", "\n")
    found = re.search(r"[\x00-\x08\x0b\x0d-\x1f\x7f]", source)
    if found:
        raise Lost(f"{name} has the character 0x{ord(found[0]):02x}, which isn't allowed in a lab")
    return source


def without_texts(source):
    """A text in which each string and character is empty."""
    return re.sub(TEXT, lambda it: it[0][0] * 2, source)


def refuse_words(name, bare):
    """Refuses the words of a text, without its comments, that may hide another file."""
    for line in re.findall(r"(?m)^[ \t]*(?:#|%:)(.*)$", bare):
        refuse_directive(name, line.strip())
    refuse_forbidden(name, bare)


def refuse_directive(name, line):
    word = re.match(r"\w*", line)[0]
    if word not in DIRECTIVES or (not word and line):
        raise Lost(f"{name} has a directive that isn't allowed: #{line[:30]}")
    if word == "include" and not re.fullmatch(r'include\s*("\w+\.h"|<\w+\.h>)', line):
        raise Lost(f"{name} includes what isn't allowed: {line[:60]}")
    defined = re.match(r"define\s+(\w+)(.*)", line)
    # Another meaning of such a word would change what a header of the course says.
    if defined and (defined[1] in KEYWORDS or defined[1].startswith("_")) and not re.fullmatch(r"\s*\d*", defined[2]):
        raise Lost(f"{name} defines `{defined[1]}`, which isn't allowed in a lab")


def refuse_forbidden(name, text):
    found = re.search(FORBIDDEN, without_texts(text), re.X)
    if found:
        raise Lost(f"{name} has `{found[0]}`, which isn't allowed in a lab")


def refuse_files(name, rule, system):
    """Refuses the files that gcc would read (`-MD`), but those of the room, of its kit, and gcc's own headers."""
    for file in rule.replace("\\\n", " ").split(":", 1)[1].split():
        is_own = re.fullmatch(r"(kit/)?\w+\.[ch]", file)
        if not is_own and os.path.dirname(os.path.normpath(file)) != os.path.normpath(system):
            raise Lost(f"{name} includes what isn't allowed: {os.path.basename(file)}")


def refuse_made(name, preprocessed, system):
    """Refuses what is left of a text when gcc has replaced its macros, but for the trap, and for gcc's own headers."""
    others, is_system = [], False
    for line in preprocessed.split("\n"):
        marked = re.match(r'# \d+ "(.*)"', line)
        if marked:
            is_system = marked[1].startswith(system)
        elif line.lstrip().startswith("#pragma"):
            raise Lost(f"{name} has `#pragma`, which isn't allowed in a lab")
        elif not is_system:
            others.append(line)
    refuse_forbidden(name, re.sub(TRAP_OF_HEADER, "", "\n".join(others), count=1))
