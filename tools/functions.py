"""Functions in source texts: which one holds a place, how a check calls it, and where its body is."""
import os
import re
from collections import namedtuple

HEAD = re.compile(r"(\s*)(?:pub(?:\(crate\))? )?(?:const )?fn (\w+)")
HEADS = re.compile(r"^ *(?:pub(?:\([^)]*\))? )?(?:const )?fn \w+", re.M)
ITEM = re.compile(r"(macro_rules!|(pub(\(crate\))? )?(struct|enum|trait|static|const) |\})")
# The path of a function's proof, and where the lines of its body begin and end in its file's text.
Function = namedtuple("Function", "path begin end")
TYPE = re.compile(r"^(?:pub(?:\([^)]*\))? )?(?:struct|enum) (\w+)", re.M)


def function_at(source, at):
    """The function that holds a place, as `name` or `Type::name`, if it isn't in a macro or between items."""
    end = source.find("\n", at)
    lines = source[: len(source) if end < 0 else end].split("\n")
    if not HEAD.match(lines[-1]):
        lines = source[:at].split("\n")
    for number in range(len(lines) - 1, -1, -1):
        head = HEAD.match(lines[number])
        if head:
            return head.group(2) if not head.group(1) else method_name(lines[:number], head.group(2))
        if ITEM.match(lines[number]):
            return None
    return None


def method_name(lines, function):
    """A method's name as a check prints it, by the `impl` above it; of a trait's impl `TypeTrait::name`."""
    for line in reversed(lines):
        head = re.match(r"impl\b(?:<[^>]*>)?\s*(.*)", line)
        if head:
            trait, _, owner = head.group(1).rpartition(" for ")
            owner = re.match(r"(?:\w+::)*(\w+)", owner)
            return f"{owner.group(1)}{trait_words(trait)}::{function}" if owner else None
        if ITEM.match(line):
            return None
    return None


def trait_words(trait):
    """A trait as a method's name has it: `From<io::Error>` is `FromIoError`."""
    name, _, given = trait.partition("<")
    words = re.sub(r"<.*>", "", given[:-1])
    return name.rpartition("::")[2] + "".join(it[:1].upper() + it[1:] for it in re.findall(r"\w+", words))


def module_of(name):
    """A source file's path of modules."""
    path = re.sub(r"^src/|\.rt$", "", name)
    return "" if path in ("lib", "main") else path.replace("/", "::") + "::"


def functions_of(folder):
    """The functions of the crate in a folder, by (file, name). Those are left out whose body isn't there, is empty or is in one
    line with the head, and those that call themselves or are in a cycle of calls: their proofs are at other places."""
    sources, modules, found = sources_of(folder), {}, {}
    for file, source in sources.items():
        for name in TYPE.findall(source):
            modules.setdefault(name, set()).add(module_of(file))
    for file, source in sources.items():
        for head in HEADS.finditer(source):
            name, body = function_at(source, head.end() - 1), body_of(source, head.start())
            if name and body and not is_recursive(source, head, body[1], name.rpartition("::")[2]):
                for module in modules_with(name, file, modules):
                    found[file, name] = Function(tuple(f"{module}{name}".split("::")), *body)
    return found


def body_of(source, start):
    """Where the lines of a body begin and end, of the function whose head begins here, or None. The text is as `rt fmt` lays
    it out: a body ends with a brace as far in as its head, and begins with one, or with a line's last if there is no clause."""
    indent = re.match(" *", source[start:])[0]
    line = source[start : source.find("\n", start)]
    end = source.find(f"\n{indent}}}\n", start) + 1
    empty = source.find(f"\n{indent}{{}}\n", start, end)
    begin = source.find(f"\n{indent}{{\n", start, end)
    begin = begin + len(indent) + 3 if begin >= 0 else source.find("{\n", start, end) + 2
    is_none = line.endswith(("}", ";")) or not end or begin < 2 or 0 <= empty < begin
    return None if is_none else (begin, end)


def modules_with(name, file, modules):
    """The module by which a check names a function of a file, none if that isn't clear. A method's is its type's, and that of
    a trait's method on another crate's type its file's."""
    owner, own = name.rpartition("::")[0], module_of(file)
    if not owner:
        return {own}
    if owner in modules:
        return modules[owner] if len(modules[owner]) == 1 else set()
    of_type = set().union(*(modules[it] for it in modules if owner.startswith(it)))
    return {own} if of_type <= {own} else set()


def is_recursive(source, head, end, name):
    """Whether a function calls itself or says that it is in a cycle of calls."""
    above = source[: head.start()].rpartition("\n\n")[2]
    calls = rf"(?:self\.|Self::|(?<![.:\w])){name}(?:::<[^>]*>)?\("
    return "#[cycle(" in above or re.search(calls, source[head.end() : end]) is not None


def sources_of(folder):
    """The texts of a crate's source files, by their paths."""
    sources = {}
    for at, _, names in os.walk(os.path.join(folder, "src")):
        for name in names:
            if name.endswith(".rt"):
                path = os.path.join(at, name)
                with open(path, encoding="utf-8") as file:
                    sources[os.path.relpath(path, folder)] = file.read()
    return sources
