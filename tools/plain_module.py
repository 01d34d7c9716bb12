"""Takes out of a module of LLVM, as the kit's trial makes it, what only its checks need.

The trial's functions are those of a proved program, and beside them compute what a check asks for: whether an address
is aligned, say. Once the checks' own calls are gone, nobody uses these numbers. What nobody used before stays: it is in
a proved program too. What is left is, function by function, what the kit hands to the compiler for a proved program.
"""
import re

NAME = r'%(?:[\w.$-]+|"[^"]+")'
LABEL = r'([\w.$-]+|"[^"]+")'
NAMES = re.compile(NAME)
CHECK = re.compile(r'call void @"rattle-(?:llvm-checks|try)')
# The trial fills a new local, so that what is read before it is written is seen.
FILL = re.compile(r"call void @llvm\.memset\.p0\.i64\(ptr %\w+, i8 -86,")
# An instruction that does nothing but compute, and a local that isn't an array.
COMPUTES = re.compile(
    rf"  ({NAME}) = (?:getelementptr|load|icmp|zext|sext|trunc|and|or|xor|sub|add|mul|shl|lshr|ashr|ptrtoaddr|ptrtoint"
    r"|inttoptr|alloca (?!\[)|select|udiv|urem|extractvalue|freeze)\b"
)
LOCAL = re.compile(rf"  ({NAME}) = alloca (?!\[)")
STORE = re.compile(rf"  store (?:\S+) ({NAME}|\S+), ptr ({NAME}), align")
BLOCK = re.compile(rf"{LABEL}:")
JUMP = re.compile(rf"  br label %{LABEL}$")
CHOICE = re.compile(rf"  br i1 \S+, label %{LABEL}, label %{LABEL}$")
TARGETS = re.compile(rf"label %{LABEL}")


def uses(lines):
    """How often each name is used."""
    found = {}
    for line in lines:
        names = NAMES.findall(line)
        for name in names[1:] if re.match(rf"  {NAME} = ", line) else names:
            found[name] = found.get(name, 0) + 1
    return found


def unused(lines):
    """The names of numbers that nobody uses, and of locals that are only written."""
    used, stores = uses(lines), {}
    for store in filter(None, map(STORE.match, lines)):
        stores[store[2]] = stores.get(store[2], 0) + 1
    numbers = {it[1] for it in map(COMPUTES.match, lines) if it and it[1] not in used}
    return numbers | {it[1] for it in map(LOCAL.match, lines) if it and used.get(it[1], 0) == stores.get(it[1], 0)}


def without(lines, names):
    """The lines that neither compute one of these numbers nor write one of these locals."""
    for line in lines:
        computes, store = COMPUTES.match(line), STORE.match(line)
        if not (computes and computes[1] in names or store and store[2] in names):
            yield line


def blocks_of(lines):
    """The blocks by label, in order; each begins with its label's line."""
    found, label = {"": []}, ""
    for line in lines:
        begun = BLOCK.match(line)
        if begun:
            label = begun[1]
            found[label] = []
        if line.strip():
            found[label].append(line)
    return found


def meetings(blocks):
    """Where two ways from a choice meet that do nothing, by the label of the block that ends in the choice."""
    entries, found = {}, {}
    for block in blocks.values():
        for target in TARGETS.findall("".join(block)):
            entries[target] = entries.get(target, 0) + 1
    for label, block in blocks.items():
        choice = CHOICE.match(block[-1].rstrip("\n")) if block else None
        if not choice or choice[1] == choice[2] or entries[choice[1]] > 1 or entries[choice[2]] > 1:
            continue
        ways = [JUMP.match(blocks[it][1].rstrip("\n")) for it in choice.groups() if len(blocks[it]) == 2]
        meet = ways[0] and ways[0][1] if ways else None
        is_one = len(ways) == 2 and ways[1] and ways[1][1] == meet
        if is_one and entries[meet] == 2 and " = phi " not in "".join(blocks[meet]):
            found[label] = (*choice.groups(), meet)
    return found


def without_choices(lines, own):
    """The lines without choices whose two ways do nothing and meet: there a check stood. Those in `own` stay."""
    blocks = blocks_of(lines)
    found = {label: it for label, it in meetings(blocks).items() if it[2] not in own}
    for label in reversed(found):
        one, other, meet = found[label]
        blocks[label][-1:] = blocks[meet][1:]
        blocks[one], blocks[other], blocks[meet] = [], [], []
    return [line for block in blocks.values() for line in block]


def plain_function(lines):
    """A function's lines, the first and the last with them."""
    body = [it for it in lines[1:-1] if it.strip() and not it.startswith("  uselistorder") and not FILL.search(it)]
    never_touched = {it[1] for it in map(LOCAL.match, body) if it} - uses(body).keys()
    own_names, own_meetings = unused(body) - never_touched, {it[2] for it in meetings(blocks_of(body)).values()}
    body, before = [line for line in body if not CHECK.search(line)], None
    while len(body) != before:
        before = len(body)
        body = without_choices(list(without(body, unused(body) - own_names)), own_meetings)
    return [lines[0], *body, lines[-1]]


def plain_module(lines):
    """A module's lines. The order of uses is told only of names that are used as often as it says."""
    found, function = [], None
    for line in lines:
        if line.startswith("define"):
            function = [line]
        elif function:
            function.append(line)
            if line.startswith("}"):
                found += plain_function(function)
                function = None
        else:
            found.append(line)
    told = re.compile(r'uselistorder \S+ (@(?:"[^"]+"|[\w.$-]+)), \{([^}]*)\}')
    counts = {}
    for line in found:
        if not line.startswith("uselistorder"):
            for name in re.findall(r'@(?:"[^"]+"|[\w.$-]+)', line):
                counts[name] = counts.get(name, 0) + 1
    wrong = {line for line in found for it in [told.match(line)] if it and it[2].count(",") + 2 != counts.get(it[1])}
    return [line for line in found if line not in wrong]
