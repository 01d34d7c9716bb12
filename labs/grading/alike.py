"""How alike the texts of two students are: by the words of their programs, whatever the names in them are."""
import collections
import itertools
import os
import re

WORD = re.compile(r'[A-Za-z_]\w*|0[xX]\w+|\d\w*|"(?:\\.|[^"\\\n])*"|\'(?:\\.|[^\'\\\n])*\'|[-+*/%&|^<>=!]=|<<|>>|&&|\|\||->|\+\+|--|\S')
C_COMMENT = re.compile(r"/\*.*?\*/|//[^\n]*", re.S)
S_COMMENT = re.compile(r";[^\n]*")
KEPT = set("""break case char const continue default do else enum for goto if int long return short sizeof static struct
    switch typedef union unsigned void while""".split())
RUN = 6  # words that stand together
LIKELY = 0.8


def words_of(name, text):
    """The words of a text, with one word for any name, any number and any text in quotes. An assembler's instructions
    stay."""
    is_c = name.endswith(".c")
    for word in WORD.findall((C_COMMENT if is_c else S_COMMENT).sub(" ", text)):
        if word[0] in "\"'":
            yield "text"
        elif word[0].isdigit():
            yield "number"
        elif (word[0].isalpha() or word[0] == "_") and is_c and word not in KEPT:
            yield "name"
        else:
            yield word


def runs(lab, folder):
    """Of the lab's programs in a folder each run of some words, with its count."""
    found = collections.Counter()
    for name in lab.programs:
        for file in (f"{name}.s", f"{name}.c"):
            path = os.path.join(folder, file)
            if os.path.isfile(path) and not os.path.islink(path):
                with open(path, encoding="utf-8", errors="replace") as it:
                    words = list(words_of(file, it.read(1 << 20)))
                found.update(tuple(words[i:i + RUN]) for i in range(len(words) - RUN + 1))
                break
    return found


def alike(lab, folders):
    """Each pair of folders that are alike, the most alike first. What was handed out doesn't count."""
    given = runs(lab, os.path.join(lab.folder, "start"))
    texts = {it: runs(lab, it) - given for it in folders}
    pairs = []
    for one, other in itertools.combinations(folders, 2):
        all_runs = texts[one].total() + texts[other].total()
        likeness = 2 * (texts[one] & texts[other]).total() / all_runs if all_runs else 0
        if likeness > LIKELY:
            pairs.append((likeness, one, other))
    return sorted(pairs, reverse=True)
