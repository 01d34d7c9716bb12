"""Wrong edits: a file has lines `file: PATH`, and then pairs of lines `old: TEXT` and `new: TEXT`. Each old text is in
its file just once, as the pairs before have made it."""
import os


def read_edit(path):
    """An edit's pairs of texts, each with its file, and what its other lines say last, by their first words."""
    pairs, said = [], {}
    with open(path, encoding="utf-8") as lines:
        for line in lines:
            key, _, text = line.rstrip("\n").partition(": ")
            if key == "new":
                pairs.append((said["file"], said["old"], text))
            else:
                said[key] = text
    return pairs, said


def missing_text(folder, pairs):
    """The first text of an edit that isn't in its file of this folder just once, with the file; or None."""
    return edited(folder, pairs)[1]


def make_edit(folder, pairs):
    """Makes an edit. False if a text isn't there just once; then nothing is changed."""
    texts, lost = edited(folder, pairs)
    if lost:
        return False
    for name, text in texts.items():
        with open(os.path.join(folder, name), "w", encoding="utf-8") as file:
            file.write(text)
    return True


def edited(folder, pairs):
    """The files' texts after an edit, and the first pair's file and text that stopped it, or None."""
    texts = {}
    for name, old, new in pairs:
        path = os.path.join(folder, name)
        if name not in texts:
            if not os.path.isfile(path):
                return texts, (name, old)
            with open(path, encoding="utf-8") as file:
                texts[name] = file.read()
        if texts[name].count(old) != 1:
            return texts, (name, old)
        texts[name] = texts[name].replace(old, new)
    return texts, None
