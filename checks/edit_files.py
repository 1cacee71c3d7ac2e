"""The wrong bodies of the crates: the files *.edit of three folders beside src/.

It is what checks/texts and checks/wrong_bodies read.
"""
# Those that the kit tries, those that checks/wrong_bodies tries in the gate, and the others.
MUST_FAIL, GATE, LONG = "must-fail", "wrong-bodies", "more-wrong-bodies"


class Edit:
    """The function that changes, where a line 'fn: NAME' says so, and the changes.

    A change is the file that the last line 'file: FILE' named, a text of it, and the text in its
    place: the lines 'old: TEXT' and 'new: TEXT'. No other line says anything.
    """

    def __init__(self, path):
        self.path, self.kind = path, path.parent.name
        self.name = f"{path.parents[1].name}/{path.stem}"
        self.function, self.changes, file = None, [], None
        for line in path.read_text().splitlines():
            word, _, text = line.partition(": ")
            if word == "fn":
                self.function = text
            elif word == "file":
                file = text.strip()
            elif word == "old":
                self.changes.append((file, text, None))
            elif word == "new" and self.changes:
                self.changes[-1] = (*self.changes[-1][:2], text)

    def write(self, crate):
        """Makes the changes in a copy of the crate."""
        for change in self.changes:
            if fault := misfit(crate, change):
                raise ValueError(f"{self.name}: {fault}")
            file, old, new = change
            (crate / file).write_text((crate / file).read_text().replace(old, new))


def misfit(crate, change):
    """What keeps the change from being made in the crate, if anything does."""
    file, old, new = change
    if file is None:
        return f"no line file: stands above: {old}"
    if new is None:
        return f"no text is to stand in the place of: {old}"
    if new == old:
        return f"the text in its place is the same: {old}"
    found = (crate / file).read_text().count(old) if (crate / file).exists() else 0
    return None if found == 1 else f"its text stands {found} times in {file}: {old}"
