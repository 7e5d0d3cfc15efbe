"""Keeps the files of a call: run files, certificates, and the text of Boogie that they belong to."""
import os
import re

from .files import name_of, shown_path


class Keeper:
    """Writes files into a folder. Their names begin with that of the file that they belong to, as one word."""

    def __init__(self, folder):
        self.folder, self.stems, self.begun = folder, {}, set()

    def begin(self, given):
        """The path that the names of the kept files of a file begin with. Its text of Boogie is kept when it is first asked for."""
        stem = os.path.join(self.folder, self.stem(name_of(given.path)))
        if stem not in self.begun and given.text_file is not None:
            self.begun.add(stem)
            with open(given.text_file, "rb") as text, open(f"{stem}.text.bpl", "wb") as into:
                into.write(text.read())
        return stem

    def path_of_certificates(self, given):
        """Where the certificates of all units of a file are kept."""
        return f"{self.begin(given)}.cert"

    def error(self, given, unit, error):
        """Keeps the runs of an error."""
        stem = f"{self.begin(given)}.{unit.name}"
        for it in error.labels:
            name = f"{stem}.{re.sub(r'[: ]', '-', it.label)}"
            for ending, text in ((".run", it.run), (".brun", it.boogie_run)):
                if text:
                    self.write(name + ending, text)

    def write(self, path, text):
        with open(path, "w", encoding="utf-8") as into:
            into.write(text)

    def stem(self, path):
        """What the names of the kept files of a file begin with: no dot, and where another file has the same a number behind it."""
        plain = re.sub(r"[^\w.-]", "_", shown_path(os.path.normpath(path))).lstrip(".") or "file"
        found, number = plain, 1
        while self.stems.setdefault(found, path) != path:
            number += 1
            found = f"{plain}-{number}"
        return found
