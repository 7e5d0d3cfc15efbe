"""The runs that earlier calls found of units, so that they are not searched for again.

Nothing of it is trusted. A run counts where the program fails on it at the label; what does not is searched for, and so is all of which
nothing is kept. So what somebody else wrote there does no harm but to take time. A unit is known by the text of its procedure without
places, and by the programs.

Each entry is a file of its own, which is written beside its place and then renamed. There is room for so many bytes in each of the
folders; what was not used for the longest time goes first."""
import hashlib
import json
import os
import re
import tempfile
import time
import zlib
from typing import Dict, List, NamedTuple

FOLDERS = 64
ROOM = 2 << 20      # bytes of entries in a folder
LARGEST = 32 << 20  # bytes of an entry that is unpacked
STALE = 3600        # seconds after which a file that was not renamed is nobody's
FORM = "3"          # of an entry, of what it is known by, and of how runs are chosen
LABEL = re.compile(r'(?<=\{:msg ")(\d+:\d+) (\d+:\d+)(?= \w+"\})')
OPENING, CHOICE, FILLING = ("var", "heap", "content"), ("pick", "value", "amount", "fresh", "state"), ("heap", "content")
OF_BOOGIE = ("var", "entries", "at", "pick", "value")
PLAIN = re.compile(r"[ -~]*")


class KnownRun(NamedTuple):
    """A run that failed at a label: its choices (of Boogie the whole text as one), whether it was made small, whether it passes another
    label that fails, and whether it was told beside one of the same access."""
    choices: List[List[str]]
    is_small: bool
    is_behind: bool
    is_beside: bool


class Places:
    """The places in the labels of a text, and the text with their numbers in place of them: it stays when lines above it come or go."""

    def __init__(self, text):
        self.numbers: Dict[str, int] = {}
        self.text = LABEL.sub(lambda it: f"{self.number(it[1])} {self.number(it[2])}", text)
        self.places = list(self.numbers)

    def number(self, place):
        return self.numbers.setdefault(place, len(self.numbers))

    def of_label(self, label):
        """A label with numbers for its places."""
        at, part, kind = label.split()
        return f"{self.numbers[at]} {self.numbers[part]} {kind}"

    def to_label(self, label):
        """A label with the places that its numbers stand for."""
        at, part, kind = label.split()
        return f"{self.places[int(at)]} {self.places[int(part)]} {kind}"


class Cache:
    """The entries below a folder that belong to these programs. Without a folder nothing is known and nothing is kept."""

    def __init__(self, folder=None, programs=""):
        self.folder, self.programs = folder, programs

    def path(self, places):
        name = hashlib.sha256("\n".join([FORM, self.programs, places.text]).encode()).hexdigest()
        return os.path.join(self.folder, f"{int(name[:8], 16) % FOLDERS:02}", name)

    def known(self, text) -> Dict[str, KnownRun]:
        """The runs that are known of the unit with this text of its procedure, by their labels, in the order in which they were told.
        What cannot be read is not known."""
        if self.folder is None:
            return {}
        places = Places(text)
        path = self.path(places)
        try:
            with open(path, "rb") as it:
                found = read(it.read(ROOM), places)
            os.utime(path)
            return found
        except (OSError, ValueError, LookupError, TypeError, AttributeError, RecursionError, zlib.error):
            return {}

    def keep(self, text, runs: Dict[str, KnownRun]):
        """Keeps the runs that were found of a unit. Where that cannot be written it is done without."""
        if self.folder is None or not runs:
            return
        places = Places(text)
        path, data = self.path(places), written(runs, places)
        if len(data) > ROOM:
            return
        try:
            os.makedirs(os.path.dirname(path), mode=0o700, exist_ok=True)
            replace(path, data)
            make_room(os.path.dirname(path))
        except OSError:
            pass


def written(runs, places):
    """The bytes of an entry."""
    return zlib.compress(json.dumps([[places.of_label(label), *it] for label, it in runs.items()]).encode())


def read(data, places) -> Dict[str, KnownRun]:
    """What the bytes of an entry say. Whatever they are, it has the form that is expected, or it fails."""
    unpacked = zlib.decompressobj()
    text = unpacked.decompress(data, LARGEST)
    if not unpacked.eof:
        raise ValueError("no whole entry")
    runs = {}
    for label, choices, *how in json.loads(text):
        lines = [line for choice in choices for line in choice]
        is_small, is_behind, is_beside = [it is True for it in how]
        runs[places.to_label(label)] = KnownRun(grouped(lines), is_small, is_behind, is_beside)
    return runs


def grouped(lines):
    """The lines of a run file, in one list for the opening and one for each choice. Others than such lines fail."""
    if not all(isinstance(it, str) and PLAIN.fullmatch(it) for it in lines):
        raise ValueError("no line of a run file")
    if lines[0].startswith("boogie run ") and all(it.split()[:1] and it.split()[0] in OF_BOOGIE for it in lines[1:]):
        return [lines]
    if lines[0] != "viper run":
        raise ValueError("no run file")
    found = [lines[:1]]
    for line in lines[1:]:
        word = line.split()[0]
        if word in CHOICE:
            found.append([line])
        elif word in (OPENING if len(found) == 1 else FILLING if found[-1][0].split() == ["state"] else ()):
            found[-1].append(line)
        else:
            raise ValueError("no line of a run file")
    return found


def replace(path, data):
    """Writes a file, whole or not at all, whoever else writes it."""
    handle, part = tempfile.mkstemp(prefix=".", dir=os.path.dirname(path))
    try:
        with open(handle, "wb") as it:
            it.write(data)
        os.rename(part, path)
    except OSError:
        os.unlink(part)
        raise


def make_room(folder):
    """Removes what was not used for the longest time, as far as there is too much, and what a call left that was ended."""
    found, old = [], time.time() - STALE
    with os.scandir(folder) as entries:
        for it in entries:
            state = it.stat(follow_symlinks=False)
            if not it.name.startswith("."):
                found.append((state.st_mtime, state.st_size, it.path))
            elif state.st_mtime < old:
                remove(it.path)
    left = sum([size for _, size, _ in found]) - ROOM
    for _, size, path in sorted(found):
        if left <= 0:
            return
        remove(path)
        left -= size


def remove(path):
    try:
        os.unlink(path)
    except FileNotFoundError:   # another process was first
        pass


def place():
    """Where entries are kept, as other programs keep theirs."""
    named = os.environ.get("XDG_CACHE_HOME", "")
    base = named if os.path.isabs(named) else os.path.join(os.path.expanduser("~"), ".cache")
    return os.path.join(base, "remduska", "units")


def opened(paths) -> Cache:
    """The cache for the programs at these paths."""
    whole = hashlib.sha256()
    for path in (paths.remduska, paths.prove):
        with open(path, "rb") as it:
            whole.update(it.read())
    return Cache(place(), whole.hexdigest())
