"""What an installed copy has: its files, and the MANIFEST that says which they are.

The first lines of a MANIFEST begin with `#`: the version, the commit, the kit and whether the programs were proved. Each further line is
the sum of a file and its name below the prefix, so that `sha256sum -c` checks a copy."""
import hashlib
import os
import re
from typing import List, NamedTuple

LIBRARY, PAGES = "lib/remduska", "share/remduska"
MANIFEST = f"{LIBRARY}/MANIFEST"
PROVED, NOT_PROVED = "proved", "not proved"


class Refused(Exception):
    """A release cannot be made, or a copy cannot be installed: why."""


class Entry(NamedTuple):
    """A file of an installed copy: its name below the prefix, whether it can be started, and its bytes."""
    name: str
    is_program: bool
    data: bytes

    def mode(self):
        return 0o755 if self.is_program else 0o644


class Origin(NamedTuple):
    """What a copy was made from: the version, the commit and its time, the kit, and whether the programs were proved."""
    version: str
    commit: str
    seconds: int
    kit: str
    is_proved: bool

    def programs(self):
        return PROVED if self.is_proved else NOT_PROVED


class Copy(NamedTuple):
    """An installed copy, with its MANIFEST among the files, which are in the order of their names."""
    origin: Origin
    entries: List[Entry]


def copy_of(origin, entries) -> Copy:
    """A copy of these files, with the MANIFEST that tells of them."""
    head = [f"remduska {origin.version}", f"commit {origin.commit}", f"time {origin.seconds}", f"kit {origin.kit}", f"programs {origin.programs()}"]
    sums = [f"{hashlib.sha256(it.data).hexdigest()}  {it.name}" for it in sorted(entries)]
    text = "".join([f"# {it}\n" for it in head] + [f"{it}\n" for it in sums])
    return Copy(origin, sorted([*entries, Entry(MANIFEST, False, text.encode())]))


def read_copy(prefix) -> Copy:
    """The copy that is installed below a prefix. One that is not as its MANIFEST says is refused."""
    try:
        with open(os.path.join(prefix, MANIFEST), encoding="utf-8") as it:
            text = it.read()
        said = dict(re.findall(r"^# (\w+) (.*)$", text, re.M))
        origin = Origin(said["remduska"], said["commit"], int(said["time"]), said["kit"], said["programs"] == PROVED)
        entries = [entry_of(prefix, name, total) for total, name in re.findall(r"^([0-9a-f]{64})  (.*)$", text, re.M)]
    except (OSError, KeyError, ValueError) as fault:
        raise Refused(f"{prefix} has no whole copy of remduska: {fault}") from None
    return Copy(origin, sorted([*entries, Entry(MANIFEST, False, text.encode())]))


def entry_of(prefix, name, total):
    path = os.path.join(prefix, name)
    with open(path, "rb") as it:
        data = it.read()
    if hashlib.sha256(data).hexdigest() != total:
        raise Refused(f"{path} is not the file of which MANIFEST tells")
    return Entry(name, os.access(path, os.X_OK), data)
