"""A file as it was given: its bytes, what the program makes of it, and its units."""
import errno
import functools
import os
import re
import stat
import sys
import time
from typing import List, NamedTuple, Optional

from . import refusals
from .boogie_text import NotAsWritten, procedure_texts
from .failures import Told
from .source import Source, without_bodies

MOST = 33_554_433   # the program looks at no more bytes of a file
LARGEST = 1_048_576     # the program refuses a Viper file with more bytes, of which it tells no place


class Unit(NamedTuple):
    """A unit of a file: the name of its procedure, its own name, its place, and the text of the procedure. `values` is the text of what
    the program finds of its labels, and `conditions` that of its conditions, where these are known by now; `is_proved` tells whether the
    program `prove` shows that no run of it fails, and `first_open` is the first label that it does not show, or nothing."""
    procedure: str
    name: str
    line: int
    column: int
    text: str = ""
    conditions: Optional[str] = None
    is_proved: bool = False
    first_open: str = ""
    values: Optional[str] = None


class Given(NamedTuple):
    """A file: `path` is what it was called, `copy` the file in `room` that has its bytes, `text_file` that of the Boogie program,
    which begins with `prelude`; there is none where nothing of it is asked for. `is_searched` tells whether `prove` is asked, and
    `seconds` how long it took."""
    path: str
    copy: str
    text_file: Optional[str]
    prelude: str
    is_boogie: bool
    is_searched: bool
    bare: frozenset
    units: List[Unit]
    refused: Optional[Told]
    reason: str
    seconds: float = 0.0

    def asked_of(self):
        """The file that `prove` is asked of: of a program of Boogie that without loops and calls."""
        return self.text_file if self.is_boogie else self.copy


def bytes_of(path):
    """The bytes of a file, or of the standard input; raises OSError."""
    if path in ("-", "/dev/stdin"):
        if sys.stdin is None:
            raise OSError(errno.EBADF, "the standard input is closed")
        return sys.stdin.buffer.read(MOST)
    if stat.S_ISDIR(os.stat(path).st_mode):
        raise IsADirectoryError(21, "this is a folder", path)
    with open(path, "rb") as it:
        return it.read(MOST)


def name_of(path):
    """What a file is called."""
    return "<stdin>" if path in ("-", "/dev/stdin") else path


def shown_path(path):
    """What a file is called in a line for people: no character of its name ends the line or moves the cursor."""
    return re.sub(r"[\x00-\x1f\x7f-\x9f]", lambda it: f"\\x{ord(it[0]):02x}", name_of(path))


def given(path, data, program, room, wants_text, is_for_z3=False) -> Given:
    """Has the program prove a file and, where something is left open or the text is wanted, translate it. A file whose name says that
    it is one of Boogie is cut first. What is open and is for z3 gets its conditions, and else what the program finds of its labels."""
    is_boogie = path.endswith(".bpl")
    copy, source = os.path.join(room, "given.bpl" if is_boogie else "given.vpr"), source_of(path, data)
    with open(copy, "wb") as it:
        it.write(data)
    found = Given(path, copy, None, "", is_boogie, program.searches(), frozenset(), [], None, "")
    if is_boogie or not found.is_searched:
        found = translated(found, source, data, program)
    if found.refused or not found.is_searched:
        return found
    start = time.monotonic()
    answers = program.prove(found.asked_of(), is_boogie=is_boogie)
    found = found._replace(seconds=time.monotonic() - start)
    if answers.refusal:
        return refused(found, source, answers.refusal)
    if not is_boogie and (wants_text or answers.open):
        found = translated(found, source, data, program)
    if found.text_file is not None:
        return with_answers(found, source, program, answers.open, is_for_z3)
    return found._replace(units=[proved_unit(source, it) for it in answers.proved])


def refused(found, source, reason) -> Given:
    """A file that the program refuses."""
    return found._replace(refused=boogie_refusal(reason) if found.is_boogie else refusals.told(source, reason), reason=reason)


def translated(found, source, data, program) -> Given:
    """A file with what the program makes of it."""
    said = program.cut(found.copy) if found.is_boogie else program.translate(found.copy)
    if said.status != 0:
        lines = said.error.strip().splitlines()
        return refused(found, source, lines[-1] if lines else f"the program ended with status {said.status}")
    if not said.out.startswith("type Ref;\n"):
        raise NotAsWritten("what the program writes is no program of Boogie")
    text_file = os.path.join(os.path.dirname(found.copy), "text.bpl")
    with open(text_file, "w", encoding="utf-8") as it:
        it.write(said.out)
    bare = frozenset(it.name for it in source.units if it.kind == "predicate" and not it.parameters())
    units = [unit(source, found.is_boogie, data, *it) for it in procedure_texts(said.out)]
    prelude = said.out[:said.out.index("\nprocedure ") + 1] if units else said.out
    return found._replace(text_file=text_file, prelude=prelude, bare=bare, units=units)


def with_answers(found, source, program, open_, is_for_z3) -> Given:
    """A file with what `prove` says of each unit: `open_` has the first label of each one that is not proved."""
    conditions = program.conditions(found.asked_of(), found.is_boogie) if open_ and is_for_z3 else {}
    values = values_of_open(found, source, program, open_) if open_ and not is_for_z3 else {}

    def told(it):
        if it.name not in open_:
            return it._replace(is_proved=True, text="")
        return it._replace(conditions=conditions.get(it.procedure), values=values.get(it.procedure), first_open=open_[it.name])

    return found._replace(units=[told(it) for it in found.units])


def values_of_open(found, source, program, open_):
    """What the program finds of the labels of the units that are open, by the names of their procedures. Of the methods that are proved it
    is given no bodies, and of Boogie no procedures that are, so that nothing of these is looked for."""
    path = os.path.join(os.path.dirname(found.copy), "open.bpl" if found.is_boogie else "open.vpr")
    with open(path, "wb") as into:
        if found.is_boogie:
            into.write((found.prelude + "".join([it.text for it in found.units if it.name in open_])).encode())
        else:
            into.write(without_bodies(source, {it.name for it in found.units if it.name not in open_}))
    return program.values(path, is_boogie=found.is_boogie)


@functools.lru_cache(maxsize=2)
def source_of(path, data):
    """A file as its tokens, which a process makes once. One that is refused for its size has none: nothing of it is told but that."""
    return Source(shown_path(path), data if path.endswith(".bpl") or len(data) <= LARGEST else b"")


def unit(source, is_boogie, data, procedure, text):
    """A procedure as the unit that it is written for."""
    if is_boogie:
        return Unit(procedure, procedure, *place_of_procedure(data, procedure), text)
    return Unit(procedure, procedure[2:], *place_of_unit(source, procedure[2:]), text)


def proved_unit(source, name):
    """A unit of which no more is asked than its place."""
    found = source.declared.get(name)
    letter = "P" if found is not None and found.kind == "predicate" else "M"
    return Unit(f"{letter}${name}", name, *place_of_unit(source, name), is_proved=True)


def place_of_unit(source, name):
    """The line and the column of the name of a unit."""
    found = source.declared.get(name)
    return source.place(found.name_at) if found else (1, 1)


def place_of_procedure(data, name):
    """The line and the column of the name of a procedure in a text of Boogie."""
    for number, line in enumerate(data.decode("latin-1").split("\n")):
        words = line.replace("(", " ( ").split()
        if words[:2] == ["procedure", name]:
            return number + 1, line.index(name, line.index("procedure") + 9) + 1
    return 1, 1


def boogie_refusal(reason):
    """What is told of a program of Boogie that is refused: the program's own words, at the place that they have."""
    words = reason[len("error: "):].split() if reason.startswith("error: ") else reason.split()
    at = next((it for it in words if ":" in it and it.replace(":", "").isdigit()), "1:1")
    line, column = map(int, at.split(":"))
    return Told(line, column, f"this is no program of Boogie that can be cut: {' '.join(words)}")
