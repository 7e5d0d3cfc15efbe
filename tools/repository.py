"""The files of this repository, for the scripts that look at many of them: one walk, and each file is read once."""
import os
import re
from bisect import bisect
from functools import cache
from pathlib import Path

TOP = Path(__file__).resolve().parent.parent
LEFT_OUT = {".git", "out", "__pycache__", "kept"}
WORD = re.compile(rb"[A-Za-z_$][\w$']*")


@cache
def files():
    """Every file, by its path from the top."""
    found = []
    for folder, folders, names in os.walk(TOP):
        folders[:] = sorted(it for it in folders if it not in LEFT_OUT)
        at = os.path.relpath(folder, TOP).replace(os.sep, "/")
        found += [it if at == "." else f"{at}/{it}" for it in sorted(names)]
    return tuple(found)


@cache
def sorted_files():
    return sorted(files())


@cache
def folders():
    """Every folder that has a file below it."""
    found = set()
    for it in files():
        while "/" in it:
            it = it.rpartition("/")[0]
            if it in found:
                break
            found.add(it)
    return frozenset(found)


@cache
def content(path):
    with open(os.path.join(TOP, path), "rb") as file:
        return file.read()


def text(path):
    return content(path).decode("utf-8", "replace")


@cache
def words(path):
    """The words of a file, as bytes."""
    return frozenset(WORD.findall(content(path)))


def matcher(pattern):
    """What a shell's pattern matches: `*` within a name, `**` through folders, `{a,b}` either."""
    parts = {"**/": "(?:.*/)?", "**": ".*", "*": "[^/]*", "?": "[^/]", "{": "(?:", ",": "|", "}": ")"}
    deep, found = 0, ""
    for it in re.findall(r"\*\*/|\*\*|.", pattern):
        deep += {"{": 1, "}": -1}.get(it, 0)
        found += parts[it] if it in parts and (it != "," or deep) else re.escape(it)
    return re.compile(found)


@cache
def found_by(pattern):
    """The files that a pattern leads to, and those below the folders that it leads to."""
    pattern = pattern.rstrip("/")
    if not re.search(r"[*?{]", pattern):
        if pattern in folders():
            return frozenset(sorted_files()[bisect(sorted_files(), f"{pattern}/"):bisect(sorted_files(), f"{pattern}0")])    # 0 follows /
        return frozenset([pattern] if (TOP / pattern).is_file() else [])
    fits = matcher(f"{pattern}{{,/**}}").fullmatch
    return frozenset(it for it in files() if fits(it))
