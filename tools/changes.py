#!/usr/bin/env python3
"""tools/changes.py          lists the changes that tools/changes has a page for
tools/changes.py NAME     prints the page of a change, as `operator`, and the files of each row that name a sibling today

A page has a title, its siblings (things of the kind that are there), the files that are looked at, and rows in the order of work. Each file
that names a sibling may want a case for the new thing, and stands in a row. What stands in brackets is for the case alone that stands in
front of them. A file without a crate is one of the crate before it. A row may have siblings of its own (`names:`). tools/check-docs compares."""
import re
import sys
from collections import namedtuple

import repository

FOLDERS = ("src", "specs", "proofs", "must-fail", "data")
Page = namedtuple("Page", "name text siblings scope crate rows")
Row = namedtuple("Row", "title text siblings")


def names():
    return sorted(it.split("/")[-1].removesuffix(".txt") for it in repository.found_by("tools/changes") if it.endswith(".txt"))


def heading(text, word):
    found = re.search(rf"^{word}: (.*)$", text, re.M)
    return found[1].split() if found else []


def page(name):
    text = repository.text(f"tools/changes/{name}.txt")
    siblings, scope, crate, others = (heading(text, it) for it in ("siblings", "in", "crate", "except"))
    rows = []
    for title, body in re.findall(r"^(\S[^\n]*):\n((?:    [^\n]*\n)+)", text, re.M):
        own = re.match(r"    names: (.*)\n", body)
        rows.append(Row(title, body[own.end():] if own else body, own[1].split() if own else siblings))
    files = frozenset().union(*(repository.found_by(it) for it in scope)) - frozenset(others)
    return Page(name, text, siblings, files, crate[0] if crate else None, rows)


def paths_in(text, crate=None):
    """The patterns of files that a text names, each with whether it stands in brackets."""
    before, deep = f"crates/{crate}/", 0
    for bracket, said in re.findall(r"([()])|`([^`]*)`", text):
        deep += {"(": 1, ")": -1}.get(bracket, 0)
        is_path = re.search(r"/|\.(rt|antt|rows|py|md)$", said) or said in repository.files() or said in FOLDERS
        if not said or not is_path or not re.fullmatch(r"[\w./*+-]+", said):
            continue
        first = said.split("/")[0]
        if f"crates/{first}" in repository.folders() and "/" in said:
            crate, path = first, f"crates/{said}"
        elif first in FOLDERS:
            path = f"crates/{crate}/{said}"
        elif first in repository.folders() or first in repository.files():
            path = said
        else:
            path = before + said
        before = path.rpartition("/")[0] + "/"
        yield path, deep > 0


def naming(files, siblings):
    """Those of these files that name a sibling."""
    wanted = {it.encode() for it in siblings}
    return {it for it in files if wanted & repository.words(it)}


def row_files(page, row):
    """The patterns of files that a row names, each with whether it stands in brackets, and the files."""
    for pattern, is_other in paths_in(row.text, page.crate):
        yield pattern, is_other, repository.found_by(pattern)


def differences(page):
    """What the rows of a page and the files that name a sibling do not agree on."""
    where, covered, have = f"tools/changes/{page.name}.txt", {}, {}
    for row in page.rows:
        siblings = tuple(row.siblings)
        mine = have.setdefault(siblings, naming(page.scope, siblings))
        for pattern, is_other, files in row_files(page, row):
            covered.setdefault(siblings, set()).update(files)
            if not files:
                yield f"{where}: {row.title}: there is no {pattern}"
            elif siblings and files & page.scope and not files & mine and not is_other:
                yield f"{where}: {row.title}: {pattern} names none of {', '.join(siblings)}"
    for siblings, mine in have.items():
        for it in sorted(mine - covered.get(siblings, set())):
            yield f"{where}: {it} names one of {', '.join(siblings)}, and no row has it"


def shown(name):
    it = page(name)
    yield it.text
    for row in it.rows:
        found = {file for _, _, files in row_files(it, row) for file in files} & naming(it.scope, row.siblings)
        if found:
            yield f"\n{row.title}, in which stands {' or '.join(row.siblings)}:\n" + "".join(f"    {file}\n" for file in sorted(found))


def main(words):
    if not words:
        print(*(f"{it:12}{repository.text(f'tools/changes/{it}.txt').split(chr(10))[0].lstrip('# ')}" for it in names()), sep="\n")
    elif len(words) == 1 and words[0] in names():
        sys.stdout.writelines(shown(words[0]))
    else:
        print(__doc__, file=sys.stdout if words in (["--help"], ["-h"]) else sys.stderr)
        return 0 if words in (["--help"], ["-h"]) else 2
    return 0


if __name__ == "__main__":
    sys.exit(main(sys.argv[1:]))
