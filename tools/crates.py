#!/usr/bin/env python3
"""tools/crates.py: the one reader of crates.txt, and of the times in bench/gate.txt. Scripts import it, and shell scripts call it.

crates.py needed NAME..    prints these crates and those that they stand on, each behind those that it stands on itself
crates.py unmentioned      prints the entries of crates.txt that no file of their crate mentions; the status is 1 where there are some
crates.py drop             takes these out of crates.txt
crates.py map              writes the crates below "## The crates" of docs/map.md, a line each, from the first words of their sources"""
import re
import sys
from pathlib import Path

import repository

TOP = Path(__file__).resolve().parent.parent
LIST = TOP / "crates.txt"
MAP = TOP / "docs/map.md"
MAP_HEAD = "## The crates\n"
UNMEASURED = 60
SOURCES = ("src", "specs", "proofs")
VIPER, SEARCH = "Viper", "The search for certificates"
GROUPS = (    # by what a name is; a name that fits no other is of the first
    ("Common", ""),
    (VIPER, r"viper_(?!file$|proof$|.*fixtures$|.*tests$).*"),
    ("Boogie", r"boogie_(?!file$|proof$|.*fixtures$|.*tests$).*"),
    ("Run files of both", r"moves|run_.*"),
    ("The code of a translation", r"enc_(?!examples$).*"),
    ("Certificates", r"cert_.*"),
    (SEARCH, r"search_.*"),
    ("Programs, and what they do", r".*tool.*|.*_(file|proof|laws)|remduska|prove"),
    ("Tests and measures", r".*_(tests|fixtures|examples|bench)|row_.*"),
)


def lines():
    """What each crate stands on, in the order of crates.txt: crates of the repository, and libraries of the kit."""
    found = {}
    for line in LIST.read_text(encoding="utf-8").splitlines():
        head, colon, rest = line.partition("#")[0].partition(":")
        if colon:
            found[head.split()[0]] = rest.split()
    return found


def needed(names, below=None):
    """These crates and those that they stand on, each behind those that it stands on itself."""
    below, found = lines() if below is None else below, {}

    def go(name):
        if name in below and name not in found:
            for it in below[name]:
                go(it)
            found[name] = None

    for name in names:
        go(name)
    return list(found)


def seconds():
    """About how many processor seconds the proof of each crate takes from nothing, by bench/gate.txt."""
    rows = re.findall(r"^(\w+) (\d+) ", repository.text("bench/gate.txt"), re.M)
    return {name: int(number) for name, number in rows}


def sources(name):
    """The files that the proof of a crate is made from."""
    return [it for part in SOURCES for it in sorted(repository.found_by(f"crates/{name}/{part}")) if it.endswith((".rt", ".antt"))]


def mentioned(name, others):
    """Which of these names the files of a crate mention, as a crate or in a path of definitions. Comments do not count."""
    found, others = set(), {it.encode(): it for it in others}
    for path in sources(name):
        for word in repository.words(path) & (others.keys() - found):
            text = re.sub(rb"//[^\n]*|(?m:^\s*--[^\n]*)", b"", repository.content(path))
            if re.search(rb"\bRattle\." + word + rb"\.|\b" + word + rb"::|\b(?:use|as) " + word + rb"\b", text):
                found.add(word)
    return {others[it] for it in found}


def sentence(name):
    """The first sentence of a crate's own page, up to a colon where that suffices."""
    paths = (f"crates/{name}/src/{it}.rt" for it in ("lib", "main"))
    text = next((repository.text(it) for it in paths if it in repository.files()), "")
    said = re.match(r"(?://! ?[^\n]*\S\n)*", text)[0].replace("//!", "")
    first = re.split(r"\. ", f"{' '.join(said.split())} ")[0].rstrip(". ")
    head = first.partition(": ")[0]
    return head if len(head) > 22 else first


def group(name):
    """The title of a crate's group."""
    return next((title for title, form in GROUPS if re.fullmatch(form, name)), GROUPS[0][0])


def map_text():
    """The crates by their groups, in the order of crates.txt."""
    groups = {title: [] for title, _ in GROUPS}
    for name in lines():
        groups[group(name)].append(f"- `{name}`: {sentence(name)}\n")
    return "".join(f"\n### {title}\n\n{''.join(its)}" for title, its in groups.items() if its)


def page():
    """docs/map.md as it is to be."""
    return MAP.read_text(encoding="utf-8").partition(MAP_HEAD)[0] + MAP_HEAD + map_text()


def unmentioned(below=None):
    """The entries of crates.txt that no file of their crate mentions, as pairs. What is met through another crate needs none."""
    for name, its in (lines() if below is None else below).items():
        said = mentioned(name, its)
        yield from ((name, it) for it in its if it not in said)


def drop():
    """Takes the entries that are not mentioned out of crates.txt, and leaves all else as it is."""
    lost = set(unmentioned())
    text = []
    for line in LIST.read_text(encoding="utf-8").splitlines(keepends=True):
        head, colon, rest = line.partition(":")
        name = head.split()[0] if head.split() else ""
        gone = [it for it in rest.split() if (name, it) in lost]
        text.append(head + colon + "".join(f" {it}" for it in rest.split() if it not in gone) + "\n" if gone else line)
    LIST.write_text("".join(text), encoding="utf-8")
    return len(lost)


def main(words):
    if len(words) > 1 and words[0] == "needed":
        print(*needed(words[1:]), sep="\n")
        return 0
    if words == ["unmentioned"]:
        found = list(unmentioned())
        print(*(f"{name}: {it}" for name, it in found), sep="\n", end="\n" if found else "")
        return 1 if found else 0
    if words == ["map"]:
        MAP.write_text(page(), encoding="utf-8")
        return 0
    if words == ["drop"]:
        print(f"{drop()} entries are gone")
        return 0
    print(__doc__, file=sys.stdout if words in (["--help"], ["-h"]) else sys.stderr)
    return 0 if words in (["--help"], ["-h"]) else 2


if __name__ == "__main__":
    sys.exit(main(sys.argv[1:]))
