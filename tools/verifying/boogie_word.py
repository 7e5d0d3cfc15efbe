"""What Boogie says of the same text. Its word stands beside the other, and nothing is made of it.

Its prelude lets contents have cycles, which the language has not: a rank that each part of a pair is below leaves them out."""
import os
import re
import subprocess
from typing import List, NamedTuple

from .boogie_text import procedure_texts

SECONDS = 60        # for each procedure
MOST_SECONDS = 900  # for a file
LABEL = re.compile(r"\d+:\d+ \d+:\d+ (?:null|perm|false|div|negative|amount)")
ENDED = re.compile(r"Boogie program verifier finished with (\d+) verified, (\d+) errors?.*")
SLOW = re.compile(r".*Verification (?:of '([^']+)' )?timed out.*")
RANK = """function sRank(s: Snap): int;
axiom (forall a: Snap, b: Snap :: {sPair(a, b)} sRank(a) < sRank(sPair(a, b)) && sRank(b) < sRank(sPair(a, b)));
"""


class Word(NamedTuple):
    """The labels that Boogie tells of, the procedures for which its time did not suffice, how many it tells nothing of, and why there is
    no word, if there is none."""
    labels: List[str]
    slow: List[str]
    lost: int
    fault: str


def no_word(why) -> Word:
    """That Boogie gives no word."""
    return Word([], [], 0, why)


def ranked(text):
    """A text of Boogie whose contents are finite trees."""
    at = text.find("procedure ")
    return text[:at] + RANK + text[at:] if "\nfunction sPair(" in text[:at] else text


def word(_, text_file, room) -> Word:
    """What Boogie says of a text."""
    with open(text_file, encoding="utf-8") as it:
        text = ranked(it.read())
    path = os.path.join(room, "boogie.bpl")
    with open(path, "w", encoding="utf-8") as it:
        it.write(text)
    try:
        done = subprocess.run(["boogie", "-nologo", "-errorLimit:100000", f"-timeLimit:{SECONDS}", path], stdin=subprocess.DEVNULL,
                              stdout=subprocess.PIPE, stderr=subprocess.STDOUT, timeout=MOST_SECONDS)
    except OSError as fault:
        return no_word(f"boogie cannot be run: {fault.strerror}")
    except subprocess.TimeoutExpired:
        return no_word(f"Boogie did not end in {MOST_SECONDS} seconds")
    return read(done.stdout.decode(errors="replace"), text)


def read(said, text):
    """What the output of Boogie says."""
    lines = said.splitlines()
    labels = list(dict.fromkeys([it for it in lines if LABEL.fullmatch(it)]))
    slow = [found[1] or procedure_at(it, text) for it, found in ((it, SLOW.fullmatch(it)) for it in lines) if found]
    ended = next((it for it in map(ENDED.fullmatch, lines) if it), None)
    if ended is None:
        odd = [it for it in lines if "rror" in it or "Fatal" in it]
        return Word(labels, slow, 0, f"Boogie gives no verdict: {(odd or lines or ['it says nothing'])[-1]}")
    return Word(labels, slow, lost(text, int(ended[1]), labels, slow), "")


def lost(text, verified, labels, slow):
    """Of how many procedures Boogie tells neither that they are verified, nor an error, nor that its time did not suffice."""
    parts = procedure_texts(text)
    told = {name for name, part in parts if name in slow or any([f'"{it}"' in part for it in labels])}
    return len(parts) - verified - len(told)


def procedure_at(line, text):
    """The name of the procedure of which a line of Boogie's output speaks: the last that begins at or before the line in it."""
    found = re.match(r".*\((\d+),\d+\)", line)
    front = text.split("\n")[:int(found[1])] if found else []
    names = [it.split("(")[0][len("procedure "):] for it in front if it.startswith("procedure ")]
    return names[-1] if names else "a procedure"


def differences(word_, results):
    """What Boogie says otherwise, in words: labels that only one of the two tells of."""
    told = {label.label for result in results for label in result.labels if label.confirmed}
    undecided = any([it.verdict == "undecided" or it.open for it in results])
    found = [f"Boogie tells nothing of {word_.lost} of the procedures"] * (word_.lost > 0)
    found += [f"Boogie tells of {it}, which is not told here" for it in word_.labels if it not in told]
    if not word_.slow and not word_.lost:
        found += [f"Boogie does not tell of {it}, at which a run fails" for it in sorted(told - set(word_.labels))]
    return found + ["Boogie tells of no error where this finds no verdict"] * (undecided and not word_.labels and not word_.slow)
