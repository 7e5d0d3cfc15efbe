#!/usr/bin/env python3
"""spelling.py WORD CANDIDATE..    prints which candidate was meant, if there is one

Which name or word was meant: the one candidate that is one or two letters away."""
import sys

MOST = 2        # letters that are missing, too many, another one, or exchanged with the next
SHORT = 4       # a word of so few letters is meant only where one is wrong


def distance(one, other):
    """How many letters have to be put in, left out, replaced or exchanged with the next, to make a word of another one."""
    before, last = [], list(range(len(other) + 1))
    for i, a in enumerate(one):
        row = [i + 1]
        for j, b in enumerate(other):
            best = min(last[j + 1] + 1, row[j] + 1, last[j] + (a != b))
            if i and j and a == other[j - 1] and one[i - 1] == b:
                best = min(best, before[j - 1] + 1)
            row.append(best)
        before, last = last, row
    return last[-1]


def meant(word, candidates):
    """The one candidate that is nearest to a word, or nothing where there is none, or several are as near."""
    most = MOST if len(word) > SHORT else 1
    found = {}
    for it in dict.fromkeys(candidates):
        if it != word and abs(len(it) - len(word)) <= most and min(len(it), len(word)) > 1:
            found.setdefault(distance(word, it), []).append(it)
    nearest = found.get(min(found), []) if found and min(found) <= most else []
    return nearest[0] if len(nearest) == 1 else ""


def did_you_mean(word, candidates):
    """`; did you mean ..?`, or nothing."""
    found = meant(word, candidates)
    return f"; did you mean `{found}`?" if found else ""


if __name__ == "__main__":
    print(meant(sys.argv[1], sys.argv[2:]))
