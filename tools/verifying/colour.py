"""Colour for lines that people read on a terminal."""
import os
import re

AUTO, ALWAYS = "auto", "always"
HEAD = re.compile(r"(.*?:\d+:\d+: )(error|warning|note)(: .*)", re.S)
MARK = re.compile(r"( +\| *)(\^[\^~]*)")
OF_KIND = {"error": "\x1b[1;31m", "warning": "\x1b[1;33m", "note": "\x1b[1;36m"}
BOLD, GREEN, PLAIN = "\x1b[1m", "\x1b[1;32m", "\x1b[0m"


def is_wanted(when, out):
    """Whether lines to a stream are colored: always, never, or on a terminal where NO_COLOR does not say otherwise."""
    if when != AUTO:
        return when == ALWAYS
    return not os.environ.get("NO_COLOR") and os.environ.get("TERM") != "dumb" and out.isatty()


def colored(line):
    """A line with its place, its kind and its mark in colour."""
    head, mark = HEAD.fullmatch(line), MARK.fullmatch(line)
    if head:
        return f"{BOLD}{head[1]}{OF_KIND[head[2]]}{head[2]}{PLAIN}{BOLD}{head[3]}{PLAIN}"
    return f"{mark[1]}{GREEN}{mark[2]}{PLAIN}" if mark else line
