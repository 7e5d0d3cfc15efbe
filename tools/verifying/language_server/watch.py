"""`verify --watch`: looks at files whenever they are written, with the engine of the server, and tells of them on the terminal."""
import os
import select
import sys
import time

from .. import telling, trace
from ..colour import colored, is_wanted
from ..failures import Told
from ..files import bytes_of, shown_path
from .documents import Document
from .engine import Settings
from .findings import Finding
from .live import Lives
from .workers import Workers

LOOKED = 0.2        # seconds between two looks at the files
CLEAR = "\x1b[2J\x1b[3J\x1b[H"


class Watch:
    """Watches files. Where a terminal shows them it is drawn anew whenever more is known; else each file is told of once all of it is."""

    def __init__(self, paths, options, out):
        self.out, self.is_terminal, self.is_colored = out, out.isatty(), is_wanted(options.color, out)
        self.workers = Workers()
        self.lives = Lives(self.workers, self)
        self.lives.configure(Settings(options.seconds, bool(options.smoke), options.errors))
        self.stamps, self.told, self.opened = {}, {}, {}
        self.paths = list(dict.fromkeys(paths))

    def run(self):
        """Watches until it is interrupted."""
        try:
            while True:
                self.look()
                until = self.lives.go()
                left = LOOKED if until is None else min(LOOKED, max(0.0, until - time.monotonic()))
                for it in select.select(self.workers.connections(), [], [], left)[0]:
                    if it in self.workers.connections():
                        self.workers.hear(it)
                self.tell()
        finally:
            self.workers.end()

    def look(self):
        """Takes the files that were written since the last look."""
        for path in self.paths:
            stamp = stamp_of(path)
            if self.stamps.get(path, ()) == stamp:
                continue
            self.stamps[path] = stamp
            try:
                text = bytes_of(path).decode("utf-8", "replace") if stamp else ""
            except OSError:
                stamp = self.stamps[path] = None
            self.take(path, text if stamp else None)

    def take(self, path, text):
        """Takes what a file now has; nothing, where it cannot be read."""
        live = self.opened.get(path)
        if text is None:
            if live is not None:
                self.lives.close(live.document.uri)
            self.opened[path] = None
            self.say(path, [f"{shown_path(path)}:1:1: error: the file cannot be read"])
            return
        if live is None:
            self.opened[path] = self.lives.open(Document(path, 0, text))
            return
        live.document.change(live.document.version + 1, [{"text": text}])
        self.lives.change(live.document, None, 0.0)

    # ---- what is told

    def show(self, live):
        """What is known has changed: it is told by `tell`."""

    def began(self, live):
        """Work at a file begins."""

    def ended(self, live):
        """Work at a file has ended."""

    def tell(self):
        """Tells of the files of which something new is known: on a terminal at once, else once all is known."""
        for path, live in self.opened.items():
            if live is not None and (self.is_terminal or is_settled(live)):
                self.say(path, lines_of(live))

    def say(self, path, lines):
        if self.told.get(path) == lines:
            return
        self.told[path] = lines
        shown = [it for its in self.paths for it in self.told.get(its, ())] if self.is_terminal else lines
        text = "\n".join([colored(it) for it in shown] if self.is_colored else shown)
        print(f"{CLEAR}{text}" if self.is_terminal else text, file=self.out, flush=True)


def stamp_of(path):
    """What tells whether a file was written: nothing, where it is not there."""
    try:
        about = os.stat(path)
    except OSError:
        return None
    return about.st_mtime_ns, about.st_size, about.st_ino


def is_settled(live):
    return live.due is None and live.job is None and not live.looking


def lines_of(live):
    """What is known of a file: its findings, of the first error of a unit with the run, and a line of the whole."""
    source, lines, units = live.document.source, [], set()
    for verdict in [None, *live.verdicts()]:
        for it in live.refused if verdict is None else verdict.findings:
            lines += lines_of_finding(source, it)
            if it.label is not None and verdict.unit not in units:
                units.add(verdict.unit)
                run = verdict.runs[it.label]
                lines += [f"  {one}" for one in run.needs] + trace.lines(run.steps, False)
            lines += telling.note_lines(source, told_of(it))
            lines += [f"  help: {help_.words}" for help_ in it.helps]
    return lines + [whole(live)]


def lines_of_finding(source, it: Finding):
    if it.severity == "error":
        return telling.head_lines(source, told_of(it))
    return [f"{source.path}:{it.line}:{it.column}: {it.severity}: {it.message}"]


def told_of(it):
    return Told(it.line, it.column, it.message, it.notes)


def whole(live):
    """What is known of a file as a whole."""
    path, verdicts = shown_path(live.document.path), live.verdicts()
    if live.refused:
        return f"{path}: refused"
    if not is_settled(live):
        return f"{path}: looking at it, {len(verdicts)} of {len(live.units)} units"
    verified = [it for it in verdicts if it.verdict == "verified"]
    checked = sum([it.is_proved for it in verified])
    return f"{path}: {len(verified)} of {len(verdicts)} units verified, {checked} of them proved"


def watch(paths, options):
    """Watches files, until it is interrupted."""
    Watch(paths, options, sys.stdout).run()
