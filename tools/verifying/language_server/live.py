"""What is looked at as one types: when, in which order, and what is known of each unit of each file that is open.

A file is translated a moment after its last change. A unit is looked at anew where what its answer depends on has changed; of others
the answer is kept, and its places are moved."""
import os
import shutil
import time
from collections import OrderedDict

from . import findings
from .engine import Settings, proved, undecided
from .findings import Finding
from .units import Moved
from .workers import Job

PAUSE = 0.25            # seconds behind the last change
TOGETHER = 0.05         # seconds in which what is told of several units is shown at once
MOST_KEPT = 2000        # answers that are kept of a file, for what is undone or comes back
TRANSLATING = 60.0      # seconds that a translation may take
FINDING = 1800.0        # and the making of the programs, where there are none


class Known:
    """What is known of a unit, with its places in one version of the file."""

    def __init__(self, verdict, source):
        self.verdict, self.source = verdict, source

    def at(self, source):
        """The same in another version, in which the unit is the same."""
        if self.source is not source:
            moved = Moved(self.source, source)
            self.verdict = findings.moved(self.verdict, moved.place, moved.gap)
            self.source = source
        return self.verdict


class Looking:
    """A unit that waits to be looked at, or is being looked at: `key` is what its answer depends on."""

    def __init__(self, unit, key, source):
        self.unit, self.key, self.source, self.job = unit, key, source, None


class Live:
    """What is known of one file that is open."""

    def __init__(self, document, room):
        self.document, self.room, self.turn = document, room, 0
        self.due, self.job, self.given, self.whole, self.version = time.monotonic(), None, None, None, None
        self.refused, self.units, self.keys = (), [], {}
        self.known, self.looking = OrderedDict(), OrderedDict()
        self.changed_at, self.cursor, self.stopped = time.monotonic(), None, False
        self.shown_at, self.dirty, self.chosen, self.pages = 0.0, True, {}, os.path.join(room, "pages")

    # ---- what was typed

    def changed(self, now, pause):
        """The text is another one: what no longer holds is dropped at once."""
        self.due, self.changed_at, self.stopped, self.refused, self.dirty = now + pause, now, False, (), True
        digests = self.document.digests
        return [it for it in self.looking.values() if digests.get(it.unit.name) != it.key[0]]

    def verdict(self, name):
        """What is known of a unit in the text as it is, or None."""
        key = self.keys.get(name)
        if key is None or key not in self.known or self.document.digests.get(name) != key[0]:
            return None
        return self.known[key].at(self.document.source)

    def verdicts(self):
        """What is known of the units, in the order of the text."""
        if self.refused:
            return []
        return [it for it in [self.verdict(unit.name) for unit in self.units] if it is not None]

    def findings(self):
        """All that is told of the file. What fails at users of a contract for a part that fails by itself is told there alone."""
        found = [it for verdict in self.verdicts() for it in verdict.findings]
        by_themselves = {it.part for it in found if it.part and not it.home}
        return list(self.refused) + [it for it in found if not it.home or it.part not in by_themselves]

    def is_open(self, name):
        """Whether something of a unit is still to come."""
        key = self.keys.get(name)
        return self.due is not None or self.job is not None or key in self.looking

    # ---- what comes back

    def translated(self, found, source):
        """Takes a translation, and returns the units that are looked at in vain."""
        self.refused, self.version, self.whole = found.refused, self.document.version, found
        if found.given is None:
            self.units, self.keys, self.given = [], {}, None
            return [it for it in self.looking.values()]
        self.units, self.given = list(found.units), found.given
        self.keys = {it.name: (self.document.digests.get(it.name), it.name) for it in found.units}
        vain = [it for key, it in self.looking.items() if key not in self.keys.values()]
        for unit in self.units:
            key = self.keys[unit.name]
            if unit.name in found.known or self.is_known(key):
                continue
            if unit.is_proved:
                self.known[key] = Known(proved(unit), source)
            elif key not in self.looking or self.looking[key].job is None:
                self.looking[key] = Looking(unit, key, source)
        return vain

    def is_known(self, key):
        """Whether all is known that the answer about a unit can tell."""
        return key in self.known and self.known[key].verdict.is_whole

    def known_names(self):
        """The units that need not be looked at again: of the text as it is all is known, or it is being looked at."""
        found = [(digest, name) for name, digest in self.document.digests.items()]
        return frozenset(key[1] for key in found if self.is_known(key) or key in self.looking and self.looking[key].job is not None)

    def took(self, it, verdict):
        """Takes what is told of a unit."""
        self.known[it.key] = Known(verdict, it.source)
        self.known.move_to_end(it.key)
        if verdict.is_whole:
            self.looking.pop(it.key, None)
        while len(self.known) > MOST_KEPT:
            self.known.popitem(last=False)
        self.dirty = True

    def next(self):
        """The unit that is looked at next: the one that is typed in before the others."""
        waiting = [it for it in self.looking.values() if it.job is None]
        if not waiting:
            return None
        at = self.document.source.unit_at(self.cursor) if self.cursor is not None and self.cursor < len(self.document.source.tokens) else None
        return next((it for it in waiting if at is not None and it.unit.name == at.name), waiting[0])


class Lives:
    """All files that are open, and the processes that look at them. `listener` is told what is to be shown."""

    def __init__(self, workers, listener):
        self.workers, self.listener, self.settings = workers, listener, Settings()
        self.of, self.finding, self.fault, self.count = {}, None, None, 0

    # ---- files

    def open(self, document):
        self.count += 1
        live = self.of[document.uri] = Live(document, os.path.join(self.workers.room, f"file-{self.count}"))
        return live

    def change(self, document, cursor, pause=PAUSE):
        """Takes that a file was changed; it is looked at behind a pause."""
        live = self.of[document.uri]
        live.cursor = cursor
        for it in live.changed(time.monotonic(), pause):
            self.cancel(live, it)
        self.show(live)

    def close(self, uri):
        live = self.of.pop(uri)
        self.stop(live)
        shutil.rmtree(live.room, ignore_errors=True)

    def stop(self, live):
        """Cancels all that is at work for a file."""
        live.due, live.stopped = None, True
        if live.job is not None:
            self.workers.cancel(live.job)
            live.job = None
        for it in list(live.looking.values()):
            self.cancel(live, it)
        live.dirty = True

    def cancel(self, live, it):
        if it.job is not None:
            self.workers.cancel(it.job)
        live.looking.pop(it.key, None)

    def configure(self, settings):
        """Other settings: what was answered under the old ones is asked again."""
        if settings != self.settings:
            self.settings = settings
            for live in self.of.values():
                self.again(live)

    def again(self, live, name=None):
        """Looks at a file, or at one unit of it, as if nothing were known."""
        self.stop(live)
        for key in [it for it in live.known if name in (None, it[1])]:
            del live.known[key]
        live.due, live.stopped = time.monotonic(), False

    # ---- the work

    def go(self):
        """Starts what can be started, and shows what has changed. Returns when there is something to do again, or None."""
        now = time.monotonic()
        self.workers.overdue(now)
        if self.workers.paths is None and self.finding is None and self.fault is None:
            self.find()
        for live in sorted(self.of.values(), key=lambda it: -it.changed_at):
            self.start(live, now)
        for live in self.of.values():
            if live.dirty and (now - live.shown_at >= TOGETHER or not live.looking):
                self.show(live)
        times = [it.due for it in self.of.values() if it.due is not None and it.due > now]
        times += [it.shown_at + TOGETHER for it in self.of.values() if it.dirty]
        return min([*times, *[it for it in [self.workers.deadline()] if it is not None]], default=None)

    def find(self):
        """Asks which programs there are."""
        worker = self.workers.idle()
        self.finding = Job("find", (), self.found, FINDING)
        self.workers.give(worker, self.finding)

    def found(self, paths, fault, is_last):
        self.finding, self.fault = None, fault
        if paths is not None:
            self.workers.know(paths)
            return
        for live in self.of.values():
            self.refuse(live, fault)

    def refuse(self, live, fault):
        """Tells of a file that it cannot be looked at."""
        live.refused, live.dirty, live.due = (Finding(1, 1, "error", "unreadable", f"the file cannot be looked at: {fault}"),), True, None

    def start(self, live, now):
        """Starts the translation of a file that is due, and its units."""
        if self.workers.paths is None:
            if self.fault is not None and live.due is not None and live.due <= now:
                self.refuse(live, self.fault)
            return
        if live.due is not None and live.due <= now:
            self.translate(live)
        while live.due is None and live.job is None:
            it = live.next()
            worker = self.workers.idle() if it is not None else None
            if worker is None:
                return
            it.job = Job("unit", (live.given, it.unit, self.settings), self.told(live, it), 2 * self.settings.seconds)
            self.workers.give(worker, it.job)
            self.listener.began(live)

    def translate(self, live):
        if live.job is not None:
            self.workers.cancel(live.job)
            live.job = None
        worker = self.workers.idle(more=1)
        if worker is None:
            return
        live.turn += 1
        room, document = os.path.join(live.room, str(live.turn)), live.document
        source, version = document.source, document.version

        def said(found, fault, is_last):
            live.job = None
            if document.version != version or self.of.get(document.uri) is not live:
                return
            if found is None:
                self.refuse(live, fault)
                return
            for it in live.translated(found, source):
                self.cancel(live, it)
            self.tidy(live)
            live.dirty = True

        live.due, live.job = None, Job("translate", (document.path, document.text.data, room, live.known_names()), said, TRANSLATING)
        self.workers.give(worker, live.job)

    def tidy(self, live):
        """Takes the folders of former translations away, of which no unit is looked at."""
        used = {it.job.values[0].copy for it in live.looking.values() if it.job is not None}
        for name in os.listdir(live.room):
            folder = os.path.join(live.room, name)
            if name.isdigit() and name != str(live.turn) and not any(it.startswith(folder + os.sep) for it in used):
                shutil.rmtree(folder, ignore_errors=True)

    def told(self, live, it):
        def said(verdict, fault, is_last):
            live.took(it, verdict if verdict is not None else undecided(it.unit, fault))
            if not live.looking:
                self.listener.ended(live)
        return said

    def show(self, live):
        live.dirty, live.shown_at = False, time.monotonic()
        self.listener.show(live)
