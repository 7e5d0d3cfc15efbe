"""What is told of a call, gathered by file, for what is written of whole files: pages, and a report of SARIF."""
from typing import List, NamedTuple

from .files import name_of
from .shown_run import ShownRun, run_of
from .source import Source


class GatheredError(NamedTuple):
    """A mistake of a unit: what is told of it, and the runs of its labels."""
    unit: str
    labels: list
    runs: List[ShownRun]


class Warned(NamedTuple):
    """What else is told of a place: `kind` is warning or note."""
    line: int
    column: int
    kind: str
    code: str
    message: str


class GatheredFile:
    """A file: its bytes and tokens, the mistakes and results of its units by name, and what is told of it as a whole."""

    def __init__(self, path, data, source):
        self.path, self.data, self.source = path, data, source
        self.errors, self.results, self.warnings, self.refused = [], {}, [], None

    def runs_of(self, unit):
        return [run for it in self.errors if it.unit == unit for run in it.runs]


class Gathered:
    """Takes what a report takes. `written` is called with each file of which all is told, and `ended` at the end."""

    def __init__(self, written, ended=lambda: None):
        self.written, self.ended, self.now = written, ended, None

    def file_of(self, given):
        """The file that is being told of."""
        if self.now is None or self.now.path != name_of(given.path):
            with open(given.copy, "rb") as it:
                data = it.read()
            self.now = GatheredFile(name_of(given.path), data, Source(name_of(given.path), data))
        return self.now

    def refused(self, given, source):
        found = self.file_of(given)
        found.refused = given.refused
        self.tell(found)

    def missing(self, path, why):
        found = GatheredFile(name_of(path), b"", Source(name_of(path), b""))
        found.warnings.append(Warned(1, 1, "error", "unreadable", why))
        self.tell(found)

    def error(self, given, unit, error):
        if not error.of and not given.is_boogie:
            runs = [run_of(unit.name, it) for it in error.labels if it.confirmed]
            self.file_of(given).errors.append(GatheredError(unit.name, error.labels, runs))

    def unit(self, given, unit, result):
        found = self.file_of(given)
        found.results[unit.name] = result
        for it in result.open:
            found.warnings.append(Warned(it.line, it.column, "warning", "undecided", f"undecided: {it.words}: {it.why}"))
        if result.why:
            found.warnings.append(Warned(unit.line, unit.column, "warning", "undecided", f"undecided: `{unit.name}`: {result.why}"))

    def unreached(self, given, unit, spots):
        for it in spots:
            self.file_of(given).warnings.append(Warned(it.line, it.column, "warning", "unreached", it.words))

    def file(self, given, results):
        self.tell(self.file_of(given))

    def tell(self, found):
        self.now = None
        self.written(found)

    def end(self):
        self.ended()


class Beside:
    """A report that tells others the same."""

    def __init__(self, report, others):
        self.report, self.others = report, others

    def __getattr__(self, name):
        found = getattr(self.report, name)
        if not callable(found):
            return found

        def tell(*values):
            for it in self.others:
                getattr(it, name, lambda *_: None)(*values)
            return found(*values)
        return tell


def beside(report, options):
    """A report that writes what the options want of whole files, too."""
    others = []
    if options.html:
        from .pages import Pages
        others.append(Gathered(Pages(options.html).write))
    if options.sarif:
        from .sarif import Log
        log = Log(options.sarif)
        others.append(Gathered(log.add, log.write))
    return Beside(report, others) if others else report
