"""Prints what is told of files and units for programs, a line of JSON each."""
import json

from .files import name_of
from .program import is_proved
from .report import Report


class Json(Report):
    """Prints lines of JSON: of a label when it is found, and of a unit when all of it is known."""

    def __init__(self, options, out, paths):
        super().__init__(options)
        self.out, self.paths = out, paths

    def data(self, **values):
        print(json.dumps(values, ensure_ascii=True), file=self.out)

    def missing(self, path, why):
        super().missing(path, why)
        self.data(file=name_of(path), refused=why, line=1, column=1, message=why)

    def refused(self, given, source):
        super().refused(given, source)
        told = given.refused
        self.data(file=name_of(given.path), refused=given.reason, line=told.line, column=told.column, message=told.message)

    def error(self, given, unit, error):
        super().error(given, unit, error)
        for it in error.labels:
            runs = {"run": it.run, "boogie_run": it.boogie_run} if self.options.runs else {"run": None, "boogie_run": None}
            self.data(file=name_of(given.path), unit=unit.name, label=it.label, confirmed=it.confirmed, of=of_kind(error.of, it.label),
                      identifier=it.identifier, message=it.message, line=it.line, column=it.column,
                      end_column=it.end_column, why=it.why, **runs, state=it.state, needs=it.needs, trace=it.trace,
                      help=[its.data() for its in error.help])

    def unit(self, given, unit, result):
        super().unit(given, unit, result)
        programs = [{"program": it, "proved": is_proved(self.paths, it)} for it in result.told_by]
        open_ = [{"label": it.label, "line": it.line, "column": it.column, "message": it.words, "why": it.why} for it in result.open]
        times = {"seconds": round(result.seconds, 3)} if self.options.times else {}
        self.data(file=name_of(given.path), unit=result.unit, verdict=result.verdict, checked=result.is_checked(), told_by=programs,
                  undecided=open_, why=result.why, **times)

    def unreached(self, given, unit, spots):
        super().unreached(given, unit, spots)
        for it in spots:
            self.data(file=name_of(given.path), unit=unit.name, unreached=it.words, line=it.line, column=it.column)

    def boogie(self, given, word, results):
        odd = super().boogie(given, word, results)
        self.data(file=name_of(given.path), boogie=word.labels, slow=word.slow, differences=odd)
        return odd


def of_kind(of, label):
    """The label that a label follows from, or None: of null and permission of one access each follows from its own."""
    return " ".join([*of.split()[:2], label.split()[2]]) if of else None
