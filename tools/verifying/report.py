"""Prints what is told of files and units, for people and editors. Each line that an editor has to see is `FILE:LINE:COL: KIND: TEXT`."""
from . import colour, refusals, telling
from .boogie_word import differences
from .files import shown_path
from .keeping import Keeper
from .results import not_confirmed, whose_word
from .units import FAILS, UNDECIDED, VERIFIED

ALL_RIGHT, CAN_FAIL, NO_CALL, NOT_DECIDED, REFUSED = 0, 1, 2, 3, 4
SEVERITY = (ALL_RIGHT, NOT_DECIDED, CAN_FAIL, REFUSED, NO_CALL)


def counted(number, word):
    """A number and what is counted."""
    return f"{number} {word}{'s' * (number != 1)}"


class Report:
    """What is told of a call, in the order in which it is told; `status` is the worst that was met. What is told to whom is for those
    who stand on it. An error comes as soon as it is found, and `unit` when all of a unit is known."""

    def __init__(self, options):
        self.options, self.status = options, ALL_RIGHT
        self.keeper = Keeper(options.keep) if options.keep else None
        self.files = self.refusals = self.units = self.verified = self.errors = self.open = 0

    def worse(self, status):
        self.status = max(self.status, status, key=SEVERITY.index)

    def missing(self, path, why):
        """A file that cannot be read, or has no unit of the name that is asked for."""
        self.files, self.refusals = self.files + 1, self.refusals + 1
        self.worse(REFUSED)

    def refused(self, given, source):
        """A file that the program refuses."""
        self.files, self.refusals = self.files + 1, self.refusals + 1
        self.worse(REFUSED)

    def error(self, given, unit, error):
        """A mistake that is found in a unit: that it can fail, or that it does at some values and no run confirms it."""
        is_confirmed = error.labels[0].confirmed
        self.worse(CAN_FAIL if is_confirmed else NOT_DECIDED)
        self.errors += is_confirmed and not error.of
        if self.keeper:
            self.keeper.error(given, unit, error)

    def more(self, given, unit, number):
        """So many mistakes of a unit are not told."""
        self.errors += number

    def unit(self, given, unit, result):
        """A unit of which all is known."""
        self.units, self.verified, self.open = self.units + 1, self.verified + (result.verdict == VERIFIED), self.open + len(result.open)
        self.worse({VERIFIED: ALL_RIGHT, FAILS: CAN_FAIL, UNDECIDED: NOT_DECIDED}[result.verdict])
        if self.options.strict and not result.is_checked():
            self.worse(NOT_DECIDED)
        if self.keeper:
            self.keeper.begin(given)

    def unreached(self, given, unit, spots):
        """Spots of a verified unit that no run reaches."""

    def file(self, given, results):
        """A file of which all units were told."""
        self.files += 1

    def boogie(self, given, word, results):
        """Boogie's word; returns where it differs."""
        odd = [word.fault] if word.fault else differences(word, results)
        if odd or word.slow:
            self.worse(NOT_DECIDED)
        return odd

    def end(self):
        """All files were told."""


class Lines(Report):
    """Prints lines for people."""

    def __init__(self, options, out):
        super().__init__(options)
        self.out = out
        self.is_colored = colour.is_wanted(options.color, out)

    def line(self, text):
        print(colour.colored(text) if self.is_colored else text, file=self.out)

    def lines(self, texts, before=""):
        for it in texts:
            self.line(before + it)

    def told_at(self, given, line, column, kind, text):
        self.line(f"{shown_path(given.path)}:{line}:{column}: {kind}: {text}")

    def missing(self, path, why):
        super().missing(path, why)
        self.line(f"{shown_path(path)}:1:1: error: {why}")

    def refused(self, given, source):
        super().refused(given, source)
        self.lines(telling.error_lines(source, given.refused))
        if refusals.is_of_types(given.reason):
            self.told_at(given, given.refused.line, given.refused.column, "note", refusals.FIRST)

    def error(self, given, unit, error):
        super().error(given, unit, error)
        first = error.labels[0]
        if not first.confirmed:
            self.told_at(given, *error.place, "warning", not_confirmed(first))
            return
        self.lines(error.lines)
        self.lines(error.needs, "  ")
        if error.run:
            self.run(given, unit, error)
        self.lines(error.notes)
        self.lines([f"help: {it.words}" for it in error.help], "  ")
        for it in error.labels:
            if it.why:
                self.told_at(given, it.line, it.column, "note", f"not confirmed by replay, but by run: {it.why}")

    def run(self, given, unit, error):
        """The run that fails, step by step or as a run file has it, and where it does."""
        self.line(f"  {error.heading or f'This run of `{unit.name}` fails there:'}")
        self.lines(error.trace)
        if self.options.run_file or not error.trace:
            self.lines(error.run)
        if error.state:
            self.line("  Where it fails:")
            self.lines(error.state, "    ")

    def more(self, given, unit, number):
        super().more(given, unit, number)
        self.told_at(given, unit.line, unit.column, "note", f"{counted(number, 'more error')} of `{unit.name}`; --errors 0 tells all")

    def unit(self, given, unit, result):
        super().unit(given, unit, result)
        limit = self.options.errors or len(result.open)
        for it in result.open[:limit]:
            self.told_at(given, it.line, it.column, "warning", f"undecided: {it.words}")
        if len(result.open) > limit:
            more = f"{len(result.open) - limit} more of `{unit.name}` are undecided; --errors 0 tells all"
            self.told_at(given, unit.line, unit.column, "note", more)
        if result.why:
            self.told_at(given, unit.line, unit.column, "warning", f"undecided: `{unit.name}`: {result.why}")
        if self.options.times and not unit.is_proved:
            self.told_at(given, unit.line, unit.column, "note", f"`{unit.name}` took {result.seconds:.2f} s")
        if result.verdict == VERIFIED and not result.is_checked() and (self.options.certificates or self.options.strict):
            kind = "warning" if self.options.strict else "note"
            self.told_at(given, unit.line, unit.column, kind, f"`{unit.name}` is verified on {whose_word([result])}")

    def unreached(self, given, unit, spots):
        super().unreached(given, unit, spots)
        for it in spots:
            self.told_at(given, it.line, it.column, "warning", it.words)

    def file(self, given, results):
        super().file(given, results)
        path, verified = shown_path(given.path), [it for it in results if it.verdict == VERIFIED]
        if self.options.times and given.is_searched:
            self.told_at(given, 1, 1, "note", f"the search for proofs took {given.seconds:.2f} s")
        word, how = self.word_of(verified)
        if len(verified) == len(results):
            self.line(f"{path}: {word}, {counted(len(results), 'unit')}{how}")
        else:
            self.line(f"{path}: {len(verified)} of {counted(len(results), 'unit')} {word}{how}")

    def word_of(self, verified):
        """What verified units are, and how many of them are so by the word of a program that is proved to be right."""
        rest = [it for it in verified if not it.is_checked()]
        proved = len(verified) - len(rest)
        if not rest:
            return "proved", ""
        return ("verified", f", {proved} proved and {len(rest)} on {whose_word(rest)}") if proved else (f"verified on {whose_word(rest)}", "")

    def boogie(self, given, word, results):
        odd, path = super().boogie(given, word, results), shown_path(given.path)
        self.line(f"{path}: Boogie tells of {counted(len(word.labels), 'label')}{''.join(f'; {it}' for it in word.labels)}")
        self.lines(word.slow, f"{path}: Boogie's time does not suffice for ")
        self.lines(odd, f"{path}: the two disagree: ")
        return odd

    def end(self):
        super().end()
        if self.files < 2:
            return
        told = [f"{self.verified} of {counted(self.units, 'unit')} verified"]
        told += [counted(self.errors, "error")] * bool(self.errors)
        told += [f"{self.open} undecided"] * bool(self.open)
        told += [f"{counted(self.refusals, 'file')} refused"] * bool(self.refusals)
        self.line(f"{counted(self.files, 'file')}: {', '.join(told)}")


