"""The order in which what is found of a file is told.

An error is told when it is found. Where several units are looked at side by side, what is found of a later one waits for a moment, so
that what is found soon is told in the order of the file. A part of a contract that fails at its users waits for the check of the
contract by itself: where that fails too, it is told there alone."""
import time

GRACE = 0.5     # seconds that an error of a later unit waits for those before


class UnitAtWork:
    """A unit, what is found of it and not yet told, and in the end its result. `failing` are its labels that can fail, `untold` counts
    the errors above the limit, and `is_ended` tells whether its end was told."""

    def __init__(self, unit):
        self.unit, self.found, self.failing = unit, [], set()
        self.result, self.told, self.untold, self.is_ended = None, 0, 0, False

    def add(self, error):
        """Takes an error that is found."""
        self.found.append((time.monotonic(), error))
        self.failing.update([it.label for it in error.labels if it.confirmed])


class Turns:
    """Tells a report of the units of a file. `all_labels` wants those that follow from others, too, and `limit` is the most errors of
    a unit, where 0 stands for all."""

    def __init__(self, report, given, units, all_labels, limit):
        self.report, self.given, self.units, self.all_labels, self.limit = report, given, units, all_labels, limit
        self.by_name = {it.unit.name: it for it in units}

    def tell(self):
        """Tells what may be told by now."""
        late, in_turn = time.monotonic() - GRACE, True
        for it in self.units:
            ready = [found for found in it.found if (in_turn or found[0] < late) and not self.waits(found[1])]
            it.found = [found for found in it.found if found not in ready]
            for _, error in ready:
                self.error(it, error)
            if in_turn and it.result is not None and not it.found and not it.is_ended:
                self.end_of(it)
            in_turn = in_turn and it.is_ended

    def waits(self, error):
        """Whether an error may follow from a contract that is still looked at."""
        home = self.by_name.get(error.home)
        return home is not None and home.result is None and error.own not in home.failing

    def error(self, it, error):
        home = self.by_name.get(error.home)
        if home is not None and error.own in home.failing:
            error = error._replace(of=error.own)
        is_counted = error.labels[0].confirmed and not error.of
        if error.of and not self.all_labels:
            return
        if is_counted and self.limit and it.told >= self.limit:
            it.untold += 1
            return
        it.told += is_counted
        self.report.error(self.given, it.unit, error)

    def end_of(self, it):
        """Tells that all is known of a unit."""
        it.is_ended = True
        if it.untold:
            self.report.more(self.given, it.unit, it.untold)
        self.report.unit(self.given, it.unit, it.result)
