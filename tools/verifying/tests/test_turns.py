"""In which order errors are told, on a report that notes what it is told. No program is asked."""
import unittest

from verifying import turns
from verifying.files import Unit
from verifying.results import Error, Label, unknown


def label(name, confirmed=True):
    return Label(name, confirmed, "", "", "", name, 1, 1, 2, None, None, [], [], [])


def error(name, of="", own="", home=""):
    return Error([label(name)], (1, 1), [name], of, own, home)


class Notes:
    """A report that notes what it is told."""

    def __init__(self):
        self.told = []

    def error(self, _, unit, found):
        self.told.append(f"{unit.name}: {found.labels[0].label}" + (f" of {found.of}" if found.of else ""))

    def more(self, _, unit, number):
        self.told.append(f"{unit.name}: {number} more")

    def unit(self, _, unit, result):
        self.told.append(f"{unit.name}: {result.verdict}")


class Order(unittest.TestCase):
    def begin(self, names="ab", all_labels=False, limit=5):
        self.notes = Notes()
        self.units = [turns.UnitAtWork(Unit(f"M${it}", it, 1, 1)) for it in names]
        return turns.Turns(self.notes, None, self.units, all_labels, limit)

    def end(self, number):
        self.units[number].result = unknown(self.units[number].unit.name, "")

    def test_an_error_is_told_before_its_unit_is_done(self):
        order = self.begin()
        self.units[0].add(error("1"))
        order.tell()
        self.assertEqual(self.notes.told, ["a: 1"])
        self.units[0].add(error("2"))
        self.end(0)
        order.tell()
        self.assertEqual(self.notes.told, ["a: 1", "a: 2", "a: undecided"])

    def test_an_error_of_a_later_unit_waits_for_a_moment(self):
        order = self.begin()
        self.units[1].add(error("2"))
        order.tell()
        self.assertEqual(self.notes.told, [])
        since, found = self.units[1].found[0]
        self.units[1].found = [(since - turns.GRACE, found)]
        order.tell()
        self.assertEqual(self.notes.told, ["b: 2"])
        self.end(1)
        order.tell()
        self.assertEqual(self.notes.told, ["b: 2"])
        self.end(0)
        order.tell()
        self.assertEqual(self.notes.told, ["b: 2", "a: undecided", "b: undecided"])

    def test_what_follows_from_a_contract_waits_for_the_contract_and_is_silent(self):
        for order_of_units in ("ab", "ba"):
            order = self.begin(order_of_units)
            caller, callee = [next(it for it in self.units if it.unit.name == name) for name in "ab"]
            caller.add(error("at the call", own="by itself", home="b"))
            order.tell()
            self.assertEqual(self.notes.told, [], order_of_units)
            callee.add(error("by itself", own="by itself"))
            self.end(0)
            self.end(1)
            order.tell()
            self.assertEqual([it for it in self.notes.told if "undecided" not in it], ["b: by itself"], order_of_units)

    def test_what_follows_is_told_with_what_it_follows_from_where_all_is_wanted(self):
        order = self.begin("ba", all_labels=True)
        self.units[0].add(error("by itself", own="by itself"))
        self.units[1].add(error("at the call", own="by itself", home="b"))
        self.units[0].add(error("at the end", of="by itself"))
        self.end(0)
        self.end(1)
        order.tell()
        self.assertEqual([it for it in self.notes.told if "undecided" not in it],
                         ["b: by itself", "b: at the end of by itself", "a: at the call of by itself"])

    def test_a_contract_that_is_right_silences_nothing(self):
        order = self.begin("ba")
        self.units[1].add(error("at the call", own="by itself", home="b"))
        self.end(0)
        self.end(1)
        order.tell()
        self.assertEqual(self.notes.told, ["b: undecided", "a: at the call", "a: undecided"])

    def test_errors_above_the_limit_are_counted(self):
        order = self.begin("a", limit=2)
        for it in "12345":
            self.units[0].add(error(it))
        self.units[0].add(error("6", of="1"))
        self.end(0)
        order.tell()
        self.assertEqual(self.notes.told, ["a: 1", "a: 2", "a: 3 more", "a: undecided"])


if __name__ == "__main__":
    unittest.main()
