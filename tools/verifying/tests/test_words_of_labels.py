"""What is said of a label without a verdict, Viper's identifier of it, the span that is marked for it, and the label that it follows
from: of a file with a case for each step."""
import os
import re
import unittest

from verifying import colour, following, identifiers, naming
from verifying.program import TOP
from verifying.source import Source
from verifying.spans import span

TEXT = b"""field f: Int
predicate cell(x: Ref) { acc(x.f) && x.f > 0 }
method callee(x: Ref, n: Int) returns (r: Int)
  requires x.f > n
  ensures r % n == 0
{
  r := 10 / 2
  assert x.f == 1 && n > 2
  exhale acc(x.f, 1/2)
  fold cell(x)
  unfold acc(cell(x), 1/2)
  inhale n \\ r > 1
  while (r < x.f) invariant acc(x.f) && r > 0 {
    r := callee(x, n)
  }
  if (x.f > 1) { x.f := 2 }
}
"""
SOURCE = Source("a.vpr", TEXT)
CASES = (   # a label; what is checked; the identifier; the text that is marked at the part; and the label that it may follow from
    ("2:1 2:40 perm", "the body of cell, permission to x.f", "predicate.not.wellformed:insufficient.permission", "x.f", "2:1 2:40 perm"),
    ("3:1 4:14 null", "the precondition x != null", "not.wellformed:receiver.null", "x.f", "3:1 4:14 null"),
    ("3:8 5:13 div", "the postcondition n != 0", "not.wellformed:division.by.zero", "r % n", "3:8 5:13 div"),
    ("6:1 5:11 false", "the postcondition r % n == 0", "postcondition.violated:assertion.false", "r % n == 0", ""),
    ("6:1 5:13 div", "the postcondition n != 0", "postcondition.violated:division.by.zero", "r % n", "3:8 5:13 div"),
    ("8:3 8:10 false", "the assertion x.f == 1", "assert.failed:assertion.false", "x.f == 1", ""),
    ("8:3 8:22 false", "the assertion n > 2", "assert.failed:assertion.false", "n > 2", ""),
    ("9:3 9:16 perm", "the exhale of permission to x.f", "exhale.failed:insufficient.permission", "x.f", ""),
    ("10:3 2:40 perm", "the body of cell, permission to x.f", "fold.failed:insufficient.permission", "x.f", "2:1 2:40 perm"),
    ("11:3 11:14 amount", "the unfold of an amount of cell(x) that is positive", "unfold.failed:permission.not.positive", "cell(x)", ""),
    ("12:3 12:12 div", "r != 0", "inhale.failed:division.by.zero", "n \\ r", ""),
    ("13:3 13:35 perm", "the invariant permission to x.f where the loop begins", "invariant.not.established:insufficient.permission",
     "x.f", None),
    ("13:47 13:35 perm", "the invariant permission to x.f at the end of an iteration", "invariant.not.preserved:insufficient.permission", "x.f", ""),
    ("14:5 4:14 perm", "the precondition permission to x.f", "call.precondition:insufficient.permission", "x.f", "3:1 4:14 perm"),
    ("16:3 16:9 null", "x != null", "if.failed:receiver.null", "x.f", ""),
    ("16:18 16:20 perm", "permission to x.f", "assignment.failed:insufficient.permission", "x.f", ""),
)


class Labels(unittest.TestCase):
    def test_what_is_checked(self):
        for label, words, *_ in CASES:
            if SOURCE.at(*map(int, label.split()[1].split(":"))) is not None:
                self.assertEqual(naming.named(SOURCE, label), words, label)

    def test_the_identifier(self):
        for label, _, identifier, *_ in CASES:
            self.assertEqual(identifiers.identifier(SOURCE, label), identifier, label)

    def test_the_span(self):
        for label, _, _, text, _ in CASES:
            line, column = map(int, label.split()[1].split(":"))
            begin, end = span(SOURCE, line, column)
            self.assertEqual(SOURCE.line_text(line)[begin:end].decode(), text, label)

    def test_what_a_label_follows_from(self):
        for label, _, _, _, own in CASES:
            if own is not None:
                self.assertEqual(following.own_label(SOURCE, label), own, label)

    def test_a_statement_is_marked_whole(self):
        for place, text in (((14, 5), "r := callee(x, n)"), ((10, 3), "fold cell(x)"), ((13, 3), "while (r < x.f)"), ((6, 1), "{"), ((99, 1), None)):
            begin, end = span(SOURCE, *place)
            self.assertEqual(SOURCE.line_text(place[0])[begin:end].decode() if text else (begin, end), text or (0, 1), place)

    def test_the_document_has_the_table_of_identifiers(self):
        with open(os.path.join(TOP, "docs/failures.md"), encoding="utf-8") as it:
            page = it.read().partition("## Viper's identifiers")[2].partition("\n## From")[0]
        named = set(re.findall(r"`([a-z]+(?:\.[a-z]+)+)`", page))
        known = {*identifiers.STEPS.values(), *identifiers.REASONS.values(), identifiers.CALL, identifiers.CALLED, identifiers.CONTRACT,
                 identifiers.PREDICATE, identifiers.POSTCONDITION, identifiers.REACHED, identifiers.PRESERVED, identifiers.CONDITION}
        self.assertEqual(named, known)


class Colour(unittest.TestCase):
    def test_the_kind_and_the_mark_are_colored_and_nothing_else(self):
        for line in ("a.vpr:1:2: error: this", "a.vpr:1:2: warning: this: error: that", "    3 | text", "      |   ^^^", "viper run"):
            found = colour.colored(line)
            self.assertEqual(re.sub(r"\x1b\[[0-9;]*m", "", found), line)
            self.assertEqual("\x1b" in found, ": " in line or "^" in line, line)
        self.assertIn(f"{colour.OF_KIND['warning']}warning", colour.colored("a.vpr:1:2: warning: this: error: that"))

    def test_a_stream_that_is_no_terminal_gets_none(self):
        with open(os.devnull, "w") as it:
            self.assertEqual([colour.is_wanted(when, it) for when in ("auto", "always", "never")], [False, True, False])


if __name__ == "__main__":
    unittest.main()
