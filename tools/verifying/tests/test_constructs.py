"""Constructs of Viper that are outside of the language, each in a small file: the program's line for it, and what is told."""
import unittest

from verifying import refusals
from verifying.source import Source

OUTSIDE = " not in the language, which is a subset of Viper (docs/language.md)"


def body(statements):
    return f"method m(x: Ref, n: Int, s: Ref) returns (r: Int) {{ {statements} }}"


CONSTRUCTS = (
    ("function f(x: Int): Int { x + 1 }", "unsupported 1:1", "functions are"),
    ("function f(x: Ref): Bool requires acc(x.f) { result }", "unsupported 1:1", "functions are"),
    ("domain D { function g(): D axiom a { g() == g() } }", "unsupported 1:1", "domains are"),
    ("method m() { } axiom a { true }", "unsupported 1:16", "domains and their axioms are"),
    ("method m() { var unique: Int }", "unsupported 1:18", "domains and their unique functions are"),
    ("import \"a.vpr\"", "bad-byte 1:8", "imports are"),
    ("import <decreases/int.vpr>", "unsupported 1:1", "imports are"),
    ("define twice(x) (x + x)", "unsupported 1:1", "macros (define) are"),
    (body("label l"), "unsupported 1:53", "labels and old[label] are"),
    (body("assert old[l](n) == n"), "syntax 1:63", "labels and old[label] are"),
    ("field f: Int method m(x: Ref) { label a x.f := 1 assert old[a](x.f) == 0 }", "unsupported 1:33", "labels and old[label] are"),
    (body("goto l"), "unsupported 1:53", "goto is"),
    (body("assert forall i: Int :: i == i"), "unsupported 1:60", "quantifiers and quantified permissions (forall) are"),
    ("field f: Int method m(s: Ref) requires forall i: Ref :: i != s ==> acc(i.f)", "unsupported 1:40",
     "quantifiers and quantified permissions (forall) are"),
    (body("assert exists i: Int :: i == n"), "unsupported 1:60", "quantifiers (exists) are"),
    ("field f: Int method m() requires forperm y: Ref [y.f] :: y.f > 0", "unsupported 1:34", "quantifiers (forperm) are"),
    (body("assert let y == (n) in y == n"), "unsupported 1:60", "let is"),
    ("field f: Int method m(x: Ref) { assert perm(x.f) == write }", "unsupported 1:40", "perm is"),
    ("field f: Int method m(x: Ref) requires acc(x.f, epsilon)", "unsupported 1:49", "epsilon is"),
    (body("var q: Seq[Int]"), "unsupported 1:60", "sequences are"),
    (body("assert Seq(1, 2) == Seq(1, 2)"), "unsupported 1:60", "sequences are"),
    (body("var q: Set[Int]"), "unsupported 1:60", "sets are"),
    (body("var q: Multiset[Int]"), "unsupported 1:60", "multisets are"),
    (body("var q: Map[Int, Int]"), "unsupported 1:60", "maps are"),
    ("method m(p: Rational)", "unsupported 1:13", "the type Rational is"),
    ("field f: Int method m(x: Ref) { package acc(x.f) --* true }", "unsupported 1:33", "magic wands (package) are"),
    ("field f: Int method m(x: Ref) { apply acc(x.f) --* true }", "unsupported 1:33", "magic wands (apply) are"),
    ("field f: Int method m(x: Ref) { assert applying (acc(x.f) --* true) in true }", "unsupported 1:40", "magic wands (applying) are"),
    ("field f: Int method m(x: Ref) requires acc(x.f) --* acc(x.f)", "syntax 1:51", "magic wands (--*) are"),
    ("field f: Int method m(x: Ref) { exhale acc(x.f) --* true }", "syntax 1:51", "magic wands (--*) are"),
    (body("refute n > 0"), "unsupported 1:53", "refute is"),
    ("method m(n: Int) decreases n", "unsupported 1:18", "termination measures (decreases) are"),
    ("method m(n: Int) { while (n > 0) decreases n { } }", "unsupported 1:34", "termination measures (decreases) are"),
    ("@verified(1) method m()", "bad-byte 1:1", "annotations (@) are"),
    ("method m() { @weight(\"10\") assert true }", "bad-byte 1:14", "annotations (@) are"),
    ("method m() { inhale [true, false] }", "syntax 1:21", "inhale-exhale assertions, as [A, B], are"),
    ("method m(b: Bool) requires [b, true] && b", "syntax 1:28", "inhale-exhale assertions, as [A, B], are"),
    ("method m(b: Bool) ensures b && [b, true]", "syntax 1:32", "inhale-exhale assertions, as [A, B], are"),
    (body("r := s[0]"), "syntax 1:59", "sequences and maps, as s[i], are"),
    (body("r := s[0..2]"), "syntax 1:59", "sequences and maps, as s[i], are"),
    (body("assert |s| > 0"), "bad-byte 1:60", "lengths, as |s|, are"),
    (body("assert n in s"), "syntax 1:62", "sets and sequences, and `in` on them, are"),
    (body("assert n !in s"), "syntax 1:62", "sets and sequences, and `in` on them, are"),
    (body("var q: Ref := s ++ s"), "syntax 1:70", "sequences and their ++ are"),
    (body("var q: Ref := s union s"), "syntax 1:75", "sets (union) are"),
    (body("var q: Ref := s intersection s"), "syntax 1:82", "sets (intersection) are"),
    (body("var q: Ref := s setminus s"), "syntax 1:78", "sets (setminus) are"),
    (body("assert s subset s"), "syntax 1:69", "sets (subset) are"),
    (body("havoc r"), "syntax 1:59", "havoc is"),
    (body("quasihavoc x.f"), "syntax 1:64", "quasihavoc is"),
    (body("quasihavocall z: Ref :: z.f"), "syntax 1:67", "quasihavoc is"),
    (body("return n"), "syntax 1:60", "return is"),
    (body("constraining (n) { assert true }"), "syntax 1:70", "constraining is"),
    (body("r := asserting (n > 0) in n"), "syntax 1:76", "asserting is"),
    ("adt List[T] { Nil() Cons(head: T, tail: List[T]) }", "syntax 1:1", "algebraic data types (adt) are"),
    ("method m(l: List[Int])", "syntax 1:13", "types with parameters are"),
    ("method m(x: Ref) { assert #E == x }", "bad-byte 1:27", "names with # are"),
    (body("fresh r"), "syntax 1:59", "fresh is"),
)


class Constructs(unittest.TestCase):
    def test_each_is_named(self):
        for text, line, words in CONSTRUCTS:
            with self.subTest(text):
                told = refusals.told(Source("file.vpr", text.encode()), f"error: {line}")
                self.assertEqual(told.message, words + OUTSIDE)
                self.assertEqual([told.line, told.column], list(map(int, line.split()[1].split(":"))))

    def test_each_refused_word_is_among_them(self):
        told = set()
        for text, line, _ in CONSTRUCTS:
            reason, place = line.split()
            source = Source("file.vpr", text.encode())
            if reason == "unsupported":
                told.add(source.said(source.at(*map(int, place.split(":")))))
        self.assertEqual(told, set(refusals.subset.REFUSED))


if __name__ == "__main__":
    unittest.main()
