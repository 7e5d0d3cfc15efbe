"""Files that are refused, each a small one: the program's line for it, and what is told."""
import random
import unittest
from pathlib import Path

from verifying import refusals
from verifying.source import Source
from verifying.telling import error_lines

DOCS = Path(__file__).resolve().parent.parent.parent.parent / "docs"


def body(statements):
    return f"method m(x: Ref, n: Int, s: Ref) returns (r: Int) {{ {statements} }}"


MEANT = (
    ("methd m() {}", "syntax 1:1", "`methd` cannot stand here; did you mean `method`?"),
    ("method m(x: Int) requiers x > 0 {}", "syntax 1:18", "`requiers` cannot stand here; did you mean `requires`?"),
    ("method m(x: Int) { asert x > 0 }", "syntax 1:26", "`x` cannot stand here behind `asert`; did you mean `assert`?"),
    ("method m(x: Int) { whlie (x > 0) { } }", "syntax 1:34", "`{` cannot stand here behind `whlie`; did you mean `while`?"),
    ("method m(x: Bool) { if (x) { } esle { } }", "syntax 1:37", "`{` cannot stand here behind `esle`; did you mean `else`?"),
    ("method m(x: Itn) { }", "syntax 1:13", "`Itn` cannot stand here; did you mean `Int`?"),
    ("method m(count: Int) { assert coutn > 0 }", "type 1:31 rule 1", "no variable coutn is declared here; did you mean `count`?"),
    ("method m(x: Ref) { assert x != nul }", "type 1:32 rule 1", "no variable nul is declared here; did you mean `null`?"),
    ("method m(aa: Int, ab: Int) { assert ac > 0 }", "type 1:37 rule 1", "no variable ac is declared here"),
    ("method m(a: Int) { assert b > 0 }", "type 1:27 rule 1", "no variable b is declared here"),
    ("field value: Int method m(x: Ref) { assert x.vlaue > 0 }", "type 1:46 rule 1", "no field vlaue is declared; did you mean `value`?"),
    ("predicate cell(x: Ref) method m(x: Ref) { fold cel(x) }", "type 1:48 rule 1",
     "no predicate cel is declared; did you mean `cell`?"),
    ("method foo() method m(x: Ref) { fooo() }", "type 1:33 rule 1", "no method fooo is declared; did you mean `foo`?"),
)
SYNTAX = (
    ("method m() { var a: Int, b: Int }", "syntax 1:24", "`,` cannot stand here; a var declares one name; write `var` for each"),
    ("field f: Int, g: Int", "syntax 1:13", "`,` cannot stand here; a field declares one name; write `field` for each"),
    ("method m(b: Bool) { if (b) { } else if (!b) { } }", "syntax 1:37", "`if` cannot stand here; `else if` is written `elseif`"),
    (body("r := +1"), "syntax 1:58", "`+` cannot stand here; there is no sign +"),
    (body("r := 1 * +n"), "syntax 1:62", "`+` cannot stand here; there is no sign +"),
    (body("assert +n > 0"), "syntax 1:60", "`+` cannot stand here; there is no sign +"),
    (body("r++"), "syntax 1:54", "`+` cannot stand here; there is no ++; write `r := r + 1`"),
    (body("r += 1"), "bad-byte 1:56", "there is no `+=`; write `x := x + 1`"),
    (body("r = 1"), "bad-byte 1:55", "`=` alone is no sign: `:=` assigns, and `==` compares"),
    ("method m(b: Bool) { assert b & b }", "bad-byte 1:30", "`&` alone is no sign; write `&&`"),
    ("method m() { var x: T }", "syntax 1:21", "`T` cannot stand here; the types are Int, Bool, Ref and Perm"),
    ("method m() { var x := 3 }", "syntax 1:20", "`:=` cannot stand here; a variable is declared with its type, as in `var x: Int`"),
    ("field f: Int method m(x: Ref) requires acc(x.f, 0.5)", "syntax 1:51",
     "`5` cannot stand here; there are no decimals; a Perm is written as `1/2`"),
    ("field f: Int method c() returns (a: Int, b: Int) method m(x: Ref) { var b: Int x.f, b := c() }", "syntax 1:83",
     "`,` cannot stand here; a field is no target of a call"),
    (body("assert 0 <= n < 3"), "syntax 1:67", "`<` cannot stand here; comparisons do not stand in a row; join them by &&"),
    ("method m(b: Bool) { if b { } }", "syntax 1:24", "`b` cannot stand here; a condition stands in brackets, as in `if (b)`"),
    ("method m(b: Bool) { while b { } }", "syntax 1:27", "`b` cannot stand here; a condition stands in brackets, as in `while (b)`"),
    ("method m() { { var x: Int } }", "syntax 1:14", "`{` cannot stand here; a block stands behind `if`, `elseif`, `else` or `while`"),
    ("method m() { assert ) }", "syntax 1:21", "`)` cannot stand here"),
    ("method m(", "syntax 1:10", "the file ends too early: a `(` is open"),
    ("method m() { assert true", "syntax 1:25", "the file ends too early: a `{` is open"),
    ("field f:", "syntax 1:9", "the file ends too early"),
    ("method m() { assert 'a' == 1 }", "bad-byte 1:21", "no token begins with `'`"),
    ("method m() { /* no end }", "open-comment 1:14", "this comment has no end"),
    ("method m() { assert 170141183460469231731687303715884105728 > 0 }", "big-literal 1:21", "this number is above 2^127 - 1"),
    ("method m() { assert ~1 == 2 }", "bad-byte 1:21", "no token begins with `~`"),
    ("method m() { var \xe9: Int }", "bad-byte 1:18", "a byte above 127 may stand in comments alone"),
    ("method m() {\x00 }", "bad-byte 1:13", "no token begins with the byte 0"),
    ("method m(a: Bool, b: Bool) { assert a and b }", "syntax 1:43", "`b` cannot stand here; `and` is written &&"),
    ("method m(a: Bool) { assert not a }", "syntax 1:34", "`}` cannot stand here; `not` is written !"),
    ("method m(a: Int, b: Int) { var c: Int := a div b }", "syntax 1:48", "`b` cannot stand here; `div` is written \\"),
    ("method m(a: Int) { var c: Int if (a > 0) c := 1 }", "syntax 1:42",
     "`c` cannot stand here; a block in braces stands behind a condition"),
    ("method m(a: Ref) { a.run() }", "syntax 1:25", "`(` cannot stand here; a method has no receiver; a call is written run(..)"),
    ("method m(a: Bool) { assert a <=> a }", "syntax 1:32",
     "`>` cannot stand here; there is no <=>; equivalence is written <==>, and implication ==>"),
    ("method m(a: Bool) { assert a -> a }", "syntax 1:31",
     "`>` cannot stand here; there is no ->; equivalence is written <==>, and implication ==>"),
    ("method fold() { }", "syntax 1:8", "`fold` cannot stand here; `fold` is a word of the language, and no name"),
    ("method m(in: Int) { }", "syntax 1:10", "`in` cannot stand here; `in` is a word of the language, and no name"),
    ("method m() { var old: Int }", "syntax 1:18", "`old` cannot stand here; `old` is a word of the language, and no name"),
)
RULES = (
    ("method m() { assert x > 0 }", "type 1:21 rule 1", "no variable x is declared here"),
    ("method m() { if (true) { var x: Int } assert x > 0 }", "type 1:46 rule 1", "variable x is not visible here"),
    ("method m(x: Ref) { assert x.f > 0 }", "type 1:29 rule 1", "no field f is declared"),
    ("method m(x: Ref) { inhale P(x) }", "type 1:27 rule 1",
     "no predicate P is declared; functions are not in the language (docs/language.md)"),
    ("method m(x: Ref) { foo(x) }", "type 1:20 rule 1", "no method foo is declared"),
    ("method m(x: Ref) { var y: Ref y := foo(x) }", "type 1:36 rule 1", "no method foo is declared"),
    ("method c(x: Ref) method m(x: Ref) { assert c(x) }", "type 1:44 rule 1",
     "no predicate c is declared; c is a method, and a call stands alone, or as a whole right side"),
    ("predicate P(x: Ref) method m(x: Ref) { P(x) }", "type 1:40 rule 1", "no method P is declared; P is a predicate"),
    ("field f: Int method m() { assert f > 0 }", "type 1:34 rule 1",
     "no variable f is declared here; f is a field, and a field is read of a Ref, as in x.f"),
    ("method m() { var x: Ref x := new(g) }", "type 1:34 rule 1", "no field g is declared"),
    ("method m(x: Ref, x: Int)", "type 1:18 rule 2", "declared twice: x"),
    ("field f: Int field f: Ref", "type 1:20 rule 2", "declared twice: f"),
    ("method m() { var y: Int if (true) { var y: Int } }", "type 1:41 rule 2", "declared twice: y"),
    ("method f() predicate f()", "type 1:22 rule 2", "declared twice: f"),
    ("method m(a: Int, b: Int) returns (c: Int) { c := a / b }", "type 1:50 rule 3",
     "what stands here is to be an Int, and `a / b` is a Perm: / gives a Perm, and \\ divides Ints"),
    ("method m(a: Int, b: Int) { assert a / b + 1 > 0 }", "type 1:41 rule 3",
     "`+` takes two Ints, or two Perms, and here are a Perm and an Int: / gives a Perm, and \\ divides Ints"),
    ("method m(a: Int) { if (a) { } }", "type 1:24 rule 3", "what stands here is to be a Bool, and `a` is an Int"),
    ("method m(a: Int) { while (a + 1) { } }", "type 1:27 rule 3", "what stands here is to be a Bool, and `a + 1` is an Int"),
    ("method m(a: Int) { assert !a }", "type 1:27 rule 3", "`!` takes a Bool, and here is an Int"),
    ("method m(a: Bool) { assert -a == 1 }", "type 1:28 rule 3", "`-` takes an Int or a Perm, and here is a Bool"),
    ("method m(a: Bool) { assert a ? 1 == 1 : 2 }", "type 1:41 rule 3", "what is asserted is a Bool, and `2` is an Int"),
    ("method m(a: Bool, r: Ref) { var i: Int := a ? 1 : r }", "type 1:45 rule 3",
     "`?:` takes a Bool and two of one type, and here are an Int and a Ref"),
    ("method m(a: Int) { assert a }", "type 1:27 rule 3", "what is asserted is a Bool, and `a` is an Int"),
    ("field f: Int method m(a: Int) { assert a.f > 0 }", "type 1:42 rule 3", "a field is read of a Ref, and here of an Int"),
    ("field f: Int method m(x: Ref, n: Int) requires acc(x.f, n)", "type 1:57 rule 3", "an amount is a Perm, and `n` is an Int"),
    ("predicate P(x: Ref) method m(n: Int) requires P(n)", "type 1:49 rule 3", "`x` of P is a Ref, and `n` is an Int"),
    ("method c(x: Ref) method m(n: Int) { c(n + 1) }", "type 1:39 rule 3", "what stands here is to be a Ref, and `n + 1` is an Int"),
    ("field f: Int method m(x: Ref) { x.f := true }", "type 1:40 rule 3", "what stands here is to be an Int, and `true` is a Bool"),
    ("method m(a: Int, b: Bool) { assert a == b }", "type 1:38 rule 3", "`==` takes two of one type, and here are an Int and a Bool"),
    ("method m(a: Int) requires a ==> true", "type 1:27 rule 3", "what is asserted is a Bool, and `a` is an Int"),
    ("field f: Int method m(x: Ref) { assert !acc(x.f) }", "type 1:41 rule 4",
     "`acc` is permission, which may stand alone, beside `&&`, behind `==>` and in the sides of `?:`, and not inside an expression"),
    ("predicate P() method m(b: Bool) { assert b || P() }", "type 1:47 rule 4",
     "`P` is permission, which may stand alone, beside `&&`, behind `==>` and in the sides of `?:`, and not inside an expression"),
    ("method m(n: Int) requires old(n) == n", "type 1:27 rule 5", "`old` has no meaning in a precondition"),
    ("predicate P(n: Int) { old(n) == n }", "type 1:23 rule 5", "`old` has no meaning in the body of a predicate"),
    ("field f: Int predicate P(x: Ref) { acc(x.f, wildcard) }", "type 1:45 rule 6",
     "`wildcard` may stand only as the whole amount of an `acc`, and not in the body of a predicate, a fold, an unfold or an unfolding"),
    ("method m() { var p: Perm := wildcard }", "type 1:29 rule 6",
     "`wildcard` may stand only as the whole amount of an `acc`, and not in the body of a predicate, a fold, an unfold or an unfolding"),
    ("predicate P() method m() { fold P() }", "type 1:33 rule 7", "predicate P has no body, so it cannot be folded or unfolded"),
    ("method m(n: Int) { n := 1 }", "type 1:20 rule 8", "n is a parameter, and a parameter cannot be assigned"),
    ("method c(x: Int) method m() { c() }", "type 1:31 rule 9", "c takes 1 argument"),
    ("predicate P(x: Int, y: Int) method m() { assert P(1) }", "type 1:49 rule 9", "P takes 2 arguments"),
    ("method c() returns (a: Int, b: Int) method m() { var a: Int a := c() }", "type 1:66 rule 10",
     "c gives 2 results, and so many targets it needs"),
    ("field f: Int method c() returns (a: Int) method m(x: Ref) { x.f := c() }", "type 1:68 rule 10",
     "a field is no target of a call; take a variable, and assign it to the field"),
    ("field f: Ref method m(x: Ref) { x.f := new(f) }", "type 1:40 rule 10",
     "a field is no target of a new; take a variable, and assign it to the field"),
    ("method c() returns (a: Int, b: Int) method m() { var a: Int a, a := c() }", "type 1:64 rule 11", "a is a target twice"),
    ("method m(x: Ref) { inhale acc(x) }", "type 1:27 rule 12", "`acc` takes a field, as in acc(x.f), or a predicate, as in acc(P(x))"),
    ("predicate P(p: Perm)", "type 1:13 rule 13", "p is a parameter of a predicate, and cannot be a Perm"),
    ("field f: Int method m() { var x: Ref x := new(f, f) }", "type 1:50 rule 14", "f is named twice in this new"),
    ("method m(b: Bool) { if (b) { } " + "elseif (b) { } " * 128 + "}", "type 1:1933 rule 15", "blocks are more than 128 deep here"),
    ("field f: Int predicate Q(x: Ref) { acc(x.f) } predicate P(x: Ref) { Q(x) && unfolding Q(x) in x.f > 0 }", "type 1:77 rule 16",
     "`unfolding` may not stand in the body of a predicate"),
    ("field f: Int method m(x: Ref) { x.f := x.f / 2 }", "type 1:40 rule 3",
     "what stands here is to be an Int, and `x.f / 2` is a Perm: / gives a Perm, and \\ divides Ints"),
    ("method m(i: Int, n: Int) { while (i < n / 2) { } }", "type 1:37 rule 3",
     "`<` takes two Ints, or two Perms, and here are an Int and a Perm: / gives a Perm, and \\ divides Ints"),
    ("method c(n: Int) method m(n: Int) { c(n / 2) }", "type 1:39 rule 3",
     "what stands here is to be an Int, and `n / 2` is a Perm: / gives a Perm, and \\ divides Ints"),
    ("method c() returns (n: Int) method m() { var x: Ref x := c() }", "type 1:53 rule 3", "c gives an Int, and x is a Ref"),
    ("method m() { var x: Int x := new() }", "type 1:25 rule 3", "a new gives a Ref, and x is an Int"),
    ("field f: Int method m(x: Ref) { if (x.f) { } elseif (x.f > 0) { } }", "type 1:37 rule 3",
     "what stands here is to be a Bool, and `x.f` is an Int"),
    ("method m() { var x: Bool := 1 }", "type 1:29 rule 3", "what stands here is to be a Bool, and `1` is an Int"),
    ("method c(n: Int) returns (r: Int) method m(n: Int) { var k: Int := c(n) + 1 }", "type 1:68 rule 4",
     "c is a method; a call stands alone, or as a whole right side, and not inside an expression"),
    ("method m(n: Int) { var k: Int := fac(n) + 1 }", "type 1:34 rule 4",
     "no predicate fac is declared; functions are not in the language (docs/language.md)"),
    ("method m(a: Int, r: Ref) { var i: Int := a ? a : r }", "type 1:44 rule 3",
     "`?:` takes a Bool and two of one type, and here are an Int, an Int and a Ref"),
    ("method m(r: Ref) { assert r * 1 == 1 }", "type 1:29 rule 3",
     "`*` takes an Int or a Perm on each side, and here are a Ref and an Int"),
    ("method m(r: Ref) { assert r <= r }", "type 1:29 rule 3", "`<=` takes two Ints, or two Perms, and here are a Ref and a Ref"),
    ("method m(p: Perm) { assert p \\ 2 == p }", "type 1:30 rule 3", "`\\` takes two Ints, and here are a Perm and an Int"),
    ("method m(p: Perm, b: Bool) { assert p / b == p }", "type 1:39 rule 3",
     "`/` takes an Int or a Perm, by an Int, and here are a Perm and a Bool"),
)


class Refusals(unittest.TestCase):
    def each(self, cases):
        for text, line, words in cases:
            with self.subTest(text):
                told = refusals.told(Source("file.vpr", text.encode("latin-1")), f"error: {line}\n")
                self.assertEqual(told.message, words)
                self.assertEqual([told.line, told.column], list(map(int, line.split()[1].split(":"))))

    def test_tokens_and_grammar(self):
        self.each(SYNTAX)

    def test_what_was_meant(self):
        self.each(MEANT)

    def test_types(self):
        self.each(RULES)

    def test_each_rule_has_a_case(self):
        self.assertEqual({int(line.split()[-1]) for _, line, _ in RULES}, set(refusals.RULES))

    def test_the_file_as_a_whole(self):
        source = Source("file.vpr", b"method m()")
        for reason, words in (("size", "the file has more than 1,048,576 bytes"), ("weight 100001", "the program weighs more than")):
            told = refusals.told(source, f"error: {reason}")
            self.assertEqual((told.line, told.column, told.message[:len(words)]), (1, 1, words))
            self.assertEqual(error_lines(source, told), [f"file.vpr:1:1: error: {told.message}"])

    def test_notes(self):
        told = refusals.told(Source("file.vpr", b"field f: Int\nmethod f()"), "error: type 2:8 rule 2")
        self.assertEqual(told.notes, [(1, 7, "the first declaration")])
        for text, line, first in (
                (b"method m(y: Ref, x: Ref, x: Int)", "1:26", (1, 18)), (b"method m(x: Int) returns (x: Int)", "1:27", (1, 10)),
                (b"method m() { var y: Int if (true) { var y: Int } }", "1:41", (1, 18)),
                (b"method m() { if (true) { var y: Int } var y: Int var y: Int }", "1:54", (1, 43))):
            told = refusals.told(Source("file.vpr", text), f"error: type {line} rule 2")
            self.assertEqual(told.notes, [(*first, "the first declaration")])
        told = refusals.told(Source("file.vpr", b"field f: Int\nmethod m() { assert f > 0 }"), "error: type 2:21 rule 1")
        self.assertEqual(told.notes, [(1, 7, "declared here")])
        told = refusals.told(Source("file.vpr", b"method m() {\n  if (true) {"), "error: syntax 2:14")
        self.assertEqual(told.notes, [(2, 13, "this one")])

    def test_the_lines(self):
        source = Source("a.vpr", b"method m() {\n\tassert old[l](x)\n}\n")
        self.assertEqual(error_lines(source, refusals.told(source, "error: syntax 2:12")), [
            "a.vpr:2:12: error: labels and old[label] are not in the language, which is a subset of Viper (docs/language.md)",
            "    2 | \tassert old[l](x)",
            "      | \t          ^"])

    def test_what_nobody_says_is_told_as_it_is(self):
        self.assertEqual(refusals.told(Source("a.vpr", b""), "Killed").message, "the file is refused: Killed")


class Documents(unittest.TestCase):
    def setUp(self):
        self.texts = [(DOCS / it).read_text() for it in ("typing.md", "language.md", "tokens.md")]

    def test_the_tables_agree(self):
        self.assertEqual(refusals.differences(*self.texts), [])

    def test_a_difference_is_told(self):
        typing, language, tokens = self.texts
        self.assertEqual(len(refusals.differences(typing.replace("| 8 | a parameter", "| 8 | some parameter"), language, tokens)), 1)
        self.assertEqual(len(refusals.differences(typing, language.replace("`error: size`", "`error: length`"), tokens)), 2)
        self.assertEqual(len(refusals.differences(typing, language, tokens.replace("`goto`, ", ""))), 1)


class AnyBytes(unittest.TestCase):
    def test_nothing_goes_wrong(self):
        chance = random.Random(3)
        reasons = [it for it in refusals.REASONS if it not in ("size", "weight", "read", "type")] + [f"type {it}" for it in range(20)]
        for text, _, _ in SYNTAX + RULES:
            data = bytearray(text.encode("latin-1")[:400])
            for _ in range(6):
                data[chance.randrange(len(data))] = chance.choice(b"{}()[].,:=x0 \n\t\"/*")
                source = Source("file.vpr", bytes(data))
                place = f"{chance.randrange(3)}:{chance.randrange(len(data) + 3)}"
                for reason in reasons:
                    first, _, rule = reason.partition(" ")
                    told = refusals.told(source, f"error: {first} {place}" + (f" rule {rule}" if rule else ""))
                    self.assertTrue(told.message and "\n" not in told.message)
                    self.assertTrue(error_lines(source, told))


if __name__ == "__main__":
    unittest.main()
