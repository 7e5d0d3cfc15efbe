"""Labels in words: the place, the message and the notes for each kind of step. The labels are those of the translations."""
import random
import unittest

from verifying import failures, following, identifiers, naming
from verifying.failures import Told
from verifying.source import Source
from verifying.telling import error_lines

CROWDED = Source("crowded.vpr", """\
// method while { requires
field f: Int field method$: Ref
/* predicate while (x) { } \u00e9 */ predicate cell(x: Ref) { acc(x.f) && x.f > 0 } method cell'(x: Ref) requires cell(x) ensures cell(x)
method while$(x: Ref, n: Int) returns (r: Int) requires acc(x.f) /* { invariant } */ && n \\ x.f > 0; ensures acc(x.f, 1/2) && (r > 0) // }
{ r := 0 while (r < n) invariant r >= 0 && acc(x.f) \
invariant 1 \\ n == 0 { r := r - 1 while (r > 0) invariant r != 7 { r := x.f } } x.f := r
\tvar y: Ref y := x.method$ cell'(
    x
  ) if (r > 0) { assert true } elseif (x.f > 0) { x.f := 1 } }""".encode())
LIST = Source("list.vpr", b"""\
field val: Int\r
field next: Ref\r
predicate list(x: Ref) { acc(x.val) && acc(x.next) && (x.next != null ==> list(x.next)) }\r
method m(x: Ref, k: Int) returns (v: Int)\r
  requires list(x) && (unfolding list(x) in x.val) > 0\r
  ensures list(x) && (unfolding acc(list(x), 1/k) in x.val) > v\r
{\r
  unfold acc(list(x), 1/k)\r
  v := unfolding list(x.next) in x.next.val\r
  fold acc(list(x), 1/k)\r
  exhale acc(list(x), wildcard) && acc(x.val, wildcard)\r
  assert v == 1 ? acc(x.val) : (v == 2 && (v > 3 || v < 0))\r
  var w: Int := m(x, 0)\r
  assert v == w &&\r
    ((w > 0))\r
}""")
READ = "`x.f` is read, and might not be held"
OF_LOOP = "the loop begins here"
OF_LIST, IN_LIST = "this part of the body of predicate `list`", "in the body of predicate `list`"
CROWDED_CASES = (
    ("3:34 3:73 null", Told(3, 73, "the body of predicate `cell` might not be well-defined by itself: `x.f` is read, and `x` might be null")),
    ("4:1 4:95 perm", Told(4, 95, "the precondition of `while$` might not be well-defined by itself: `x.f` is read, and might not be held")),
    ("4:1 4:91 div", Told(4, 93, "the precondition of `while$` might not be well-defined by itself: the divisor `x.f` might be 0")),
    ("5:10 5:34 false", Told(5, 34, "an invariant might not hold where the loop begins: `r >= 0` might be false", [(5, 10, OF_LOOP)])),
    ("5:10 5:50 perm", Told(5, 50, "an invariant might not hold where the loop begins: there might be too little permission to `x.f`",
                            [(5, 10, OF_LOOP)])),
    ("5:10 5:65 div", Told(5, 67, "an invariant might not be well-defined: the divisor `n` might be 0", [(5, 10, OF_LOOP)])),
    ("5:87 5:111 false", Told(5, 111, "an invariant might not hold where the loop begins: `r != 7` might be false", [(5, 87, OF_LOOP)])),
    ("5:118 5:111 false", Told(5, 111, "an invariant might not hold at the end of an iteration: `r != 7` might be false")),
    ("5:74 5:65 div", Told(5, 67, "an invariant might not be well-defined at the end of an iteration: the divisor `n` might be 0")),
    ("5:120 5:127 perm", Told(5, 127, "`x.f` is read, and might not be held")),
    ("5:133 5:135 null", Told(5, 135, "`x.f` is written, and `x` might be null")),
    ("5:133 5:135 perm", Told(5, 135, "`x.f` is written, and might not be held in full")),
    ("6:13 6:20 null", Told(6, 20, "`x.method$` is read, and `x` might be null")),
    ("6:28 3:111 perm", Told(6, 28, "a precondition of `cell'` might not hold at this call: there might be too little permission to `cell(x)`",
                             [(3, 111, "this part of the precondition")])),
    ("8:18 8:25 false", Told(8, 25, "this assert might fail: `true` might be false")),
    ("8:32 8:42 null", Told(8, 42, "`x.f` is read, and `x` might be null")),
    ("5:1 4:128 false", Told(4, 128, "a postcondition of `while$` might not hold at the end of the body: `r > 0` might be false")),
    ("4:8 4:116 negative", Told(4, 119, "the postcondition of `while$` might not be well-defined by itself: "
                                        "the amount `1/2` of `x.f` might be negative")),
)
LIST_CASES = (
    ("4:1 5:34 perm", Told(5, 34, "the precondition of `m` might not be well-defined by itself: "
                                  "`list(x)` is unfolded, and too little of it might be held")),
    ("4:1 3:82 null", Told(5, 24, "the precondition of `m` opens `list`, whose body might not be well-defined: "
                                 "`x.next` is read, and `x` might be null", [(3, 82, IN_LIST)])),
    ("8:3 8:14 amount", Told(8, 23, "the amount `1/k` of `list(x)` might not be positive")),
    ("8:3 8:14 perm", Told(8, 14, "this unfold might fail: there might be too little permission to `list(x)`")),
    ("8:3 3:58 perm", Told(8, 3, "the body of `list` might not be well-defined in this unfold: `x.next` is read, and might not be held",
                           [(3, 58, OF_LIST)])),
    ("9:3 9:18 perm", Told(9, 18, "`list(x.next)` is unfolded, and too little of it might be held")),
    ("9:3 9:41 null", Told(9, 41, "`x.next.val` is read, and `x.next` might be null")),
    ("9:3 3:58 perm", Told(9, 8, "an unfolding here opens `list`, whose body might not be well-defined: "
                                 "`x.next.next` is read, and might not be held",
                           [(3, 58, f"{IN_LIST}, where `x` of `list` is `x.next` in this unfolding")])),
    ("10:3 3:75 perm", Told(10, 3, "this fold might fail: there might be too little permission to `list(x.next)`", [(3, 75, OF_LIST)])),
    ("11:3 11:42 perm", Told(11, 42, "this exhale might fail: there might be no permission to `x.val`")),
    ("12:3 12:25 perm", Told(12, 25, "this assert might fail: there might be too little permission to `x.val`")),
    ("12:3 12:44 false", Told(12, 44, "this assert might fail: `v > 3 || v < 0` might be false")),
    ("13:3 5:12 perm", Told(13, 3, "a precondition of `m` might not hold at this call: there might be too little permission to `list(x)`",
                            [(5, 12, "this part of the precondition")])),
    ("13:3 6:47 div", Told(13, 3, "a postcondition of `m` might not be well-defined at this call: the divisor `0` is 0",
                           [(6, 48, "this part of the postcondition, where `k` of `m` is `0` in this call")])),
    ("13:3 3:58 null", Told(13, 3, "this call opens `list`, whose body might not be well-defined: `x.next` is read, and `x` might be null",
                            [(3, 58, IN_LIST)])),
    ("14:3 15:7 false", Told(15, 7, "this assert might fail: `w > 0` might be false", [(14, 3, "the assert begins here")])),
    ("7:1 3:58 null", Told(6, 23, "a postcondition of `m`, at the end of the body, opens `list`, whose body might not be well-defined: "
                                  "`x.next` is read, and `x` might be null", [(3, 58, IN_LIST)])),
    ("7:1 6:37 perm", Told(6, 37, "a postcondition of `m` might not be well-defined at the end of the body: "
                                  "`list(x)` is unfolded, and too little of it might be held")),
    ("7:1 6:23 false", Told(6, 23, "a postcondition of `m` might not hold at the end of the body: "
                                   "`(unfolding acc(list(x), 1/k) in x.val) > v` might be false")),
)
SMALL_CASES = (
    ("method m() { inhale null == null fold P(1) }\npredicate P(n: Int) { n > 3 }", "1:34 2:23 false",
     Told(1, 34, "this fold might fail: `1 > 3` might be false",
          [(2, 23, "this part of the body of predicate `P`, where `n` of `P` is `1` in this fold")])),
    ("method c(a: Int, b: Int) returns (r: Int) requires a > b ensures r \\ a > 0\nmethod m(a: Int) { var x: Int x := c(a, (a + 1)) }",
     "2:31 1:52 false",
     Told(2, 31, "a precondition of `c` might not hold at this call: `a > (a + 1)` might be false",
          [(1, 52, "this part of the precondition, where `b` of `c` is `a + 1` in this call")])),
    ("method c(a: Int, b: Int) returns (r: Int) requires a > b ensures 1 \\ r > 0\nmethod m(a: Int) { var x: Int x := c(a, (a + 1)) }",
     "2:31 1:68 div",
     Told(2, 31, "a postcondition of `c` might not be well-defined at this call: the divisor `x` might be 0",
          [(1, 70, "this part of the postcondition, where `r` of `c` is `x` in this call")])),
    ("field f: Ref method m() { assert null.f == null }", "1:27 1:39 null", Told(1, 39, "`null.f` is read, and `null` is null")),
    ("field f: Int method m(x: Ref) { inhale x.f \\ 2 == 1 assume x.f == 2 }", "1:53 1:62 perm",
     Told(1, 62, "`x.f` is read, and might not be held")),
    ("field f: Int method m(x: Ref) { if (x.f > 0) { } }", "1:33 1:39 perm", Told(1, 39, "`x.f` is read, and might not be held")),
    ("field f: Int method m(x: Ref) { while (x.f > 0) { } }", "1:33 1:42 perm", Told(1, 42, "`x.f` is read, and might not be held")),
    ("method m() requires false { m() }", "1:29 1:21 false",
     Told(1, 29, "a precondition of `m` might not hold at this call: `false` might be false", [(1, 21, "this part of the precondition")])),
)


class Failures(unittest.TestCase):
    def each(self, source, cases):
        for label, told in cases:
            with self.subTest(label):
                self.assertEqual(failures.told(source, label), told)

    def test_a_crowded_file(self):
        self.each(CROWDED, CROWDED_CASES)

    def test_a_list(self):
        self.each(LIST, LIST_CASES)

    def test_small_files(self):
        for text, label, told in SMALL_CASES:
            self.each(Source("small.vpr", text.encode()), [(label, told)])

    def test_null_and_permission_of_one_access_are_one(self):
        labels = ["5:120 5:127 null", "8:18 8:25 false", "5:120 5:127 perm", "8:32 8:42 perm"]
        self.assertEqual(failures.joined(CROWDED, labels), [
            (Told(5, 127, READ), ["5:120 5:127 null", "5:120 5:127 perm"]),
            (failures.told(CROWDED, "8:18 8:25 false"), ["8:18 8:25 false"]),
            (failures.told(CROWDED, "8:32 8:42 perm"), ["8:32 8:42 perm"])])

    def test_what_does_not_fit_is_told_plainly(self):
        self.assertEqual(failures.told(LIST, "7:1 3:32 perm"), Told(7, 1, "there might be too little permission", [(3, 32, "this part")]))
        self.assertEqual(failures.told(LIST, "12:3 12:25 false"), Told(12, 3, "this might not hold", [(12, 25, "this part")]))
        self.assertEqual(failures.told(LIST, "99:1 99:1 div"), Told(99, 1, "a divisor might be 0"))
        self.assertEqual(failures.told(LIST, "no label"), Told(1, 1, "no label"))

    def test_the_lines(self):
        self.assertEqual(error_lines(LIST, failures.told(LIST, "7:1 6:11 perm")), [
            "list.vpr:6:11: error: a postcondition of `m` might not hold at the end of the body: "
            "there might be too little permission to `list(x)`",
            "    6 |   ensures list(x) && (unfolding acc(list(x), 1/k) in x.val) > v",
            "      |           ^^^^^^^"])


class AnyLabel(unittest.TestCase):
    def test_each_pair_of_tokens_has_words(self):
        for source in (CROWDED, LIST):
            places = [f"{it.line}:{it.column}" for it in source.tokens]
            for at in places[::25]:
                for part in places:
                    for kind in failures.PLAIN:
                        told = failures.told(source, f"{at} {part} {kind}")
                        self.assertTrue(told.message and told.line > 0, (at, part, kind))

    def test_any_bytes(self):
        chance = random.Random(5)
        for n in range(80):
            data = bytearray((CROWDED if n % 2 else LIST).data)
            for _ in range(chance.randrange(1, 40)):
                at = chance.randrange(len(data))
                data[at:at + chance.randrange(4)] = bytes(chance.choices(b"{}()[]?:.,=\n\t\r /*\"'$x1!&|\xc3\x00", k=chance.randrange(3)))
            source = Source("any.vpr", bytes(data))
            for _ in range(20):
                at, part = (chance.choice(source.tokens) for _ in range(2))
                label = f"{at.line}:{at.column} {part.line}:{part.column} {chance.choice(list(failures.PLAIN)[:6])}"
                told = failures.told(source, label)
                for it in (naming.named, identifiers.identifier, following.own_label, following.home_of):
                    self.assertIsInstance(it(source, label), str)
                self.assertTrue(error_lines(source, told)[0].startswith("any.vpr:"))

    def test_a_long_term_is_no_deep_one(self):
        deep = "(" * 300 + "x" + ")" * 300 + " == " + "-" * 300 + "1" + " && true" * 200
        source = Source("deep.vpr", f"method m(x: Int) {{ assert {deep} }}".encode())
        self.assertEqual(failures.told(source, "1:20 1:327 false").message.count("might be false"), 1)


if __name__ == "__main__":
    unittest.main()
