"""The tokens of a file, their places, and what they show: units, variables, braces, clauses, statements and terms."""
import random
import time
import unittest

from verifying.source import Source
from verifying.terms import Statement, Term, nodes_of, parts_of, spelled, statement_around


def source_of(text):
    return Source("file.vpr", text if isinstance(text, bytes) else text.encode())


def token(source, text, number=1):
    """The number of the n-th token with a text."""
    return [n for n, it in enumerate(source.tokens) if it.text == text][number - 1]


class Tokens(unittest.TestCase):
    def test_places_count_bytes(self):
        source = source_of("field f: Int // \u00e9\u00e9\r\n\t/* \u00e9 \n { */ method m()")
        self.assertEqual(source.place(token(source, "method")), (3, 7))
        self.assertEqual(source.line_text(1), "field f: Int // \u00e9\u00e9".encode())
        self.assertEqual(source.line_text(3), b" { */ method m()")
        self.assertEqual([source.at(3, 7), source.at(3, 8)], [token(source, "method"), None])

    def test_a_comment_and_a_sign(self):
        source = source_of("a/b //*\n/*/ c */ d<==>e:=f'$ 1x")
        self.assertEqual([it.text for it in source.tokens], ["a", "/", "b", "d", "<==>", "e", ":=", "f'$", "1", "x"])

    def test_an_open_comment(self):
        source = source_of("method m()\n  /* {\n")
        self.assertEqual([source.unclosed, len(source.tokens), len(source.lines)], [(2, 3), 4, 3])

    def test_words_are_no_names(self):
        kinds = {it.text: it.kind for it in source_of("while while$ method' 1 # :=").tokens}
        self.assertEqual(kinds, {"while": "word", "while$": "name", "method'": "name", "1": "number", "#": "odd", ":=": "sign"})

    def test_a_large_file_is_read_in_linear_time(self):
        small, large = (self.seconds(n) for n in (2_000, 16_000))
        self.assertLess(large, 24 * small + 0.2)

    def seconds(self, n):
        begin = time.process_time()
        source_of("method m() {" + "/* { */ x := (1 + 2) if (b) { } " * n + "}")
        return time.process_time() - begin


class Units(unittest.TestCase):
    TEXT = """field f: Int
predicate while$(x: Ref) { acc(x.f) } predicate bare()
method m(x: Ref, n: Int) returns (m: Int) // method no()
  requires acc(x.f); ensures n > 0
{
  if (n > 0) { var a: Int a := 1 } elseif (n < 0) { var a: Bool } else { }
  var b: Ref
  while (n > 1) invariant n > 2 invariant n > 3 { var a: Perm while (true) { } }
}
method last(m: Int)"""

    def setUp(self):
        self.source = source_of(self.TEXT)

    def test_names_and_ranges(self):
        self.assertEqual([(it.kind, it.name) for it in self.source.units], [
            ("field", "f"), ("predicate", "while$"), ("predicate", "bare"), ("method", "m"), ("method", "last")])
        self.assertEqual([it.name for it in map(self.source.unit_at, range(len(self.source.tokens)))].count("bare"), 4)
        names = [n for n in range(len(self.source.tokens)) if self.source.is_name_of_unit(n)]
        self.assertEqual([self.source.said(n) for n in names], ["f", "while$", "bare", "m", "last"])

    def test_variables_in_the_order_of_their_numbers(self):
        unit = self.source.declared["m"]
        self.assertEqual([(it.name, it.type, it.role) for it in unit.variables], [
            ("x", "Ref", "parameter"), ("n", "Int", "parameter"), ("m", "Int", "return"), ("a", "Int", "local"), ("a", "Bool", "local"),
            ("b", "Ref", "local"), ("a", "Perm", "local")])

    def test_what_is_visible(self):
        unit = self.source.declared["m"]
        cases = (("requires", 1, [0, 1, 2]), (":=", 1, [0, 1, 2, 3]), ("else", 1, [0, 1, 2]), ("while", 1, [0, 1, 2, 5]),
                 ("while", 2, [0, 1, 2, 5, 6]))
        for word, number, wanted in cases:
            self.assertEqual(self.source.visible(unit, token(self.source, word, number)), wanted, (word, number))

    def test_where_a_brace_belongs(self):
        owners = [self.source.brace_of(n) for n, it in enumerate(self.source.tokens) if it.text == "{"]
        self.assertEqual(owners, ["predicate", "method", "if", "elseif", "else", "while", "while"])

    def test_clauses_and_their_loop(self):
        numbers = [token(self.source, it) for it in ("0", "2", "3", "1")]
        clauses = [self.source.clause_at(n) for n in numbers]
        self.assertEqual([self.source.said(it) if it else None for it in clauses], ["ensures", "invariant", "invariant", None])
        self.assertEqual([self.source.loop_of(it) for it in clauses[1:3]], [token(self.source, "while")] * 2)
        self.assertEqual([self.source.loop_of(token(self.source, it)) for it in ("requires", "if")], [None, None])


class Terms(unittest.TestCase):
    def tree(self, text):
        source = source_of(text)
        term = Term(source, 0)
        return self.shape(source, term.node), term.end

    def shape(self, source, node):
        inner = [self.shape(source, it) for it in node.parts]
        return [source.said(node.at), *inner] if inner else source.said(node.at)

    def test_levels_and_sides(self):
        for text, tree in (
                ("a - b - c * d", ["-", ["-", "a", "b"], ["*", "c", "d"]]),
                ("Q() && a", ["&&", "Q", "a"]),
                ("a && b && c ==> d || e", ["==>", ["&&", "a", ["&&", "b", "c"]], ["||", "d", "e"]]),
                ("-a.f.g == !b", ["==", ["-", ["g", ["f", "a"]]], ["!", "b"]]),
                ("a ? b ? c : d : e ? f : g", ["?", "a", ["?", "b", "c", "d"], ["?", "e", "f", "g"]]),
                ("(a + b).f * old(c)", ["*", ["f", ["+", "a", "b"]], ["old", "c"]]),
                ("acc(P(x, 1 + 2), 1 / 2) && Q()", ["&&", ["acc", ["P", "x", ["+", "1", "2"]], ["/", "1", "2"]], "Q"]),
                ("a + unfolding acc(P(x), w) in b == c ? d : e", [
                    "+", "a", ["unfolding", ["acc", ["P", "x"], "w"], ["?", ["==", "b", "c"], "d", "e"]]])):
            with self.subTest(text):
                self.assertEqual(self.tree(text)[0], tree)

    def test_where_a_term_ends(self):
        for text, end in (("a b", 1), ("a + b c := d", 3), ("(a) }", 3), ("x.f x.g", 3), ("a, b", 1), ("a) ", 1), ("", 0), ("+", 0)):
            source = source_of(text)
            self.assertEqual(Term(source, 0).end, end, text)

    def test_parts_of_an_assertion(self):
        source = source_of("(a && (b || c)) && (d ==> e && f) && (g ? h : (i))")
        self.assertEqual([spelled(source, it) for it in parts_of(source, Term(source, 0).node)], ["a", "b || c", "e", "f", "h", "i"])

    def test_statements(self):
        source = source_of("{ x.f := y.f a, b := m(a, b) m() var v: Int := m(1) n := new(f, g) if (a) { c := d } assert e }")
        found = [statement_around(source, token(source, *it)) for it in (("y",), ("a", 2), ("m", 2), ("v",), ("g",), ("c",), ("e",))]
        self.assertEqual([it.kind for it in found], ["assign", "call", "call", "var", "new", "assign", "assert"])
        self.assertEqual([[source.said(n) for n in it.targets] for it in found], [["f"], ["a", "b"], [], ["v"], ["n"], ["c"], []])
        self.assertEqual([source.said(it.callee) if it.callee else None for it in found], [None, "m", "m", "m", None, None, None])

    def test_deep_terms_and_any_tokens(self):
        source = source_of("(" * 5000 + "x" + ")" * 5000)
        self.assertEqual(Term(source, 0).end, 10001)
        chance = random.Random(1)
        words = "x f 1 ( ) , . + ! ? : in unfolding acc old && := { new var P(".split()
        for _ in range(600):
            source = source_of(" ".join(chance.choices(words, k=chance.randrange(1, 14))))
            for n in range(len(source.tokens)):
                for node in filter(None, (Term(source, n).node, *Statement(source, n).terms)):
                    self.assertTrue(all(0 <= it.first <= it.last < len(source.tokens) for it, _ in nodes_of(node)))


if __name__ == "__main__":
    unittest.main()
