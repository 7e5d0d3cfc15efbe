"""What names stand for, and what of a file is told without the engine."""
import os
import unittest

from verifying.language_server import completion, outline
from verifying.language_server.documents import Document
from verifying.language_server.edits import rename
from verifying.language_server.messages import Fault
from verifying.language_server.units import Moved, digests
from verifying.program import TOP
from verifying.source import Source, without_bodies

from .talking import place_of

FILE = """field value: Int
field next: Ref
predicate list(x: Ref) { acc(x.value) && acc(x.next) && (x.next != null ==> list(x.next)) }
method push(tail: Ref, value: Int) returns (x: Ref)
  requires list(tail)
  ensures list(x)
{
  x := new(value, next)
  x.value := value
  x.next := tail
  fold list(x)
  if (value > 0) { var v: Int := value } else { var v: Bool := true assert v }
}
method main() { var x: Ref  x := push(x, 1) }
"""


class Nothing:
    """An editor that can do nothing."""

    def can(self, *names):
        return False


def document(text=FILE):
    return Document("file:///a.vpr", 1, text)


def uses(it, word, number=0):
    n = it.token_at(place_of(FILE, word, number))
    found = it.names.meant[n]
    return found.kind, [it.source.place(n) for n in it.names.uses[found]]


class Meanings(unittest.TestCase):
    def test_a_field_and_a_parameter_of_one_name_are_told_apart(self):
        it = document()
        self.assertEqual(uses(it, "value"), ("field", [(1, 7), (3, 32), (8, 12), (9, 5)]))
        self.assertEqual(uses(it, "value: Int", 1), ("parameter", [(4, 24), (9, 14), (12, 7), (12, 34)]))

    def test_predicates_methods_and_variables(self):
        it = document()
        self.assertEqual(uses(it, "list"), ("predicate", [(3, 11), (3, 77), (5, 12), (6, 11), (11, 8)]))
        self.assertEqual(uses(it, "push"), ("method", [(4, 8), (14, 34)]))
        self.assertEqual(uses(it, "x: Ref", 2), ("local", [(14, 21), (14, 29), (14, 39)]))

    def test_variables_of_two_blocks_with_one_name_are_two(self):
        it = document()
        self.assertEqual(uses(it, "v: Int"), ("local", [(12, 24)]))
        self.assertEqual(uses(it, "v: Bool"), ("local", [(12, 53), (12, 76)]))

    def test_each_name_of_the_examples_stands_for_something(self):
        for folder, _, names in os.walk(os.path.join(TOP, "examples")):
            for name in [it for it in names if it.endswith(".vpr")]:
                with open(os.path.join(folder, name), encoding="utf-8") as file:
                    it = document(file.read())
                unknown = [token.text for n, token in enumerate(it.source.tokens) if token.kind == "name" and n not in it.names.meant]
                self.assertEqual(unknown, [], name)


class Renames(unittest.TestCase):
    def renamed(self, word, number, name):
        it = document()
        changes = rename(Nothing(), it, place_of(FILE, word, number), name)["changes"]["file:///a.vpr"]
        text = it.text
        for change in sorted(changes, key=lambda it: (it["range"]["start"]["line"], it["range"]["start"]["character"]), reverse=True):
            text = text.changed({"range": change["range"], "text": change["newText"]})
        return text.text

    def test_a_field_is_renamed_and_the_parameter_is_not(self):
        text = self.renamed("value", 0, "worth")
        self.assertIn("field worth: Int", text)
        self.assertIn("x.worth := value", text)
        self.assertIn("new(worth, next)", text)

    def test_there_and_back_is_the_same_text(self):
        self.assertEqual(self.renamed("tail", 0, "tail"), FILE)

    def test_names_that_cannot_be_given_are_refused(self):
        for word, name in (("list", "push"), ("tail", "value"), ("tail", "if"), ("tail", "forall"), ("tail", "1x"), ("tail", "")):
            with self.assertRaises(Fault, msg=name):
                self.renamed(word, 0, name)

    def test_a_variable_may_have_the_name_of_one_that_is_not_visible(self):
        self.assertIn("var w: Int", self.renamed("v: Int", 0, "w"))


class Outlines(unittest.TestCase):
    def test_symbols_of_a_file_that_is_refused(self):
        found = outline.document_symbols(document("field f: Int\nmethod m(x: Ref) { assert (x. \nmethod k(y: Int)"))
        self.assertEqual([(it["name"], [one["name"] for one in it["children"]]) for it in found], [("f", []), ("m", ["x"]), ("k", ["y"])])

    def test_folding(self):
        ranges = outline.folding_ranges(document("// a\n// b\nmethod m()\n  requires true\n{\n  assert true\n}\n/* c\n d */"))
        self.assertEqual(sorted([(it["startLine"], it["endLine"], it.get("kind")) for it in ranges], key=str),
                         [(0, 1, "comment"), (2, 3, None), (4, 5, "region"), (7, 8, "comment")])

    def test_the_colours_are_those_of_the_tokens(self):
        it = document("field f: Int // ß😀\nmethod m(x: Ref) { x.f := 10 }")
        data, line, character, found = outline.semantic_tokens(it), 0, 0, []
        for at in range(0, len(data), 5):
            lines, characters, length, kind, modifiers = data[at:at + 5]
            line, character = line + lines, characters + (character if lines == 0 else 0)
            found.append((it.text.line(line)[character:character + length], outline.TYPES[kind], modifiers))
        self.assertEqual(found, [
            ("field", "keyword", 0), ("f", "property", 1), ("Int", "type", 0), ("method", "keyword", 0), ("m", "method", 1),
            ("x", "parameter", 3), ("Ref", "type", 0), ("x", "parameter", 2), ("f", "property", 0), (":=", "operator", 0), ("10", "number", 0)])


class Completions(unittest.TestCase):
    def labels(self, text, word):
        return [it["label"] for it in completion.completions(document(text), place_of(text, word))]

    def test_behind_a_dot_are_the_fields_alone(self):
        self.assertEqual(self.labels(FILE.replace("x.next := tail", "x.|"), "|"), ["value", "next"])
        self.assertEqual(self.labels(FILE.replace("x.next := tail", "x.va| := 1"), "|"), ["value", "next"])

    def test_names_that_are_visible(self):
        found = self.labels(FILE.replace("fold list(x)", "fold |"), "|")
        self.assertLessEqual({"tail", "value", "x", "list", "push", "main", "assert"}, set(found))
        self.assertNotIn("v", found)

    def test_behind_a_colon_are_types(self):
        self.assertEqual(self.labels("method m(x: |", "|"), ["Int", "Bool", "Ref", "Perm"])

    def test_nothing_in_comments(self):
        self.assertEqual(self.labels("method m() { } // a |", "|"), [])
        self.assertEqual(self.labels("method m() { } /* a |", "|"), [])


class Digests(unittest.TestCase):
    def changed(self, old, new):
        before, after = (digests(Source("a", it.encode())) for it in (FILE, FILE.replace(old, new)))
        return [it for it in after if before.get(it) != after[it]]

    def test_only_what_depends_on_a_change_has_another_digest(self):
        self.assertEqual(self.changed("push(x, 1)", "push(x, 2)"), ["main"])
        self.assertEqual(self.changed("requires list(tail)", "requires list(tail) && true"), ["push", "main"])
        self.assertEqual(self.changed("acc(x.value)", "acc(x.value, 1/2)"), ["list", "push", "main"])
        self.assertEqual(self.changed("field value: Int", "field value: Bool"), ["list", "push", "main"])
        self.assertEqual(self.changed("x.next := tail", "x.next := null"), ["push"])
        self.assertEqual(self.changed("  fold", "\n // more\n  fold"), [])

    def test_another_field_or_predicate_changes_all(self):
        self.assertEqual(self.changed("field value: Int", "field more: Int field value: Int"), ["list", "push", "main"])
        self.assertEqual(self.changed("method main", "predicate more() method main"), ["list", "push", "more", "main"])
        self.assertEqual(self.changed("method main", "method more() method main"), ["more"])

    def test_without_a_body_all_else_stands_where_it_stood(self):
        source = Source("a", FILE.encode())
        text = without_bodies(source, {"push", "list"}).decode()
        begin, end = FILE.index("{\n  x := new"), FILE.index("method main")
        self.assertEqual((text[:begin], text[end:], text[begin:end].strip()), (FILE[:begin], FILE[end:], ""))
        self.assertEqual(text.count("\n"), FILE.count("\n"))

    def test_places_move_with_their_tokens(self):
        old, new = (Source("a", it.encode()) for it in (FILE, "\n" + FILE.replace("x.next := tail", "/* */ x.next\n:= tail")))
        moved = Moved(old, new)
        self.assertEqual([moved.place(1, 7), moved.place(10, 13), moved.place(14, 8), moved.place(10, 6)],
                         [(2, 7), (12, 4), (16, 8), None])
        self.assertEqual([moved.gap(7, 1), moved.gap(9, 20), moved.gap(11, 1), moved.gap(10, 12)], [(8, 1), (11, 1), (13, 1), (12, 3)])


if __name__ == "__main__":
    unittest.main()
