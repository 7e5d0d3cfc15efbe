"""Files that are changed by chance: behind the edits a server answers as a fresh one does that opens the file as it then is.

`EDITS=1000 python3 -m unittest ...` makes so many edits; without it some twenty."""
import os
import random
import re
import unittest

from .talking import READY, WHY_NOT, Editor, is_refusal
from .test_server import example

EDITS = int(os.environ.get("EDITS", "24"))
COMPARED_EACH = 8       # edits between two comparisons
URI = "file:///folder/chance.vpr"
FILES = ("list_wrong.vpr", "account_wrong.vpr", "lock_wrong.vpr", "tree_wrong.vpr", "tutorial/sum.vpr")
PIECES = ("x", "x.value", " ", "\n", "// 😀é\n", "/*", "*/", "{", "}", "(", ")", "acc(", "requires true\n", "assert true\n", "1", "null", ":=",
          "method n() { assert false }\n", "field g: Int\n", "é", "\r\n", "&& true")
REQUESTS = ("documentSymbol", "foldingRange", "semanticTokens/full", "codeLens")


class Changing:
    """A text that is changed as an editor changes it: `text` is what it should be, by UTF-16 code units. Where it is changed with care,
    mostly it stays a program."""

    def __init__(self, chance):
        self.chance, self.text, self.former, self.is_careful = chance, "", [], False

    def renew(self):
        self.former, self.is_careful = [], self.chance.random() < 0.6
        self.text = example(self.chance.choice(FILES))

    def change(self):
        """A change of the text as the protocol has it: something is put in, taken out, or undone."""
        if self.former and self.chance.random() < 0.3:
            self.text = self.former.pop()
            return {"text": self.text}
        self.former.append(self.text)
        begin, end, piece = self.with_care() if self.is_careful else self.anywhere()
        range_ = {"start": self.position(begin), "end": self.position(end)}
        is_inside = self.text[begin - 1:begin + 1] == "\r\n" or self.text[end - 1:end + 1] == "\r\n"
        self.text = self.text[:begin] + piece + self.text[end:]
        return {"text": self.text} if is_inside else {"range": range_, "text": piece}

    def anywhere(self):
        begin = self.chance.randrange(len(self.text) + 1)
        end = min(len(self.text), begin + self.chance.choice((0, 0, 0, 1, 3, 10)))
        return begin, end, self.chance.choice(PIECES) if self.chance.random() < 0.8 else ""

    def with_care(self):
        """Another number, or a comment, blanks or an assertion at the end of a line, or a unit at the end."""
        numbers = [it.span() for it in re.finditer(r"\b\d+\b", self.text)]
        if numbers and self.chance.random() < 0.3:
            return (*self.chance.choice(numbers), str(self.chance.randrange(4)))
        ends = [it.end() for it in re.finditer(r":= [^\n;{]*(?=\n)", self.text)]
        if ends and self.chance.random() < 0.3:
            at = self.chance.choice(ends)
            return at, at, self.chance.choice((" assert true", " assert 1 > 2", " assert null == null"))
        if self.chance.random() < 0.1:
            number = self.chance.randrange(1000)
            return len(self.text), len(self.text), f"method more{number}(n: Int) {{ assert n > {number} }}\n"
        at = self.chance.choice([it.start() for it in re.finditer(r"\n|$", self.text)])
        return at, at, self.chance.choice(("\n", " // 😀é", " \r\n", " /* é\n */"))

    def position(self, offset):
        before = self.text[:offset].replace("\r\n", "\n").replace("\r", "\n")
        return {"line": before.count("\n"), "character": len(before.rpartition("\n")[2].encode("utf-16-le")) // 2}


def answers(editor, uri):
    """What a server answers of a file, and tells of it."""
    diagnostics = editor.settled(uri)
    found = {it: editor.ask(f"textDocument/{it}", {"textDocument": {"uri": uri}}) for it in REQUESTS}
    told = [str({**it, "message": it["message"].partition("\nhelp: ")[0]}) for it in diagnostics]    # ways to mend are sought for a time
    return {"diagnostics": sorted(told), **found}, any(map(is_refusal, diagnostics))


@unittest.skipUnless(READY, WHY_NOT)
class Chance(unittest.TestCase):
    def test_a_server_answers_as_a_fresh_one(self):
        seed = int(os.environ.get("SEED", random.randrange(1 << 30)))
        chance, options = random.Random(seed), {"seconds": 30}
        changing, editor, refused = Changing(chance), Editor(options=options), 0
        editor.open(URI, "")
        for done in range(0, EDITS, COMPARED_EACH):
            if done % (2 * COMPARED_EACH) == 0:
                changing.renew()
                editor.change(URI, {"text": changing.text})
            for _ in range(min(COMPARED_EACH, EDITS - done)):
                editor.change(URI, changing.change())
                if chance.random() < 0.3:
                    editor.hear(0.3 * chance.random())
            ours, is_refused = answers(editor, URI)
            refused += is_refused
            fresh = Editor(options=options)
            fresh.open(URI, changing.text)
            theirs, _ = answers(fresh, URI)
            self.assertEqual(fresh.end(), 0)
            for name in ours:
                self.assertEqual(ours[name], theirs[name], f"{name}, SEED={seed}, behind {done + COMPARED_EACH} edits:\n{changing.text!r}")
        self.assertEqual(editor.end(), 0)
        print(f"\n{EDITS} edits, {EDITS // COMPARED_EACH} comparisons, {refused} of them of files that are refused (SEED={seed})")


if __name__ == "__main__":
    unittest.main()
