"""Positions in texts, against a count of UTF-16 code units and of bytes one character after the other."""
import random
import unittest

from verifying.language_server.positions import Text

PIECES = ["a", "x.f", " ", "\t", "\n", "\r\n", "\r", "é", "ß", "\u2028", "中", "😀", "e\u0301", "// 😀\n", "\ud800", "\x00", ":="]


def counted(text):
    """The position of each character and of the end, and its byte: the slow and plain way."""
    line, character, byte, found = 0, 0, 0, []
    for n, it in enumerate(text):
        found.append((line, character, byte))
        byte += len(it.encode("utf-8", "surrogatepass"))
        if it == "\n" or it == "\r" and text[n + 1:n + 2] != "\n":
            line, character = line + 1, 0
        else:
            character += len(it.encode("utf-16-le", "surrogatepass")) // 2
    return found + [(line, character, byte)]


class Positions(unittest.TestCase):
    def texts(self):
        chance = random.Random(5)
        yield from ("", "\n", "\r", "\r\n", "😀", "a😀b\n", "\r\n\r")
        for _ in range(300):
            yield "".join(chance.choices(PIECES, k=chance.randrange(30)))

    def test_positions_and_bytes_of_each_character(self):
        for text in self.texts():
            it = Text(text)
            for offset, (line, character, byte) in enumerate(counted(text)):
                if text[offset - 1:offset + 1] == "\r\n":
                    continue    # between the two is no position
                self.assertEqual(it.position(offset), {"line": line, "character": character}, repr(text))
                self.assertEqual(it.offset({"line": line, "character": character}), offset, repr(text))
                self.assertEqual(it.byte_of_offset(offset), byte, repr(text))
                self.assertEqual(it.offset_of_byte(byte), offset, repr(text))

    def test_a_position_inside_of_a_pair_is_its_begin(self):
        self.assertEqual(Text("a😀b").offset({"line": 0, "character": 2}), 1)
        self.assertEqual(Text("a😀b").offset({"line": 0, "character": 3}), 2)

    def test_a_byte_inside_of_a_character_belongs_to_it(self):
        self.assertEqual([Text("é😀x").offset_of_byte(it) for it in range(8)], [0, 0, 1, 1, 1, 1, 2, 3])

    def test_what_lies_behind_a_line_or_the_text_is_its_end(self):
        it = Text("ab\r\ncd")
        self.assertEqual([it.offset({"line": line, "character": 9}) for line in (0, 1, 2)], [2, 6, 6])

    def test_changes_are_those_of_a_list_of_lines(self):
        chance = random.Random(7)
        for _ in range(300):
            text = "".join(chance.choices(PIECES, k=20))
            found = counted(text)
            begin, end = sorted(chance.choices([n for n in range(len(found)) if text[n - 1:n + 1] != "\r\n"], k=2))
            places = [{"line": found[n][0], "character": found[n][1]} for n in (begin, end)]
            changed = Text(text).changed({"range": {"start": places[0], "end": places[1]}, "text": "new😀"})
            self.assertEqual(changed.text, text[:begin] + "new😀" + text[end:], repr(text))

    def test_a_change_without_a_range_is_the_whole_text(self):
        self.assertEqual(Text("abc").changed({"text": "x"}).text, "x")


if __name__ == "__main__":
    unittest.main()
