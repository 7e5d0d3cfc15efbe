"""Positions in a text as the protocol counts them: lines and UTF-16 code units from 0 on, beside the bytes that the engine counts.

A line of the protocol ends at a line feed, a carriage return, or both; one of the engine at the byte 10 alone. So places go from one
side to the other by the number of their byte."""
import re
from bisect import bisect_right

END_OF_LINE = re.compile("\r\n|\n|\r")
WIDE = 0xFFFF   # a character above takes two UTF-16 code units


class Text:
    """A text with the begins of its lines, as characters and as bytes of UTF-8."""

    def __init__(self, text):
        self.text = text
        self.is_ascii = text.isascii()
        self.starts = [0] + [it.end() for it in END_OF_LINE.finditer(text)]
        self.data = text.encode("utf-8", "surrogatepass")
        self.byte_starts = self.starts if self.is_ascii else self.bytes_of_starts()

    def bytes_of_starts(self):
        found, at = [0], 0
        for begin, end in zip(self.starts, self.starts[1:]):
            at += len(self.text[begin:end].encode("utf-8", "surrogatepass"))
            found.append(at)
        return found

    def line(self, number):
        """The characters of a line, without what ends it."""
        end = self.starts[number + 1] if number + 1 < len(self.starts) else len(self.text)
        return self.text[self.starts[number]:end].rstrip("\r\n")

    def offset(self, position):
        """The number of the character at a position. What lies behind a line is its end, and inside of a character its begin."""
        number = position["line"]
        if number >= len(self.starts):
            return len(self.text)
        line, units = self.line(number), max(0, position["character"])
        return self.starts[number] + (min(units, len(line)) if line.isascii() else characters(line, units))

    def position(self, offset):
        """The position of a character."""
        number = bisect_right(self.starts, offset) - 1
        before = self.text[self.starts[number]:offset]
        return {"line": number, "character": units_of(before)}

    def offset_of_byte(self, byte):
        """The number of the character to which a byte belongs."""
        if self.is_ascii:
            return min(byte, len(self.text))
        number = bisect_right(self.byte_starts, byte) - 1
        inside = self.data[self.byte_starts[number]:byte]
        return self.starts[number] + len(inside.decode("utf-8", "surrogatepass" if whole(inside) else "ignore"))

    def byte_of_offset(self, offset):
        """The number of the first byte of a character."""
        if self.is_ascii:
            return offset
        number = bisect_right(self.starts, offset) - 1
        return self.byte_starts[number] + len(self.text[self.starts[number]:offset].encode("utf-8", "surrogatepass"))

    def position_of_byte(self, byte):
        return self.position(self.offset_of_byte(byte))

    def byte_of_position(self, position):
        return self.byte_of_offset(self.offset(position))

    def range_of_bytes(self, begin, end):
        return {"start": self.position_of_byte(begin), "end": self.position_of_byte(end)}

    def changed(self, change):
        """The text behind a change: of a range, or of the whole."""
        if "range" not in change or change["range"] is None:
            return Text(change["text"])
        begin, end = self.offset(change["range"]["start"]), self.offset(change["range"]["end"])
        return Text(self.text[:min(begin, end)] + change["text"] + self.text[max(begin, end):])


def whole(data):
    """Whether bytes end with a whole character."""
    try:
        data.decode("utf-8", "surrogatepass")
    except UnicodeDecodeError:
        return False
    return True


def units_of(text):
    """How many UTF-16 code units a text takes."""
    return len(text) if text.isascii() else len(text) + sum([ord(it) > WIDE for it in text])


def characters(line, units):
    """How many whole characters of a line lie within so many UTF-16 code units."""
    for number, it in enumerate(line):
        units -= 2 if ord(it) > WIDE else 1
        if units < 0:
            return number
    return len(line)
