"""How an error is shown: its line of the file with a mark, and its notes."""
import unicodedata

from .spans import span

WIDTH = 160     # the most bytes of a line of the file that are shown


def error_lines(source, told):
    """An error as editors read it: `FILE:LINE:COL: error: MESSAGE`, the line with a mark, and the notes in the same form."""
    return [*head_lines(source, told), *note_lines(source, told)]


def head_lines(source, told):
    """An error without its notes."""
    lines = [f"{source.path}:{told.line}:{mark_of(source, told.line, told.column)}: error: {told.message}"]
    return lines + ([] if told.whole else marked(source, told.line, told.column))


def note_lines(source, told):
    """The notes of an error."""
    lines = []
    for line, column, text in told.notes:
        lines += [f"{source.path}:{line}:{mark_of(source, line, column)}: note: {text}", *marked(source, line, column)]
    return lines


def mark_of(source, line, column):
    """The column in which the mark of a place begins."""
    return span(source, line, column)[0] + 1 if 0 < line <= len(source.lines) else column


def marked(source, line, column):
    """A line of the file, and below it a mark from a column on. Of a long line the part around the column is shown."""
    if not 0 < line <= len(source.lines):
        return []
    whole = source.line_text(line)
    at, until = span(source, line, min(column, len(whole) + 1))
    begin = 0 if len(whole) <= WIDTH else max(0, min(at - WIDTH // 2, len(whole) - WIDTH))
    end = min(len(whole), begin + WIDTH)
    before, behind = printable(whole[begin:at]), printable(whole[at:end])
    front, back = ".." * (begin > 0), ".." * (end < len(whole))
    pad = " " * len(front) + "".join("\t" if it == "\t" else " " * columns(it) for it in before)
    mark = "^" * max(1, sum([columns(it) for it in printable(whole[at:min(until, end)])]))
    return [f"{line:5} | {front}{before}{behind}{back}", f"      | {pad}{mark}"]


def printable(data):
    """Bytes as text, where a byte that would move the cursor, or is none of UTF-8, is a question mark."""
    text = data.decode("utf-8", errors="replace")
    return "".join(it if it == "\t" or unicodedata.category(it)[0] != "C" else "\ufffd" for it in text)


def columns(it):
    """How many columns of a terminal a character takes."""
    return 0 if unicodedata.combining(it) else 2 if unicodedata.east_asian_width(it) in "WF" else 1
