"""The files that an editor has open, as it has them."""
import os
import re
from urllib.parse import quote, unquote, urlsplit

from ..files import source_of
from ..spans import span
from .names import Names
from .positions import Text
from .units import digests


class Document:
    """A file that is open: `version` is the editor's number of it. What is read off its text is made when it is asked for."""

    def __init__(self, uri, version, text):
        self.uri, self.version, self.path = uri, version, path_of(uri)
        self.known_source = self.known_names = self.known_digests = None
        self.become(Text(text))

    def become(self, text):
        self.text, self.known_source, self.known_names, self.known_digests = text, None, None, None

    def change(self, version, changes):
        """Takes what was typed. Of several changes each speaks of the text that the one before left."""
        text = self.text
        for it in changes:
            text = text.changed(it)
        self.version = version
        self.become(text)

    @property
    def source(self):
        """The tokens of the text. One that is refused for its size has none."""
        if self.known_source is None:
            self.known_source = source_of(self.path, self.text.data)
        return self.known_source

    @property
    def names(self):
        if self.known_names is None:
            self.known_names = Names(self.source)
        return self.known_names

    @property
    def digests(self):
        if self.known_digests is None:
            self.known_digests = digests(self.source)
        return self.known_digests

    def token_at(self, position):
        """The number of the token at a position, or of the one that ends there, or None. A name goes before a sign."""
        return self.names.token_at_byte(self.text.byte_of_position(position))

    def range_of(self, first, last=None):
        """The range from one token to another."""
        tokens = self.source.tokens
        return self.text.range_of_bytes(tokens[first].start, tokens[first if last is None else last].end)

    def range_of_place(self, line, column):
        """The range of what is marked for a place: a statement, a part of a term, a name, or a character."""
        starts = self.source.lines
        if not 0 < line <= len(starts):
            return self.text.range_of_bytes(0, 0)
        first, last = span(self.source, line, column)
        most, begin = len(self.text.data), starts[line - 1]
        return self.text.range_of_bytes(min(begin + first, most), min(begin + last, most))


def path_of(uri):
    """The path of a file that a URI names; of others, the URI as it is."""
    parts = urlsplit(uri)
    return unquote(parts.path) if parts.scheme == "file" else uri


def uri_of(path):
    return "file://" + quote(os.path.abspath(path))


def plain_name(path):
    """The last part of a path, without what a name of a kept file should not have."""
    return re.sub(r"[^\w.-]", "_", os.path.basename(path)) or "file"
