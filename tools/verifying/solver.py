"""The one place that starts z3: a process that stays open, is asked one thing after the other, and is started anew after trouble."""
import os
import re
import select
import shutil
import subprocess
import time
from fractions import Fraction

from .boogie_text import LEAVES

GRACE = 1.0     # seconds that z3 may need to stop by itself
TOKEN = re.compile(r'[()]|\|[^|]*\||"[^"]*"|[^\s()|"]+')
DONE = "(echo \"done\")\n"


def is_there():
    """Whether z3 is on the path."""
    return shutil.which("z3") is not None


class NoSolver(Exception):
    """z3 cannot be started, or does not answer as it should."""


class Unreadable(Exception):
    """A value of z3 is none that a run file can spell."""


class Solver:
    """One process of z3. `check` gives sat, unsat or unknown; behind sat `values` has what terms are in the model."""

    def __init__(self, command="z3"):
        self.command, self.process, self.rest = command, None, b""

    def start(self):
        try:
            self.process = subprocess.Popen([self.command, "-in"], stdin=subprocess.PIPE, stdout=subprocess.PIPE, stderr=subprocess.STDOUT)
        except OSError as fault:
            raise NoSolver(f"{self.command} cannot be run: {fault.strerror}") from None
        self.rest = b""

    def stop(self):
        if self.process:
            self.process.kill()
            self.process.wait()
            self.process.stdin.close()
            self.process.stdout.close()
            self.process = None

    def begin(self, text, options=()):
        """Forgets all, and takes declarations and definitions."""
        if not self.process:
            self.start()
        self.wanted = "(reset)\n" + "".join(f"(set-option :{it})\n" for it in options) + text

    def more(self, text):
        """Takes further assertions."""
        self.wanted += text

    def check(self, seconds):
        """What z3 says of all that it took: sat, unsat, or unknown where it gives up or the time does not suffice."""
        end = time.monotonic() + seconds
        text = self.wanted + f"(set-option :timeout {max(1, int(seconds * 1000))})\n(check-sat)\n" + DONE
        self.wanted = ""
        said = self.said(text, end + GRACE)
        if said is None:
            self.stop()
            return "unknown"
        lines = said.split("\n")
        for line in lines:
            if line.startswith("(error"):
                self.stop()
                raise NoSolver(f"z3 says {line}")
        return lines[-1] if lines[-1] in ("sat", "unsat") else "unknown"

    def values(self, texts, seconds):
        """The values of terms in the model that was found, as trees of words."""
        if not texts:
            return []
        said = self.said(f"(get-value ({' '.join(texts)}))\n" + DONE, time.monotonic() + seconds + GRACE)
        try:
            found = [value for _, value in trees(said or "")[0]]
        except (IndexError, ValueError):
            found = []
        if len(found) != len(texts):
            self.stop()
            raise NoSolver("z3 does not tell the values that it found")
        return found

    def said(self, text, end):
        """What z3 prints of a text, or None where it takes too long."""
        try:
            self.send(text.encode(), end)
            while not self.rest.endswith(b"done\n"):
                if not select.select([self.process.stdout], [], [], max(0, end - time.monotonic()))[0]:
                    return None
                more = os.read(self.process.stdout.fileno(), 1 << 16)
                if not more:
                    self.stop()
                    raise NoSolver("z3 ended by itself")
                self.rest += more
        except BrokenPipeError:
            self.stop()
            raise NoSolver("z3 ended by itself") from None
        said, self.rest = self.rest[:-len(b"done\n")].decode(errors="replace").rstrip("\n"), b""
        return said

    def send(self, data, end):
        """Writes all of a text, and takes what is printed meanwhile, so that neither side waits for the other."""
        out, into = self.process.stdin.fileno(), self.process.stdout.fileno()
        os.set_blocking(out, False)
        view = memoryview(data)
        while view:
            ready, able, _ = select.select([into], [out], [], max(0, end - time.monotonic()))
            if ready:
                more = os.read(into, 1 << 16)
                if not more:
                    raise BrokenPipeError
                self.rest += more
            if able:
                view = view[os.write(out, view[:1 << 16]):]
            elif not ready:
                return


def trees(text):
    """The s-expressions of a text, as words and lists."""
    stack = [[]]
    for token in TOKEN.findall(text):
        if token == "(":
            stack.append([])
        elif token == ")":
            done = stack.pop()
            stack[-1].append(done)
        else:
            stack[-1].append(token)
    return stack[0]


class Reading:
    """Turns trees of z3 into values. References are numbered as they are met, and null is 0."""

    def __init__(self, null):
        self.references = {} if isinstance(null, list) or null.lstrip("-").isdigit() else {null: 0}

    def value(self, tree, known=None):
        if isinstance(tree, str):
            return self.word(tree, known or {})
        head = tree[0]
        if head == "let":
            inner = dict(known or {})
            inner.update([(name, self.value(it, known)) for name, it in tree[1]])
            return self.value(tree[2], inner)
        if head == "-" and len(tree) == 2:
            return -self.value(tree[1], known)
        if head == "/":
            return Fraction(self.value(tree[1], known)) / self.value(tree[2], known)
        if head == "sPair":
            return ("pair", self.value(tree[1], known), self.value(tree[2], known))
        if head in LEAVES:
            value = self.value(tree[1], known)
            return ("leaf", LEAVES[head], Fraction(value) if head == "sPerm" else value)
        raise Unreadable("a value is no fraction" if head == "root-obj" else f"a value is {tree}")

    def word(self, word, known):
        if word in known:
            return known[word]
        if word.isdigit():
            return int(word)
        if word[0].isdigit():
            return Fraction(word.rstrip("?"))
        if word in ("true", "false"):
            return word == "true"
        if word == "sUnit":
            return ("unit",)
        if "!val!" in word:
            return self.references.setdefault(word, max(self.references.values(), default=0) + 1)
        raise Unreadable(f"a value is {word}")
