"""Pages of files: the source of each with what is known of its units, and of each failing run the steps and the state of each.

A page is one file that needs nothing else. All that comes from the file stands in it as data, which the page's script writes as text;
no other script or style may run in it, by their hashes."""
import base64
import hashlib
import json
import os
from html import escape
from typing import List, NamedTuple

from .files import shown_path
from .keeping import Keeper
from .shown_run import ShownRun, parts_of_content
from .units import FAILS, UNDECIDED

FOLDER = os.path.join(os.path.dirname(os.path.realpath(__file__)), "page")


class PageUnit(NamedTuple):
    """A unit of a file, with its first and its last line; `word` is what is known of it."""
    name: str
    first: int
    last: int
    verdict: str
    word: str
    runs: List[ShownRun]


def page_unit(source, name, verdict, is_checked, why, runs) -> PageUnit:
    """What a page tells of a unit: whether it is verified, and on whose word."""
    unit = source.declared.get(name)
    first, last = (source.tokens[unit.word].line, source.tokens[unit.end - 1].line) if unit is not None else (1, 1)
    word = {"verified": "proved" if is_checked else "verified, not proved", "fails": "fails"}.get(verdict, f"undecided: {why}")
    return PageUnit(name, first, last, verdict, word, list(runs))


def page_of(path, data, units, notices=()):
    """The page of a file: its bytes, its units, and what is told of it as a whole."""
    style, script = part("page.css"), part("heap.js") + part("page.js")
    policy = f"default-src 'none'; style-src '{digest(style)}'; script-src '{digest(script)}'; base-uri 'none'; form-action 'none'"
    lines = data.decode("utf-8", "replace").split("\n")
    about = {"path": path, "lines": [it.rstrip("\r") for it in lines], "notices": list(notices), "units": [unit_data(it) for it in units]}
    values = {"title": escape(f"{os.path.basename(path)}: runs that fail"), "policy": escape(policy), "style": style, "script": script,
              "data": embedded(about)}
    page = part("page.html")
    head, *rest = page.split("{{")
    return head + "".join([values[name] + text for name, _, text in [it.partition("}}") for it in rest]])


def part(name):
    with open(os.path.join(FOLDER, name), encoding="utf-8") as it:
        return it.read()


def digest(text):
    """The hash of a script or a style, as a policy names it."""
    return "sha256-" + base64.b64encode(hashlib.sha256(text.encode()).digest()).decode()


def embedded(value):
    """Data as a script element may have it: nothing in it ends the element."""
    return json.dumps(value, ensure_ascii=True).replace("<", "\\u003c").replace(">", "\\u003e").replace("&", "\\u0026")


def unit_data(unit):
    return {**unit._asdict(), "runs": [run_data(it) for it in unit.runs]}


def run_data(run):
    return {"label": run.label, "message": run.message, "line": run.line, "column": run.column, "needs": run.needs, "file": run.run,
            "steps": [step_data(it) for it in run.steps]}


def step_data(step):
    return {**step._asdict(), "places": [it._asdict() for it in step.places],
            "instances": [{"name": it.words(), "arguments": it.arguments, "held": it.held, "content": parts_of_content(it.content)}
                          for it in step.instances]}


class Pages:
    """The pages of a folder: one for each file, by its name with `.html` behind it."""

    def __init__(self, folder):
        os.makedirs(folder, exist_ok=True)
        self.folder, self.names = folder, Keeper(folder)

    def write(self, file):
        """Writes the page of a file (`gathered.GatheredFile`)."""
        notices = [f"{it.line}:{it.column}: {it.kind}: {it.message}" for it in file.warnings]
        if file.refused is not None:
            notices.append(f"{file.refused.line}:{file.refused.column}: the file is refused: {file.refused.message}")
        units = [unit_of(file, it.name) for it in file.source.units if it.name in file.results]
        path = os.path.join(self.folder, f"{self.names.stem(file.path)}.html")
        with open(path, "w", encoding="utf-8") as into:
            into.write(page_of(shown_path(file.path), file.data, units, notices))


def unit_of(file, name):
    result, runs = file.results[name], file.runs_of(name)
    why = result.why or next((it.why for it in result.open), "")
    verdict = FAILS if runs else result.verdict
    return page_unit(file.source, name, verdict if verdict != FAILS or runs else UNDECIDED, result.is_checked(), why, runs)
