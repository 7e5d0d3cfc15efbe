"""Writes what is told of files as a log of SARIF 2.1.0: a result for each mistake, with the places that belong to it and the run as a
code flow, and a notification for what could not be looked at."""
import hashlib
import json
import os
from urllib.parse import quote

from . import failures
from .files import name_of
from .program import TOP
from .results import not_confirmed
from .shown_run import spoken
from .spans import span

SCHEMA = "https://docs.oasis-open.org/sarif/sarif/v2.1.0/errata01/os/schemas/sarif-schema-2.1.0.json"
LEVELS = {"error": "error", "warning": "warning", "note": "note"}
RULES = {
    **{kind: (words, f"docs/failures.md tells of the kind of failure {kind}.") for kind, words in failures.PLAIN.items() if " " not in kind},
    "refused": ("the file is refused", "docs/language.md has the reasons for which a file is refused."),
    "undecided": ("nobody knows whether this can fail", "docs/verifying.md tells what to try."),
    "not-confirmed": ("values were found at which this fails, and no run confirms it", "docs/verifying.md tells what to try."),
    "unreached": ("no run comes here", "What is required or assumed cannot hold here."),
    "unreadable": ("the file cannot be read", "docs/verifying.md tells of statuses."),
}


class Log:
    """The log of a call, which is written to a file at its end."""

    def __init__(self, path):
        self.path, self.results, self.artifacts = path, [], []

    def add(self, file):
        """Takes a file of which all is told (`gathered.GatheredFile`)."""
        writer = Writer(file, len(self.artifacts))
        self.artifacts.append({"location": {"uri": writer.uri}, "sourceLanguage": "viper"})
        self.results += writer.results()

    def write(self):
        """Writes the log."""
        with open(self.path, "w", encoding="utf-8") as into:
            json.dump(self.log(), into, indent=1)
            into.write("\n")

    def log(self):
        """The log as data."""
        used = list(dict.fromkeys([it["ruleId"] for it in self.results]))
        for it in self.results:
            it["ruleIndex"] = used.index(it["ruleId"])
        rules = [{"id": it, "shortDescription": {"text": RULES[it][0]}, "help": {"text": RULES[it][1]}} for it in used]
        driver = {"name": "remduska", "version": version(), "rules": rules}
        run = {"tool": {"driver": driver}, "columnKind": "utf16CodeUnits", "artifacts": self.artifacts, "results": self.results}
        return {"$schema": SCHEMA, "version": "2.1.0", "runs": [run]}


def version():
    """The version of the repository, or nothing that is known."""
    try:
        with open(os.path.join(TOP, "VERSION"), encoding="utf-8") as it:
            return it.read().strip()
    except OSError:
        return "0"


def fingerprint(*words):
    """What a mistake is known by wherever it stands."""
    return hashlib.sha256("\n".join(words).encode()).hexdigest()[:32]


class Writer:
    """Makes the results of one file."""

    def __init__(self, file, index):
        self.file, self.source, self.index = file, file.source, index
        name = name_of(file.path)
        self.uri = quote(name if not os.path.isabs(name) else f"file://{name}", safe="/:~-._")

    def results(self):
        found = [self.result("refused", "error", self.file.refused)] if self.file.refused is not None else []
        for error in self.file.errors:
            found.append(self.error(error))
        for it in self.file.warnings:
            found.append(self.result(it.code, LEVELS[it.kind], failures.Told(it.line, it.column, it.message)))
        return found

    def error(self, error):
        """The result of a mistake of a unit."""
        number = next((n for n, it in enumerate(error.labels) if it.label.endswith(" perm")), 0)
        first = error.labels[number]
        if not first.confirmed:
            told = failures.Told(first.line, first.column, not_confirmed(first))
            return self.result("not-confirmed", "warning", told)
        told = failures.joined(self.source, [it.label for it in error.labels])[0][0]
        found = self.result(first.label.split()[-1], "error", told)
        found["message"]["text"] = (first.message or told.message) + "".join([f"\n{it}" for it in first.needs])
        found["partialFingerprints"] = {"mistake/v1": fingerprint(error.unit, found["ruleId"], told.message)}
        found["properties"] = {"unit": error.unit, "labels": [it.label for it in error.labels], "identifier": first.identifier, "runFile": first.run}
        if len(error.runs) > number and error.runs[number].steps:
            found["codeFlows"] = [{"message": {"text": f"this run of `{error.unit}` fails there"},
                                   "threadFlows": [{"locations": [self.step(it) for it in error.runs[number].steps]}]}]
        return found

    def result(self, rule, level, told):
        """A result at a place, with the places of its notes."""
        found = {"ruleId": rule, "level": level, "message": {"text": told.message}, "locations": [self.location(told.line, told.column)]}
        if told.notes:
            found["relatedLocations"] = [{"id": n, **self.location(line, column), "message": {"text": words}}
                                         for n, (line, column, words) in enumerate(told.notes)]
        return found

    def location(self, line, column):
        return {"physicalLocation": {"artifactLocation": {"uri": self.uri, "index": self.index}, "region": self.region(line, column)}}

    def region(self, line, column):
        """What is marked for a place; columns count UTF-16 code units."""
        first, behind = span(self.source, line, column) if line <= len(self.source.lines) else (column - 1, column)
        return {"startLine": line, "startColumn": self.units(line, first + 1), "endColumn": self.units(line, behind + 1)}

    def units(self, line, column):
        before = self.source.line_text(line)[:column - 1].decode("utf-8", "replace")
        return len(before.encode("utf-16-le")) // 2 + 1

    def step(self, step):
        """A step of a run, with what is told of it and the state behind it."""
        words = ": ".join([it for it in (step.source, step.text or ", ".join(step.changes)) if it]) or "the run begins"
        state = {name: {"text": value} for name, value in step.variables}
        state.update({f"{it.object}.{it.field}": {"text": f"{it.value}, held: {spoken(it.held)}"} for it in step.places})
        state.update({it.words(): {"text": f"{{{it.content}}}, held: {spoken(it.held)}"} for it in step.instances})
        return {"location": {**self.location(max(1, step.line), max(1, step.column)), "message": {"text": words}}, "state": state}
