"""Logs of SARIF: their form, by a reduced schema, and their places.

The schema of SARIF 2.1.0 is not at hand where these tests run. `OBJECTS` has what it says of the objects that are written: which
properties each may have, of which form, and which it has to have. An object with any other property is refused, as the schema does."""
import json
import os
import shutil
import subprocess
import sys
import tempfile
import unittest

from verifying.failures import Told
from verifying.gathered import GatheredError, GatheredFile, Warned
from verifying.program import TOP, VARIABLES
from verifying.results import Label
from verifying.sarif import Log
from verifying.shown_run import run_of
from verifying.source import Source

READY = all(os.environ.get(it) for it in VARIABLES.values()) and shutil.which("z3") is not None
URI, TEXT, COUNT, ANY = "uri", "text", "count", "any"
OBJECTS = {     # by name the properties; one with a star has to be there; a list is one of such things, and a set of one a dictionary
    "log": {"$schema": URI, "version*": ("2.1.0",), "runs*": ["run"]},
    "run": {"tool*": "tool", "columnKind": ("utf16CodeUnits", "unicodeCodePoints"), "artifacts": ["artifact"], "results": ["result"]},
    "tool": {"driver*": "driver"},
    "driver": {"name*": TEXT, "version": TEXT, "rules": ["rule"]},
    "rule": {"id*": TEXT, "shortDescription": "string", "help": "string"},
    "string": {"text*": TEXT},
    "artifact": {"location": "artifactLocation", "sourceLanguage": TEXT},
    "artifactLocation": {"uri": URI, "index": COUNT},
    "result": {"ruleId": TEXT, "ruleIndex": COUNT, "level": ("none", "note", "warning", "error"), "message*": "string", "locations": ["location"],
               "relatedLocations": ["location"], "codeFlows": ["codeFlow"], "partialFingerprints": {TEXT}, "properties": {ANY}},
    "location": {"id": COUNT, "physicalLocation": "physicalLocation", "message": "string"},
    "physicalLocation": {"artifactLocation": "artifactLocation", "region": "region"},
    "region": {"startLine": 1, "startColumn": 1, "endColumn": 1},
    "codeFlow": {"message": "string", "threadFlows*": ["threadFlow"]},
    "threadFlow": {"locations*": ["threadFlowLocation"]},
    "threadFlowLocation": {"location": "location", "state": {"string"}},
}


def faults(value, form, at="log"):
    """What of a value is not as its form says."""
    if isinstance(form, list):
        whole = [] if isinstance(value, list) else [f"{at} is no list"]
        return whole or [it for n, one in enumerate(value) for it in faults(one, form[0], f"{at}[{n}]")]
    if isinstance(form, set):
        return [it for key, one in value.items() for it in faults(one, next(iter(form)), f"{at}.{key}")]
    if isinstance(form, tuple):
        return [] if value in form else [f"{at} is {value}"]
    if isinstance(form, int) or form == COUNT:
        least = form if isinstance(form, int) else 0
        return [] if isinstance(value, int) and not isinstance(value, bool) and value >= least else [f"{at} is {value}"]
    if form in (TEXT, URI):
        return [] if isinstance(value, str) and (form == TEXT or not set(value) & set(" <>\"{}|\\^`")) else [f"{at} is {value}"]
    return [] if form == ANY else object_faults(value, form, at)


def object_faults(value, name, at):
    if not isinstance(value, dict):
        return [f"{at} is no object"]
    forms = {key.rstrip("*"): form for key, form in OBJECTS[name].items()}
    found = [f"{at} has no {key[:-1]}" for key in OBJECTS[name] if key.endswith("*") and key[:-1] not in value]
    found += [f"{at} has {key}" for key in value if key not in forms]
    found += [f"{at}.{key} is empty" for key in ("threadFlows", "locations") if name in ("codeFlow", "threadFlow") and value.get(key) == []]
    return found + [it for key, one in value.items() if key in forms for it in faults(one, forms[key], f"{at}.{key}")]


def logged(file):
    log = Log("/nowhere")
    log.add(file)
    return log.log()


def gathered(text, path="a b/ß.vpr"):
    return GatheredFile(path, text.encode(), Source(path, text.encode()))


class Forms(unittest.TestCase):
    def test_the_check_refuses_what_the_schema_refuses(self):
        good = logged(gathered("method m() { }"))
        self.assertEqual(faults(good, "log"), [])
        for change in ({"version": "2"}, {"runs": {}}, {"more": 1}, {"runs": [{}]}):
            self.assertNotEqual(faults({**good, **change}, "log"), [], change)
        self.assertNotEqual(faults({"startLine": 0}, "region"), [])
        self.assertNotEqual(faults({"threadFlows": []}, "codeFlow"), [])

    def test_columns_count_utf_16_code_units(self):
        file = gathered("method m() { /* 😀é */ assert false }")
        file.warnings.append(Warned(1, 27, "warning", "undecided", "why"))
        (found,) = logged(file)["runs"][0]["results"]
        place = found["locations"][0]["physicalLocation"]
        self.assertEqual(place["region"], {"startLine": 1, "startColumn": 24, "endColumn": 36})
        self.assertEqual(place["artifactLocation"]["uri"], "a%20b/%C3%9F.vpr")

    def test_a_file_that_is_refused(self):
        file = gathered("field f: Int\nfield f: Int")
        file.refused = Told(2, 7, "declared twice: f", [(1, 7, "the first declaration")])
        log = logged(file)
        self.assertEqual(faults(log, "log"), [])
        (found,) = log["runs"][0]["results"]
        self.assertEqual((found["ruleId"], found["level"], found["relatedLocations"][0]["message"]["text"]), ("refused", "error", "the first declaration"))

    def test_what_moves_keeps_its_fingerprint(self):
        def print_of(text, line):
            file = gathered(text)
            label = Label(f"{line}:14 {line}:21 false", True, "", "", "assert.failed:assertion.false", "", line, 21, 26, None, None, [], [], [])
            file.errors.append(GatheredError("m", [label], [run_of("m", label)]))
            (found,) = logged(file)["runs"][0]["results"]
            return found["partialFingerprints"]
        one, moved, other = (print_of(it, line) for it, line in (("method m() { assert 1 > 2 }", 1), ("\nmethod m() { assert 1 > 2 }", 2),
                                                                ("method m() { assert 1 > 3 }", 1)))
        self.assertEqual(one, moved)
        self.assertNotEqual(one, other)


@unittest.skipUnless(READY, "needs z3 and the programs")
class Calls(unittest.TestCase):
    def test_the_log_of_a_call_has_the_runs_of_json(self):
        with tempfile.TemporaryDirectory() as folder:
            path = os.path.join(folder, "log.sarif")
            files = [os.path.join("examples", it) for it in ("list_wrong.vpr", "first.vpr", "tree.vpr")] + [os.path.join(folder, "none.vpr")]
            done = subprocess.run([sys.executable, "tools/verify", *files, "--json", "--sarif", path, "--no-certificates"], cwd=TOP,
                                  stdout=subprocess.PIPE, stderr=subprocess.PIPE)
            told = [json.loads(it) for it in done.stdout.decode().splitlines()]
            with open(path, encoding="utf-8") as it:
                log = json.load(it)
        self.assertEqual(faults(log, "log"), [])
        labels = [it for it in told if "label" in it]
        results = [it for it in log["runs"][0]["results"] if "codeFlows" in it]
        self.assertEqual(len(results), 2)
        self.assertEqual([it["ruleId"] for it in log["runs"][0]["results"]], ["false", "false", "unreadable"])
        for label, result in zip(labels, results):
            steps = result["codeFlows"][0]["threadFlows"][0]["locations"]
            places = [it["location"]["physicalLocation"]["region"] for it in steps]
            self.assertEqual([(it["startLine"], it["startColumn"]) for it in places], [(it["line"], it["column"]) for it in label["trace"]])
            self.assertEqual([sorted(it["state"]) for it in steps], [sorted(names_of(it["state"])) for it in label["trace"]])
            self.assertTrue(result["message"]["text"].startswith(label["message"]))


def names_of(state):
    instances = [f"{it['predicate']}({', '.join(it['arguments'])})" for it in state["instances"]]
    return [*state["variables"], *[it["place"] for it in state["places"]], *instances]


if __name__ == "__main__":
    unittest.main()
