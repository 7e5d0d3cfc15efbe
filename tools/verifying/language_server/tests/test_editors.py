"""The files for editors: their form, and the words that they colour.

VS Code is not at hand where these tests run. `MANIFEST` has what it asks of a package of the kind that is there."""
import json
import os
import re
import shutil
import subprocess
import tempfile
import unittest

from verifying.language_server.engine import Settings
from verifying.program import TOP
from verifying.source import WORDS

EDITORS = os.path.join(TOP, "editors")
VSCODE = os.path.join(EDITORS, "vscode")
NODE, NEOVIM = shutil.which("node"), shutil.which("nvim")
SCOPE = r"(comment|storage|keyword|constant|support|entity|variable)(\.[a-z-]+)+\.viper"
MANIFEST = {    # the properties of a package; a star stands behind those that have to be there
    "name*": r"[a-z][a-z0-9-]*", "displayName": r".+", "description": r".+", "version*": r"\d+\.\d+\.\d+", "publisher*": r"[a-z][a-z0-9-]*",
    "license": r"MIT", "engines*": {"vscode*": r"\^\d+\.\d+\.\d+"}, "categories": [r"Programming Languages|Linters"], "main*": r"\./\w+\.js",
    "activationEvents": [r"on\w+(:\w+)?"], "dependencies": {"vscode-languageclient*": r"\^\d+\.\d+\.\d+"},
    "contributes*": {
        "languages*": [{"id*": r"[a-z]+", "aliases": [r"\w+"], "extensions*": [r"\.\w+"], "configuration": r"\./[\w-]+\.json"}],
        "grammars*": [{"language*": r"[a-z]+", "scopeName*": r"source\.[a-z]+", "path*": r"\./[\w/.-]+\.json"}],
        "configuration*": {"title*": r"\w+", "properties*": dict}},
}


def load(*path):
    with open(os.path.join(VSCODE, *path), encoding="utf-8") as it:
        return json.load(it)


def faults(value, form, at):
    """What of a value is not as its form says: an expression for a text, a list of one form, or an object with its properties."""
    if isinstance(form, str):
        return [] if isinstance(value, str) and re.fullmatch(form, value) else [f"{at} is {value}"]
    if form is dict:
        return [] if isinstance(value, dict) else [f"{at} is no object"]
    if isinstance(form, list):
        return [it for n, one in enumerate(value) for it in faults(one, form[0], f"{at}[{n}]")] if isinstance(value, list) else [f"{at} is no list"]
    forms = {key.rstrip("*"): its for key, its in form.items()}
    found = [f"{at} has no {key[:-1]}" for key in form if key.endswith("*") and key[:-1] not in value]
    found += [f"{at} has {key}" for key in value if key not in forms]
    return found + [it for key, one in value.items() if key in forms for it in faults(one, forms[key], f"{at}.{key}")]


class Code(unittest.TestCase):
    def test_the_package_is_as_vs_code_takes_it(self):
        self.assertEqual(faults(load("package.json"), MANIFEST, "package"), [])
        self.assertNotEqual(faults({"name": "X"}, MANIFEST, "package"), [])
        with open(os.path.join(TOP, "VERSION"), encoding="utf-8") as it:
            self.assertEqual(load("package.json")["version"], it.read().strip())

    def test_the_files_that_it_names_are_there(self):
        about = load("package.json")
        (language,), (grammar,) = about["contributes"]["languages"], about["contributes"]["grammars"]
        for it in (about["main"], language["configuration"], grammar["path"]):
            self.assertTrue(os.path.exists(os.path.join(VSCODE, it)), it)

    def test_its_settings_are_those_of_the_server(self):
        found = load("package.json")["contributes"]["configuration"]["properties"]
        self.assertEqual(set(found), {f"remduska.{it}" for it in (*Settings._fields, "command")})
        for name, value in Settings()._asdict().items():
            self.assertEqual(found[f"remduska.{name}"]["default"], value, name)
            self.assertTrue(found[f"remduska.{name}"]["description"])

    def test_the_script_is_short_and_is_one(self):
        path = os.path.join(VSCODE, "extension.js")
        with open(path, encoding="utf-8") as it:
            self.assertLessEqual(len(it.read().splitlines()), 40)
        if NODE:
            self.assertEqual(subprocess.run([NODE, "--check", path]).returncode, 0)

    def test_indentation(self):
        rules = load("language-configuration.json")["indentationRules"]
        increases, decreases = (re.compile(rules[f"{it}IndentPattern"]) for it in ("increase", "decrease"))
        self.assertEqual([bool(increases.search(it)) for it in ("{", "while (x) {", "if (x) { y := 1 }", "// {", "x := 1")],
                         [True, True, False, False, False])
        self.assertEqual([bool(decreases.search(it)) for it in ("}", "  } else {", "x }")], [True, True, False])


class Grammar(unittest.TestCase):
    def rules(self):
        """The rules of the grammar that match on one line, in order: an expression and the scope of what it matches."""
        grammar = load("syntaxes", "viper.tmLanguage.json")
        for part in grammar["patterns"]:
            for it in grammar["repository"][part["include"][1:]]["patterns"]:
                for name in [it.get("name"), *[one["name"] for one in it.get("captures", {}).values()]]:
                    self.assertTrue(name is None or re.fullmatch(SCOPE, name), it)
                if "match" in it:
                    yield re.compile(it["match"]), it.get("name") or it["captures"]["1"]["name"]

    def scope(self, text, at):
        """The scope that a place of a line gets: that of the rule which begins first, and of those the first."""
        begin = 0
        while begin <= at:
            found = min([(it.start(), n, it, scope) for n, (rule, scope) in enumerate(self.rules()) for it in [rule.search(text, begin)] if it],
                        default=None, key=lambda it: it[:2])
            if found is None or found[0] > at:
                return ""
            if found[2].end() > at:
                return found[3]
            begin = found[2].end()
        return ""

    def test_each_word_of_viper_has_a_colour_and_no_other_name(self):
        for word in WORDS:
            self.assertNotEqual(self.scope(f" {word} ", 1), "", word)
            self.assertEqual(self.scope(f"{word}x := 1", 0), "", word)
            self.assertEqual(self.scope(f"{word}' := 1", 0), "", word)

    def test_a_line(self):
        line = "method push(x: Ref) { x.f := 10 /* all */ } // end"
        for word, scope in (("method", "storage.type"), ("Ref", "support.type"), ("f :=", "variable.other.member"), (":=", "keyword.operator"),
                            ("10", "constant.numeric"), ("// end", "comment.line")):
            self.assertIn(scope, self.scope(line, line.index(word)), word)


class OtherEditors(unittest.TestCase):
    def test_they_colour_the_words_of_viper(self):
        for path in (("emacs", "viper-language-mode.el"), ("neovim", "syntax", "viper.vim")):
            with open(os.path.join(EDITORS, *path), encoding="utf-8") as it:
                text = it.read()
            self.assertEqual([it for it in WORDS if not re.search(rf"""[" ]{it}[" \n]""", text)], [], path)

    @unittest.skipUnless(NEOVIM, "neovim is not installed")
    def test_neovim_indents_the_examples_as_they_are(self):
        with tempfile.TemporaryDirectory() as folder:
            for name in ("list.vpr", "loop.vpr", "tree.vpr", "account.vpr"):
                with open(os.path.join(TOP, "examples", name), encoding="utf-8") as it:
                    text = it.read()
                path = os.path.join(folder, name)
                with open(path, "w", encoding="utf-8") as it:
                    it.write("".join(f"{line.lstrip()}\n" for line in text.splitlines()))
                done = subprocess.run([NEOVIM, "--headless", "--clean", "-n", "--cmd", "filetype off", path, "-c", "setlocal shiftwidth=2 expandtab",
                                       "-c", f"source {EDITORS}/neovim/syntax/viper.vim", "-c", f"source {EDITORS}/neovim/indent/viper.vim",
                                       "-c", "normal! gg=G", "-c", "write", "-c", "qall!"], stdin=subprocess.DEVNULL, stdout=subprocess.PIPE,
                                      stderr=subprocess.STDOUT, timeout=60, env={**os.environ, "HOME": folder})
                self.assertEqual(done.returncode, 0, done.stdout)
                with open(path, encoding="utf-8") as it:
                    self.assertEqual(code(it.read()), code(text), name)


def code(text):
    """The lines of a text but for those that go on with a term, which are indented by hand."""
    return [it for it in text.splitlines() if not re.match(r"\s+\(", it)]


if __name__ == "__main__":
    unittest.main()
