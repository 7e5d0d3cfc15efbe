"""Pages: what stands in one, and in Chromium what it shows, step by step, with names that would do harm."""
import json
import os
import re
import shutil
import subprocess
import sys
import tempfile
import unittest
from html.parser import HTMLParser

from verifying.pages import page_of, page_unit
from verifying.program import TOP, VARIABLES
from verifying.shown_run import Instance, Place, ShownRun, Step, parts_of_content
from verifying.source import Source

from .browsing import CHROMIUM, Browser

READY = all(os.environ.get(it) for it in VARIABLES.values()) and shutil.which("z3") is not None
HARM = "</script><script>document.title='harm'</script><img src=x onerror=\"document.title='harm'\">&quot;'`${1}"
CONTRASTS = (("text", "ground", 4.5), ("text", "panel", 4.5), ("faint", "ground", 4.5), ("faint", "panel", 4.5), ("link", "ground", 4.5),
             ("link", "panel", 4.5), ("link", "path", 4.5), ("good", "ground", 4.5), ("bad", "ground", 4.5), ("open", "ground", 4.5),
             ("text", "path", 4.5), ("here-text", "here", 4.5), ("text", "new", 4.5), ("faint", "new", 4.5), ("line", "ground", 3),
             ("bar", "panel", 3), ("bar", "new", 3), ("bar", "bar-ground", 3), ("new-edge", "new", 3), ("ground", "text", 4.5))


class Elements(HTMLParser):
    """The elements of a page, each with its attributes."""

    def __init__(self):
        super().__init__()
        self.all = []

    def handle_starttag(self, tag, attrs):
        self.all.append((tag, attrs))


def hostile():
    """A page of a file whose source, names, values and messages try to run."""
    steps = [Step(1, 1, HARM, HARM, [HARM], [[HARM, HARM], ["x", "#1"]], [Place("#1", HARM, "1/2", HARM), Place("#1", "f", "1/1", "#2")],
                  [Instance(HARM, ["#1", HARM], "1/1", f"{HARM} 1, p(#2) {{g 2}}")]) for _ in range(2)]
    run = ShownRun("m", HARM, "false", HARM, 1, 1, True, [HARM], HARM, steps)
    text = f"method m() {{ }} // {HARM}\n{HARM}\n".encode()
    return page_of(HARM, text, [page_unit(Source("x", text), "m", "fails", False, HARM, [run])], [HARM])


class Texts(unittest.TestCase):
    def test_a_content_as_a_tree(self):
        self.assertEqual(parts_of_content("next #2, cell(#1, 3) {value 3}, list(#2) {next null, cell(#2), ..}"), [
            {"name": "next", "value": "#2"}, {"name": "cell(#1, 3)", "content": [{"name": "value", "value": "3"}]},
            {"name": "list(#2)", "content": [{"name": "next", "value": "null"}, {"name": "cell(#2)"}, {"name": ".."}]}])
        self.assertEqual(parts_of_content(""), [])

    def test_a_page_is_whole_in_itself_and_only_its_own_script_runs(self):
        found = Elements()
        found.feed(hostile())
        names = [name for name, _ in found.all]
        self.assertEqual((names.count("script"), names.count("img")), (2, 0))
        given = [(key, value) for _, attributes in found.all for key, value in attributes]
        self.assertEqual([it for it in given if it[0].startswith("on") or it[0] in ("src", "href") and it[1] != "#"], [])
        self.assertTrue(any(value.startswith("default-src 'none'; style-src 'sha256-") for _, value in given if value))

    def test_the_data_is_that_of_the_file(self):
        data = re.search(r'<script type="application/json" id="data">(.*?)</script>', hostile(), re.S)[1]
        found = json.loads(data)
        self.assertEqual((found["path"], found["lines"][1], found["units"][0]["runs"][0]["steps"][0]["source"]), (HARM, HARM, HARM))

    def test_colours_have_the_contrast_that_wcag_asks_for(self):
        with open(os.path.join(TOP, "tools", "verifying", "page", "page.css"), encoding="utf-8") as it:
            css = it.read()
        light, dark = [dict(re.findall(r"--([\w-]+): (#[0-9a-f]{6})", block)) for block in re.findall(r":root \{(.*?)\}", css, re.S)[:2]]
        for name, colours in (("light", light), ("dark", dark)):
            for one, other, least in CONTRASTS:
                self.assertGreaterEqual(contrast(colours[one], colours[other]), least, f"{name}: {one} on {other}")


def contrast(one, other):
    """The contrast of two colours, as WCAG 2 defines it."""
    lights = []
    for colour in (one, other):
        parts = [int(colour[at:at + 2], 16) / 255 for at in (1, 3, 5)]
        parts = [it / 12.92 if it <= 0.04045 else ((it + 0.055) / 1.055) ** 2.4 for it in parts]
        lights.append(0.2126 * parts[0] + 0.7152 * parts[1] + 0.0722 * parts[2])
    return (max(lights) + 0.05) / (min(lights) + 0.05)


@unittest.skipUnless(CHROMIUM, "chromium is not installed")
class Shown(unittest.TestCase):
    @classmethod
    def setUpClass(cls):
        cls.browser, cls.folder = Browser(), tempfile.mkdtemp()

    @classmethod
    def tearDownClass(cls):
        cls.browser.end()
        shutil.rmtree(cls.folder)

    def setUp(self):
        self.browser.complaints.clear()
        self.browser.size(1280, 900)

    def open(self, page, name="page.html", place=""):
        path = os.path.join(self.folder, name)
        with open(path, "w", encoding="utf-8") as it:
            it.write(page)
        self.browser.open(f"file://{path}{place}")
        return f"file://{path}"

    def state(self):
        """The state that the page tells in words."""
        return self.browser.value("[...document.querySelectorAll('#words li')].map((it) => it.textContent)")

    def at(self):
        return self.browser.value("document.getElementById('link').textContent")

    def test_names_that_would_do_harm_are_text(self):
        url = self.open(hostile())
        self.assertEqual(self.browser.value("document.images.length + document.scripts.length"), 2)
        self.assertNotEqual(self.browser.value("document.title"), "harm")
        self.assertEqual(self.browser.value("document.querySelector('#message').textContent"), "1:1: " + HARM)
        self.assertEqual((self.browser.loaded(), self.browser.complaints), ([url], []))

    @unittest.skipUnless(READY, "needs z3 and the programs")
    def test_the_steps_are_those_of_json(self):
        for name in ("loop_wrong.vpr", "list_wrong.vpr", "tutorial/tree_wrong.vpr", "tutorial/wildcard_wrong.vpr"):
            told, page = self.called(os.path.join("examples", name))
            label = next(it for it in told if it.get("trace"))
            steps = [words_of(it["state"]) for it in label["trace"]]
            url = self.open(page, place=f"#{label['unit']}-1")
            for number, state in enumerate(steps):
                self.assertEqual((self.at(), self.state()), (f"{number + 1} of {len(steps)}", state), name)
                self.assertEqual(self.browser.value("location.hash"), f"#{label['unit']}-{number + 1}")
                self.assertEqual(self.browser.value("document.querySelector('.row.here').id"), f"L{label['trace'][number]['line']}")
                self.browser.press("ArrowRight")
            for state in reversed(steps[:-1]):
                self.browser.press("ArrowLeft")
                self.assertEqual(self.state(), state, name)
            self.browser.press("End")
            self.assertEqual(self.at(), f"{len(steps)} of {len(steps)}")
            self.assertEqual((self.browser.loaded(), self.browser.complaints), ([url], []))

    def called(self, file):
        """The lines of JSON of a call, and the page that it writes."""
        folder = os.path.join(self.folder, "pages")
        done = subprocess.run([sys.executable, "tools/verify", file, "--json", "--html", folder, "--no-certificates"], cwd=TOP,
                              stdout=subprocess.PIPE, stderr=subprocess.PIPE)
        self.assertEqual((done.returncode, done.stderr), (1, b""))
        (name,) = os.listdir(folder)
        with open(os.path.join(folder, name), encoding="utf-8") as it:
            page = it.read()
        shutil.rmtree(folder)
        return [json.loads(it) for it in done.stdout.decode().splitlines()], page

    def test_a_frame_is_folded_and_unfolded_by_the_keyboard(self):
        self.open(hostile())
        self.browser.value("document.querySelector('.fold').focus()")
        count = self.browser.value("document.querySelectorAll('#heap text').length")
        self.browser.press("Enter")
        self.assertLess(self.browser.value("document.querySelectorAll('#heap text').length"), count)
        self.assertEqual(self.browser.complaints, [])

    def test_on_a_narrow_screen_nothing_is_wider_than_the_screen(self):
        for width in (1280, 400, 320):
            self.browser.size(width, 900)
            self.open(hostile())
            self.assertLessEqual(self.browser.value("document.documentElement.scrollWidth"), width)

    def test_by_tab_one_comes_to_each_control_and_sees_where_one_is(self):
        self.open(hostile())
        found = []
        for _ in range(12):
            self.browser.press("Tab")
            found.append(self.browser.value("document.activeElement.id || document.activeElement.tagName"))
            self.assertNotEqual(self.browser.value("getComputedStyle(document.activeElement).outlineStyle"), "none", found)
        self.assertLessEqual({"file", "runs", "slider", "back", "link", "heap"}, set(found))

    def test_a_page_without_runs_and_odd_addresses(self):
        text = b"method m() { }\n"
        self.open(page_of("right.vpr", text, [page_unit(Source("x", text), "m", "verified", True, "", [])]), place="#none-3")
        self.assertEqual(self.browser.value("document.getElementById('sum').textContent"), "✓ 1 verified")
        self.open(hostile(), "other.html", "#m-99999")
        self.assertEqual(self.at(), "2 of 2")
        self.open(hostile(), "third.html", "#%")
        self.assertEqual(self.at(), "2 of 2")
        self.assertEqual(self.browser.complaints, [])


def words_of(state):
    """The state of a step of `--json`, as the page tells it in words."""
    found = [f"{name} = {value}" for name, value in state["variables"].items()]
    found += [f"{it['place']} = {it['value']}, held: {spoken(it['held'])}" for it in state["places"]]
    for it in state["instances"]:
        inside = f" {it['content']}" if it["content"] else ""
        found.append(f"{it['predicate']}({', '.join(it['arguments'])}){inside}, held: {spoken(it['held'])}")
    return found


def spoken(held):
    return {"1": "write", "0": "none"}.get(held, held if "/" in held else f"{held}/1")


if __name__ == "__main__":
    unittest.main()
