"""What docs/ci.md shows: it is short, names what is made, and its options and its matcher are those of the tool."""
import json
import re
import unittest

from releasing import archive, debian
from releasing.manifest import Origin
from releasing.tree import TOP, read

from . import made

ORIGIN = Origin(read("VERSION").decode().strip(), "", 0, "", True)
MOST_LINES = {"dockerfile": 10, "yaml": 12}


def blocks():
    """The blocks of the page by their language."""
    return dict(re.findall(r"^```(\w+)\n(.*?)^```", read("docs/ci.md").decode(), re.M | re.S))


class Page(unittest.TestCase):
    def test_the_files_are_short(self):
        for name, most in MOST_LINES.items():
            self.assertLessEqual(blocks()[name].count("\n"), most, name)

    def test_they_name_the_archive_and_the_package_of_this_version(self):
        self.assertIn(f"ADD {archive.name_of(ORIGIN)}.tar.gz /opt/\n", blocks()["dockerfile"])
        self.assertIn(f"/opt/{archive.name_of(ORIGIN)}/bin/remduska ", blocks()["dockerfile"])
        self.assertIn(f"/{debian.name_of(ORIGIN)}\n", blocks()["yaml"])
        for it in (f"{archive.name_of(ORIGIN)}.tar.gz", debian.name_of(ORIGIN)):
            self.assertIn(it, read("docs/install.md").decode())

    def test_its_options_are_those_of_verify(self):
        text = read("docs/ci.md").decode()
        for call in re.findall(r"remduska verify ([^\n`]*)", text):
            options = re.findall(r"--[\w-]+", call)
            self.assertIn("--strict", options)
            words = [word for it in options for word in ([it, "x"] if it == "--sarif" else [it])]
            done = made.call([f"{TOP}/tools/verify", *words, "--help"])
            self.assertEqual((done.returncode, done.stderr), (0, ""), call)

    def test_the_matcher_reads_the_lines_that_verify_prints(self):
        pattern = json.loads(blocks()["json"])["problemMatcher"][0]["pattern"][0]
        shown = re.search(r"^\$ \./remduska verify [^\n]*\n(.*?)^```", read("README.md").decode(), re.M | re.S)[1].splitlines()
        told = [it for it in shown if re.match(r"examples/.*: (error|warning|note|help): ", it)]
        self.assertTrue(told)
        matched = [re.search(pattern["regexp"], it) for it in shown]
        self.assertEqual([it.string for it in matched if it], [it for it in told if ": help: " not in it])
        first = next(it for it in matched if it)
        self.assertEqual([first[pattern[it]] for it in ("file", "line", "column", "severity")], [*told[0].split(":")[:3], "error"])
