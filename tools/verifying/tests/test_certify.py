"""What `certify-boogie` says of certificates that are changed by hand: one for each reason. Skipped where `prove` was not built."""
import os
import subprocess
import tempfile
import unittest

from verifying.program import TOP

PROVE = os.environ.get("REMDUSKA_PROVE") or os.path.join(TOP, "crates/prove/out/prove")
DATA = os.path.join(TOP, "crates/prove/data")
GREATEST = (1 << 127) - 1

# The number of the line of right.cert that another one takes the place of, that line, and what is told.
REFUSED = (
    (17, "gates 8 1", "17 word"),
    (5, "int 02", "5 number"),
    (5, f"int {GREATEST + 1}", "5 number"),
    (6, "<= 2", "6 count"),
    (4, "var 2", "4 name"),
    (22, "rup -8 0 1 3 5 9", "22 name"),
    (8, "&& 1 2", "8 type"),
    (7, "let 2 4", "7 definition"),
    (9, "let 2 -4", "9 definition"),
    (17, "gate 4 1", "17 shape"),
    (19, "gate 5 3", "19 case"),
    (20, "sum 1 -7 1 4 0 1 6 -2 3", "20 sum"),
    (20, f"sum 1 -7 1 4 0 1 6 {GREATEST} 3", "20 large"),
    (22, "rup -8 0 3", "22 hint"),
    (22, "rup -8 0 1", "22 open"),
    (22, "rup " + "-8 " * 1001 + "0 1 3 5 2", "22 long"),
)


@unittest.skipUnless(os.access(PROVE, os.X_OK), "prove was not built")
class Certify(unittest.TestCase):
    def says(self, text):
        with tempfile.NamedTemporaryFile("w", suffix=".cert") as it:
            it.write(text)
            it.flush()
            done = subprocess.run([PROVE, "certify-boogie", os.path.join(DATA, "right.bpl"), it.name], stdout=subprocess.PIPE,
                                  stderr=subprocess.PIPE, universal_newlines=True)
        return done.returncode, done.stdout, done.stderr

    def setUp(self):
        with open(os.path.join(DATA, "right.cert"), encoding="utf-8") as it:
            self.lines = it.read().split("\n")[:-1]

    def refused(self, text, told):
        self.assertEqual(self.says(text), (10, f"open go certificate {told}\n", ""), told)

    def test_a_certificate_is_accepted(self):
        self.assertEqual(self.says("\n".join(self.lines) + "\n"), (0, "proved go\n", ""))

    def test_a_certificate_of_another_procedure_is_refused(self):
        self.assertEqual(self.says("\n".join(["certificate other", *self.lines[1:]]) + "\n"), (1, "", "error: certificate 1 header\n"))

    def test_each_reason_is_told_at_its_line(self):
        for number, line, told in REFUSED:
            self.refused("\n".join([*self.lines[:number - 1], line, *self.lines[number:]]) + "\n", told)

    def test_the_end_is_told_behind_the_last_line(self):
        self.refused("\n".join(self.lines), "22 ending")
        self.refused("\n".join(self.lines[:-1]) + "\n", "22 missing")


if __name__ == "__main__":
    unittest.main()
