"""`verify --watch`, beside what it tells of files that are written."""
import os
import select
import signal
import subprocess
import sys
import tempfile
import time
import unittest

from verifying.program import TOP

from .talking import PATIENCE, READY, WHY_NOT
from .test_server import RIGHT, descendants, is_alive


@unittest.skipUnless(READY, WHY_NOT)
class Watched(unittest.TestCase):
    def until(self, process, words):
        """What is told up to some words."""
        data, end = "", time.monotonic() + PATIENCE
        while words not in data and time.monotonic() < end:
            if select.select([process.stdout], [], [], 1)[0]:
                data += os.read(process.stdout.fileno(), 1 << 16).decode()
        self.assertIn(words, data)
        return data

    def test_a_file_that_is_written_is_told_of_and_nothing_is_left(self):
        with tempfile.TemporaryDirectory() as folder:
            path = os.path.join(folder, "it.vpr")
            room = os.path.join(folder, "room")
            os.mkdir(room)

            def write(text):
                with open(f"{path}.new", "w", encoding="utf-8") as it:
                    it.write(text)
                os.replace(f"{path}.new", path)

            write(RIGHT.replace("x.f > 0", "x.f > 1"))
            process = subprocess.Popen([sys.executable, "tools/verify", "--watch", path], cwd=TOP, stdout=subprocess.PIPE, stderr=subprocess.PIPE,
                                       env={**os.environ, "TMPDIR": room})
            told = self.until(process, "1 of 2 units verified")
            self.assertIn(f"{path}:13:10: error: this assert might fail: `x.f > 1` might be false", told)
            self.assertIn("  `x.f > 1` is 1 > 1\n", told)
            self.assertIn("   13  assert x.f > 1      fails\n", told)
            write(RIGHT)
            self.until(process, "2 of 2 units verified, 2 of them proved")
            write(RIGHT + "method")
            self.until(process, "it.vpr: refused")
            os.remove(path)
            self.until(process, "error: the file cannot be read")
            write(RIGHT)
            self.until(process, "2 of 2 units verified")
            below = descendants(process.pid)
            process.send_signal(signal.SIGINT)
            self.assertEqual(process.wait(PATIENCE), 130)
            process.stdout.close()
            self.assertIn(b"interrupted", process.stderr.read())
            process.stderr.close()
            self.assertEqual(([it for it in below if is_alive(it)], os.listdir(room)), ([], []))


if __name__ == "__main__":
    unittest.main()
