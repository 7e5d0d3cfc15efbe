"""What is told of a run that the program does not take."""
import unittest

from verifying.units import beyond

TOP = (1 << 127) - 1


class Beyond(unittest.TestCase):
    def test_a_number_beyond_the_bound(self):
        words = "a number beyond 2^127 - 1 in magnitude"
        for line in (f"var n {TOP + 1}", f"value -{TOP + 1}", f"heap p #1 1/{TOP + 1}", f"content P #1 leaf {TOP + 1}"):
            self.assertEqual(beyond(f"viper run\n{line}\n", "run says error: run-syntax 2:1", False), words, line)
        for line in (f"var n {TOP}", f"value -{TOP}", "fresh #18446744073709551615", f"var n{TOP + 1} 1"):
            self.assertEqual(beyond(f"viper run\n{line}\n", "run says // blocked", True), "", line)

    def test_a_content_beyond_the_bound(self):
        for nodes, words in ((4097, "a content of more than 4,096 nodes"), (4095, "")):
            line = "content P #1 " + "pair unit " * (nodes // 2) + "unit"
            self.assertEqual(beyond(f"viper run\n{line}\n", "run says error: run-syntax 2:1", True), words)

    def test_what_leaves_the_bound_in_the_run(self):
        self.assertEqual(beyond("viper run\npick true\n", "run says // over 3:32", False), "a number beyond 2^127 - 1 in magnitude")
        self.assertIn(", or a content of more than", beyond("viper run\npick true\n", "run says // over 3:32", True))


if __name__ == "__main__":
    unittest.main()
