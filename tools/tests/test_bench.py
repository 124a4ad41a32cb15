"""The pages of the bench print the same by the engine, without and with labels, and by PHP where it is there (docs/SPEED.md)."""
import subprocess
import sys
import unittest

from support import TOOLS, engine_or_skip


class Bench(unittest.TestCase):
    def test_pages_print_the_same(self) -> None:
        words = [sys.executable, str(TOOLS.parent / "bench" / "run"), "--check", "--program", str(engine_or_skip())]
        done = subprocess.run(words, capture_output=True, text=True, check=False)
        self.assertEqual(done.returncode, 0, done.stderr)


if __name__ == "__main__":
    unittest.main()
