"""The words of the command line."""
import os
import subprocess
import unittest
from unittest import mock

from support import COMMAND, Folder, run
from resin_tools import programs

COMMANDS = ["build", "live", "import", "show", "diff", "report", "check"]


class Words(Folder):
    def test_help_of_each_command_has_an_example(self):
        done = run("--help")
        self.assertEqual(done.returncode, 0)
        for command in COMMANDS:
            with self.subTest(command=command):
                self.assertIn(f"\n    {command} ", done.stdout.decode())
                self.assertIn(f"example: tools/resin {command}", run(command, "--help").stdout.decode())

    def test_wrong_words_get_one_line_and_status_2(self):
        rows = [
            [], ["serve"], ["build", "x"], ["live"], ["live", "a", "b"], ["live", "a", "--port"], ["live", "a", "--port", "65536"], ["live", "a", "--port", "-1"],
            ["live", "a", "--fuel", "0"], ["live", "a", "--fuel", "100000001"], ["live", "a", "--limit", "1"], ["live", "a", "--colour"],
            ["import"], ["import", self.folder / "none"], ["import", self.folder], ["show", "a"], ["show", "none", "none"], ["diff", "none", "none"], ["report", "a", "b"], ["report", "none", "none", "none"], ["check"], ["check", "none"],
            ["check", "a", "b"], ["check", ".", "--colour"], ["check", self.folder], ["check", self.folder / "site.d", "--checker"],
        ]
        self.addCleanup(os.chdir, os.getcwd())
        os.chdir(self.folder)
        for words in rows:
            with self.subTest(words=words):
                done = run(*words)
                self.assertEqual((done.returncode, done.stdout), (2, b""))
                text = done.stderr.decode()
                self.assertTrue(text.startswith("resin: ") and text.count("\n") == 1 and text.endswith("\n"), text)

    def test_programs_that_are_not_there_get_one_line_and_status_2(self):
        (self.folder / "site").mkdir()
        plain = self.put("plain", "")
        rows = {
            ("check", self.folder, "--checker", plain): f"resin: {plain} is no program\n",
            ("live", self.folder, "--engine", plain): f"resin: {plain} is no program\n",
            ("live", self.folder, "--engine", "/bin/true", "--checker", plain): f"resin: {plain} is no program\n",
            ("check", self.folder): "resin: no checker is built yet: run tools/resin build\n",
            ("live", self.folder): "resin: no engine is built yet: run tools/resin build\n",
        }
        for words, line in rows.items():
            with self.subTest(words=words), mock.patch.object(programs, "TOP", self.folder), mock.patch.dict(os.environ):
                os.environ.pop("RESIN_ENGINE", None)
                os.environ.pop("RESIN_CHECK", None)
                done = run(*words)
                self.assertEqual((done.returncode, done.stdout, done.stderr.decode()), (2, b"", line))

    def test_the_program_ends_with_the_status(self):
        done = subprocess.run([*COMMAND, "serve"], capture_output=True, timeout=60, check=False)
        self.assertEqual((done.returncode, done.stdout, done.stderr.count(b"\n")), (2, b"", 1))


if __name__ == "__main__":
    unittest.main()
