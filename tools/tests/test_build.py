"""`resin build`, with a stand-in for Rattle's command."""
import os
import unittest
from unittest import mock

from support import Done, Folder, run
from resin_tools import build as module
from resin_tools import programs
from resin_tools.programs import CHECKER, ENGINE

MODULE = """define internal void @"rattle-llvm-checks::index"(i64 %a) #3 {
  call void @abort()
}
define void @f() #1 sanitize_address {
  call void @llvm.memset(ptr %p, i8 -86, i64 8)
  call void @llvm.trap()
  store i8 -86, ptr %p
}
attributes #1 = { "frame-pointer"="all" noinline }
attributes #2 = { }
"""
PLAIN = """define internal void @"rattle-llvm-checks::index"(i64 %a) alwaysinline {
  ret void
}
define void @f() #1 {
  store i8 -86, ptr %p
}
attributes #1 = { noinline }
attributes #2 = { nounwind }
"""


class Build(Folder):
    def setUp(self) -> None:
        super().setUp()
        for program in (ENGINE, CHECKER):
            (self.folder / "crates" / program.crate).mkdir(parents=True)
        patch = mock.patch.object(programs, "TOP", self.folder)
        patch.start()
        self.addCleanup(patch.stop)

    def with_rt(self, script: str):
        """A stand-in for rt on the path."""
        program = self.put("bin/rt", f"#!/bin/sh\n{script}\n")
        program.chmod(0o755)
        return mock.patch.dict(os.environ, {"PATH": f"{program.parent}:{os.environ['PATH']}"})

    def assert_wrong(self, done: Done, line: str) -> None:
        """The build ended with this line, behind those that tell what is built."""
        *before, last = done.stderr.decode().splitlines()
        self.assertEqual((done.returncode, last), (2, f"resin: {line}"))
        self.assertTrue(all(words.startswith("resin: building the ") for words in before), before)

    def built(self) -> dict[str, str]:
        """What stands in build/."""
        return {path.name: path.read_text() for path in (self.folder / "build").iterdir()}

    def test_checks_are_taken_out(self):
        self.assertEqual("".join(module.without_checks(iter(MODULE.splitlines(keepends=True)))), PLAIN)

    def test_the_proved_programs_are_copied(self):
        rows = '"run -- serve") mkdir out && echo engine >out/resin_cli;; run) mkdir out && echo checker >out/resin_check;; *) exit 9;;'
        with self.with_rt(f'case "$*" in {rows} esac'):
            done = run("build", "--proved")
        self.assertEqual((done.returncode, done.stdout.decode()), (0, f"{ENGINE.built}\n{CHECKER.built}\n"))
        self.assertEqual(self.built(), {"resin": "engine\n", "resin_check": "checker\n"})
        words = "with its proofs, which takes hours from nothing"
        self.assertEqual(done.stderr.decode(), f"resin: building the engine {words}\nresin: building the checker {words}\n")

    def test_what_was_built_stays_where_a_proof_fails(self):
        self.put("build/resin", "before")
        with self.with_rt("exit 1"):
            done = run("build", "--proved")
        self.assert_wrong(done, "rt run in crates/resin_cli ended with status 1")
        self.assertEqual(self.built(), {"resin": "before"})

    def test_the_engine_stays_where_the_checker_fails(self):
        with self.with_rt('[ "$*" = "run -- serve" ] && mkdir out && echo engine >out/resin_cli'):
            done = run("build", "--proved")
        self.assert_wrong(done, "rt run in crates/resin_check ended with status 1")
        self.assertEqual(self.built(), {"resin": "engine\n"})

    def test_no_rattle(self):
        with mock.patch.dict(os.environ, {"PATH": str(self.folder)}):
            done = run("build")
        self.assertEqual((done.returncode, done.stderr), (2, b"resin: Rattle's command rt is not on the path\n"))


if __name__ == "__main__":
    unittest.main()
