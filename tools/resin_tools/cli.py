"""The command line of `tools/resin`. Each wrong use gets one line on standard error, and the exit status 2."""
import argparse
import io
import os
import shutil
import sys
from pathlib import Path
from typing import NoReturn

from .bridge import LEAST_LIMIT, MOST_LIMIT, USUAL_LIMIT, Settings
from .build import build
from .check import check_site
from .diff import differences, read_answer_file
from .fault import Wrong
from .folders import check_folder
from .imports import import_files, read_file
from .live import live
from .programs import CHECKER, ENGINE, Program
from .report import report
from .report_page import report_page, write_page
from .report_text import report_text
from .show import exchanges, show_json, show_text
from .terminal import complain

MOST_FUEL = 100_000_000


class _Parser(argparse.ArgumentParser):
    """A parser whose complaint is one line."""

    def error(self, message: str) -> NoReturn:
        raise Wrong(f"{message} ({self.prog} --help tells more)")


def main(words: list[str]) -> int:
    """Runs a command, and answers the exit status."""
    for stream in (sys.stdout, sys.stderr):
        if isinstance(stream, io.TextIOWrapper):
            stream.reconfigure(errors="backslashreplace")
    try:
        chosen = _parser().parse_args(words)
        return chosen.run(chosen)
    except Wrong as wrong:
        complain(str(wrong))
        return 2
    except BrokenPipeError:
        os.dup2(os.open(os.devnull, os.O_WRONLY), sys.stdout.fileno())
        return 1
    except KeyboardInterrupt:
        return 130


def _parser() -> argparse.ArgumentParser:
    parser = _Parser(
        prog="tools/resin",
        description="Tools around the engine resin_cli. Nothing of them is proved; they speak with it by the formats of docs/FORMATS.md.",
        epilog="example: tools/resin build && tools/resin live demo",
    )
    commands = parser.add_subparsers(title="commands", metavar="COMMAND", required=True)
    _add_build(commands)
    _add_live(commands)
    _add_import(commands)
    _add_show(commands)
    _add_diff(commands)
    _add_report(commands)
    _add_check(commands)
    return parser


def _add(commands, name: str, run, summary: str, text: str, example: str) -> argparse.ArgumentParser:
    parser = commands.add_parser(
        name, help=summary, description=text, epilog=f"example: {example}", formatter_class=argparse.RawDescriptionHelpFormatter
    )
    parser.set_defaults(run=run)
    return parser


def _add_build(commands) -> None:
    text = """Builds the engine and the checker, optimised, into build/resin and build/resin_check: in some minutes without proving them, or with their
proofs, which takes hours from nothing."""
    parser = _add(commands, "build", _build, "build the engine and the checker", text, "tools/resin build")
    parser.add_argument("--proved", action="store_true", help="prove them with all that they stand on, by rt run")


def _build(chosen: argparse.Namespace) -> int:
    for path in build(chosen.proved):
        print(path, flush=True)
    return 0


_LIVE = """Serves FOLDER/site/ by HTTP until Ctrl-C. FOLDER is where the engine runs: denial.log and outbox.txt stand there. The terminal gets a line for
each answer (time, method, target, status, bytes of the body, milliseconds) and a red one for each denial."""


def _add_live(commands) -> None:
    parser = _add(commands, "live", _live, "serve a folder to browsers", _LIVE, "tools/resin live mysite --port 8081 --keep today.trace")
    parser.add_argument("folder", metavar="FOLDER", type=Path)
    parser.add_argument("--port", type=_number(0, 65535), default=8080, metavar="N", help="the port, 8080 without it; 0 takes a free one")
    parser.add_argument("--listen", default="127.0.0.1", metavar="ADDRESS", help="the address, 127.0.0.1 without it")
    parser.add_argument("--fuel", type=_number(1, MOST_FUEL), metavar="N", help="ticks of fuel for each request, 1,000,000 without it")
    parser.add_argument("--keep", type=Path, metavar="TRACE", help="write what came as a trace; further engines write TRACE.2 and so on")
    limit = f"start the engine anew before its trace has N bytes, {USUAL_LIMIT} without it"
    parser.add_argument("--limit", type=_number(LEAST_LIMIT, MOST_LIMIT), default=USUAL_LIMIT, metavar="N", help=limit)
    parser.add_argument("--quiet", action="store_true", help="no lines for answers")
    _add_program(parser, ENGINE)
    _add_program(parser, CHECKER)


def _live(chosen: argparse.Namespace) -> int:
    settings = Settings(
        ENGINE.find(chosen.engine), chosen.folder, chosen.listen, chosen.port, chosen.fuel, chosen.keep, chosen.limit
    )
    return live(settings, chosen.quiet, chosen.checker)


_IMPORT = """Writes a trace of a HAR file, as Firefox and Chrome export it, or of raw request files: each of these holds the bytes that one connection
sent. What a trace can't hold is named on standard error and left out: chunked and multipart bodies, entries that the browser took from its
cache, and requests to other hosts."""


def _add_import(commands) -> None:
    parser = _add(commands, "import", _import, "make a trace of recorded traffic", _IMPORT, "tools/resin import login.har > login.trace")
    parser.add_argument("files", metavar="FILE", type=Path, nargs="+")
    parser.add_argument("--host", metavar="HOST", help="take requests to this host, as in the URL, in place of that of the first entry")


def _import(chosen: argparse.Namespace) -> int:
    made = import_files(chosen.files, chosen.host)
    for note in made.notes:
        complain(note)
    complain(f"a trace of {made.requests} requests, {len(made.trace)} bytes")
    sys.stdout.buffer.write(made.trace)
    sys.stdout.buffer.flush()
    return 0


_SHOW = """Shows each request of TRACE on the left and its answer in ANSWERS, which `resin_cli serve < TRACE > ANSWERS` wrote, on the right."""


def _add_show(commands) -> None:
    parser = _add(commands, "show", _show, "requests and answers side by side", _SHOW, "tools/resin show login.trace login.answers")
    parser.add_argument("trace", metavar="TRACE", type=Path)
    parser.add_argument("answers", metavar="ANSWERS", type=Path)
    parser.add_argument("--json", action="store_true", help="a JSON list for programs")
    parser.add_argument("--whole", action="store_true", help="long bodies too, which are cut without it")


def _show(chosen: argparse.Namespace) -> int:
    found, notes = exchanges(read_file(chosen.trace), read_file(chosen.answers))
    for note in notes:
        complain(note)
    if chosen.json:
        print(show_json(found))
    else:
        for line in show_text(found, shutil.get_terminal_size().columns, chosen.whole):
            print(line)
    return 0


_DIFF = """Tells which answers differ between two files of answers, as two runs of one trace wrote them. The exit status is 0 where none does, and 1
where some do."""


def _add_diff(commands) -> None:
    parser = _add(commands, "diff", _diff, "what differs between two files of answers", _DIFF, "tools/resin diff old.answers new.answers")
    parser.add_argument("old", metavar="OLD", type=Path)
    parser.add_argument("new", metavar="NEW", type=Path)


def _diff(chosen: argparse.Namespace) -> int:
    old, new = (read_answer_file(path, read_file(path)) for path in (chosen.old, chosen.new))
    lines = list(differences(old, new))
    print("\n".join(lines) if lines else f"the same {len(old)} answers")
    return 1 if lines else 0


_REPORT = """Tells what left in a run and what was denied, on one screen. JOURNAL is the journal file of the run (docs/FORMATS.md): `record` of the engine leaves it
as journal.log in the folder where it runs. PAGE gets each text that left, its labelled ranges coloured by policy; it holds the secrets that a policy
let through."""


def _add_report(commands) -> None:
    example = "tools/resin report login.trace login.answers mysite/journal.log --html report.html"
    parser = _add(commands, "report", _report, "what left in a recorded run, and what was denied", _REPORT, example)
    parser.add_argument("trace", metavar="TRACE", type=Path)
    parser.add_argument("answers", metavar="ANSWERS", type=Path)
    parser.add_argument("journal", metavar="JOURNAL", type=Path)
    parser.add_argument("--html", metavar="PAGE", type=Path, help="write a page of HTML with the texts that left, without scripts or outside links")


def _report(chosen: argparse.Namespace) -> int:
    paths = (chosen.trace, chosen.answers, chosen.journal)
    made = report(*map(read_file, paths))
    if chosen.html:
        write_page(chosen.html, report_page(made, ", ".join(map(str, paths))))
    for note in made.notes:
        complain(note)
    screen = shutil.get_terminal_size()
    for line in report_text(made, screen.columns, screen.lines):
        print(line)
    return 0


_CHECK = """Looks at the scripts of FOLDER/site/ before they run: texts that are no programs, calls of functions and names of classes that neither the
runtime nor the site has, with what to write instead of what the language leaves out of PHP, and guards in boot.php. The exit status is 1 where there is
something to tell."""


def _add_check(commands) -> None:
    parser = _add(commands, "check", _check, "look at the scripts of a site", _CHECK, "tools/resin check mysite")
    parser.add_argument("folder", metavar="FOLDER", type=Path)
    _add_program(parser, CHECKER)


def _check(chosen: argparse.Namespace) -> int:
    check_folder(chosen.folder)
    found = check_site(CHECKER.find(chosen.checker), chosen.folder)
    for finding in found:
        print("\n".join(finding.lines()))
    return 1 if found else 0


def _add_program(parser: argparse.ArgumentParser, program: Program) -> None:
    help_text = f"the {program.what} to run in place of build/{program.name}, or of that which {program.variable} names"
    parser.add_argument(f"--{program.what}", metavar="PROGRAM", help=help_text)


def _number(least: int, most: int):
    """Reads a decimal within bounds."""

    def read(word: str) -> int:
        if not word.isascii() or not word.isdigit() or not least <= int(word) <= most:
            raise argparse.ArgumentTypeError(f"{word!r} is no number from {least} to {most}")
        return int(word)

    return read
