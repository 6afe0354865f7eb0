#!/usr/bin/env python3
"""Runs the commands of README.md and docs/TUTORIAL.md in a shell, and compares their output with the expected output.

usage: readme.py --program PATH [--part conversations|readme|tutorial|command]

`readme` is the section "Run it" of README.md up to its text block, `tutorial` is docs/TUTORIAL.md; `conversations`, the default, is both.
The commands of the `sh` blocks run in one shell, from the top of the repository; their output must be the `text` blocks, joined. The
program takes the place of crates/mangod/out/mangod, crates/mango_server/out/mango_server that of its `rt try`, free ports that of 5984 and
5985, and a new folder that of /tmp. Needs `curl`.
`command` is the `sh` block of README.md with `printf`, unchanged, which builds and runs the program without proving it: its output must end
in the bytes of crates/mangod/stdout. Needs `rt`. The last line is 'N passed, M failed'.
"""
import os
import re
import signal
import subprocess
import sys
import tempfile
from pathlib import Path

from common.arguments import arguments
from common.server import free_port
from common.tally import Tally

SECONDS = 60
PATIENCE = 1800
TOP = Path(__file__).resolve().parent.parent
# the first command of README.md, up to the program's arguments
TRY = re.compile(r"\(cd (crates/mango_server) && rt try --seconds [0-9]+ -- (.*)\) &")
KILL = "trap 'kill $(jobs -p)' EXIT\n"


def blocks(text, kind):
    return re.findall(rf"^```{kind}\n(.*?)^```$", text, re.S | re.M)


def run(commands, program):
    """Runs commands in one shell at the top of the repository. Returns their standard output, and if they have not ended in time, a line
    that says so and their standard error. All that they started has ended then."""
    with tempfile.TemporaryDirectory() as folder:
        commands = commands.replace("/tmp/", f"{folder}/")
        ports = {"5984": str(free_port()), "5985": str(free_port())}
        commands = re.sub("598[45]", lambda port: ports[port.group()], commands)
        commands = commands.replace("crates/mangod/out/mangod", str(program))
        commands = KILL + TRY.sub(r"\1/out/mango_server \2 2> /dev/null &", commands)
        shell = subprocess.Popen(["bash", "-c", commands], cwd=TOP, stdin=subprocess.DEVNULL, stdout=subprocess.PIPE,
                                 stderr=subprocess.PIPE, text=True, start_new_session=True)
        try:
            return shell.communicate(timeout=SECONDS)[0]
        except subprocess.TimeoutExpired:
            os.killpg(shell.pid, signal.SIGKILL)
            output, errors = shell.communicate()
            return f"{output}\nnot ended after {SECONDS} seconds; standard error:\n{errors}"


def check_readme(program, tally):
    """The first two commands start a server and print what it is; then comes the conversation."""
    section = (TOP / "README.md").read_text(encoding="utf-8").partition("## Run it\n")[2].partition("\n`mangod` takes")[0]
    commands, expected = blocks(section, "sh"), blocks(section, "text")
    tally.expect("blocks of README.md", (len(commands), len(expected)), (2, 1))
    tally.expect("a command that starts a server", len(TRY.findall(section)), 1)
    tally.expect("the first conversation", run("".join(commands), program), "".join(expected))


def check_tutorial(program, tally):
    text = (TOP / "docs" / "TUTORIAL.md").read_text(encoding="utf-8")
    commands, expected = blocks(text, "sh"), blocks(text, "text")
    tally.expect("blocks of the tutorial", (len(commands), len(commands) == len(expected)), (9, True))
    tally.expect("the tutorial", run("".join(commands), program), "".join(expected))


def check_command(_program, tally):
    text = (TOP / "README.md").read_text(encoding="utf-8")
    block = next((one for one in blocks(text, "sh") if "printf" in one), "false")
    done = subprocess.run(["bash", "-c", block], cwd=TOP, stdin=subprocess.DEVNULL, capture_output=True, timeout=PATIENCE)
    expected = (TOP / "crates" / "mangod" / "stdout").read_bytes()
    tally.expect(f"the status of {block!r}", done.returncode, 0)
    tally.expect("what it writes", done.stdout[-len(expected):], expected)


# the checks of each part, and the program that they need
PARTS = {"conversations": ([check_readme, check_tutorial], "curl"), "readme": ([check_readme], "curl"),
         "tutorial": ([check_tutorial], "curl"), "command": ([check_command], "rt")}


def main():
    args, tally = arguments(__doc__, part="conversations"), Tally()
    parts, needed = PARTS[args.part]
    if tally.needs(needed):
        for check in parts:
            check(args.program, tally)
    return tally.end()


if __name__ == "__main__":
    sys.exit(main())
