#!/usr/bin/env python3
"""Runs the program with right and with wrong arguments, and compares its exit status, its line on standard error and its output.

usage: program.py --program PATH

The arguments are `DB SHARDS WORKERS SESSIONS ADDR`. With right ones the program holds one session over its input, here one query of an
empty database. What is expected is written out here. The last line is 'N passed, M failed', and the exit status is 0 if M is 0.
"""
import subprocess
import sys

from common.arguments import arguments
from common.messages import reply
from common.session import run_command, run_session, session_command
from common.tally import Tally

SECONDS = 60
QUERY = b'POST /%s/_find HTTP/1.1\r\nContent-Length: 15\r\n\r\n{"selector":{}}'
CLOSING_QUERY = b'POST /db/_find HTTP/1.1\r\nConnection: close\r\nContent-Length: 15\r\n\r\n{"selector":{}}'
OLD_QUERY = b'POST /db/_find HTTP/1.0\r\nContent-Length: 15\r\n\r\n{"selector":{}}'
STAYING_QUERY = b'POST /db/_find HTTP/1.1\r\nConnection: keep-alive\r\nContent-Length: 15\r\n\r\n{"selector":{}}'
BAD_HEAD = reply(400, '{"error":"bad_head","reason":"Bad request head."}')
PAGE = reply(200, '{"bookmark":"nil","docs":[]}')
USAGE = b"mangod: usage: mangod DB SHARDS WORKERS SESSIONS ADDR\n"

RIGHT = ["db 1 1 1 -", "a 1 1 1 -", "z9_$()+-a 1 1 1 -", "db 01 1 001 -", "db 2 1 1 -", "db 64 1 1 -", "db 064 1 1 -",
         "db 1 2 1 -", "db 1 32 1 -", "db 64 032 1 -", "db 1 1 2 -", "db 64 32 016 -"]

# the arguments, separated by `|`
WRONG = [
    "", "db", "db|1|1|1", "db|1|1|1|-|", "db|1|1|1|-|1", "D|1|1|1|-", "dB|1|1|1|-", "|1|1|1|-", "1|1|1|1|-", "_db|1|1|1|-",
    "d b|1|1|1|-", "d.b|1|1|1|-", "d/b|1|1|1|-", "dé|1|1|1|-", "db|0|1|1|-", "db|65|1|1|-", "db|1|0|1|-", "db|1|33|1|-",
    "db|1|1|0|-", "db|1|1|17|-", "db||1|1|-", "db|1||1|-", "db|1|1||-", "db|+1|1|1|-", "db|-1|1|1|-", "db|1 |1|1|-",
    "db|1|+2|1|-", "db|1|3 |1|-", "db|1|18446744073709551618|1|-",
    "db| 1|1|1|-", "db|1.0|1|1|-", "db|x|1|1|-", "db|18446744073709551617|1|1|-",
]

# the name, the input, the output, the exit status and the line
SESSIONS = [
    ("an input that ends", b"", b"", 0, b""),
    ("bytes that are not a head", b"X\r\n", BAD_HEAD, 1, b"mangod: refused\n"),
    ("a message that asks to close, and another", CLOSING_QUERY + QUERY % b"db", PAGE, 0, b""),
    ("a message of version 1.0, and another", OLD_QUERY + QUERY % b"db", PAGE, 0, b""),
    ("a message that asks to stay, and another", STAYING_QUERY + QUERY % b"db", PAGE + PAGE, 0, b""),
    ("an unfinished message", QUERY % b"db" + CLOSING_QUERY[:-1], PAGE, 0, b""),
]


def checks(program):
    """Yields each check: its name, what was found, and what was expected: the output, the exit status and the line on standard error."""
    for line in RIGHT:
        args = line.split(" ")
        yield line, run_command([program, *args], QUERY % args[0].encode(), SECONDS), (PAGE, (0, b""))
    for line in WRONG:
        args = line.split("|") if line else []
        yield line, run_command([program, *args], QUERY % b"db", SECONDS), (b"", (2, USAGE))
    for name, given, output, status, line in SESSIONS:
        yield name, run_session(program, given, seconds=SECONDS), (output, (status, line))
    command = " ".join(session_command(program))
    closed = subprocess.run(f"exec 0<&-; {command}", shell=True, capture_output=True, timeout=SECONDS)
    yield "an input that is closed", (closed.returncode, closed.stdout, closed.stderr), (1, b"", b"mangod: read fault\n")
    full = subprocess.run(f"{command} > /dev/full", shell=True, input=QUERY % b"db", capture_output=True, timeout=SECONDS)
    yield "an output that takes nothing", (full.returncode, full.stderr), (1, b"mangod: write fault\n")


def main():
    args, tally = arguments(__doc__), Tally()
    for name, found, expected in checks(args.program):
        tally.expect(repr(name), found, expected)
    return tally.end()


if __name__ == "__main__":
    sys.exit(main())
