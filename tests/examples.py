#!/usr/bin/env python3
"""Runs the starter programs of examples/ against servers, and compares what they print with tests/examples/NAME.txt.

usage: examples.py --program PATH

The expected texts were written from the rules, not by the program: orders and refusals from docs/REFERENCE.md, the id of a revision as
the MD5 of the text `[deleted, parent, body]`. Each example is run on new servers with 1, 4 and 64 shards, and passes or fails as one. The
report needs `curl`. The last line is 'N passed, M failed'.
"""
import contextlib
import subprocess
import sys
from pathlib import Path

from common.arguments import arguments
from common.example import EXAMPLES, database_url
from common.server import Launch, listening
from common.tally import Tally

SECONDS = 60
EXPECTED = Path(__file__).resolve().parent / "examples"
# each example, and how many servers it needs
SERVERS = {"client.py": 1, "replicas.py": 2, "report.sh": 1}
# examples that other scripts test: compare.py, from_couchdb.py
ELSEWHERE = ["compare_couchdb.py", "from_couchdb.py"]
SHARDS = (1, 4, 64)


def run_on_servers(program, example, servers, shards):
    """Runs an example on new servers with this number of shards. Returns its exit status, its output and what it wrote to standard error."""
    with contextlib.ExitStack() as stack:
        ports = [stack.enter_context(listening(Launch(program, shards, 2), 4)) for _ in range(servers)]
        urls = list(map(database_url, ports))
        done = subprocess.run([EXAMPLES / example, *urls], capture_output=True, text=True, timeout=SECONDS)
    return done.returncode, done.stdout, done.stderr


def main():
    args, tally = arguments(__doc__), Tally()
    tally.expect("the examples", sorted(file.name for file in EXAMPLES.iterdir() if file.is_file()), sorted([*SERVERS, *ELSEWHERE]))
    for example, servers in SERVERS.items():
        if example == "report.sh" and not tally.needs("curl"):
            continue
        expected = (EXPECTED / example).with_suffix(".txt").read_text(encoding="utf-8")
        found = {shards: run_on_servers(args.program, example, servers, shards) for shards in SHARDS}
        tally.expect(example, found, dict.fromkeys(SHARDS, (0, expected, "")))
    print(f"each example on {len(SHARDS)} numbers of shards:")
    return tally.end()


if __name__ == "__main__":
    sys.exit(main())
