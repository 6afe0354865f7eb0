#!/usr/bin/env python3
"""Refuses memory to tests of the libraries, one request at a time. A refused call must have changed nothing.

usage: refused_calls.py --program PATH [--tests FOLDER]

Each test itself checks the effect of a refused call: `Engine::run` must then have run nothing, and each call of two seats is checked by
the number of commits when the database is closed. The shim refuse/refuse.c refuses the nth request for memory of a test, for each n until
a run meets no refusal. A run is right if the test passes; if the test says at its end that a call was refused and everything else was as
expected; or if the test itself got no memory for its own needs, which it reports with the word `memory`. No other outcome is allowed. The
test must pass when nothing is refused, and each of its messages about a refused call must occur. The built tests are those that the gate
leaves in CRATE/out of the folder. The shim needs a C compiler, `cc`. The last line is 'N passed, M failed'.
"""
import itertools
import resource
import signal
import sys
from pathlib import Path

from common.arguments import arguments
from common.refusal import refusals
from common.tally import Tally

CRATES = Path(__file__).resolve().parent.parent / "crates"
RUN, COMMAND, CALL = "the run was refused memory", "a command was refused memory", "a call was refused memory"
# the crate of each test, its name, and its messages about a refused call
TESTS = [
    ("mg_tests", "run_tests::a_refused_run_has_run_nothing", {RUN, COMMAND}),
    ("mg_tests", "commit_tests::two_seats", {CALL}),
    ("mg_tests", "commit_tests::two_seats_reshard", {CALL}),
]
PASSED, OWN = "ok", "memory"


def outcome(refusal, tests, name, request):
    """Runs a test while a request is refused. Returns `ok` if it passed; the first line of its standard error if it ended by a panic
    (`memory` alone if the line begins with `memory: `); else its exit status and its standard error."""
    refusal.reset()
    refusal.refuse("memory", request, request)
    _, (status, error) = refusal.run([str(tests), name], b"")
    line = error.decode("utf-8", "replace").split("\n")[0]
    if status == 0:
        return PASSED
    if status != -signal.SIGABRT:
        return f"{status} {error!r}"
    return OWN if line.startswith(f"{OWN}: ") else line


def outcomes(refusal, tests, name):
    """Returns each outcome, with the refused requests that led to it; and the number of requests without a refusal."""
    found = {outcome(refusal, tests, name, 0): [0]}
    count = refusal.calls("memory")
    for request in itertools.count(1):
        message = outcome(refusal, tests, name, request)
        if not refusal.refused("memory"):
            return found, count
        found.setdefault(message, []).append(request)


def check(refusal, tests, name, messages, tally):
    """Checks one test. Each of its messages about a refused call must occur."""
    found, count = outcomes(refusal, tests, name)
    print(f"{name}, {count} requests: {', '.join(f'{len(found[message])} {message}' for message in sorted(found))}")
    tally.expect(f"{name} with nothing refused", 0 in found.get(PASSED, ()), True)
    others = {message: requests[:3] for message, requests in found.items() if message not in messages | {PASSED, OWN}}
    tally.expect(f"{name}: other ends, with the requests that were refused", others, {})
    tally.expect(f"{name}: what was refused", {message for message in messages if found.get(message)}, messages)


def main():
    args, tally = arguments(__doc__, tests=CRATES), Tally()
    resource.setrlimit(resource.RLIMIT_CORE, (0, 0))
    if tally.needs("cc"):
        with refusals() as refusal:
            for crate, name, messages in TESTS:
                tests = args.tests / crate / "out" / f"{crate}_tests"
                tally.expect(f"the tests {tests} were built", tests.exists(), True)
                if tests.exists():
                    check(refusal, tests, name, messages, tally)
    return tally.end()


if __name__ == "__main__":
    sys.exit(main())
