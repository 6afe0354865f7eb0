#!/usr/bin/env python3
"""Runs examples/compare_couchdb.py with the program on both sides, and against an imitation of CouchDB with planted differences.

usage: compare.py --program PATH

The imitation, tests/imitation/front.py, is a proxy in front of a second program. It differs from the first program only in what
docs/MIGRATE.md names as a difference. Each further run plants one more difference, which must be found. The names of differences must be
those of docs/MIGRATE.md. The last line is 'N passed, M failed'.
"""
import contextlib
import json
import sys
import tempfile
from pathlib import Path

from common.arguments import arguments
from common.example import database_url, run_example
from common.modules import module_in
from common.reference import TOP
from common.server import Launch, listening
from common.tally import Tally
from common.wire import ask_once
from imitation.front import Front, serving_front

example = module_in("examples", "compare_couchdb")


@contextlib.contextmanager
def two_programs(program):
    """Starts two programs, and yields their ports."""
    with contextlib.ExitStack() as stack:
        yield [stack.enter_context(listening(Launch(program, shards, 1), 4)) for shards in (1, 5)]


def run(*args):
    return run_example("compare_couchdb.py", *args)


def run_against_imitation(program, planted=None):
    """Runs the example against the imitation, with a planted difference."""
    with two_programs(program) as (here, behind), serving_front(Front(behind, planted)) as there:
        return run(database_url(here), there)


def plant(target, change, method="POST"):
    """Returns a planted difference: a function that changes the first reply to this target that has a value to change."""
    done = []

    def planted(request_method, request_target, reply):
        if not done and (request_method, request_target) == (method, target):
            try:
                found = change(reply[0], json.loads(json.dumps(reply[1])))
            except (KeyError, IndexError, TypeError):
                return reply
            done.append(target)
            return found
        return reply

    return planted


def without_last(status, value):
    value["docs"].pop()
    return status, value


def with_two_swapped(status, value):
    value["docs"][0], value["docs"][1] = value["docs"][1], value["docs"][0]
    return status, value


def with_value(*path):
    """Puts the last item of the path at the place to which the other items lead."""

    def change(status, value):
        inner = value
        for step in path[:-2]:
            inner = inner[step]
        del inner[path[-2]]  # a KeyError if there is no such member
        inner[path[-2]] = path[-1]
        return status, value

    return change


PLANTED = {
    "a page that lacks a document": plant("_find", without_last),
    "two documents that changed places": plant("_find", with_two_swapped),
    "a number with a fraction": plant("apple", with_value("price", 3.0), "GET"),
    "true for a number": plant("apple", with_value("price", True), "GET"),
    "another position": plant("_bulk_docs", with_value(0, "rev", "2-00112233445566778899aabbccddeeff")),
    "another error": plant("none", with_value("error", "no_db_file"), "GET"),
    "another status": plant("_bulk_docs", lambda status, value: (202, value)),
    "no conflicts": plant("r?conflicts=true", lambda status, value: (status, {"_id": value["_id"], "_rev": value["_rev"], "v": 2}), "GET"),
    "a loser": plant("r", with_value("_rev", "2-b"), "GET"),
    "exists for created": plant("_index", with_value("result", "exists")),
    "another direction": plant("_index", with_value("indexes", 1, "def", "fields", 0, "price", "desc"), "GET"),
    "another index": plant("_explain", with_value("index", "name", "word")),
    "no bookmark": plant("_find", lambda status, value: (status, {**value, "bookmark": "nil"} if value["docs"] else value["none"])),
    "a named difference that is another": plant("_all_docs", lambda status, value: (500, {"error": "internal", "reason": ""}), "GET"),
    "a conflict that is written": plant(
        "_bulk_docs", lambda status, value: (status, [{"id": "apple", "ok": True, "rev": value[0]["reason"]}, *value[1:]])),
}


def check_runs(tally, program):
    """Runs without a planted difference, and with each one."""
    requests = example.requests()
    named = {request.named.name for request in requests if request.named}
    with two_programs(program) as (here, there):
        urls = database_url(here), database_url(there)
        tally.expect("the program on both sides", run(*urls, "--as-they-are"),
                     (0, f"{len(requests)} alike, 0 differ as the reference says, 0 differ\n", ""))
        status, _, error = run(*urls)
        tally.expect("a database that is not empty", (status, "is not empty" in error), (2, True))
    status, output, error = run_against_imitation(program)
    seen = {name for name in named if f"named: {name}: " in output}
    tally.expect("the imitation", (status, output.splitlines()[-1].endswith(" 0 differ"), error), (0, True, ""))
    alike = {example.NEGATION, example.EDGES, example.HINT}  # here the imitation does not differ from the program
    tally.expect("named differences", seen, named - alike)
    for name, planted in PLANTED.items():
        status, output, error = run_against_imitation(program, planted)
        tally.expect(f"{name}", (status, output.count("RED: ") > 0, error), (1, True, ""))
        if status == 1:
            print(f"planted {name}: " + output[output.index("RED: "):].split("\n")[0][:100])


def check_own_requests(tally, program, folder):
    """Runs requests from a file, with the revisions and the bookmark of each side."""
    file = folder / "requests"
    lines = [{"method": "POST", "target": "_bulk_docs", "body": {"docs": [{"_id": "a", "n": 1}, {"_id": "b", "n": 2}]}},
             {"method": "POST", "target": "_bulk_docs", "body": {"docs": [{"_id": "a", "_rev": "REV:a", "n": 3}]}},
             {"method": "POST", "target": "_find", "body": {"selector": {}, "limit": 1}},
             {"method": "POST", "target": "_find", "body": {"selector": {}, "limit": 1, "bookmark": "BOOKMARK"}},
             {"method": "GET", "target": "a"}]
    file.write_text("".join(json.dumps(line) + "\n" for line in lines))
    with two_programs(program) as (here, behind), serving_front(Front(behind)) as there:
        tally.expect("requests of a file", run(database_url(here), there, "--requests", file),
                     (0, "5 alike, 0 differ as the reference says, 0 differ\n", ""))
        tally.expect("what they wrote", ask_once(here, "GET", "/db/a")[1]["n"], 3)


def check_databases(tally, program):
    """The database in CouchDB is created and deleted; an existing one is not touched."""
    with two_programs(program) as (here, behind):
        front = Front(behind)
        with serving_front(front) as there:
            run(database_url(here), there)
        tally.expect("the first and the last request", (front.requests[0], front.requests[-1]), (("PUT", ""), ("DELETE", "")))
    with two_programs(program) as (here, behind):
        front = Front(behind, lambda method, target, reply: (412, {"error": "file_exists"}) if (method, target) == ("PUT", "") else reply)
        with serving_front(front) as there:
            status, _, error = run(database_url(here), there)
        tally.expect("a database that exists", (status, "cannot be made" in error, front.requests), (2, True, [("PUT", "")]))


def main():
    program, tally = arguments(__doc__).program, Tally()
    rows = (TOP / "docs" / "MIGRATE.md").read_text(encoding="utf-8")
    for name in sorted({request.named.name for request in example.requests() if request.named}):
        tally.expect(f"the row of docs/MIGRATE.md: {name}", f"| {name} |" in rows, True)
    check_runs(tally, program)
    check_databases(tally, program)
    with tempfile.TemporaryDirectory() as folder:
        check_own_requests(tally, program, Path(folder))
    return tally.end()


if __name__ == "__main__":
    sys.exit(main())
