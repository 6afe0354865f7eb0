#!/usr/bin/env python3
"""Runs examples/from_couchdb.py from an imitation of CouchDB to the program.

usage: from_couchdb.py --program PATH [--seed N]

There is no CouchDB in these tests: tests/imitation/couchdb.py was written from CouchDB's API reference. The copied documents must be what
the imitation would serve, winners and conflicts included. The dry run must list exactly the documents that the program refuses, and the
design documents. The last line is 'N passed, M failed'.
"""
import contextlib
import json
import random
import subprocess
import sys
import tempfile
import time
import urllib.parse
from pathlib import Path

from common.arguments import arguments
from common.example import EXAMPLES, database_url, run_example
from common.server import Launch, listening
from common.tally import Tally
from common.wait import wait_until
from common.wire import ask_once
from imitation.couchdb import Source, serving_source

LIMIT = 8_388_608
ODD_IDS = ["green pear", "dry/red", "a+b", "50%", "%41", "ключ", "\U0001f34e", "quote\"s", "?x=1#y", " "]
MANGO = ('"language":"query","views":{"by_price":{"map":{"fields":{"price":"asc"},"partial_filter_selector":{}},"reduce":"_count",'
         '"options":{"def":{"fields":["price"]}}}}')


class Target:
    """A database of the program."""

    def __init__(self, port):
        self.port, self.url = port, database_url(port)

    def ask(self, method, target, body=None):
        return ask_once(self.port, method, f"/db/{target}", body)

    def served(self, name):
        """Returns a document with its conflicts; None for a deleted one, the status for a missing one."""
        status, found = self.ask("GET", f"{urllib.parse.quote(name, safe='')}?conflicts=true")
        return found if status == 200 else None if found["reason"] == "deleted" else status

    def ids(self):
        return [document["_id"] for document in self.ask("POST", "_find", '{"selector":{},"fields":["_id"],"limit":99999}')[1]["docs"]]


@contextlib.contextmanager
def new_target(program):
    with listening(Launch(program, 3, 2), 4) as port:
        yield Target(port)


def run(*args):
    return run_example("from_couchdb.py", *args)


def fill(source, choice, count):
    """Puts in documents with one to three leaves, some of them deleted."""
    for name in [*ODD_IDS, *(f"d{number:04}" for number in range(count))]:
        for branch in choice.sample("abc", choice.choice([1, 1, 1, 2, 3])):
            length = choice.randint(1, 6)
            path = [f"{position}-{branch if position > 1 else 'root'}{position}" for position in range(length, 0, -1)]
            source.put(name, path, f'"n":{choice.randrange(100)},"t":"{branch}ü"', choice.random() < 0.2)


def check_target(tally, name, source, target):
    """Compares what the target serves with what the imitation serves."""
    wrong = {key: (found, expected) for key in source.documents
             if not key.startswith("_") and (found := target.served(key)) != (expected := source.served(key))}
    tally.expect(f"{name}: documents", dict(list(wrong.items())[:3]), {})
    tally.expect(f"{name}: ids", target.ids(), sorted(key for key in source.documents if not key.startswith("_") and source.best(key)))


def check_copies(tally, program, folder, choice):
    """Copies all documents in pages; once more; from the checkpoint; and from the beginning to a new target."""
    source, file = Source(), folder / "checkpoint"
    fill(source, choice, 120)
    source.put("_design/shop", ["1-x"], MANGO)
    with serving_source(source) as url:
        with new_target(program) as target:
            count = len(source.documents) - 1
            tally.expect("the first run", run(url, target.url, "--checkpoint", file, "--page", 7)[:2],
                         (0, f"{count} documents brought over, 1 left out\n"))
            check_target(tally, "the first run", source, target)
            tally.expect("again, without a checkpoint", run(url, target.url)[:2], (0, f"{count} documents brought over, 1 left out\n"))
            check_target(tally, "again", source, target)
            source.put("d0003", ["9-z", "8-y"], '"n":-1')
            source.put("new", ["1-a"], '"n":9223372036854775807,"m":-9223372036854775808')
            source.requests.clear()
            tally.expect("from the checkpoint", run(url, target.url, "--checkpoint", file), (0, "2 documents brought over, 0 left out\n", ""))
            tally.expect("requests from the checkpoint", [method for method, _ in source.requests], ["GET", "POST", "GET"])
            check_target(tally, "from the checkpoint", source, target)
            status, _, line = run(url + "2", target.url, "--checkpoint", file)
            tally.expect("the checkpoint of another source", (status, "is the checkpoint of" in line), (1, True))
            tally.expect("no password in the checkpoint", "cret" in file.read_text(), False)
            status, _, line = run(url.replace("cret", "x"), target.url)
            tally.expect("a wrong password", (status, "status 401" in line), (1, True))
            checkpoint = json.loads(file.read_text())
        with new_target(program) as target:
            file.write_text(json.dumps({**checkpoint, "target": target.url}))
            status, line, error = run(url, target.url, "--checkpoint", file)
            tally.expect("a target that was restarted", (status, line, "everything is brought again" in error),
                         (0, f"{count + 1} documents brought over, 1 left out\n", True))
            check_target(tally, "a target that was restarted", source, target)


def check_following(tally, program, folder, choice):
    """A run that follows the changes is killed and started again, and the source and the target are unreachable for a while."""
    source, file = Source(), folder / "followed"
    fill(source, choice, 40)
    with serving_source(source) as url, new_target(program) as target:
        command = [sys.executable, EXAMPLES / "from_couchdb.py", url, target.url, "--checkpoint", file, "--follow", "--page", "5"]
        for turn in range(3):
            follower = subprocess.Popen(command, stderr=subprocess.DEVNULL)
            source.put(f"turn{turn}", ["1-a"], '"n":1')
            tally.expect(f"turn {turn}", wait_until(lambda: target.served(f"turn{turn}") == source.served(f"turn{turn}")), True)
            source.faults = turn
            source.put("d0001", [f"{20 + turn}-f", f"{19 + turn}-e"], f'"n":{turn}')
            tally.expect(f"a change of turn {turn}", wait_until(lambda: target.served("d0001") == source.served("d0001")), True)
            for number in range(10):
                source.put(f"d{number:04}", [f"{30 + turn}-g"], f'"n":{turn}')
            time.sleep(choice.uniform(0, 0.1))
            follower.kill()
            follower.wait()
        run(url, target.url, "--checkpoint", file)
        check_target(tally, "after the followers", source, target)


def nested(depth):
    return "[" * depth + "]" * depth


# documents that cannot be copied: the id, the text of the members, and the reason that the dry run gives
FAULTY = [
    ("fraction", '"price":1.5', "price is 1.5: write a whole number"),
    ("whole fraction", '"a":{"b":[7,1.0]}', "a.b.1 is 1.0: write a whole number"),
    ("exponent", '"a":1e2', "a is 1e2: "),
    ("minus zero", '"a":-0', "a is -0: "),
    ("too large", '"a":9223372036854775808', "a is 9223372036854775808: "),
    ("too small", '"a":-9223372036854775809', "a is -9223372036854775809: "),
    ("many digits", f'"a":{"9" * 5000}', "a is 999"),
    ("files", '"_attachments":{"a.txt":{"stub":true,"length":1}}', "it has 1 attachments: keep the files elsewhere"),
    ("member", '"_replication_state":"completed"', "its member _replication_state begins with an underscore: rename"),
    ("deep", f'"a":{nested(125)}', "it nests too deep: flatten"),
    ("very deep", f'"a":{nested(5000)}', "it nests too deep: flatten"),
    ("surrogate", '"a":"\\ud800"', "it has a text that is not UTF-8: mend"),
    ("large", None, "bytes: split the document"),
]
# documents that are almost like these, but can be copied
SOUND = [
    ("deep enough", f'"a":{nested(124)}'),
    ("large enough", None),
    ("whole", '"a":9223372036854775807,"b":-9223372036854775808,"c":0'),
    ("inside", '"a":{"_b":1,"_attachments":{}},"":1'),
    ("letters", '"a":"\\ud83c\\udf4e","b":"1.5"'),
]


def members_of_size(name, size):
    """Returns the text of members with which the bulk of the document has this size."""
    front = '{"_id":"%s","_rev":"1-a","_revisions":{"start":1,"ids":["a"]},"a":""}' % name
    return '"a":"%s"' % ("x" * (size - len('{"docs":[],"new_edits":false}') - len(front)))


def with_sizes():
    return ([(name, members or members_of_size(name, LIMIT + 1), line) for name, members, line in FAULTY],
            [(name, members or members_of_size(name, LIMIT)) for name, members in SOUND])


def write_directly(target, name, members):
    """Writes a bulk with only this document, and returns the status of the reply."""
    head = '{"_id":"%s","_rev":"1-a","_revisions":{"start":1,"ids":["a"]}' % name
    try:
        return target.ask("POST", "_bulk_docs", '{"docs":[%s,%s}],"new_edits":false}' % (head, members))[0]
    except ConnectionError:
        return 413  # the program closes the connection while the body is sent


def check_dry_run(tally, program):
    """The dry run lists exactly the documents that the program refuses, and the design documents."""
    source, (faulty, sound) = Source(), with_sizes()
    source.put("_design/shop", ["1-x"], MANGO)
    source.put("_design/views", ["1-x"], '"views":{"a":{"map":"function (doc) {}"}}')
    for name, members, *_ in faulty + sound:
        source.put(name, ["1-a"], members)
    with serving_source(source) as url:
        status, output, error = run(url, "--dry-run", "--page", 4)
    lines = {line.split(" 1-a: ")[0].split(": ")[0]: line for line in output.splitlines()[:-1]}
    tally.expect("the dry run", (status, error), (1, ""))
    tally.expect("what is listed", sorted(lines), sorted([name for name, *_ in faulty] + ["_design/shop", "_design/views"]))
    for name, _, line in faulty:
        tally.expect(f"the line of {name}", line in lines.get(name, ""), True)
    remedy = 'POST _index with {"ddoc": "_design/shop", "name": "by_price", "index": {"fields": ["price"]}}'
    tally.expect("the remedy of an index", lines["_design/shop"].endswith(remedy), True)
    tally.expect("the last line", output.splitlines()[-1].startswith(f"{len(source.documents)} documents; will not pass: design 2, number 7, "), True)
    with new_target(program) as target:
        written = {name: write_directly(target, name, members) for name, members, *_ in faulty + sound}
    tally.expect("listed, and written by the program", [name for name, *_ in faulty if written[name] not in (400, 413)], [])
    tally.expect("not listed, and refused by the program", [name for name, _ in sound if written[name] != 201], [])


def check_skipping(tally, program):
    """A run ends at a document that cannot be copied, or skips it with all its leaves."""
    source, (faulty, sound) = Source(), with_sizes()
    for name, members in sound:
        source.put(name, ["1-a"], members)
    source.put("files", ["1-a"], '"n":1,"_attachments":{"a.txt":{"stub":true}}')
    source.put("two leaves", ["2-b", "1-a"], '"n":1')
    source.put("two leaves", ["2-c", "1-a"], '"n":1.5')
    with serving_source(source) as url, new_target(program) as target:
        status, _, error = run(url, target.url)
        tally.expect("a run that ends", (status, "files 1-a: it has 1 attachments" in error, target.ids()), (1, True, []))
        tally.expect("with --skip", run(url, target.url, "--skip")[:2], (0, f"{len(sound)} documents brought over, 2 left out\n"))
        tally.expect("what is there", target.ids(), sorted(name for name, _ in sound))
        tally.expect("without attachments", run(url, target.url, "--skip", "--without-attachments")[:2],
                     (0, f"{len(sound) + 1} documents brought over, 1 left out\n"))
        tally.expect("the document", target.served("files"), {"_id": "files", "_rev": "1-a", "n": 1})
        source.put("two leaves", ["3-d", "2-c", "1-a"], '"n":15')
        tally.expect("mended", run(url, target.url, "--without-attachments")[:2], (0, f"{len(sound) + 2} documents brought over, 0 left out\n"))
        tally.expect("both leaves", target.served("two leaves"), {"_id": "two leaves", "_rev": "3-d", "_conflicts": ["2-b"], "n": 15})


def check_large_documents(tally, program):
    """Documents of some megabytes, too many for one bulk."""
    source = Source()
    for number in range(7):
        source.put(f"d{number}", ["1-a"], f'"a":"{"x" * 3_000_000}"')
    source.put("conflicts", ["1-a"], f'"a":"{"x" * 5_000_000}"')
    source.put("conflicts", ["1-b"], f'"a":"{"y" * 5_000_000}"')
    with serving_source(source) as url, new_target(program) as target:
        tally.expect("large documents", run(url, target.url), (0, "8 documents brought over, 0 left out\n", ""))
        check_target(tally, "large documents", source, target)


def main():
    args, tally = arguments(__doc__, seed=1), Tally()
    program, choice = args.program, random.Random(args.seed)
    with tempfile.TemporaryDirectory() as folder:
        check_copies(tally, program, Path(folder), choice)
        check_following(tally, program, Path(folder), choice)
    check_dry_run(tally, program)
    check_skipping(tally, program)
    check_large_documents(tally, program)
    return tally.end()


if __name__ == "__main__":
    sys.exit(main())
