#!/usr/bin/env python3
"""Kills the program that keeps its data, and looks at what is left.

usage: stored.py --program PATH [--mangod PATH] [--full]

PATH is mango_server; the other one is mangod, that of the gate if it is not given. Eight clients write; the program is killed at a random
moment, 10 times (200 with --full), and started again on its file:
- each write that was answered is there, and at most one more of each client; each client's are in its order, and no write that was answered
  before another one was sent stands after it;
- sqlite3, of Python, finds a copy of the two files sound, and their rows numbered without a gap;
- the program answers what `mangod` answers after the commits of these rows, byte for byte.
The same for each kind of write, after a stop, on a copy of the files, and after sqlite3 has closed them. A disk that is full, or whose sync
fails (tests/refuse/disk.c, preloaded), and files that cannot be opened are answered as docs/OPERATE.md and docs/REFERENCE.md say; a file that is
refused is left as it was. The command line is that of docs/REFERENCE.md, "The programs". Needs `cc`. The last line is 'N passed, M failed'.
"""
import contextlib
import json
import math
import os
import random
import shutil
import signal
import sqlite3
import subprocess
import sys
import tempfile
import threading
import time
from pathlib import Path

from common.arguments import arguments
from common.disk import Disk
from common.messages import post
from common.modules import TOP
from common.server import Launch, free_port, listening
from common.tally import Tally
from common.wire import Client, Wire

SECONDS = 60
WRITERS = 8
MANGOD = TOP / "crates" / "mangod" / "out" / "mangod"
PATHS = {"bulk": "_bulk_docs", "create_index": "_index", "reshard": "_placement"}
LOST = "mango_server: the file cannot be written; the last writes may or may not be stored"
STORAGE = (503, b'{"error":"storage","reason":"The write may or may not be stored."}\n')
NOBODY = 65534
# what both programs are asked after the same commits
QUESTIONS = [
    ("POST", "/db/_find", {"selector": {}, "limit": 1_000_000}),
    ("POST", "/db/_find", {"selector": {"n": {"$gt": 3}}, "fields": ["_id", "_rev", "n"], "limit": 5, "skip": 2}),
    ("POST", "/db/_find", {"selector": {"n": {"$gt": 3}}, "sort": [{"n": "desc"}], "limit": 5}),
    ("POST", "/db/_explain", {"selector": {"n": {"$gt": 3}}, "limit": 5}),
    ("GET", "/db/_index", None),
    ("GET", "/db/w0-000000", None),
    ("GET", "/db/d7?conflicts=true", None),
    ("GET", "/db/nothing", None),
]


class Server:
    """The program on a file, at a free port unless one is given. `more`: further words of its command line."""

    def __init__(self, program, file, *more, port=None, **how):
        self.port = port or free_port()
        command = [program, str(file), "--listen", f"127.0.0.1:{self.port}", "--shards", "3", "--workers", "2", *more]
        self.process = subprocess.Popen(command, stdin=subprocess.DEVNULL, stdout=subprocess.DEVNULL, stderr=subprocess.PIPE, **how)
        self.said = []
        for line in self.process.stderr:
            self.said.append(line.decode().rstrip("\n"))
            if b": listening at " in line:
                break

    def stop(self, number):
        """Sends a signal. Returns the status with which the program ends."""
        self.process.send_signal(number)
        status = self.process.wait(SECONDS)
        self.process.stderr.close()
        return status

    def ended(self):
        """Waits for a program that ends by itself. Returns its status, and its last line."""
        rest = self.process.stderr.read().decode().splitlines()
        return self.process.wait(SECONDS), ["", *self.said, *rest][-1]

    def __enter__(self):
        return self

    def __exit__(self, *_):
        self.stop(signal.SIGKILL)


def answers(port):
    """Returns the statuses and the bodies of what a program answers to the questions."""
    with contextlib.closing(Client(port)) as client:
        return [client.exchange(*question) for question in QUESTIONS]


def write_of(kind, body):
    """Returns the request for the write of a row."""
    if kind == "drop_index":
        index = json.loads(body)
        return "DELETE", f"/db/_index/{index['ddoc']}/json/{index['name']}"
    return "POST", f"/db/{PATHS[kind]}", body


class Follower:
    """A `mangod` that gets the commits of a file."""

    def __init__(self, port):
        self.port, self.count = port, 0

    def answers_after(self, rows):
        """Sends the writes of the rows that it does not have yet, the first of which is the header. Returns its answers to the questions."""
        with contextlib.closing(Client(self.port)) as client:
            for _, kind, body in rows[1 + self.count :]:
                client.exchange(*write_of(kind, body))
        self.count = len(rows) - 1
        return answers(self.port)


def rows_of(file):
    """Returns the rows of a file that no program has open, and what sqlite3 says of its soundness. Afterwards sqlite3 has the log in the file."""
    with contextlib.closing(sqlite3.connect(file)) as database:
        return database.execute("select number, kind, body from commits order by number").fetchall(), database.execute("pragma integrity_check").fetchall()


def copy_of(file, folder):
    """Copies a file and its log. Returns the copy."""
    folder.mkdir()
    for name in (file.name, f"{file.name}-wal"):
        if (file.parent / name).exists():
            shutil.copy(file.parent / name, folder)
    return folder / file.name


def copied_rows(file):
    """The same as `rows_of`, of a copy, so that the file and its log stay as the program left them."""
    with tempfile.TemporaryDirectory() as folder:
        return rows_of(copy_of(file, Path(folder) / "copy"))


def bytes_of(file):
    """Returns the content of a file, whatever its mode."""
    mode = file.stat().st_mode
    file.chmod(0o600)
    content = file.read_bytes()
    file.chmod(mode)
    return content


def insert(writer, number):
    """Returns the request that inserts a document. It has a `Host`, which this program requires."""
    request = post("_bulk_docs", json.dumps({"docs": [{"_id": f"w{writer}-{number:06}", "n": number}]}).encode())
    return request.replace(b"\r\n", b"\r\nHost: localhost\r\n", 1)


def write_until_killed(port, writer, first, times):
    """Writes documents with ascending numbers until the connection ends. Notes when each was sent, and when it was answered."""
    with contextlib.suppress(OSError):
        with Wire(port) as wire:
            for number in range(first, first + 100_000):
                sent = time.monotonic()
                times[writer, number] = sent, math.inf
                if not wire.ask(insert(writer, number)).startswith(b"HTTP/1.1 201 "):
                    return
                times[writer, number] = sent, time.monotonic()


def writes_in(rows):
    """Returns the writes of rows, in their order: the writer and the number of each."""
    ids = [document["_id"] for _, _, body in rows[1:] for document in json.loads(body)["docs"]]
    return [(int(name[1:].partition("-")[0]), int(name.partition("-")[2])) for name in ids]


def misplaced(writes, times):
    """Returns the writes that stand after one which was sent only when they had been answered."""
    found, last = [], -math.inf
    for write in writes:
        sent, answered = times[write]
        if answered < last:
            found.append(write)
        last = max(last, sent)
    return found


def killed_once(program, file, kept, times):
    """Starts the program, has eight clients write on, each from its next number, and kills the program."""
    with Server(program, file) as server:
        threads = [threading.Thread(target=write_until_killed, args=(server.port, writer, kept[writer], times)) for writer in range(WRITERS)]
        for thread in threads:
            thread.start()
        time.sleep(random.uniform(0.05, 0.6))
        server.stop(signal.SIGKILL)
        for thread in threads:
            thread.join()


def check_rows(turn, rows, times, tally):
    """Compares the rows of a file with the writes that were sent and answered. Returns how many of each client are there."""
    writes = writes_in(rows)
    numbers = [[number for one, number in writes if one == writer] for writer in range(WRITERS)]
    kept = [len(found) for found in numbers]
    lost = [(writer, number) for (writer, number), (_, answered) in times.items() if answered < math.inf and number >= kept[writer]]
    # all but the last one of a client were answered, or it had sent no next one
    more = [(writer, number) for (writer, number), (_, answered) in times.items() if answered == math.inf and number < kept[writer] - 1]
    tally.expect(f"kill {turn}: the rows are numbered without a gap", [number for number, _, _ in rows], list(range(len(rows))))
    tally.expect(f"kill {turn}: each client's writes are in its order", numbers, [list(range(count)) for count in kept])
    tally.expect(f"kill {turn}: writes that were answered and are not there", lost, [])
    tally.expect(f"kill {turn}: writes that were not answered and are there, beside the last one", more, [])
    tally.expect(f"kill {turn}: writes that stand after one which was sent later", misplaced(writes, times), [])
    return kept


def note_kept(kept, times):
    """Notes for the last write of each client, which may not have been answered, that it is known now."""
    for writer, count in enumerate(kept):
        if count > 0:
            sent, _ = times[writer, count - 1]
            times[writer, count - 1] = sent, time.monotonic()


def killed_at_random(program, mangod, folder, turns, tally):
    """Kills the program `turns` times while it is written to."""
    file, kept, times = folder / "killed.db", [0] * WRITERS, {}
    with listening(Launch(mangod, 2, 2), 1) as port:
        follower = Follower(port)
        for turn in range(turns):
            killed_once(program, file, kept, times)
            rows, soundness = copied_rows(file)
            tally.expect(f"kill {turn}: sqlite3 finds the files sound", soundness, [("ok",)])
            kept = check_rows(turn, rows, times, tally)
            note_kept(kept, times)
            with Server(program, file) as server:
                is_same = answers(server.port) == follower.answers_after(rows)
                tally.expect(f"kill {turn}: it answers what mangod answers", is_same, True)
    rows, soundness = rows_of(file)
    tally.expect("sqlite3 finds the file sound", soundness, [("ok",)])
    tally.expect("there were writes", len(rows) - 1 > turns, True)


def other_commits(program, mangod, folder, tally):
    """Each kind of write is there after a stop, also on a copy, and after sqlite3 has closed the file."""
    file = folder / "kinds.db"
    with Server(program, file) as server, contextlib.closing(Client(server.port)) as client:
        client.ask("POST", "/db/_bulk_docs", {"docs": [{"_id": f"d{n}", "n": n, "text": 'ä"\\\n'} for n in range(20)]})
        client.ask("POST", "/db/_bulk_docs", {"docs": [{"_id": "d7", "_rev": "1-f", "n": 8}], "new_edits": False})
        # a conflict is a commit too, which changes nothing
        client.ask("POST", "/db/_bulk_docs", {"docs": [{"_id": "d1", "n": 1}]})
        client.ask("PUT", "/db/put", '{"n":21}')
        client.ask("POST", "/db/_index", {"index": {"fields": ["n"]}, "ddoc": "by", "name": "n"})
        client.ask("POST", "/db/_index", {"index": {"fields": ["text"]}, "ddoc": "by", "name": "t"})
        client.ask("DELETE", "/db/_index/_design/by/json/t")
        client.ask("POST", "/db/_placement", {"shards": 5})
        # these change nothing, so they are no commits
        client.ask("POST", "/db/_placement", {"shards": 65})
        client.ask("POST", "/db/_index", {"index": {"fields": []}})
        before = answers(server.port)
        tally.expect("a program ended by SIGTERM", server.stop(signal.SIGTERM), -signal.SIGTERM)
    rows, soundness = copied_rows(file)
    kinds = ["header", "bulk", "bulk", "bulk", "bulk", "create_index", "create_index", "drop_index", "reshard"]
    tally.expect("the kinds of the rows", ([kind for _, kind, _ in rows], soundness), (kinds, [("ok",)]))
    with listening(Launch(mangod, 2, 2), 1) as port:
        tally.expect("the answers of mangod after the same commits", Follower(port).answers_after(rows), before)
    copy = copy_of(file, folder / "copied")
    with Server(program, file) as server:
        tally.expect("what the file is said to have", server.said[0].partition(" has ")[2], "8 commits, 21 documents and 1 indexes")
        tally.expect("the same answers after a stop", answers(server.port), before)
    with Server(program, copy) as server:
        tally.expect("the same answers from a copy", answers(server.port), before)
    rows_of(file)
    with Server(program, file) as server:
        tally.expect("the same answers after sqlite3", answers(server.port), before)


def write_until_refused(port, most):
    """Writes until an answer is no 201, and `most` times at most. Returns how many were answered 201, and the other answer."""
    with contextlib.closing(Client(port)) as client:
        for number in range(most):
            answer = client.exchange("POST", "/db/_bulk_docs", {"docs": [{"_id": f"f{number:06}", "text": "x" * 500}]})
            if answer[0] != 201:
                return number, answer
    return most, None


def failing_disk(program, folder, name, fail, tally):
    """The disk fails while it is written to: the write is answered 503, the program ends, and what was answered before is there."""
    # a list of libraries to preload has no blanks in its names
    folder = folder / name.replace(" ", "_")
    folder.mkdir()
    disk, file = Disk(folder), folder / "db"
    with Server(program, file, env=disk.environment) as server:
        first, answer = write_until_refused(server.port, 20)
        tally.expect(f"{name}: writes before it", (first, answer), (20, None))
        with contextlib.closing(Client(server.port)) as client:
            client.exchange("POST", "/db/_bulk_docs", {"docs": [{"_id": f"e{n}"} for n in range(3)]})
        fail(disk)
        done, answer = write_until_refused(server.port, 200)
        tally.expect(f"{name}: the answer", answer, STORAGE)
        tally.expect(f"{name}: the end", server.ended(), (1, LOST))
    _, soundness = copied_rows(file)
    tally.expect(f"{name}: sqlite3 finds the files sound", soundness, [("ok",)])
    with Server(program, file) as server, contextlib.closing(Client(server.port)) as client:
        _, page = client.ask("POST", "/db/_find", {"selector": {}, "fields": ["_id"], "limit": 10_000})
        found = {document["_id"] for document in page["docs"]}
        answered = {f"f{number:06}" for number in range(max(first, done))} | {f"e{n}" for n in range(3)}
        tally.expect(f"{name}: what was answered and is not there", answered - found, set())
        tally.expect(f"{name}: what was not asked", found - answered - {f"f{done:06}"}, set())
        tally.expect(f"{name}: a write afterwards", client.ask("POST", "/db/_bulk_docs", {"docs": [{"_id": "later"}]})[0], 201)


def refused_files(program, folder, tally):
    """A file that cannot be opened is refused, and is left as it was."""
    good = folder / "good.db"
    with Server(program, good) as server, contextlib.closing(Client(server.port)) as client:
        client.ask("POST", "/db/_bulk_docs", {"docs": [{"_id": "d"}]})
        with Server(program, good) as second:
            tally.expect("a second program", second.ended(), (1, f"mango_server: {good}: the file is held by another process"))
        with Server(program, folder / "elsewhere.db", port=server.port) as third:
            tally.expect("a second program at the same address", third.ended(), (1, "mango_server: cannot listen"))
        try:
            with contextlib.closing(sqlite3.connect(good, timeout=0)) as database:
                said = database.execute("select count(*) from commits").fetchone()
        except sqlite3.OperationalError as error:
            said = str(error)
        tally.expect("sqlite3 beside the program", said, "database is locked")
    rows_of(good)
    content = good.read_bytes()

    def refused(name, reason, change, *more, **how):
        file = folder / f"{name}.db"
        shutil.copy(good, file)
        change(file)
        before = bytes_of(file)
        with Server(how.pop("program", program), file, *more, **how) as server:
            tally.expect(name, server.ended(), (1, f"mango_server: {file}: {reason}"))
        tally.expect(f"{name}: the file is as it was", bytes_of(file) == before, True)

    def change_by(*commands):
        def change(file):
            with contextlib.closing(sqlite3.connect(file)) as database:
                for command in commands:
                    database.execute(command)
                database.commit()
        return change

    refused("half", "the file is damaged", lambda file: file.write_bytes(content[: len(content) // 2]))
    refused("text", "the file is damaged", lambda file: file.write_bytes(b"hello, world\n" * 1000))
    refused("schema", "the file has another schema", change_by("alter table commits add column more text"))
    refused("table", "the file has another schema", change_by("create table note (a)"))
    refused("mark", "the file belongs to another program", change_by("update commits set body = '{}' where number = 0"))
    refused("gap", "the file is damaged", change_by("update commits set number = 5 where number = 1"))
    refused("body", "a commit was refused", change_by("update commits set body = 'x' where number = 1"))
    refused("name", "the file has another database", lambda file: None, "--db", "other")
    # a program of another user: root may open each file
    user = {}
    if os.geteuid() == 0:
        folder.chmod(0o711)
        user = {"program": shutil.copy(program, folder / "mango_server"), "user": NOBODY, "group": NOBODY, "extra_groups": []}
    refused("permission", "unable to open database file", lambda file: file.chmod(0o000), **user)
    refused("read_only", "unable to open database file", lambda file: file.chmod(0o444), **user)
    for name, file in (("a folder", folder), ("a folder that is not there", folder / "nowhere" / "db")):
        with Server(program, file) as server:
            tally.expect(name, server.ended(), (1, f"mango_server: {file}: unable to open database file"))


def command_lines(program, folder, tally):
    """The command line, as docs/REFERENCE.md has it."""
    def run(*words):
        return subprocess.run([program, *words], stdin=subprocess.DEVNULL, capture_output=True, text=True, timeout=SECONDS)

    file = str(folder / "unused.db")
    version = run("--version")
    tally.expect("--version", (version.returncode, version.stdout, version.stderr), (0, "mango_server 1.0.0\n", ""))
    text = run("--help")
    lost = [word for word in ("FILE", "--db", "--listen", "--shards", "--workers", "--sessions", "--help", "--version") if word not in text.stdout]
    tally.expect("--help", (text.returncode, lost), (0, []))
    wrong = [
        [], [file, "more"], [file, "--nothing"], [file, "--shards"], [file, "--shards", "0"], [file, "--shards", "65"], [file, "--shards", "x"],
        [file, "--workers", "0"], [file, "--workers", "33"], [file, "--sessions", "0"], [file, "--sessions", "17"],
    ]
    for words in wrong:
        done = run(*words)
        tally.expect(f"{words}", (done.returncode, done.stdout, done.stderr != ""), (2, "", True))
    for name in ("DB", "1b", "_b", "d/b"):
        done = run(file, "--db", name)
        line = "mango_server: the database's name is not valid; mango_server --help says more\n"
        tally.expect(f"the name {name!r}", (done.returncode, done.stdout, done.stderr), (2, "", line))
    tally.expect("the file of a wrong command line", Path(file).exists(), False)


def main():
    args, tally = arguments(__doc__, mangod=str(MANGOD)), Tally()
    if all([tally.needs("cc"), tally.needs(args.mangod)]):
        with tempfile.TemporaryDirectory() as folder:
            folder = Path(folder)
            killed_at_random(args.program, args.mangod, folder, 200 if args.full else 10, tally)
            other_commits(args.program, args.mangod, folder, tally)
            failing_disk(args.program, folder, "a full disk", lambda disk: disk.has_room(20_000), tally)
            failing_disk(args.program, folder, "a failed sync", lambda disk: disk.has_syncs(5), tally)
            refused_files(args.program, folder, tally)
            command_lines(args.program, folder, tally)
    return tally.end()


if __name__ == "__main__":
    sys.exit(main())
