"""Measures SQLite for comparison, through its C interface (client/sqlite.c): a table of ids and JSON texts, with indexes on json_extract.

The database is a file in /dev/shm, if that has room, with a write-ahead log and without waits for a disk. The file is memory-mapped: with
a large cache instead, or a database in memory, a commit searches the cache, so that its time grows with the documents (to 0.2 ms and more
at 300,000). A single client has the file for itself; several clients are processes that open it. Processor time is that of the clients.
"""
import json
import os
import shutil
import subprocess
import tempfile

from . import processes
from .client import NUMBERS, compiled
from .documents import MARKER, PAGE, compact
from .server import Server

ROW = "SELECT id, body FROM docs WHERE "


def member(path):
    return f"json_extract(body,'$.{path}')"


def statements_of(corpus):
    """Returns the statement for each kind of request. An index serves each but the scan and the commit, without a sort."""
    group, price, text = (member(corpus.path(name)) for name in ("group", "price", "text"))
    return {
        "get": ROW + "id = ?",
        "equality": ROW + f"{group} = ? ORDER BY id LIMIT {PAGE}",
        "falling": ROW + f"{price} < ? ORDER BY {price} DESC, id DESC LIMIT {PAGE}",
        "scan": ROW + f"{text} = ? ORDER BY id LIMIT {PAGE}",
        "commit": "INSERT INTO docs VALUES (?, ?)",
    }


def valued(word):
    """Returns a value of a statement, after the letter of its kind."""
    return f"i{word}" if isinstance(word, int) else f"{'d' if word.endswith(MARKER) else 't'}{word}"


class SQLite(Server):
    name = "SQLite"

    def __init__(self, corpus, room=None):
        self.corpus, self.processes = corpus, []
        room = room or ("/dev/shm" if os.path.isdir("/dev/shm") and shutil.disk_usage("/dev/shm").free > 4e9 else None)
        self.folder = tempfile.TemporaryDirectory(prefix="bench-sqlite-", dir=room)
        self.start(1)
        self.command("sql CREATE TABLE docs (id TEXT PRIMARY KEY, body TEXT)")

    def start(self, clients):
        """Starts clients in place of those that run, unless as many do."""
        if len(self.processes) == clients:
            return
        self.end()
        args = [compiled("sqlite.c", "-lsqlite3"), os.path.join(self.folder.name, "docs.db"), "EXCLUSIVE" if clients == 1 else "NORMAL"]
        self.processes = [subprocess.Popen(args, stdin=subprocess.PIPE, stdout=subprocess.PIPE, text=True) for _ in range(clients)]

    def end(self):
        for one in self.processes:
            one.communicate()

    def pids(self):
        return [one.pid for one in self.processes]

    def size(self):
        """Returns the memory of the client that is its own, with the file, which lies in memory."""
        self.command("sql PRAGMA wal_checkpoint(TRUNCATE)")
        return processes.memory(self.pids(), ("Pss_Anon:",)) + os.path.getsize(os.path.join(self.folder.name, "docs.db"))

    def command(self, *texts):
        """Gives each client a command, and returns their answers."""
        for one, text in zip(self.processes, texts):
            one.stdin.write(text + "\n")
            one.stdin.flush()
        answers = [one.stdout.readline() for one in self.processes]
        if not all(answers):
            raise SystemExit(f"SQLite has failed at {texts[0][:300]}")
        return answers

    def written(self, records):
        """Writes records into a file, and returns its name."""
        name = os.path.join(self.folder.name, "records")
        with open(name, "w", newline="", encoding="utf-8") as file:
            file.writelines("\x1f".join(map(str, record)) + "\x1e" for record in records)
        return name

    def prepare_bulk(self, numbers):
        return self.written((self.corpus.name(i), compact(self.corpus.body(i))) for i in numbers)

    def send_bulk(self, name, count):
        if self.command(f"load {name}") != [f"{count}\n"]:
            raise SystemExit("SQLite has not taken a bulk")

    def index(self, which):
        columns = map(member, self.corpus.columns(which))
        self.command(f"sql CREATE INDEX by_{which} ON docs ({', '.join(columns)}, id)")

    def settle(self):
        self.command("sql ANALYZE")

    def check(self, kinds):
        """Nothing to do: its client compares each reply whole."""

    def records(self, requests):
        statements = statements_of(self.corpus)
        kinds = sorted({one.kind for one in requests})
        records = [[len(kinds)], *([statements[kind]] for kind in kinds)]
        for one in requests:
            answer = [one.answer.count, one.answer.first, one.answer.last] if one.answer else [-1, "", ""]
            about = one.about if one.answer else (one.about[0], compact(self.corpus.new_body(one.about[1])))
            records.append([kinds.index(one.kind), *answer, *map(valued, about)])
        return records

    def run(self, records, load):
        """Lets the clients execute requests; returns their report: that of several clients has no waits."""
        self.start(load.clients)
        name = self.written(records)
        made = list(map(json.loads, self.command(*(f"run {name} {load.warm} {load.seconds} {next(NUMBERS)}" for _ in self.processes))))
        if len(made) == 1:
            return made[0]
        sums = {what: sum(one[what] for one in made) for what in ("requests", "processor")}
        return {**sums, "seconds": max(one["seconds"] for one in made)}

    def close(self):
        self.end()
        self.folder.cleanup()
