"""What is kept on a disk: mango_server, and other systems that answer a commit only once it is on the disk, with their files in one folder."""
import contextlib
import functools
import os
import shutil
import sqlite3
import tempfile
import time

from . import postgres
from .cells import LEAST, SECONDS, Cell, cells, filled, measured
from .documents import Corpus, compact
from .postgres import PostgreSQL
from .program import Program
from .sqlite import SQLite

READS = ("get", "equality")
# the first documents are listed before commits put others among them
CELLS = [Cell("first"), *cells(READS, 1), *cells(("commit",), 1, 4, 16)]
# what mango_server alone answers
ALONE = cells(("head", "root", "listing"), 1)
PAIR = (1, 4)


@functools.cache
def folder():
    """Returns a folder on the disk of the system's files for the time being, which is removed at the end."""
    made = tempfile.TemporaryDirectory(prefix="bench-kept-", dir="/var/tmp")
    # PostgreSQL runs as a user of its own
    os.chmod(made.name, 0o755)
    return made


class MangoServer(Program):
    """The program that keeps its data, on a file of its own."""

    called = "mango_server"
    def words(self, pair, sessions):
        self.file = os.path.join(tempfile.mkdtemp(dir=folder().name), "db")
        shards, workers = map(str, pair)
        return [self.file, "--listen", f"127.0.0.1:{self.port}", "--shards", shards, "--workers", workers, "--sessions", str(sessions)]

    def restart(self):
        """Ends the program, and starts it again on its file. Returns the seconds until it listens."""
        self.rest()
        args = self.process.args
        super().close()
        begun = time.monotonic()
        self.start(args)
        return time.monotonic() - begun

    def close(self):
        super().close()
        shutil.rmtree(os.path.dirname(self.file))


class SQLiteOnDisk(SQLite):
    """SQLite in C, which waits for the disk at each commit."""

    name = "SQLite on the disk"

    def __init__(self, corpus):
        super().__init__(corpus, folder().name)

    def start(self, clients):
        super().start(clients)
        self.command(*["sql PRAGMA synchronous = FULL"] * clients)


class PostgreSQLOnDisk(PostgreSQL):
    """PostgreSQL, which waits for the disk at each commit."""

    name, table = "PostgreSQL on the disk", "TABLE"
    settings = {**PostgreSQL.settings, "fsync": "on", "synchronous_commit": "on", "full_page_writes": "on"}

    def __init__(self, corpus):
        super().__init__(corpus, folder().name)


def by_python(corpus, share):
    """Returns the rate of commits of one document by Python's sqlite3, with a write-ahead log and waits for the disk."""
    database = sqlite3.connect(os.path.join(tempfile.mkdtemp(dir=folder().name), "db"), isolation_level=None)
    database.execute("PRAGMA journal_mode = WAL")
    database.execute("PRAGMA synchronous = FULL")
    database.execute("CREATE TABLE docs (id TEXT PRIMARY KEY, body TEXT)")
    begun, made = time.monotonic(), 0
    while (took := time.monotonic() - begun) < SECONDS * share or made < LEAST:
        database.execute("INSERT INTO docs VALUES (?, ?)", (f"e{made}", compact(corpus.new_body(made))))
        made += 1
    database.close()
    return {"rate": made / took}


def systems(args):
    """Yields each system that is installed, and the cells that are measured of it."""
    if os.path.exists(args.server):
        yield lambda corpus: MangoServer(args.server, corpus, PAIR), [*ALONE, *CELLS]
    yield lambda corpus: Program(args.program, corpus, PAIR), CELLS
    if os.path.exists("/usr/include/sqlite3.h"):
        yield SQLiteOnDisk, cells(("commit",), 1, 16)
    if postgres.programs():
        yield PostgreSQLOnDisk, cells(("commit",), 1, 4, 16)


def kept(args, add):
    """Loads, commits and reads of systems that keep their data, beside mangod; and how long a start of the program on its file takes."""
    corpus = Corpus(args.usual)
    for make, wanted in systems(args):
        with contextlib.closing(make(corpus)) as system:
            where = f"{system.name}, {corpus.title}"
            for row, figures in filled(system):
                add(where, row, figures)
            if hasattr(system, "restart"):
                add(where, "start", {"rate": corpus.count / system.restart()})
            system.check({cell.kind for cell in wanted})
            for cell in wanted:
                add(where, str(cell), measured(system, cell, args.share))
    add(f"Python's sqlite3, {corpus.title}", str(Cell("commit")), by_python(corpus, args.share))
