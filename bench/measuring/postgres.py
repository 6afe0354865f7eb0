"""Measures PostgreSQL for comparison: a table of ids and `jsonb`, with indexes on members, and a small client of its wire protocol.

A new cluster is made in a temporary folder, with only a Unix socket, and without waits for a disk. Started by root, it runs as the
user postgres. The table is unlogged. Each connection prepares its statements once, and plans them once (plan_cache_mode is
force_generic_plan). EXPLAIN must show that each statement but the scan and the commit reads an index. Processor time and memory are those of all its
processes.
"""
import glob
import os
import shutil
import signal
import socket
import struct
import subprocess
import tempfile
import time

from . import processes
from .documents import PAGE, compact
from .receive import receive
from .server import Server

SETTINGS = {
    "listen_addresses": "", "fsync": "off", "synchronous_commit": "off", "full_page_writes": "off", "autovacuum": "off",
    "shared_buffers": "2GB", "maintenance_work_mem": "512MB", "max_wal_size": "8GB", "jit": "off",
    "max_parallel_workers_per_gather": "0", "max_parallel_maintenance_workers": "0",
    "plan_cache_mode": "force_generic_plan",
}
ROW = "SELECT id, body FROM docs WHERE "
JSON_WORDS = {"equality": {0}, "falling": {0}, "scan": {0}}


def programs():
    """Returns the folder of initdb and pg_ctl; None if PostgreSQL is not installed."""
    found = shutil.which("initdb") or max(glob.glob("/usr/lib/postgresql/*/bin/initdb"), default=None)
    return found and os.path.dirname(os.path.realpath(found))


def member(path):
    return "->".join(["body", *(f"'{step}'" for step in path.split("."))])


def statements_of(corpus):
    """Returns the statement for each kind of request."""
    group, price, text = (member(corpus.path(name)) for name in ("group", "price", "text"))
    return {
        "get": ROW + "id = $1",
        "equality": ROW + f"{group} = $1 ORDER BY id LIMIT {PAGE}",
        "falling": ROW + f"{price} < $1 ORDER BY {price} DESC, id DESC LIMIT {PAGE}",
        "scan": ROW + f"{text} = $1 ORDER BY id LIMIT {PAGE}",
        "commit": "INSERT INTO docs VALUES ($1, $2)",
    }


def words_of(corpus, request):
    """Returns the values of a statement as texts."""
    if request.kind == "commit":
        return [request.about[0], compact(corpus.new_body(request.about[1]))]
    return [compact(word) if place in JSON_WORDS.get(request.kind, ()) else word for place, word in enumerate(request.about)]


def part(kind, *pieces):
    body = b"".join(pieces)
    return kind + struct.pack("!i", len(body) + 4) + body


class Connection:
    """A connection with these statements prepared."""

    def __init__(self, folder, corpus, statements):
        self.socket, self.corpus = socket.socket(socket.AF_UNIX), corpus
        self.socket.connect(os.path.join(folder, ".s.PGSQL.5432"))
        self.rest = b""
        words = b"user\0postgres\0database\0postgres\0\0"
        self.exchange(struct.pack("!ii", len(words) + 8, 196608) + words)
        for kind, statement in statements.items():
            self.exchange(part(b"P", kind.encode(), b"\0", statement.encode(), b"\0", struct.pack("!h", 0)) + part(b"S"))

    def exchange(self, text, until=b"Z"):
        """Sends bytes, and returns the messages of the answer up to the first of the kind `until`. Raises `OSError` if one is an error, or if
        PostgreSQL closes the connection before."""
        self.socket.sendall(text)
        data, at, parts = self.rest, 0, []
        while True:
            while len(data) < at + 5 or len(data) < (end := at + 1 + int.from_bytes(data[at + 1 : at + 5], "big")):
                data += receive(self.socket, "PostgreSQL")
            kind = data[at : at + 1]
            if kind == b"E":
                raise OSError(f"PostgreSQL: {data[at + 5 : end]!r}")
            parts.append((kind, data[at + 5 : end]))
            at = end
            if kind == until:
                self.rest = data[at:]
                return parts

    def query(self, text):
        return self.exchange(part(b"Q", text.encode(), b"\0"))

    def prepare(self, request):
        words = words_of(self.corpus, request)
        values = b"".join(struct.pack("!i", len(word.encode())) + word.encode() for word in words)
        bind = part(b"B", b"\0", request.kind.encode(), b"\0", struct.pack("!hh", 0, len(words)), values, struct.pack("!h", 0))
        return bind + part(b"E", b"\0", struct.pack("!i", 0)) + part(b"S")

    def reply(self, message):
        return b"".join(text for _, text in self.exchange(message))


class PostgreSQL(Server):
    name, framing = "PostgreSQL", "postgres"
    table, settings = "UNLOGGED TABLE", SETTINGS

    def __init__(self, corpus, room=None):
        self.corpus = corpus
        self.folder = tempfile.mkdtemp(prefix="bench-postgres-", dir=room)
        if os.getuid() == 0:
            shutil.chown(self.folder, "postgres")
        self.data = os.path.join(self.folder, "data")
        self.start("initdb", "-A", "trust", "-U", "postgres", "--no-sync", "--locale=C", "-E", "UTF8").wait()
        settings = [word for setting, value in self.settings.items() for word in ("-c", f"{setting}={value}")]
        self.process = self.start("postgres", *settings, "-c", f"unix_socket_directories={self.folder}")
        self.connection = self.connected()
        self.connection.query(f"CREATE {self.table} docs (id text PRIMARY KEY, body jsonb)")
        self.wait_until_still()

    def start(self, program, *args):
        """Starts a program of PostgreSQL on the folder of its data, as the user postgres if this one is root."""
        user = {"user": "postgres", "group": "postgres", "extra_groups": []} if os.getuid() == 0 else {}
        return subprocess.Popen([os.path.join(programs(), program), "-D", self.data, *args], stdin=subprocess.DEVNULL,
                                stdout=subprocess.DEVNULL, stderr=subprocess.DEVNULL, cwd=self.folder, **user)

    def wait_until_still(self):
        """Waits until the memory of PostgreSQL no longer changes, at most three seconds: after a start it grows and shrinks."""
        sizes = []
        while len(sizes) < 15 and sizes[-3:] != sizes[-1:] * 3 or len(sizes) < 3:
            sizes.append(self.size())
            time.sleep(0.2)

    def first_client(self):
        """Returns a connection without statements."""
        return Connection(self.folder, self.corpus, {})

    def client(self):
        return Connection(self.folder, self.corpus, statements_of(self.corpus))

    def pids(self):
        return processes.family(self.process.pid)

    def prepare_bulk(self, numbers):
        rows = (f"{self.corpus.name(i)}\t{compact(self.corpus.body(i))}" for i in numbers)
        return "".join(row.replace("\\", "\\\\") + "\n" for row in rows).encode()

    def send_bulk(self, rows, count):
        self.connection.exchange(part(b"Q", b"COPY docs FROM STDIN\0"), until=b"G")
        parts = self.connection.exchange(part(b"d", rows) + part(b"c"))
        if (b"C", f"COPY {count}\0".encode()) not in parts:
            raise SystemExit(f"PostgreSQL took not all of {count} documents: {parts}")

    def index(self, which):
        columns = ", ".join(f"({member(path)})" for path in self.corpus.columns(which))
        self.connection.query(f"CREATE INDEX by_{which} ON docs ({columns}, id)")

    def settle(self):
        self.connection.query("VACUUM ANALYZE docs")
        client = self.client()
        for kind in statements_of(self.corpus):
            if kind not in ("scan", "commit"):
                self.check_plan(client, self.corpus.requests(kind, 1, "plan")[0])
        client.socket.close()

    def check_plan(self, client, request):
        """Ends the run unless the plan of a statement reads an index and not the whole table."""
        words = words_of(self.corpus, request)
        quoted = ", ".join("'{}'".format(word.replace("'", "''")) for word in words)
        parts = client.query(f"EXPLAIN EXECUTE {request.kind} ({quoted})")
        plan = "\n".join(text[6:].decode() for kind, text in parts if kind == b"D")
        if "Index" not in plan or "Seq Scan" in plan:
            raise SystemExit(f"PostgreSQL does not read {request.kind} by an index:\n{plan}")

    def close(self):
        self.connection.socket.close()
        self.process.send_signal(signal.SIGQUIT)
        self.process.wait()
        shutil.rmtree(self.folder)
