"""Measures MariaDB for comparison: a table of ids and its JSON type, with indexes on generated columns, and a small client of its wire
protocol.

A new server is made in a temporary folder, with only a Unix socket, and without waits for a disk. Each connection prepares its statements
once. EXPLAIN must show that each statement but the scan and the commit reads an index.
"""
import os
import shutil
import socket
import subprocess
import tempfile

from .documents import INDEXES, PAGE, compact
from .receive import receive
from .server import Server

SETTINGS = [
    "innodb-buffer-pool-size=2G", "innodb-log-file-size=2G", "innodb-flush-log-at-trx-commit=0", "innodb-flush-method=nosync",
    "innodb-doublewrite=0", "skip-log-bin", "skip-networking", "skip-grant-tables", "performance-schema=off", "query-cache-type=0",
    "max-allowed-packet=64M",
]
ROW = "SELECT id, body FROM docs WHERE "
# the type of the generated column for each member
TYPES = {"group": "BIGINT", "price": "BIGINT", "kind": "VARCHAR(16)"}
# protocol 4.1, a database at the start, names of methods to log in, and no EOF packets
ABLE = 0x200 | 0x8 | 0x8000 | 0x80000 | 0x1000000
UTF8_BINARY = 46
QUERY, PREPARE, EXECUTE = b"\x03", b"\x16", b"\x17"
NUMBER, TEXT = b"\x08\0", b"\xfd\0"
# in place of the number of a statement: the one that was prepared last
LAST = b"\xff\xff\xff\xff"


def program():
    return shutil.which("mariadbd")


def column(member):
    """Returns the name of the generated column of a member; it is not a word of SQL."""
    return f"its_{member}"


def statements_of(corpus):
    """Returns the statement for each kind of request."""
    group, price = map(column, ("group", "price"))
    return {
        "get": ROW + "id = ?",
        "equality": ROW + f"{group} = ? ORDER BY id LIMIT {PAGE}",
        "falling": ROW + f"{price} < ? ORDER BY {price} DESC, id DESC LIMIT {PAGE}",
        "scan": ROW + f"JSON_VALUE(body, '$.{corpus.path('text')}') = ? ORDER BY id LIMIT {PAGE}",
        "commit": "INSERT INTO docs (id, body) VALUES (?, ?)",
    }


def sized(data):
    """Returns bytes after their length."""
    size = len(data)
    return (bytes([size]) if size < 251 else b"\xfc" + size.to_bytes(2, "little") if size < 1 << 16 else b"\xfd" + size.to_bytes(3, "little")) + data


def bound(number, values):
    """Returns the body of a command that executes a prepared statement."""
    types = b"".join(NUMBER if isinstance(value, int) else TEXT for value in values)
    parts = (value.to_bytes(8, "little") if isinstance(value, int) else sized(value.encode()) for value in values)
    return EXECUTE + number + b"\0\1\0\0\0" + bytes((len(values) + 7) // 8) + b"\1" + types + b"".join(parts)


class Connection:
    """A connection that sends each command after it has read the answer to the one before."""

    def __init__(self, path, corpus, statements):
        self.socket, self.rest, self.corpus = socket.socket(socket.AF_UNIX), b"", corpus
        self.socket.connect(path)
        self.packet()
        words = ABLE.to_bytes(4, "little") + (1 << 24).to_bytes(4, "little") + bytes([UTF8_BINARY]) + bytes(23)
        self.send(words + b"root\0" + b"\0" + b"mysql\0" + b"mysql_native_password\0", 1)
        if self.packet()[:1] == b"\xfe":
            self.send(b"", 3)
            self.packet()
        self.statements = {kind: self.prepared(statement) for kind, statement in statements.items()}

    def send(self, body, number=0):
        self.socket.sendall(len(body).to_bytes(3, "little") + bytes([number]) + body)

    def packet(self):
        """Returns the body of the next packet."""
        while len(self.rest) < 4 or len(self.rest) < (end := 4 + int.from_bytes(self.rest[:3], "little")):
            self.rest += receive(self.socket, "MariaDB")
        body, self.rest = self.rest[4:end], self.rest[end:]
        if body[:1] == b"\xff":
            raise OSError(f"MariaDB: {body[3:]!r}")
        return body

    def prepared(self, statement):
        """Prepares a statement. Returns its number, as it is sent."""
        self.send(PREPARE + statement.encode())
        answer = self.packet()
        for _ in range(int.from_bytes(answer[5:7], "little") + int.from_bytes(answer[7:9], "little")):
            self.packet()
        return answer[1:5]

    def exchange(self, message):
        """Sends a command; returns the packets of its answer: one that begins with 0, or rows up to a short one that begins with 254."""
        self.socket.sendall(message)
        packets = [self.packet()]
        while packets[0][0] != 0 and (len(packets) == 1 or packets[-1][0] != 0xFE or len(packets[-1]) >= 1 << 10):
            packets.append(self.packet())
        return packets

    def query(self, text):
        body = QUERY + text.encode()
        return self.exchange(len(body).to_bytes(3, "little") + b"\0" + body)

    def prepare(self, request):
        values = (request.about[0], compact(self.corpus.new_body(request.about[1]))) if request.kind == "commit" else request.about
        body = bound(self.statements[request.kind], values)
        return len(body).to_bytes(3, "little") + b"\0" + body

    def reply(self, message):
        return b"".join(self.exchange(message))


class MariaDB(Server):
    name, framing = "MariaDB", "mariadb"

    def __init__(self, corpus):
        self.corpus, self.columns, self.bulks = corpus, set(), {}
        self.folder = tempfile.mkdtemp(prefix="bench-mariadb-")
        self.data, self.socket = os.path.join(self.folder, "data"), os.path.join(self.folder, "socket")
        user = ["--user=root"] if os.getuid() == 0 else []
        args = ["mariadb-install-db", "--no-defaults", *user, f"--datadir={self.data}", "--auth-root-authentication-method=normal", "--skip-test-db"]
        subprocess.run(args, stdout=subprocess.DEVNULL, stderr=subprocess.DEVNULL, check=True)
        args = [program(), "--no-defaults", *user, f"--datadir={self.data}", f"--socket={self.socket}", f"--pid-file={self.folder}/pid"]
        self.log = open(os.path.join(self.folder, "log"), "w")
        self.process = subprocess.Popen([*args, *(f"--{one}" for one in SETTINGS)], stdin=subprocess.DEVNULL, stdout=self.log, stderr=self.log)
        self.connection = self.connected()
        self.connection.query("CREATE DATABASE bench")
        self.connection.query("CREATE TABLE bench.docs (id VARCHAR(64) PRIMARY KEY, body JSON) COLLATE utf8mb4_bin")
        self.connection.query("USE bench")

    def first_client(self):
        """Returns a connection without statements."""
        return Connection(self.socket, self.corpus, {})

    def last_words(self):
        with open(self.log.name) as file:
            return file.read()[-1000:]

    def client(self, kinds=Server.kinds):
        """Returns a connection with the statements of some kinds of requests prepared."""
        client, statements = self.first_client(), statements_of(self.corpus)
        client.query("USE bench")
        client.statements = {kind: client.prepared(statements[kind]) for kind in kinds}
        return client

    def records(self, requests):
        """Returns the requests, all of one kind, with the statement that is prepared last: its number is another one on each connection."""
        self.kind = requests[0].kind
        client = self.client(())
        client.statements = {self.kind: LAST}
        found = [(self.code, one.answer.last.encode() if one.answer else b"", client.prepare(one)) for one in requests]
        client.socket.close()
        return found

    def sockets(self, number):
        return [self.client([self.kind]).socket for _ in range(number)]

    def prepare_bulk(self, numbers):
        if len(numbers) not in self.bulks:
            rows = ", ".join(["(?, ?)"] * len(numbers))
            self.bulks[len(numbers)] = self.connection.prepared(f"INSERT INTO docs (id, body) VALUES {rows}")
        values = [word for i in numbers for word in (self.corpus.name(i), compact(self.corpus.body(i)))]
        body = bound(self.bulks[len(numbers)], values)
        return len(body).to_bytes(3, "little") + b"\0" + body

    def send_bulk(self, message, count):
        self.connection.exchange(message)

    def index(self, which):
        for member in INDEXES[which]:
            path = self.corpus.path(member)
            made = f"{column(member)} {TYPES[member]} AS (JSON_VALUE(body, '$.{path}')) VIRTUAL"
            self.connection.query(f"ALTER TABLE docs ADD COLUMN IF NOT EXISTS {made}")
        self.connection.query(f"CREATE INDEX by_{which} ON docs ({', '.join(map(column, INDEXES[which]))}, id)")

    def settle(self):
        self.connection.query("ANALYZE TABLE docs")
        for kind, statement in statements_of(self.corpus).items():
            if kind not in ("scan", "commit"):
                self.check_plan(kind, statement, self.corpus.requests(kind, 1, "plan")[0])

    def check_plan(self, kind, statement, request):
        """Ends the run unless the plan of a statement reads an index and sorts nothing."""
        for value in request.about:
            statement = statement.replace("?", str(value) if isinstance(value, int) else f"'{value}'", 1)
        plan = b"\n".join(self.connection.query(f"EXPLAIN {statement}")).decode(errors="replace")
        if not ("PRIMARY" in plan if kind == "get" else "by_" in plan) or "filesort" in plan:
            raise SystemExit(f"MariaDB does not read {kind} by an index:\n{plan!r}")

    def close(self):
        super().close()
        self.log.close()
        shutil.rmtree(self.folder)
