"""Measures Tarantool for comparison: a space of ids and documents in memory, with indexes on paths, and a client of its binary protocol.

Nothing is written to a disk (wal_mode is none). A query is a SELECT on an index, a commit an INSERT, and the scan a stored function in Lua.
"""
import os
import shutil
import socket
import subprocess
import tempfile

from .documents import PAGE
from .program import free_port
from .receive import receive
from .server import Server

SCRIPT = """
local port, text = arg[1], arg[2]
box.cfg{listen = '127.0.0.1:' .. port, wal_mode = 'none', memtx_memory = 16 * 1024 ^ 3, checkpoint_interval = 0, log_level = 1}
box.schema.user.grant('guest', 'super', nil, nil, {if_not_exists = true})
local docs = box.schema.space.create('docs', {id = 600})
docs:create_index('primary', {id = 0, parts = {{1, 'string'}}})
local steps = {}
for step in text:gmatch('[^.]+') do steps[#steps + 1] = step end
function scan(wanted)
    local found = {}
    for _, row in docs:pairs() do
        local value = row[2]
        for _, step in ipairs(steps) do value = value[step] end
        if value == wanted then found[#found + 1] = row end
    end
    return found
end
function index(number, name, ...)
    local parts = {}
    for _, path in ipairs{...} do parts[#parts + 1] = {field = 2, path = path, type = 'scalar'} end
    docs:create_index(name, {id = number, unique = false, parts = parts})
end
"""
SPACE = 600
INDEXES = {"group": 1, "price": 2, "kind": 3}
EQUAL, LESS = 0, 3
SELECT, INSERT, CALL = 1, 2, 10


def program():
    return shutil.which("tarantool")


def packed(value):
    """Returns a JSON value as MessagePack. Its numbers must be whole, not negative, and of at most 64 bits."""
    if isinstance(value, bool):
        return b"\xc3" if value else b"\xc2"
    if isinstance(value, int):
        return bytes([value]) if value < 128 else b"\xcf" + value.to_bytes(8, "big")
    if isinstance(value, str):
        text = value.encode()
        return (bytes([0xA0 + len(text)]) if len(text) < 32 else b"\xdb" + len(text).to_bytes(4, "big")) + text
    if isinstance(value, (list, tuple)):
        head = bytes([0x90 + len(value)]) if len(value) < 16 else b"\xdd" + len(value).to_bytes(4, "big")
        return head + b"".join(map(packed, value))
    head = bytes([0x80 + len(value)]) if len(value) < 16 else b"\xdf" + len(value).to_bytes(4, "big")
    return head + b"".join(packed(name) + packed(one) for name, one in value.items())


def message(kind, body):
    """Returns the bytes of a request: its length, its header with the kind, and its body."""
    text = packed({0: kind, 1: 0}) + packed(body)
    return b"\xce" + len(text).to_bytes(4, "big") + text


def selection(index, iterator, key, limit=PAGE):
    return message(SELECT, {0x10: SPACE, 0x11: index, 0x12: limit, 0x13: 0, 0x14: iterator, 0x20: key})


class Connection:
    """A connection that sends each request after it has read the answer to the one before."""

    def __init__(self, port, corpus):
        self.socket, self.corpus = socket.create_connection(("127.0.0.1", port), timeout=600), corpus
        self.socket.setsockopt(socket.IPPROTO_TCP, socket.TCP_NODELAY, 1)
        greeting = b""
        while len(greeting) < 128:
            greeting += receive(self.socket, "Tarantool", 128 - len(greeting))

    def exchange(self, text, count=1):
        """Sends bytes, and returns what is read until the given number of answers have come."""
        self.socket.sendall(text)
        data, end = b"", 0
        for _ in range(count):
            while len(data) < end + 5 or len(data) < end + 5 + int.from_bytes(data[end + 1 : end + 5], "big"):
                data += receive(self.socket, "Tarantool")
            # the header of an answer begins with 0 and its code as 32 bits; code 0 is success
            if data[end + 5 : end + 12] != b"\x83\x00\xce\x00\x00\x00\x00":
                raise OSError(f"Tarantool: {data[end : end + 300]!r}")
            end += 5 + int.from_bytes(data[end + 1 : end + 5], "big")
        return data

    def prepare(self, request):
        about = request.about
        made = {
            "get": lambda: selection(0, EQUAL, about, 1),
            "equality": lambda: selection(INDEXES["group"], EQUAL, about),
            "falling": lambda: selection(INDEXES["price"], LESS, about),
            "scan": lambda: message(CALL, {0x22: "scan", 0x21: about}),
            "commit": lambda: message(INSERT, {0x10: SPACE, 0x21: [about[0], self.corpus.new_body(about[1])]}),
        }
        return made[request.kind]()

    reply = exchange


class Tarantool(Server):
    name, framing = "Tarantool", "tarantool"

    def __init__(self, corpus):
        self.corpus, self.port = corpus, free_port()
        self.folder = tempfile.mkdtemp(prefix="bench-tarantool-")
        with open(os.path.join(self.folder, "start.lua"), "w") as file:
            file.write(SCRIPT)
        args = [program(), "start.lua", str(self.port), corpus.path("text")]
        self.process = subprocess.Popen(args, cwd=self.folder, stdin=subprocess.DEVNULL, stdout=subprocess.DEVNULL, stderr=subprocess.DEVNULL)
        self.connection = self.connected()

    def client(self):
        """Returns a connection. Raises `OSError` if there is no space yet."""
        connection = Connection(self.port, self.corpus)
        connection.exchange(selection(0, EQUAL, ["none"]))
        return connection

    def prepare_bulk(self, numbers):
        rows = [message(INSERT, {0x10: SPACE, 0x21: [self.corpus.name(i), self.corpus.body(i)]}) for i in numbers]
        return b"".join(rows)

    def send_bulk(self, text, count):
        self.connection.exchange(text, count)

    def index(self, which):
        self.connection.exchange(message(CALL, {0x22: "index", 0x21: [INDEXES[which], which, *self.corpus.columns(which)]}))

    def close(self):
        super().close()
        shutil.rmtree(self.folder)
