"""Measures Redis for comparison, with the requests that it has: a text by its id, and a commit of one text. Nothing is written to a disk."""
import shutil
import socket
import subprocess

from .documents import compact
from .program import free_port
from .receive import receive
from .server import Server


def program():
    return shutil.which("redis-server")


def command(*words):
    parts = [word.encode() for word in words]
    return b"*%d\r\n" % len(parts) + b"".join(b"$%d\r\n%s\r\n" % (len(part), part) for part in parts)


class Connection:
    """A connection that sends each command after it has read the answer to the one before."""

    def __init__(self, port, corpus):
        self.corpus = corpus
        self.socket = socket.create_connection(("127.0.0.1", port), timeout=600)
        self.socket.setsockopt(socket.IPPROTO_TCP, socket.TCP_NODELAY, 1)

    def exchange(self, text):
        """Sends a command; returns the answer: a line, or a text after a line with its length. Raises `OSError` if Redis closes the
        connection before the answer is complete."""
        self.socket.sendall(text)
        data = b""
        while True:
            data += receive(self.socket, "Redis", 1 << 16)
            end = data.find(b"\r\n") + 2
            if end >= 2 and (data[:1] != b"$" or len(data) == end + int(data[1 : end - 2]) + 2):
                return data

    def prepare(self, request):
        name, *more = request.about
        return command("SET", name, compact(self.corpus.new_body(more[0]))) if more else command("GET", name)

    reply = exchange


class Redis(Server):
    name, framing = "Redis", "redis"
    kinds = ("get", "commit")

    def __init__(self, corpus):
        self.corpus, self.port = corpus, free_port()
        args = [program(), "--bind", "127.0.0.1", "--port", str(self.port), "--save", "", "--appendonly", "no"]
        self.process = subprocess.Popen(args, stdin=subprocess.DEVNULL, stdout=subprocess.DEVNULL)
        self.connection = self.connected()

    def client(self):
        return Connection(self.port, self.corpus)

    def prepare_bulk(self, numbers):
        documents = ((self.corpus.name(i), compact({"_id": self.corpus.name(i), **self.corpus.body(i)})) for i in numbers)
        return command("MSET", *(word for document in documents for word in document))

    def send_bulk(self, text, count):
        if self.connection.exchange(text) != b"+OK\r\n":
            raise SystemExit("Redis has not taken a bulk")
