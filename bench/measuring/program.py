"""Measures the program, mangod, over TCP with connections that stay open."""
import json
import os
import re
import socket
import subprocess

from .documents import LONG_PAGE, MARKS, PAGE, compact
from .receive import receive
from .server import Server

USUAL_SESSIONS = 16
# the settings of the C library that suit large databases best: docs/PERFORMANCE.md says what each does
TUNABLES = "glibc.malloc.hugetlb=1:glibc.malloc.arena_max=1"
# the line of a program that listens
LISTENS = re.compile(rb": listening( at .*)?\n$")


def free_port():
    with socket.create_server(("127.0.0.1", 0)) as server:
        return server.getsockname()[1]


def message(method, target, body=None, above="/db/"):
    data = b"" if body is None else (body if isinstance(body, str) else compact(body)).encode()
    return f"{method} {above}{target} HTTP/1.1\r\nHost: localhost\r\nContent-Length: {len(data)}\r\n\r\n".encode() + data


def prepared(corpus, request):
    """Returns the message of a request."""
    about = request.about
    group, kind, price, text = map(corpus.path, ("group", "kind", "price", "text"))
    find = {
        "equality": lambda: {"selector": {group: about[0]}},
        "falling": lambda: {"selector": {price: {"$lt": about[0]}}, "sort": [{price: "desc"}], "limit": PAGE},
        "two": lambda: {"selector": {kind: about[0], price: {"$gte": about[1]}}, "sort": [kind, price], "limit": PAGE},
        "deep": lambda: {"selector": {price: {"$gte": 0}}, "sort": [price], "limit": PAGE, "bookmark": corpus.bookmark(*about)},
        "scan": lambda: {"selector": {text: about[0]}},
        "first": lambda: {"selector": {}, "limit": LONG_PAGE},
    }
    if request.kind in ("get", "head"):
        return message(request.kind.upper(), about[0])
    if request.kind == "listing":
        return message("GET", f"_all_docs?limit={LONG_PAGE}&include_docs=true")
    if request.kind == "root":
        return message("GET", "", above="/")
    if request.kind == "commit":
        return message("POST", "_bulk_docs", {"docs": [{"_id": about[0], **corpus.new_body(about[1])}]})
    return message("POST", "_find", find[request.kind]())


class Connection:
    """A connection that sends each message after it has read the reply to the one before."""

    def __init__(self, port, corpus):
        self.socket = socket.create_connection(("127.0.0.1", port), timeout=600)
        self.socket.setsockopt(socket.IPPROTO_TCP, socket.TCP_NODELAY, 1)
        self.corpus = corpus

    def exchange(self, text):
        """Sends a message; returns the status and the body of the reply."""
        self.socket.sendall(text)
        data = receive(self.socket, "the program")
        while (end := data.find(b"\r\n\r\n")) < 0:
            data += receive(self.socket, "the program")
        at = data[:end].lower().index(b"content-length: ") + 16
        whole = end + 4 + int(data[at : data.index(b"\r\n", at)])
        pieces, have = [data], len(data)
        while have < whole:
            pieces.append(receive(self.socket, "the program"))
            have += len(pieces[-1])
        return data[9:12], b"".join(pieces)[end + 4 :]

    def reply(self, text):
        return self.exchange(text)[1]

    def prepare(self, request):
        return prepared(self.corpus, request)

    def ask(self, text, answer):
        """Sends a message, and compares the reply with the right answer: the number of documents, the first and the last."""
        status, body = self.exchange(text)
        value = json.loads(body)
        if answer is None:
            right = status == b"200" and "couchdb" in value or status == b"201" and value[0].get("ok") is True
        else:
            found = [row["doc"] for row in value["rows"]] if "rows" in value else value.get("docs", [value])
            right = status == b"200" and answer.fits([one["_id"] for one in found])
        if not right:
            raise SystemExit(f"{text[:300]!r} was answered by {status!r} {body[:300]!r}, wanted {answer}")


class Program(Server):
    """The program with a database for the documents, a pair of shards and workers, and so many sessions."""

    called = "mangod"
    kinds = (*Server.kinds, "ascending", "update", "mix")

    def __init__(self, path, corpus, pair=(1, 1), sessions=USUAL_SESSIONS, tunables=TUNABLES, tool=(), environment=None):
        self.name = "{} {}/{}".format(self.called, *pair) + f", {sessions} sessions" * (sessions != USUAL_SESSIONS)
        self.corpus, self.port = corpus, free_port()
        self.environment = {**os.environ, **(environment or {}), "GLIBC_TUNABLES": tunables}
        self.start([*tool, path, *self.words(pair, sessions)])
        self.loaded, self.revisions, self.edited = self.client(), {}, 0

    def words(self, pair, sessions):
        """Returns the words of the command line."""
        return ["db", *map(str, pair), str(sessions), f"127.0.0.1:{self.port}"]

    def start(self, args):
        """Starts the program, and waits until it listens."""
        self.process = subprocess.Popen(args, stdin=subprocess.DEVNULL, stderr=subprocess.PIPE, env=self.environment)
        if not any(LISTENS.search(line) for line in self.process.stderr):
            raise SystemExit(f"{args} does not listen")

    def client(self):
        return Connection(self.port, self.corpus)

    def sockets(self, number):
        """The client in C makes its own connections."""
        self.rest()
        return None

    def rest(self):
        """Closes the connection of the load, which frees a session; it is opened again when it is needed."""
        if self.loaded:
            self.loaded.socket.close()
            self.loaded = None

    def exchange(self, method, target, body=None):
        """Sends a message over the connection of the load. Returns the value of the reply, which must be one of success."""
        self.loaded = self.loaded or self.client()
        text = body if isinstance(body, bytes) else message(method, target, body)
        status, reply = self.loaded.exchange(text)
        if status not in (b"200", b"201"):
            raise SystemExit(f"{text[:300]!r} was answered by {status} {reply[:300]}")
        return reply

    def records(self, requests):
        return [(one.status, one.mark, prepared(self.corpus, one)) for one in requests]

    def updates(self, number):
        """Returns records of edits, each of another loaded document; each can be sent once."""
        order = [i for i in self.corpus.numbers() if self.corpus.name(i) in self.revisions][self.edited : self.edited + number]
        self.edited += number
        return [(201, MARKS["commit"], self.prepare_edits([i])) for i in order]

    def prepare_edits(self, numbers):
        """Returns the message that edits documents whose revisions were kept."""
        docs = [{"_id": (name := self.corpus.name(i)), "_rev": self.revisions[name], **self.corpus.edited_body(i)} for i in numbers]
        return message("POST", "_bulk_docs", {"docs": docs})

    def prepare_bulk(self, numbers):
        return message("POST", "_bulk_docs", {"docs": [{"_id": self.corpus.name(i), **self.corpus.body(i)} for i in numbers]})

    def send_bulk(self, text, count):
        """Sends a bulk, whose documents must all be accepted; returns the reply."""
        reply = self.exchange("POST", "_bulk_docs", text)
        if reply.count(b'"ok":true') != count:
            raise SystemExit(f"a bulk was answered by {reply[:300]}")
        return reply

    def keep_revisions(self, reply):
        """Keeps the revisions of documents, which edits of them must name."""
        self.revisions.update((one["id"], one["rev"]) for one in json.loads(reply))

    def index(self, which, name=None):
        """Builds an index; `name` is that of a further one on the same members."""
        self.define(self.corpus.columns(which), name or which, "m" if name is None else "further")

    def define(self, fields, name, ddoc="m"):
        definition = {"index": {"fields": fields}, "ddoc": ddoc, "name": name}
        if json.loads(self.exchange("POST", "_index", definition))["result"] != "created":
            raise SystemExit(f"the index {name} is not new")
