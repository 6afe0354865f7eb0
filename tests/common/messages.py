"""The bytes of requests and replies, as the program reads and writes them."""
import json
import re
from dataclasses import dataclass

PHRASES = {
    200: "OK",
    201: "Created",
    400: "Bad Request",
    403: "Forbidden",
    404: "Not Found",
    405: "Method Not Allowed",
    409: "Conflict",
    411: "Length Required",
    412: "Precondition Failed",
    413: "Payload Too Large",
    431: "Request Header Fields Too Large",
    503: "Service Unavailable",
}
HEAD = re.compile(rb"HTTP/1\.1 ([0-9]{3}) ([A-Za-z ]+)\r\nContent-Type: application/json\r\nContent-Length: ([0-9]+)\Z")


@dataclass
class Reply:
    """A reply: its status, and its body with the line feed at its end."""

    status: int
    body: bytes

    def __str__(self):
        return f"{self.status} {self.body.decode('utf-8', 'backslashreplace').removesuffix(chr(10))}"


def message(method, target, body=b"", fields=None):
    """Returns a request with these fields and a length. The target begins with `/`."""
    lines = "".join(f"{name}: {value}\r\n" for name, value in (fields or {}).items())
    return b"%s %s HTTP/1.1\r\n%sContent-Length: %d\r\n\r\n%s" % (method.encode(), target.encode(), lines.encode(), len(body), body)


def post(target, body):
    """Returns a POST to a target below /db/."""
    return message("POST", f"/db/{target}", body)


def post_json(target, value):
    """Returns a POST of a value to a target below /db/."""
    return post(target, json.dumps(value).encode())


def bulk(documents, **members):
    """Returns a POST of documents to _bulk_docs, with further members of its body."""
    return post_json("_bulk_docs", {"docs": documents, **members})


def get(target):
    """Returns a GET of a target below /db/, without a length."""
    return b"GET /db/%s HTTP/1.1\r\n\r\n" % target.encode()


def reply(status, text, silent=False):
    """Returns the bytes of a reply. `silent`: without the body, but with its length, as a reply to HEAD."""
    body = text.encode() + b"\n"
    head = f"HTTP/1.1 {status} {PHRASES[status]}\r\nContent-Type: application/json\r\nContent-Length: {len(body)}\r\n\r\n"
    return head.encode() + (b"" if silent else body)


def replies_in(output):
    """Returns the complete replies at the beginning of the output, and the rest of it."""
    replies = []
    while True:
        head, end, rest = output.partition(b"\r\n\r\n")
        parts = HEAD.match(head)
        if not end or not parts or len(rest) < int(parts[3]) or PHRASES.get(int(parts[1])) != parts[2].decode():
            return replies, output
        replies.append(Reply(int(parts[1]), rest[: int(parts[3])]))
        output = rest[int(parts[3]) :]


def body_of(one):
    """Returns the body of the bytes of one request or reply."""
    return one.partition(b"\r\n\r\n")[2]


def status_of(one):
    """Returns the status of the bytes of a reply; None if the reply is incomplete."""
    head, end, body = one.partition(b"\r\n\r\n")
    found = re.search(rb"\r\nContent-Length: ([0-9]+)", head)
    return int(head.split(b" ")[1]) if end and found and len(body) == int(found[1]) else None
