"""Inputs of any size, each with the bytes that its replies end in."""
import base64
import hashlib
import json
from dataclasses import dataclass
from typing import Callable

from common.messages import post

NO_JSON = b'{"error":"bad_request","reason":"Invalid JSON."}\n'
NOTHING = b'{"bookmark":"nil","docs":[]}\n'
ADDED = b"[]\n"
MOST = 2**31 - 1


@dataclass
class Shape:
    """How an input of a given size is made; the larger size in the gate and with --full; and the power of the size to which its cost may
    grow: 1, or 2 where the cost is a product of two parts that both grow."""

    make: Callable
    gate: int
    full: int
    power: int = 1
    shards: str = "1"
    workers: str = "1"

    @property
    def name(self):
        return self.make.__name__


def find(selector, *more):
    return post("_find", b'{"selector":%s%s}' % (selector, b"".join(b"," + member for member in more)))


def replicas(documents):
    return post("_bulk_docs", b'{"docs":[%s],"new_edits":false}' % b",".join(documents))


def document(name, *members):
    return b'{"_id":"%s","_rev":"1-a"%s}' % (name, b"".join(b"," + member for member in members))


def page(names):
    """Returns the body of a page of ids alone, of the index of all documents."""
    last = json.dumps([None, "_all_docs", "asc", [names[-1]], names[-1]], separators=(",", ":")).encode()
    bookmark = base64.urlsafe_b64encode(last).rstrip(b"=")
    return b'{"bookmark":"%s","docs":[%s]}\n' % (bookmark, b",".join(b'{"_id":"%s"}' % name.encode() for name in names))


def revision(parent, body=b"{}"):
    """Returns the id of the new revision of a document with this body over a parent; the first revision has no parent (None)."""
    text = b"null" if parent is None else b'"%s"' % parent
    return hashlib.md5(b"[false,%s,%s]" % (text, body)).hexdigest().encode()
