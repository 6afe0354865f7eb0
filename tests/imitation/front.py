"""Imitates CouchDB as a proxy in front of the program. It gives replies the forms that CouchDB's API reference describes and that the
reference of this project names as differences. It has not been compared with a real CouchDB.

It reverses revisions and ids that the server made, in both directions; gives bookmarks a prefix; and changes reasons, the order of members,
and members that only CouchDB has. `planted` is a function of a method, a target and a reply that changes one more thing.
"""
import contextlib
import json
import re

from common.example import database_url
from common.wire import ask_once
from imitation.serve import serving

MADE = re.compile(r"\b[0-9a-f]{32}\b")
FRONT = "g1AAAA"
EMPTY = (200, {"docs": [], "bookmark": "nil"})


def reverse_made(text):
    """Returns a text with each revision and id that the server made in reverse."""
    return MADE.sub(lambda found: found[0][::-1], text)


def reverse_members(value):
    """Returns a value with the members of its objects in reverse order."""
    if isinstance(value, dict):
        return {name: reverse_members(value[name]) for name in reversed(list(value))}
    return [reverse_members(item) for item in value] if isinstance(value, list) else value


def own_reply(method, target, body):
    """Returns the reply to a request that only CouchDB serves; None for another request."""
    if target == "":
        return {"PUT": (201, {"ok": True}), "DELETE": (200, {"ok": True}), "GET": (200, {"db_name": "db"})}[method]
    if method == "GET" and target in ("_all_docs", "_changes", "_design/by"):
        return 200, {"rows": []}
    if method == "PUT":
        return 409, {"error": "conflict", "reason": "Document update conflict."}
    if "partial_filter_selector" in body:
        return 200, {"result": "created", "id": "_design/part", "name": "p"}
    return EMPTY if "$regex" in body or "$beginsWith" in body or "0.5" in body or '"bookmark": ""' in body else None


def couchdb_reply(method, target, status, value):
    """Returns a reply of the program in the form of CouchDB."""
    if isinstance(value, dict) and "reason" in value:
        return status, {**value, "reason": "another text"}
    if "revs=true" in target:
        return status, {**value, "_revisions": {"start": 1, "ids": ["a"]}}
    if target == "_find":
        words = [document["word"] for document in value["docs"] if "word" in document]
        if words:
            value["docs"].sort(key=lambda document: (document["word"].lower(), document["word"].isupper()))
        mark = value["bookmark"] if value["bookmark"] == "nil" else FRONT + value["bookmark"]
        return status, {**value, "bookmark": mark, "warning": "No matching index found.", "execution_stats": {"total_docs_examined": 1}}
    if target == "_index" and method == "GET":
        return status, {**value, "indexes": [{**index, "partitioned": False} for index in value["indexes"]]}
    return status, value


class Front:
    """Passes requests on to the program, and changes its replies."""

    def __init__(self, port, planted=None):
        self.port, self.planted, self.requests = port, planted or (lambda method, target, reply: reply), []

    def answer(self, method, path, _, body):
        """Returns the status and the bytes of a reply."""
        target, text = path.removeprefix("/db").removeprefix("/"), body.decode()
        self.requests.append((method, target))
        reply = own_reply(method, target, text)
        if reply is None:
            given = reverse_made(text).replace(FRONT, "") if method == "POST" else None
            status, value = ask_once(self.port, method, f"/db/{target}", given)
            reply = couchdb_reply(method, target, status, json.loads(reverse_made(json.dumps(value, ensure_ascii=False))))
        status, value = self.planted(method, target, reply)
        return status, json.dumps(reverse_members(value)).encode()


@contextlib.contextmanager
def serving_front(front):
    """Serves the imitation over HTTP, and yields the URL of its database."""
    with serving(front.answer) as port:
        yield database_url(port)
