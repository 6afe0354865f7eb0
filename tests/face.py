#!/usr/bin/env python3
"""Sends the conversations of tests/conversations/mango_server, and the examples of docs/MANGO_SERVER.md, to the program that keeps its data.

usage: face.py --program PATH

PATH is mango_server. The form of the conversations is described in tests/common/conversation.py, that of the examples in
tests/common/reference.py; each has a file of its own, which is empty at the start. The conversations of mangod are sent too: what it answers
with 200 or 201 has the same body here. The fields of replies are compared here (`ETag`, `Location`, `Allow`, `Cache-Control`, `Date`), what
`HEAD` says, revisions that `If-Match` names, what a client that has a document gets, each parameter that a request does not answer, ids, of
which no two are the same, and ranges of `_all_docs`. The last line is 'N passed, M failed'.
"""
import contextlib
import email.utils
import http.client
import json
import random
import re
import sys
import tempfile
import time
import urllib.parse
from pathlib import Path

from common.arguments import arguments
from common.conversation import FOLDER, select
from common.messages import Reply
from common.reference import TOP, sections_of
from common.server import keeping
from common.tally import Tally

DOCUMENT = TOP / "docs" / "MANGO_SERVER.md"
SECONDS = 60
ID = re.compile(r"[0-9a-f]{32}")


class Client:
    """A connection. It keeps the fields of the last reply."""

    def __init__(self, port):
        self.connection, self.fields = http.client.HTTPConnection("127.0.0.1", port, timeout=SECONDS), {}

    def ask(self, method, target, body=None, fields=None):
        self.connection.request(method, target, body, fields or {})
        reply = self.connection.getresponse()
        self.fields = {name.lower(): value for name, value in reply.getheaders()}
        return Reply(reply.status, reply.read())

    def send(self, message):
        """Sends the bytes of a request as a request of this client."""
        head, _, body = message.partition(b"\r\n\r\n")
        line, *fields = head.decode().split("\r\n")
        method, target, _ = line.split(" ")
        given = dict(field.split(": ", 1) for field in fields)
        given.pop("Content-Length", None)
        return self.ask(method, target, body or None, given)

    def shown(self, names):
        """Returns those of these fields that the last reply has."""
        return {name: self.fields[name.lower()] for name in names if name.lower() in self.fields}


@contextlib.contextmanager
def database(program):
    """Yields a client of the program on a new file."""
    with tempfile.TemporaryDirectory() as folder, keeping(program, Path(folder) / "db") as port:
        client = Client(port)
        with contextlib.closing(client.connection):
            yield client


def conversations(program, tally):
    for conversation in select([], FOLDER / "mango_server"):
        with database(program) as client:
            faults = []
            for exchange in conversation.exchanges:
                reply = client.send(exchange.message)
                faults += [f"{exchange.text}: replied {reply}, expected {one.text}" for one in exchange.expected_at(3) if not one.is_met_by(reply)]
        tally.count(conversation.name, faults)


def examples(program, tally):
    text = DOCUMENT.read_text(encoding="utf-8")
    sent = 0
    for heading, shown in sections_of(text):
        with database(program) as client:
            for example in shown:
                reply = client.send(example.message)
                tally.expect(f"{heading}, {example.request}", (reply, client.shown(example.fields)), (example.reply, example.fields))
                sent += 1
    tally.expect("the examples that were sent", sent, text.count("```http-request"))


def gives_ids(target, body):
    """Whether a request is a bulk with a document that has no id. This program gives it another one than mangod does."""
    try:
        documents = json.loads(body)["docs"] if target.endswith("/_bulk_docs") else []
        return any("_id" not in document for document in documents if isinstance(document, dict))
    except (ValueError, KeyError, TypeError):
        return False


def as_mangod(program, tally):
    """What mangod answers with 200 or 201 to a request without a parameter has the same body here: the conversations of mangod, each up to the
    first message that gives an id, is no whole request, or is a write that is done here alone."""
    compared = 0
    for conversation in select([], FOLDER):
        faults = []
        with database(program) as client:
            for exchange in conversation.exchanges:
                head, _, body = exchange.message.partition(b"\r\n\r\n")
                target = head.split(b" ")[1].decode() if exchange.text[:3] != '> "' and exchange.is_complete else None
                if target is None or gives_ids(target, body):
                    break
                reply, expected = client.send(exchange.message), exchange.expected_at(3)
                if all(one.status in (200, 201) for one in expected):
                    faults += [f"{exchange.text}: replied {reply}, mangod {one.text}" for one in expected if "?" not in target and not one.is_met_by(reply)]
                    compared += 1
                elif reply.status in (200, 201) and not head.startswith(b"GET") and not target.endswith(("_find", "_explain")):
                    break
        tally.count(f"as mangod: {conversation.name}", faults)
    # 798 of the messages are answered so, 774 of them before a message that gives an id or is no whole request
    tally.expect("most of what mangod answers with 200 or 201 is compared", compared > 650, True)


def fields(program, tally):
    """The fields of replies, and what a client that has a document gets."""
    with database(program) as client:
        made = json.loads(client.ask("PUT", "/db/a%20b", '{"n":1}').body)["rev"]
        tag = f'"{made}"'
        tally.expect("the fields of a write", (client.fields.get("etag"), client.fields.get("location")), (tag, "/db/a%20b"))
        client.ask("GET", "/db/a%20b")
        tally.expect("the tag of a document", client.fields.get("etag"), tag)
        for given in (tag, f"W/{tag}", f'"1-x", {tag}'):
            tally.expect(f"a client that has {given}", client.ask("GET", "/db/a%20b", fields={"If-None-Match": given}), Reply(304, b""))
        tally.expect("a client that has another", client.ask("GET", "/db/a%20b", fields={"If-None-Match": '"1-x"'}).status, 200)
        tally.expect("HEAD", (client.ask("HEAD", "/db/a%20b"), client.fields.get("etag")), (Reply(200, b""), tag))
        tally.expect("HEAD of the database", client.ask("HEAD", "/db"), Reply(200, b""))
        tally.expect("the tag of a revision that is asked for", (client.ask("GET", f"/db/a%20b?rev={made}").status, client.fields.get("etag")), (200, tag))
        for more in ("conflicts=true", "revs=true", f"rev={made}&revs=true"):
            asked = client.ask("GET", f"/db/a%20b?{more}", fields={"If-None-Match": tag})
            tally.expect(f"with {more} there is no tag, since more may change", (asked.status, client.fields.get("etag")), (200, None))
        client.ask("PUT", "/db/c%20d?new_edits=false", '{"_revisions":{"ids":["b","a"],"start":2}}')
        tally.expect("the fields of a replica's write", (client.fields.get("etag"), client.fields.get("location")), ('"2-b"', "/db/c%20d"))
        tally.expect("a write by If-Match", client.ask("PUT", "/db/a%20b", '{"n":2}', {"If-Match": tag}).status, 201)
        for method, target, body in (("GET", "/", None), ("GET", "/db/a%20b", None), ("PUT", "/other", None), ("POST", "/db", "{"), ("POST", "/_up", None)):
            client.ask(method, target, body)
            made = email.utils.parsedate_to_datetime(client.fields.get("date", "Thu, 01 Jan 1970 00:00:00 GMT")).timestamp()
            tally.expect(f"the date of {method} {target}", abs(time.time() - made) < 5, True)


# each resource, and its methods: those of the table of docs/MANGO_SERVER.md, and of that of docs/REFERENCE.md
METHODS = {
    "/": "GET HEAD", "/_up": "GET HEAD", "/_all_dbs": "GET HEAD", "/_uuids": "GET HEAD", "/db": "DELETE GET HEAD POST PUT",
    "/db/_all_docs": "GET HEAD POST", "/db/_ensure_full_commit": "POST", "/db/_bulk_docs": "POST", "/db/_find": "POST", "/db/_explain": "POST",
    "/db/_index": "GET HEAD POST", "/db/_index/by/json/n": "DELETE", "/db/_index/_design/by/json/n": "DELETE", "/db/_placement": "POST",
    "/db/_design/by": "GET HEAD PUT", "/db/a": "DELETE GET HEAD PUT",
}
REFUSED_METHOD = Reply(405, b'{"error":"method_not_allowed","reason":"Method not allowed."}\n')


def methods(program, tally):
    """A resource refuses each method that it does not have, and says which it has (RFC 9110, sections 10.2.1 and 15.5.6)."""
    with database(program) as client:
        for target, names in METHODS.items():
            for method in {"PATCH", "OPTIONS", "POST", "PUT", "DELETE", "GET"} - set(names.split()):
                reply = client.ask(method, target)
                tally.expect(f"{method} {target}", (reply, set(client.fields.get("allow", "").split(", "))), (REFUSED_METHOD, set(names.split())))
        tally.expect("HEAD of what has no GET", (client.ask("HEAD", "/db/_find").status, client.fields.get("allow")), (405, "POST"))


def heads(program, tally):
    """`HEAD` has the status and the fields of `GET`, and no content (RFC 9110, section 9.3.2)."""
    with database(program) as client:
        client.ask("PUT", "/db/a", '{"n":1}')
        client.ask("POST", "/db/_index", '{"ddoc":"by","index":{"fields":["n"]},"name":"n"}')
        for target in ("/", "/_up", "/_all_dbs", "/_uuids", "/_uuids?count=0", "/db", "/db/", "/db/_all_docs", "/db/_all_docs?key=1", "/db/_index", "/db/a",
                       "/db/a?revs=true", "/db/a?rev=1-x", "/db/b", "/db/_design/by", "/db/_design/other", "/db/_nothing", "/other"):
            status, fields = client.ask("GET", target).status, client.fields
            head = client.ask("HEAD", target)
            without_date = [{name: value for name, value in one.items() if name != "date"} for one in (client.fields, fields)]
            tally.expect(f"HEAD {target}", (head, without_date[0]), (Reply(status, b""), without_date[1]))


def revisions(program, tally):
    """`If-Match` names the revision that an edit replaces, and the `ETag` of an edit is the revision that it made, not the one before."""
    with database(program) as client:
        def edited(name, method, target, body, given, status):
            reply = client.ask(method, target, body, {"If-Match": given} if given else {})
            made = json.loads(reply.body).get("rev")
            tally.expect(name, (reply.status, client.fields.get("etag")), (status, made and f'"{made}"'))
            return made

        first = edited("a first edit", "PUT", "/db/a", '{"n":1}', None, 201)
        second = edited("an edit by its revision", "PUT", "/db/a", '{"n":2}', f'"{first}"', 201)
        tally.expect("the revision of the edit", (first[:2], second[:2], client.ask("GET", "/db/a").body.count(second.encode())), ("1-", "2-", 1))
        edited("an edit by the revision before", "PUT", "/db/a", '{"n":3}', f'"{first}"', 409)
        third = edited("an edit by a tag without quotes", "PUT", "/db/a", '{"n":3}', second, 201)
        edited("an edit by no revision", "PUT", "/db/a", '{"n":4}', "*", 400)
        edited("an edit by two revisions", "PUT", f"/db/a?rev={third}", '{"n":4}', f'"{second}"', 400)
        edited("an edit by a revision twice", "PUT", f"/db/a?rev={third}", json.dumps({"_rev": third, "n": 4}), f'"{third}"', 201)
        fourth = json.loads(client.ask("GET", "/db/a").body)["_rev"]
        fifth = edited("an edit of a posted document", "POST", "/db", '{"_id":"a","n":5}', f'"{fourth}"', 201)
        edited("a posted document without its revision", "POST", "/db", '{"_id":"a","n":6}', None, 409)
        edited("a deletion by the revision before", "DELETE", "/db/a", None, f'"{fourth}"', 409)
        edited("a deletion by no revision", "DELETE", "/db/a", None, None, 409)
        tally.expect("the document after refused edits", json.loads(client.ask("GET", "/db/a").body), {"_id": "a", "_rev": fifth, "n": 5})
        sixth = edited("a deletion by its revision", "DELETE", "/db/a", None, f'"{fifth}"', 200)
        tally.expect("the revision of the deletion", sixth[:2], "6-")
        tally.expect("a deletion of what is deleted", client.ask("DELETE", "/db/a", fields={"If-Match": f'"{sixth}"'}).status, 404)


# parameters that change a meaning in CouchDB, and the requests that answer some of them, as docs/MANGO_SERVER.md lists them
PARAMETERS = ("attachments att_encoding_info atts_since batch deleted_conflicts latest local_seq meta new_edits open_revs rev revs revs_info "
              "update_seq").split()
ANSWERED = {
    ("GET", "/db/a", None): {"deleted_conflicts", "latest", "meta", "rev", "revs", "revs_info"},
    ("PUT", "/db/a", '{"n":2}'): {"new_edits", "rev"},
    ("POST", "/db", '{"_id":"b"}'): {"new_edits"},
    ("DELETE", "/db/a", None): {"rev"},
    ("GET", "/", None): set(), ("GET", "/db", None): set(), ("GET", "/db/_all_docs", None): set(), ("POST", "/db/_all_docs", "{}"): set(),
    ("GET", "/db/_index", None): set(), ("GET", "/db/_design/by", None): set(), ("POST", "/db/_find", '{"selector":{}}'): set(),
    ("POST", "/db/_bulk_docs", '{"docs":[{"_id":"b"}]}'): set(),
}


def parameters(program, tally):
    """A parameter that a request does not answer is refused by its name, and nothing is done; with its default it changes nothing."""
    with database(program) as client:
        client.ask("PUT", "/db/a", '{"n":1}')
        before = client.ask("GET", "/db").body, client.ask("GET", "/db/_all_docs?include_docs=true").body
        for (method, target, body), answered in ANSWERED.items():
            for name in sorted(set(PARAMETERS) - answered):
                refusal = f'{{"error":"bad_request","reason":"{name}: this server does not answer this parameter."}}\n'
                for query in (f"{name}=1", f"x=y&{name}=%5B%5D", f"{name}"):
                    tally.expect(f"{method} {target}?{query}", client.ask(method, f"{target}?{query}", body), Reply(400, refusal.encode()))
                if method == "GET" or target.endswith("_find"):
                    default = f"{name}={'true' if name == 'new_edits' else 'false'}"
                    asked = [client.ask(method, one, body) for one in (f"{target}?{default}", target)]
                    tally.expect(f"{method} {target}?{default}", asked[0], asked[1])
        after = client.ask("GET", "/db").body, client.ask("GET", "/db/_all_docs?include_docs=true").body
        tally.expect("the database after refused parameters", after, before)
        tally.expect("a parameter of no meaning", client.ask("GET", "/db/a?r=w&w=1&stale=ok").status, 200)


def ids(program, tally):
    """Ids are 32 hexadecimal digits, and no two are the same: of `_uuids`, and of documents without one, of two programs."""
    found = []
    for _ in range(2):
        with database(program) as client:
            drawn = json.loads(client.ask("GET", "/_uuids?count=1000").body)["uuids"]
            tally.expect("a thousand ids", (len(drawn), client.fields.get("cache-control")), (1000, "no-cache"))
            bulk = client.ask("POST", "/db/_bulk_docs", json.dumps({"docs": [{"n": n} for n in range(10)]}))
            one = client.ask("POST", "/db", '{"n":10}')
            found += [*drawn, *(entry["id"] for entry in json.loads(bulk.body)), json.loads(one.body)["id"]]
    tally.expect("their form", [name for name in found if not ID.fullmatch(name)], [])
    tally.expect("how many there are", len(set(found)), 2 * 1011)


def rows_of(revisions, options):
    """Returns what `_all_docs` shows: the documents that are not deleted are given by their ids and revisions, the options as in a body."""
    start, last = (options.get("key", options.get(name)) for name in ("startkey", "endkey"))
    down, ids = options.get("descending", False), sorted(revisions)
    ids = ids[::-1] if down else ids
    before = [name for name in ids if start is not None and (name > start if down else name < start)]
    found = [name for name in ids[len(before):] if last is None or (name >= last if down else name <= last)]
    found = [name for name in found if options.get("inclusive_end", True) or name != last]
    skip, limit = options.get("skip", 0), options.get("limit", len(ids))
    rows = [{"id": name, "key": name, "value": {"rev": revisions[name]}} for name in found[skip:skip + limit]]
    return {"offset": min(len(ids), len(before) + skip), "rows": rows, "total_rows": len(ids)}


def ranges(program, tally):
    """Random ranges of ids, by a query and by a body, against `rows_of`."""
    draw = random.Random(7)
    names = sorted({"".join(draw.choices("ab\u00e9\U0001f600", k=draw.randint(1, 4))) for _ in range(150)})
    with database(program) as client:
        documents = [{"_id": name, "_rev": "1-a", "_deleted": draw.random() < 0.3} for name in names]
        client.ask("POST", "/db/_bulk_docs", json.dumps({"docs": documents, "new_edits": False}))
        kept = {one["_id"]: one["_rev"] for one in documents if not one["_deleted"]}
        choices = {
            "startkey": names, "endkey": names, "key": names, "inclusive_end": [True, False], "descending": [True, False], "skip": range(9), "limit": range(40),
        }
        faults = []
        for _ in range(300):
            options = {name: draw.choice(values) for name, values in choices.items() if draw.random() < (0.1 if name == "key" else 0.5)}
            query = urllib.parse.urlencode({name: json.dumps(value) for name, value in options.items()})
            for reply in (client.ask("GET", f"/db/_all_docs?{query}"), client.ask("POST", "/db/_all_docs", json.dumps(options))):
                if json.loads(reply.body) != rows_of(kept, options):
                    faults.append(f"{options}: replied {reply}")
        tally.count("random ranges", faults[:1])


def main():
    args, tally = arguments(__doc__), Tally()
    for check in (conversations, examples, as_mangod, fields, methods, heads, revisions, parameters, ids, ranges):
        check(args.program, tally)
    return tally.end()


if __name__ == "__main__":
    sys.exit(main())
