#!/usr/bin/env python3
"""Edits documents at random, queries them by changing indexes, and compares each reply with that of a model.

usage: indexes.py --program PATH [--shards 1,2,7,64] [--workers 1,2] [--seeds 1,2,3,4] [--edits 1500] [--documents 3000]

A seed makes one conversation: new edits, replicated edits, deletions and conflicts of a few documents (of 250 for every fourth seed, so
that an index has several pages of rows); indexes that are created, change their columns and are dropped; and queries by them. One more
conversation has --documents documents, and pages that skip many rows. The model (the folder model/) keeps the revisions of each document and
no rows: it finds the winner by CouchDB's rule, and a page by sorting all documents in the order of values of docs/REFERENCE.md. There is one
process `PATH db SHARDS WORKERS 1 -` for each conversation, number of shards and number of workers; a conversation passes or fails as one.
Prints the first reply that differs in each process; the last line is 'N passed, M failed'.
"""
import itertools
import json
import random
import sys
from urllib.parse import quote

from common.arguments import arguments
from common.messages import body_of, status_of
from common.session import ENDS, run_session
from common.tally import Tally
from model.bodies import DESIGN, MOST
from model.database import Database, reply_of
from model.documents import Document, text_of
from model.values import compact

BOUNDING = ["$eq", "$gt", "$gte", "$lt", "$lte"]
VALUES = [None, False, True, 0, 1, -1, 2, 10, 2**63 - 1, -(2**63), "", "a", "B", "aa", "b", "\u00e9", "\uffff", "\U0001f600", [], [0],
          [0, 1], [1], [[]], ["a"], {}, {"b": 1}, {"b": "a"}, {"b": None, "c": 2}, {"c": 0}, {"b": [0]}]
PATHS = ["a", "b", "c", "a.b", "c.0"]


class RandomConversation:
    """A random conversation: its messages, each with the reply of the model."""

    def __init__(self, seed, edits):
        self.random = random.Random(seed)
        self.database = Database()
        self.exchanges = []
        self.last = None
        many = seed % 4 == 0
        self.ids = [f"d{i:03}" for i in range(250)] if many else ["a", "b", "B", "aa", "\u00e9", "\uffff", "\U0001f600", "d/e"]
        self.most = 16 if many else 4
        left = edits
        while left > 0:
            left -= self.delete_leaves() if self.chance(0.15) else self.bulk()
            if self.chance(0.08) or not self.database.indexes:
                self.change_indexes()
            for _ in range(self.random.choice([0, 1, 1, 2])):
                self.find(self.next_page() if self.last and self.chance(0.3) else self.new_query())
            if self.chance(0.2):
                self.get_document()
            if self.chance(0.1):
                self.ask("POST", "_placement", {"shards": self.random.choice([1, 2, 3, 16, 64])})

    def chance(self, share):
        return self.random.random() < share

    def message(self, method, target, body):
        data = b"" if body is None else compact(body).encode()
        length = f"Content-Length: {len(data)}\r\n" if data else ""
        return f"{method} /db/{target} HTTP/1.1\r\n{length}\r\n".encode() + data

    def ask(self, method, target, body=None):
        """Adds a message, and returns the reply of the model."""
        message = self.message(method, target, body)
        reply = self.database.answer(message)
        self.exchanges.append((message, reply))
        return reply

    def body(self):
        return {name: self.random.choice(VALUES) for name in "abc" if self.chance(0.9)}

    def new_path(self, document):
        """Returns the path that a new edit gives, newest first: mostly that of a leaf, else of another revision, known or not. None: no revision."""
        if not document.parents or self.chance(0.15):
            return None
        kind = self.random.random()
        if kind < 0.05:
            return [(self.random.randint(1, 9), "none")]
        known = document.leaves() if kind < 0.9 else list(document.parents)
        return document.chain(self.random.choice(known))[: self.random.choice([1, 1, 2, 5])]

    def replica_path(self, document):
        """Returns a replicated path: on top of a known revision, or a known revision again, or a new path, which may contradict the known ones."""
        if document.parents and self.chance(0.8):
            base = document.chain(self.random.choice(list(document.parents)))
            above = self.random.choice([0, 1, 1, 1, 2, 3])
            path = [(base[0][0] + n, self.random.choice("pqrstu")) for n in range(above, 0, -1)] + base
        else:
            start = self.random.randint(1, 5)
            path = [(start - n, self.random.choice("pqr")) for n in range(self.random.randint(1, start))]
        return path[: self.random.choice([1, 2, len(path), len(path)])]

    def edit(self, new_edits):
        name = self.random.choice(self.ids)
        document = self.database.documents.get(name, Document())
        path = self.new_path(document) if new_edits else self.replica_path(document)
        return name, path, self.chance(0.2), self.body()

    def document_of(self, edit):
        """Returns the document of a bulk that asks for an edit."""
        name, path, deleted, body = edit
        document = {**body, "_id": name}
        if deleted or self.chance(0.1):
            document["_deleted"] = deleted
        if path and (len(path) > 1 or self.chance(0.3)):
            document["_revisions"] = {"start": path[0][0], "ids": [revision[1] for revision in path]}
        if path and ("_revisions" not in document or self.chance(0.5)):
            document["_rev"] = text_of(path[0])
        return document

    def add_bulk(self, documents, new_edits, entries):
        """Adds a bulk whose edits were applied one by one. Returns how many edits count for it."""
        body = {"docs": documents} if new_edits and self.chance(0.5) else {"docs": documents, "new_edits": new_edits}
        reply = reply_of(201, [entry for entry in entries if entry])
        self.exchanges.append((self.message("POST", "_bulk_docs", body), reply))
        return max(1, len(documents))

    def bulk(self):
        new_edits = self.chance(0.45)
        documents, entries = [], []
        for _ in range(self.random.randint(1, self.most)):
            edit = self.edit(new_edits)
            documents.append(self.document_of(edit))
            entries.append(self.database.apply(edit, new_edits))
        return self.add_bulk(documents, new_edits, entries)

    def delete_leaves(self):
        """Deletes the leaves of a document that are not deleted; now and then all but the winner."""
        name = self.random.choice(self.ids)
        document = self.database.documents.get(name, Document())
        leaves = [leaf for leaf in document.leaves() if not document.bodies[leaf][0]]
        edits = [(name, [leaf], True, self.body()) for leaf in leaves[self.chance(0.2) :]]
        return self.add_bulk([self.document_of(edit) for edit in edits], True, [self.database.apply(edit, True) for edit in edits])

    def change_indexes(self):
        ddoc, name = self.random.choice(["x", "y"]), self.random.choice(["i", "j"])
        if self.chance(0.25):
            target = self.random.choice([ddoc, DESIGN + ddoc, quote(DESIGN + ddoc, safe="")])
            self.ask("DELETE", f"_index/{target}/json/{name}")
        else:
            columns = self.random.choices(PATHS + ["_id"], [4, 4, 4, 2, 2, 1], k=self.random.choice([1, 1, 2, 2, 3]))
            direction = self.random.choice(["asc", "asc", "desc"])
            fields = columns if direction == "asc" and self.chance(0.5) else [{column: direction} for column in columns]
            self.ask("POST", "_index", {"index": {"fields": fields}, "ddoc": self.random.choice([ddoc, DESIGN + ddoc]), "name": name})
        if self.chance(0.2):
            self.ask("GET", "_index")

    def test(self):
        """Returns the test of one column by a selector."""
        kind = self.random.random()
        if kind < 0.6:
            return {"$gt": None}
        if kind < 0.7:
            return self.random.choice([{"$gte": None}, {"$exists": True}])
        operators = self.random.sample(BOUNDING, self.random.choice([1, 1, 2]))
        return {operator: self.random.choice(VALUES) for operator in operators}

    def new_query(self):
        choose, chance = self.random.choice, self.chance
        index = choose(sorted(self.database.indexes) or [(DESIGN + "x", "i")])
        columns = self.database.indexes.get(index, (["a"],))[0]
        sort = columns[: self.random.randint(1, len(columns))] if chance(0.4) else []
        sort = [choose(PATHS)] if chance(0.05) else sort
        return {
            "selector": {column: self.test() for column in columns if column != "_id" and (column not in sort or chance(0.5))},
            "sort": sort,
            "direction": "desc" if sort and chance(0.6) else "asc",
            "hint": choose([index, index, index, index[:1], ()]),
            "limit": choose([25, 25, 3, 2, 1, 0, MOST]),
            "skip": choose([0, 0, 0, 0, 1, 7]),
            "bookmark": "nil",
            "fields": choose([[], ["_id"], columns, ["_id", "_rev", *columns], ["a.b", "a", "_conflicts", "c.0.b"]]),
            "conflicts": chance(0.2),
        }

    def next_page(self):
        """Returns the last query with the bookmark of its reply; now and then with another sort, for which the bookmark may be invalid."""
        query, bookmark = self.last
        return {**(self.new_query() if self.chance(0.1) else query), "bookmark": bookmark}

    def find(self, query):
        reply = self.ask("POST", "_find", self.query_body(query))
        self.last = (query, json.loads(body_of(reply))["bookmark"]) if status_of(reply) == 200 else None

    def query_body(self, query):
        """Returns the body of a query. Members with their default value are left out at random."""
        plain = query["direction"] == "asc" and self.chance(0.5)
        body = {
            "selector": query["selector"],
            "sort": [path if plain else {path: query["direction"]} for path in query["sort"]],
            **{name: query[name] for name in ("limit", "skip", "bookmark", "fields", "conflicts")},
        }
        usual = {"sort": [], "limit": 25, "skip": 0, "bookmark": "nil", "fields": [], "conflicts": False}
        for name, value in usual.items():
            if body[name] == value and self.chance(0.8):
                del body[name]
        if query["hint"]:
            ddoc = query["hint"][0] if self.chance(0.5) else query["hint"][0].removeprefix(DESIGN)
            body["use_index"] = ddoc if len(query["hint"]) == 1 and self.chance(0.5) else [ddoc, *query["hint"][1:]]
        return body

    def get_document(self):
        name, conflicts = self.random.choice(self.ids), self.chance(0.5)
        self.ask("GET", quote(name, safe="") + ("?conflicts=true" if conflicts else ""))


class LongSkips(RandomConversation):
    """Many documents, and pages by indexes that skip many rows: some, most, all and more, in both directions, after bookmarks too."""

    def __init__(self, documents):
        self.random = random.Random(documents)
        self.database = Database()
        self.exchanges = []
        self.last = None
        self.ids = [f"d{i:05}" for i in range(documents)]
        self.random.shuffle(self.ids)
        for first in range(0, documents, 500):
            edits = [(name, None, False, self.body()) for name in self.ids[first : first + 500]]
            self.add_bulk([self.document_of(edit) for edit in edits], True, [self.database.apply(edit, True) for edit in edits])
        for _ in range(40):
            self.delete_leaves()
        self.columns = {"i": ["a"], "j": ["b"]}
        for name, columns in self.columns.items():
            self.ask("POST", "_index", {"index": {"fields": columns}, "ddoc": "x", "name": name})
        skips = [share * documents // 20 for share in range(1, 20)] + [documents - 41, documents, 3 * documents, MOST]
        for skip in skips + self.random.sample(range(documents), 10):
            self.find(self.query(skip))
            if self.last and self.chance(0.3):
                query, bookmark = self.last
                self.find({**query, "bookmark": bookmark, "skip": skip // 2})

    def body(self):
        return {"a": self.random.randrange(1000), "b": self.random.choice(VALUES)}

    def query(self, skip):
        """Returns a query whose selector bounds a column of an index. Some selectors have a test, too, that no range decides."""
        name = self.random.choice(sorted(self.columns))
        column = self.columns[name][0]
        test = self.random.choice([{"$gte": None}, {"$gt": 100 if column == "a" else None}, {"$lt": 900 if column == "a" else {"b": "a"}}])
        return {
            "selector": {column: test, **({"c": {"$exists": False}} if self.chance(0.1) else {})},
            "sort": [column],
            "direction": self.random.choice(["asc", "desc"]),
            "hint": (DESIGN + "x", name),
            "limit": self.random.choice([0, 1, 10, 25]),
            "skip": skip,
            "bookmark": "nil",
            "fields": ["_id", "a"],
            "conflicts": False,
        }


def fault_of(program, exchanges, shards, workers):
    """Returns the first fault of a run; None if there is none."""
    output, ending = run_session(program, b"".join(message for message, _ in exchanges), shards, workers)
    at = 0
    for number, (message, reply) in enumerate(exchanges):
        if not output.startswith(reply, at):
            found = output[at : at + len(reply) + 300]
            return f"message {number} of {len(exchanges)}: {message!r}\n  replied  {found!r}\n  expected {reply!r}"
        at += len(reply)
    if output[at:]:
        return f"more was written: {output[at : at + 300]!r}"
    return None if ending == ENDS["Eof"] else f"ended with {ending}"


def main():
    args = arguments(__doc__, shards="1,2,7,64", workers="1,2", seeds="1,2,3,4", edits=1500, documents=3000)
    tally = Tally()
    settings = list(itertools.product(args.shards.split(","), args.workers.split(",")))
    conversations = [(f"seed {seed}", RandomConversation(int(seed), args.edits)) for seed in args.seeds.split(",")]
    conversations.append(("long skips", LongSkips(args.documents)))
    for name, conversation in conversations:
        exchanges, faults = conversation.exchanges, []
        for shards, workers in settings:
            fault = fault_of(args.program, exchanges, shards, workers)
            faults += [f"\n  {shards} shards, {workers} workers, {fault}"] if fault else []
        tally.count(f"{name}, {len(exchanges)} messages", faults)
    print(f"each conversation on {len(settings)} pairs of shards and workers:")
    return tally.end()


if __name__ == "__main__":
    sys.exit(main())
