"""The model of a database that answers messages: all commands and all selectors. It keeps documents and definitions of indexes, but no
rows, and sorts all documents for each page."""
from urllib.parse import unquote

from common.messages import reply
from model import bodies, ranges, selectors
from model.documents import Document, text_of
from model.selectors import Fault
from model.values import MISSING, compact, order, part_at, projection, steps_of

BAD_HISTORY = {"error": "bad_history", "reason": "Revision history does not fit the document."}
CONFLICT = {"error": "conflict", "reason": "Document update conflict."}
MISSING_DOCUMENT = (404, "not_found", "missing")
DELETED_DOCUMENT = (404, "not_found", "deleted")
NO_INDEX = (400, "no_usable_index", "No index exists for this sort, try indexing by the sort fields.")


def reply_of(status, value):
    """Returns the bytes of a reply with this value as its body."""
    return reply(status, compact(value))


OUT_OF_MEMORY = reply_of(503, {"error": "out_of_memory", "reason": "Out of memory."})


class Database:
    """A database: its documents by their ids, and the columns and the direction of each index."""

    def __init__(self):
        self.documents = {}
        self.indexes = {}
        self.counter = 0

    def answer(self, message):
        """Returns the bytes of the reply to a complete message on one of the routes."""
        head, _, body = message.partition(b"\r\n\r\n")
        method, target, _ = head.split(b"\r\n")[0].decode().split(" ")
        try:
            return reply_of(*self.execute(method, target, body))
        except Fault as fault:
            status, error, reason = fault.args
            return reply_of(status, {"error": error, "reason": reason})

    def execute(self, method, target, body):
        """Returns the status and the value of the reply to a command."""
        path, _, query = target.partition("?")
        steps = path.split("/")[2:]
        if method == "POST":
            posts = {"_bulk_docs": self.bulk, "_find": self.find, "_explain": self.explain, "_index": self.create_index,
                     "_placement": self.reshard}
            return posts[steps[0]](bodies.value_of(body))
        if method == "DELETE":
            index = bodies.design_id(unquote("/".join(steps[1:-2]))), unquote(steps[-1])
            bodies.require(self.indexes.pop(index, None), MISSING_DOCUMENT)
            return 200, {"ok": True}
        if steps == ["_index"]:
            return 200, self.list_indexes()
        return self.get(unquote(steps[0]), query == "conflicts=true")

    def get(self, name, conflicts):
        document = self.documents.get(name)
        bodies.require(document, MISSING_DOCUMENT)
        served = document.served(name, conflicts)
        bodies.require(served, DELETED_DOCUMENT)
        return 200, served

    def apply(self, edit, new_edits):
        """Applies one edit. Returns its entry in the reply to a bulk; None if it has none."""
        name, path, deleted, body = edit
        document = self.documents.get(name, Document())
        if not new_edits:
            entry, is_done = None, document.merge(path, deleted, body)
        elif path and path[0][0] == bodies.LAST and path[0] in document.leaves():
            entry, is_done = None, False
        else:
            made = document.edit(path[0] if path else None, deleted, body)
            if not made:
                return {"id": name, **CONFLICT}
            entry, is_done = {"id": name, "ok": True, "rev": text_of(made)}, True
        if not is_done:
            return {"id": name, **BAD_HISTORY}
        self.documents[name] = document
        return entry

    def bulk(self, body):
        edits, new_edits = bodies.bulk_of(body)
        entries = []
        for name, *rest in edits:
            if name is None:
                self.counter += 1
                name = f"{self.counter:032x}"
            entries.append(self.apply((name, *rest), new_edits))
        return 201, [entry for entry in entries if entry]

    def create_index(self, body):
        index, definition = bodies.definition_of(body)
        result = "exists" if self.indexes.get(index) == definition else "created"
        self.indexes[index] = definition
        return 200, {"id": index[0], "name": index[1], "result": result}

    def list_indexes(self):
        rows = [{"ddoc": None, "def": {"fields": [{"_id": "asc"}]}, "name": "_all_docs", "type": "special"}]
        for (ddoc, name), (columns, direction) in sorted(self.indexes.items()):
            fields = [{column: direction} for column in columns]
            rows.append({"ddoc": ddoc, "def": {"fields": fields}, "name": name, "type": "json"})
        return {"indexes": rows, "total_rows": len(rows)}

    def reshard(self, body):
        shards = body.get("shards") if isinstance(body, dict) else None
        bodies.require(type(shards) is int and 1 <= shards <= 64)
        return 200, {"ok": True}

    def serving_index(self, query):
        """Returns the index that serves a query, its columns, and the front of its bookmarks. Raises the refusal if there is none or the bookmark
        does not fit."""
        index = ranges.choose_index(self.indexes, query["atoms"], query["sort"], query["hint"])
        bodies.require(index is not False, NO_INDEX)
        columns = self.indexes[index][0] if index else ["_id"]
        front = [*(index or [None, "_all_docs"]), query["direction"]]
        after = query["after"]
        bodies.require(after is None or (after[:3] == front and len(after[3]) == len(columns)), bodies.BAD_BOOKMARK)
        return index, columns, front

    def rows(self, query, columns):
        """Yields the rows of all documents that a query matches: the order of the key, the bytes of the id, the key and the id."""
        paths = [*map(steps_of, columns)]
        for name, document in self.documents.items():
            served = document.served(name)
            if served and selectors.holds(query["selector"], served) and all(
                part_at(served, steps_of(path)) is not MISSING for path in query["sort"]
            ):
                key = [part_at(served, steps) for steps in paths]
                yield order(key), name.encode(), key, name

    def find(self, body):
        query = bodies.query_of(body)
        _, columns, front = self.serving_index(query)
        descending, after = query["direction"] == "desc", query["after"]
        rows = sorted(self.rows(query, columns), key=lambda row: row[:2], reverse=descending)
        if after:
            at = (order(after[3]), after[4].encode())
            rows = [row for row in rows if (row[:2] < at if descending else row[:2] > at)]
        rows = rows[query["skip"] :][: query["limit"]]
        bookmark = bodies.bookmark_text([*front, *rows[-1][2:]]) if rows else query["bookmark"]
        return 200, {"bookmark": bookmark, "docs": [self.shown(row[3], query) for row in rows]}

    def shown(self, name, query):
        """Returns a document as the page of a query shows it."""
        served = self.documents[name].served(name, query["conflicts"])
        return projection(served, query["fields"]) if query["fields"] else served

    def explain(self, body):
        query = bodies.query_of(body)
        index, columns, _ = self.serving_index(query)
        rows = self.list_indexes()["indexes"]
        names = [(row["ddoc"], row["name"]) for row in rows]
        return 200, {
            "dbname": "db", "fields": query["fields"] or "all_fields", "index": rows[names.index(index or (None, "_all_docs"))],
            "limit": query["limit"], "range": ranges.range_of(columns, query["atoms"]),
            "selector": query["given"]["selector"], "skip": query["skip"],
        }
