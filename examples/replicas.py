#!/usr/bin/env python3
"""Two servers edit the same document, get each other's revisions in different orders, and agree.

usage: replicas.py URL URL        the URLs of two databases that do not have the document `soup`

Each replica keeps a list of the revisions that it made, each with its path, as a replicator would send it: `_revisions` has the
position of the newest revision, and the ids of the path, newest first.
"""
import json
import sys
import urllib.request


class Replica:
    """A database, and the revisions that were made in it."""

    def __init__(self, url):
        self.url, self.made = url, []

    def ask(self, target, body=None):
        data = None if body is None else json.dumps(body).encode()
        with urllib.request.urlopen(f"{self.url}/{target}", data) as reply:
            return json.load(reply)

    def edit(self, body, path=()):
        """Writes an edit of the newest revision of a path. Returns the path with the new revision, newest first."""
        parent = {"_rev": path[0]} if path else {}
        [entry] = self.ask("_bulk_docs", {"docs": [{"_id": "soup", **parent, **body}]})
        path = (entry["rev"], *path)
        start = int(path[0].partition("-")[0])
        ids = [revision.partition("-")[2] for revision in path]
        self.made.append({"_id": "soup", "_revisions": {"start": start, "ids": ids}, **body})
        return path

    def receive(self, revisions):
        """Writes revisions that another replica made; nothing is refused."""
        for revision in revisions:
            assert self.ask("_bulk_docs", {"docs": [revision], "new_edits": False}) == []

    def document(self):
        return self.ask("soup?conflicts=true")


def exchange(first, second):
    """Each receives what the other made; the second one receives the newest first."""
    ours, theirs = list(first.made), list(second.made)
    first.receive(theirs)
    second.receive(reversed(ours))


def show(title, first, second):
    ours, theirs = first.document(), second.document()
    print(f"{title}: {'they agree' if ours == theirs else 'they differ'}")
    for name, document in (("first", ours), ("second", theirs)):
        print(f"  {name}: salt {document['salt']}, winner {document['_rev']}, conflicts {document.get('_conflicts', [])}")


def main():
    first, second = Replica(sys.argv[1]), Replica(sys.argv[2])
    base = first.edit({"salt": 1})
    print("the same edit makes the same revision:", second.edit({"salt": 1}) == base)
    ours = first.edit({"salt": 3}, first.edit({"salt": 2}, base))
    theirs = second.edit({"salt": 5}, second.edit({"salt": 4}, base))
    show("apart", first, second)
    exchange(first, second)
    show("after the exchange", first, second)
    winner = first.document()["_rev"]
    loser = theirs if ours[0] == winner else ours
    first.edit({"_deleted": True}, loser)
    exchange(first, second)
    show("with the loser deleted", first, second)


main()
