#!/usr/bin/env python3
"""A client of one database: writes documents by a bulk, defines an index, and reads pages by their bookmarks.

usage: client.py URL        the URL of an empty database, such as http://127.0.0.1:5984/db
"""
import http.client
import json
import sys
import urllib.parse

TEAS = {"assam": 420, "bancha": 380, "ceylon": 380, "darjeeling": 690, "earl grey": 450, "fujian": 510, "gunpowder": 350}


class Database:
    """A database, with one connection that stays open."""

    def __init__(self, url):
        place = urllib.parse.urlsplit(url)
        self.connection = http.client.HTTPConnection(place.hostname, place.port)
        self.path = place.path.rstrip("/")

    def ask(self, method, target, body=None):
        """Sends a request, and returns the value of the reply. A refusal is an error."""
        self.connection.request(method, f"{self.path}/{target}", None if body is None else json.dumps(body))
        reply = self.connection.getresponse()
        found = json.loads(reply.read())
        if reply.status >= 400:
            raise RuntimeError(f"{reply.status} {found['error']}: {found['reason']}")
        return found

    def write(self, documents):
        return self.ask("POST", "_bulk_docs", {"docs": documents})

    def document(self, name):
        return self.ask("GET", urllib.parse.quote(name, safe=""))

    def pages(self, query, size):
        """The pages of a query that have documents. A page with fewer than `size` documents is the last one."""
        bookmark, is_full = None, True
        while is_full:
            found = self.ask("POST", "_find", {**query, "limit": size, "bookmark": bookmark})
            bookmark, is_full = found["bookmark"], len(found["docs"]) == size
            if found["docs"]:
                yield found["docs"]


def main():
    database = Database(sys.argv[1])
    entries = database.write([{"_id": name, "price": price} for name, price in TEAS.items()])
    print(f"written: {sum('ok' in entry for entry in entries)}, the first as {entries[0]['rev']}")
    index = {"index": {"fields": ["price"]}, "ddoc": "shop", "name": "price"}
    print("index:", database.ask("POST", "_index", index)["result"])
    print("index again:", database.ask("POST", "_index", index)["result"])
    by_price = {"selector": {"price": {"$gt": 0}}, "sort": [{"price": "desc"}], "fields": ["_id", "price"]}
    for number, page in enumerate(database.pages(by_price, 3), start=1):
        print(f"page {number}:", ", ".join(f"{tea['_id']} {tea['price']}" for tea in page))
    tea = database.document("earl grey")
    print("update:", database.write([{**tea, "price": 470}])[0]["rev"])
    print("an old revision:", database.write([{**tea, "price": 480}])[0]["error"])
    print("price now:", database.document("earl grey")["price"])
    try:
        database.document("hojicha")
    except RuntimeError as refusal:
        print(refusal)


main()
