"""Writes by Python's http.client with a body in chunks, and resolves a conflict as CouchDB's documents teach it, in the database `db` at the
port that is given. Prints one line for each."""
import http.client
import json
import sys

connection = http.client.HTTPConnection("127.0.0.1", int(sys.argv[1]))


def ask(method, target, value=None):
    """Sends a request, whose body comes in chunks of 7 bytes. Returns the status and the value of the reply."""
    text = b"" if value is None else json.dumps(value).encode()
    body = (text[place : place + 7] for place in range(0, len(text), 7)) if text else None
    connection.request(method, f"/db/{target}", body, {"Content-Type": "application/json"})
    reply = connection.getresponse()
    return reply.status, json.loads(reply.read())


print("put", ask("PUT", "p1", {"n": 1})[0])
replicas = [{"_id": "p2", "_rev": f"1-{name}", "by": name} for name in ("a", "b", "c")]
print("replicas", *ask("POST", "_bulk_docs", {"docs": replicas, "new_edits": False}))
_, winner = ask("GET", "p2?conflicts=true")
losers = [ask("GET", f"p2?rev={revision}")[1] for revision in winner.pop("_conflicts")]
print("bodies", winner["by"], *(loser["by"] for loser in losers))
merged = {**winner, "by": winner["by"] + "".join(loser["by"] for loser in losers)}
deleted = [{"_id": "p2", "_rev": loser["_rev"], "_deleted": True} for loser in losers]
print("merged", [entry.get("ok") for entry in ask("POST", "_bulk_docs", {"docs": [merged, *deleted]})[1]])
status, document = ask("GET", "p2?conflicts=true")
print("resolved", status, document["by"], "_conflicts" in document)
