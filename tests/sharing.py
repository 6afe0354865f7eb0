#!/usr/bin/env python3
"""Compares the cost of a commit of one document in a small and in a large database. A commit shares pages with the state before it.

usage: sharing.py --program PATH [--full]

A program with one client holds 1,000 documents with an index; then another one holds 50,000 (with --full also 200,000). Each gets bulks of
one document: edits of a thousand documents that are spread over all, each of which moves the row of its document, and then a
thousand new documents. In the large database a commit may make at most 1.3 times as many requests for memory as in the small one, and
take at most 4 times its processor time (the least of three rounds). A copy of all pages, or of all documents, would take much more. The
shim refuse/refuse.c counts the requests, and needs a C compiler, `cc`. The last line is 'N passed, M failed'.
"""
import contextlib
import sys
from pathlib import Path

from common.arguments import arguments
from common.messages import bulk, post_json, reply
from common.refusal import refusals
from common.server import Launch, start
from common.tally import Tally
from common.wire import Wire

SMALL, LARGE, LARGEST = 1_000, 50_000, 200_000
COMMITS, ROUNDS, AT_ONCE = 1_000, 3, 50
REQUESTS, TIME = 1.3, 4
PIECE = 50_000
ACCEPTED = reply(201, "[]")


def replicated(documents):
    return bulk(documents, new_edits=False)


def edit(name, turn):
    """Returns a replicated edit of a document, on top of that of the turn before; the first turn is 1."""
    path = {"start": turn, "ids": [f"r{turn}", f"r{turn - 1}"][: min(turn, 2)]}
    return {"_id": name, "_rev": f"{turn}-r{turn}", "_revisions": path, "n": number_of(name) * 7 + turn}


def number_of(name):
    """Returns a number by which an index orders the documents otherwise than by their ids."""
    return int(name[1:]) * 7919 % 1_000_003


class Server:
    """A program with `size` documents and an index, and its one client."""

    def __init__(self, launch, refusal, size):
        self.refusal, self.size = refusal, size
        self.program, port = start(launch, 1, refusal.environment)
        self.client = Wire(port)
        index = {"index": {"fields": ["n"]}, "ddoc": "x", "name": "by"}
        self.is_made = b'"result":"created"' in self.client.ask(post_json("_index", index))
        for first in range(0, size, PIECE):
            documents = [edit(f"d{number:07}", 1) for number in range(first, min(first + PIECE, size))]
            self.is_made &= self.client.ask(replicated(documents)) == ACCEPTED

    def seconds(self):
        """Returns the processor time of all threads of the program so far."""
        tasks = Path(f"/proc/{self.program.pid}/task").iterdir()
        return sum(int((task / "schedstat").read_text().split()[0]) for task in tasks) / 1e9

    def commits(self, messages):
        """Sends the messages, each of which makes a commit. Returns the requests for memory and the processor time of a commit, and whether each
        commit was accepted."""
        self.refusal.reset()
        before, accepted = self.seconds(), 0
        for first in range(0, len(messages), AT_ONCE):
            part = messages[first : first + AT_ONCE]
            self.client.send(b"".join(part))
            accepted += sum(self.client.reply() == ACCEPTED for _ in part)
        used = self.seconds() - before
        return self.refusal.calls("memory") / len(messages), used / len(messages), accepted == len(messages)

    def edits(self, turn):
        step = self.size // COMMITS
        return [replicated([edit(f"d{number * step:07}", turn)]) for number in range(COMMITS)]

    def additions(self, turn):
        step = self.size // COMMITS
        return [replicated([edit(f"d{number * step:07}{turn}", 1)]) for number in range(COMMITS)]

    def close(self):
        self.client.close()
        self.program.kill()
        self.program.communicate()


def costs(launch, refusal, size):
    """Returns the least number of requests and the least time of a commit in a database of `size` documents, for edits and for additions; and
    whether all commits were accepted."""
    with contextlib.closing(Server(launch, refusal, size)) as server:
        rounds = {kind: [getattr(server, kind)(turn) for turn in range(2, 2 + ROUNDS)] for kind in ("edits", "additions")}
        found = {kind: [server.commits(messages) for messages in turns] for kind, turns in rounds.items()}
        all_accepted = server.is_made and all(accepted for turns in found.values() for _, _, accepted in turns)
    return {kind: (min(turn[0] for turn in turns), min(turn[1] for turn in turns)) for kind, turns in found.items()}, all_accepted


def main():
    args, tally = arguments(__doc__), Tally()
    launch = Launch(args.program, 1, 1)
    if not tally.needs("cc"):
        return tally.end()
    with refusals() as refusal:
        small, all_accepted = costs(launch, refusal, SMALL)
        tally.expect(f"{SMALL} documents, and each commit, were accepted", all_accepted, True)
        for size in (LARGE, LARGEST) if args.full else (LARGE,):
            large, all_accepted = costs(launch, refusal, size)
            tally.expect(f"{size} documents, and each commit, were accepted", all_accepted, True)
            for kind, (requests, seconds) in large.items():
                more, longer = requests / small[kind][0], seconds / small[kind][1]
                print(f"{kind} in {size} documents: {requests:.1f} requests, {seconds * 1e6:.0f} us, "
                      f"{more:.2f} and {longer:.2f} times those in {SMALL}")
                tally.expect(f"{kind} in {size} documents, requests for memory ({more:.2f} times as many)", more <= REQUESTS, True)
                tally.expect(f"{kind} in {size} documents, processor time ({longer:.2f} times as much)", longer <= TIME, True)
    return tally.end()


if __name__ == "__main__":
    sys.exit(main())
