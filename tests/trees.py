#!/usr/bin/env python3
"""Sends all triples of some revision paths, and compares each reply with that of a model, which is checked by plain rules.

usage: trees.py --program PATH [--shards 1,7]

Each sequence of three of seven paths, which may repeat, goes to a document of its own, one path after another, as replication sends them.
After each path the document is read with its conflicts, and at the end each known revision is edited. The expected replies are those of the
model (the folder model/). The rules of model/paths.py, which keep the accepted paths and search them from the first, check the model:
- it accepts a path exactly if the path fits the accepted ones;
- then it has the same leaves in the same order, best first, and serves the same winner and conflicts;
- it accepts an edit exactly if the edited revision is a leaf.
There is one process `PATH db SHARDS 1 1 -` for each number of shards. A document passes or fails as one, first in the model, then in the
program. Prints the first fault of the model and the first wrong reply of each document; the last line is 'N passed, M failed'.
"""
import itertools
import json
import sys

from common.arguments import arguments
from common.messages import bulk, get, replies_in
from common.session import ENDS, run_session
from common.tally import Tally
from model.database import Database
from model.documents import Document, text_of
from model.paths import Path, fits, known_in, leaves_of, served_of

PATHS = [
    Path(1, ["a"], False),
    Path(2, ["b", "a"], False),
    Path(2, ["b", "c"], True),
    Path(2, ["b"], True),
    Path(3, ["d", "b", "a"], True),
    Path(3, ["e", "b"], False),
    Path(2, ["f", "a"], False),
]


class ModelFault(Exception):
    """The model has something else than the rules give."""


class Case:
    """A document that gets some paths: its messages, each with the reply of the model, up to the first fault of the model if it has one."""

    def __init__(self, name, paths):
        self.name, self.database, self.accepted = name, Database(), []
        self.messages, self.replies, self.model_faults = [], [], []
        try:
            self.send(paths)
        except ModelFault as fault:
            self.model_faults.append(fault)

    def send(self, paths):
        """Sends the paths, and reads the document after each; then edits each revision."""
        for path in paths:
            self.replicate(path)
            self.read()
        for revision in known_in(self.accepted):
            self.edit(revision)

    def ask(self, message):
        """Adds a message, and returns the value of the model's reply."""
        [reply], _ = replies_in(self.database.answer(message))
        self.messages.append(message)
        self.replies.append(reply)
        return json.loads(reply.body)

    def check_model(self, what, found, expected):
        """Compares what the model has after the last message with what the rules give. Raises the difference."""
        if found != expected:
            raise ModelFault(f"after {self.messages[-1]!r} the model has the {what} {found}, the rules give {expected}")

    def replicate(self, path):
        """Sends a path, which is accepted if it fits."""
        document = {"_id": self.name, "_revisions": {"start": path.start, "ids": path.ids}}
        refusals = self.ask(bulk([{**document, "_deleted": True} if path.is_deleted else document], new_edits=False))
        self.check_model("errors", [refusal["error"] for refusal in refusals], [] if fits(self.accepted, path) else ["bad_history"])
        if fits(self.accepted, path):
            self.accepted.append(path)

    def read(self):
        """Reads the document with its conflicts."""
        value = self.ask(get(f"{self.name}?conflicts=true"))
        served = [value["_rev"], *value.get("_conflicts", [])] if "_rev" in value else []
        self.check_model("leaves", self.database.documents.get(self.name, Document()).leaves(), leaves_of(self.accepted))
        self.check_model("winner and conflicts", served, [*map(text_of, served_of(self.accepted))])

    def edit(self, revision):
        """Edits a revision, which is accepted if the revision is a leaf. The accepted paths still say which of the other revisions are leaves."""
        [entry] = self.ask(bulk([{"_id": self.name, "_rev": text_of(revision)}]))
        self.check_model("outcome", entry.get("error", "ok"), "ok" if revision in leaves_of(self.accepted) else "conflict")

    def fault(self, replies):
        """Returns the first message whose reply is not that of the model; None if there is none."""
        for message, expected, found in itertools.zip_longest(self.messages, self.replies, replies):
            if found != expected:
                return f"{message!r}\n    replied  {found}\n    expected {expected}"
        return None


def run_cases(program, shards, cases, tally):
    """Sends the messages of all documents to one process. Returns the fault of each document, or None."""
    output, end = run_session(program, b"".join(message for case in cases for message in case.messages), shards)
    replies, left = replies_in(output)
    counts = [len(case.messages) for case in cases]
    tally.expect(f"{shards} shards: the end", (len(replies), left, end), (sum(counts), b"", ENDS["Eof"]))
    ends = itertools.accumulate(counts)
    return [case.fault(replies[end - count : end]) for case, count, end in zip(cases, counts, ends)]


def main():
    args, tally = arguments(__doc__, shards="1,7"), Tally()
    cases = [Case(f"d{place}", paths) for place, paths in enumerate(itertools.product(PATHS, repeat=3))]
    for case in cases:
        tally.count(f"document {case.name} in the model", case.model_faults)
    numbers = args.shards.split(",")
    faults = {shards: run_cases(args.program, shards, cases, tally) for shards in numbers}
    for place, case in enumerate(cases):
        tally.count(f"document {case.name}", [f"{shards} shards: {faults[shards][place]}" for shards in numbers if faults[shards][place]])
    print(f"each document on {len(numbers)} numbers of shards:")
    return tally.end()


if __name__ == "__main__":
    sys.exit(main())
