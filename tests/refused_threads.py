#!/usr/bin/env python3
"""Refuses threads to whole conversations. A worker that does not start must not change a reply.

usage: refused_threads.py --program PATH [--only NAME ..] [--full]

Each conversation of tests/conversations is run with 7 shards (with --full also with 64) and 2 and 32 workers, while the shim
refuse/refuse.c refuses all threads, only the first, only the second, or all from the third on. The replies must be those of the file.
Then comes a conversation with so many documents that workers are worth starting: an index is built, and queries run without an
index, with 7 and 64 shards, while all threads or only the first are refused. It must ask for threads and be refused some, and the replies
must be those of the model (the folder model/). A conversation passes or fails as one. The shim needs a C compiler, `cc`. The last line is
'N passed, M failed'.
"""
import itertools
import sys

from common.arguments import arguments
from common.conversation import faults_of_run, select
from common.messages import post_json
from common.refusal import ONWARD, refusals
from common.session import ENDS, session_command
from common.tally import Tally
from model.database import Database

WORKERS = (2, 32)
REFUSED = [(1, ONWARD), (1, 1), (2, 2), (3, ONWARD)]
DOCUMENTS = 20_000


def faults_of(refusal, program, conversation, shards):
    """Yields the faults of a conversation while threads are refused."""
    for workers, (first, last) in itertools.product(WORKERS, REFUSED):
        refusal.reset()
        refusal.refuse("threads", first, last)
        for line, fault in faults_of_run(program, conversation, shards, workers, environment=refusal.environment):
            yield f"\n  line {line}, {shards} shards, {workers} workers, threads refused from {first} to {last}: {fault}"


def many_documents():
    """Returns the input of a conversation of many documents, and its transcript."""
    documents = [{"_id": f"d{i:05}", "_rev": "1-a", "k": i % 7, "n": i * 7919 % 100_003} for i in range(DOCUMENTS)]
    commands = [("_bulk_docs", {"docs": documents, "new_edits": False}), ("_find", {"selector": {"k": 3}, "fields": ["_id"], "limit": 5000}),
                ("_index", {"index": {"fields": ["n"]}, "ddoc": "x", "name": "n"}), ("_find", {"selector": {"k": {"$gt": 6}}}),
                ("_find", {"selector": {"n": {"$lt": 500}}, "sort": [{"n": "desc"}]}), ("_find", {"selector": {"k": 5}, "skip": 2850})]
    messages = [post_json(target, body) for target, body in commands]
    database = Database()
    return b"".join(messages), b"".join(map(database.answer, messages))


def check_many(refusal, program, given, transcript, tally):
    """With many documents, threads are asked for and refused, and the replies stay the same."""
    for shards, workers, (first, last) in itertools.product((7, 64), WORKERS, REFUSED[:2]):
        refusal.reset()
        refusal.refuse("threads", first, last)
        output, end = refusal.run(session_command(program, shards, workers), given)
        label = f"{DOCUMENTS} documents, {shards} shards, {workers} workers, threads refused from {first} to {last}"
        tally.expect(label, (output == transcript, end, refusal.refused("threads") > 0), (True, ENDS["Eof"], True))


def main():
    args, tally = arguments(__doc__, only=[]), Tally()
    if tally.needs("cc"):
        numbers = (7, 64) if args.full else (7,)
        with refusals() as refusal:
            for conversation in select(args.only):
                faults = [fault for shards in numbers for fault in faults_of(refusal, args.program, conversation, shards)]
                tally.count(f"{conversation.file.name}: {conversation.name}", faults)
            check_many(refusal, args.program, *many_documents(), tally)
        print(f"each conversation on {len(numbers) * len(WORKERS) * len(REFUSED)} settings:")
    return tally.end()


if __name__ == "__main__":
    sys.exit(main())
