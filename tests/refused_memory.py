#!/usr/bin/env python3
"""Refuses the requests for memory of whole conversations, each alone and each with all later ones, and checks each reply by the rules.

usage: refused_memory.py --program PATH [--full] [--only NAME ..]

The messages are those of the conversations of tests/conversations named below, followed by some that read everything: the indexes, each
document with its conflicts, and the rows of each index that was created. Each conversation is run with 1 and 7 shards and 1 and 2
workers. The shim refuse/refuse.c refuses its nth request for memory, or that and all later ones, until a run meets no refusal: alone on one
shard, each n in turn; elsewhere about ten n, spread over all requests, and each n with --full. The conversations run side by side, one on
each processor. A run is right if
- nothing was written and the program ended with `mangod: out of memory` (the session never began), and the refused request is one that a
  session without input makes, too; or
- each reply is `out_of_memory`, or that of the model (the folder model/), which gets no command that was answered `out_of_memory`; and the
  session ended at the end of input, or was refused right after a last reply `out_of_memory`. If one request was refused, at most one reply
  is `out_of_memory`; if none was refused, none is.
Then bulks and queries that need a hundred MiB and more are sent to a program to which the system grants 60 MiB: each is answered
`out_of_memory`, three times over, and afterwards small commands are answered as in an empty database. The model must give each reply in
the file of the conversation. A conversation passes or fails as one, with all numbers of shards and workers; it fails, too, if no command
was ever refused. The shim needs a C compiler, `cc`. The last line is 'N passed, M failed'.
"""
import json
import multiprocessing
import os
import resource
import sys

from common.arguments import arguments
from common.conversation import all_conversations, model_faults
from common.messages import body_of, get, post, post_json
from common.refusal import ONWARD, refusals
from common.session import ENDS, run_session, session_command
from common.tally import Tally
from model.database import OUT_OF_MEMORY, Database
from shapes import queries, values, writes

NAMES = ["first-write-and-query", "type-order", "comparison-across-types", "missing-fields", "winner", "replication", "new-edits",
         "ties-across-shards", "descending-pages", "in-on-arrays", "in-on-arrays-2", "sort-needs-an-index", "ranges", "mod",
         "limit-and-skip", "choice-of-index", "bad-documents", "bad-queries", "refused-queries", "arrays", "bookmark-spelling",
         "five-shards-of-all-docs", "work", "conflicts", "paths", "sixty-five-rows", "resharding",
         "what-is-dealt"]
TOO_LARGE = [(queries.atoms_under_a_path, 400_000, 1), (writes.tiny_documents, 90_000, 1), (values.deep_arrays, 8_000, 3),
             (writes.documents_without_an_id, 120_000, 1)]
GRANTED = 60 << 20
SETTINGS = [(1, 1), (7, 1), (1, 2), (7, 2)]
RUNS = 10


def audit(messages):
    """Returns messages that read everything, and the rows of each index that was created."""
    reads = [get("_index"), post("_find", b'{"selector":{},"conflicts":true,"limit":1000}')]
    for message in messages:
        if message.startswith(b"POST /db/_index "):
            fields = json.loads(body_of(message))["index"]["fields"]
            query = {"selector": {}, "sort": fields, "fields": ["_id"], "limit": 1000}
            reads.append(post_json("_find", query))
    return list(dict.fromkeys(reads))


class Audited:
    """The messages of a conversation and of its audit, and a check of what was written for them."""

    def __init__(self, conversation):
        self.name, self.conversation = conversation.name, conversation
        self.messages = conversation.messages() + audit(conversation.messages())

    def fault(self, output, end):
        """Returns the fault of a run (None if it is right), and the numbers of the messages that were refused; only `start` if the session never
        began."""
        if (output, end) == (b"", ENDS["start"]):
            return None, ["start"]
        database, refused, at, count = Database(), [], 0, 0
        for number in range(len(self.messages)):
            if at == len(output):
                break
            count += 1
            if output.startswith(OUT_OF_MEMORY, at):
                refused.append(number)
                at += len(OUT_OF_MEMORY)
                continue
            expected = database.answer(self.messages[number])
            if not output.startswith(expected, at):
                return f"reply {number}: {output[at : at + 300]!r}\n    expected {expected[:300]!r}", refused
            at += len(expected)
        ends = [ENDS["Eof"]] if count == len(self.messages) else []
        if refused and refused[-1] == count - 1:
            ends.append(ENDS["Refused"])
        if at < len(output) or end not in ends:
            return f"{count} of {len(self.messages)} replies, then {output[at : at + 200]!r}, ended {end}", refused
        return None, refused


def refuse_each(refusal, command, audited, onward, step, begin):
    """Refuses every `step`th request, from `begin` on, until a run meets no refusal; with `onward`, all later ones, too. Returns the faults, and
    the messages that were refused in some run."""
    given = b"".join(audited.messages)
    start = count_requests(refusal, command, b"")
    faults, seen, first = [], set(), begin
    while True:
        refusal.reset()
        refusal.refuse("memory", first, ONWARD if onward else first)
        fault, refused = audited.fault(*refusal.run(command, given))
        seen.update(refused)
        count = refusal.refused("memory")
        if refused == ["start"] and first > start:
            fault = "the session never began"
        if len(refused) > (len(audited.messages) if onward else 1) * count:
            fault = f"{len(refused)} times out of memory, {count} requests were refused"
        if fault:
            faults.append(f"from request {first}: {fault}" if onward else f"request {first}: {fault}")
        if not count:
            return faults, seen
        first += step


def count_requests(refusal, command, given):
    """Returns how many requests for memory a run makes if none is refused."""
    refusal.reset()
    refusal.run(command, given)
    return refusal.calls("memory")


def faults_of(refusal, program, audited, place, full):
    """Returns the faults of a conversation with one number of shards and of workers."""
    shards, workers = SETTINGS[place]
    command = session_command(program, shards, workers)
    step = 1 if full else max(1, count_requests(refusal, command, b"".join(audited.messages)) // RUNS)
    faults, seen = [], set()
    for onward in (False, True):
        is_each = full or (shards == 1 and not onward)
        begin = 1 if is_each else 1 + (2 * place + onward) * step // 8
        found, refused = refuse_each(refusal, command, audited, onward, 1 if is_each else step, begin)
        faults += found
        seen |= set(refused)
    if full and not seen >= {"start", 0}:
        faults.append("the start or the first message was never refused")
    if not seen - {"start"}:
        faults.append("no message was ever refused")
    return [f"{shards} shards, {workers} workers: {fault}" for fault in faults]


def faults_in(work):
    """Returns a conversation's name, and the faults of its runs with one number of shards and of workers, with a shim of its own."""
    program, conversation, place, full = work
    with refusals() as refusal:
        return conversation.name, faults_of(refusal, program, Audited(conversation), place, full)


def check_each(program, conversations, full, tally):
    """Checks the conversations side by side, those with the most requests for memory first."""
    ordered = sorted(conversations, key=lambda found: -sum(map(len, found.messages())))
    work = [(program, found, place, full) for found in ordered for place in range(len(SETTINGS))]
    faults = {found.name: [] for found in ordered}
    with multiprocessing.Pool(os.cpu_count()) as pool:
        for name, found in pool.imap_unordered(faults_in, work, chunksize=1):
            faults[name] += found
    for found in ordered:
        tally.expect(f"{found.name}: the model", list(model_faults(found)), [])
        tally.count(found.name, faults[found.name][:3])


def set_limit():
    resource.setrlimit(resource.RLIMIT_AS, (GRANTED, GRANTED))


def check_little_memory(program, first, tally):
    """Messages that need more memory than the system grants are refused, and the memory that they took is freed."""
    database = Database()
    expected = b"".join(database.answer(message) for message in first.messages)
    for make, size, count in TOO_LARGE:
        given = make(size)[0] * 3 + b"".join(first.messages)
        output, end = run_session(program, given, preexec_fn=set_limit)
        tally.expect(f"{make.__name__} in little memory", (output == OUT_OF_MEMORY * 3 * count + expected, end), (True, ENDS["Eof"]))


def main():
    args, tally = arguments(__doc__, only=[]), Tally()
    conversations = all_conversations()
    check_little_memory(args.program, Audited(conversations[NAMES[0]]), tally)
    if tally.needs("cc"):
        check_each(args.program, [conversations[name] for name in args.only or NAMES], args.full, tally)
        print(f"each conversation on {len(SETTINGS)} pairs of shards and workers:")
    return tally.end()


if __name__ == "__main__":
    sys.exit(main())
