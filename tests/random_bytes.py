#!/usr/bin/env python3
"""Sends random and mutated messages, over standard input and over TCP, and compares what comes back with the rules.

usage: random_bytes.py --program PATH [--full] [--seed N] [--bytes N]

The messages are those of tests/conversations with their bodies changed at random (seeded): values are exchanged, members renamed,
dropped and added, bytes changed, and then the lengths corrected. So each message is complete, and its reply must be that of the
model (the folder model/), byte for byte. A session ends with a tail: a message whose head was changed at random, a message cut short,
many changed heads, or random bytes. What comes back for the tail must be whole replies. Over standard input the session must then end in
one of three ways: the input ended; the last message asked to close; or the input was refused, and the last reply is a refusal that ends a
session. Over TCP each program serves twenty clients, two at a time: both connections are open, and pieces of their messages, of random
sizes, are sent in random order. A message takes effect at its last byte, so the model knows the order of the commands; a client that
comes after a tail is answered as the model says. At least a million bytes go over standard input and as many over TCP, with --full ten
million, with --bytes that many. The last line is 'N passed, M failed'.
"""
import contextlib
import copy
import json
import random
import sys

from common.arguments import arguments
from common.conversation import all_conversations
from common.messages import post, replies_in
from common.server import Launch, listening
from common.session import ENDS, run_session
from common.tally import Tally
from common.wire import Wire
from model.database import Database

NAMES = [
    "$lt", "$lte", "$eq", "$ne", "$gte", "$gt", "$exists", "$type", "$in", "$nin", "$size", "$mod", "$all", "$elemMatch", "$allMatch", "$and",
    "$or", "$nor", "$not", "$regex", "selector", "limit", "skip", "sort", "fields", "use_index", "bookmark", "conflicts", "docs", "new_edits",
    "_id", "_rev", "_revisions", "_deleted", "_foo", "start", "ids", "index", "ddoc", "name", "type", "a", "b", "a.b", "a..b", "",
]
VALUES = [
    None, True, False, 0, 1, -1, 2**63 - 1, -(2**63), "", "a", "1-a", "2-b", "nil", "\u0000", "\u00e9", "_x", "asc", "desc", "json", [], [[]],
    [1, 0], ["a"], {}, {"a": 1}, {"a": "desc"}, {"$gt": None}, {"start": 2, "ids": ["b", "a"]},
]
LAST_REFUSALS = {b"bad_head", b"head_too_large", b"length_required", b"too_large", b"not_found", b"method_not_allowed"}
NO_VALUES = [2**63, -(2**63) - 1, 1.5, 1e300, float("nan"), "\ud800"]
MESSAGES = 40


class RandomMessages:
    """Makes random messages. `whole` has the complete messages of the conversations to targets below /db/, if their bodies are shorter than
    4,000 bytes; `targets` has the target and the body of each of these messages whose body is JSON."""

    def __init__(self, seed):
        self.random = random.Random(seed)
        self.targets, self.whole = [], []
        for exchange in (exchange for conversation in all_conversations().values() for exchange in conversation.exchanges):
            head, _, body = exchange.message.partition(b"\r\n\r\n")
            if head.startswith((b"POST /db/_", b"GET /db/", b"DELETE /db/")) and exchange.is_complete and len(body) < 4000:
                self.whole.append(exchange.message)
                with contextlib.suppress(ValueError):
                    self.targets.append((head.split(b" ")[1][4:].decode(), json.loads(body)))

    def value(self):
        """Returns a random value: one of `NO_VALUES` or `VALUES`, or a part of some body."""
        if self.random.random() < 0.02:
            return self.random.choice(NO_VALUES)
        if self.random.random() < 0.5:
            return self.random.choice(VALUES)
        value = self.random.choice(self.targets)[1]
        while isinstance(value, (list, dict)) and value and self.random.random() < 0.8:
            value = self.random.choice(list(value.values()) if isinstance(value, dict) else value)
        return copy.deepcopy(value)

    def change(self, value):
        """Returns the value with one random change in it."""
        chance = self.random.random()
        if not isinstance(value, (list, dict)) or not value or chance < 0.1:
            return self.value()
        if isinstance(value, list):
            place = self.random.randrange(len(value))
            if chance < 0.2:
                return value[:place] + value[place + 1 :]
            if chance < 0.3:
                return value[:place] + [self.value()] + value[place:]
            return value[:place] + [self.change(value[place])] + value[place + 1 :]
        name = self.random.choice(list(value))
        if chance < 0.2:
            return {other: value[other] for other in value if other != name}
        if chance < 0.35:
            return {**value, self.random.choice(NAMES): self.value()}
        if chance < 0.45:
            return {(self.random.choice(NAMES) if other == name else other): value[other] for other in value}
        return {**value, name: self.change(value[name])}

    def mutate(self, data, most):
        """Returns the bytes with 1 to `most` random changes."""
        data = bytearray(data)
        for _ in range(self.random.randint(1, most)):
            place = self.random.randrange(len(data) + 1)
            kind = self.random.randrange(4)
            if kind == 0:
                data[place:place] = bytes([self.random.choice([*b'{}[]":,\\u0019-. \r\n$_', self.random.randrange(256)])])
            elif kind == 1:
                del data[place : place + self.random.choice([1, 1, 2, 10])]
            elif kind == 2 and place < len(data):
                data[place] ^= 1 << self.random.randrange(8)
            else:
                other = self.random.randrange(len(data) + 1)
                data[place:place] = data[other : other + self.random.randint(1, 20)]
        return bytes(data)

    def message(self):
        """Returns a complete message: an unchanged one, or one with a changed body."""
        if self.random.random() < 0.2:
            return self.random.choice(self.whole)
        target, value = self.random.choice(self.targets)
        for _ in range(self.random.choice([0, 1, 1, 2, 4])):
            value = self.change(value)
        body = json.dumps(value, ensure_ascii=self.random.random() < 0.3, allow_nan=True).encode("utf-8", "surrogatepass")
        return post(target, self.mutate(body, 3) if self.random.random() < 0.15 and body else body)

    def tail(self, harmless):
        """Returns bytes that may end the session. If `harmless`, they write nothing to the database."""
        kind = self.random.randrange(4)
        if kind == 0:
            return self.random.randbytes(self.random.choice([1, 10, 100, 1000, 20_000]))
        front = [message for message in self.whole if not harmless or message.startswith((b"GET", b"POST /db/_find"))]
        head, gap, body = self.random.choice(front).partition(b"\r\n\r\n")
        if kind == 1:
            return self.mutate(head, 6) + gap + body
        if kind == 2:
            return (head + gap + body)[: self.random.randrange(len(head + gap + body))]
        return self.mutate(head + gap, 2) * self.random.randint(1, 400)


def tail_fault(output, end, is_tcp):
    """Returns the fault in what came back for a tail; None if it is right. The last reply may be a head alone, as after a HEAD request.
    Over TCP it is unknown how the session ended."""
    replies, left = replies_in(output)
    silent = bytes(left).startswith(b"HTTP/1.1 ") and bytes(left).endswith(b"\r\n\r\n")
    if left and not silent:
        return f"no whole reply: {left[:200]!r}"
    if is_tcp:
        return None
    if end not in (ENDS["Eof"], ENDS["Refused"]):
        return f"ended {end}"
    if end == ENDS["Refused"] and not silent:
        error = replies[-1].body.split(b'"')[3] if replies else b"none"
        if error not in LAST_REFUSALS:
            return f"refused after {error!r}"
    return None


def run_one(program, source, database, shards, workers):
    """Runs one session over standard input. Returns the number of its bytes, and its fault; None if it is right."""
    messages = [source.message() for _ in range(MESSAGES)]
    tail = source.tail(False)
    given = b"".join(messages) + tail
    output, end = run_session(program, given, shards, workers)
    at = 0
    for message in messages:
        expected = database.answer(message)
        if not output.startswith(expected, at):
            return len(given), difference(message, output[at : at + 400], expected)
        at += len(expected)
    fault = tail_fault(output[at:], end, False)
    return len(given), fault and f"tail {tail[:300]!r}: {fault}"


def difference(message, found, expected):
    return f"{message!r}\n  replied  {found[:400]!r}\n  expected {expected[:400]!r}"


def over_input(program, seed, count, tally):
    sent, number = 0, 0
    while sent < count:
        source = RandomMessages(f"{seed}/{number}")
        length, fault = run_one(program, source, Database(), *[(1, 1), (7, 2)][number % 2])
        tally.expect(f"session {number} of seed {seed}", fault, None)
        sent += length
        number += 1


class Pieces:
    """A connection that sends its messages in pieces. `fault` is None while its replies are right."""

    def __init__(self, port, source, database):
        self.source, self.database, self.wire = source, database, Wire(port)
        self.sent, self.at, self.fault = 0, 0, None
        self.messages = [source.message() for _ in range(10)]

    def step(self):
        """Sends a piece of a message, and reads the reply after its last piece; without a message left, sends the tail. Returns whether to
        go on: False after the tail, and after a wrong reply."""
        if not self.messages:
            self.fault = self.end()
            return False
        message, size = self.messages[0], self.source.random.choice([1, 7, 100, 5000])
        self.wire.send(message[self.at : self.at + size])
        self.at += size
        if self.at < len(message):
            return True
        self.sent, self.at, self.messages = self.sent + len(message), 0, self.messages[1:]
        expected, found = self.database.answer(message), self.wire.reply()
        if found != expected:
            self.fault = difference(message, found, expected)
        return found == expected

    def end(self):
        """Sends a tail that writes nothing; four clients in five wait for what comes back. Returns the fault in it; None if it is right, or
        if the client does not wait."""
        tail = self.source.tail(True)
        self.sent += len(tail)
        self.wire.send(tail)
        if self.source.random.random() >= 0.8:
            return None
        self.wire.finish()
        fault = tail_fault(self.wire.rest(), None, True)
        return fault and f"tail {tail[:300]!r}: {fault}"


def over_tcp(launch, seed, count, tally):
    sent, number = 0, 0
    while sent < count:
        database, source = Database(), RandomMessages(f"tcp {seed}/{number}")
        with listening(launch, 2) as port:
            sent += two_at_a_time(port, source, database, f"run {number}, seed {seed}", tally)
        number += 1


def two_at_a_time(port, source, database, label, tally):
    """Runs twenty clients, at most two at a time. Returns how many bytes they sent."""
    sent, clients_so_far = 0, 2
    clients = [Pieces(port, source, database) for _ in range(clients_so_far)]
    while clients:
        one = source.random.choice(clients)
        if one.step():
            continue
        one.wire.close()
        clients.remove(one)
        tally.expect(f"a client of {label}", one.fault, None)
        sent += one.sent
        if clients_so_far < 20:
            clients.append(Pieces(port, source, database))
            clients_so_far += 1
    return sent


def main():
    args, tally = arguments(__doc__, seed=1, bytes=0), Tally()
    count = args.bytes or (10_000_000 if args.full else 1_000_000)
    over_input(args.program, args.seed, count, tally)
    over_tcp(Launch(args.program, 7, 2), args.seed, count, tally)
    return tally.end()


if __name__ == "__main__":
    sys.exit(main())
