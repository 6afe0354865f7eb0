#!/usr/bin/env python3
"""Cuts the input, moves it byte by byte, and lets reads and writes fail at each call; checks the output and how the session ends.

usage: cut_input.py --program PATH [--full]

Uses three conversations of tests/conversations: a bulk and a query, pages by an index through bookmarks, and an index that is dropped.
The replies are those of the model (the folder model/), which must agree with the files. With the shim refuse/refuse.c:
- reads and writes move one byte, or a few: the output is the same;
- reads move one byte, a few, or all: each reply is one write, and there are only as many reads as the bytes need;
- a message that ends its session is answered, and no read follows it;
- the kth read fails: the output is the replies due for the bytes before it, and the session ends with a read fault;
- the kth write fails, or takes no byte: the output is what the writes before it took, and the session ends with a write fault.
Without the shim: the input is cut at each byte, over standard input and over TCP; the output is a pipe that nobody reads, or that is
read late; a client over TCP sends byte by byte, or resets its connection at some byte, and the next client sees each bulk whole or not at
all. Without --full, cuts over TCP and failing calls of one byte are tried with the first conversation alone, and over TCP only every third
byte. The shim needs a C compiler, `cc`; without one the script fails. The last line is 'N passed, M failed'.
"""
import os
import subprocess
import sys

from common.arguments import arguments
from common.conversation import all_conversations, model_faults
from common.messages import get, post, reply
from common.refusal import ONWARD, refusals
from common.server import Launch, listening
from common.session import ENDS, SECONDS, run_session, session_command
from common.tally import Tally
from common.wire import Wire, bytes_back
from model.database import Database

NAMES = ["first-write-and-query", "ties-across-shards", "choice-of-index"]
SHARDS, WORKERS = 7, 2
LIST = get("_index")
# messages that end a session: the message, the reply, and how the program ends
LAST = [
    ("version 1.0", b"GET /db/x HTTP/1.0\r\n\r\n", reply(404, '{"error":"not_found","reason":"missing"}'), ENDS["Eof"]),
    ("no length", b"POST /db/_find HTTP/1.1\r\n\r\n",
     reply(411, '{"error":"length_required","reason":"Content-Length required."}'), ENDS["Refused"]),
]


class Transcript:
    """The bytes of a conversation, the replies to it, and where each is due."""

    def __init__(self, conversation):
        self.conversation = conversation
        database, self.given, self.text, self.due = Database(), b"", b"", [(0, 0)]
        for message in conversation.messages():
            self.given += message
            self.text += database.answer(message)
            self.due.append((len(self.given), len(self.text)))

    def written(self, count):
        """Returns the output for the first `count` bytes."""
        return self.text[: max(text for given, text in self.due if given <= count)]

    def count(self):
        """Returns the number of messages, and so of replies."""
        return len(self.due) - 1


def check_cuts(program, transcript, name, tally):
    """The input ends at each of its bytes."""
    wrong = [place for place in range(len(transcript.given))
             if run_session(program, transcript.given[:place], SHARDS, WORKERS) != (transcript.written(place), ENDS["Eof"])]
    tally.expect(f"{name}, cut at each byte", wrong, [])


def check_short_calls(refusal, command, transcript, name, tally):
    """Each read and write moves few bytes."""
    for piece in (1, 2, 3, 64):
        refusal.reset(piece=piece)
        tally.expect(f"{name}, {piece} bytes a call", refusal.run(command, transcript.given), (transcript.text, ENDS["Eof"]))
        tally.expect(f"{name}, {piece} bytes a call: reads", refusal.calls("reads") > len(transcript.given) // piece, True)
        tally.expect(f"{name}, {piece} bytes a call: writes", refusal.calls("writes") >= len(transcript.text) // piece, True)


def check_counts(refusal, command, transcript, tally):
    """Each reply is one write, but those to messages that come in one read share it. The last read finds the end."""
    for piece in (0, 7, 1):
        refusal.reset(piece=piece, whole_writes=True)
        found = refusal.run(command, transcript.given)
        counts = refusal.calls("reads"), refusal.calls("writes")
        reads = -(-len(transcript.given) // piece) if piece else 1
        writes = transcript.count() if piece else 1
        expected = (transcript.text, ENDS["Eof"]), reads + 1, writes
        tally.expect(f"reads of {piece or 'all'} bytes: reads and writes", (found, *counts), expected)


def check_last_messages(refusal, command, tally):
    """A session that a message ends reads no more. The next read would fail."""
    for name, given, text, end in LAST:
        refusal.reset()
        refusal.refuse("reads", 2, ONWARD)
        found = refusal.run(command, given)
        tally.expect(f"{name}: the end, and the reads", (found, refusal.calls("reads")), ((text, end), 1))


def check_failing_reads(refusal, command, transcript, name, piece, tally):
    """The kth read fails, for each k. The last read is the one that finds the end."""
    wrong, call = [], 0
    while True:
        call += 1
        refusal.reset(piece=piece)
        refusal.refuse("reads", call, ONWARD)
        found = refusal.run(command, transcript.given)
        if refusal.calls("reads") < call:
            tally.expect(f"{name}: no read failed", found, (transcript.text, ENDS["Eof"]))
            break
        if found != (transcript.written((call - 1) * piece), ENDS["ReadFault"]):
            wrong.append((call, found))
    tally.expect(f"{name}, reads of {piece} bytes that fail", wrong[:3], [])
    tally.expect(f"{name}, reads of {piece} bytes", call, -(-len(transcript.given) // piece) + 2)


def check_failing_writes(refusal, command, transcript, name, piece, takes_none, tally):
    """The kth write fails or takes no byte, for each k."""
    wrong, call = [], 0
    while True:
        call += 1
        refusal.reset(piece=piece, takes_none=takes_none)
        refusal.refuse("writes", call, ONWARD)
        output, end = refusal.run(command, transcript.given)
        if refusal.calls("writes") < call:
            tally.expect(f"{name}: no write failed", (output, end), (transcript.text, ENDS["Eof"]))
            break
        is_prefix = transcript.text.startswith(output) and (len(output) == call - 1 if piece == 1 else len(output) < len(transcript.text))
        if end != ENDS["WriteFault"] or not is_prefix:
            wrong.append((call, output, end))
    tally.expect(f"{name}, writes that {'take nothing' if takes_none else 'fail'}, {piece} bytes a call", wrong[:3], [])
    tally.expect(f"{name}, writes", call > transcript.count() and (piece != 1 or call == len(transcript.text) + 1), True)


def check_pipes(program, transcript, tally):
    """The output is a pipe that nobody reads, or that is read late."""
    command = session_command(program)
    reader, writer = os.pipe()
    os.close(reader)
    done = subprocess.run(command, input=transcript.given, stdout=writer, stderr=subprocess.PIPE, timeout=SECONDS)
    os.close(writer)
    tally.expect("an output that nobody reads", (done.returncode, done.stderr), ENDS["WriteFault"])
    many, expected = LIST * 3000, Database().answer(LIST) * 3000
    process = subprocess.Popen(command, stdin=subprocess.PIPE, stdout=subprocess.PIPE, stderr=subprocess.PIPE)
    os.set_blocking(process.stdin.fileno(), False)
    sent, status = os.write(process.stdin.fileno(), many), process.poll()
    os.set_blocking(process.stdin.fileno(), True)
    output, error = process.communicate(many[sent:], timeout=SECONDS)
    tally.expect("an output that is read late", (status, output == expected, process.returncode, error), (None, True, 0, b""))


def check_cuts_over_tcp(launch, transcript, name, step, tally):
    """The input ends at each `step`th byte, with a new program each time: else the documents would exist already."""
    wrong = []
    for place in range(1, len(transcript.given), step):
        with listening(launch, 1) as port:
            if bytes_back(port, transcript.given[:place]) != transcript.written(place):
                wrong.append(place)
    tally.expect(f"{name} over TCP, cut", wrong, [])


def check_byte_by_byte(launch, transcript, name, tally):
    with listening(launch, 1) as port:
        client = Wire(port)
        for place in range(len(transcript.given)):
            client.send(transcript.given[place : place + 1])
        client.finish()
        tally.expect(f"{name} over TCP, byte by byte", client.rest(), transcript.text)
        client.close()


def check_resets(launch, transcript, step, tally):
    """A client sends a prefix of a bulk of two documents and a query, and resets the connection; another sees both documents or none."""
    bulk = post("_bulk_docs", b'{"docs":[{"_id":"a"},{"_id":"b"}]}')
    find = transcript.conversation.messages()[1]
    reads = [get(name) for name in ("b", "a", "b")]
    without, with_both = Database(), Database()
    with_both.answer(bulk)
    missing, there = ([database.answer(message) for message in reads] for database in (without, with_both))
    turns = [missing[:turn] + there[turn:] for turn in range(4)]
    wrong = []
    for place in range(1, len(bulk + find), step):
        with listening(launch, 2) as port:
            client = Wire(port)
            client.send((bulk + find)[:place])
            client.reset()
            other = Wire(port)
            found = [other.ask(message) for message in reads]
            other.close()
        if found not in (turns if place >= len(bulk) else turns[3:]):
            wrong.append((place, found))
    tally.expect("connections that are reset", wrong[:3], [])


def is_possible(transcript, kind, call, has_failed, found):
    """Whether a client may receive these bytes if each call moves 16 bytes and the kth read or write fails. `has_failed`: there was a kth
    one. A write moves fewer bytes at the end of a reply."""
    if not has_failed:
        return found == transcript.text
    if kind == "reads":
        return found == transcript.written((call - 1) * 16)
    return transcript.text.startswith(found) and 0 <= (call - 1) * 16 - len(found) <= 15 * len(transcript.due)


def check_failing_sockets(refusal, launch, transcript, tally):
    """Over TCP the kth read or write fails: the connection ends after a prefix of the replies, and the next client is served."""
    for kind in ("reads", "writes"):
        call, wrong, has_failed = 0, [], True
        while has_failed:
            call += 1
            refusal.reset(piece=16)
            with listening(launch, 1, refusal.environment) as port:
                refusal.refuse(kind, call, call)
                found = bytes_back(port, transcript.given)
                has_failed = refusal.refused(kind) > 0
                refusal.stop_refusing(kind)
                served = bytes_back(port, LIST)
            if not is_possible(transcript, kind, call, has_failed, found) or not served.startswith(b"HTTP/1.1 200 OK\r\n"):
                wrong.append((call, found, served))
        tally.expect(f"{kind} of a socket that fail", wrong[:3], [])
        tally.expect(f"{kind} of a socket were made", call > 10, True)


def check_with_shim(refusal, launch, transcripts, full, tally):
    """Checks with calls that move few bytes or fail."""
    command, first = session_command(launch.program, SHARDS, WORKERS), transcripts[NAMES[0]]
    for name, transcript in transcripts.items():
        check_short_calls(refusal, command, transcript, name, tally)
        for piece in (1, 16) if full or transcript is first else (16,):
            check_failing_reads(refusal, command, transcript, name, piece, tally)
            check_failing_writes(refusal, command, transcript, name, piece, False, tally)
            check_failing_writes(refusal, command, transcript, name, piece, True, tally)
    check_counts(refusal, command, first, tally)
    check_last_messages(refusal, command, tally)
    check_failing_sockets(refusal, launch, first, tally)


def main():
    args, tally = arguments(__doc__), Tally()
    launch, step = Launch(args.program, SHARDS, WORKERS), 1 if args.full else 3
    conversations = all_conversations()
    transcripts = {name: Transcript(conversations[name]) for name in NAMES}
    first = transcripts[NAMES[0]]
    for name, transcript in transcripts.items():
        tally.expect(f"{name}: the model", list(model_faults(transcript.conversation)), [])
        check_cuts(args.program, transcript, name, tally)
        check_byte_by_byte(launch, transcript, name, tally)
    check_pipes(args.program, first, tally)
    for name, transcript in transcripts.items():
        if args.full or transcript is first:
            check_cuts_over_tcp(launch, transcript, name, step, tally)
    check_resets(launch, first, step, tally)
    if tally.needs("cc"):
        with refusals() as refusal:
            check_with_shim(refusal, launch, transcripts, args.full, tally)
    return tally.end()


if __name__ == "__main__":
    sys.exit(main())
