#!/usr/bin/env python3
"""Sends every request of docs/REFERENCE.md and of tests/requests.md to the program, and compares the replies with those shown there.

usage: api_examples.py --program PATH [--document FILE ..]

The form of an example is described in tests/common/reference.py. The examples under one heading `##` are sent at once to one process
`PATH db 1 1 1 -`, whose database is empty at the start. An example before the first heading, or of another form, is a fault. Prints each
difference; the last line is 'N passed, M failed', and the exit status is 0 if M is 0.
"""
import subprocess
import sys

from common.arguments import arguments
from common.messages import replies_in
from common.reference import REFERENCE, TOP, sections_of
from common.session import ENDS, run_session
from common.tally import Tally

SECONDS = 60


def faults_of(program, examples):
    """Returns the faults of each example. A fault at the end of the conversation counts for the last example."""
    messages = b"".join(example.message for example in examples)
    try:
        output, ending = run_session(program, messages, seconds=SECONDS)
    except subprocess.TimeoutExpired:
        return [[f"the program did not end in {SECONDS} seconds"] for _ in examples]
    replies, left = replies_in(output)
    faults = [[] for _ in examples]
    for place, example in enumerate(examples):
        if place >= len(replies):
            faults[place].append("no reply")
        elif replies[place] != example.reply:
            faults[place].append(f"replied  {replies[place]}\n    expected {example.reply}")
    if left or len(replies) > len(examples):
        faults[-1].append(f"more was written: {len(replies) - len(examples)} replies, and {left!r}")
    expected = ENDS["Refused" if b'"bad_head"' in examples[-1].reply.body else "Eof"]
    if ending != expected:
        faults[-1].append(f"ended with {ending}, expected {expected}")
    return faults


def main():
    args, tally = arguments(__doc__, document=[REFERENCE, TOP / "tests" / "requests.md"]), Tally()
    for document in args.document:
        text = document.read_text(encoding="utf-8")
        shown, sent = text.count("```http-request"), 0
        for heading, examples in sections_of(text):
            for place, (example, faults) in enumerate(zip(examples, faults_of(args.program, examples)), start=1):
                tally.count(f"{document.name}, {heading}, example {place}, {example.request}", faults)
            sent += len(examples)
        if sent != shown or shown == 0:
            tally.count(document.name, [f"it has {shown} requests, {sent} were sent"])
    return tally.end()


if __name__ == "__main__":
    sys.exit(main())
