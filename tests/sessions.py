#!/usr/bin/env python3
"""Runs whole conversations through the program, byte for byte, and compares what it writes with the replies in tests/sessions.

usage: sessions.py --program PATH [--data FOLDER] [--shards 1,2,7,64] [--workers 1] [--only NAME ..]

The data are the files tests/sessions/*.json. A file is a list of conversations:
  name     what would have to break for it to fail
  parts    the input in order: bytes, and the reply that is due after them, if any
  end      how the session ends: Eof, Closed or Refused
  cuts     true: each prefix of the bytes is a conversation of its own, with the replies that are due for it
Bytes are text (each character, up to U+00FF, is a byte), or a list of texts and of {"repeat": TEXT, "times": N}.
A reply is [STATUS, BODY] or [STATUS, BODY, "silent"]; a silent one leaves out the body, but gives its length.
Runs one process `PATH db SHARDS WORKERS 1 -` for each conversation and number of shards, and one with the first number for each prefix;
a conversation passes or fails as one. Prints each fault; the last line is 'N passed, M failed'.
"""
import json
import sys
from pathlib import Path

from common.arguments import arguments
from common.messages import reply
from common.session import ENDS, run_session
from common.tally import Tally

ENDINGS = {**ENDS, "Closed": ENDS["Eof"]}


def bytes_of(value):
    if isinstance(value, str):
        return value.encode("latin-1")
    if isinstance(value, dict):
        return value["repeat"].encode("latin-1") * value["times"]
    return b"".join(bytes_of(piece) for piece in value)


def fault_of(found, expected):
    """Returns what is wrong in a run; an empty text if nothing is."""
    (output, ending), (transcript, end) = found, expected
    faults = []
    if output != transcript:
        faults.append(f"wrote {output[:400]!r}\n    expected {transcript[:400]!r}")
    if ending != ENDINGS[end]:
        faults.append(f"ended {ending}, expected {end}")
    return "\n  ".join(faults)


def transcripts_of(conversation):
    """Returns the bytes of a conversation, and each place where a reply is due, with the transcript up to there."""
    data, transcript, due = b"", b"", []
    for part in conversation["parts"]:
        data += bytes_of(part["in"])
        if "reply" in part:
            transcript += reply(*part["reply"])
            due.append((len(data), transcript))
    return data, due


def cases_of(conversation):
    """Yields each case of a conversation: its name, its input, its transcript, and how it ends."""
    data, due = transcripts_of(conversation)
    end = conversation.get("end", "Eof")
    yield conversation["name"], data, due[-1][1] if due else b"", end
    if conversation.get("cuts"):
        for cut in range(len(data)):
            transcripts = [transcript for place, transcript in due if place <= cut]
            is_over = end != "Eof" and due[-1][0] <= cut
            yield f"{conversation['name']}, cut at {cut}", data[:cut], transcripts[-1] if transcripts else b"", end if is_over else "Eof"


def main():
    args = arguments(__doc__, data=Path(__file__).parent / "sessions", shards="1,2,7,64", workers="1", only=[])
    tally, numbers, runs = Tally(), args.shards.split(","), 0
    for file in sorted(args.data.glob("*.json")):
        for conversation in json.loads(file.read_text()):
            if args.only and conversation["name"] not in args.only:
                continue
            faults = []
            for name, data, transcript, end in cases_of(conversation):
                for shards in numbers if name == conversation["name"] else numbers[:1]:
                    fault = fault_of(run_session(args.program, data, shards, args.workers), (transcript, end))
                    faults += [f"\n  {name}, {shards} shards: {fault}"] if fault else []
                    runs += 1
            tally.count(f"{file.name}: {conversation['name']}", faults)
    print(f"each conversation on {len(numbers)} numbers of shards, and cut, in {runs} runs:")
    return tally.end()


if __name__ == "__main__":
    sys.exit(main())
