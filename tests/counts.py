#!/usr/bin/env python3
"""Counts what requests of each kind take, and compares with the counts in bench/counts.json.

usage: counts.py --program PATH [--counts FILE]

Counted are the instructions of a request over standard input; those of a `GET` over TCP of a client that pauses, also with a long head, whole
and in two pieces, so that a head that is parsed once more is seen; and the system calls of a `GET` over TCP, alone and among others that are
sent at once. A row fails if it takes more than 1.05 times what the file says, so that no loss of speed goes unseen. If the file says more
than 1.05 times what a row takes, that is printed. Over TCP a row may differ further, by a few visits that find nothing. Then, or after a
change that is worth its cost, write a new file by `bench/counts --program PATH --write`. The counts come from `valgrind` and a preloaded shim
compiled by `cc`, which must be installed, and hardly depend on the machine. Each reply must be right. The last line is 'N passed, M failed'.
"""
import json
import sys

from common.arguments import arguments
from common.modules import TOP, module_in
from common.tally import Tally

MORE = 1.05
# what comes and goes over TCP with the timing of client and server: instructions a request, fewer than a long head takes, and a share and a
# number of system calls
VISITS = 8_000
SHARE, CALLS = 0.25, 0.2
counted = module_in("bench", "measuring.counted")
over_tcp = module_in("bench", "measuring.over_tcp")


def compare(tally, name, found, kept, timing=0):
    """Compares the count of one row; `timing`: what it may differ by."""
    change = f"{found:,} a request, where the file has {kept:,}"
    tally.count(name, [change] if found > kept * MORE + timing else [])
    if found < kept / MORE - timing:
        print(f"{name}: {change}, so the file can be replaced", flush=True)


def main():
    args = arguments(__doc__, counts=TOP / "bench" / "counts.json")
    tally = Tally()
    with open(args.counts) as file:
        kept = json.load(file)
    if all([tally.needs(command) for command in ("valgrind", "callgrind_control", "cc")]):
        for pair, kinds in counted.of_sizes(args.program, kept["sizes"]).items():
            for kind, (instructions, _) in kinds.items():
                compare(tally, f"instructions of {kind}, {pair} shards and workers", instructions, kept["counts"][pair][kind][0])
        for row, instructions in over_tcp.instructions(args.program).items():
            compare(tally, f"instructions of a {row} over TCP", instructions, kept["over TCP"]["instructions"][row], VISITS)
        for row, calls in over_tcp.system_calls(args.program).items():
            most = sum(kept["over TCP"]["system calls"][row].values())
            compare(tally, f"system calls of a {row}", sum(calls.values()), most, most * SHARE + CALLS)
    return tally.end()


if __name__ == "__main__":
    sys.exit(main())
