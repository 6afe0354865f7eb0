#!/usr/bin/env python3
"""Runs hostile input of two sizes through the program, and compares the processor time and the memory that each takes.

usage: bounds.py --program PATH [--only NAME ..] [--full]

The inputs are made by the shapes of the folder shapes/. The larger input is four times as large as the smaller one; with --full it is
twice as large, at greater sizes. Its share is the cost of the smaller input times the ratio of the sizes, or times the square of that
ratio where the input costs a product of two parts that both grow. A shape passes if its larger input takes at most 1.5 times its
share of the memory, and at most twice its share of the processor time (with --full 1.5 times: without it, other work runs at the same
time, and more of the input is outside the caches). The ratios are printed.

The larger input also takes at most 64 MiB and 64 times its largest message of memory, beside what the program takes without input. MORE
lists the inputs that take more, what the database keeps and the reply included. What was measured is printed.

What does not depend on the size is not counted: 2 MiB of memory, and the time of a sixteenth of the smaller input. The sizes grow until the
smaller input takes a tenth of a second beyond that; if a body cannot be so large, each input is sent to as many processes as take a tenth of
a second together. A time that is too long is measured up to three times. The replies must end in the bytes that the shape writes out, and
the next message must be answered. Last, values and selectors of the greatest depth of a body run through the program with a stack of 1 MiB.
The last line is 'N passed, M failed'.
"""
import math
import os
import re
import resource
import subprocess
import sys
import tempfile
import time

from common.arguments import arguments
from common.messages import get, post, reply
from common.session import ENDS, run_session, session_command
from common.tally import Tally
from shapes import queries, values, writes

SECONDS = 300
LEAST = 0.1
MOST_ROUNDS = 100
TINY = 16
ROOM = 2 << 20
STACK = 1 << 20
BODY_ROOM = 64 << 20
BODY_TIMES = 64
# beside BODY_ROOM, how many times its largest message an input takes that takes more than BODY_TIMES times it
MORE = {"or_arms": 130, "nor_arms": 130, "choices": 140, "negated_choices": 140, "deep_negations": 130, "arms_under_a_path": 140,
        "deep_arrays": 140,
        # these have an atom for each operator, with its argument
        "atoms_under_a_path": 120, "atoms_at_every_depth": 120,
        # most of this is what the database keeps
        "steps_of_an_index": 150, "documents_without_an_id": 330}
LAST = get("%00")
LAST_REPLY = reply(404, '{"error":"not_found","reason":"missing"}')


def memory_of(process):
    """Returns the peak memory of a running process, in bytes."""
    with open(f"/proc/{process.pid}/status") as file:
        return next(int(line.split()[1]) << 10 for line in file if line.startswith("VmHWM"))


def wait_for(process, output, text):
    """Waits until the output ends in a text. Returns False if the program ended first, or took too long and was killed."""
    limit = time.monotonic() + SECONDS
    while time.monotonic() < limit:
        size = os.fstat(output.fileno()).st_size
        # The program writes at the offset that it shares with this process, so it must not move here.
        if size >= len(text) and os.pread(output.fileno(), len(text), size - len(text)) == text:
            return True
        if process.poll() is not None:
            return False
        time.sleep(0.002)
    process.kill()
    return False


def measure(program, shape, given, text):
    """Returns the processor time and the memory of an input; None if a reply is wrong or the program fails."""
    command = session_command(program, shape.shards, shape.workers)
    before = resource.getrusage(resource.RUSAGE_CHILDREN)
    with tempfile.TemporaryFile() as output:
        process = subprocess.Popen(command, stdin=subprocess.PIPE, stdout=output)
        try:
            process.stdin.write(given + LAST)
            process.stdin.flush()
            is_right = wait_for(process, output, text + LAST_REPLY)
            memory = memory_of(process) if is_right else 0
            process.stdin.close()
        except BrokenPipeError:
            is_right = False
        if process.wait(SECONDS) != 0 or not is_right:
            return None
    after = resource.getrusage(resource.RUSAGE_CHILDREN)
    return after.ru_utime + after.ru_stime - before.ru_utime - before.ru_stime, memory


def find_size(program, shape, small, times):
    """Returns a size at which the smaller input takes a tenth of a second, or its greatest size; and how many processes take that time together."""
    while True:
        found = costs_of(program, shape, [shape.make(small // TINY), shape.make(small)], 1)
        used = found[0][0] if found else LEAST
        if used >= LEAST:
            return small, 1
        if 2 * small * times > shape.full:
            return small, min(MOST_ROUNDS, math.ceil(LEAST / max(used, LEAST / MOST_ROUNDS)))
        small *= 2


def costs_of(program, shape, inputs, rounds):
    """Returns for each input but the first: the processor time of all processes less that of the first input, and the most memory of a process;
    None if a reply is wrong."""
    found = [[measure(program, shape, *one) for one in inputs] for _ in range(rounds)]
    if any(None in one for one in found):
        return None
    first, *others = [(sum(used for used, _ in column), max(memory for _, memory in column)) for column in zip(*found)]
    return [(used - first[0], memory) for used, memory in others]


def largest_message(given):
    """Returns the size of the largest message of an input."""
    return max(len(message) for message in re.split(rb"(?=(?:GET|POST) /db/)", given))


def check_memory(program, shape, given, memory, tally):
    """Checks that an input takes at most what a body may take, beside what the program takes without input."""
    size = largest_message(given)
    taken = memory - measure(program, shape, b"", b"")[1]
    print(f"{shape.name}: {taken / 2**20:.0f} MiB for a message of {size / 2**20:.2f} MiB: {taken / size:.0f} times its size", flush=True)
    most = BODY_ROOM + MORE.get(shape.name, BODY_TIMES) * size
    tally.expect(f"{shape.name}: memory of a body, at most {most >> 20} MiB", taken <= most, True)


def compare(program, shape, small, times, slack, tally):
    """Compares one shape at two sizes. The larger one may take `slack` times its share of the processor time."""
    small, rounds = find_size(program, shape, small, times)
    inputs = [shape.make(size) for size in (small // TINY, small, small * times)]
    tiny = TINY**-shape.power
    share = (times**shape.power - tiny) / (1 - tiny)
    for _ in range(3):
        found = costs_of(program, shape, inputs, rounds)
        if found is None or found[1][0] <= slack * share * found[0][0]:
            break
    tally.expect(f"{shape.name}: right replies", found is not None, True)
    if found:
        (one, little), (other, much) = found
        print(f"{shape.name}: {small} in {one:.2f} s and {little / 2**20:.0f} MiB, {small * times} in {other:.2f} s and {much / 2**20:.0f} MiB:"
              f" {other / one:.1f} times the time (at most {slack * share:.1f}), {much / little:.1f} times the memory (at most {1.5 * share:.1f})"
              f"{f', {rounds} processes' if rounds > 1 else ''}", flush=True)
        tally.expect(f"{shape.name}: time", other <= slack * share * one, True)
        tally.expect(f"{shape.name}: memory", much - ROOM <= 1.5 * share * (little + ROOM), True)
        check_memory(program, shape, inputs[-1][0], much, tally)


def set_small_stack():
    resource.setrlimit(resource.RLIMIT_STACK, (STACK, STACK))


def run_with_small_stack(program, given):
    return run_session(program, given, 7, 4, SECONDS, preexec_fn=set_small_stack)


def check_deep_values(program, name, value, tally):
    """Values 127 deep are written, compared, listed and dropped with a small stack."""
    documents = values.replicas([values.document(b"%02d" % i, b'"v":%s' % value) for i in range(50)])
    index = post("_index", b'{"index":{"fields":["v"]},"ddoc":"x","name":"i"}')
    finds = b"".join(values.find(b'{"v":{"%s":%s}}' % (operator, value), b'"fields":["_id"]') for operator in (b"$lt", b"$gt", b"$ne"))
    page = values.find(b'{"_id":{"$gt":"48"},"v":{"$eq":%s}}' % value, b'"fields":["_id"]', b'"use_index":"_design/none"')
    output, end = run_with_small_stack(program, documents + index + finds + documents + page)
    tally.expect(f"{name} 127 deep: the end", end, ENDS["Eof"])
    tally.expect(f"{name} 127 deep: found", output.count(values.NOTHING), 3)
    tally.expect(f"{name} 127 deep: the page", output.endswith(b'"docs":[{"_id":"49"}]}\n'), True)


def check_depth(program, tally):
    """Values 127 deep, and selectors of the greatest depth of a body, run through the program with a small stack."""
    array = b"[" * 124 + b"]" * 124
    check_deep_values(program, "arrays", array, tally)
    check_deep_values(program, "objects", b'{"a":' * 123 + b"{}" + b"}" * 123, tally)
    for name, front, back in [("negations", b'{"$not":', b"}"), ("elements", b'{"$elemMatch":', b"}"), ("conjunctions", b'{"$and":[', b"]}"),
                              ("choices", b'{"$nor":[', b"]}"), ("paths", b'{"a":', b"}")]:
        depth = 124 if back == b"}" else 62
        selector = front * depth + b'{"a":1}' + back * depth
        given = values.replicas([values.document(b"a", b'"a":%s' % array)]) + values.find(selector) * 20
        output, end = run_with_small_stack(program, given)
        tally.expect(f"{depth} {name}", (end, output.count(b"HTTP/1.1 200 OK")), (ENDS["Eof"], 20))


def main():
    args, tally = arguments(__doc__, only=[]), Tally()
    shapes = values.SHAPES + queries.SHAPES + writes.SHAPES
    tally.expect("names without a shape", sorted({*args.only, *MORE} - {shape.name for shape in shapes}), [])
    for shape in shapes:
        if not args.only or shape.name in args.only:
            size, times, slack = (shape.full, 2, 1.5) if args.full else (shape.gate, 4, 2)
            compare(args.program, shape, size // times, times, slack, tally)
    check_depth(args.program, tally)
    return tally.end()


if __name__ == "__main__":
    sys.exit(main())
