#!/usr/bin/env python3
"""Runs the conversations of tests/conversations/*.txt through the program, and compares the replies with those in the files.

usage: conversations.py --program PATH [--shards 1,2,7,64] [--workers 1,2,32] [--reshards 3 64,1,3] [--only NAME ..] [--folder FOLDER]

The form of the files is described in tests/common/conversation.py. For each number of shards and of workers, a conversation is run by
one process `PATH db SHARDS WORKERS 1 -`. Its database is empty at the start, and all messages are sent at once. For each list of
--reshards it is run once more with each number of shards and of workers: between every two messages a `_placement` asks for the next
number of the list, and the replies must stay the same. `--only` takes names of conversations and of files. Prints each fault; a
conversation passes or fails as one in all its runs. The last line is 'N passed, M failed', and the exit status is 0 if M is 0.
"""
import itertools
import sys

from common.arguments import arguments
from common.conversation import FOLDER, faults_of_run, numbers_in, select
from common.tally import Tally


def main():
    args = arguments(__doc__, shards="1,2,7,64", workers="1,2,32", reshards=["3", "64,1,3"], only=[], folder=FOLDER)
    tally = Tally()
    settings = list(itertools.product(numbers_in(args.shards), numbers_in(args.workers), [(), *map(numbers_in, args.reshards)]))
    for conversation in select(args.only, args.folder):
        faults = []
        for shards, workers, reshards in settings:
            setting = f"{shards} shards, {workers} workers, reshards {list(reshards)}"
            for line, fault in faults_of_run(args.program, conversation, shards, workers, reshards):
                faults.append(f"\n  line {line}, {setting}: {fault}")
        tally.count(f"{conversation.file.name}: {conversation.name}", faults)
    print(f"every-sharding, each conversation on {len(settings)} settings (numbers of shards and of workers, reshards between the messages or none):")
    return tally.end()


if __name__ == "__main__":
    sys.exit(main())
