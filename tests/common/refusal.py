"""Controls the shim refuse/refuse.c. It is compiled when a test begins; a file that is shared with the program says what it refuses."""
import contextlib
import mmap
import os
import shutil
import struct
import subprocess
import tempfile
from pathlib import Path

from common.session import run_command

SOURCE = Path(__file__).resolve().parent.parent / "refuse" / "refuse.c"
KINDS = {"memory": 0, "threads": 4, "reads": 8, "writes": 12}
CALLS, FIRST, LAST, REFUSED = range(4)
PIECE, TAKES_NONE, WHOLE_WRITES, WORDS = 16, 17, 18, 19
ONWARD = 2**62  # the last call of a refusal without an end


class Refusal:
    """Controls what the shim refuses to the programs that run with it."""

    def __init__(self, folder):
        self.shim, self.file = folder / "refuse.so", folder / "words"
        subprocess.run(["cc", "-O1", "-shared", "-fPIC", "-o", self.shim, SOURCE], check=True)
        self.file.write_bytes(bytes(8 * WORDS))
        with self.file.open("r+b") as file:
            self.words = mmap.mmap(file.fileno(), 8 * WORDS)
        self.environment = {**os.environ, "LD_PRELOAD": str(self.shim), "REFUSE": str(self.file)}

    def put(self, word, value):
        struct.pack_into("<q", self.words, 8 * word, value)

    def calls(self, kind):
        """Returns the number of calls of a kind since the last reset."""
        return self.word(KINDS[kind] + CALLS)

    def refused(self, kind):
        """Returns the number of calls of a kind that were refused since the last reset."""
        return self.word(KINDS[kind] + REFUSED)

    def word(self, word):
        return struct.unpack_from("<q", self.words, 8 * word)[0]

    def reset(self, piece=0, takes_none=False, whole_writes=False):
        """Sets all counts to 0, and refuses nothing. If `piece` is not 0, each read moves at most that many bytes; so does each write, unless
        `whole_writes`. With `takes_none`, a refused write takes no byte instead of failing."""
        for word in range(PIECE):
            self.put(word, 0)
        self.put(PIECE, piece)
        self.put(TAKES_NONE, int(takes_none))
        self.put(WHOLE_WRITES, int(whole_writes))

    def refuse(self, kind, first, last):
        """Refuses the calls of a kind from the first to the last, counted from the last reset. A first of 0 refuses none."""
        self.put(KINDS[kind] + FIRST, 0)
        self.put(KINDS[kind] + LAST, last)
        self.put(KINDS[kind] + FIRST, first)

    def stop_refusing(self, kind):
        """Stops refusing calls of a kind, and keeps its counts."""
        self.put(KINDS[kind] + FIRST, 0)

    def run(self, command, given):
        """Runs a command with the shim. Returns its output, and how it ended."""
        return run_command(command, given, env=self.environment)


@contextlib.contextmanager
def refusals():
    """Compiles the shim, which needs a C compiler, yields its `Refusal`, and removes its files afterwards."""
    folder = Path(tempfile.mkdtemp())
    try:
        yield Refusal(folder)
    finally:
        shutil.rmtree(folder)
