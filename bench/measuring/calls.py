"""Controls the shim client/calls.c: it counts the system calls of a program, and its blocks of memory with their bytes."""
import contextlib
import mmap
import struct
import tempfile

from .client import compiled

MEMORY = ("blocks", "bytes")
WORDS = ("reads", "writes", "waits", "other calls", *MEMORY)


@contextlib.contextmanager
def calls():
    """Yields the environment of a program that is to be counted, and a function that returns its counts by their names."""
    with tempfile.NamedTemporaryFile() as file:
        file.write(bytes(8 * len(WORDS)))
        file.flush()
        with mmap.mmap(file.fileno(), 8 * len(WORDS)) as words:
            environment = {"LD_PRELOAD": compiled("calls.c", "-shared", "-fPIC"), "CALLS": file.name}
            yield environment, lambda: dict(zip(WORDS, struct.unpack(f"<{len(WORDS)}q", words)))
