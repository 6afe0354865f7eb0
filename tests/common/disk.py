"""Controls the shim refuse/disk.c. It is compiled when a test begins; a file that is shared with the program says what the disk takes."""
import mmap
import os
import struct
import subprocess
from pathlib import Path

SOURCE = Path(__file__).resolve().parent.parent / "refuse" / "disk.c"
ROOM, SYNCS, WORDS = range(3)
ANY = -1


class Disk:
    """Controls what the disk takes of the programs that run with the shim. At first it takes everything."""

    def __init__(self, folder):
        shim, file = folder / "disk.so", folder / "words"
        subprocess.run(["cc", "-O1", "-shared", "-fPIC", "-o", shim, SOURCE], check=True)
        file.write_bytes(struct.pack("<qq", ANY, ANY))
        with file.open("r+b") as opened:
            self.words = mmap.mmap(opened.fileno(), 8 * WORDS)
        self.environment = {**os.environ, "LD_PRELOAD": str(shim), "DISK": str(file)}

    def put(self, word, value):
        struct.pack_into("<q", self.words, 8 * word, value)

    def has_room(self, count):
        """From now on the disk takes so many bytes, and no more."""
        self.put(ROOM, count)

    def has_syncs(self, count):
        """From now on so many syncs succeed, and no more."""
        self.put(SYNCS, count)

    def takes_everything(self):
        self.put(ROOM, ANY)
        self.put(SYNCS, ANY)
