"""Runs the program for one session over its standard input and output, with the database `db`."""
import subprocess

SECONDS = 120
# each way in which the program ends: its exit status, and its line on standard error
ENDS = {"Eof": (0, b""), "Refused": (1, b"mangod: refused\n"), "ReadFault": (1, b"mangod: read fault\n"),
        "WriteFault": (1, b"mangod: write fault\n"), "Limit": (1, b"mangod: limit\n"), "start": (1, b"mangod: out of memory\n")}


def session_command(program, shards=1, workers=1):
    return [program, "db", str(shards), str(workers), "1", "-"]


def run_command(command, given, seconds=SECONDS, **more):
    """Runs a command that reads `given`. Returns its output, and how it ended: its exit status, and what it wrote to standard error."""
    done = subprocess.run(command, input=given, capture_output=True, timeout=seconds, **more)
    return done.stdout, (done.returncode, done.stderr)


def run_session(program, given, shards=1, workers=1, seconds=SECONDS, **more):
    """Runs the program for one session that reads `given`. Returns its output, and how it ended."""
    return run_command(session_command(program, shards, workers), given, seconds, **more)
