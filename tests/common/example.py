"""Runs programs of examples/ for the scripts that test one of them alone."""
import subprocess
import sys

from common.modules import TOP

EXAMPLES = TOP / "examples"
SECONDS = 60


def run_example(name, *args):
    """Runs an example. Returns its exit status, its output, and what it wrote to standard error."""
    done = subprocess.run([sys.executable, EXAMPLES / name, *map(str, args)], capture_output=True, text=True, timeout=SECONDS)
    return done.returncode, done.stdout, done.stderr


def database_url(port):
    return f"http://127.0.0.1:{port}/db"
