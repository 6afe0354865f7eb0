"""Measures a server in plain Rust (bench/peer) for comparison. It takes the arguments and the requests of the program."""
import os
import subprocess

from .program import Program

FOLDER = os.path.join(os.path.dirname(os.path.dirname(os.path.abspath(__file__))), "peer")
CARGO = "/usr/bin/cargo"
PROGRAM = os.path.join(FOLDER, "target", "release", "peer")
CRATES = "/usr/share/cargo/registry"


def built():
    """Returns the path of the program, built with Debian's cargo from Debian's crates; None if these are not installed."""
    if not (os.path.exists(CARGO) and os.path.isdir(CRATES)):
        return None
    home = os.path.join(FOLDER, "target", "home")
    os.makedirs(home, exist_ok=True)
    args = [CARGO, "build", "--release", "--offline", "--locked", "--quiet"]
    done = subprocess.run(args, cwd=FOLDER, env={"PATH": "/usr/bin:/bin", "HOME": home, "CARGO_HOME": home})
    return PROGRAM if done.returncode == 0 else None


class PlainRust(Program):
    called = "plain Rust"

    def __init__(self, corpus):
        super().__init__(PROGRAM, corpus)
        self.name = self.called
