"""The machine: what it is, whether it is quiet, and whether it counts cycles."""
import contextlib
import functools
import os
import platform
import re
import resource
import shutil
import signal
import sqlite3
import subprocess
import time

from . import postgres
from .rust import CARGO

# an idle machine: other processes take at most so much of one processor
OTHERS = 0.2
# a machine that has its processors to itself: other machines on its host take at most as much, and the calibrating loop takes about the same
# time each time
SPREAD = 1.15
LOOPS = 400_000


def name():
    """Returns the processors of this machine."""
    with open("/proc/cpuinfo") as file:
        model = next((line.split(":")[1].strip() for line in file if line.startswith("model name")), platform.processor())
    return f"{os.cpu_count()} processors ({model})"


def busy_seconds():
    """Returns the processor time for which all processors have been busy since the start of this machine, and that which its host has given to
    other machines meanwhile."""
    with open("/proc/stat") as file:
        user, nice, system, _, _, irq, softirq, steal, *_ = map(int, file.readline().split()[1:])
    ticks = os.sysconf("SC_CLK_TCK")
    return (user + nice + system + irq + softirq) / ticks, steal / ticks


def own_seconds():
    """Returns the processor time of this process and its ended children."""
    return sum(used.ru_utime + used.ru_stime for used in map(resource.getrusage, (resource.RUSAGE_SELF, resource.RUSAGE_CHILDREN)))


def calibrated():
    """Returns the milliseconds that a fixed loop takes: the least of five times."""
    times = []
    for _ in range(5):
        start, found = time.perf_counter(), 0
        for number in range(LOOPS):
            found += number & 7
        times.append((time.perf_counter() - start) * 1e3)
    return min(times)


class Watch:
    """Says how much of the processors other processes and other machines take, and how fast the machine is, from one look to the next. A shared
    machine is one whose host may give its processors to others."""

    def __init__(self, is_shared=False):
        self.looks, self.is_shared = [], is_shared
        self.begin()

    def begin(self):
        self.at = time.monotonic(), *busy_seconds(), own_seconds()

    def look(self, what):
        """Notes what has happened since the look before, and returns it."""
        now = time.monotonic(), *busy_seconds(), own_seconds()
        clock, busy, stolen, own = (after - before for after, before in zip(now, self.at))
        shares = {name: round(max(0.0, used) / max(clock, 1e-9), 3) for name, used in (("others", busy - own), ("stolen", stolen))}
        self.looks.append({"what": what, **shares, "loop_ms": round(calibrated(), 2), "load": round(os.getloadavg()[0], 2)})
        self.begin()
        return self.looks[-1]

    def forget(self):
        """Drops the last look."""
        self.looks.pop()
        self.begin()

    def fault(self):
        """Returns why the machine was not quiet; None if it was."""
        for look in self.looks:
            if look["others"] > OTHERS:
                return f"{look['what']}: other processes took {look['others']:.2f} processors, more than {OTHERS}"
        return None if self.is_shared else self.fault_of_host()

    def fault_of_host(self):
        """Returns why the machine did not have its processors to itself; None if it had."""
        loops = [look["loop_ms"] for look in self.looks]
        stolen = max(look["stolen"] for look in self.looks)
        if stolen > OTHERS:
            return f"other machines of the host took {stolen:.2f} processors, more than {OTHERS}"
        if max(loops) > SPREAD * min(loops):
            return f"the calibrating loop took {min(loops):.1f} to {max(loops):.1f} ms"
        return None


@functools.cache
def counts_cycles():
    """Whether `perf stat` counts cycles and misses here."""
    if not shutil.which("perf"):
        return False
    done = subprocess.run(["perf", "stat", "-x", ";", "-e", "cycles,cache-misses", "true"], capture_output=True, text=True)
    return done.returncode == 0 and "<not" not in done.stderr


@contextlib.contextmanager
def counting_cycles(pids):
    """Counts the cycles and misses of processes, where the machine counts them; yields them as a dictionary that is filled at the end."""
    found = {}
    if not counts_cycles():
        yield found
        return
    args = ["perf", "stat", "-x", ";", "-e", "cycles,cache-misses", "-p", ",".join(map(str, pids))]
    counter = subprocess.Popen(args, stderr=subprocess.PIPE, text=True)
    time.sleep(0.1)
    yield found
    counter.send_signal(signal.SIGINT)
    for line in counter.communicate()[1].splitlines():
        value, _, event = line.split(";")[:3] if line.count(";") > 2 else ("", "", "")
        if value.isdigit():
            found["misses" if "misses" in event else "cycles"] = int(value)


def first_line(*args):
    """Returns the first line that a program writes; None if it is not installed."""
    if not args[0] or not shutil.which(args[0]):
        return None
    done = subprocess.run(args, capture_output=True, text=True)
    return (done.stdout or done.stderr).strip().split("\n")[0]


def versions():
    """Returns the version of each system that is installed, by its name; `none` for the others."""
    folder = postgres.programs()
    said = {
        "PostgreSQL": first_line(f"{folder}/postgres", "--version") if folder else None,
        "MariaDB": first_line("mariadbd", "--version"),
        "Tarantool": first_line("tarantool", "--version"),
        "Redis": first_line("redis-server", "--version"),
        "plain Rust by cargo": first_line(CARGO, "--version"),
        "cc": first_line("cc", "--version"),
    }
    found = {"SQLite": sqlite3.sqlite_version}
    for system, line in said.items():
        number = re.search(r"\d+(\.\d+)+", line.rpartition(")")[2] if system == "cc" else line) if line else None
        found[system] = number[0] if number else "none"
    return found
