"""The processor time and memory of processes."""
import os
import time


def processor(pids):
    """Returns the processor time, user and system, of processes and all their threads, in seconds, to the nanosecond: the clocks of
    clock_getcpuclockid(3)."""
    return sum(time.clock_gettime((~pid << 3) | 2) for pid in pids)


def family(pid):
    """Returns a process and its child processes that have not ended."""
    found = [pid]
    for other in filter(str.isdigit, os.listdir("/proc")):
        try:
            with open(f"/proc/{other}/stat") as file:
                if int(file.read().rpartition(")")[2].split()[1]) == pid:
                    found.append(int(other))
        except OSError:
            pass
    return found


def memory(pids, kinds=("Pss_Anon:", "Pss_Shmem:")):
    """Returns the resident memory of processes in bytes, anonymous and shared. A page that several processes share counts by its share."""
    found = 0
    for pid in pids:
        with open(f"/proc/{pid}/smaps_rollup") as file:
            found += sum(int(line.split()[1]) for line in file if line.startswith(kinds)) * 1024
    return found
