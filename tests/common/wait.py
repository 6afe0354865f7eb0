"""Waits for a condition."""
import time


def wait_until(holds, seconds=60):
    """Checks a condition every hundredth of a second until it holds. Returns whether it holds within some seconds."""
    last = time.monotonic() + seconds
    while not holds() and time.monotonic() < last:
        time.sleep(0.01)
    return holds()
