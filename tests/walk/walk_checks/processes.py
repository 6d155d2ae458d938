"""Processes by their numbers."""
import contextlib
import os
import signal
from pathlib import Path


def is_alive(process):
    """Whether a process is there and has not ended."""
    if process is None:
        return False
    try:
        return Path(f"/proc/{process}/stat").read_text().rpartition(")")[2].split()[0] != "Z"
    except OSError:
        return False


def kill(process):
    """Kills a process; returns whether it was there."""
    if not is_alive(process):
        return False
    with contextlib.suppress(ProcessLookupError):
        os.kill(process, signal.SIGKILL)
        return True
    return False
