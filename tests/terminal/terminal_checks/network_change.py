"""network_change.py SAMHOST: begins a session over a line, stops the line, and takes an address from this machine: prints after how many seconds
another line is there. It is run where it has a network of its own (`unshare -n`).
"""
import os
import signal
import subprocess
import sys
import time
from pathlib import Path

ROOT = Path(__file__).resolve().parents[3]
sys.path[:0] = [str(ROOT / "editor"), str(ROOT / "bindings/python")]

from terminal.line.host_process import wait_for  # noqa: E402
from terminal.line.persistent_session import PersistentSession  # noqa: E402

ADDRESS = "192.0.2.1/32"  # of those that documents use
LONGEST = 30  # seconds


def turn_until(line, is_there):
    """Lets the line go on until something is there."""
    end = time.monotonic() + LONGEST
    while not is_there():
        left = LONGEST if line.delay() is None else line.delay()
        line.take(wait_for(line.wanted(), left))
        if time.monotonic() > end:
            sys.exit("nothing comes")


def main():
    samhost = sys.argv[1]
    line = PersistentSession([samhost], lambda name: ["--serve", name, "a.txt"])
    turn_until(line, lambda: line.is_open)
    os.kill(line.relay.process.pid, signal.SIGSTOP)
    for words in ("add", "del"):
        subprocess.run(["ip", "address", words, ADDRESS, "dev", "lo"], check=True)
    began, first = time.monotonic(), line.relay
    turn_until(line, lambda: line.relay not in (first, None) and line.is_open)
    print(f"{time.monotonic() - began:.1f}")
    subprocess.run([samhost, "--end", line.name], check=True)
    line.close(print)


main()
