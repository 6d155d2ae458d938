#!/usr/bin/env python3
"""samterm that counts its calls of the library: call_counter.py COUNT [WORD ..]. Their number stands in the file COUNT, as eight bytes."""
import mmap
import runpy
import struct
import sys
from pathlib import Path

ROOT = Path(__file__).resolve().parents[3]
SAMTERM = ROOT / "editor/terminal/samterm"
sys.dont_write_bytecode = True
sys.path[:0] = [str(ROOT / "bindings" / "python")]

from sulgrevad import sides  # noqa: E402


def main():
    count, *words = sys.argv[1:]
    Path(count).write_bytes(bytes(8))
    with open(count, "r+b") as file:
        place, number, call = mmap.mmap(file.fileno(), 8), [0], sides.Held._answer

        def counted(held, name, *arguments):
            number[0] += 1
            struct.pack_into("Q", place, 0, number[0])
            return call(held, name, *arguments)

        sides.Held._answer = counted
        sys.argv = [str(SAMTERM), *words]
        runpy.run_path(str(SAMTERM), run_name="__main__")


if __name__ == "__main__":
    main()
