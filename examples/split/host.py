"""host.py FILE: holds the text of a file, and serves it at the socket FILE.socket to one terminal after another."""
import asyncio
import os
import sys
from pathlib import Path

from sulgrevad.aio import serve

path = Path(sys.argv[1])
folder = os.open(path.parent, os.O_RDONLY)


def write(_name, text):
    """Writes the text to the disk, under another name first: so the file is the old text or the new one, whenever the power goes."""
    with open(f"{path}.new", "wb") as new:
        new.write(text.encode())
        new.flush()
        os.fsync(new.fileno())
    os.replace(new.name, path)
    os.fsync(folder)  # which has the name


asyncio.run(serve({"text": path.read_bytes().decode()}, f"{path}.socket", write))
