"""Scripts, which are run over a host and a terminal of their own."""
import ctypes
from ctypes import byref, c_size_t

from sulgrevad._library import LIBRARY, PIECE, Text, bytes_of
from sulgrevad.status import ScriptFault, Status, error_of


def replay(script: Text) -> bytes:
    """Runs a script over a host and a terminal of its own, and returns the output of its `show` lines. Raises ScriptFault or NoMemory."""
    data, room = bytes_of(script), PIECE
    while True:
        out, length, line = ctypes.create_string_buffer(room), c_size_t(), c_size_t()
        code = LIBRARY.sam_replay(data, len(data), out, room, byref(length), byref(line))
        if code != Status.OK:
            error = error_of(code)
            if isinstance(error, ScriptFault) and code == Status.SCRIPT_LINE:
                error.line = line.value
            raise error
        if length.value <= room:
            return ctypes.string_at(out, length.value)
        room = length.value
