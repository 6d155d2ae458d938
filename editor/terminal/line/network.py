"""Hears when an address of this machine goes or comes, as where it changes from one network to another.

A connection from an address that has gone is dead, but only its silence shows it.
"""
import select
import socket
import struct
from typing import Dict, NamedTuple, Optional, Set

GROUPS = 0x10 | 0x100  # of rtnetlink(7): addresses of IPv4, and of IPv6
CAME, GONE = 20, 21  # its kinds of message
HEAD = struct.Struct("=IHHII")  # of each message: its length and kind, and three numbers more
MOST_HEARD = 65_536  # bytes taken at once


class Heard(NamedTuple):
    """Whether addresses have come, and whether some have gone."""

    came: bool
    gone: bool


NOTHING = Heard(False, False)


class Network:
    """A socket on which the kernel tells of addresses. Without one, as outside Linux, nothing is heard."""

    def __init__(self) -> None:
        self._socket: Optional[socket.socket] = None
        try:
            self._socket = socket.socket(socket.AF_NETLINK, socket.SOCK_RAW | socket.SOCK_NONBLOCK, socket.NETLINK_ROUTE)
            self._socket.bind((0, GROUPS))
        except (AttributeError, OSError):
            self.close()

    def close(self) -> None:
        """Hears nothing any more."""
        if self._socket is not None:
            self._socket.close()
        self._socket = None

    def wanted(self) -> Dict[int, int]:
        """What to wait for: events by descriptor."""
        return {} if self._socket is None else {self._socket.fileno(): select.POLLIN}

    def hear(self, ready: Dict[int, int]) -> Heard:
        """What has happened since the last call, where what is ready has its descriptor."""
        if self._socket is None or self._socket.fileno() not in ready:
            return NOTHING
        kinds: Set[int] = set()
        while self._socket is not None and self._socket.fileno() in ready:
            try:
                kinds |= kinds_of(self._socket.recv(MOST_HEARD))
            except BlockingIOError:
                break
            except OSError:  # the kernel has dropped messages, which may have told of either
                kinds |= {CAME, GONE}
                break
        return Heard(CAME in kinds, GONE in kinds)


def kinds_of(data: bytes) -> Set[int]:
    """The kinds of the messages that some bytes are."""
    kinds: Set[int] = set()
    at = 0
    while at + HEAD.size <= len(data):
        length, kind, *_ = HEAD.unpack_from(data, at)
        kinds.add(kind)
        at += max(HEAD.size, length + 3 & ~3)
    return kinds
