"""A proxy on the loopback that breaks connections: what stands between a browser and a server."""
import contextlib
import select
import socket
import threading

PIECE = 65_536
LINE = b"/line "  # stands in the request for a WebSocket
PREPARES = b"prefetch;prerender"  # stands in the request for a page that the browser only prepares
BINARY = b"\x82"  # begins a message of the host's bytes; samweb's own are of ASCII


class Carried:
    """A WebSocket's two connections, whether the host has answered, whether what comes is dropped, and how many bytes may still come from
    the host; None for any number."""

    def __init__(self, near, far, most_down):
        self.near, self.far, self.is_answered, self.is_swallowed, self.left = near, far, False, False, most_down

    def takes(self, is_down, count):
        """Whether so many bytes go on; from the host no more do once some didn't."""
        if is_down and self.left is not None:
            self.left = max(0, self.left - count)
        return not self.is_swallowed and not (is_down and self.left == 0)


class Proxy:
    """Carries connections to a port of this machine. `refuses_lines` has those for a WebSocket closed at once, and of the others each
    brings `most_down` bytes at most. `has_prepared` says whether a browser has asked for a page that it only prepares."""

    def __init__(self, target):
        self.target, self.refuses_lines, self.most_down, self.has_prepared = target, False, None, False
        self.listener = socket.create_server(("127.0.0.1", 0))
        self.port = self.listener.getsockname()[1]
        self.lock, self.lines = threading.Lock(), []
        threading.Thread(target=self._accept, daemon=True).start()

    def _accept(self):
        with contextlib.suppress(OSError):
            while True:
                near, _ = self.listener.accept()
                threading.Thread(target=self._carry, args=(near,), daemon=True).start()

    def _carry(self, near):
        with contextlib.suppress(OSError), near:
            first = near.recv(PIECE)
            self.has_prepared |= PREPARES in first
            is_line = LINE in first.split(b"\r\n", 1)[0]
            with socket.create_connection(("127.0.0.1", self.target)) as far:
                for end in (near, far):
                    end.setsockopt(socket.IPPROTO_TCP, socket.TCP_NODELAY, 1)  # else a second small message waits 40 ms
                carried = Carried(near, far, self.most_down if is_line else None)
                if is_line:
                    with self.lock:
                        if self.refuses_lines:
                            return
                        self.lines.append(carried)
                far.sendall(first)
                try:
                    self._pump(carried)
                finally:
                    with self.lock:
                        self.lines = [line for line in self.lines if line is not carried]

    def _pump(self, carried):
        """Carries what comes, until an end is closed. Of one that is swallowed the other end hears nothing any more."""
        near, far = carried.near, carried.far
        other, ends = {near: far, far: near}, [near, far]
        while ends:
            for ready in select.select(ends, [], [], 60)[0]:
                data = ready.recv(PIECE)
                carried.is_answered |= ready is far and BINARY in data
                self.has_prepared |= ready is near and PREPARES in data
                if not data and not carried.is_swallowed:
                    return
                if not data:
                    ends.remove(ready)
                elif carried.takes(ready is far, len(data)):
                    other[ready].sendall(data)

    def has_line(self, is_answered):
        """Whether a WebSocket is there; with `is_answered` one over which the host has answered."""
        with self.lock:
            return any(line.is_answered or not is_answered for line in self.lines)

    def cut(self):
        """Breaks the WebSockets that are there. Returns how many."""
        with self.lock:
            lines = list(self.lines)
        for line in lines:
            for end in (line.near, line.far):
                with contextlib.suppress(OSError):
                    end.shutdown(socket.SHUT_RDWR)
        return len(lines)

    def swallow(self):
        """Has nothing go through the WebSockets that are there any more, though they stay open. Returns how many."""
        with self.lock:
            for line in self.lines:
                line.is_swallowed = True
            return len(self.lines)

    def close(self):
        self.listener.close()
        self.cut()
