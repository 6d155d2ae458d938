"""What the calls of host and terminal tell: results of steps, changes, refusals, states."""
from typing import NamedTuple, Optional, Tuple

from sulgrevad.status import Status, Step


class Refusal(NamedTuple):
    """An event of the user that was refused: its number, counted from 1 over all event calls, and the reason."""

    event: int
    why: Status


class Change(NamedTuple):
    """A change of a text: from the place `start` on, `gone` runes or gaps of the old text gave way to `came` of the new one."""

    start: int
    gone: int
    came: int


class HostDid(NamedTuple):
    """The result of a host's step. `kind` is the kind of the message of an ANSWERED step, by the numbers of docs/reference/PROTOCOL.md.
    `tag` is the file of an EDITED or ANSWERED step, or 0. `messages` is the number of messages that the host took."""

    step: Step
    kind: int = 0
    tag: int = 0
    messages: int = 0


class TerminalDid(NamedTuple):
    """The result of a terminal's step. `kind` is the kind of the frame of a RECEIVED step. `tag` is the file of a RECEIVED or ACTED step,
    or 0, and `change` the change of its text. `event` is the number of an event that ACTED or was REFUSED, and `why` the reason of the
    refusal. `loads` says whether the frame loads runes in the place of gaps: more of the text is known then, and nothing changed. `request`
    is the number of the request of a client or an overlay that ACTED or was REFUSED, as `ask` returned it; 0 if no request did this. `task`
    is the number of the task of a client that ends by this, as `begin` or `write` returned it; 0 if none does."""

    step: Step
    kind: int = 0
    tag: int = 0
    change: Change = Change(0, 0, 0)
    event: int = 0
    why: Optional[Status] = None
    loads: bool = False
    request: int = 0
    task: int = 0


class NextFrame(NamedTuple):
    """The frame that a terminal's next step receives: its kind, by the numbers of docs/reference/PROTOCOL.md, the file that it names, or 0,
    and the place in the text of that file from which on `gone` runes or gaps will give way. `loads` says whether gaps give way to their
    runes."""

    kind: int
    tag: int
    start: int
    gone: int
    loads: bool = False


class TerminalState(NamedTuple):
    """The state of a terminal. Each field is the result of the reader of its name."""

    events: int
    decided: int
    held: int
    sent: int
    under_way: int
    pending: int
    tags: int
    unsent: int
    snarf_len: int
    version: int
    command_locked: bool
    exited: bool


class FileState(NamedTuple):
    """The state of a terminal's file. Each field is the result of its reader. If there is no such file, or it is not open, the fields that
    need it are 0 or False. `is_free` says whether an edit would act at once: the file is open and not locked, no frame waits, no event is
    held, not even one of another file, and the session goes on."""

    is_known: bool
    is_open: bool
    is_dirty: bool
    is_changed: bool
    is_locked: bool
    is_free: bool
    len: int
    dot: Tuple[int, int]
    view: Tuple[int, int]
