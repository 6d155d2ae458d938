"""Streams of a host's frames, and what a terminal makes of them."""
from checks import expect_equal
from frames import frame, messages
from sulgrevad import Terminal

from .trying import code_of

KNOWN = frame("Hnewname", 1)
OPEN = KNOWN + frame("Hbindname", 1)

# Pieces that a new terminal refuses.
REFUSED = (
    (frame("Hunlock"), "TERM_LOCK_NOT_HELD"),
    (frame("Hunlock", seen=1), "TERM_FROM_THE_FUTURE"),
    (frame("Hunlockfile", 5), "TERM_NO_FILE"),
    (frame("Hbindname", 1), "TERM_NO_FILE"),
    (KNOWN + KNOWN, "TERM_ALREADY_BOUND"),
    (KNOWN + frame("Hgrow", 1, 0, 5), "TERM_NOT_OPEN"),
    (OPEN + frame("Hgrow", 1, 0, 1_000_001), "TERM_TOO_LONG"),
)


def test_a_refused_frame_stops_the_terminal():
    for piece, why in REFUSED:
        terminal = Terminal()
        told = code_of(terminal.feed, piece), code_of(terminal.feed), code_of(terminal.finish)
        expect_equal((piece.hex(" "), told), (piece.hex(" "), (why,) * 3))


def test_an_acknowledgement_is_answered():
    terminal = Terminal()
    # The second has a stamp for which the Tack must be counted.
    terminal.feed(frame("Hack") + frame("Hversion", 1, seen=1))
    expect_equal(messages(terminal.take_out()), [("Tack",)])


def test_a_stream_may_be_cut_short():
    terminal = Terminal()
    terminal.feed(frame("Hunlock")[:3])
    expect_equal(code_of(terminal.finish), "TRUNCATED")


def test_a_wrong_byte_stops_the_terminal():
    terminal = Terminal()
    expect_equal((code_of(terminal.feed, b"\x08"), code_of(terminal.feed, b"\x08")), ("BAD_KIND", "BAD_KIND"))


def test_a_fault_is_told_by_its_place():
    terminal = Terminal()
    terminal.bring(OPEN + b"\x08")
    terminal.step()
    expect_equal(terminal.fault_place, None)
    terminal.step()
    expect_equal((code_of(terminal.step), terminal.fault_place), ("BAD_KIND", len(OPEN)))
    refuses = Terminal()
    expect_equal((code_of(refuses.feed, KNOWN + KNOWN), refuses.fault_place), ("TERM_ALREADY_BOUND", None))
