"""A terminal at one end of two streams of bytes: what goes out at once, what waits, and what it tells of itself."""
from sulgrevad import Change, Status, Terminal

from .trying import code_of, expect_equal

UNLOCK = "48 0008 0000000000000001"  # Hunlock, as the answer to the first message
OPENING = "44 000a 0000000000000000 0001  42 000a 0000000000000000 0001"  # Hnewname and Hbindname of file 1


def feed(terminal, digits):
    terminal.feed(bytes.fromhex(digits))


def gives(terminal, digits):
    """Just these bytes wait for the host; they are taken."""
    wanted = bytes.fromhex(digits)
    expect_equal((terminal.pending, terminal.take_out(), terminal.pending), (len(wanted), wanted, 0))


def test_a_version_goes_out_at_once():
    terminal = Terminal()
    terminal.offer_version(2)
    gives(terminal, "01 0002 0002")


def test_an_event_that_is_held_acts_behind_its_frame():
    terminal = Terminal()
    terminal.offer_version(2)
    terminal.open_cmd()
    gives(terminal, "01 0002 0002")
    feed(terminal, UNLOCK[:10])
    gives(terminal, "")
    feed(terminal, UNLOCK[10:])
    gives(terminal, "02 0000")


def test_a_refusal_is_told_once():
    terminal = Terminal()
    terminal.offer_version(2)
    terminal.cut(7)
    expect_equal(terminal.next_refusal(), None)
    feed(terminal, UNLOCK)
    expect_equal((terminal.next_refusal(), terminal.next_refusal()), ((2, Status.REFUSAL_NO_FILE), None))


def test_typed_runes_go_out_at_a_flush():
    terminal = Terminal()
    feed(terminal, OPENING)
    terminal.type(1, "a")
    gives(terminal, "")
    terminal.flush_now()
    gives(terminal, "08 0007 0001 00000000 61")


def under_way(terminal):
    """How many messages are under way, and how many the host had taken when it made its last frame."""
    return terminal.under_way, terminal.sent - terminal.under_way


def test_messages_are_under_way_until_a_later_one_is_answered():
    terminal = Terminal()
    expect_equal(under_way(terminal), (0, 0))
    terminal.offer_version(2)
    expect_equal(under_way(terminal), (1, 0))
    feed(terminal, "57 0008 0000000000000001")  # Hack, which the second message answers
    expect_equal(under_way(terminal), (1, 1))
    feed(terminal, UNLOCK)
    expect_equal(under_way(terminal), (1, 1))
    terminal.open_cmd()
    expect_equal(under_way(terminal), (2, 1))
    feed(terminal, "48 0008 0000000000000003")
    expect_equal(under_way(terminal), (0, 3))


def test_a_refused_frame_leaves_the_stamp():
    terminal = Terminal()
    terminal.offer_version(2)
    expect_equal(code_of(feed, terminal, "48 0008 0000000000000002"), "TERM_FROM_THE_FUTURE")
    expect_equal(under_way(terminal), (1, 0))


def test_changes_are_told_since_the_last_question():
    terminal = Terminal()
    expect_equal(code_of(terminal.changed, 1), "NONE")
    feed(terminal, OPENING + "46 0012 0000000000000000 0001 00000000 00000005")  # and Hgrow
    expect_equal(terminal.changed(1), Change(0, 0, 5))
    feed(terminal, "49 0010 0000000000000000 0001 00000002 6364")  # Hdata
    expect_equal(terminal.changed(1), Change(2, 2, 2))
    terminal.type(1, "ab")
    feed(terminal, "51 0012 0000000000000000 0001 00000000 00000001")  # Hcut of the first
    expect_equal(terminal.changed(1), Change(0, 0, 1))
    terminal.select(1, 4, 6)
    terminal.cut(1)
    expect_equal(terminal.changed(1), Change(4, 2, 0))


def test_a_stream_may_end_between_two_frames():
    terminal = Terminal()
    terminal.finish()
    terminal.offer_version(2)
    terminal.open_cmd()
    expect_equal((terminal.events, terminal.decided), (2, 1))
    feed(terminal, UNLOCK[:10])
    expect_equal(code_of(terminal.finish), "TRUNCATED")
    feed(terminal, UNLOCK[10:])
    terminal.finish()
    expect_equal((terminal.events, terminal.decided), (2, 2))
