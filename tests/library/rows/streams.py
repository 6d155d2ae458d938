"""Streams, fed whole and in pieces: where a message or a frame becomes whole, where a fault shows, and how several are written."""
from frames import frame
from sulgrevad import Host, Terminal

from .trying import code_of, expect_equal, host_with, take, with_gaps

TYPE_HI = bytes.fromhex("08 0008 0001 00000000 6869")  # a Ttype of `hi` at the start of file 1
DATA_AB = bytes.fromhex("49 0010 0000000000000000 0001 00000000 6162")  # an Hdata of `ab`
VERSION = bytes.fromhex("41 000a 0000000000000002 0002")  # an Hversion of 2, which has seen two messages


def is_cut(side):
    """Whether the stream may not end here, since half a message is held."""
    return code_of(side.finish) == "TRUNCATED"


def test_a_message_one_byte_at_a_time():
    host = host_with("")
    host.finish()
    for byte in TYPE_HI[:-1]:
        host.feed(bytes([byte]))
        host.feed(b"")
        expect_equal((host.taken, host.text(1), is_cut(host)), (1, "", True))
    host.feed(TYPE_HI[-1:])
    host.finish()
    expect_equal((host.taken, host.text(1)), (2, "hi"))


def test_a_frame_one_byte_at_a_time():
    terminal = with_gaps(2)
    terminal.finish()
    for byte in DATA_AB[:-1]:
        terminal.feed(bytes([byte]))
        terminal.feed(b"")
        expect_equal((terminal.read(1, 0, 2), is_cut(terminal)), ([None, None], True))
    terminal.feed(DATA_AB[-1:])
    terminal.finish()
    expect_equal(terminal.text(1), "ab")


def fault_of(side, data):
    """Why a side stops at a stream, which it says from then on; None if it doesn't."""
    try:
        side.feed(data)
    except Exception as error:
        expect_equal([code_of(side.feed, b""), code_of(side.finish)], [error.code.name] * 2)
        return error.code.name
    return None


def test_faults_show_in_their_place():
    for digits, taken, fault in (
        ("17", 0, "BAD_KIND"),
        ("08 0005", 0, "BAD_LENGTH"),
        ("08 0806", 0, None),
        ("08 0807", 0, "BAD_LENGTH"),
        ("08 0007 0001 00000000 c3", 0, "BAD_TEXT"),
        ("06 0002 0001 17", 1, "BAD_KIND"),
        ("06 0002 00", 0, None),
        ("01 0002 0002 14 1001", 1, None),
        ("14 1001", 0, "BAD_LENGTH"),
    ):
        host = Host()
        host.add_file("file", "")
        expect_equal((digits, fault_of(host, bytes.fromhex(digits)), host.taken), (digits, fault, taken))
        if fault is None:
            expect_equal((digits, is_cut(host)), (digits, True))


def test_what_stands_before_a_fault_is_answered():
    host = Host()
    host.add_file("file", "")
    host.feed(bytes.fromhex("06 0002 0001 08"))  # a Tstartfile, and the first byte of a Ttype
    expect_equal((host.taken, len(host.take_out())), (1, 13 + 11))  # Hbindname and Hunlock
    expect_equal(fault_of(host, bytes.fromhex("0007 0001 00000000 c3")), "BAD_TEXT")
    expect_equal((host.taken, host.pending, host.text(1)), (1, 0, ""))


def test_a_text_of_512_runes_and_no_more():
    host = host_with("")
    host.feed(bytes.fromhex("08 0206 0001 00000000") + b"a" * 512)
    expect_equal((host.taken, host.len(1)), (2, 512))
    expect_equal(fault_of(host, bytes.fromhex("08 0207 0001 00000000") + b"a" * 513), "BAD_TEXT")
    expect_equal((host.taken, host.len(1)), (2, 512))


def sent_two():
    """A terminal that has sent two messages."""
    terminal = Terminal()
    terminal.get_snarf()
    terminal.get_snarf()
    return terminal


def test_a_frame_of_the_host_and_a_fault_behind_it():
    terminal = sent_two()
    expect_equal((terminal.version, terminal.under_way), (1, 2))
    terminal.feed(VERSION)
    expect_equal((terminal.version, terminal.under_way), (2, 0))
    expect_equal(fault_of(terminal, b"\x08"), "BAD_KIND")
    terminal = sent_two()
    expect_equal(fault_of(terminal, VERSION + b"\x08"), "BAD_KIND")
    expect_equal((terminal.version, terminal.under_way), (2, 0))


def test_messages_of_the_terminal_are_written_one_after_another():
    terminal = with_gaps(0)
    terminal.open(1)
    expect_equal(terminal.pending, 5)
    take(terminal, "Hunlock")
    terminal.type(1, "hi")
    terminal.flush_now()
    expect_equal(terminal.take_out(), bytes.fromhex("06 0002 0001") + TYPE_HI)


def test_frames_of_the_host_are_written_one_after_another():
    host = Host()
    host.feed(frame("Tack") + frame("Tversion", 2))
    wanted = "57 0008 0000000000000002  48 0008 0000000000000002"  # Hack, Hunlock
    expect_equal(host.take_out(), VERSION + bytes.fromhex(wanted))
    host = host_with("ab")
    host.feed(frame("Trequest", 1, 0, 9))
    wanted = "49 0010 0000000000000002 0001 00000000 6162  4b 000a 0000000000000002 0001"  # Hdata, Hunlockfile
    expect_equal(host.take_out(), bytes.fromhex(wanted))
