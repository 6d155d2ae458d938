"""A host at one end of two streams of bytes: what it answers, what stops it, and which files it takes."""
from checks import expect_equal
from frames import frame, messages, stamps
from sulgrevad import Host

from .trying import code_of

ASKED = frame("Tversion", 2) + frame("Tack") + frame("Tstartfile", 1) + frame("Trequest", 1, 0, 3)

# Each with its stamp.
ANSWERED = [
    (1, ("Hversion", 2)),
    (1, ("Hnewname", 1)),
    (1, ("Hmovname", 1, "file")),
    (1, ("Hnewname", 2)),
    (1, ("Hmovname", 2, "b")),
    (1, ("Hack",)),
    (1, ("Hunlock",)),
    (3, ("Hbindname", 1)),
    (3, ("Hgrow", 1, 0, 5)),
    (3, ("Hunlock",)),
    (4, ("Hdata", 1, 0, "hel")),
    (4, ("Hunlockfile", 1)),
]


def two_files():
    """A host with the files `file`, of the text `hello`, and `b`, of the text `x`."""
    host = Host()
    expect_equal((host.add_file("file", "hello"), host.add_file("b", "x")), (1, 2))
    return host


def taken_out(host, most):
    """What waits for the terminal, in pieces of so many bytes."""
    taken = b""
    while piece := host.take_out(most):
        taken += piece
    return taken


def test_a_stream_is_answered():
    host = two_files()
    for byte in ASKED:
        host.feed(bytes([byte]))
    host.finish()
    answered = taken_out(host, 7)
    expect_equal(list(zip(stamps(answered), messages(answered))), ANSWERED)
    expect_equal(len(answered), 170)
    expect_equal(host.taken, 4)


def test_a_stream_may_end_between_two_messages():
    host = Host()
    host.finish()
    host.feed(frame("Tversion", 2)[:-1])
    expect_equal(code_of(host.finish), "TRUNCATED")
    host.feed(frame("Tversion", 2)[-1:])
    host.finish()


def test_a_write_is_told_once():
    host = two_files()
    host.feed(frame("Tstartfile", 1) + frame("Ttype", 1, 5, "!") + frame("Twrite", 1))
    expect_equal((host.next_written(), host.next_written(), host.saved(1)), (1, None, "hello!"))


def test_edits_in_one_piece_are_made_up_to_a_refusal():
    host = two_files()
    edits = frame("Ttype", 1, 5, "!") + frame("Tcut", 1, 0, 1) + frame("Ttype", 1, 0, "J") + frame("Tcut", 1, 0, 99)
    refused = code_of(host.feed, frame("Tstartfile", 1) + edits + frame("Tack"))
    expect_equal((refused, host.text(1), host.taken), ("HOST_BAD_POSITION", "Jello!", 4))


def test_a_wrong_stream_stops_the_host():
    host = two_files()
    expect_equal(code_of(host.feed, frame("Tversion", 2) + b"\xff"), "BAD_KIND")
    expect_equal((host.pending, code_of(host.feed)), (92, "BAD_KIND"))


def test_a_fault_is_told_by_its_place():
    host, fine = two_files(), frame("Tversion", 2) + frame("Tack")
    host.feed(fine[:4])
    expect_equal(host.fault_place, None)
    expect_equal((code_of(host.feed, fine[4:] + b"\xff" + fine), host.fault_place), ("BAD_KIND", len(fine)))
    refuses = two_files()
    expect_equal((code_of(refuses.feed, frame("Tclose", 9)), refuses.fault_place), ("HOST_NO_FILE", None))


def test_a_refusal_stops_the_host():
    host = two_files()
    expect_equal(code_of(host.feed, frame("Tstartfile", 9)), "HOST_NO_FILE")
    expect_equal((code_of(host.feed), code_of(host.finish)), ("HOST_NO_FILE", "HOST_NO_FILE"))


def test_files_are_refused_in_order():
    host = two_files()
    expect_equal(code_of(host.add_file, "a" * 65, b"\xff"), "NOT_TEXT")
    expect_equal(code_of(host.add_file, "a" * 65, "x"), "ADD_TOO_LONG")
    expect_equal(host.tags, 3)


def test_tags_run_out():
    host = Host()
    tags = [host.add_file("") for _ in range(65_535)]
    expect_equal((tags[0], tags[-1], code_of(host.add_file, "")), (1, 65_535, "ADD_NO_TAG"))
    expect_equal(code_of(host.add_file, "a" * 65), "ADD_TOO_LONG")
