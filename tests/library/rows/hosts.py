"""A host's answers: how many frames each kind of message gets, and edits that come in one piece."""
import time

from checks import expect, expect_equal, in_some_try
from frames import frame, messages, stamps
from sulgrevad import Host

from .trying import code_of

# Messages to a host whose file 1 has the text abcdefghij, each with the number of frames that it is answered with.
EVERY_KIND = (
    (("Tversion", 1), 5),
    (("Tstartcmdfile",), 4),
    (("Tstartfile", 1), 3),
    (("Tcheck", 1), 1),
    (("Trequest", 1, 0, 5), 2),
    (("Torigin", 1, 0, 0), 2),
    (("Tworkfile", 1, 0, 2), 1),
    (("Ttype", 1, 0, "x"), 0),
    (("Tcut", 1, 0, 1), 0),
    (("Tsnarf", 1, 0, 2), 1),
    (("Tpaste", 1, 0), 4),  # the file is dirty already
    (("Twrite", 1), 2),
    (("Tlook", 1, 0, 2), 5),
    (("Tsearch", 1, 2, 4), 4),
    (("Tdclick", 1, 0), 2),
    (("Tstartsnarf",), 1),
    (("Tsetsnarf", "q"), 1),
    (("Ttype", 0, 0, ",d\n"), 5),
    (("Tsend", 0, 0, 2), 5),
    (("Tstartnewfile",), 4),
    (("Tclose", 2), 3),
    (("Trequest", 2, 0, 5), 0),
    (("Tack",), 0),
    (("Texit",), 1),
)


def host_of(text):
    """A host with one file of this text, under tag 1."""
    host = Host()
    host.add_file("", text)
    return host


def test_every_kind_is_answered():
    host = host_of("abcdefghij")
    counts = []
    for message, _ in EVERY_KIND:
        host.feed(frame(*message))
        counts.append((message, len(messages(host.take_out()))))
    expect_equal(counts, list(EVERY_KIND))
    expect_equal((host.taken, host.is_done), (24, True))


def test_edits_in_one_piece_are_all_made():
    host = host_of("abcdefghij")
    host.feed(frame("Tstartfile", 1))
    expect_equal(len(messages(host.take_out())), 3)
    host.feed(frame("Ttype", 1, 0, "x") + frame("Tcut", 1, 1, 3) + frame("Ttype", 1, 0, "yz"))
    expect_equal((host.text(1), host.taken, host.pending), ("yzxcdefghij", 4, 0))
    host.feed(frame("Tcheck", 1))
    expect_equal(messages(host.take_out()), [("Hcheck", 1)])


def test_no_edit_is_made_of_a_file_that_is_not_open():
    host = host_of("abcdefghij")
    edits = frame("Ttype", 1, 0, "x") + frame("Tcut", 1, 1, 3)
    expect_equal(code_of(host.feed, edits), "HOST_NOT_OPEN")
    expect_equal((host.text(1), host.taken), ("abcdefghij", 0))


def test_edits_in_one_piece_are_made_up_to_one_that_is_refused():
    host = host_of("abc")
    host.feed(frame("Tstartfile", 1))
    expect_equal(code_of(host.feed, frame("Tcut", 1, 0, 2) + frame("Tcut", 1, 0, 99)), "HOST_BAD_POSITION")
    expect_equal((host.text(1), host.taken), ("c", 2))


def test_lines_that_are_typed_in_one_piece_are_each_run():
    host = host_of("abc")
    host.feed(frame("Tstartcmdfile") + frame("Tstartfile", 1))
    host.take_out()
    host.feed(frame("Ttype", 0, 0, "\n") + frame("Ttype", 0, 0, "\n"))
    answered = host.take_out()
    unlocked = [stamp for stamp, told in zip(stamps(answered), messages(answered)) if told == ("Hunlock",)]
    expect_equal((unlocked, host.taken), ([3, 4], 4))


def seconds_of(host, pieces):
    """How long the host works on these pieces."""
    start = time.process_time()
    for piece in pieces:
        host.feed(piece)
    return time.process_time() - start


def expect_one_move():
    edits = [frame("Ttype", 1, 0, "x")] * 200
    hosts = [host_of("ab" * 499_900), host_of("ab" * 499_900)]
    for host in hosts:
        host.feed(frame("Tstartfile", 1))
    at_once, one_by_one = seconds_of(hosts[0], [b"".join(edits)]), seconds_of(hosts[1], edits)
    expect_equal([host.text(1) == "x" * 200 + "ab" * 499_900 for host in hosts], [True, True])
    expect(at_once * 5 < one_by_one, f"edits in one piece take {at_once} s, and one by one {one_by_one} s")


def test_edits_in_one_piece_move_the_text_once():
    in_some_try(expect_one_move)
