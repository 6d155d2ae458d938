"""The files of a host: what messages change of a text, of its dot and its marks, and how tags are given."""
from frames import frame, messages
from sulgrevad import Host

from .trying import answers, code_of, expect_equal, host_with

PLAIN = (("Hbindname", 1), ("Hgrow", 1, 0, 2), ("Hunlock",))  # what opens a file of two runes


def state(host, tag=1):
    """Text, dot, and whether the file is dirty."""
    return host.text(tag), host.dot(tag), host.is_dirty(tag)


def test_a_rune_behind_the_end_is_refused():
    host = host_with("xy")
    expect_equal(code_of(host.feed, frame("Ttype", 1, 3, "z")), "HOST_BAD_POSITION")
    expect_equal((state(host), host.taken), (("xy", (0, 0), False), 1))


def test_a_rune_at_the_end_comes_in():
    host = host_with("xy")
    expect_equal(answers(host, "Ttype", 1, 2, "z"), [])
    expect_equal(state(host), ("xyz", (3, 3), True))


def test_changes_in_a_row_are_made_up_to_one_that_is_refused():
    host = host_with("old")
    changes = ("Ttype", 1, 3, "er"), ("Tcut", 1, 0, 1), ("Ttype", 1, 0, "b"), ("Tcut", 1, 4, 6)
    expect_equal(code_of(host.feed, b"".join(frame(*change) for change in changes)), "HOST_BAD_POSITION")
    expect_equal((state(host), host.taken, host.pending), (("blder", (1, 1), True), 4, 0))


def test_snarfed_runes_are_pasted():
    host = host_with("xy")
    expect_equal(answers(host, "Tsnarf", 1, 0, 2), [("Hsnarflen", 2)])
    wanted = [("Hgrowdata", 1, 2, "xy"), ("Hdirty", 1), ("Hsetdot", 1, 2, 4), ("Hcheck", 1), ("Hunlockfile", 1)]
    expect_equal((answers(host, "Tpaste", 1, 2), state(host)), (wanted, ("xyxy", (2, 4), True)))


def test_runes_of_the_terminal_are_pasted():
    host = host_with("xyxy")
    expect_equal(answers(host, "Tsetsnarf", "!"), [("Hsnarflen", 1)])
    wanted = [("Hgrowdata", 1, 0, "!"), ("Hdirty", 1), ("Hsetdot", 1, 0, 1), ("Hcheck", 1), ("Hunlockfile", 1)]
    expect_equal((answers(host, "Tpaste", 1, 0), state(host)), (wanted, ("!xyxy", (0, 1), True)))


def test_a_written_file_is_kept_and_clean():
    host = host_with("xyz")
    expect_equal((host.saved_len(1), host.next_written()), (None, None))
    expect_equal(answers(host, "Tdclick", 1, 1), [("Hsetdot", 1, 0, 3), ("Hunlockfile", 1)])
    host.feed(frame("Tcut", 1, 1, 1))
    expect_equal(host.is_dirty(1), True)
    expect_equal(answers(host, "Twrite", 1), [("Hclean", 1), ("Hunlockfile", 1)])
    expect_equal((host.saved(1), host.next_written(), host.next_written()), ("xyz", 1, None))
    expect_equal(state(host), ("xyz", (1, 1), False))


def test_tags_are_given_once():
    host = host_with("xy")
    expect_equal(answers(host, "Tclose", 1), [("Hclose", 1), ("Hdelname", 1), ("Hunlock",)])
    for tag in (2, 3):
        made = [("Hnewname", tag), ("Hbindname", tag), ("Hcurrent", tag), ("Hunlock",)]
        expect_equal(answers(host, "Tstartnewfile"), made)
    expect_equal((host.files(), host.tags), ([0, 2, 3], 4))


def test_only_a_tag_that_was_given_can_be_asked_for():
    host = host_with("xy", "z")
    answers(host, "Tclose", 1)
    expect_equal(answers(host, "Trequest", 1, 0, 3), [])
    expect_equal(answers(host, "Trequest", 2, 0, 3), [("Hdata", 2, 0, "z"), ("Hunlockfile", 2)])
    expect_equal(code_of(host.feed, frame("Trequest", 3, 0, 3)), "HOST_NO_FILE")


def test_a_file_is_announced_and_opened_once():
    host = Host()
    host.add_file("a", "xy")
    names = [("Hnewname", 1), ("Hmovname", 1, "a")]
    expect_equal(answers(host, "Tversion", 1), [("Hversion", 1), *names, ("Hack",), ("Hunlock",)])
    expect_equal(answers(host, "Tversion", 1), [("Hversion", 1), ("Hack",), ("Hunlock",)])
    expect_equal(answers(host, "Tstartfile", 1), [*PLAIN])
    expect_equal(answers(host, "Tstartfile", 1), [("Hunlock",)])
    opened = [("Hnewname", 0), ("Hmovname", 0, "~~sam~~"), ("Hbindname", 0), ("Hunlock",)]
    expect_equal((answers(host, "Tstartcmdfile"), answers(host, "Tstartcmdfile")), (opened, [("Hunlock",)]))


def test_a_file_that_is_opened_again_is_the_work_file_with_its_dot():
    host = host_with("xy")
    expect_equal(answers(host, "Tworkfile", 1, 1, 2), [("Hcurrent", 1)])
    host.feed(frame("Tstartnewfile") + frame("Tstartcmdfile") + frame("Ttype", 0, 0, "a/new/\n"))
    expect_equal((host.text(1), host.text(2), host.dot(1)), ("xy", "new", (1, 2)))
    host.feed(frame("Tstartfile", 1) + frame("Ttype", 0, host.len(0), "i/X/\n"))
    expect_equal((host.text(1), host.text(2), host.dot(1)), ("xXy", "new", (1, 2)))


def test_the_command_file_stays_clean():
    host = host_with("xy")
    host.feed(frame("Tstartcmdfile") + frame("Ttype", 0, 0, "abc") + frame("Tcut", 0, 0, 1) + frame("Tsetsnarf", "!"))
    host.take_out()
    pasted = [("Hgrowdata", 0, 2, "!"), ("Hsetdot", 0, 2, 3), ("Hcheck", 0), ("Hunlockfile", 0)]
    expect_equal(answers(host, "Tpaste", 0, 2), pasted)
    expect_equal((state(host, 0), state(host)), (("bc!", (2, 3), False), ("xy", (0, 0), False)))
    host.feed(frame("Tcut", 1, 0, 1))
    expect_equal((host.is_dirty(0), host.is_dirty(1)), (False, True))


def test_look_and_search_go_on_from_the_dot():
    host = host_with("abcab")
    found = [("Hsetdot", 1, 3, 5), ("Hmoveto", 1, 3), ("Hcheck", 1), ("Hunlockfile", 1)]
    expect_equal(answers(host, "Tlook", 1, 0, 2), [("Hsetpat", "ab"), *found])
    again = [("Hsetdot", 1, 0, 2), ("Hmoveto", 1, 0), ("Hcheck", 1), ("Hunlockfile", 1)]
    expect_equal((answers(host, "Tsearch", 1, 3, 5), host.dot(1)), (again, (0, 2)))
    expect_equal((answers(host, "Tlook", 1, 2, 2), host.dot(1)), ([("Hunlockfile", 1)], (0, 2)))


# What a terminal sends, what the host with the one file `hello` answers, and why it stops, if it does
STREAMS = (
    ((), (), None),
    ((("Tstartfile", 5),), (), "HOST_NO_FILE"),
    ((("Tstartfile", 0),), (), "HOST_COMMAND_FILE"),
    ((("Trequest", 1, 0, 3),), (), "HOST_NOT_OPEN"),
    ((("Tversion", 0),), (), "HOST_BAD_VERSION"),
    ((("Tstartfile", 1), ("Ttype", 1, 6, "!"), ("Trequest", 1, 0, 9)), ("Hbindname", "Hgrow", "Hunlock"), "HOST_BAD_POSITION"),
    ((("Tstartfile", 1), b"\x17"), ("Hbindname", "Hgrow", "Hunlock"), "BAD_KIND"),
    ((("Tstartfile", 1), ("Tstartfile", 5), b"\x17"), ("Hbindname", "Hgrow", "Hunlock"), "HOST_NO_FILE"),
    ((b"\x06\x00\x02\x00",), (), "TRUNCATED"),
    ((("Texit",), ("Tstartfile", 9)), ("Hexit",), None),
)


def stop_of(host, pieces):
    """Feeds the pieces, and ends the stream. Why the host stops, or None."""

    def fed():
        for piece in pieces:
            host.feed(piece)
        host.finish()
        return None

    try:
        return fed()
    except Exception as why:  # each of the library's has a code; another one fails the test
        return why.code.name


def test_a_stream_stops_where_it_is_wrong_however_it_is_cut():
    for sent, answered, why in STREAMS:
        data = b"".join(one if isinstance(one, bytes) else frame(*one) for one in sent)
        for pieces in ([data], [bytes([byte]) for byte in data]):
            host = Host()
            host.add_file("file", "hello")
            expect_equal((sent, stop_of(host, pieces)), (sent, why))
            expect_equal((sent, tuple(name for name, *_ in messages(host.take_out()))), (sent, answered))
