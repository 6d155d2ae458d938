"""Texts of runes at a host, and their bytes: words, patterns, lines, changes, limits."""
from frames import frame, messages
from sulgrevad import Host, Terminal

from .trying import answers, code_of, command_host, expect_equal, expect_sent, five_gaps, host_with, refusals, runs, take

MOST = 1_000_000  # runes of a text
LINES = "one\ntwo\nthree"


def test_words():
    for text, place, start, end in (("foo_1 bar", 2, 0, 5), ("foo_1 bar", 5, 0, 5), ("foo_1 bar", 6, 6, 9), ("a  b", 2, 2, 2)):
        told = answers(host_with(text), "Tdclick", 1, place)
        expect_equal((text, place, told), (text, place, [("Hsetdot", 1, start, end), ("Hunlockfile", 1)]))


def test_a_look_finds_what_comes_next_and_then_the_first():
    for start, end, found in ((0, 2, (3, 5)), (3, 5, (0, 2))):
        told = answers(host_with("abcab"), "Tlook", 1, start, end)
        wanted = [("Hsetpat", "ab"), ("Hsetdot", 1, *found), ("Hmoveto", 1, found[0]), ("Hcheck", 1), ("Hunlockfile", 1)]
        expect_equal(told, wanted)


def test_a_step_finds_nothing_behind_the_last():
    for start, left in ((2, "abcX"), (5, "abcab")):
        host = command_host("abcab")
        runs(host, f"#{start},$x/ab/c/X/")
        expect_equal((start, host.text(1)), (start, left))


def test_the_ranges_of_lines():
    for number, start, end in ((2, 4, 8), (3, 8, 13)):
        expect_equal(runs(command_host(LINES), str(number)), [("Hsetdot", 1, start, end), ("Hunlock",)])
    host = command_host(LINES)
    runs(host, "4")
    expect_equal((host.text(0), host.dot(1)), ("4\n? address\n", (0, 0)))


def test_where_the_lines_before_a_place_begin():
    for before, start in ((0, 8), (1, 4), (2, 0), (9, 0)):
        told = answers(host_with(LINES), "Torigin", 1, 10, before)
        expect_equal((before, told), (before, [("Horigin", 1, start), ("Hunlockfile", 1)]))


def test_several_edits_leave_the_saved_copy():
    host = command_host("a,b,,c")
    answers(host, "Twrite", 1)
    told = runs(host, ",y/,/c/X/")
    expect_equal((host.text(1), host.saved(1), host.is_dirty(1)), ("X,X,X,X", "a,b,,c", True))
    cuts = [("Hcut", 1, 5, 1), ("Hgrowdata", 1, 5, "X"), ("Hgrowdata", 1, 4, "X"), ("Hcut", 1, 2, 1)]
    cuts += [("Hgrowdata", 1, 2, "X"), ("Hcut", 1, 0, 1), ("Hgrowdata", 1, 0, "X")]
    expect_equal(told, [*cuts, ("Hdirty", 1), ("Hsetpat", ","), ("Hsetdot", 1, 0, 7), ("Hcheck", 1), ("Hunlock",)])


def test_a_text_has_a_million_runes_and_no_more():
    host = host_with("a" * (MOST - 1))
    expect_equal(code_of(host.feed, frame("Ttype", 1, 0, "ab")), "HOST_TOO_LONG")
    expect_equal(host.len(1), MOST - 1)
    host = command_host("a" * (MOST - 1))
    answers(host, "Ttype", 1, 0, "a")
    expect_equal(host.len(1), MOST)
    told = runs(host, "0a/X/")
    expect_equal((host.len(1), host.text(0)), (MOST, "0a/X/\n? long\n"))
    expect_equal(told[-1], ("Hunlock",))


def test_nothing_is_printed_where_the_command_file_would_be_too_long():
    host = command_host("a" * (MOST - 5) + "\n")
    answers(host, "Tsnarf", 1, 0, MOST - 4)
    answers(host, "Tpaste", 0, 0)
    expect_equal(runs(host, "f"), [("Hunlock",)])  # its line and what it would print, `file` and a newline, have seven runes
    expect_equal(host.len(0), MOST - 2)
    answers(host, "Tcut", 0, 0, 5)
    told = runs(host, "f")
    expect_equal((told[-1], host.len(0), host.text(0, MOST - 7)), (("Hunlock",), MOST, "f\nfile\n"))


def test_the_snarf_buffer_goes_out_in_whole_runes():
    text = "a" * 4_095 + "é"
    host = host_with(text)
    expect_equal(answers(host, "Tsnarf", 1, 0, 4_096), [("Hsnarflen", 4_096)])
    expect_equal(answers(host, "Tstartsnarf"), [("Hsetsnarf", "a" * 4_095)])
    answers(host, "Tversion", 2)
    expect_equal(answers(host, "Tstartsnarf"), [("Hsetsnarf", text)])
    terminal = Terminal()
    terminal.set_snarf(text)
    expect_equal(refusals(terminal), ["TEXT_TOO_LONG"])
    terminal.set_snarf(text[1:])
    expect_sent(terminal, ("Tsetsnarf", text[1:]))


def test_bytes_of_loaded_runes():
    terminal = five_gaps()
    take(terminal, "Hgrowdata", 1, 0, "a" * 511 + "é")
    expect_equal((terminal.bytes(1, 0, 512), terminal.place(1, 0, 512)), ((513, 0), 511))


def test_kanji():
    """The third example of RFC 3629, section 7."""
    data = bytes.fromhex("e6 97 a5 e6 9c ac e8 aa 9e")
    host = Host()
    host.feed(bytes.fromhex("14 0009") + data)
    expect_equal(messages(host.take_out()), [("Hsnarflen", 3)])
    host.feed(frame("Tstartsnarf"))
    expect_equal(host.take_out(), bytes.fromhex("55 0011 0000000000000002") + data)
    host = Host()
    host.add_file("kanji", data)
    expect_equal((host.text(1), host.len(1)), ("\u65e5\u672c\u8a9e", 3))


def test_changes_one_after_another():
    """At the end, at the start, inside, and where the one before was."""
    changes = (("Ttype", 1, 7, "!"), ("Tcut", 1, 0, 4), ("Ttype", 1, 0, "1 "), ("Tcut", 1, 2, 4), ("Ttype", 1, 3, "k"), ("Tcut", 1, 0, 0))
    at_once, in_turn = host_with("one two"), host_with("one two")
    at_once.feed(b"".join(frame(*change) for change in changes))
    for change in changes:
        in_turn.feed(frame(*change))
    for host in at_once, in_turn:
        expect_equal((host.text(1), host.taken, host.dot(1)), ("1 ok!", 7, (0, 0)))


def test_of_changes_at_once_the_first_that_is_too_long_stops_the_host():
    host = host_with("a" * MOST)
    changes = frame("Tcut", 1, 0, 1) + frame("Ttype", 1, 0, "c") + frame("Ttype", 1, 0, "b") + frame("Tcut", 1, 0, 1)
    expect_equal(code_of(host.feed, changes), "HOST_TOO_LONG")
    expect_equal((host.len(1), host.taken, host.text(1, 0, 2)), (MOST, 3, "ca"))
