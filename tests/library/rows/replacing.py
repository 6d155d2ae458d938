"""`edit`: what it composes, what it leaves of the text and of the dot, and when it is refused or waits."""
from .trying import expect_equal, expect_sent, five_gaps, refusals, take, with_gaps

MOST = 1_000_000  # runes of a file


def test_an_edit_of_1300_runes_is_a_cut_and_three_types():
    terminal = five_gaps()
    terminal.edit(1, 1, 3, "a" * 512 + "b" * 512 + "c" * 276)
    types = (("Ttype", 1, 1, "a" * 512), ("Ttype", 1, 513, "b" * 512), ("Ttype", 1, 1025, "c" * 276))
    expect_sent(terminal, ("Tcut", 1, 1, 3), *types)
    expect_equal((terminal.len(1), terminal.sent, terminal.locked(1)), (1303, 4, False))
    expect_equal([terminal.read(1, place, 1)[0] for place in (0, 1, 512, 513, 1300, 1301)], [None, "a", "a", "b", "c", None])


def test_a_text_of_512_runes_is_one_message_and_one_more_rune_makes_two():
    terminal = five_gaps()
    terminal.edit(1, 5, 5, "a" * 512)
    expect_sent(terminal, ("Ttype", 1, 5, "a" * 512))
    terminal.edit(1, 0, 0, "a" * 512 + "b")
    expect_sent(terminal, ("Ttype", 1, 0, "a" * 512), ("Ttype", 1, 512, "b"))
    expect_equal(terminal.len(1), 1030)


def test_an_edit_with_no_text_cuts_its_range():
    terminal = five_gaps()
    expect_equal(terminal.is_changed(1), False)
    terminal.edit(1, 1, 3, "")
    expect_sent(terminal, ("Tcut", 1, 1, 3))
    expect_equal((terminal.len(1), terminal.is_changed(1)), (3, True))


def test_an_edit_of_an_empty_range_types_its_text():
    terminal = five_gaps()
    terminal.edit(1, 2, 2, "xy")
    expect_sent(terminal, ("Ttype", 1, 2, "xy"))
    expect_equal((terminal.is_changed(1), terminal.read(1, 0, 9)), (True, [None, None, "x", "y", None, None, None]))


def test_an_edit_of_nothing_does_nothing():
    terminal = five_gaps()
    terminal.edit(1, 2, 2, "")
    expect_equal((terminal.len(1), terminal.sent, terminal.is_changed(1)), (5, 0, False))
    terminal.type(1, "X")
    terminal.edit(1, 3, 3, "")
    expect_sent(terminal)
    expect_equal(terminal.unsent, 1)
    terminal.flush()
    expect_sent(terminal, ("Ttype", 1, 0, "X"))


def test_the_dot_moves_as_other_places_do():
    terminal = five_gaps()
    rows = ((0, 1), (2, 4, "xyz"), (0, 1)), ((3, 4), (2, 5, "xyz"), (2, 2)), ((5, 6), (1, 3, "xyzzy"), (8, 9))
    for dot, edit, moved in rows:
        terminal.select(1, *dot)
        terminal.edit(1, *edit)
        expect_sent(terminal, ("Tcut", 1, edit[0], edit[1]), ("Ttype", 1, edit[0], edit[2]))
        expect_equal((edit, terminal.dot(1)), (edit, moved))


def test_a_dot_round_the_range_stays_round_it_and_the_view_moves():
    terminal = five_gaps()
    terminal.select(1, 1, 4)
    terminal.view(1, 4, 0)
    expect_sent(terminal)
    terminal.edit(1, 2, 3, "xyz")
    expect_sent(terminal, ("Tcut", 1, 2, 3), ("Ttype", 1, 2, "xyz"))
    expect_equal((terminal.dot(1), terminal.view_of(1)), ((1, 6), (6, 6)))


def test_unsent_runes_go_before_an_edit():
    terminal = five_gaps()
    terminal.type(1, "X")
    expect_sent(terminal)
    terminal.edit(1, 3, 4, "yz")
    expect_sent(terminal, ("Ttype", 1, 0, "X"), ("Tcut", 1, 3, 4), ("Ttype", 1, 3, "yz"))
    terminal.flush()
    expect_sent(terminal)
    expect_equal(terminal.read(1, 0, 9), ["X", None, None, "y", "z", None, None])


def test_an_edit_never_joins_unsent_runes():
    terminal = five_gaps()
    terminal.type(1, "X")
    expect_sent(terminal)
    terminal.edit(1, 1, 1, "Y")
    expect_sent(terminal, ("Ttype", 1, 0, "X"), ("Ttype", 1, 1, "Y"))
    expect_equal((terminal.dot(1), terminal.unsent), ((1, 1), 0))


def test_edits_are_refused_in_their_order():
    terminal = five_gaps()
    take(terminal, "Hnewname", 2)
    terminal.edit(0, 9, 8, "a")
    take(terminal, "Hnewname", 0)
    terminal.edit(0, 9, 8, "a")
    terminal.edit(2, 9, 8, "a")
    expect_equal(refusals(terminal), ["NO_FILE", "COMMAND_FILE", "NOT_OPEN"])
    terminal.edit(1, 3, 2, "a")
    terminal.edit(1, 5, 6, "a")
    expect_equal(refusals(terminal), ["BAD_POSITION", "BAD_POSITION"])
    take(terminal, "Hexit")
    terminal.edit(0, 9, 8, "a")
    expect_equal((refusals(terminal), terminal.sent), (["EXITED"], 0))


def test_an_edit_that_makes_a_file_too_long_is_refused():
    terminal = with_gaps(MOST)
    terminal.edit(1, 3, 2, "ab")
    terminal.edit(1, 0, 1, "ab")
    expect_equal(refusals(terminal), ["BAD_POSITION", "TOO_LONG"])
    expect_equal((terminal.len(1), terminal.sent), (MOST, 0))
    terminal.edit(1, 0, 2, "ab")
    expect_sent(terminal, ("Tcut", 1, 0, 2), ("Ttype", 1, 0, "ab"))
    expect_equal(terminal.len(1), MOST)


def test_the_range_of_an_edit_is_looked_at_behind_a_lock():
    terminal = five_gaps()
    terminal.look(1)
    terminal.edit(1, 9, 8, "a")
    expect_equal((refusals(terminal), terminal.held), ([], 1))
    take(terminal, "Hunlockfile", 1)
    expect_equal((refusals(terminal), terminal.held), (["BAD_POSITION"], 0))
